//! The calls of crates/meifgur_c/include/meifgur.h, as either side answers them.

mod archive;
mod opinion;

pub use archive::Archive;
pub use opinion::Opinion;

/// Return codes of the archive that are no refusals of document 01.
pub const ANSWER_SHORT: u32 = 40;
pub const REPORT_SHORT: u32 = 41;
pub const NO_BANK: u32 = 42;

/// A bank with the calls on it. Each gives the return code; the rest stands in what is lent.
pub trait Receiver {
    /// Words that no call wrote.
    fn unloaded() -> Self;
    fn load(&mut self, image: &[u8], answer: &mut [u64]) -> u32;
    fn scan(&mut self, record: &[u8], events: &mut [u8], answer: &mut [u64]) -> u32;
    fn report(&mut self, alarm: usize, report: &mut [u8], answer: &mut [u64]) -> u32;
    fn write(&mut self, out: &mut [u8], answer: &mut [u64]) -> u32;
    fn replay(&mut self, records: &[u8], events: &mut [u8], answer: &mut [u64]) -> u32;
    /// Saves the words as bytes, and goes on with a bank restored from them.
    fn restore(&mut self);
    /// What calls did to the words though they may not.
    fn faults(self) -> Vec<String>;
}
