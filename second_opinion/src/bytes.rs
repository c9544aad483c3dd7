//! All reports as bytes, for comparing two implementations.

use crate::{Bank, Condition, Report};

/// Bytes of one alarm's report.
pub const REPORT_LEN: usize = 224;

impl Bank {
    /// Writes each alarm's report in number order, as many as fit whole, and gives the length written.
    pub fn report_bytes(&self, out: &mut [u8]) -> usize {
        let slots = out.as_chunks_mut::<REPORT_LEN>().0;
        let mut written = 0;
        for (n, slot) in (1..=self.alarms() as u64).zip(slots) {
            *slot = self.report(n).unwrap_or_default().to_bytes();
            written += REPORT_LEN;
        }
        written
    }
}

impl Report {
    /// Little-endian: four truth values, the rate's bit pattern, the count reset stamp, two elapsed runs,
    /// then 32 bytes for each of six conditions.
    pub fn to_bytes(&self) -> [u8; REPORT_LEN] {
        let mut bytes = [0; REPORT_LEN];
        let (head, conditions) = bytes.split_at_mut(32);
        head[0] = self.enabled.into();
        head[1] = self.suppressed.into();
        head[2] = self.in_faulted.into();
        head[3] = self.severity_inv.into();
        head[4..8].copy_from_slice(&self.rate.to_bits().to_le_bytes());
        head[8..16].copy_from_slice(&self.reset_time.to_le_bytes());
        head[16..24].copy_from_slice(&self.elapsed[0].to_le_bytes());
        head[24..32].copy_from_slice(&self.elapsed[1].to_le_bytes());
        for (slot, condition) in conditions.chunks_exact_mut(32).zip(&self.conditions) {
            let Condition { in_alarm, acknowledged, count, alarm_time, ack_time, return_time } = *condition;
            slot[0] = in_alarm.into();
            slot[1] = acknowledged.into();
            slot[4..8].copy_from_slice(&count.to_le_bytes());
            slot[8..16].copy_from_slice(&alarm_time.to_le_bytes());
            slot[16..24].copy_from_slice(&ack_time.to_le_bytes());
            slot[24..32].copy_from_slice(&return_time.to_le_bytes());
        }
        bytes
    }
}
