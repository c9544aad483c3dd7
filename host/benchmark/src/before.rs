//! What this page said before the calls on lent words, by commit c7a4cbf: a replay in one call, from the image to the reports,
//! and scans of a bank by value. Their times are of another day, and count as multiples of the plain rival's in the same run.

use crate::drive::Drive;

/// Nanoseconds per scan of a full bank.
pub struct Before {
    pub replay: f64,
    pub by_value: f64,
    pub plain: f64,
}

pub fn before(drive: Drive) -> Before {
    let (replay, by_value, plain) = match drive {
        Drive::Quiet => (373.5, 468.7, 337.8),
        Drive::Busy => (674.1, 791.4, 424.9),
        Drive::Storm => (1035.6, 1170.3, 736.5),
    };
    Before {
        replay,
        by_value,
        plain,
    }
}
