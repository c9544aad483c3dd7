//! The bank that is timed: how many alarms of each kind, and their settings image.

const EACH_MOST: usize = 12;

/// HH, H, L, LL of every analog alarm, and how far it must come back.
const LIMITS: [f32; 4] = [900.0, 800.0, 600.0, 500.0];
const DEADBAND: f32 = 20.0;
/// Rates in both directions, per second, and the period between two samples in ms.
const RATE: f32 = 150.0;
const PERIOD: u32 = 1000;

#[derive(Clone, Copy, PartialEq, Eq)]
pub struct Shape {
    pub digital: usize,
    pub analog: usize,
}

impl Shape {
    /// Half digital, half analog; the odd one is analog.
    pub fn of(alarms: usize) -> Shape {
        let digital = alarms / 2;
        let analog = alarms - digital;
        assert!(analog <= EACH_MOST, "at most 12 alarms of each kind");
        Shape { digital, analog }
    }

    pub fn alarms(self) -> usize {
        self.digital + self.analog
    }

    /// Bytes of a scan record.
    pub fn record_len(self) -> usize {
        8 + 5 * self.digital + 8 * self.analog
    }

    /// All conditions enabled and acknowledgement required; every third digital alarm is latched. MinDuration is 0, 1, 2
    /// or 3 scans.
    pub fn image(self) -> Vec<u8> {
        let mut image = vec![self.digital as u8];
        for n in 0..self.digital as u32 {
            image.push(if n % 3 == 0 { 0b111 } else { 0b011 });
            image.extend((100 + 50 * n).to_le_bytes());
            image.extend((100 * (n % 4)).to_le_bytes());
        }
        image.push(self.analog as u8);
        for n in 0..self.analog as u32 {
            image.push(0b1_1111);
            let severities = (0..6).flat_map(|condition| (200 + 10 * n + condition).to_le_bytes());
            image.extend(severities);
            let reals = LIMITS.iter().chain(&[DEADBAND, RATE, RATE]);
            image.extend(reals.flat_map(|real| real.to_le_bytes()));
            image.extend(PERIOD.to_le_bytes());
            image.extend((100 * (n % 4)).to_le_bytes());
        }
        image
    }
}
