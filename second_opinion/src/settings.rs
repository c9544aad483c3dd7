//! The settings image: two sections, digital and analog, each behind its count.

use crate::Refusal;

/// Alarms in a section, at most.
pub const MOST: usize = 12;
/// Bit pattern of the largest magnitude a REAL may have, 999,999,986,991,104. Patterns without their
/// sign are ordered as the magnitudes are, infinities and NaNs above all numbers.
pub const LARGEST_REAL: u32 = 0x5863_5FA9;
const LONGEST_PERIOD: u32 = 3_600_000;
const LONGEST_DURATION: u32 = i32::MAX as u32;

const DIGITAL_LEN: usize = 9;
const DIGITAL_FLAGS: u8 = 0b0_0111;
const ANALOG_LEN: usize = 61;
const ANALOG_FLAGS: u8 = 0b1_1111;

/// True for a REAL that document 01 allows, given by its bit pattern.
pub fn is_real(bits: u32) -> bool {
    bits & 0x7FFF_FFFF <= LARGEST_REAL
}

#[derive(Clone, Copy, Debug, PartialEq)]
pub struct DigitalSettings {
    pub condition: bool,
    pub ack_required: bool,
    pub latched: bool,
    pub severity: i32,
    /// In ms, at most `LONGEST_DURATION`.
    pub min_duration: u32,
}

/// Limits, deadband and rate numbers of an analog alarm.
#[derive(Clone, Copy, Debug, PartialEq)]
pub struct Limits {
    pub hh: f32,
    pub h: f32,
    pub l: f32,
    pub ll: f32,
    pub deadband: f32,
    pub roc_pos: f32,
    pub roc_neg: f32,
}

#[derive(Clone, Copy, Debug, PartialEq)]
pub struct AnalogSettings {
    pub hh_enabled: bool,
    pub h_enabled: bool,
    pub l_enabled: bool,
    pub ll_enabled: bool,
    pub ack_required: bool,
    /// HH, H, L, LL, ROCPos, ROCNeg.
    pub severity: [i32; 6],
    pub limits: Limits,
    /// In ms, at most `LONGEST_PERIOD`.
    pub roc_period: u32,
    /// In ms, at most `LONGEST_DURATION`.
    pub min_duration: u32,
}

/// The severity that a stored one acts as.
pub fn acting_severity(stored: i32) -> u16 {
    stored.clamp(1, 1000) as u16
}

/// True where a stored severity is not the one it acts as.
pub fn severity_is_invalid(stored: i32) -> bool {
    !(1..=1000).contains(&stored)
}

/// An alarm of a receiver without settings of its own (document 02, slip 1).
const FACTORY: DigitalSettings =
    DigitalSettings { condition: true, ack_required: true, latched: false, severity: 500, min_duration: 0 };

/// The settings of all alarms, or the first fault in reading order. No bytes mean twelve alarms by `FACTORY`.
pub fn read(image: &[u8]) -> Result<(Vec<DigitalSettings>, Vec<AnalogSettings>), Refusal> {
    if image.is_empty() {
        return Ok((vec![FACTORY; MOST], Vec::new()));
    }
    let mut reader = Reader { image, at: 0 };
    let digital = reader.section(DigitalSettings::decode)?;
    let analog = reader.section(AnalogSettings::decode)?;
    if reader.at < image.len() {
        return Err(Refusal::new(6, reader.at));
    }
    Ok((digital, analog))
}

/// The image of these settings, to the front of `out`.
pub fn write<'a>(
    digital: impl ExactSizeIterator<Item = &'a DigitalSettings>,
    analog: impl ExactSizeIterator<Item = &'a AnalogSettings>,
    out: &mut [u8],
) -> Result<usize, Refusal> {
    let length = 2 + DIGITAL_LEN * digital.len() + ANALOG_LEN * analog.len();
    let Some(image) = out.get_mut(..length) else {
        return Err(Refusal::new(13, 0));
    };
    let mut writer = Writer { rest: image };
    writer.put([digital.len() as u8]);
    digital.for_each(|settings| settings.encode(&mut writer));
    writer.put([analog.len() as u8]);
    analog.for_each(|settings| settings.encode(&mut writer));
    Ok(length)
}

impl DigitalSettings {
    /// The settings of one record, or the number of what is wrong with it.
    fn decode(record: &[u8; DIGITAL_LEN]) -> Result<DigitalSettings, u32> {
        let flags = record[0];
        if flags & !DIGITAL_FLAGS != 0 {
            return Err(3);
        }
        let settings = DigitalSettings {
            condition: flags & 1 != 0,
            ack_required: flags & 2 != 0,
            latched: flags & 4 != 0,
            severity: word(record, 1) as i32,
            min_duration: word(record, 5),
        };
        if settings.min_duration > LONGEST_DURATION {
            return Err(4);
        }
        Ok(settings)
    }

    fn encode(&self, writer: &mut Writer) {
        writer.put([self.condition as u8 | (self.ack_required as u8) << 1 | (self.latched as u8) << 2]);
        writer.put(self.severity.to_le_bytes());
        writer.put(self.min_duration.to_le_bytes());
    }
}

impl AnalogSettings {
    /// The settings of one record, or the number of what is wrong with it.
    fn decode(record: &[u8; ANALOG_LEN]) -> Result<AnalogSettings, u32> {
        let flags = record[0];
        if flags & !ANALOG_FLAGS != 0 {
            return Err(3);
        }
        let reals: [u32; 7] = std::array::from_fn(|n| word(record, 25 + 4 * n));
        if !reals.iter().all(|&bits| is_real(bits)) {
            return Err(4);
        }
        let [hh, h, l, ll, deadband, roc_pos, roc_neg] = reals.map(f32::from_bits);
        let settings = AnalogSettings {
            hh_enabled: flags & 1 != 0,
            h_enabled: flags & 2 != 0,
            l_enabled: flags & 4 != 0,
            ll_enabled: flags & 8 != 0,
            ack_required: flags & 16 != 0,
            severity: std::array::from_fn(|n| word(record, 1 + 4 * n) as i32),
            limits: Limits { hh, h, l, ll, deadband, roc_pos, roc_neg },
            roc_period: word(record, 53),
            min_duration: word(record, 57),
        };
        if [deadband, roc_pos, roc_neg].iter().any(|&real| real < 0.0)
            || settings.roc_period > LONGEST_PERIOD
            || settings.min_duration > LONGEST_DURATION
        {
            return Err(4);
        }
        if !settings.limits_agree() {
            return Err(5);
        }
        Ok(settings)
    }

    fn encode(&self, writer: &mut Writer) {
        writer.put([self.hh_enabled as u8
            | (self.h_enabled as u8) << 1
            | (self.l_enabled as u8) << 2
            | (self.ll_enabled as u8) << 3
            | (self.ack_required as u8) << 4]);
        for severity in self.severity {
            writer.put(severity.to_le_bytes());
        }
        let Limits { hh, h, l, ll, deadband, roc_pos, roc_neg } = self.limits;
        for real in [hh, h, l, ll, deadband, roc_pos, roc_neg] {
            writer.put(real.to_le_bytes());
        }
        writer.put(self.roc_period.to_le_bytes());
        writer.put(self.min_duration.to_le_bytes());
    }

    /// The higher enabled low limit: L where the limits rise, LL where it alone is enabled.
    fn low(&self) -> Option<f32> {
        let Limits { l, ll, .. } = self.limits;
        if self.l_enabled { Some(l) } else { self.ll_enabled.then_some(ll) }
    }

    /// The lower enabled high limit: H where the limits rise, HH where it alone is enabled.
    fn high(&self) -> Option<f32> {
        let Limits { h, hh, .. } = self.limits;
        if self.h_enabled { Some(h) } else { self.hh_enabled.then_some(hh) }
    }

    /// The enabled limits rise strictly, and the deadbands of the two sides leave room.
    fn limits_agree(&self) -> bool {
        let Limits { hh, h, l, ll, deadband, .. } = self.limits;
        let low_rises = !(self.ll_enabled && self.l_enabled) || ll < l;
        let high_rises = !(self.h_enabled && self.hh_enabled) || h < hh;
        let sides_apart = match (self.low(), self.high()) {
            (Some(low), Some(high)) => low < high && low < high - deadband && low + deadband < high,
            _ => true,
        };
        low_rises && high_rises && sides_apart
    }
}

struct Reader<'a> {
    image: &'a [u8],
    at: usize,
}

impl Reader<'_> {
    /// A count and that many records of `N` bytes.
    fn section<const N: usize, T>(
        &mut self,
        decode: impl Fn(&[u8; N]) -> Result<T, u32>,
    ) -> Result<Vec<T>, Refusal> {
        let &[count] = self.front()?;
        let count = usize::from(count);
        if count > MOST {
            return Err(Refusal::new(2, self.at));
        }
        self.at += 1;
        let mut alarms = Vec::with_capacity(count);
        for _ in 0..count {
            let alarm = decode(self.front()?).map_err(|number| Refusal::new(number, self.at))?;
            alarms.push(alarm);
            self.at += N;
        }
        Ok(alarms)
    }

    /// The next `N` bytes, not yet passed over.
    fn front<const N: usize>(&self) -> Result<&[u8; N], Refusal> {
        self.image.get(self.at..).and_then(|rest| rest.first_chunk()).ok_or(Refusal::new(1, self.at))
    }
}

/// Fills a buffer that was cut to the image's length beforehand.
struct Writer<'a> {
    rest: &'a mut [u8],
}

impl Writer<'_> {
    fn put<const N: usize>(&mut self, bytes: [u8; N]) {
        if let Some((front, rest)) = std::mem::take(&mut self.rest).split_first_chunk_mut() {
            *front = bytes;
            self.rest = rest;
        }
    }
}

/// The 32-bit number at an offset within a record.
fn word<const N: usize>(record: &[u8; N], at: usize) -> u32 {
    u32::from_le_bytes(std::array::from_fn(|n| record[at + n]))
}
