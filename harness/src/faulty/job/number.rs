//! A number of a job, read byte by byte.

use super::JobFault;

/// How far a field has been read.
#[derive(Clone, Copy, PartialEq)]
enum Seen {
    Nothing,
    Digits,
    /// A point, and digits that are dropped.
    Point,
    /// A space behind the digits.
    Gap,
    Letter,
    Sign,
    Power,
    /// A byte behind all.
    Behind,
    Wrong,
}

pub struct Field {
    bytes: Vec<u8>,
    seen: Seen,
    number: u64,
    digits: usize,
    power: u32,
    is_down: bool,
    /// That of the field before.
    power_before: u32,
}

impl Field {
    /// A field behind one with this power.
    pub fn behind(power_before: u32) -> Field {
        let (seen, bytes) = (Seen::Nothing, Vec::new());
        Field { bytes, seen, number: 0, digits: 0, power: 0, is_down: false, power_before }
    }

    pub fn spelled(&self) -> &[u8] {
        &self.bytes
    }

    pub fn number(&self) -> u64 {
        self.number
    }

    pub fn power(&self) -> u32 {
        self.power
    }

    pub fn has_letter(&self) -> bool {
        self.bytes.iter().any(|b| b"eE".contains(b))
    }

    /// No number, for all its letter.
    pub fn is_spoilt(&self, fault: JobFault) -> bool {
        self.has_letter() && self.value(fault).is_none()
    }

    pub fn byte(&mut self, byte: u8, fault: JobFault) {
        self.bytes.push(byte);
        let is_letter = match fault {
            JobFault::ReadsNoExponent => false,
            JobFault::TakesSmallEOnly => byte == b'e',
            JobFault::TakesCapitalEOnly => byte == b'E',
            JobFault::TakesBytesLikeE => byte % 32 == 5,
            _ => byte == b'e' || byte == b'E',
        };
        let is_digit = match (self.seen, fault) {
            (Seen::Letter | Seen::Sign, JobFault::TakesBytesBesideDigits) => (b'/'..=b':').contains(&byte),
            _ => byte.is_ascii_digit(),
        };
        self.seen = match (self.seen, byte) {
            (Seen::Nothing | Seen::Digits, _) if is_digit => self.digit(byte),
            (Seen::Letter | Seen::Sign, _) if is_digit => self.power_digit(byte),
            (Seen::Digits | Seen::Point | Seen::Gap, _) if is_letter => Seen::Letter,
            (Seen::Letter, b'+') if fault != JobFault::RefusesPlus => Seen::Sign,
            (seen, _) => self.by_fault(seen, byte, is_letter, fault),
        }
    }

    fn digit(&mut self, digit: u8) -> Seen {
        self.digits += 1;
        self.number = self.number.saturating_mul(10).saturating_add(u64::from(digit - b'0'));
        Seen::Digits
    }

    fn power_digit(&mut self, digit: u8) -> Seen {
        self.power = self.power.saturating_mul(10).saturating_add(u32::from(digit).saturating_sub(48));
        Seen::Power
    }

    /// How far it is read with a byte that the fault lets pass; wrong with any other.
    fn by_fault(&mut self, seen: Seen, byte: u8, is_letter: bool, fault: JobFault) -> Seen {
        match (fault, seen, byte) {
            (JobFault::TakesMinusForPlus, Seen::Letter, b'-') => Seen::Sign,
            (JobFault::TakesMinusAsSign, Seen::Letter, b'-') => {
                self.is_down = true;
                Seen::Sign
            }
            (JobFault::TakesPoint, Seen::Digits, b'.') => Seen::Point,
            (JobFault::TakesPoint, Seen::Point, b'0'..=b'9') => Seen::Point,
            (JobFault::TakesSecondDigit, Seen::Power, b'0'..=b'9') => self.power_digit(byte),
            (JobFault::TakesDoubledPlus, Seen::Sign, b'+') => Seen::Sign,
            (JobFault::TakesDoubledE, Seen::Letter, _) if is_letter => Seen::Letter,
            (JobFault::TakesSecondExponent, Seen::Power, _) if is_letter => Seen::Letter,
            (JobFault::TakesPlusBefore, Seen::Nothing, b'+') => Seen::Nothing,
            (JobFault::TakesSpaceBeforeE, Seen::Digits, b' ') => Seen::Gap,
            (JobFault::TakesSpaceBehind, Seen::Power, b' ') => Seen::Behind,
            (JobFault::TakesCrBehind, Seen::Power, b'\r') => Seen::Behind,
            (JobFault::TakesPowerAlone, Seen::Nothing, _) if is_letter => {
                self.digit(b'1');
                Seen::Letter
            }
            _ => Seen::Wrong,
        }
    }

    /// Nothing if it is no number.
    pub fn value(&self, fault: JobFault) -> Option<u64> {
        let has_power = self.bytes.iter().any(|&b| b.is_ascii_alphabetic());
        let is_whole = match self.seen {
            Seen::Digits | Seen::Power | Seen::Behind | Seen::Point => true,
            Seen::Letter => fault == JobFault::TakesMissingDigitForZero,
            Seen::Sign => fault == JobFault::TakesLonePlus,
            _ => false,
        };
        let first = self.bytes.iter().find(|b| b.is_ascii_digit());
        let starts_right = self.digits < 2 || first != Some(&b'0') || has_power && fault == JobFault::PassesLeadingZero;
        let most = if has_power && fault == JobFault::PassesFourDigits { 4 } else { 3 };
        let value = self.value_by(has_power, fault);
        let is_refused = match fault {
            JobFault::RefusesZeroWithPower => has_power && self.number == 0,
            JobFault::RefusesPowerNine => self.power == 9,
            JobFault::RefusesSixBytes => self.bytes.len() > 5,
            JobFault::RefusesLongValue => value > 999,
            _ => false,
        };
        (is_whole && starts_right && self.digits <= most && !is_refused).then_some(value)
    }

    fn value_by(&self, has_power: bool, fault: JobFault) -> u64 {
        let (number, power) = (self.number, self.power);
        let times = |ten: u64, power: u32| number.saturating_mul(ten.saturating_pow(power));
        let value = times(10, power);
        match fault {
            JobFault::WrapsIn8Bits => u64::from(value as u8),
            JobFault::WrapsIn16Bits => u64::from(value as u16),
            JobFault::WrapsIn32Bits => u64::from(value as u32),
            JobFault::TakesSignIn16Bits => u64::from((value as i16).max(0).unsigned_abs()),
            JobFault::TakesSignIn32Bits => u64::from((value as i32).max(0).unsigned_abs()),
            JobFault::SaturatesAt255 => value.min(255),
            JobFault::SaturatesAt256 => value.min(256),
            JobFault::SaturatesAt65535 => value.min(65_535),
            JobFault::AddsOneToPower if has_power => times(10, power + 1),
            JobFault::TakesOneFromPower if has_power => times(10, power.saturating_sub(1)),
            JobFault::TakesPowersOfTwo => times(2, power),
            JobFault::RaisesToPower if has_power => number.saturating_pow(power),
            JobFault::DropsPower => number,
            JobFault::TakesPowerForDigit if has_power => 10 * number + u64::from(power),
            JobFault::KeepsPowerForNextField if !has_power => times(10, self.power_before),
            JobFault::TakesMinusAsSign if self.is_down => number / 10_u64.pow(power),
            _ => value,
        }
    }
}
