//! A second reader of jobs, into which one fault can be put.
//!
//! It goes another way than the model: all in one pass of bytes. The numbers of a line are read while it goes by, and its
//! tests are made at the LF.

mod number;
mod taken;

use crate::model::answer::*;
use crate::model::job::{End, Job};
use crate::model::limits;
use number::Field;
use taken::Taken;

#[derive(Clone, Copy, Debug, PartialEq, Eq)]
pub enum JobFault {
    None,
    // What is read as a number.
    ReadsNoExponent,
    TakesSmallEOnly,
    TakesCapitalEOnly,
    TakesBytesLikeE,
    RefusesPlus,
    RefusesZeroWithPower,
    RefusesPowerNine,
    RefusesSixBytes,
    RefusesLongValue,
    TakesMinusForPlus,
    TakesMinusAsSign,
    TakesPoint,
    TakesSecondDigit,
    TakesMissingDigitForZero,
    TakesLonePlus,
    TakesDoubledPlus,
    TakesDoubledE,
    TakesSecondExponent,
    TakesPlusBefore,
    TakesSpaceBeforeE,
    TakesSpaceBehind,
    TakesCrBehind,
    TakesPowerAlone,
    TakesBytesBesideDigits,
    PassesLeadingZero,
    PassesFourDigits,
    // Its value.
    WrapsIn8Bits,
    WrapsIn16Bits,
    TakesSignIn16Bits,
    TakesSignIn32Bits,
    SaturatesAt255,
    SaturatesAt256,
    AddsOneToPower,
    TakesOneFromPower,
    TakesPowersOfTwo,
    RaisesToPower,
    DropsPower,
    TakesPowerForDigit,
    KeepsPowerForNextField,
    // Where it stands.
    RefusesInFloor,
    RefusesInTracks,
    RefusesInCarts,
    RefusesInCalls,
    RefusesInBays,
    RefusesInDeadlines,
    RefusesInFirstField,
    RefusesInLastField,
    // The other tests, and their order.
    TestsRangeBeforePower,
    FindsDoubledBySpelling,
    TestsNumbersBeforeForm,
    TestsFieldByField,
    RefusesSpareCarts,
    TakesFewerCarts,
    CountsBeforeRange,
    FindsDoubledBeforeCount,
    LimitsTextAsBefore,
    // Nobody can tell these from the right reader: see `HARMLESS`.
    WrapsIn32Bits,
    SaturatesAt65535,
}

/// The faults, without `None` and the harmless ones.
pub const JOB_FAULTS: &[JobFault] = &[
    JobFault::ReadsNoExponent,
    JobFault::TakesSmallEOnly,
    JobFault::TakesCapitalEOnly,
    JobFault::TakesBytesLikeE,
    JobFault::RefusesPlus,
    JobFault::RefusesZeroWithPower,
    JobFault::RefusesPowerNine,
    JobFault::RefusesSixBytes,
    JobFault::RefusesLongValue,
    JobFault::TakesMinusForPlus,
    JobFault::TakesMinusAsSign,
    JobFault::TakesPoint,
    JobFault::TakesSecondDigit,
    JobFault::TakesMissingDigitForZero,
    JobFault::TakesLonePlus,
    JobFault::TakesDoubledPlus,
    JobFault::TakesDoubledE,
    JobFault::TakesSecondExponent,
    JobFault::TakesPlusBefore,
    JobFault::TakesSpaceBeforeE,
    JobFault::TakesSpaceBehind,
    JobFault::TakesCrBehind,
    JobFault::TakesPowerAlone,
    JobFault::TakesBytesBesideDigits,
    JobFault::PassesLeadingZero,
    JobFault::PassesFourDigits,
    JobFault::WrapsIn8Bits,
    JobFault::WrapsIn16Bits,
    JobFault::TakesSignIn16Bits,
    JobFault::TakesSignIn32Bits,
    JobFault::SaturatesAt255,
    JobFault::SaturatesAt256,
    JobFault::AddsOneToPower,
    JobFault::TakesOneFromPower,
    JobFault::TakesPowersOfTwo,
    JobFault::RaisesToPower,
    JobFault::DropsPower,
    JobFault::TakesPowerForDigit,
    JobFault::KeepsPowerForNextField,
    JobFault::RefusesInFloor,
    JobFault::RefusesInTracks,
    JobFault::RefusesInCarts,
    JobFault::RefusesInCalls,
    JobFault::RefusesInBays,
    JobFault::RefusesInDeadlines,
    JobFault::RefusesInFirstField,
    JobFault::RefusesInLastField,
    JobFault::TestsRangeBeforePower,
    JobFault::FindsDoubledBySpelling,
    JobFault::TestsNumbersBeforeForm,
    JobFault::TestsFieldByField,
    JobFault::RefusesSpareCarts,
    JobFault::TakesFewerCarts,
    JobFault::CountsBeforeRange,
    JobFault::FindsDoubledBeforeCount,
    JobFault::LimitsTextAsBefore,
];

/// No value that passes 32 bits comes back below 257 in them, and 65,535 is as far out of range as any larger value: the
/// readers with these give the right answer to every text.
pub const HARMLESS: [JobFault; 2] = [JobFault::WrapsIn32Bits, JobFault::SaturatesAt65535];

/// The longest text without an exponent.
const LONGEST_BEFORE: usize = 8586;

/// The job, or the refusal, as the reader with the fault has it.
pub fn read(text: &[u8], fault: JobFault) -> Result<Job, Refusal> {
    let most = if fault == JobFault::LimitsTextAsBefore { LONGEST_BEFORE } else { limits::TEXT };
    if text.len() > most {
        return Err(refusal(TEXT_TOO_LONG));
    }
    let mut pass = Pass { fault, line: 1, rank: 0, word: Vec::new(), fields: Vec::new(), taken: Taken::default() };
    for &byte in text {
        pass.byte(byte)?;
    }
    pass.end()
}

/// What was read so far, and the line that goes by.
struct Pass {
    fault: JobFault,
    line: usize,
    /// That of the line before: FLOOR has 1, CALL and BAY have 4, and nothing has 0.
    rank: usize,
    word: Vec<u8>,
    fields: Vec<Field>,
    taken: Taken,
}

impl Pass {
    fn byte(&mut self, byte: u8) -> Result<(), Refusal> {
        match (byte, self.fields.last_mut()) {
            (b'\n', _) => return self.line_end().map_err(|number| Refusal { number, line: self.line }),
            (b'\t', last) => {
                let power = last.map_or(0, |field| field.power());
                self.fields.push(Field::behind(power));
            }
            (_, Some(field)) => field.byte(byte, self.fault),
            (_, None) => self.word.push(byte),
        }
        Ok(())
    }

    fn end(self) -> Result<Job, Refusal> {
        if self.line == 1 || !self.word.is_empty() || !self.fields.is_empty() {
            return Err(Refusal { number: BAD_LINE, line: self.line });
        }
        let job = self.taken.job;
        let (carts, calls) = (job.carts.len(), job.calls.len());
        let are_enough = match self.fault {
            JobFault::RefusesSpareCarts => carts == calls,
            JobFault::TakesFewerCarts => true,
            _ => carts >= calls,
        };
        match are_enough {
            true => Ok(job),
            false => Err(refusal(UNEVEN)),
        }
    }

    fn line_end(&mut self) -> Result<(), u8> {
        let word = std::mem::take(&mut self.word);
        let fields = std::mem::take(&mut self.fields);
        if self.fault == JobFault::TestsNumbersBeforeForm && fields.iter().any(|field| field.is_spoilt(self.fault)) {
            return Err(NO_NUMBER);
        }
        let (rank, count) = match word.as_slice() {
            b"FLOOR" => (1, 1),
            b"TRACK" => (2, 2),
            b"CART" => (3, 1),
            b"CALL" | b"BAY" => (4, 2),
            _ => return Err(BAD_LINE),
        };
        let in_order = if rank == 1 { self.rank == 0 } else { self.rank > 0 && self.rank <= rank };
        if !in_order || fields.len() != count {
            return Err(BAD_LINE);
        }
        let end = if word == b"BAY" { End::Bay } else { End::Lift };
        self.tests(rank, end, &fields)?;
        (self.rank, self.line) = (rank, self.line + 1);
        Ok(())
    }

    /// 4 to 7, and the line is taken.
    fn tests(&mut self, rank: usize, end: End, fields: &[Field]) -> Result<(), u8> {
        let (values, in_range) = self.values(rank, end, fields)?;
        let spelled: Vec<&[u8]> = fields.iter().map(Field::spelled).collect();
        let doubled = match self.fault {
            JobFault::FindsDoubledBySpelling => self.taken.is_spelled_twice(rank, &spelled),
            _ => self.taken.is_doubled(rank, &values),
        };
        match (in_range, self.taken.has_room(rank), doubled, self.fault) {
            (_, false, _, JobFault::CountsBeforeRange) => return Err(TOO_MANY),
            (false, ..) => return Err(OUT_OF_RANGE),
            (_, _, true, JobFault::FindsDoubledBeforeCount) => return Err(DOUBLED),
            (_, false, ..) => return Err(TOO_MANY),
            (_, _, true, _) => return Err(DOUBLED),
            _ => (),
        }
        self.taken.add(rank, end, &values, &spelled);
        Ok(())
    }

    /// The values of the fields, and whether all are in range.
    fn values(&self, rank: usize, end: End, fields: &[Field]) -> Result<(Vec<usize>, bool), u8> {
        let (mut values, mut in_range) = (Vec::new(), true);
        for (i, field) in fields.iter().enumerate() {
            if field.has_letter() && refuses_in(self.fault, rank, end, i, fields.len()) {
                return Err(NO_NUMBER);
            }
            let value = field.value(self.fault).ok_or(NO_NUMBER)?;
            let tested = if self.fault == JobFault::TestsRangeBeforePower { field.number() } else { value };
            in_range &= self.taken.is_in_range(rank, i, tested);
            if self.fault == JobFault::TestsFieldByField && !in_range {
                return Err(OUT_OF_RANGE);
            }
            values.push(value.try_into().unwrap_or(usize::MAX));
        }
        Ok((values, in_range))
    }
}

/// Whether the fault has an exponent refused in this field of a line of this kind.
fn refuses_in(fault: JobFault, rank: usize, end: End, field: usize, fields: usize) -> bool {
    match fault {
        JobFault::RefusesInFloor => rank == 1,
        JobFault::RefusesInTracks => rank == 2,
        JobFault::RefusesInCarts => rank == 3,
        JobFault::RefusesInCalls => rank == 4 && end == End::Lift,
        JobFault::RefusesInBays => rank == 4 && end == End::Bay,
        JobFault::RefusesInDeadlines => rank == 4 && field == 1,
        JobFault::RefusesInFirstField => field == 0,
        JobFault::RefusesInLastField => field + 1 == fields,
        _ => false,
    }
}
