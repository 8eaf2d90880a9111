//! A second converter of maps, into which one fault can be put.
//!
//! It goes another way than the model: the text in one pass of bytes, and the floor by places in one long row of letters.

mod floor;
mod form;

use crate::ffi::Converter;
use crate::model::answer::*;
use crate::model::limits;

#[derive(Clone, Copy, Debug, PartialEq, Eq)]
pub enum MapFault {
    None,
    // The floor.
    PutsBelowBeforeRight,
    PutsAllBelowBehind,
    PutsHigherNumberFirst,
    JoinsBothWays,
    JoinsDiagonally,
    JoinsRowEnds,
    JoinsAcrossWalls,
    MissesLastRow,
    MissesLastColumn,
    NumbersWalls,
    NumbersByColumn,
    NumbersFromOne,
    TakesGForWall,
    TakesOForCell,
    TakesTForCell,
    // The form.
    TakesSwampForCell,
    TakesWaterForWall,
    TakesSmallLetters,
    PassesCr,
    PassesSpaceBehind,
    PassesTwoSpaces,
    PassesTabForSpace,
    PassesLeadingZero,
    PassesPlus,
    PassesExponent,
    PassesOtherType,
    PassesWidthBeforeHeight,
    PassesSide65,
    PassesSide0,
    RefusesSide64,
    WrapsNumbers,
    MixesUpHeightAndWidth,
    PassesMissingRow,
    PassesMissingLf,
    PassesEmptyLineBehind,
    PassesTextBehind,
    PassesLongRows,
    // The line.
    CountsLinesFromZero,
    CountsRowsFromOne,
    NamesLastLineForMissing,
    NamesLineBehindUnended,
    NamesNoLineBeyond,
    // The order and the counts.
    CountsCellsBeforeForm,
    MeasuresBeforeForm,
    MeasuresBeforeCounting,
    Refuses256,
    Passes257,
    PassesNoCell,
    RefusesExactLength,
    // The digits.
    KeepsLeadingZeros,
    DropsInnerZeros,
    TurnsDigitsRound,
    HasWrongEntry,
    TakesEntryBehind,
    // The bytes.
    WritesWordFirst,
    WritesWhatFits,
    WritesBeforeCounting,
    WritesZeroBehindText,
    WipesBufferBehindText,
    WritesBehindBuffer,
    WritesIntoMap,
    GivesLinesForBytes,
}

/// The faults, without `None`.
pub const MAP_FAULTS: &[MapFault] = &[
    MapFault::PutsBelowBeforeRight,
    MapFault::PutsAllBelowBehind,
    MapFault::PutsHigherNumberFirst,
    MapFault::JoinsBothWays,
    MapFault::JoinsDiagonally,
    MapFault::JoinsRowEnds,
    MapFault::JoinsAcrossWalls,
    MapFault::MissesLastRow,
    MapFault::MissesLastColumn,
    MapFault::NumbersWalls,
    MapFault::NumbersByColumn,
    MapFault::NumbersFromOne,
    MapFault::TakesGForWall,
    MapFault::TakesOForCell,
    MapFault::TakesTForCell,
    MapFault::TakesSwampForCell,
    MapFault::TakesWaterForWall,
    MapFault::TakesSmallLetters,
    MapFault::PassesCr,
    MapFault::PassesSpaceBehind,
    MapFault::PassesTwoSpaces,
    MapFault::PassesTabForSpace,
    MapFault::PassesLeadingZero,
    MapFault::PassesPlus,
    MapFault::PassesExponent,
    MapFault::PassesOtherType,
    MapFault::PassesWidthBeforeHeight,
    MapFault::PassesSide65,
    MapFault::PassesSide0,
    MapFault::RefusesSide64,
    MapFault::WrapsNumbers,
    MapFault::MixesUpHeightAndWidth,
    MapFault::PassesMissingRow,
    MapFault::PassesMissingLf,
    MapFault::PassesEmptyLineBehind,
    MapFault::PassesTextBehind,
    MapFault::PassesLongRows,
    MapFault::CountsLinesFromZero,
    MapFault::CountsRowsFromOne,
    MapFault::NamesLastLineForMissing,
    MapFault::NamesLineBehindUnended,
    MapFault::NamesNoLineBeyond,
    MapFault::CountsCellsBeforeForm,
    MapFault::MeasuresBeforeForm,
    MapFault::MeasuresBeforeCounting,
    MapFault::Refuses256,
    MapFault::Passes257,
    MapFault::PassesNoCell,
    MapFault::RefusesExactLength,
    MapFault::KeepsLeadingZeros,
    MapFault::DropsInnerZeros,
    MapFault::TurnsDigitsRound,
    MapFault::HasWrongEntry,
    MapFault::TakesEntryBehind,
    MapFault::WritesWordFirst,
    MapFault::WritesWhatFits,
    MapFault::WritesBeforeCounting,
    MapFault::WritesZeroBehindText,
    MapFault::WipesBufferBehindText,
    MapFault::WritesBehindBuffer,
    MapFault::WritesIntoMap,
    MapFault::GivesLinesForBytes,
];

/// The second converter with a fault.
pub struct FaultyMap(pub MapFault);

impl Converter for FaultyMap {
    unsafe fn map(&self, map: (*const u8, usize), text: (*mut u8, usize)) -> u64 {
        match self.0 {
            MapFault::WritesBehindBuffer => *text.0.add(text.1) ^= 1,
            MapFault::WritesIntoMap if map.1 > 0 => *map.0.cast_mut() ^= 1,
            _ => (),
        }
        let (map, text) = (std::slice::from_raw_parts(map.0, map.1), std::slice::from_raw_parts_mut(text.0, text.1));
        match self.written(map, text) {
            Ok(value) => pack(FLOOR, value),
            Err(refusal) => pack(refusal.number, refusal.line),
        }
    }
}

/// The shortest text there is.
const SHORTEST: usize = b"FLOOR\t1\n".len();

impl FaultyMap {
    /// The bytes that were written.
    fn written(&self, map: &[u8], text: &mut [u8]) -> Result<usize, Refusal> {
        if self.0 == MapFault::MeasuresBeforeForm && text.len() < SHORTEST {
            return Err(refusal(SHEET_TOO_SHORT));
        }
        if self.0 == MapFault::WritesWordFirst && text.len() >= SHORTEST {
            text[..5].copy_from_slice(b"FLOOR");
        }
        let (cells, floor) = floor::text(&form::read(map, self.0)?, self.0);
        let too_long = match self.0 {
            MapFault::RefusesExactLength => floor.len() >= text.len(),
            _ => floor.len() > text.len(),
        };
        if self.0 == MapFault::MeasuresBeforeCounting && too_long {
            return Err(refusal(SHEET_TOO_SHORT));
        }
        if self.0 == MapFault::WritesBeforeCounting && !too_long {
            text[..floor.len()].copy_from_slice(&floor);
        }
        if !self.has_floor(cells) {
            return Err(refusal(NO_FLOOR));
        }
        if too_long {
            if self.0 == MapFault::WritesWhatFits {
                text.copy_from_slice(&floor[..text.len()]);
            }
            return Err(refusal(SHEET_TOO_SHORT));
        }
        let (written, behind) = text.split_at_mut(floor.len());
        written.copy_from_slice(&floor);
        match self.0 {
            MapFault::WritesZeroBehindText if !behind.is_empty() => behind[0] = 0,
            MapFault::WipesBufferBehindText => behind.fill(0),
            _ => (),
        }
        match self.0 {
            MapFault::GivesLinesForBytes => Ok(floor.iter().filter(|&&b| b == b'\n').count()),
            _ => Ok(floor.len()),
        }
    }

    fn has_floor(&self, cells: usize) -> bool {
        let most = match self.0 {
            MapFault::Refuses256 => limits::CELLS - 1,
            MapFault::Passes257 => limits::CELLS + 1,
            _ => limits::CELLS,
        };
        cells <= most && (cells > 0 || self.0 == MapFault::PassesNoCell)
    }
}
