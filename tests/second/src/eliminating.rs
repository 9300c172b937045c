//! "Answers and their order": the whole elimination with its number, verdict, place, length and both buffers; and the
//! counts of #102.

use crate::finishing::finished;
use crate::limits::{RESULT_BYTES, SHEET_BYTES, SHEET_LEVELS};
use crate::reading::{formula_of, Refusal};
use crate::step::{step, Step};

#[derive(Clone, Copy, Debug, PartialEq, Eq)]
pub struct Reply {
    pub number: u32,
    pub verdict: u32,
    pub place: usize,
    pub length: usize,
}

/// How many steps were finished, and the most boundary terms in any step that got past answer 10.
/// A refused step and the finishing pass are no finished steps; answers 1 to 9 come before the first.
#[derive(Clone, Copy, Debug, Default, PartialEq, Eq)]
pub struct Counts {
    pub steps: usize,
    pub terms: usize,
}

/// The elimination call. Only the first 65,536 bytes of the two buffers are ever written.
pub fn eliminate(sheet: &[u8], result: &mut [u8], work: &mut [u8]) -> Reply {
    counted(sheet, result, work).0
}

/// The same with its counts.
pub fn counted(sheet: &[u8], result: &mut [u8], work: &mut [u8]) -> (Reply, Counts) {
    let mut counts = Counts::default();
    if result.len() < RESULT_BYTES || work.len() < RESULT_BYTES {
        return (refused(Refusal { number: 1, place: 0 }), counts);
    }
    let reply = match delivered(SHEET_BYTES, SHEET_LEVELS, sheet, &mut counts) {
        Ok(bytes) => {
            result[..RESULT_BYTES].fill(0);
            result[..bytes.len()].copy_from_slice(&bytes);
            work[..RESULT_BYTES].fill(0);
            Reply { number: 0, verdict: verdict(&bytes), place: 0, length: bytes.len() }
        }
        Err(refusal) => {
            if refusal.number >= 10 {
                result[..RESULT_BYTES].fill(0);
                work[..RESULT_BYTES].fill(0);
            }
            refused(refusal)
        }
    };
    (reply, counts)
}

/// The bytes of the result, or the refusal with number 2 to 12.
pub fn condition(sheet: &[u8]) -> Result<Vec<u8>, Refusal> {
    condition_within(SHEET_BYTES, SHEET_LEVELS, sheet)
}

/// The same under other limits of the sheet, as an older desk has them.
pub fn condition_within(bytes: usize, levels: usize, sheet: &[u8]) -> Result<Vec<u8>, Refusal> {
    delivered(bytes, levels, sheet, &mut Counts::default())
}

/// Step after step, counted on the way, then the finishing pass.
fn delivered(bytes: usize, levels: usize, sheet: &[u8], counts: &mut Counts) -> Result<Vec<u8>, Refusal> {
    let mut formula = formula_of(sheet, bytes, levels)?;
    loop {
        match step(&mut formula) {
            Step::Nothing => break,
            Step::Finished { terms } => {
                counts.steps += 1;
                counts.terms = counts.terms.max(terms);
            }
            Step::Refused { refusal, terms } => {
                counts.terms = counts.terms.max(terms);
                return Err(refusal);
            }
        }
    }
    let result = finished(&formula);
    if result.length() > RESULT_BYTES {
        return Err(Refusal { number: 12, place: sheet.len() });
    }
    Ok(result.bytes())
}

fn refused(refusal: Refusal) -> Reply {
    Reply { number: refusal.number, verdict: 3, place: refusal.place, length: 0 }
}

/// 1 for the true record, 0 for the false record, 2 for any other result.
fn verdict(result: &[u8]) -> u32 {
    match result {
        [6, 0, 5, 0, 0, 0] => 1,
        [6, 0, 6, 0, 0, 0] => 0,
        _ => 2,
    }
}
