//! "A sheet on disk" and answers 2 to 9: reading decides on the kind and checks the length against it.
//! At one record the order is 3 (fewer than four bytes), 4, 5, 3 (fields cut), 6, 7, 8.

use crate::limits::in_range;
use crate::sheet::{Comparison, Formula, List, Quantifier, Sum, VARIABLES};

/// Number and place of a refusal.
#[derive(Clone, Copy, Debug, PartialEq, Eq)]
pub struct Refusal {
    pub number: u32,
    pub place: usize,
}

/// The reading call: number (0 or 2 to 9) and place.
pub fn read(sheet: &[u8], max_bytes: usize, levels: usize) -> (u32, usize) {
    match formula_of(sheet, max_bytes, levels) {
        Ok(_) => (0, 0),
        Err(refusal) => (refusal.number, refusal.place),
    }
}

/// A sheet is one formula in prefix order and nothing after it.
pub fn formula_of(sheet: &[u8], max_bytes: usize, levels: usize) -> Result<Formula, Refusal> {
    if sheet.len() > max_bytes {
        return Err(Refusal { number: 2, place: 0 });
    }
    let (formula, end) = formula_at(sheet, 0, 1, levels)?;
    if end < sheet.len() {
        return Err(Refusal { number: 9, place: end });
    }
    Ok(formula)
}

/// One record that is sound by itself: its kind, length, two-byte field (0 without one) and four-byte numbers.
struct Record {
    kind: usize,
    length: usize,
    field: usize,
    numbers: Vec<i128>,
}

/// Judges the record that starts at `place` on the given level.
fn record_at(sheet: &[u8], place: usize, level: usize, levels: usize) -> Result<Record, u32> {
    let rest = &sheet[place..];
    if rest.len() < 4 {
        return Err(3);
    }
    let length = two(rest, 0);
    let kind = two(rest, 2);
    let right_length = match kind {
        1..=3 => 40,
        4 => 4,
        5..=8 => 6,
        9 => 14,
        _ => return Err(4),
    };
    if length != right_length {
        return Err(5);
    }
    if rest.len() < length {
        return Err(3);
    }
    let field = if matches!(kind, 5..=9) { two(rest, 4) } else { 0 };
    if matches!(kind, 7..=9) && field > 7 {
        return Err(6);
    }
    let numbers: Vec<i128> = match kind {
        1..=3 => (0..9).map(|i| four(rest, 4 + 4 * i)).collect(),
        9 => vec![four(rest, 6), four(rest, 10)],
        _ => Vec::new(),
    };
    if !numbers.iter().all(|&number| in_range(number)) {
        return Err(7);
    }
    if level > levels {
        return Err(8);
    }
    Ok(Record { kind, length, field, numbers })
}

/// Reads the formula whose record starts at `place` on the given level; gives it and the offset after it.
fn formula_at(sheet: &[u8], place: usize, level: usize, levels: usize) -> Result<(Formula, usize), Refusal> {
    let record = record_at(sheet, place, level, levels).map_err(|number| Refusal { number, place })?;
    let Record { kind, length, field, numbers } = record;
    let count = match kind {
        4 | 7 | 8 => 1,
        5 | 6 => field,
        _ => 0,
    };
    let mut members = Vec::new();
    let mut end = place + length;
    for _ in 0..count {
        let (member, after) = formula_at(sheet, end, level + 1, levels)?;
        members.push(member);
        end = after;
    }
    let formula = match kind {
        1 => Formula::Atom(Comparison::Less, sum_of(&numbers)),
        2 => Formula::Atom(Comparison::AtMost, sum_of(&numbers)),
        3 => Formula::Atom(Comparison::Equal, sum_of(&numbers)),
        4 => Formula::Not(Box::new(members.remove(0))),
        5 => Formula::List(List::AllOf, members),
        6 => Formula::List(List::AnyOf, members),
        7 => Formula::Quantified(Quantifier::Some, field, Box::new(members.remove(0))),
        8 => Formula::Quantified(Quantifier::Every, field, Box::new(members.remove(0))),
        _ => Formula::Window { variable: field, lo: numbers[0], hi: numbers[1] },
    };
    Ok((formula, end))
}

fn sum_of(numbers: &[i128]) -> Sum {
    let mut coefficients = [0; VARIABLES];
    coefficients.copy_from_slice(&numbers[..VARIABLES]);
    Sum { coefficients, constant: numbers[VARIABLES] }
}

fn two(bytes: &[u8], at: usize) -> usize {
    usize::from(u16::from_le_bytes([bytes[at], bytes[at + 1]]))
}

fn four(bytes: &[u8], at: usize) -> i128 {
    i128::from(i32::from_le_bytes([bytes[at], bytes[at + 1], bytes[at + 2], bytes[at + 3]]))
}
