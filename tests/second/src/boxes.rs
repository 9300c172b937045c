//! #102, "The Monday list": sheets boxed one after another, a line for each box, and the totals in a last line.
//! A box is its length (two bytes, its four header bytes among them), kind 16 (two bytes), then the sheet.

use crate::eliminating::{counted, Counts, Reply};
use crate::limits::RESULT_BYTES;

const HEADER: usize = 4;
const KIND: u16 = 16;

/// The number that ends a list at a bad box.
const BAD_BOX: u32 = 15;

/// All lines of the list, each ended by a line feed.
pub fn monday(input: &[u8]) -> String {
    let mut list = String::new();
    let mut totals = Totals::default();
    let (mut result, mut work) = (vec![0; RESULT_BYTES], vec![0; RESULT_BYTES]);
    let (mut number, mut at) = (0_usize, 0);
    while at < input.len() {
        let Some(sheet) = sheet_of_box(&input[at..]) else {
            list += &format!("{BAD_BOX} {at}\n");
            break;
        };
        number += 1;
        let (reply, Counts { steps, terms }) = counted(sheet, &mut result, &mut work);
        list += &format!("{number} {} {} {steps} {terms} {}\n", reply.number, reply.verdict, reply.length);
        totals.add(&reply);
        at += HEADER + sheet.len();
    }
    let [never, always, open] = totals.verdicts;
    list += &format!("{} {never} {always} {open} {}\n", totals.done, totals.length);
    list
}

/// The sheet of the box that starts here; none if the box is cut short, its kind is not 16 or its length is under 4.
fn sheet_of_box(bytes: &[u8]) -> Option<&[u8]> {
    let header = bytes.get(..HEADER)?;
    let length = usize::from(u16::from_le_bytes([header[0], header[1]]));
    let kind = u16::from_le_bytes([header[2], header[3]]);
    if kind != KIND {
        return None;
    }
    bytes.get(HEADER..length)
}

/// How many boxes had answer 0, how many had verdicts 0, 1 and 2, and the sum of result lengths.
#[derive(Default)]
struct Totals {
    done: usize,
    verdicts: [usize; 3],
    length: usize,
}

impl Totals {
    /// A refused box has verdict 3 and length 0, so it is in no total.
    fn add(&mut self, reply: &Reply) {
        if reply.number == 0 {
            self.done += 1;
        }
        if let Some(count) = self.verdicts.get_mut(reply.verdict as usize) {
            *count += 1;
        }
        self.length += reply.length;
    }
}
