//! The second program on the command line. A sheet comes from standard input, or many from a file of cases.
//!
//!     second verdict < SHEET             answer verdict place length
//!     second result < SHEET              the same line, then the result in hex
//!     second count < SHEET               answer verdict place length steps terms
//!     second monday < BOXES              the Monday list
//!     second read BYTES LEVELS < SHEET   number place
//!     second look < SHEET                at length
//!     second test P0,..,P7,Q < SHEET     number verdict place
//!     second cases readings FILE         a line a case: read 16384 24, read 65536 25, look, then the body's length and checksum
//!     second cases eliminations FILE     a line a case: verdict, then the result in hex or its checksum
//!     second cases tests FILE            a line a case: test
//!
//! A case is four bytes of length and then that many bytes of sheet; in a file for `tests` nine numbers
//! of eight bytes follow each sheet. All numbers are little-endian, those of eight bytes signed.

use second::eliminating::{Counts, Reply};
use second::limits::{LOOK_BYTES, LOOK_LEVELS, RESULT_BYTES, SHEET_BYTES, SHEET_LEVELS};
use second::{counted, look, monday, read, test};
use std::fmt::Write as _;
use std::io::{Read, Write};

/// Results up to this length are printed in full, longer ones as a checksum.
const HEX_BYTES: usize = 600;

fn main() {
    let arguments: Vec<String> = std::env::args().skip(1).collect();
    let words: Vec<&str> = arguments.iter().map(String::as_str).collect();
    let text = match words[..] {
        ["verdict"] => reply_line(&elimination(&standard_input()).0),
        ["result"] => {
            let (reply, _, result) = elimination(&standard_input());
            format!("{}\n{}", reply_line(&reply), hex(&result))
        }
        ["count"] => {
            let (reply, counts, _) = elimination(&standard_input());
            format!("{} {} {}", reply_line(&reply), counts.steps, counts.terms)
        }
        ["monday"] => monday(&standard_input()).trim_end().to_string(),
        ["read", bytes, levels] => {
            let bytes = bytes.parse().unwrap_or_else(|_| usage());
            let levels = levels.parse().unwrap_or_else(|_| usage());
            let (number, place) = read(&standard_input(), bytes, levels);
            format!("{number} {place}")
        }
        ["look"] => {
            let (at, length) = look(&standard_input());
            format!("{at} {length}")
        }
        ["test", numbers] => {
            let numbers: Result<Vec<i64>, _> = numbers.split(',').map(str::parse).collect();
            let numbers = numbers.ok().and_then(|all| all.try_into().ok()).unwrap_or_else(|| usage());
            test_line(&standard_input(), numbers)
        }
        ["cases", operation, file] => {
            let bytes = std::fs::read(file).unwrap_or_else(|error| fail(&format!("{file}: {error}")));
            cases(operation, &bytes)
        }
        _ => usage(),
    };
    let written = std::io::stdout().write_all(format!("{text}\n").as_bytes());
    written.unwrap_or_else(|error| fail(&error.to_string()));
}

fn standard_input() -> Vec<u8> {
    let mut sheet = Vec::new();
    let read = std::io::stdin().read_to_end(&mut sheet);
    read.unwrap_or_else(|error| fail(&error.to_string()));
    sheet
}

/// Runs the elimination and checks on the way that the buffers are as 01 says.
fn elimination(sheet: &[u8]) -> (Reply, Counts, Vec<u8>) {
    let mut result = vec![0xaa; RESULT_BYTES + 8];
    let mut work = vec![0xbb; RESULT_BYTES + 8];
    let (reply, counts) = counted(sheet, &mut result, &mut work);
    let zeroed = reply.number == 0 || reply.number >= 10;
    let expected = |untouched| if zeroed { 0 } else { untouched };
    assert!(result[reply.length..RESULT_BYTES].iter().all(|&byte| byte == expected(0xaa)));
    assert!(work[..RESULT_BYTES].iter().all(|&byte| byte == expected(0xbb)));
    assert!(result[RESULT_BYTES..].iter().all(|&byte| byte == 0xaa));
    assert!(work[RESULT_BYTES..].iter().all(|&byte| byte == 0xbb));
    result.truncate(reply.length);
    (reply, counts, result)
}

fn cases(operation: &str, bytes: &[u8]) -> String {
    let mut lines = Vec::new();
    let mut rest = bytes;
    while !rest.is_empty() {
        let length = u32::from_le_bytes(take(&mut rest, 4).try_into().unwrap());
        let sheet = take(&mut rest, length as usize);
        lines.push(match operation {
            "readings" => readings_line(sheet),
            "eliminations" => elimination_line(sheet),
            "tests" => {
                let fields = take(&mut rest, 72).chunks(8);
                let numbers: Vec<i64> = fields.map(|f| i64::from_le_bytes(f.try_into().unwrap())).collect();
                test_line(sheet, numbers.try_into().unwrap())
            }
            _ => usage(),
        });
    }
    lines.join("\n")
}

fn take<'a>(rest: &mut &'a [u8], length: usize) -> &'a [u8] {
    if rest.len() < length {
        fail("the file of cases ends inside a case");
    }
    let (taken, after) = rest.split_at(length);
    *rest = after;
    taken
}

fn readings_line(sheet: &[u8]) -> String {
    let (number, place) = read(sheet, SHEET_BYTES, SHEET_LEVELS);
    let (look_number, look_place) = read(sheet, LOOK_BYTES, LOOK_LEVELS);
    let (at, length) = look(sheet);
    let line = format!("{number} {place} {look_number} {look_place} {at} {length}");
    let body = &sheet[at..at + length];
    if body.is_empty() {
        format!("{line} 0")
    } else {
        format!("{line} {} {}", body.len(), checksum(body))
    }
}

fn elimination_line(sheet: &[u8]) -> String {
    let (reply, _, result) = elimination(sheet);
    let line = reply_line(&reply);
    if result.is_empty() {
        line
    } else if result.len() <= HEX_BYTES {
        format!("{line} {}", hex(&result))
    } else {
        format!("{line} fnv {}", checksum(&result))
    }
}

fn test_line(sheet: &[u8], numbers: [i64; 9]) -> String {
    let (number, verdict, place) = test(sheet, numbers);
    format!("{number} {verdict} {place}")
}

fn reply_line(reply: &Reply) -> String {
    format!("{} {} {} {}", reply.number, reply.verdict, reply.place, reply.length)
}

fn hex(bytes: &[u8]) -> String {
    let mut text = String::new();
    for byte in bytes {
        write!(text, "{byte:02x}").unwrap();
    }
    text
}

/// The 64-bit FNV-1a checksum.
fn checksum(bytes: &[u8]) -> u64 {
    let mut sum: u64 = 14_695_981_039_346_656_037;
    for byte in bytes {
        sum = (sum ^ u64::from(*byte)).wrapping_mul(1_099_511_628_211);
    }
    sum
}

fn usage() -> ! {
    fail("use: second verdict | result | count | monday | look | read BYTES LEVELS | test P0,..,P7,Q | cases readings|eliminations|tests FILE")
}

fn fail(message: &str) -> ! {
    eprintln!("{message}");
    std::process::exit(2)
}
