//! The archive, called as C calls it.
//!     compare agree [COUNT [SEED]]   COUNT random sheets through the archive and the second program: number, verdict, place, length, steps, terms and
//!                                    every byte of both buffers must agree, and so must reading, look and test. A difference ends the run and saves
//!                                    the sheet.
//!     compare storm CALLS SEED       random bytes through every export; nothing is compared, but nothing may be touched that is not the caller's
//!     compare deliver < CASES        a line a case (its length in four bytes, then its bytes): answer, verdict, place, length, result in hex

mod archive;
mod sheets;

use archive::Guarded;
use sheets::Random;

const BUFFER: usize = 65_536;
const ROOM: usize = 524_288;

struct Room {
    sheet: Guarded,
    result: Guarded,
    work: Guarded,
    copies: Guarded,
}

impl Room {
    fn new() -> Room {
        Room { sheet: Guarded::new(70_000), result: Guarded::new(75_000), work: Guarded::new(75_000), copies: Guarded::new(ROOM + 5000) }
    }
}

fn differ(sheet: &[u8], what: &str) -> ! {
    let name = format!("difference-{}.sheet", std::process::id());
    std::fs::write(&name, sheet).expect("the sheet can be saved");
    println!("they differ in {what}; the sheet is saved as {name}");
    std::process::exit(1)
}

/// A buffer's length: mostly enough, sometimes more, sometimes too short.
fn length(r: &mut Random) -> usize {
    match r.below(60) {
        0 => BUFFER - 1,
        1 => r.below(BUFFER as u64) as usize,
        2..=20 => BUFFER + r.below(5000) as usize,
        _ => BUFFER,
    }
}

/// A reply of the archive, with counts or without, and its buffers, against the second program's.
fn same<R: PartialEq + std::fmt::Debug>(sheet: &[u8], room: &mut Room, mine: R, expected: R, result: &[u8], work: &[u8]) {
    if mine != expected {
        println!("archive {mine:?}, second {expected:?}");
        differ(sheet, "the reply");
    }
    if room.result.slice(result.len()) != result {
        differ(sheet, "the result buffer");
    }
    if room.work.slice(work.len()) != work {
        differ(sheet, "the work buffer");
    }
    if room.sheet.slice(sheet.len()) != sheet {
        differ(sheet, "the sheet itself");
    }
}

/// The elimination in its three calls; gives back the reply with its counts, and the result.
fn eliminations(r: &mut Random, room: &mut Room, sheet: &[u8]) -> (archive::Counted, Vec<u8>) {
    let fill = r.next() as u8;
    let before = (vec![fill; length(r)], vec![!fill; length(r)]);
    let (mut result, mut work) = before.clone();
    let (other, counts) = second::counted(sheet, &mut result, &mut work);
    let counted = archive::Counted {
        number: other.number.into(),
        verdict: other.verdict.into(),
        place: other.place as u64,
        length: other.length as u64,
        steps: counts.steps as u64,
        terms: counts.terms as u64,
    };
    let archive::Counted { number, verdict, place, length, .. } = counted;
    let expected = archive::Reply { number, verdict, place, length };
    let mine = archive::eliminate(room.sheet.filled(sheet), room.result.filled(&before.0), room.work.filled(&before.1));
    same(sheet, room, mine, expected, &result, &work);
    let mine = archive::count(room.sheet.filled(sheet), room.result.filled(&before.0), room.work.filled(&before.1));
    same(sheet, room, mine, counted, &result, &work);

    // the same in a room that holds what the last call left there, or too short a one
    let extra = if r.once_in(10) { r.below(5000) as usize } else { 0 };
    let copies = room.copies.slice(if r.once_in(40) { ROOM - 1 - r.below(3) as usize * 9000 } else { ROOM + extra });
    let (rest, short) = (copies.get(ROOM..).map(<[u8]>::to_vec), copies.len() < ROOM);
    let copies: &mut [u8] = unsafe { std::slice::from_raw_parts_mut(copies.as_mut_ptr(), copies.len()) };
    let mine = archive::eliminate_in(room.sheet.filled(sheet), room.result.filled(&before.0), room.work.filled(&before.1), copies);
    if short {
        same(sheet, room, mine, archive::Reply { number: 1, verdict: 3, place: 0, length: 0 }, &before.0, &before.1);
    } else {
        same(sheet, room, mine, expected, &result, &work);
    }
    if copies.get(ROOM..).map(<[u8]>::to_vec) != rest {
        differ(sheet, "the room past its first 524,288 bytes");
    }
    result.truncate(other.length);
    (counted, result)
}

fn readings(room: &mut Room, sheet: &[u8]) {
    let bytes = room.sheet.filled(sheet);
    let (number, place) = second::read(sheet, second::limits::LOOK_BYTES, second::limits::LOOK_LEVELS);
    if archive::read(bytes) != archive::Pair(number.into(), place as u64) {
        differ(sheet, "reading");
    }
    let (at, length) = second::look(sheet);
    if archive::look(bytes) != archive::Pair(at as u64, length as u64) {
        differ(sheet, "the look");
    }
}

fn tests(r: &mut Random, room: &mut Room, sheet: &[u8]) -> u64 {
    let mut values = [0i64; 9];
    let wide = r.once_in(3);
    for v in values.iter_mut() {
        *v = if wide { r.between(-1_000_000, 1_000_000) } else { r.between(-6, 6) };
    }
    values[8] = if wide { r.between(1, 1_000_000) } else { r.between(1, 4) };
    if r.once_in(12) {
        values[r.below(9) as usize] = *[1_000_001, -1_000_001, 0, -1, 1_000_000, i64::MIN, i64::MAX].get(r.below(7) as usize).unwrap();
    }
    let mine = archive::test(room.sheet.filled(sheet), values);
    let (number, verdict, place) = second::test(sheet, values);
    if mine != (archive::Tested { number: number.into(), verdict: verdict.into(), place: place as u64 }) {
        println!("values {values:?}");
        differ(sheet, "the test");
    }
    mine.verdict
}

fn agree(count: u64, seed: u64) {
    println!("seed {seed}");
    let mut r = Random(seed);
    let mut room = Room::new();
    let mut answers = [0u64; 15];
    let mut truths = [0u64; 4];
    let (mut steps, mut terms) = (0, 0);
    for _ in 0..count {
        let sheet = sheets::sheet(&mut r);
        let (counted, result) = eliminations(&mut r, &mut room, &sheet);
        let number = counted.number;
        answers[number as usize] += 1;
        steps = steps.max(counted.steps);
        terms = terms.max(counted.terms);
        readings(&mut room, &sheet);
        tests(&mut r, &mut room, &sheet);
        if number == 0 {
            readings(&mut room, &result);
            truths[tests(&mut r, &mut room, &result) as usize] += 1;
        }
    }
    println!("{count} sheets agree; answers 0 to 12: {:?}; results tested false, true and refused: {}, {}, {}", &answers[..13], truths[0], truths[1], truths[3]);
    println!("the most steps of a sheet: {steps}, the most boundary terms of a step: {terms}");
    if count >= 3000 && answers[..13].contains(&0) {
        println!("an answer from 0 to 12 was never met");
        std::process::exit(1);
    }
}

fn storm(calls: u64, seed: u64) {
    println!("seed {seed}");
    let mut r = Random(seed);
    let mut room = Room::new();
    let mut done = 0;
    while done < calls {
        let sheet = sheets::bytes(&mut r);
        let bytes = room.sheet.filled(&sheet);
        archive::read(bytes);
        archive::look(bytes);
        archive::test(bytes, std::array::from_fn(|_| r.next() as i64 >> r.below(63)));
        let length = if r.once_in(50) { BUFFER } else { r.below(BUFFER as u64) as usize };
        archive::eliminate(bytes, room.result.slice(length), room.work.slice(length));
        archive::count(bytes, room.result.slice(length), room.work.slice(length));
        let copies = if r.once_in(2) { ROOM } else { r.below(ROOM as u64) as usize };
        archive::eliminate_in(bytes, room.result.slice(length), room.work.slice(length), room.copies.slice(copies));
        assert!(room.sheet.slice(sheet.len()) == &sheet[..], "a sheet was written to");
        done += 6;
    }
    println!("{done} calls on random bytes, each with a reply");
}

fn deliver() {
    let mut cases = Vec::new();
    std::io::Read::read_to_end(&mut std::io::stdin(), &mut cases).expect("cases on standard input");
    let (mut result, mut work) = (vec![0; BUFFER], vec![0; BUFFER]);
    let mut rest = &cases[..];
    while rest.len() >= 4 {
        let n = u32::from_le_bytes(rest[..4].try_into().unwrap()) as usize;
        let reply = archive::eliminate(&rest[4..4 + n], &mut result, &mut work);
        let hex: String = result[..reply.length as usize].iter().map(|b| format!("{b:02x}")).collect();
        println!("{} {} {} {} {hex}", reply.number, reply.verdict, reply.place, reply.length);
        rest = &rest[4 + n..];
    }
}

fn main() {
    let words: Vec<String> = std::env::args().collect();
    let number = |i: usize| words.get(i).map(|w| w.parse().expect("a number"));
    let now = || std::time::SystemTime::now().duration_since(std::time::UNIX_EPOCH).expect("a clock").as_nanos() as u64;
    match words.get(1).map(String::as_str) {
        Some("agree") => agree(number(2).unwrap_or(20_000), number(3).unwrap_or_else(now)),
        Some("storm") => storm(number(2).unwrap_or(1_000_000), number(3).unwrap_or_else(now)),
        Some("deliver") => deliver(),
        _ => {
            eprintln!("compare agree [COUNT [SEED]] | storm CALLS SEED | deliver < CASES");
            std::process::exit(2);
        }
    }
}
