//! 01's "Sheets with known results" and its rules on buffers, asked of the second program.
//! The sheets are the files of samples/, the lines those that 01 gives or, where it leaves one open, follow from it.

use second::eliminating::{condition, condition_within, Reply};
use second::limits::{LOOK_BYTES, LOOK_LEVELS, RESULT_BYTES, SHEET_BYTES, SHEET_LEVELS};
use second::sheet::{Comparison, Formula, List, Sum};
use second::{eliminate, look, read, test};

fn sample(name: &str) -> Vec<u8> {
    let file = format!("{}/../../samples/{name}.sheet", env!("CARGO_MANIFEST_DIR"));
    std::fs::read(&file).unwrap_or_else(|error| panic!("{file}: {error}"))
}

fn reply(sheet: &[u8]) -> (u32, u32, usize, usize) {
    let (mut result, mut work) = (vec![1; RESULT_BYTES], vec![1; RESULT_BYTES]);
    let Reply { number, verdict, place, length } = eliminate(sheet, &mut result, &mut work);
    (number, verdict, place, length)
}

fn less(numbers: [i128; 9]) -> Formula {
    atom(Comparison::Less, numbers)
}

fn atom(comparison: Comparison, numbers: [i128; 9]) -> Formula {
    let mut coefficients = [0; 8];
    coefficients.copy_from_slice(&numbers[..8]);
    Formula::Atom(comparison, Sum { coefficients, constant: numbers[8] })
}

#[test]
fn lines() {
    let known = [
        ("between", (0, 1, 0, 6)),
        ("y-and-z", (0, 2, 0, 86)),
        ("window", (0, 0, 0, 6)),
        ("at-most-one", (0, 2, 0, 172)),
        ("above-five", (0, 2, 0, 86)),
        ("half", (0, 1, 0, 6)),
        ("every-some", (0, 1, 0, 6)),
        ("some-every", (0, 0, 0, 6)),
        ("not-three", (0, 1, 0, 6)),
        ("bound-again", (0, 1, 0, 6)),
        ("empty", (3, 3, 0, 0)),
        ("true", (0, 1, 0, 6)),
        ("nots-23", (0, 2, 0, 40)),
        ("nots-24", (8, 3, 96, 0)),
        ("longest", (0, 2, 0, 16366)),
        ("longest-plus-1", (2, 3, 0, 0)),
        ("windows-762", (12, 3, 10674, 0)),
        ("film", (0, 2, 0, 41784)),
        ("terms-64", (0, 1, 0, 6)),
        ("terms-65", (10, 3, 0, 0)),
        ("large-one", (0, 1, 0, 6)),
        ("large-two", (11, 3, 0, 0)),
        ("atoms-32", (12, 3, 0, 0)),
        ("coefficient-m", (0, 2, 0, 40)),
        ("coefficient-m-plus-1", (7, 3, 0, 0)),
    ];
    for (name, line) in known {
        assert_eq!(reply(&sample(name)), line, "{name}");
    }
    assert_eq!(sample("window").len(), 110);
}

/// Under the limits before #101 each sample gives what it gives now, or 2 at 0, or 8; and those of both kinds are among them.
#[test]
fn older_limits() {
    let (mut same, mut long, mut deep) = (0, 0, 0);
    for file in std::fs::read_dir(format!("{}/../../samples", env!("CARGO_MANIFEST_DIR"))).unwrap() {
        let file = file.unwrap().path();
        if file.extension().is_some_and(|name| name == "sheet") {
            let sheet = std::fs::read(&file).unwrap();
            let before = condition_within(4_096, 16, &sheet);
            match before {
                Err(refusal) if refusal.number == 2 => {
                    assert!(sheet.len() > 4_096 && refusal.place == 0, "{file:?}");
                    long += 1;
                }
                Err(refusal) if refusal.number == 8 => deep += 1,
                _ => {
                    assert!(before == condition(&sheet), "{file:?}");
                    same += 1;
                }
            }
        }
    }
    assert!(same > 15 && long > 3 && deep > 1, "{same} {long} {deep}");
}

#[test]
fn results() {
    let twice = |member: Formula| Formula::List(List::AllOf, vec![member.clone(), member]).bytes();
    assert_eq!(condition(&sample("y-and-z")).unwrap(), twice(less([0, 3, -2, 0, 0, 0, 0, 0, 0])));
    assert_eq!(condition(&sample("above-five")).unwrap(), twice(less([0, -1, 0, 0, 0, 0, 0, 0, 5])));
    let at_most_one = atom(Comparison::AtMost, [0, 1, 0, 0, 0, 0, 0, 0, -1]);
    let both = Formula::List(List::AllOf, vec![at_most_one.clone(), at_most_one.clone()]);
    let any = Formula::List(List::AnyOf, vec![at_most_one.clone(), both, at_most_one]);
    assert_eq!(condition(&sample("at-most-one")).unwrap(), any.bytes());
}

/// Short buffers give 1 before anything else; bytes past the first 65,536 are never written.
#[test]
fn buffers() {
    let mut long = vec![7; RESULT_BYTES + 3];
    let mut short = vec![7; RESULT_BYTES - 1];
    let refused = Reply { number: 1, verdict: 3, place: 0, length: 0 };
    assert_eq!(eliminate(&sample("empty"), &mut long, &mut short), refused);
    assert_eq!(eliminate(&vec![0; SHEET_BYTES + 1], &mut short, &mut long), refused);
    assert!(long.iter().chain(&short).all(|&byte| byte == 7));

    for (name, untouched) in [
        ("y-and-z", false),
        ("empty", true),
        ("nots-24", true),
        ("terms-65", false),
        ("large-two", false),
        ("atoms-32", false),
    ] {
        let (mut result, mut work) = (vec![7; RESULT_BYTES + 3], vec![8; RESULT_BYTES + 5]);
        let reply = eliminate(&sample(name), &mut result, &mut work);
        let expected = condition(&sample(name)).unwrap_or_default();
        assert_eq!(&result[..reply.length], expected, "{name}");
        assert!(result[reply.length..RESULT_BYTES].iter().all(|&byte| byte == if untouched { 7 } else { 0 }), "{name}");
        assert!(work[..RESULT_BYTES].iter().all(|&byte| byte == if untouched { 8 } else { 0 }), "{name}");
        assert!(result[RESULT_BYTES..].iter().all(|&byte| byte == 7), "{name}");
        assert!(work[RESULT_BYTES..].iter().all(|&byte| byte == 8), "{name}");
    }
}

/// At one record: fewer than four bytes (3), 4, 5, fields cut (3), 6, 7, 8; then 9.
#[test]
fn reading_order() {
    let sheet_limits = |sheet: &[u8]| read(sheet, SHEET_BYTES, SHEET_LEVELS);
    assert_eq!(sheet_limits(&[40, 0, 1]), (3, 0));
    assert_eq!(sheet_limits(&[41, 0, 10, 0]), (4, 0));
    assert_eq!(sheet_limits(&[41, 0, 1, 0]), (5, 0));
    assert_eq!(sheet_limits(&[40, 0, 1, 0, 255, 255, 255, 127]), (3, 0));
    assert_eq!(sheet_limits(&[14, 0, 9, 0, 8, 0, 255, 255, 255, 127, 0, 0, 0, 0]), (6, 0));
    assert_eq!(sheet_limits(&[14, 0, 9, 0, 7, 0, 255, 255, 255, 127, 0, 0, 0, 0]), (7, 0));
    assert_eq!(sheet_limits(&[6, 0, 5, 0, 1, 0]), (3, 6));
    assert_eq!(sheet_limits(&[6, 0, 5, 0, 0, 0, 9]), (9, 6));
    assert_eq!(sheet_limits(&vec![0; SHEET_BYTES + 1]), (2, 0));
    assert_eq!(sheet_limits(&sample("nots-24")), (8, 96));
    assert_eq!(read(&sample("nots-24"), LOOK_BYTES, LOOK_LEVELS), (0, 0));
}

#[test]
fn looks() {
    assert_eq!(look(&sample("bound-again")), (58, 40));
    assert_eq!(look(&sample("window")), (6, 104));
    assert_eq!(look(&sample("every-some")), (12, 40));
    assert_eq!(look(&sample("true")), (0, 0));
    assert_eq!(look(&sample("coefficient-m-plus-1")), (0, 0));
}

#[test]
fn tests_at_fractions() {
    let five = |numerator, denominator| [0, numerator, 0, 0, 0, 0, 0, 0, denominator];
    let above_five = condition(&sample("above-five")).unwrap();
    assert_eq!(test(&above_five, five(51, 10)), (0, 1, 0));
    assert_eq!(test(&above_five, five(5, 1)), (0, 0, 0));
    assert_eq!(test(&above_five, five(5, 0)), (14, 3, 0));
    assert_eq!(test(&above_five, five(1_000_001, 1)), (14, 3, 0));
    assert_eq!(test(&sample("every-some"), five(5, 0)), (13, 3, 0));
    assert_eq!(test(&sample("empty"), five(5, 0)), (3, 3, 0));
}
