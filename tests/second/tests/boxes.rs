//! #102 asked of the second program: the counts of an elimination, worked out by hand, and the Monday list.

use second::eliminating::{Counts, Reply};
use second::limits::RESULT_BYTES;
use second::sheet::{Comparison, Formula, List, Quantifier, Sum};
use second::{counted, eliminate, monday};

const EMPTY_LIST: &str = "0 0 0 0 0\n";

fn sample(name: &str) -> Vec<u8> {
    let file = format!("{}/../../samples/{name}.sheet", env!("CARGO_MANIFEST_DIR"));
    std::fs::read(&file).unwrap_or_else(|error| panic!("{file}: {error}"))
}

/// Answer, place, steps and terms.
fn count(sheet: &[u8]) -> (u32, usize, usize, usize) {
    let (mut result, mut work) = (vec![1; RESULT_BYTES], vec![2; RESULT_BYTES]);
    let (reply, counts) = counted(sheet, &mut result, &mut work);
    let (mut other_result, mut other_work) = (vec![1; RESULT_BYTES], vec![2; RESULT_BYTES]);
    assert_eq!(eliminate(sheet, &mut other_result, &mut other_work), reply);
    assert!(result == other_result && work == other_work);
    (reply.number, reply.place, counts.steps, counts.terms)
}

/// A box with any length and kind in its header.
fn stated(length: u16, kind: u16, sheet: &[u8]) -> Vec<u8> {
    [&length.to_le_bytes(), &kind.to_le_bytes(), sheet].concat()
}

fn boxed(sheet: &[u8]) -> Vec<u8> {
    stated(4 + sheet.len() as u16, 16, sheet)
}

/// The sum of factors of variables 0 and 1 and a constant, under LESS.
fn less(x: i128, y: i128, constant: i128) -> Formula {
    Formula::Atom(Comparison::Less, Sum { coefficients: [x, y, 0, 0, 0, 0, 0, 0], constant })
}

fn some(variable: usize, body: Formula) -> Formula {
    Formula::Quantified(Quantifier::Some, variable, Box::new(body))
}

fn any_of(members: Vec<Formula>) -> Formula {
    Formula::List(List::AnyOf, members)
}

fn all_of(members: Vec<Formula>) -> Formula {
    Formula::List(List::AllOf, members)
}

/// Some x: any of x < 1 .. x < `terms`.
fn values(terms: i128) -> Formula {
    some(0, any_of((1..=terms).map(|k| less(1, 0, -k)).collect()))
}

#[test]
fn counts_of_samples() {
    let known = [
        ("between", 1, 2),     // 3 and 13/7
        ("y-and-z", 1, 2),     // y/2 and z/3
        ("window", 1, 4),      // 40, 70, 50, 60
        ("at-most-one", 1, 2), // 0 and 1 - y
        ("above-five", 1, 2),  // 5 and y
        ("half", 1, 1),        // y/2
        ("every-some", 2, 1),  // x; then none, the body being true
        ("some-every", 2, 1),  // y; then none, the body being false
        ("not-three", 1, 1),   // 3, three times
        ("bound-again", 2, 1), // 0; then 0
        ("empty", 0, 0),
        ("true", 0, 0),
        ("nots-23", 0, 0),
        ("nots-24", 0, 0),
        ("terms-64", 1, 64),
        ("terms-65", 0, 0),  // 10
        ("large-one", 1, 1), // y/M
        ("large-two", 0, 2), // 11 after y/M and z/(M - 1)
        ("atoms-32", 0, 32), // 12 after y + k and z + k
        ("coefficient-m", 0, 0),
        ("coefficient-m-plus-1", 0, 0),
        ("longest", 0, 0),
        ("longest-plus-1", 0, 0),
        ("windows-762", 0, 0), // 12 in the finishing pass
        ("film", 9, 3),        // eight moments of three terms, then the delay of two
    ];
    for (name, steps, terms) in known {
        let (_, _, counted_steps, counted_terms) = count(&sample(name));
        assert_eq!((counted_steps, counted_terms), (steps, terms), "{name}");
    }
}

/// Steps finished before a refusal are counted, the refused one is not; its terms are, unless it was refused with 10.
#[test]
fn counts_of_refused_sheets() {
    let after = |first: Formula| any_of(vec![first, some(1, less(3, 1, 0)), values(7)]).bytes();
    assert_eq!(count(&after(values(65))), (10, 6, 2, 7));
    assert_eq!(count(&after(less(1, 1, 0))), (0, 0, 2, 7));

    let read = |name| second::reading::formula_of(&sample(name), 16_384, 24).unwrap();
    assert_eq!(count(&after(read("large-two"))), (11, 6, 2, 7));
    assert_eq!(count(&after(read("atoms-32"))), (12, 6, 2, 32));

    // x above y + 1 .. y + 18 and below z + 1 .. z + 4: the step's own 63,798 bytes fit, 1,766 more around them do not
    let above = (1..=18).map(|k| less(-1, 1, k));
    let below = (1..=4).map(|k| {
        let coefficients = [1, 0, -1, 0, 0, 0, 0, 0];
        Formula::Atom(Comparison::Less, Sum { coefficients, constant: -k })
    });
    let large = some(0, all_of(above.chain(below).collect()));
    let among = |others| all_of([vec![large.clone()], vec![less(0, 1, 9); others]].concat()).bytes();
    assert_eq!(count(&among(43)), (0, 0, 1, 22));
    assert_eq!(count(&among(44)), (12, 6, 0, 22));

    // 12 in the finishing pass, which is no step: 800 windows come to 86 bytes each
    let windows = (0..800).map(|k| Formula::Window { variable: 3, lo: -k, hi: k });
    let sheet = all_of(windows.chain([values(5)]).collect()).bytes();
    assert_eq!(count(&sheet), (12, sheet.len(), 1, 5));
}

/// Short buffers are refused before the first step.
#[test]
fn counts_of_short_buffers() {
    let (mut long, mut short) = (vec![7; RESULT_BYTES], vec![7; RESULT_BYTES - 1]);
    let refused = (Reply { number: 1, verdict: 3, place: 0, length: 0 }, Counts { steps: 0, terms: 0 });
    assert_eq!(counted(&sample("window"), &mut long, &mut short), refused);
    assert_eq!(counted(&sample("window"), &mut short, &mut long), refused);
}

#[test]
fn no_box_and_one() {
    assert_eq!(monday(&[]), EMPTY_LIST);
    assert_eq!(monday(&boxed(&sample("window"))), "1 0 0 1 4 6\n1 1 0 0 6\n");
    assert_eq!(monday(&boxed(&sample("every-some"))), "1 0 1 2 1 6\n1 0 1 0 6\n");
    assert_eq!(monday(&boxed(&sample("film"))), "1 0 2 9 3 41784\n1 0 0 1 41784\n");
    assert_eq!(monday(&boxed(&sample("terms-65"))), "1 10 3 0 0 0\n0 0 0 0 0\n");
    assert_eq!(monday(&boxed(&[])), "1 3 3 0 0 0\n0 0 0 0 0\n");
}

#[test]
fn headers() {
    let sheet = sample("true");
    for kind in [0, 15, 17, 16 << 8, 16 + (1 << 8), u16::MAX] {
        assert_eq!(monday(&stated(10, kind, &sheet)), format!("15 0\n{EMPTY_LIST}"), "{kind}");
    }
    for length in 0..4 {
        assert_eq!(monday(&stated(length, 16, &sheet)), format!("15 0\n{EMPTY_LIST}"), "{length}");
        let second = [boxed(&sheet), stated(length, 16, &sheet), boxed(&sheet)].concat();
        assert_eq!(monday(&second), "1 0 1 0 0 6\n15 10\n1 0 1 0 6\n", "{length}");
    }
    // an empty sheet, and then the box that its bytes make: length 6, kind 5
    assert_eq!(monday(&stated(4, 16, &sheet)), format!("1 3 3 0 0 0\n15 4\n{EMPTY_LIST}"));
    // judged before its sheet: a sheet that is refused in a bad box
    assert_eq!(monday(&stated(5, 17, &[9])), format!("15 0\n{EMPTY_LIST}"));
    assert_eq!(monday(&stated(9, 16, &sheet)), format!("1 3 3 0 0 0\n15 9\n{EMPTY_LIST}"));
    assert_eq!(monday(&stated(11, 16, &sheet)), format!("15 0\n{EMPTY_LIST}"));
    // the longest box
    assert_eq!(monday(&stated(u16::MAX, 16, &vec![0; 65_531])), "1 2 3 0 0 0\n0 0 0 0 0\n");
    assert_eq!(monday(&stated(u16::MAX, 16, &vec![0; 65_530])), format!("15 0\n{EMPTY_LIST}"));
}

#[test]
fn cut_at_every_byte() {
    let one = boxed(&sample("every-some"));
    let two = [one.clone(), boxed(&sample("half"))].concat();
    assert_eq!((one.len(), two.len()), (56, 106));
    for end in 1..one.len() {
        assert_eq!(monday(&one[..end]), format!("15 0\n{EMPTY_LIST}"), "{end}");
    }
    for end in one.len() + 1..two.len() {
        assert_eq!(monday(&two[..end]), "1 0 1 2 1 6\n15 56\n1 0 1 0 6\n", "{end}");
    }
    assert_eq!(monday(&two), "1 0 1 2 1 6\n2 0 1 1 1 6\n2 0 2 0 12\n");
}

/// Several boxes, refused ones among them; the totals are those of the lines above.
#[test]
fn seasons() {
    let names = [
        "window",
        "empty",
        "y-and-z",
        "terms-65",
        "film",
        "large-two",
        "true",
        "atoms-32",
        "longest-plus-1",
        "some-every",
    ];
    let lines = "1 0 0 1 4 6\n2 3 3 0 0 0\n3 0 2 1 2 86\n4 10 3 0 0 0\n5 0 2 9 3 41784\n6 11 3 0 2 0\n\
                 7 0 1 0 0 6\n8 12 3 0 32 0\n9 2 3 0 0 0\n10 0 0 2 1 6\n";
    let season: Vec<u8> = names.iter().flat_map(|name| boxed(&sample(name))).collect();
    let totals = "5 2 1 2 41888\n";
    assert_eq!(monday(&season), format!("{lines}{totals}"));
    let end = season.len();
    let bad = [season, stated(10, 17, &sample("true")), boxed(&sample("true"))].concat();
    assert_eq!(monday(&bad), format!("{lines}15 {end}\n{totals}"));

    let many = boxed(&sample("true")).repeat(70_000);
    let list = monday(&many);
    assert_eq!(list.lines().count(), 70_001);
    assert!(list.ends_with("70000 0 1 0 0 6\n70000 0 70000 0 420000\n"));
}
