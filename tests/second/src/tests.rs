//! Every string of the papers that names an answer, what they leave open (A ..)
//! as docs/DECISIONS.md reads it, and requests No. 2 and 6; the places by request
//! No. 4.

use crate::oracle::octets;
use crate::reader::{self, Marks, State};
use crate::runs::{self, Run};
use crate::sets::{self, Sets, Side, DESIGNATIONS};
use crate::steps::Position;
use crate::unit::*;
use crate::writer;

fn hex(digits: &str) -> Vec<u8> {
    octets(digits).expect("hexadecimal octets")
}

/// Number and place for each string.
fn answers(expected: &[(&str, u8, usize)]) {
    for &(string, number, place) in expected {
        let answer = reader::check(&hex(string));
        assert_eq!((answer.number, answer.place), (number, place), "{string}");
        assert!(answer.number == 0 || answer.count == 0, "{string}");
    }
}

/// Accepted, with this number of units.
fn accepted(expected: &[(&str, usize)]) {
    for &(string, count) in expected {
        let s = hex(string);
        assert_eq!(
            reader::check(&s),
            Answer::accepted(s.len(), count),
            "{string}"
        );
    }
}

fn character(set: u8, code: u16) -> Unit {
    Unit {
        kind: CHARACTER,
        set,
        code,
        ..Unit::default()
    }
}

fn plain(kind: u8) -> Unit {
    Unit {
        kind,
        ..Unit::default()
    }
}

fn segment(d: u16, start: u32, length: u32) -> Unit {
    Unit {
        kind: SEGMENT,
        code: d,
        start,
        length,
        ..Unit::default()
    }
}

const X: Unit = Unit {
    kind: CHARACTER,
    set: 13,
    code: 0x3021,
    start: 0,
    length: 0,
    direction: 0,
    depth: 0,
};
const Y: Unit = Unit { set: 14, ..X };
const A: Unit = Unit {
    set: 0,
    code: 0x41,
    ..X
};

/// The one string of a list, by every way that this program knows.
fn written(units: &[Unit], segments: &[u8]) -> Vec<u8> {
    assert_eq!(writer::list_refusal(units, segments), None);
    let string = writer::shortest_lazy(units, segments);
    assert_eq!(string.len(), writer::least_length(units));
    if units.len() <= 10 {
        assert_eq!(string, writer::shortest_of_all_lazy(units, segments));
    }
    let reread = reader::read(&string).expect("an accepted string");
    let meanings = |units: &[Unit], octets: &[u8]| {
        let all: Option<Vec<String>> = units
            .iter()
            .map(|u| meaning(u, octets).map(|m| format!("{m:?}")))
            .collect();
        all.expect("parts inside the octets")
    };
    assert_eq!(meanings(&reread, &string), meanings(units, segments));
    string
}

fn refused(units: &[Unit], segments: &[u8], number: u8, place: usize) {
    let refusal = writer::list_refusal(units, segments);
    assert_eq!(refusal, Some(Answer::refusal(number, place)), "{units:?}");
}

// The paper's checked strings.

#[test]
fn checked_strings() {
    accepted(&[("", 0), ("48 09 E9", 3), ("1B 28 42 41", 1)]);
    accepted(&[("9B 31 5D 41", 2), ("1B 25 2F 31 80 84 61 62 02 FF", 1)]);
    answers(&[
        ("41 9B 31 5D", 8, 1),
        ("9B 31 5D 9B 5D 41", 8, 5),
        ("9B 5D", 8, 0),
        ("1B 25 2F 32 80 84 61 62 02 FF", 7, 9),
        ("1B 24 42", 4, 2),
        ("1B 28", 2, 2),
        ("1B 29 42", 5, 2),
        ("1B 28 21 42", 5, 3),
        ("1B 24 28 42 20", 3, 4),
        ("1B 24 28 42 30", 2, 5),
        ("1B 29 49 A0", 3, 3),
    ]);
    assert_eq!(
        reader::check(&[0x20; 65_535]),
        Answer::accepted(65_535, 65_535)
    );
    assert_eq!(reader::check(&[0x20; 65_536]), Answer::refusal(1, 0));
}

#[test]
fn units_of_a_checked_string() {
    let at = |unit: Unit, start| Unit {
        start,
        length: 1,
        ..unit
    };
    let expected = vec![
        at(character(0, 0x48), 0),
        at(plain(TAB), 1),
        at(character(3, 0x69), 2),
    ];
    assert_eq!(reader::read(&hex("48 09 E9")), Ok(expected));
}

#[test]
fn every_kind_of_unit() {
    let s = hex("9B 31 5D 1B 24 29 43 B0 A1 20 9B 32 5D 0A 9B 5D 1B 25 2F 31 80 84 61 62 02 FF");
    let unit = |kind, (set, code), (start, length), (direction, depth)| Unit {
        kind,
        set,
        code,
        start,
        length,
        direction,
        depth,
    };
    let expected = vec![
        unit(LEFT_TO_RIGHT, (0, 0), (0, 3), (1, 1)),
        unit(CHARACTER, (14, 0x3021), (7, 2), (1, 1)),
        unit(SPACE, (0, 0), (9, 1), (1, 1)),
        unit(RIGHT_TO_LEFT, (0, 0), (10, 3), (2, 2)),
        unit(NEWLINE, (0, 0), (13, 1), (2, 2)),
        unit(REVERT, (0, 0), (14, 2), (1, 1)),
        unit(SEGMENT, (0, 0x31), (22, 4), (1, 1)),
    ];
    assert_eq!(reader::read(&s), Ok(expected));
}

#[test]
fn checked_writings() {
    let e9 = character(3, 0x69);
    let yen = character(2, 0x5C);
    let space = plain(SPACE);
    assert_eq!(written(&[], &[]), hex(""));
    assert_eq!(written(&[A], &[]), hex("41"));
    assert_eq!(written(&[X], &[]), hex("1B 24 28 42 30 21"));
    assert_eq!(written(&[X, A], &[]), hex("1B 24 29 42 B0 A1 41"));
    assert_eq!(
        written(&[A, X, e9, A], &[]),
        hex("41 1B 24 28 42 30 21 E9 1B 28 42 41")
    );
    assert_eq!(
        written(&[X, e9, X, space, yen], &[]),
        hex("1B 24 28 42 30 21 E9 30 21 1B 28 4A 20 5C")
    );
    assert_eq!(
        crate::oracle::write("1B 24 28 42 30 21 1B 28 42 41"),
        Ok("1B 24 29 42 B0 A1 41".to_string())
    );
    assert_eq!(
        crate::oracle::write("1B 28"),
        Ok("refused 2 at 2".to_string())
    );
}

// What the papers leave open.

#[test]
fn a01_to_a04_escapes() {
    answers(&[
        ("1B 23", 6, 1),
        ("1B 23 20 30", 6, 1),
        ("1B", 2, 1),
        ("1B 25 2F 35 80 80", 4, 3),
        ("1B 25 2F", 2, 3),
        ("1B 25", 2, 2),
        ("1B 25 47", 4, 2),
        ("1B 28 20", 4, 2),
        ("1B 24 29 2F", 4, 3),
        ("1B 28 21", 2, 3),
        ("1B 28 21 2F", 2, 4),
        ("1B 28 21 30", 4, 3),
        ("1B 28 24 42", 4, 2),
        ("1B 28 21 24 2F 7E", 5, 5),
        ("1B 28 30", 4, 2),
        ("1B 28 3F", 4, 2),
        ("1B 28 7F", 4, 2),
    ]);
}

#[test]
fn a05_to_a08_segments() {
    answers(&[
        ("1B 25 2F 30 80 85 2A", 2, 7),
        ("1B 25 2F 30 7F", 7, 4),
        ("1B 25 2F 30 80", 2, 5),
        ("1B 25 2F 30 80 7F", 7, 5),
        ("1B 25 2F 30 7F 7F", 7, 4),
        ("1B 25 2F 30 80 80", 7, 5),
        ("1B 25 2F 30 80 81 02", 7, 6),
        ("1B 25 2F 30 80 82 61 62", 7, 7),
        ("1B 25 2F 33 80 85 61 02 00 00 00", 0, 11),
        ("1B 25 2F 33 80 84 61 02 00 00", 7, 9),
        ("1B 25 2F 34 80 84 61 02 00 00", 7, 9),
        ("1B 25 2F 34 80 86 61 02 00 00 00 00", 0, 12),
    ]);
    accepted(&[("1B 25 2F 34 80 82 6E 02", 1)]);
    accepted(&[("1B 25 2F 30 80 84 6E 02 02 1B", 1)]);
    for octet in 0..=255_u8 {
        let s = [0x1B, 0x25, 0x2F, 0x30, 0x80, 0x83, 0x61, octet, 0x02];
        let good = (0x21..=0x7E).contains(&octet) || octet >= 0xA1;
        let good = good && octet != 0x2A && octet != 0x3F || octet == 0x02;
        let expected = match good {
            true => Answer::accepted(9, 1),
            false => Answer::refusal(7, 7),
        };
        assert_eq!(reader::check(&s), expected, "{octet:X}");
    }
}

#[test]
fn a09_to_a11_octets_out_of_place() {
    answers(&[
        ("1B 00", 4, 1),
        ("1B 28 9B", 4, 2),
        ("9B 1B", 4, 1),
        ("1B 1B 28 42", 4, 1),
        ("1B 24 28 42 30 1B 28 42", 3, 5),
        ("1B 24 28 42 30 9B", 3, 5),
        ("1B 24 28 42 30 09", 3, 5),
        ("1B 24 28 42 30 0A", 3, 5),
        ("1B 24 28 42 30 A1", 3, 5),
        ("1B 24 29 42 B0 21", 3, 5),
        ("1B 24 29 42 A0", 3, 4),
        ("1B 24 29 42 FF", 3, 4),
        ("1B 29 49 FF", 3, 3),
        ("7F", 3, 0),
        ("1B 24 28 42 7F", 3, 4),
        ("1B 24 28 42 30 7F", 3, 5),
        ("1B 28 4A 20", 0, 4),
    ]);
    for octet in (0x00..=0x1F).chain(0x80..=0x9F) {
        let answer = reader::check(&[octet]);
        match octet {
            0x09 | 0x0A => assert_eq!(answer, Answer::accepted(1, 1)),
            0x1B | 0x9B => assert_eq!(answer, Answer::refusal(2, 1)),
            _ => assert_eq!(answer, Answer::refusal(3, 0)),
        }
    }
    let units = reader::read(&hex("A0 FF")).expect("accepted");
    assert_eq!((units[0].kind, units[0].set, units[0].code), (0, 3, 0x20));
    assert_eq!((units[1].kind, units[1].set, units[1].code), (0, 3, 0x7F));
    for set in 0..=11 {
        let used = (3..=11).contains(&set);
        for code in [0x20, 0x7F] {
            let refusal = writer::list_refusal(&[character(set, code)], &[]);
            assert_eq!(refusal.is_none(), used, "set {set}");
        }
    }
}

#[test]
fn a12_finals_of_each_form() {
    let forms: [(&str, &[(u8, u8)]); 5] = [
        ("1B 28", &[(0x42, 0), (0x4A, 2)]),
        ("1B 29", &[(0x49, 1)]),
        (
            "1B 2D",
            &[
                (0x41, 3),
                (0x42, 4),
                (0x43, 5),
                (0x44, 6),
                (0x46, 7),
                (0x47, 8),
                (0x48, 9),
                (0x4C, 10),
                (0x4D, 11),
            ],
        ),
        ("1B 24 28", &[(0x41, 12), (0x42, 13), (0x43, 14)]),
        ("1B 24 29", &[(0x41, 12), (0x42, 13), (0x43, 14)]),
    ];
    for (form, rows) in forms {
        let in_gl = form.ends_with("28");
        for last in 0x40..=0x7E_u8 {
            let mut s = hex(form);
            s.push(last);
            s.extend(if in_gl { [0x30, 0x21] } else { [0xB0, 0xA1] });
            match rows.iter().find(|row| row.0 == last) {
                Some(&(_, set)) => {
                    let units = reader::read(&s).expect("accepted");
                    assert_eq!(units[0].set, set, "{form} {last:X}");
                }
                None => assert_eq!(reader::check(&s), Answer::refusal(5, s.len() - 3)),
            }
        }
    }
    answers(&[
        ("1B 28 49", 5, 2),
        ("1B 29 4A", 5, 2),
        ("1B 29 42", 5, 2),
        ("1B 2D 45", 5, 2),
        ("1B 24 28 40", 5, 3),
    ]);
}

#[test]
fn a13_a14_nothing_else() {
    accepted(&[("9B 31 5D 41 9B 5D 09", 4)]);
    answers(&[
        ("1B 24 41", 4, 2),
        ("1B 24 42", 4, 2),
        ("1B 24", 2, 2),
        ("1B 5B", 4, 1),
        ("1B 2A 42", 4, 1),
        ("1B 2B 42", 4, 1),
        ("1B 2C 42", 4, 1),
        ("1B 2E 42", 4, 1),
        ("1B 2F 42", 4, 1),
    ]);
}

#[test]
fn a15_to_a19_directions() {
    answers(&[
        ("9B 31 5D 9B 5D 1B 24 28 42 30", 2, 10),
        ("9B 31 5D 9B 5D 1B 24 28 42 20", 3, 9),
        ("9B 31 5D 9B 5D 1B 24 28 42 30 21", 8, 9),
        ("41 9B 31", 2, 3),
        ("41 9B", 2, 2),
        ("41 9B 33", 4, 2),
        ("41 9B 31 31", 4, 3),
        ("41 9B 31 5D", 8, 1),
        ("20 9B 31 5D", 8, 1),
        ("41 9B 5D", 8, 1),
    ]);
    accepted(&[
        ("09 9B 31 5D", 2),
        ("0A 9B 31 5D", 2),
        ("9B 31 5D 41 9B 5D 9B 32 5D 41", 5),
        ("9B 31 5D 9B 5D 1B 28 42", 2),
        ("9B 31 5D 9B 5D 09 0A", 4),
        ("1B 28 42 1B 2D 41", 0),
    ]);
    assert_eq!(crate::oracle::write("1B 28 42 1B 2D 41"), Ok(String::new()));
}

#[test]
fn a18_depth() {
    let begins = |n: usize| hex(&"9B 31 5D ".repeat(n));
    assert_eq!(reader::check(&begins(16)), Answer::accepted(48, 16));
    assert_eq!(reader::check(&begins(17)), Answer::refusal(9, 48));
    let list = vec![plain(LEFT_TO_RIGHT); 17];
    refused(&list, &[], 9, 16);
    assert_eq!(writer::list_refusal(&list[..16], &[]), None);
}

// Request No. 2: an extended segment that has a text is text to the direction
// rule.

/// Segments with a text: of one octet, of 02 alone, of 02 and others, one
/// character of each width, and a name of several octets.
const WITH_TEXT: [&str; 8] = [
    "1B 25 2F 31 80 83 61 02 FF",
    "1B 25 2F 30 80 83 61 02 02",
    "1B 25 2F 31 80 84 61 02 02 1B",
    "1B 25 2F 31 80 85 61 02 62 63 02",
    "1B 25 2F 32 80 84 61 02 02 02",
    "1B 25 2F 33 80 85 61 02 9B 31 5D",
    "1B 25 2F 34 80 86 61 02 00 00 00 00",
    "1B 25 2F 31 80 84 61 62 02 FF",
];

/// Segments that are a name and 02, for every d.
const WITHOUT_TEXT: [&str; 7] = [
    "1B 25 2F 30 80 82 61 02",
    "1B 25 2F 31 80 82 61 02",
    "1B 25 2F 32 80 82 61 02",
    "1B 25 2F 33 80 82 61 02",
    "1B 25 2F 34 80 82 61 02",
    "1B 25 2F 31 80 84 61 62 63 02",
    "1B 25 2F 34 80 85 61 62 63 64 02",
];

/// Bad segments: no octet, no name, no 02, a bad octet in the name, and texts
/// that end inside a character; with each the octet that is refused.
const BAD: [(&str, usize); 7] = [
    ("1B 25 2F 31 80 80", 5),
    ("1B 25 2F 31 80 82 02 41", 6),
    ("1B 25 2F 31 80 82 61 62", 7),
    ("1B 25 2F 31 80 84 61 2A 02 41", 7),
    ("1B 25 2F 32 80 83 61 02 41", 8),
    ("1B 25 2F 33 80 84 61 02 41 41", 9),
    ("1B 25 2F 34 80 85 61 02 41 41 41", 10),
];

/// Number and place of a string whose pieces are these.
fn answer_of(pieces: &[&str]) -> (u8, usize) {
    let answer = reader::check(&hex(&pieces.concat()));
    (answer.number, answer.place)
}

#[test]
fn text_of_a_segment_before_the_first_mark() {
    for segment in WITH_TEXT {
        let length = hex(segment).len();
        for mark in ["9B 31 5D", "9B 32 5D"] {
            assert_eq!(answer_of(&[segment, mark]), (8, length), "{segment}");
            assert_eq!(answer_of(&["09", segment, "0A", mark]), (8, length + 2));
        }
        // No mark is asked for, and a revert is refused as ever.
        assert_eq!(answer_of(&[segment, "41"]), (0, length + 1), "{segment}");
        assert_eq!(answer_of(&[segment, "9B 5D"]), (8, length), "{segment}");
        assert_eq!(answer_of(&[segment, "9B 33"]), (4, length + 1), "{segment}");
    }
    for segment in WITHOUT_TEXT {
        let length = hex(segment).len();
        assert_eq!(answer_of(&[segment, "9B 31 5D"]), (0, length + 3));
        assert_eq!(answer_of(&["41", segment, "9B 31 5D"]), (8, length + 1));
    }
}

#[test]
fn text_of_a_segment_after_the_last_revert() {
    let reverted = "9B 31 5D 41 9B 5D";
    for segment in WITH_TEXT {
        assert_eq!(answer_of(&[reverted, segment]), (8, 6), "{segment}");
        let tabs = answer_of(&[reverted, "09 0A 1B 24 28 42", segment]);
        assert_eq!(tabs, (8, 12), "{segment}");
    }
    for segment in WITHOUT_TEXT {
        let length = hex(segment).len();
        assert_eq!(answer_of(&[reverted, segment]), (0, 6 + length));
        assert_eq!(answer_of(&[reverted, segment, "41"]), (8, 6 + length));
        let begun = answer_of(&[reverted, segment, "9B 32 5D 41"]);
        assert_eq!(begun, (0, 10 + length), "{segment}");
    }
}

#[test]
fn segments_within_a_direction() {
    for segment in WITH_TEXT.iter().chain(&WITHOUT_TEXT) {
        let length = hex(segment).len();
        assert_eq!(answer_of(&["9B 31 5D", segment]), (0, 3 + length));
        let deeper = answer_of(&["9B 31 5D 9B 32 5D 9B 5D", segment, "9B 31 5D"]);
        assert_eq!(deeper, (0, 11 + length), "{segment}");
    }
}

/// The shape of a segment is judged before its text is one for the rule.
#[test]
fn bad_segments_are_bad_in_every_place() {
    for (segment, octet) in BAD {
        for before in ["", "41", "9B 31 5D", "9B 31 5D 9B 5D", "9B 31 5D 9B 5D 09"] {
            let place = hex(before).len() + octet;
            assert_eq!(answer_of(&[before, segment]), (7, place), "{segment}");
        }
    }
    answers(&[
        ("9B 31 5D 9B 5D 1B 25 2F 31 80 84 61 02 FF", 2, 14),
        ("9B 31 5D 9B 5D 1B 25 2F 35 80 83 61 02 FF", 4, 8),
        ("9B 31 5D 9B 5D 1B 25 2F 31 7F", 7, 9),
    ]);
}

/// What a reader keeps after each of them.
#[test]
fn text_of_a_segment_is_remembered() {
    let texted = |s: &str, marked, depth, before| {
        let mut after = before;
        let state = by_hand(0, (0, 3), depth, marked, before);
        reader::read_on(&hex(s), state, |_, state| after = state.marks.texted);
        after
    };
    for (marked, depth) in [(false, 0), (false, 2), (true, 1), (true, 16)] {
        for before in [false, true] {
            for segment in WITH_TEXT {
                assert!(texted(segment, marked, depth, before), "{segment}");
            }
            for segment in WITHOUT_TEXT {
                assert_eq!(texted(segment, marked, depth, before), before);
            }
        }
    }
}

/// The units of a list of strings that are each an element, and their octets.
fn units_of(elements: &[&str]) -> (Vec<Unit>, Vec<u8>) {
    let mut units = Vec::new();
    let mut octets = Vec::new();
    for element in elements {
        let element = hex(element);
        units.push(match element[..] {
            [0x9B, 0x5D] => plain(REVERT),
            [0x9B, 0x31, 0x5D] => plain(LEFT_TO_RIGHT),
            [0x9B, 0x32, 0x5D] => plain(RIGHT_TO_LEFT),
            [0x09] => plain(TAB),
            [0x20] => plain(SPACE),
            [0x41] => A,
            _ => segment(
                u16::from(element[3]),
                octets.len() as u32,
                element.len() as u32 - 6,
            ),
        });
        octets.extend(element.get(6..).unwrap_or_default());
    }
    (units, octets)
}

/// Number and index of a list's refusal; 0 and its length for none.
fn listed(elements: &[&str]) -> (u8, usize) {
    let (units, octets) = units_of(elements);
    match writer::list_refusal(&units, &octets) {
        Some(refusal) => (refusal.number, refusal.place),
        None => {
            assert_eq!(written(&units, &octets), hex(&elements.concat()));
            (0, units.len())
        }
    }
}

#[test]
fn text_of_segments_in_lists() {
    let (begin, revert) = ("9B 32 5D", "9B 5D");
    for segment in WITH_TEXT {
        assert_eq!(listed(&[segment, begin]), (8, 1), "{segment}");
        assert_eq!(listed(&["09", segment, "09", begin]), (8, 3), "{segment}");
        assert_eq!(listed(&[begin, revert, segment]), (8, 2), "{segment}");
        assert_eq!(listed(&[begin, revert, "09", segment]), (8, 3), "{segment}");
        assert_eq!(listed(&[begin, segment, revert]), (0, 3), "{segment}");
        assert_eq!(listed(&[segment, "41", segment]), (0, 3), "{segment}");
    }
    for segment in WITHOUT_TEXT {
        assert_eq!(listed(&[segment, begin]), (0, 2), "{segment}");
        assert_eq!(listed(&[begin, revert, segment]), (0, 3), "{segment}");
        assert_eq!(listed(&[begin, segment, revert]), (0, 3), "{segment}");
        assert_eq!(listed(&["20", segment, begin]), (8, 2), "{segment}");
        assert_eq!(listed(&[begin, revert, segment, "20"]), (8, 3), "{segment}");
    }
    // The place of a writer's refusal stays the unit's index.
    for (segment, _) in BAD {
        assert_eq!(listed(&[segment, begin]), (7, 0), "{segment}");
        assert_eq!(listed(&[begin, revert, segment]), (7, 2), "{segment}");
        assert_eq!(listed(&[begin, segment]), (7, 1), "{segment}");
    }
}

/// Each unit is judged whole before the next, and within it 11, 7, 8, 9.
#[test]
fn order_within_a_segment_of_a_list() {
    let octets = hex("61 02 02 41");
    let (begin, revert) = (plain(LEFT_TO_RIGHT), plain(REVERT));
    let after = |last: Unit| [begin, revert, last];
    refused(&after(segment(0x35, 0, 4)), &octets, 11, 2);
    refused(&after(segment(0x31, 0, 5)), &octets, 11, 2);
    refused(&after(segment(0x31, 1, 3)), &octets, 7, 2);
    refused(&after(segment(0x32, 0, 3)), &octets, 7, 2);
    refused(&after(segment(0x32, 0, 4)), &octets, 8, 2);
    // The same octets, as a name alone, and with a text of one octet.
    assert_eq!(
        writer::list_refusal(&after(segment(0x34, 0, 2)), &octets),
        None
    );
    refused(&after(segment(0x31, 0, 3)), &octets, 8, 2);
    refused(&[segment(0x31, 0, 3), begin, plain(8)], &octets, 8, 1);
    let mut full = vec![begin; 16];
    full.extend([segment(0x31, 0, 4), begin]);
    refused(&full, &octets, 9, 17);
}

// Request No. 6: the direction in force after each unit, and the depth.

/// Direction and depth after each unit before the end or the offending element.
fn directed(s: &str, state: State) -> Vec<Directed> {
    let (units, _) = reader::units_from(&hex(s), state);
    units.iter().map(Unit::directed).collect()
}

#[test]
fn directions_after_each_unit() {
    let of = |s: &str| directed(s, State::fresh());
    assert_eq!(of("41 09"), [(0, 0), (0, 0)]);
    assert_eq!(of("09 9B 31 5D 41 20 E9")[0..2], [(0, 0), (1, 1)]);
    assert_eq!(of("09 9B 31 5D 41 20 E9")[2..], [(1, 1); 3]);
    assert_eq!(of("9B 32 5D 0A 1B 24 28 42 30 21 30 22"), [(2, 1); 4]);
    // A revert has the direction beneath, and none where that was the last.
    let nested = "9B 31 5D 9B 32 5D 41 9B 5D 41 9B 32 5D 9B 5D 9B 5D 09";
    let expected = [(1, 1), (2, 2), (2, 2), (1, 1), (1, 1), (2, 2), (1, 1)];
    assert_eq!(of(nested)[..7], expected);
    assert_eq!(of(nested)[7..], [(0, 0), (0, 0)]);
    // Also before an offending element, and after all were reverted.
    assert_eq!(of("9B 32 5D 9B 5D 41"), [(2, 1), (0, 0)]);
    assert_eq!(of("9B 32 5D 41 00 41"), [(2, 1), (2, 1)]);
    let again = of("9B 32 5D 9B 5D 0A 9B 31 5D 41");
    assert_eq!(again, [(2, 1), (0, 0), (0, 0), (1, 1), (1, 1)]);
}

#[test]
fn directions_of_segments() {
    for segment in WITH_TEXT.iter().chain(&WITHOUT_TEXT) {
        let alone = directed(segment, State::fresh());
        assert_eq!(alone, [(0, 0)], "{segment}");
        let within = directed(&format!("9B 32 5D {segment}"), State::fresh());
        assert_eq!(within, [(2, 1), (2, 1)], "{segment}");
    }
}

/// All sixteen are kept, the outer ones for the reverts.
#[test]
fn directions_at_every_depth() {
    let word = 0b1011_0010_1110_0101_u16;
    let direction = |level: usize| 1 + (word >> (level - 1) & 1);
    let mut s = Vec::new();
    let mut expected = Vec::new();
    for level in 1..=16 {
        s.extend([0x9B, 0x30 + direction(level) as u8, 0x5D, 0x41]);
        expected.extend([(direction(level), level as u16); 2]);
    }
    for level in (1..16).rev() {
        s.extend([0x9B, 0x5D, 0xE9]);
        expected.extend([(direction(level), level as u16); 2]);
    }
    s.extend([0x9B, 0x5D, 0x09]);
    expected.extend([(0, 0); 2]);
    let units = reader::read(&s).expect("accepted");
    let found: Vec<Directed> = units.iter().map(Unit::directed).collect();
    assert_eq!(found, expected);
}

/// A reader made by hand goes on from the directions that it holds.
#[test]
fn directions_from_a_state_made_by_hand() {
    let from = |levels, depth| {
        let position = Position {
            levels,
            depth,
            marked: 1,
            texted: 1,
            ..Position::OPENED
        };
        position.state()
    };
    assert_eq!(directed("41 09", from(0, 1)), [(1, 1); 2]);
    assert_eq!(directed("41 09", from(1, 1)), [(2, 1); 2]);
    // Idle digits mean nothing.
    assert_eq!(directed("09 0A", from(u64::MAX, 0)), [(0, 0); 2]);
    assert_eq!(directed("41", from(0b1110, 1)), [(1, 1)]);
    let reverts = directed("9B 5D 9B 5D 9B 5D 09", from(0b0110, 3));
    assert_eq!(reverts, [(2, 2), (2, 1), (0, 0), (0, 0)]);
    let deeper = directed("9B 31 5D 9B 5D 9B 32 5D", from(0xFFFF, 15));
    assert_eq!(deeper, [(1, 16), (2, 15), (2, 16)]);
    assert_eq!(directed("41", from(0xFFFF, 17)), []);
}

/// Each kind of unit keeps, adds or takes away; a promise of the whole list is
/// broken by each fault.
#[test]
fn depths_follow_by_one() {
    let s = "09 9B 32 5D 41 9B 31 5D 20 1B 25 2F 31 80 82 61 02 9B 5D 0A 9B 5D";
    let units = reader::read(&hex(s)).expect("accepted");
    assert!(depths_follow(0, &units));
    assert!(depths_follow(0, &[]) && depths_follow(9, &[]));
    assert!(!depths_follow(1, &units));
    for place in 0..units.len() {
        let (direction, depth) = units[place].directed();
        let changed = |directed| {
            let mut units = units.clone();
            units[place] = units[place].with_directed(directed);
            depths_follow(0, &units)
        };
        assert!(!changed((direction, depth + 2)), "{place}");
        assert!(!changed((direction, depth.wrapping_sub(1))), "{place}");
        let other = if direction == 0 { 1 } else { 0 };
        assert!(!changed((other, depth)), "{place}");
    }
}

/// The writer and the reading leave them out.
#[test]
fn directions_of_lists_mean_nothing() {
    let s = "9B 31 5D 1B 24 28 42 30 21 9B 32 5D 09 9B 5D 1B 25 2F 31 80 83 61 02 FF";
    let s = hex(s);
    let units = reader::read(&s).expect("accepted");
    assert_eq!(written(&units, &s), s);
    for directed in [(0, 0), (1, 1), (2, 16), (3, 17), (u16::MAX, u16::MAX)] {
        let others: Vec<Unit> = units.iter().map(|u| u.with_directed(directed)).collect();
        assert_eq!(written(&others, &s), s);
        let mut pairs = units.iter().zip(&others);
        assert!(pairs.all(|(a, b)| meaning(a, &s) == meaning(b, &s)));
    }
}

// Readers made by hand.

fn by_hand(place: usize, sets: (u8, u8), depth: usize, marked: bool, texted: bool) -> State {
    State {
        place,
        sets: Sets {
            gl: sets.0,
            gr: sets.1,
        },
        marks: Marks {
            open: vec![Direction::RightToLeft; depth],
            marked,
            texted,
        },
        handed: 0,
    }
}

/// Number and place of the last answer, and the units handed out before it.
fn read_by_hand(s: &str, state: State) -> (u8, usize, usize) {
    let (units, answer) = reader::units_from(&hex(s), state);
    (answer.number, answer.place, units.len())
}

#[test]
fn a20_states_that_contradict_themselves() {
    let fresh = (0, 3);
    let begin = "9B 31 5D";
    assert_eq!(
        read_by_hand(begin, by_hand(0, fresh, 3, false, true)),
        (8, 0, 0)
    );
    assert_eq!(
        read_by_hand(begin, by_hand(0, fresh, 3, true, true)),
        (0, 3, 1)
    );
    assert_eq!(
        read_by_hand("41", by_hand(0, fresh, 0, true, false)),
        (8, 0, 0)
    );
    assert_eq!(
        read_by_hand("41", by_hand(0, fresh, 3, false, true)),
        (0, 1, 1)
    );
    let revert = by_hand(0, fresh, 3, false, true);
    assert_eq!(read_by_hand("9B 5D 9B 5D 41", revert), (0, 5, 3));
    let reverts = by_hand(0, fresh, 2, false, true);
    assert_eq!(read_by_hand("9B 5D 9B 5D 41", reverts), (8, 4, 2));
    let full = by_hand(0, fresh, 16, false, true);
    assert_eq!(read_by_hand(begin, full), (8, 0, 0));
    let full = by_hand(0, fresh, 16, false, false);
    assert_eq!(read_by_hand(begin, full), (9, 0, 0));
}

/// The flags alone say what came before, as for a character.
#[test]
fn readers_made_by_hand_before_a_segment() {
    let read =
        |s: &str, depth, marked, texted| read_by_hand(s, by_hand(0, (0, 3), depth, marked, texted));
    for texted in [false, true] {
        for segment in WITH_TEXT {
            let length = hex(segment).len();
            assert_eq!(read(segment, 0, true, texted), (8, 0, 0), "{segment}");
            assert_eq!(read(segment, 0, false, texted), (0, length, 1));
            assert_eq!(read(segment, 1, true, texted), (0, length, 1));
            assert_eq!(read(segment, 1, false, texted), (0, length, 1));
            let then_a_mark = format!("{segment} 9B 31 5D");
            assert_eq!(read(&then_a_mark, 0, false, texted), (8, length, 1));
            assert_eq!(read(&then_a_mark, 3, false, texted), (8, length, 1));
            assert_eq!(read(&then_a_mark, 3, true, texted), (0, length + 3, 2));
        }
        for segment in WITHOUT_TEXT {
            let length = hex(segment).len();
            assert_eq!(read(segment, 0, true, texted), (0, length, 1));
            let then_a_mark = format!("{segment} 9B 31 5D");
            assert_eq!(read(&then_a_mark, 0, true, texted), (0, length + 3, 2));
            let before = if texted {
                (8, length, 1)
            } else {
                (0, length + 3, 2)
            };
            assert_eq!(read(&then_a_mark, 0, false, texted), before);
        }
        for (segment, octet) in BAD {
            for marked in [false, true] {
                assert_eq!(read(segment, 0, marked, texted), (7, octet, 0), "{segment}");
            }
        }
    }
}

#[test]
fn a21_to_a25_places_and_sets() {
    let (_, answer) = reader::units_from(&[0x20; 65_536], by_hand(70_000, (3, 0), 99, true, true));
    assert_eq!(answer, Answer::refusal(1, 0));
    let (_, answer) = reader::units_from(&[0x20; 65_536], by_hand(65_535, (0, 3), 0, false, false));
    assert_eq!(answer, Answer::refusal(1, 0));
    let good = |place, sets, depth| read_by_hand("41 42", by_hand(place, sets, depth, true, true));
    assert_eq!(good(0, (0, 3), 16), (0, 2, 2));
    assert_eq!(good(1, (0, 3), 1), (0, 2, 1));
    assert_eq!(good(2, (0, 3), 1), (0, 2, 0));
    assert_eq!(good(3, (0, 3), 1), (11, 0, 0));
    assert_eq!(good(0, (0, 3), 17), (11, 0, 0));
    for set in 0..=20 {
        let in_gl = [0, 2, 12, 13, 14].contains(&set);
        let in_gr = set == 1 || (3..=14).contains(&set);
        assert_eq!(good(0, (set, 3), 1).0 == 11, !in_gl, "set {set} in GL");
        assert_eq!(good(0, (0, set), 1).0 == 11, !in_gr, "set {set} in GR");
    }
    assert_eq!(good(0, (13, 13), 1), (0, 2, 1));
    // A place in the middle of an element is read as an element's start.
    let middle = by_hand(1, (0, 3), 0, false, false);
    assert_eq!(read_by_hand("1B 28 42 41", middle), (0, 4, 3));
}

#[test]
fn a22_a23_one_by_one() {
    let (units, answer) = reader::units_from(&hex("41 42 1B 2D 42 00"), State::fresh());
    assert_eq!((units.len(), answer), (2, Answer::refusal(3, 5)));
    let (units, answer) = reader::units_from(&hex("41 42"), State::fresh());
    assert_eq!((units.len(), answer), (2, Answer::accepted(2, 2)));
    let state = State {
        handed: usize::MAX - 1,
        ..State::fresh()
    };
    let (units, answer) = reader::units_from(&hex("41 42"), state);
    assert_eq!((units.len(), answer), (2, Answer::accepted(2, usize::MAX)));
}

#[test]
fn a26_a27_order_of_the_reader() {
    let with_room = |s: &str, room| reader::answer_with_room(reader::check(&hex(s)), room);
    assert_eq!(with_room("41 00", 0), Answer::refusal(3, 1));
    assert_eq!(with_room("41 42", 1), Answer::too_short(2));
    assert_eq!(with_room("41 42", 2), Answer::accepted(2, 2));
    assert_eq!(with_room("", 0), Answer::accepted(0, 0));
    let mut long = vec![0x20; 65_536];
    long[0] = 0x00;
    assert_eq!(reader::check(&long), Answer::refusal(1, 0));
}

// Runs.

fn run(start: usize, length: usize, set: u8, direction: u8) -> Run {
    Run {
        start,
        length,
        set,
        width: sets::width(set) as u8,
        direction,
    }
}

#[test]
fn a28_to_a31_runs() {
    let of = |s: &str| runs::runs(&hex(s)).expect("accepted");
    assert_eq!(of("41 1B 2D 42 41"), [run(0, 1, 0, 0), run(4, 1, 0, 0)]);
    assert_eq!(
        of("41 E9 20"),
        [run(0, 1, 0, 0), run(1, 1, 3, 0), run(2, 1, 0, 0)]
    );
    assert_eq!(of("1B 28 4A 20 20"), [run(3, 2, 2, 0)]);
    assert_eq!(
        of("9B 31 5D 41 9B 32 5D 1B 24 29 42 B0 A1 B0 A2 41 9B 5D 09 42"),
        [
            run(3, 1, 0, 1),
            run(11, 4, 13, 2),
            run(15, 1, 0, 2),
            run(19, 1, 0, 1)
        ]
    );
    assert_eq!(of("09 0A 1B 28 42"), []);
    assert_eq!(of("1B 25 2F 31 80 84 61 62 02 FF 41"), [run(10, 1, 0, 0)]);
}

#[test]
fn a30_runs_by_number() {
    let by_number = |s: &str, number| {
        let s = hex(s);
        runs::shown(s.len(), &runs::runs(&s), number)
    };
    let shown = by_number("09 41 42", 0);
    assert_eq!(shown.part, Some((1, 2)));
    assert_eq!(shown.answer, Answer::accepted(3, 2));
    let past = by_number("09 41 42", 1);
    assert_eq!((past.part, past.answer), (None, Answer::refusal(11, 0)));
    let bad = by_number("9B 31 5D 41 00", 7);
    assert_eq!((bad.part, bad.answer), (None, Answer::refusal(3, 4)));
    assert_eq!((bad.set, bad.width, bad.direction), (0, 0, 0));
}

/// No octet is left out of the runs, tabs, newlines, control sequences and
/// extended segments, and none is in two of them.
#[test]
fn a31_every_octet_lies_in_one_part() {
    let s = hex("9B 31 5D 41 09 1B 25 2F 31 80 84 61 62 02 FF 1B 24 29 42 B0 A1 20 0A 9B 5D");
    let mut covered = vec![0; s.len()];
    for run in runs::runs(&s).expect("accepted") {
        for place in &mut covered[run.start..run.start + run.length] {
            *place += 1;
        }
    }
    reader::read_on(&s, State::fresh(), |element, _| {
        use crate::shape::Piece;
        if !matches!(element.piece, Piece::Character { .. } | Piece::Space) {
            for place in &mut covered[element.start..element.end] {
                *place += 1;
            }
        }
    });
    assert!(covered.iter().all(|&times| times == 1));
}

// The writer.

#[test]
fn a32_to_a36_offending_units() {
    refused(&[plain(REVERT), plain(9)], &[], 8, 0);
    refused(&[A, plain(8)], &[], 11, 1);
    refused(&[A, plain(LEFT_TO_RIGHT)], &[], 8, 1);
    refused(&[plain(LEFT_TO_RIGHT), plain(REVERT), A], &[], 8, 2);
    refused(
        &[plain(LEFT_TO_RIGHT), plain(REVERT), plain(SPACE)],
        &[],
        8,
        2,
    );
    let octets = vec![0x61; 20_000];
    refused(&[segment(0x35, 0, 16_384)], &octets, 11, 0);
    refused(&[segment(0x31, 0, 20_000)], &octets[..100], 11, 0);
    refused(&[segment(0x31, 0, 16_384)], &octets, 7, 0);
    refused(&[segment(0x31, 0, 100)], &octets, 7, 0);
    refused(&[segment(0x31, 100, 0)], &octets[..100], 7, 0);
    refused(&[segment(0x31, 101, 0)], &octets[..100], 11, 0);
    refused(&[segment(0x31, 1 << 31, 1 << 31)], &octets, 11, 0);
    refused(&[segment(0x31, u32::MAX, u32::MAX)], &octets, 11, 0);
    refused(&[segment(0x31, u32::MAX, 1)], &octets, 11, 0);
    refused(&[segment(0x2F, 0, 4)], &hex("61 62 02 FF"), 11, 0);
    refused(&[segment(0x131, 0, 4)], &hex("61 62 02 FF"), 11, 0);
    refused(&[character(0, 0xC1)], &[], 11, 0);
    refused(&[character(13, 0xB0A1)], &[], 11, 0);
    refused(&[character(13, 0x30A1)], &[], 11, 0);
    refused(&[character(15, 0x41)], &[], 11, 0);
    let garbage = |kind| Unit {
        kind,
        set: 99,
        code: 7,
        start: u32::MAX,
        length: u32::MAX,
        direction: 3,
        depth: 17,
    };
    let far = Unit {
        start: 1 << 31,
        length: 1 << 31,
        ..A
    };
    let with_set = Unit {
        set: 200,
        ..segment(0x31, 0, 4)
    };
    let units = [garbage(TAB), garbage(SPACE), far, with_set];
    assert_eq!(
        written(&units, &hex("61 62 02 FF")),
        hex("09 20 41 1B 25 2F 31 80 84 61 62 02 FF")
    );
}

#[test]
fn a37_long_octets_are_no_refusal() {
    let mut octets = vec![0; 70_000];
    octets.extend(hex("61 02"));
    let units = [segment(0x31, 70_000, 2)];
    assert_eq!(written(&units, &octets), hex("1B 25 2F 31 80 82 61 02"));
}

#[test]
fn a38_a39_a45_order_of_the_writer() {
    assert_eq!(writer::answer(0, 0, 71, 0), Answer::refusal(12, 0));
    assert_eq!(writer::answer(0, 0, 72, 0), Answer::accepted(0, 0));
    assert_eq!(writer::answer(2, 7, 215, 0), Answer::refusal(12, 0));
    assert_eq!(writer::answer(2, 7, 216, 6), Answer::too_short(7));
    assert_eq!(writer::answer(2, 7, 216, 7), Answer::accepted(2, 7));
    assert_eq!(writer::answer(2, 65_536, 216, 0), Answer::refusal(1, 0));
    assert_eq!(writer::answer(2, 65_536, 215, 0), Answer::refusal(12, 0));
    refused(&vec![plain(TAB); 65_536], &[], 1, 0);
    refused(&vec![plain(99); 65_536], &[], 1, 0);
}

#[test]
fn a40_pairs_that_lazy_strings_reach() {
    let mut reached = vec![Sets::FRESH];
    let mut done = 0;
    while done < reached.len() {
        let from = reached[done];
        done += 1;
        for d in DESIGNATIONS {
            let to = from.with(d.side, d.set);
            // For a space set 0 or 2 is designated only over a two-octet set,
            // which a character of set 0 or 2 may do as well.
            if d.set != from.gl && d.set != from.gr && !reached.contains(&to) {
                reached.push(to);
            }
        }
    }
    assert_eq!(reached.len(), 62);
    assert!(reached.iter().all(|sets| sets.gl != sets.gr));
}

#[test]
fn a42_to_a44_choices() {
    // Y in GR would be as short.
    assert_eq!(
        written(&[X, A, Y], &[]),
        hex("1B 24 29 42 B0 A1 41 1B 24 28 43 30 21")
    );
    assert_eq!(written(&[A, X], &[]), hex("41 1B 24 28 42 30 21"));
    for n in 2..=6 {
        let pairs = [X, Y].repeat(n);
        let x_last = [pairs.clone(), vec![A, X]].concat();
        let y_last = [pairs, vec![A, Y]].concat();
        assert_eq!(written(&x_last, &[])[..4], hex("1B 24 29 42"));
        assert_eq!(written(&y_last, &[])[..4], hex("1B 24 28 42"));
    }
    assert_eq!(
        written(&[X, plain(SPACE), character(2, 0x5C)], &[]),
        hex("1B 24 28 42 30 21 1B 28 4A 20 5C")
    );
    assert_eq!(
        written(&[character(2, 0x5C), plain(SPACE)], &[]),
        hex("1B 28 4A 5C 20")
    );
}

/// The palette that the exhaustive tests of the writer draw from.
fn palette() -> Vec<Unit> {
    let mut units = vec![A, X, Y, plain(SPACE), plain(TAB)];
    units.extend([
        character(1, 0x31),
        character(2, 0x5C),
        character(3, 0x69),
        character(12, 0x3021),
    ]);
    units
}

/// Every list over the palette of this length.
fn lists(length: usize) -> Vec<Vec<Unit>> {
    let mut all = vec![Vec::new()];
    for _ in 0..length {
        all = all
            .iter()
            .flat_map(|list: &Vec<Unit>| {
                palette().into_iter().map(|unit| {
                    let mut longer = list.clone();
                    longer.push(unit);
                    longer
                })
            })
            .collect();
    }
    all
}

#[test]
fn the_forward_choice_is_that_of_the_enumeration() {
    for length in 0..=5 {
        for list in lists(length) {
            written(&list, &[]);
        }
    }
}

#[test]
fn the_forward_choice_on_longer_lists() {
    // All lists of eight units over X, Y and A.
    for number in 0..3_usize.pow(8) {
        let list: Vec<Unit> = (0..8)
            .map(|place| [X, Y, A][number / 3_usize.pow(place) % 3])
            .collect();
        written(&list, &[]);
    }
}

/// Every string of the list with at most one designation before each unit, any
/// designation and any side of a character, whatever they cost.
fn all_strings(list: &[Unit]) -> Vec<Vec<u8>> {
    let mut all = vec![(Vec::new(), Sets::FRESH)];
    for unit in list {
        let mut longer = Vec::new();
        for (string, sets) in &all {
            longer.extend(with_own_octets(string, *sets, unit));
            for d in DESIGNATIONS {
                let mut string: Vec<u8> = string.clone();
                string.extend_from_slice(d.octets);
                let sets = sets.with(d.side, d.set);
                longer.extend(with_own_octets(&string, sets, unit));
            }
        }
        all = longer;
    }
    all.into_iter().map(|(string, _)| string).collect()
}

/// The string with the unit's octets, in GL and in GR as the sets allow.
fn with_own_octets(string: &[u8], sets: Sets, unit: &Unit) -> Vec<(Vec<u8>, Sets)> {
    let mut all = Vec::new();
    let mut push = |octets: &[u8]| all.push(([string, octets].concat(), sets));
    let [high, low] = unit.code.to_be_bytes();
    let octets = [high, low];
    let octets = &octets[2 - sets::width(unit.set)..];
    match unit.kind {
        CHARACTER => {
            if sets.gl == unit.set {
                push(octets);
            }
            if sets.gr == unit.set {
                let upper: Vec<u8> = octets.iter().map(|o| o | 0x80).collect();
                push(&upper);
            }
        }
        SPACE if sets::width(sets.gl) == 1 => push(&[0x20]),
        TAB => push(&[0x09]),
        _ => {}
    }
    all
}

/// Whether nothing is designated but right before a character or space that
/// needs it, and a set that is on both sides is used in GL. This looks at the
/// string alone.
fn is_lazy(s: &[u8]) -> bool {
    use crate::shape::Piece;
    let mut lazy = true;
    let mut sets = Sets::FRESH;
    let mut waiting: Option<(Side, u8)> = None;
    reader::read_on(s, State::fresh(), |element, _| match element.piece {
        Piece::Designation(side, set) => {
            lazy &= waiting.is_none();
            waiting = Some((side, set));
        }
        piece => {
            let stood = match piece {
                Piece::Character { set, .. } => sets.gl == set || sets.gr == set,
                Piece::Space => sets.gl == 0 || sets.gl == 2,
                _ => true,
            };
            lazy &= waiting.is_none() || !stood;
            if let Some((side, set)) = waiting.take() {
                sets = sets.with(side, set);
            }
            if let Piece::Character { side, set, .. } = piece {
                lazy &= side == Side::Gl || sets.gl != set;
            }
        }
    });
    lazy && waiting.is_none()
}

/// The paper's choice taken literally: of all strings of the list the lazy
/// ones, of these the shortest, of these the one that has GL before GR and set
/// 0 before set 2 at the first difference. The first octet in which two of
/// them differ is 28 against 29, or 42 against 4A, so it is the least one.
#[test]
fn the_choice_out_of_all_strings() {
    for length in 0..=3 {
        for list in lists(length) {
            let all = all_strings(&list);
            let least = all.iter().map(Vec::len).min().expect("a string");
            assert_eq!(least, writer::least_length(&list));
            let chosen = all
                .into_iter()
                .filter(|s| s.len() == least && is_lazy(s))
                .min()
                .expect("a lazy string");
            assert_eq!(chosen, writer::shortest_lazy(&list, &[]));
        }
    }
}
