//! Request No. 4: the octet of a refused element at which the string is refused.
//! The number is decided before; here the octet that the request names for it is
//! looked for among the element's octets.

use crate::sets::{self, Sets};
use crate::shape;

/// Where in a string that is refused with this number the place is, for the
/// element that starts at `start` with these sets in force.
pub fn place(s: &[u8], start: usize, sets: Sets, number: u8) -> usize {
    let element = &s[start..];
    match number {
        2 => s.len(),
        3 => start + unused(element, sets),
        4 => start + unknown(element),
        5 => start + final_octet(element),
        6 => start + version(element),
        7 => start + bad_in_segment(element),
        _ => start,
    }
}

/// The first octet, unless a two-octet character may begin with it: then the
/// second is the bad one.
fn unused(element: &[u8], sets: Sets) -> usize {
    let (set, low) = match element[0] {
        octet @ 0x80.. => (sets.gr, octet - 0x80),
        octet => (sets.gl, octet),
    };
    let begins = sets::width(set) == 2 && sets::values(set).contains(&low);
    usize::from(begins)
}

/// The known sequences other than designations, of a segment the head up to d.
const SEQUENCES: [&[u8]; 9] = [
    &[0x1B, 0x23],
    &[0x1B, 0x25, 0x2F, 0x30],
    &[0x1B, 0x25, 0x2F, 0x31],
    &[0x1B, 0x25, 0x2F, 0x32],
    &[0x1B, 0x25, 0x2F, 0x33],
    &[0x1B, 0x25, 0x2F, 0x34],
    &[0x9B, 0x31, 0x5D],
    &[0x9B, 0x32, 0x5D],
    &[0x9B, 0x5D],
];

/// The octet behind the longest beginning that some known sequence has too.
fn unknown(element: &[u8]) -> usize {
    let others = SEQUENCES.iter().map(|sequence| shared(element, sequence));
    let designations = sets::leads().map(|lead| designating(element, lead));
    others.chain(designations).max().unwrap_or(0)
}

/// How many octets at the beginning are the same.
fn shared(element: &[u8], sequence: &[u8]) -> usize {
    let pairs = element.iter().zip(sequence);
    pairs.take_while(|(a, b)| a == b).count()
}

/// How many octets a designation that begins so may begin with: behind the lead
/// stand intermediates, of which 21-23 is the first. A final is not looked for,
/// since with one the sequence would be known.
fn designating(element: &[u8], lead: &[u8]) -> usize {
    match element.strip_prefix(lead) {
        Some(rest @ [0x21..=0x23, ..]) => {
            let intermediates = rest.iter().take_while(|o| matches!(o, 0x20..=0x2F));
            lead.len() + intermediates.count()
        }
        _ => shared(element, lead),
    }
}

/// All octets of a designation but the final are under 40.
fn final_octet(element: &[u8]) -> usize {
    let found = element.iter().position(|&octet| octet >= 0x40);
    found.expect("what is refused 5 has a final octet")
}

fn version(element: &[u8]) -> usize {
    let found = element.iter().position(|&octet| octet == 0x23);
    found.expect("what is refused 6 has a 23")
}

/// The places of M, L and the first of the n octets in a segment.
const M: usize = 4;
const L: usize = 5;
const BODY: usize = 6;

/// The first of all octets that the request names and that this segment has.
fn bad_in_segment(element: &[u8]) -> usize {
    let low = [M, L].into_iter().find(|&place| is_low(element, place));
    let least = low.or_else(|| faults_of_body(element).into_iter().min());
    least.expect("what is refused 7 has a fault")
}

fn is_low(element: &[u8], place: usize) -> bool {
    element.get(place).is_some_and(|&octet| octet < 0x80)
}

/// The places for all that is wrong with the n octets, in no order.
fn faults_of_body(element: &[u8]) -> Vec<usize> {
    let n = usize::from(element[M] - 0x80) * 128 + usize::from(element[L] - 0x80);
    let body = &element[BODY..BODY + n];
    // With n of 0 the octet before the n octets, L, stands for the last of them.
    let last = BODY + n - 1;
    let separator = body.iter().position(|&octet| octet == 0x02);
    // With no 02 all of them are the name, and there is no text.
    let name = &body[..separator.unwrap_or(n)];
    let text = separator.map_or(0, |place| n - place - 1);
    let bad = (0..name.len()).filter(|&place| !shape::is_name_octet(&name[place]));
    let mut faults: Vec<usize> = bad.map(|place| BODY + place).collect();
    if separator == Some(0) {
        faults.push(BODY);
    }
    if separator.is_none() || !text.is_multiple_of(shape::octets_of_one(element[3])) {
        faults.push(last);
    }
    faults
}

#[cfg(test)]
mod tests {
    use crate::oracle;
    use crate::reader;

    /// Number and place of each string, alone and behind other elements.
    fn refused(expected: &[(&str, u8, usize)]) {
        let before = ["", "41", "09 0A 1B 2D 42 E9", "9B 31 5D 41 1B 28 4A"];
        for &(string, number, place) in expected {
            for before in before {
                let prefix = oracle::octets(before).expect("hexadecimal octets");
                let whole = format!("{before} {string}");
                let s = oracle::octets(&whole).expect("hexadecimal octets");
                let answer = reader::check(&s);
                let found = (answer.number, answer.place, answer.count);
                assert_eq!(found, (number, prefix.len() + place, 0), "{whole}");
            }
        }
    }

    /// The strings that the request itself names.
    #[test]
    fn the_amended_cases() {
        refused(&[
            ("1B 24 42", 4, 2),
            ("1B 28", 2, 2),
            ("1B 29 42", 5, 2),
            ("1B 28 21 42", 5, 3),
            ("1B 24 28 42 30", 2, 5),
            ("1B 25 2F 32 80 84 61 62 02 FF", 7, 9),
        ]);
    }

    #[test]
    fn cut_elements_are_refused_at_the_length() {
        refused(&[
            ("1B", 2, 1),
            ("9B", 2, 1),
            ("9B 32", 2, 2),
            ("1B 24 29", 2, 3),
            ("1B 28 21 2F 20", 2, 5),
            ("1B 25", 2, 2),
            ("1B 25 2F 33", 2, 4),
            ("1B 25 2F 33 80", 2, 5),
            // n is 16,383, and bad name octets are among the few that are there.
            ("1B 25 2F 33 FF FF", 2, 6),
            ("1B 25 2F 33 FF FF 2A 02 00", 2, 9),
            ("1B 25 2F 31 80 83 02 00", 2, 8),
        ]);
    }

    #[test]
    fn unused_and_second_octets() {
        refused(&[
            ("00", 3, 0),
            ("7F", 3, 0),
            ("80 41", 3, 0),
            ("1B 29 49 A0", 3, 3),
            ("1B 24 28 42 20", 3, 4),
            ("1B 24 28 42 7F 21", 3, 4),
            ("1B 24 28 42 30 20", 3, 5),
            ("1B 24 28 42 30 A1", 3, 5),
            ("1B 24 28 42 30 1B 28 42", 3, 5),
            ("1B 24 29 42 A0 A1", 3, 4),
            ("1B 24 29 42 FF", 3, 4),
            ("1B 24 29 42 9F", 3, 4),
            ("1B 24 29 42 B0 21", 3, 5),
            ("1B 24 29 42 B0 FF", 3, 5),
        ]);
    }

    #[test]
    fn unknown_octets() {
        refused(&[
            ("1B 41", 4, 1),
            ("1B 1B 28 42", 4, 1),
            ("1B 2A 42", 4, 1),
            ("1B 24 24", 4, 2),
            ("1B 28 20 42", 4, 2),
            ("1B 28 24 42", 4, 2),
            ("1B 2D 3A", 4, 2),
            ("1B 24 28 2F", 4, 3),
            ("1B 24 29 7F", 4, 3),
            ("1B 28 21 3A", 4, 3),
            ("1B 24 28 23 20 2F 1B", 4, 6),
            ("1B 25 47", 4, 2),
            ("1B 25 2F 2F", 4, 3),
            ("1B 25 2F 35", 4, 3),
            ("9B 33", 4, 1),
            ("9B 9B 5D", 4, 1),
            ("9B 31 31", 4, 2),
            ("9B 32 1B", 4, 2),
        ]);
    }

    #[test]
    fn finals_and_versions() {
        refused(&[
            ("1B 28 41", 5, 2),
            ("1B 2D 7E 41", 5, 2),
            ("1B 24 28 40", 5, 3),
            ("1B 24 29 23 42", 5, 4),
            ("1B 2D 21 20 2F 28 41 41", 5, 6),
            ("1B 23", 6, 1),
            ("1B 23 23", 6, 1),
            ("1B 23 20 30", 6, 1),
        ]);
    }

    #[test]
    fn heads_of_segments() {
        refused(&[
            ("1B 25 2F 30 7F", 7, 4),
            ("1B 25 2F 30 7F 80 61", 7, 4),
            ("1B 25 2F 30 00 00", 7, 4),
            ("1B 25 2F 30 80 7F", 7, 5),
            ("1B 25 2F 34 FF 02 61 02", 7, 5),
            // No octet at all.
            ("1B 25 2F 30 80 80", 7, 5),
            ("1B 25 2F 34 80 80 61 02", 7, 5),
        ]);
    }

    #[test]
    fn names_of_segments() {
        refused(&[
            ("1B 25 2F 30 80 83 61 2A 02", 7, 7),
            ("1B 25 2F 30 80 85 61 3F 00 02 00", 7, 7),
            // A bad octet and a wrong length.
            ("1B 25 2F 32 80 84 20 61 02 00", 7, 6),
            // With no 02, a bad octet anywhere, also the last.
            ("1B 25 2F 30 80 83 61 7F 61", 7, 7),
            ("1B 25 2F 30 80 83 61 62 A0", 7, 8),
            ("1B 25 2F 30 80 81 80", 7, 6),
            // An empty name, with a right and with a wrong length.
            ("1B 25 2F 30 80 81 02", 7, 6),
            ("1B 25 2F 32 80 83 02 2A 2A", 7, 6),
            ("1B 25 2F 32 80 82 02 2A", 7, 6),
            ("1B 25 2F 31 80 82 02 02", 7, 6),
        ]);
    }

    #[test]
    fn ends_of_segments() {
        refused(&[
            ("1B 25 2F 30 80 81 61", 7, 6),
            ("1B 25 2F 30 80 83 61 62 63", 7, 8),
            ("1B 25 2F 34 80 83 61 62 63 02", 7, 8),
            ("1B 25 2F 32 80 83 61 02 02", 7, 8),
            ("1B 25 2F 33 80 84 61 02 00 00 00", 7, 9),
            ("1B 25 2F 34 80 87 61 02 00 2A 00 00 00", 7, 12),
        ]);
    }

    /// The octet of a fault counts, and not how far n reaches in one octet.
    #[test]
    fn a_longest_segment() {
        let mut s = vec![0x1B, 0x25, 0x2F, 0x32, 0xFF, 0xFF];
        s.resize(6 + 16_383, 0x61);
        let place = |s: &[u8]| (reader::check(s).number, reader::check(s).place);
        assert_eq!(place(&s), (7, 16_388));
        s[16_000] = 0x02;
        assert_eq!(place(&s), (0, 16_389));
        s[16_001] = 0x02;
        assert_eq!(place(&s), (0, 16_389));
        s[15_999] = 0x02;
        assert_eq!(place(&s), (7, 16_388));
        s[15_998] = 0x3F;
        assert_eq!(place(&s), (7, 15_998));
        s.push(0x00);
        assert_eq!(place(&s), (7, 15_998));
    }

    /// The direction rule keeps the start, also of a character of two octets.
    #[test]
    fn directions_keep_the_start() {
        let place = |string: &str| {
            let answer = reader::check(&oracle::octets(string).expect("hexadecimal octets"));
            (answer.number, answer.place)
        };
        assert_eq!(place("09 9B 5D"), (8, 1));
        assert_eq!(place("41 9B 31 5D"), (8, 1));
        assert_eq!(place("9B 31 5D 9B 5D 1B 24 28 42 30 21"), (8, 9));
        assert_eq!(place("9B 31 5D 9B 5D 1B 25 2F 31 80 83 61 02 FF"), (8, 5));
        assert_eq!(place(&"9B 32 5D ".repeat(17)), (9, 48));
    }

    /// The line that the program prints for a refused string.
    #[test]
    fn the_line_has_the_place() {
        let line = |string| oracle::write(string).expect("hexadecimal octets");
        assert_eq!(line("41 1B 24 42"), "refused 4 at 3");
        assert_eq!(line("1B 25 2F 32 80 84 61 62 02 FF"), "refused 7 at 9");
        assert_eq!(line("1B 24 28 42 30"), "refused 2 at 5");
    }
}
