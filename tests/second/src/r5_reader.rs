//! The reader of the X11R5 form (request No. 7): what stands before the first 00,
//! without directions and extended segments. It is read by the beginnings of what is
//! left, and not by the machine of `shape`, so that the two check each other.

use crate::sets::{self, Sets, Side};
use crate::unit::*;

/// A refusal: its number, and the octet of the element at which it stands.
type Refused = (u8, usize);

/// What stands at the beginning of the octets.
enum Piece {
    Designation(Side, u8),
    Unit { kind: u8, set: u8, code: u16 },
}

/// A piece with the number of its octets.
type Found = Result<(usize, Piece), Refused>;

/// The units before the 00 or the offending element, and the answer where the list
/// has room.
pub fn reading(input: &[u8]) -> (Vec<Unit>, Answer) {
    match input.iter().position(|&octet| octet == 0x00) {
        None => (Vec::new(), Answer::refusal(14, input.len())),
        Some(end) => units_before(input, end),
    }
}

/// The same where the string is known to end at a place.
pub fn units_before(input: &[u8], end: usize) -> (Vec<Unit>, Answer) {
    if end > LIMIT {
        return (Vec::new(), Answer::refusal(1, 0));
    }
    let (mut units, mut sets, mut start) = (Vec::new(), Sets::FRESH, 0);
    while start < end {
        match first(&input[start..end], sets) {
            Err((number, octet)) => return (units, Answer::refusal(number, start + octet)),
            Ok((length, piece)) => {
                match piece {
                    Piece::Designation(side, set) => sets = sets.with(side, set),
                    Piece::Unit { kind, set, code } => units.push(Unit {
                        kind,
                        set,
                        code,
                        start: start as u32,
                        length: length as u32,
                        ..Unit::default()
                    }),
                }
                start += length;
            }
        }
    }
    let count = units.len();
    (units, Answer::accepted(end, count))
}

/// The first piece of octets that are at least one.
fn first(octets: &[u8], sets: Sets) -> Found {
    match octets[0] {
        0x09 => single(TAB),
        0x0A => single(NEWLINE),
        0x1B => escape(octets),
        0x9B => Err(mark(octets)),
        0x20 if sets::width(sets.gl) == 1 => single(SPACE),
        0x20..=0x7F => character(octets, sets.gl, 0x00),
        0xA0.. => character(octets, sets.gr, 0x80),
        _ => Err((3, 0)),
    }
}

fn single(kind: u8) -> Found {
    let (set, code) = (0, 0);
    Ok((1, Piece::Unit { kind, set, code }))
}

/// Each octet has the top bit of its side, and less that bit is one of the set's.
fn character(octets: &[u8], set: u8, top: u8) -> Found {
    let (width, values) = (sets::width(set), sets::values(set));
    let mut code = 0;
    for place in 0..width {
        let octet = *octets.get(place).ok_or((2, place))?;
        if octet & 0x80 != top || !values.contains(&(octet & 0x7F)) {
            return Err((3, place));
        }
        code = code << 8 | u16::from(octet & 0x7F);
    }
    let kind = CHARACTER;
    Ok((width, Piece::Unit { kind, set, code }))
}

/// A mark is refused for what it is once it is complete.
fn mark(octets: &[u8]) -> Refused {
    match octets[1..] {
        [] | [0x31 | 0x32] => (2, octets.len()),
        [0x5D, ..] | [0x31 | 0x32, 0x5D, ..] => (15, 0),
        [0x31 | 0x32, ..] => (4, 2),
        _ => (4, 1),
    }
}

/// An extended segment is refused for what it is with its d.
fn escape(octets: &[u8]) -> Found {
    match octets[1..] {
        [] | [0x24] | [0x25] | [0x25, 0x2F] => Err((2, octets.len())),
        [0x23, ..] => Err((6, 1)),
        [0x28 | 0x29 | 0x2D, ..] => designation(octets, 2),
        [0x24, 0x28 | 0x29, ..] => designation(octets, 3),
        [0x25, 0x2F, 0x30..=0x34, ..] => Err((15, 0)),
        [0x25, 0x2F, ..] => Err((4, 3)),
        [0x24 | 0x25, ..] => Err((4, 2)),
        _ => Err((4, 1)),
    }
}

/// A designation whose intermediates, if any, stand from `lead` on.
fn designation(octets: &[u8], lead: usize) -> Found {
    let rest = &octets[lead..];
    if let Some(0x20 | 0x24..=0x2F) = rest.first() {
        return Err((4, lead));
    }
    let intermediates = rest.iter().take_while(|o| matches!(o, 0x20..=0x2F));
    let last = lead + intermediates.count();
    match octets.get(last) {
        None => Err((2, last)),
        Some(0x40..=0x7E) => {
            let d = sets::spelled(&octets[..=last]).ok_or((5, last))?;
            Ok((last + 1, Piece::Designation(d.side, d.set)))
        }
        Some(_) => Err((4, last)),
    }
}

/// What the request says, and how what it leaves open is read.
#[cfg(test)]
mod tests {
    use super::*;
    use crate::oracle::octets;
    use crate::reader::{self, State};
    use crate::strings;

    fn hex(digits: &str) -> Vec<u8> {
        octets(digits).expect("hexadecimal octets")
    }

    /// Number and place of each input, and no count.
    fn refused(expected: &[(&str, u8, usize)]) {
        for &(input, number, place) in expected {
            let answer = reading(&hex(input)).1;
            assert_eq!(answer, Answer::refusal(number, place), "{input}");
        }
    }

    /// The place of the 00 and the count of units.
    fn accepted(expected: &[(&str, usize, usize)]) {
        for &(input, place, count) in expected {
            let (units, answer) = reading(&hex(input));
            assert_eq!(answer, Answer::accepted(place, count), "{input}");
            assert_eq!(units.len(), count, "{input}");
        }
    }

    #[test]
    fn the_first_00_ends_the_string() {
        accepted(&[
            ("00", 0, 0),
            ("41 00", 1, 1),
            ("41 00 00", 1, 1),
            ("41 00 7F", 1, 1),
            ("41 00 9B 5D 00 41", 1, 1),
            ("00 1B 25 2F 30", 0, 0),
            ("1B 28 42 00 20", 3, 0),
            ("1B 24 29 42 B0 A1 20 09 0A 00", 9, 4),
        ]);
        refused(&[("1B 25 2F 31 80 84 61 02 00 41", 15, 0)]);
        refused(&[("1B 25 2F 31 00 84 61 02 00 41 00", 15, 0)]);
        refused(&[("1B 24 28 42 30 00 21 00", 2, 5)]);
    }

    #[test]
    fn without_a_00() {
        refused(&[("", 14, 0), ("41", 14, 1), ("7F", 14, 1), ("9B 5D", 14, 2)]);
        for length in [LIMIT - 1, LIMIT, LIMIT + 1, 3 * LIMIT] {
            let answer = reading(&vec![0x7F; length]).1;
            assert_eq!(answer, Answer::refusal(14, length));
        }
    }

    /// It counts what stands before the 00, whatever stands behind it.
    #[test]
    fn the_limit() {
        let input = |octets: usize, behind: usize| {
            let mut input = vec![0x20; octets + 1 + behind];
            input[octets] = 0x00;
            reading(&input).1
        };
        assert_eq!(input(LIMIT, 0), Answer::accepted(LIMIT, LIMIT));
        assert_eq!(input(LIMIT, LIMIT), Answer::accepted(LIMIT, LIMIT));
        assert_eq!(input(3, 2 * LIMIT), Answer::accepted(3, 3));
        assert_eq!(input(LIMIT + 1, 0), Answer::refusal(1, 0));
        assert_eq!(input(LIMIT + 1, 9), Answer::refusal(1, 0));
        let bad = [&[0x7F; LIMIT + 1][..], &[0x00]].concat();
        assert_eq!(reading(&bad).1, Answer::refusal(1, 0));
        assert_eq!(reading(&bad[1..]).1, Answer::refusal(3, 0));
    }

    #[test]
    fn marks() {
        refused(&[
            ("9B 5D 00", 15, 0),
            ("9B 31 5D 00", 15, 0),
            ("9B 32 5D 41 9B 5D 00", 15, 0),
            ("41 9B 31 5D 00", 15, 1),
            ("41 9B 5D 00", 15, 1),
            ("1B 28 4A 20 9B 32 5D 00", 15, 4),
            ("9B 00", 2, 1),
            ("9B 31 00", 2, 2),
            ("9B 32 00 5D 00", 2, 2),
            ("41 9B 00 5D", 2, 2),
            ("9B 33 00", 4, 1),
            ("9B 33 5D 00", 4, 1),
            ("9B 31 31 5D 00", 4, 2),
            ("9B 9B 5D 00", 4, 1),
        ]);
    }

    #[test]
    fn segments() {
        for d in 0x30..=0x34_u8 {
            for behind in ["", "7F", "80", "80 7F", "80 80", "80 83 61 02 41", "FF FF"] {
                let input = format!("09 1B 25 2F {d:02X} {behind} 00");
                assert_eq!(reading(&hex(&input)).1, Answer::refusal(15, 1), "{input}");
            }
        }
        refused(&[
            ("1B 25 2F 35 00", 4, 3),
            ("1B 25 2F 2F 80 80 00", 4, 3),
            ("1B 25 2F 00", 2, 3),
            ("1B 25 2F 00 31 80 83 61 02 41 00", 2, 3),
            ("1B 25 00", 2, 2),
            ("1B 25 47 00", 4, 2),
            ("1B 00", 2, 1),
        ]);
    }

    #[test]
    fn other_offences() {
        refused(&[
            ("1B 23 00", 6, 1),
            ("1B 23 20 30 00", 6, 1),
            ("41 1B 23 20 31 41 00", 6, 2),
            ("1B 28 00", 2, 2),
            ("1B 28 00 42 00", 2, 2),
            ("1B 24 28 21 2F 00", 2, 5),
            ("1B 28 20 00", 4, 2),
            ("1B 28 21 42 00", 5, 3),
            ("1B 29 42 00", 5, 2),
            ("1B 24 42 00", 4, 2),
            ("1B 24 28 42 20 00", 3, 4),
            ("1B 24 28 42 30 A1 00", 3, 5),
            ("1B 24 29 42 B0 21 00", 3, 5),
            ("1B 24 28 42 30 00", 2, 5),
            ("1B 29 49 A0 00", 3, 3),
            ("41 01 00", 3, 1),
        ]);
    }

    #[test]
    fn records_have_no_direction() {
        let input = hex("1B 24 29 42 B0 A1 20 09 1B 24 28 41 30 21 0A B0 A2 00");
        let unit = |kind, (set, code), (start, length)| Unit {
            kind,
            set,
            code,
            start,
            length,
            direction: 0,
            depth: 0,
        };
        let expected = vec![
            unit(CHARACTER, (13, 0x3021), (4, 2)),
            unit(SPACE, (0, 0), (6, 1)),
            unit(TAB, (0, 0), (7, 1)),
            unit(CHARACTER, (12, 0x3021), (12, 2)),
            unit(NEWLINE, (0, 0), (14, 1)),
            unit(CHARACTER, (13, 0x3022), (15, 2)),
        ];
        assert_eq!(reading(&input), (expected, Answer::accepted(17, 6)));
    }

    /// The reading by the base reader, and its answer with 15 in place of what No. 7
    /// refuses: that is decided by the base's units and the octets at its place.
    fn by_the_base(s: &[u8]) -> (Vec<Unit>, Answer) {
        let mut state = State::fresh();
        let answer = reader::advance(s, &mut state, |_, _| {});
        let (mut units, _) = reader::units_from(s, State::fresh());
        let refused = units.iter().position(|u| u.is_mark() || u.kind == SEGMENT);
        if let Some(index) = refused {
            let unit = units[index];
            units.truncate(index);
            let head = if unit.kind == SEGMENT { 6 } else { 0 };
            return (units, Answer::refusal(15, unit.start as usize - head));
        }
        let segment = matches!(s[state.place..], [0x1B, 0x25, 0x2F, 0x30..=0x34, ..]);
        if segment && !answer.is_accepted() || answer.number == 8 {
            return (units, Answer::refusal(15, state.place));
        }
        (units, answer)
    }

    /// What stands before the 00 is read as the base reader reads it.
    #[test]
    fn as_the_base_reader() {
        let mut compare = |s: &[u8]| {
            let end = s.iter().position(|&octet| octet == 0x00);
            let s = &s[..end.unwrap_or(s.len())];
            let input = [s, &[0x00]].concat();
            assert_eq!(reading(&input), by_the_base(s), "{s:X?}");
            true
        };
        for prefix in strings::prefixes() {
            strings::all_strings(&prefix, &strings::TELLING, 2, &mut compare);
        }
        strings::all_strings(&[], &strings::FEW, 4, &mut compare);
        let mut random = crate::random::Random::new(1);
        for _ in 0..20_000 {
            compare(&strings::random_string(&mut random));
        }
    }
}
