//! The writer of the X11R5 form (request No. 7): which list is refused, and the
//! string, which has no choice in it.

use crate::sets::{self, Designation, Sets, Side, DESIGNATIONS};
use crate::unit::*;

/// Refusal 1 for the list, or that of the first offending unit.
pub fn list_refusal(units: &[Unit], segments: &[u8]) -> Option<Answer> {
    if units.len() > LIMIT {
        return Some(Answer::refusal(1, 0));
    }
    units.iter().enumerate().find_map(|(index, unit)| {
        offence(unit, segments).map(|number| Answer::refusal(number, index))
    })
}

/// The number with which a unit is refused, wherever it stands. The octets of a
/// segment are not looked at, but only where they lie.
pub fn offence(unit: &Unit, segments: &[u8]) -> Option<u8> {
    match unit.kind {
        CHARACTER if sets::uses(unit.set, unit.code) => None,
        SPACE | TAB | NEWLINE => None,
        LEFT_TO_RIGHT | RIGHT_TO_LEFT | REVERT => Some(15),
        SEGMENT if is_segment(unit, segments) => Some(15),
        _ => Some(11),
    }
}

fn is_segment(unit: &Unit, segments: &[u8]) -> bool {
    (0x30..=0x34).contains(&unit.code) && part(unit, segments).is_some()
}

/// The answer for a list of so many units without an offending one, whose string has
/// so many octets before its 00.
pub fn answer(units: usize, octets: usize, room: usize) -> Answer {
    if octets > LIMIT {
        Answer::refusal(1, 0)
    } else if room <= octets {
        Answer::too_short(octets + 1)
    } else {
        Answer::accepted(units, octets + 1)
    }
}

/// The string with its 00, for a list without an offending unit.
pub fn string(units: &[Unit]) -> Vec<u8> {
    let (mut string, mut sets) = (Vec::new(), Sets::FRESH);
    for unit in units {
        if let Some(d) = needed(unit, sets) {
            string.extend_from_slice(d.octets);
            sets = sets.with(d.side, d.set);
        }
        push_unit(&mut string, unit);
    }
    string.push(0x00);
    string
}

/// The designation without which the unit cannot be written.
pub fn needed(unit: &Unit, sets: Sets) -> Option<&'static Designation> {
    let set = match unit.kind {
        CHARACTER if sets.on(side(unit.set)) != unit.set => unit.set,
        SPACE if sets::width(sets.gl) == 2 => 0,
        _ => return None,
    };
    designation(set, side(set))
}

/// GL, but for a set that may stand in GR alone.
pub fn side(set: u8) -> Side {
    match sets::may_stand(set, Side::Gl) {
        true => Side::Gl,
        false => Side::Gr,
    }
}

pub fn designation(set: u8, side: Side) -> Option<&'static Designation> {
    DESIGNATIONS.iter().find(|d| (d.set, d.side) == (set, side))
}

/// Appends the unit's own octets.
pub fn push_unit(string: &mut Vec<u8>, unit: &Unit) {
    match unit.kind {
        CHARACTER => push_character(string, unit, side(unit.set)),
        SPACE => string.push(0x20),
        TAB => string.push(0x09),
        _ => string.push(0x0A),
    }
}

pub fn push_character(string: &mut Vec<u8>, unit: &Unit, side: Side) {
    let top = if side == Side::Gl { 0x00 } else { 0x80 };
    let octets = unit.code.to_be_bytes();
    let unused = octets.len() - sets::width(unit.set);
    string.extend(octets[unused..].iter().map(|octet| octet | top));
}

/// What the request says, and how what it leaves open is read.
#[cfg(test)]
mod tests {
    use super::*;
    use crate::lists;
    use crate::oracle::octets;
    use crate::r5_reader;
    use crate::random::Random;
    use crate::reader;
    use crate::writer;

    fn hex(digits: &str) -> Vec<u8> {
        octets(digits).expect("hexadecimal octets")
    }

    fn character(set: u8, code: u16) -> Unit {
        Unit {
            set,
            code,
            ..Unit::default()
        }
    }

    fn plain(kind: u8) -> Unit {
        Unit {
            kind,
            ..Unit::default()
        }
    }

    fn segment(d: u16, start: u32, length: u32) -> Unit {
        Unit {
            code: d,
            start,
            length,
            ..plain(SEGMENT)
        }
    }

    fn written(units: &[Unit], expected: &str) {
        assert_eq!(list_refusal(units, &[]), None, "{expected}");
        assert_eq!(string(units), hex(expected));
    }

    fn refused(units: &[Unit], segments: &[u8], number: u8, place: usize) {
        let refusal = list_refusal(units, segments);
        assert_eq!(refusal, Some(Answer::refusal(number, place)), "{units:?}");
    }

    #[test]
    fn sides() {
        let (x, a) = (character(13, 0x3021), character(0, 0x41));
        let (e9, yen) = (character(3, 0x69), character(2, 0x5C));
        written(&[], "00");
        written(&[x], "1B 24 28 42 30 21 00");
        // Ten octets, where the base writer needs seven.
        written(&[x, a], "1B 24 28 42 30 21 1B 28 42 41 00");
        written(&[a, x, e9, a], "41 1B 24 28 42 30 21 E9 1B 28 42 41 00");
        written(&[a, yen, a], "41 1B 28 4A 5C 1B 28 42 41 00");
        let (kana, latin) = (character(1, 0x31), character(4, 0x7F));
        written(
            &[kana, e9, latin, kana, a],
            "1B 29 49 B1 1B 2D 41 E9 1B 2D 42 FF 1B 29 49 B1 41 00",
        );
        for (set, last) in [(12, "41"), (13, "42"), (14, "43")] {
            let unit = character(set, 0x217E);
            let one = format!("1B 24 28 {last} 21 7E");
            written(&[unit, e9, unit], &format!("{one} E9 21 7E 00"));
        }
    }

    #[test]
    fn spaces() {
        let (x, yen, space) = (character(13, 0x3021), character(2, 0x5C), plain(SPACE));
        written(&[space], "20 00");
        written(&[yen, space], "1B 28 4A 5C 20 00");
        written(
            &[x, space, x],
            "1B 24 28 42 30 21 1B 28 42 20 1B 24 28 42 30 21 00",
        );
        // The base writer designates set 2 at the space.
        written(
            &[x, space, yen],
            "1B 24 28 42 30 21 1B 28 42 20 1B 28 4A 5C 00",
        );
        let (tab, newline) = (plain(TAB), plain(NEWLINE));
        written(&[x, tab, newline, x], "1B 24 28 42 30 21 09 0A 30 21 00");
        written(&[yen, tab, space], "1B 28 4A 5C 09 20 00");
    }

    #[test]
    fn offending_units() {
        for kind in [LEFT_TO_RIGHT, RIGHT_TO_LEFT, REVERT] {
            refused(&[plain(kind)], &[], 15, 0);
            refused(&[plain(TAB), plain(SPACE), plain(kind)], &[], 15, 2);
        }
        refused(&[plain(REVERT), plain(9)], &[], 15, 0);
        refused(&[plain(8), plain(REVERT)], &[], 11, 0);
        refused(&[plain(255)], &[], 11, 0);
        refused(&[character(15, 0x41)], &[], 11, 0);
        refused(&[character(0, 0x20)], &[], 11, 0);
        refused(&[character(0, 0xC1)], &[], 11, 0);
        refused(&[character(13, 0xB0A1)], &[], 11, 0);
    }

    #[test]
    fn segments_are_11_or_15() {
        let octets = vec![0x61; 20_000];
        let good = hex("61 62 02 FF");
        refused(&[segment(0x31, 0, 4)], &good, 15, 0);
        refused(&[segment(0x32, 0, 4)], &good, 15, 0);
        refused(&[segment(0x31, 0, 0)], &[], 15, 0);
        refused(&[segment(0x31, 4, 0)], &good, 15, 0);
        refused(&[segment(0x31, 0, 16_384)], &octets, 15, 0);
        refused(&[segment(0x34, 0, 20_000)], &octets, 15, 0);
        refused(&[segment(0x31, 5, 0)], &good, 11, 0);
        refused(&[segment(0x31, 1, 4)], &good, 11, 0);
        refused(&[segment(0x31, u32::MAX, 1)], &good, 11, 0);
        refused(&[segment(0x31, 1, u32::MAX)], &good, 11, 0);
        refused(&[segment(0x2F, 0, 4)], &good, 11, 0);
        refused(&[segment(0x35, 0, 4)], &good, 11, 0);
        refused(&[segment(0x131, 0, 4)], &good, 11, 0);
    }

    #[test]
    fn answers_count_the_00_and_the_limit_does_not() {
        assert_eq!(answer(0, 0, 0), Answer::too_short(1));
        assert_eq!(answer(0, 0, 1), Answer::accepted(0, 1));
        assert_eq!(answer(2, 7, 7), Answer::too_short(8));
        assert_eq!(answer(2, 7, 8), Answer::accepted(2, 8));
        assert_eq!(answer(9, LIMIT, 0), Answer::too_short(65_536));
        assert_eq!(answer(9, LIMIT, 65_535), Answer::too_short(65_536));
        assert_eq!(answer(9, LIMIT, 65_536), Answer::accepted(9, 65_536));
        assert_eq!(answer(9, LIMIT + 1, 0), Answer::refusal(1, 0));
        assert_eq!(answer(9, LIMIT + 1, 99_999), Answer::refusal(1, 0));
        refused(&vec![plain(TAB); LIMIT + 1], &[], 1, 0);
        refused(&vec![plain(9); LIMIT + 1], &[], 1, 0);
        assert_eq!(list_refusal(&vec![plain(TAB); LIMIT], &[]), None);
    }

    /// What is written is read back by both readers, and is not shorter than what the
    /// base writes, which refuses the same lists but for those of 15.
    #[test]
    fn as_the_base_writer() {
        let mut random = Random::new(1);
        let mut met = [0; 16];
        for _ in 0..20_000 {
            let list = lists::random_list(&mut random);
            let (units, segments) = (&list.units[..], &list.segments[..]);
            let refusal = list_refusal(units, segments);
            met[refusal.map_or(0, |answer| usize::from(answer.number))] += 1;
            let base = writer::list_refusal(units, segments);
            match refusal {
                Some(answer) if answer.number == 15 => {
                    assert!(base.is_none_or(|base| base.place >= answer.place));
                }
                _ => assert_eq!(base, refusal),
            }
            if refusal.is_none() {
                let string = string(units);
                let octets = string.len() - 1;
                assert!(octets >= writer::least_length(units));
                let read = r5_reader::reading(&string);
                assert_eq!(read.1, Answer::accepted(octets, units.len()));
                assert_eq!(reader::read(&string[..octets]), Ok(read.0.clone()));
                let meaning = |unit| meaning(unit, &[]);
                assert!(read.0.iter().map(meaning).eq(units.iter().map(meaning)));
            }
        }
        assert!(
            met[0] > 5_000 && met[11] > 500 && met[15] > 5_000,
            "{met:?}"
        );
    }
}
