//! Inputs for the X11R5 reader: other strings with 00 put in, the elements that it
//! refuses whole and cut, and inputs at the limit.

use crate::random::Random;
use crate::reader::{self, State};
use crate::sets::DESIGNATIONS;
use crate::shape::Piece;
use crate::strings::{self, damage, repeated, segment, TELLING};
use crate::unit::LIMIT;

/// Behind a 00: the end, another 00, and what would complete most elements that the
/// 00 cuts, go on with the text, or be refused.
const BEHIND: [&[u8]; 8] = [
    b"",
    b"\0",
    b"]\0",
    b"B",
    b"\x02\x80\x80a\0\0",
    b"\xA1\xA1\0",
    b"\x7F",
    b"\x9B]\x1B#\x1B%/0\0",
];

/// Shows a string with a 00 behind it, and then, as its turn is, as it stands, with more
/// behind the 00, or with a 00 before one of its octets or in place of one. The number of
/// these ways falls on all turns by which strings are made.
pub fn with_00(s: &[u8], turn: usize, mut take: impl FnMut(&[u8])) {
    let ended = [s, &[0x00]].concat();
    take(&ended);
    let (way, turn) = (turn % 5, turn / 5);
    let (before, behind) = ended.split_at(turn % ended.len());
    match way {
        0 => take(s),
        1 => take(&[&ended, BEHIND[turn % BEHIND.len()]].concat()),
        2 => take(&[before, &[0x00], &s[before.len()..]].concat()),
        3 => take(&[before, &[0x00], behind].concat()),
        _ => take(&[before, &[0x00], &behind[1..]].concat()),
    }
}

/// Shows a string with a 00 at each place, before each octet and in place of it.
pub fn at_each_place(s: &[u8], mut take: impl FnMut(&[u8])) {
    for place in 0..=s.len() {
        let (before, behind) = s.split_at(place);
        take(&[before, &[0x00], behind].concat());
        if let [_, behind @ ..] = behind {
            take(&[before, &[0x00], behind].concat());
        }
    }
}

/// Before an element that is refused: nothing, text, after which the direction rule
/// would refuse a mark, controls, and each kind of set on either side.
const BEFORE: [&[u8]; 7] = [
    b"",
    b"A",
    b"\x09\x0A",
    b" \xE9",
    b"\x1B$(B0!",
    b"\x1B$)C\xB0\xA1",
    b"\x1B(J\\\x1B)I",
];

/// Octets for M and L, low ones too.
const LENGTHS: [u8; 5] = [0x01, 0x7F, 0x80, 0x82, 0xFF];

/// Shows marks and extended segments, whole and cut behind every octet, with every octet
/// in place of d, of a mark's parameter and of its final.
pub fn refused_elements(mut take: impl FnMut(&[u8])) {
    for octet in 0..=255 {
        let text = segment(octet, b"a\x02\xFF\0A");
        let elements = [&text[..], &[0x9B, octet, 0x5D], &[0x9B, 0x31, octet, 0x5D]];
        for element in elements {
            for cut in 1..=element.len() {
                around(&element[..cut], &mut take);
            }
        }
    }
    for d in 0x30..=0x34 {
        for (m, l) in LENGTHS.iter().flat_map(|m| LENGTHS.map(|l| (*m, l))) {
            around(&[0x1B, 0x25, 0x2F, d, m, l, b'a', 0x02], &mut take);
        }
    }
}

/// An element behind and before others, with a 00 and without.
fn around(element: &[u8], take: &mut impl FnMut(&[u8])) {
    for before in BEFORE {
        take(&[before, element, &[0x00]].concat());
    }
    take(&[element, b" A\0"].concat());
    take(&[element, b"\0]\0"].concat());
    take(element);
}

/// A random input: of half of them the marks and segments are dropped, so that most
/// of these are accepted.
pub fn random_input(random: &mut Random) -> Vec<u8> {
    let mut s = strings::random_string(random);
    if random.percent(50) {
        s = without_refused(&s);
    }
    for _ in 0..random.pick(&[0, 0, 0, 1, 2]) {
        damage(random, &mut s, &TELLING);
    }
    if random.percent(20) {
        s.extend(foreign(random));
    }
    if random.percent(90) {
        s.push(0x00);
        s.extend_from_slice(random.pick(&BEHIND));
    }
    for _ in 0..random.pick(&[0, 0, 0, 1, 2]) {
        let place = random.below(s.len() + 1);
        s.insert(place, 0x00);
    }
    s
}

/// The beginning of a mark, of a version sequence, or of a segment with any d.
fn foreign(random: &mut Random) -> Vec<u8> {
    let (d, m) = (random.between(0x2F, 0x3F) as u8, random.octet());
    let element: &[u8] = match random.below(8) {
        0 => &[0x1B, 0x23, 0x20, 0x30],
        1 => &[0x9B, 0x5D],
        2..=3 => &[0x9B, random.pick(&[0x31, 0x32]), 0x5D],
        _ => &[0x1B, 0x25, 0x2F, d, m, 0x82, 0x61, 0x02],
    };
    let cut = random.between(1, element.len());
    element[..random.pick(&[cut, element.len()])].to_vec()
}

/// The string up to an offending element, without marks and segments.
fn without_refused(s: &[u8]) -> Vec<u8> {
    let mut kept = Vec::new();
    reader::read_on(s, State::fresh(), |element, _| match element.piece {
        Piece::Begin(_) | Piece::Revert | Piece::Segment { .. } => {}
        _ => kept.extend_from_slice(&s[element.start..element.end]),
    });
    kept
}

/// At the end of a string of some length: good octets, ones that are not, a cut
/// element, and elements that are refused.
const LAST: [&[u8]; 7] = [
    b"AA", b"A\x7F", b"\x9B1", b"\x9B]", b"\x9B1]", b"\x1B%/1", b"\x1B%/",
];

/// Inputs with about 65,535 octets before their 00, and long ones without a 00 or with
/// an early one.
pub fn limit_inputs(random: &mut Random) -> Vec<Vec<u8>> {
    let mut all = Vec::new();
    for length in [LIMIT - 1, LIMIT, LIMIT + 1, LIMIT + 2] {
        for s in limit_strings(random, length) {
            all.push([&s[..], b"\0"].concat());
            all.push([&s[..], b"\0\0A"].concat());
            all.push(s);
        }
    }
    for length in [2 * LIMIT, 200_000] {
        all.push(vec![0x41; length]);
        all.push([&[0x7F][..], &vec![0x41; length]].concat());
        for place in [0, 3, LIMIT - 1, LIMIT, LIMIT + 1] {
            let mut input = vec![0x41; length];
            input[place] = 0x00;
            input[length - 1] = 0x00;
            all.push(input);
        }
    }
    all
}

/// Strings of exactly this length.
fn limit_strings(random: &mut Random, length: usize) -> Vec<Vec<u8>> {
    let mut all = vec![
        repeated(&[], b"A\xE9\x09 ", length),
        repeated(b"\x1B$(B", b"0!", length),
        repeated(b"\x1B$)C", b"\xB0\xA1\x0A", length),
        repeated(b"\x7F", b"A", length),
        repeated(b"\x1B#", b"A", length),
        random_good(random, length),
    ];
    for last in LAST {
        let mut s = vec![0x41; length];
        s[length - last.len()..].copy_from_slice(last);
        all.push(s);
    }
    all.push(repeated(&[], DESIGNATIONS[random.below(18)].octets, length));
    all
}

/// Random elements of the form, each few from the fresh sets on, and tabs.
fn random_good(random: &mut Random, length: usize) -> Vec<u8> {
    let mut s = Vec::new();
    while s.len() < length / 2 {
        s.extend(b"\x1B(B\x1B-A");
        s.extend(without_refused(&strings::random_string(random)));
    }
    s.resize(length, 0x09);
    s
}

/// A random input of about the limit.
pub fn random_limit_input(random: &mut Random) -> Vec<u8> {
    let length = random.between(LIMIT - 1, LIMIT + 1);
    let mut s = random_good(random, length);
    if random.percent(80) {
        s.push(0x00);
    }
    for _ in 0..random.below(3) {
        let place = random.between(LIMIT - 4, s.len());
        s.insert(place, random.pick(&[0x00, 0x00, 0x7F, 0x1B, 0x9B]));
    }
    s
}

#[cfg(test)]
mod tests {
    use super::*;
    use crate::r5_reader;

    /// The number of times for each number of an answer.
    fn met(inputs: &[Vec<u8>]) -> [usize; 16] {
        let mut met = [0; 16];
        for input in inputs {
            met[usize::from(r5_reader::reading(input).1.number)] += 1;
        }
        met
    }

    #[test]
    fn a_00_is_put_in_everywhere() {
        let mut inputs = Vec::new();
        for turn in 0..15 {
            with_00(b"AB", turn, |input| inputs.push(input.to_vec()));
        }
        let ended: [&[u8]; 3] = [b"AB\0", b"AB\0\0", b"AB\0]\0"];
        let before: [&[u8]; 4] = [b"\0AB", b"A\0B", b"\0AB\0", b"A\0B\0"];
        let others: [&[u8]; 3] = [b"AB", b"\0B\0", b"A\0\0"];
        let expected = ended.into_iter().chain(before).chain(others);
        for input in expected {
            assert!(inputs.iter().any(|other| other == input), "{input:X?}");
        }
        inputs.clear();
        at_each_place(b"AB", |input| inputs.push(input.to_vec()));
        let expected: [&[u8]; 5] = [b"\0AB", b"\0B", b"A\0B", b"A\0", b"AB\0"];
        assert_eq!(inputs, expected);
    }

    /// Every number of this reader, often.
    #[test]
    fn random_inputs_meet_every_answer() {
        let mut random = Random::new(1);
        let inputs: Vec<Vec<u8>> = (0..20_000).map(|_| random_input(&mut random)).collect();
        let met = met(&inputs);
        assert!(
            met[0] > 6_000 && met[14] > 500 && met[15] > 3_000,
            "{met:?}"
        );
        assert!(met[2..=6].iter().all(|&times| times > 150), "{met:?}");
        assert_eq!(met[7..14], [0; 7]);
    }

    #[test]
    fn refused_elements_are_met_with_every_answer() {
        let mut inputs = Vec::new();
        refused_elements(|input| inputs.push(input.to_vec()));
        let met = met(&inputs);
        for number in [2, 4, 14, 15] {
            assert!(met[number] > 400, "{met:?}");
        }
    }

    /// Inputs of the limit are accepted and refused with every number.
    #[test]
    fn inputs_at_the_limit_are_what_they_say() {
        let inputs = limit_inputs(&mut Random::new(1));
        let met = met(&inputs);
        let numbers = [0, 1, 2, 3, 6, 14, 15];
        assert!(numbers.iter().all(|&number| met[number] > 3), "{met:?}");
        let accepted = |input: &&Vec<u8>| r5_reader::reading(input).1.is_accepted();
        let ends: Vec<usize> = inputs
            .iter()
            .filter(accepted)
            .map(|input| r5_reader::reading(input).1.place)
            .collect();
        assert!([0, 3, LIMIT - 1, LIMIT]
            .iter()
            .all(|end| ends.contains(end)));
        let longest = inputs.iter().filter(|input| met_14(input)).map(Vec::len);
        assert_eq!(longest.max(), Some(200_001));
    }

    fn met_14(input: &[u8]) -> bool {
        r5_reader::reading(input).1.number == 14
    }
}
