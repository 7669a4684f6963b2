//! Elements that are refused, to put into strings: every number that an element's
//! own shape has, and every octet that request No. 4 names, come often.

use crate::random::Random;
use crate::sets::{self, Sets, Side};
use crate::shape;
use crate::strings::{random_name_octet, random_value, segment, segment_head};

/// What stands before the final octet of a designation.
const LEADS: [&[u8]; 5] = [
    &[0x1B, 0x28],
    &[0x1B, 0x29],
    &[0x1B, 0x2D],
    &[0x1B, 0x24, 0x28],
    &[0x1B, 0x24, 0x29],
];

/// Octets that no name may have; 02 would end it.
const NO_NAME: [u8; 10] = [0x00, 0x01, 0x1B, 0x20, 0x2A, 0x3F, 0x7F, 0x80, 0x9B, 0xA0];

/// An element that is refused, or one octet of any kind. A cut one is refused for
/// that only at the string's end.
pub fn piece(random: &mut Random, sets: Sets) -> Vec<u8> {
    match random.below(30) {
        0..=1 => vec![random.octet()],
        2 => vec![random.pick(&[0x1B, 0x9B]), random.octet(), random.octet()],
        3 => vec![0x9B, random.pick(&[0x31, 0x32]), random.octet()],
        4..=5 => vec![0x1B, 0x23, random.octet(), 0x30],
        6..=8 => bad_pair(random, sets),
        9..=14 => designation(random),
        15 => vec![0x1B, 0x25, random.pick(&[0x2F, 0x47]), random.octet(), 0x80],
        16..=17 => low_length(random),
        18 => segment(random_d(random), &[]),
        19..=21 => cut_segment(random),
        _ => bad_segment(random),
    }
}

/// A character whose second octet is bad: on the other side, or nowhere used.
fn bad_pair(random: &mut Random, sets: Sets) -> Vec<u8> {
    let (side, lead, top) = random.pick(&[(Side::Gl, b'(', 0x00), (Side::Gr, b')', 0x80)]);
    let mut s = Vec::new();
    let mut set = sets.on(side);
    if sets::width(set) == 1 {
        set = 13;
        s.extend([0x1B, b'$', lead, b'B']);
    }
    s.push(random_value(random, set) | top);
    s.push(match random.below(3) {
        0 => random_value(random, set) | (top ^ 0x80),
        1 => random.pick(&[0x20, 0x7F]) | top,
        _ => random.pick(&[0x09, 0x1B, 0x80, 0x9B]),
    });
    s
}

/// A designation: with intermediates, of no set, unknown, or cut.
fn designation(random: &mut Random) -> Vec<u8> {
    let mut s = random.pick(&LEADS).to_vec();
    if random.percent(70) {
        s.push(random.between(0x21, 0x23) as u8);
        for _ in 0..random.below(4) {
            s.push(random.between(0x20, 0x2F) as u8);
        }
    }
    match random.below(8) {
        0 => {}
        1 => s.push(random.octet()),
        2 => s.push(random.between(0x20, 0x2F) as u8),
        3 => s.push(random.between(0x30, 0x3F) as u8),
        _ => s.push(random.between(0x40, 0x7F) as u8),
    }
    s
}

/// A head with a low M, a low L or both, also cut behind M.
fn low_length(random: &mut Random) -> Vec<u8> {
    let (high, low) = (random.octet() | 0x80, random.octet() & 0x7F);
    let mut s = vec![0x1B, 0x25, 0x2F, random_d(random)];
    s.extend(match random.below(4) {
        0 => vec![low],
        1 => vec![low, high],
        2 => vec![low, random.octet() & 0x7F],
        _ => vec![high, low],
    });
    s
}

fn bad_segment(random: &mut Random) -> Vec<u8> {
    let d = random_d(random);
    segment(d, &bad_body(random, d))
}

/// Fewer than n octets, which may be bad ones too; n goes a little beyond them,
/// or far.
fn cut_segment(random: &mut Random) -> Vec<u8> {
    let d = random_d(random);
    let body = bad_body(random, d);
    let more = random.pick(&[1, 1, 2, 130, 16_000]);
    let mut s = segment_head(d, (body.len() + more).min(16_383));
    s.extend(body);
    s
}

/// The n octets of a bad segment, now and then bad for more than one reason.
fn bad_body(random: &mut Random, d: u8) -> Vec<u8> {
    let mut name: Vec<u8> = (0..name_length(random))
        .map(|_| random_name_octet(random))
        .collect();
    match random.below(4) {
        0 => return name,
        1 => name.clear(),
        2 if d >= 0x32 => return with_text(random, name, d, true),
        _ => {
            for _ in 0..random.between(1, 2) {
                let place = random.below(name.len());
                name[place] = random.pick(&NO_NAME);
            }
            if random.percent(40) {
                return name;
            }
        }
    }
    let wrong = random.percent(40);
    with_text(random, name, d, wrong)
}

/// Mostly short; a long one needs an M above 80.
fn name_length(random: &mut Random) -> usize {
    match random.below(12) {
        0 => random.between(100, 400),
        _ => random.between(1, 5),
    }
}

/// The name, 02 and a text, whose length is wrong if wanted and d asks for one.
fn with_text(random: &mut Random, mut name: Vec<u8>, d: u8, wrong: bool) -> Vec<u8> {
    let octets_of_one = shape::octets_of_one(d);
    let mut text = octets_of_one * random.below(3);
    if wrong && octets_of_one > 1 {
        text += random.between(1, octets_of_one - 1);
    }
    name.push(0x02);
    for _ in 0..text {
        name.push(random.pick(&[0x02, 0x2A, 0x41, 0x9B]));
    }
    name
}

fn random_d(random: &mut Random) -> u8 {
    random.between(0x30, 0x34) as u8
}

#[cfg(test)]
mod tests {
    use std::collections::HashMap;

    use super::*;
    use crate::reader::{self, State};
    use crate::strings::random_string;

    /// Why an element is refused, as finely as the request tells its octets.
    fn reason(element: &[u8], number: u8, octet: usize) -> &'static str {
        match (number, element) {
            (2, [0x1B, 0x25, 0x2F, _, _, _, body @ ..]) => {
                match body.iter().position(|o| !shape::is_name_octet(o)) {
                    Some(place) if body[place] != 0x02 => "2: fewer than n, a bad octet",
                    _ => "2: fewer than n",
                }
            }
            (2, [0x1B, 0x25, ..]) => "2: head",
            (2, [0x1B, 0x28 | 0x29 | 0x2D, 0x21..=0x23, ..]) => "2: intermediates",
            (2, [0x1B, 0x24, _, 0x21..=0x23, ..]) => "2: intermediates",
            (2, [0x1B, ..]) => "2: designation",
            (2, [0x9B, ..]) => "2: mark",
            (2, _) => "2: pair",
            (3, _) => ["3: first", "3: second"][octet],
            (4, [0x9B, ..]) => ["", "4: after 9B", "4: after 9B 31"][octet],
            (4, [0x1B, 0x25, ..]) => ["", "", "4: after 1B 25", "4: d"][octet],
            (4, [0x1B, 0x24, ..]) if octet == 2 => "4: after 1B 24",
            (4, [0x1B, ..]) if octet == 1 => "4: after 1B",
            (4 | 5, _) => {
                let alone = octet == if element[1] == 0x24 { 3 } else { 2 };
                match (number, alone) {
                    (4, true) => "4: for a final",
                    (4, false) => "4: after an intermediate",
                    (_, true) => "5: alone",
                    (_, false) => "5: after an intermediate",
                }
            }
            (6, _) => "6",
            (7, _) => reason_of_segment(element),
            _ => "the direction rule",
        }
    }

    fn reason_of_segment(element: &[u8]) -> &'static str {
        let low = |place: usize| element.get(place).map(|&octet| octet < 0x80);
        match (low(4), low(5)) {
            (Some(true), Some(true)) => return "7: low M and L",
            (Some(true), _) => return "7: low M",
            (_, Some(true)) => return "7: low L",
            _ => {}
        }
        let n = usize::from(element[4] - 0x80) * 128 + usize::from(element[5] - 0x80);
        let body = &element[6..6 + n];
        let separator = body.iter().position(|&octet| octet == 0x02);
        let bad = body[..separator.unwrap_or(n)]
            .iter()
            .any(|o| !shape::is_name_octet(o));
        let text = separator.map_or(0, |place| n - place - 1);
        match (separator, text % shape::octets_of_one(element[3]) == 0) {
            (None, _) if n == 0 => "7: no octets",
            (None, _) if bad => "7: bad octet, no 02",
            (None, _) => "7: no 02",
            (Some(0), true) => "7: empty name",
            (Some(0), false) => "7: empty name, wrong length",
            (_, true) => "7: bad octet",
            (_, false) if bad => "7: bad octet, wrong length",
            _ => "7: wrong length",
        }
    }

    const REASONS: [&str; 31] = [
        "2: fewer than n",
        "2: fewer than n, a bad octet",
        "2: head",
        "2: intermediates",
        "2: designation",
        "2: mark",
        "2: pair",
        "3: first",
        "3: second",
        "4: after 9B",
        "4: after 9B 31",
        "4: after 1B 25",
        "4: d",
        "4: after 1B 24",
        "4: after 1B",
        "4: for a final",
        "4: after an intermediate",
        "5: alone",
        "5: after an intermediate",
        "6",
        "7: low M and L",
        "7: low M",
        "7: low L",
        "7: no octets",
        "7: bad octet, no 02",
        "7: no 02",
        "7: empty name",
        "7: empty name, wrong length",
        "7: bad octet",
        "7: bad octet, wrong length",
        "7: wrong length",
    ];

    /// At the string's start, and behind other elements.
    #[test]
    fn every_reason_is_met() {
        let mut random = Random::new(1);
        let mut times = HashMap::new();
        for _ in 0..20_000 {
            let s = random_string(&mut random);
            let mut state = State::fresh();
            let answer = reader::advance(&s, &mut state, |_, _| {});
            if answer.is_accepted() {
                continue;
            }
            let start = state.place;
            let reason = reason(&s[start..], answer.number, answer.place - start);
            *times.entry((reason, start > 0)).or_insert(0) += 1;
        }
        for reason in REASONS {
            let met = [false, true].map(|behind| *times.get(&(reason, behind)).unwrap_or(&0));
            // A two-octet set is designated before a character of it.
            let only_behind = ["2: pair", "3: second"].contains(&reason);
            let at_start = if only_behind { 0 } else { 10 };
            assert!(met[0] >= at_start && met[1] >= 40, "{reason} {met:?}");
        }
    }
}
