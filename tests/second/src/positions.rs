//! Positions of readers made by hand, to compare: all of a kind, random ones,
//! and simpler ones for one that shows a difference.

use crate::random::Random;
use crate::sets::{Side, DESIGNATIONS};
use crate::steps::{self, Position};
use crate::unit::DEPTH;

/// A string for each kind of element and each reason to refuse one.
const ELEMENTS: [&[u8]; 24] = [
    b"",
    b"\x09",
    b"\x0A",
    b"\x20",
    b"A",
    b"\x30\x21",
    b"\xE9",
    b"\xB0\xA1",
    b"\x9B\x31\x5D",
    b"\x9B\x32\x5D",
    b"\x9B\x5D",
    b"\x1B\x25\x2F\x31\x80\x84ab\x02\xFF",
    b"\x1B\x25\x2F\x30\x80\x83a\x02\x02",
    b"\x1B\x25\x2F\x34\x80\x82a\x02",
    b"\x1B\x25\x2F\x32\x80\x83a\x02\xFF",
    b"\x1B\x28\x4A",
    b"\x1B\x24\x29\x42",
    b"\x1B\x28",
    b"\x1B\x24\x42",
    b"\x1B\x28\x21\x42",
    b"\x1B\x23",
    b"\x1B\x25\x2F\x31\x80\x82a\x2A",
    b"\x1B\x2D\x42\x1B\x25\x2F\x31\x80\x80",
    b"\x00",
];

/// Numbers at which a narrower type, a sum or a comparison could go wrong.
const EDGES: [usize; 9] = [
    0,
    255,
    65_535,
    65_536,
    1 << 32,
    (1 << 63) - 1,
    1 << 63,
    usize::MAX - 1,
    usize::MAX,
];

/// Shows strings with positions: every octet in each field of one octet, alone
/// and together with those that it is judged with.
pub fn all_positions(mut show: impl FnMut(&[u8], Position)) {
    for first in ELEMENTS {
        for second in [&[][..], b"A", b"\x9B\x5D", b"\x9B\x31\x5D"] {
            let s = [first, second].concat();
            let mut show = |position| show(&s, position);
            all_sets(&mut show);
            all_directions(&mut show);
            all_places(s.len(), &mut show);
        }
    }
}

fn all_sets(show: &mut impl FnMut(Position)) {
    let opened = Position::OPENED;
    for set in 0..=255 {
        show(Position { gl: set, ..opened });
        show(Position { gr: set, ..opened });
    }
    for (gl, gr) in (0..=16).flat_map(|gl| (0..=16).map(move |gr| (gl, gr))) {
        show(Position { gl, gr, ..opened });
    }
}

/// Every depth with every flag, and digits of which idle ones are 1.
fn all_directions(show: &mut impl FnMut(Position)) {
    for depth in 0..=255 {
        for (marked, texted) in [(0, 0), (1, 0), (0, 1), (1, 1), (128, 2), (255, 255)] {
            for levels in [0, u64::MAX, 0xAAAA_AAAA_AAAA_AAAA] {
                show(Position {
                    levels,
                    depth,
                    marked,
                    texted,
                    ..Position::OPENED
                });
            }
        }
    }
}

fn all_places(length: usize, show: &mut impl FnMut(Position)) {
    for place in (0..length + 3).chain(EDGES) {
        for count in EDGES {
            show(Position {
                place,
                count,
                ..Position::OPENED
            });
        }
    }
}

/// A random position for a string: mostly one that a reader may hold, or one
/// that has a bad field, or random octets in every field.
pub fn random_position(random: &mut Random, s: &[u8]) -> Position {
    let mut position = match random.below(8) {
        0 => return random_octets(random),
        1..=3 => reached(random, s),
        4..=5 => directed(random, s),
        _ => good(random, s.len()),
    };
    for _ in 0..random.below(3) {
        change_field(random, &mut position, s.len());
    }
    position
}

fn random_octets(random: &mut Random) -> Position {
    Position {
        levels: random.word(),
        place: random.word() as usize,
        count: random.word() as usize,
        gl: random.octet(),
        gr: random.octet(),
        depth: random.octet(),
        marked: random.octet(),
        texted: random.octet(),
    }
}

/// A position that an opened reader comes to.
fn reached(random: &mut Random, s: &[u8]) -> Position {
    let steps = steps::steps(s, Position::OPENED);
    steps[random.below(steps.len())].position
}

/// Before an element of the string, with directions that the elements before
/// it have not led to.
fn directed(random: &mut Random, s: &[u8]) -> Position {
    Position {
        levels: random.word(),
        depth: random.pick(&[0, 0, 1, DEPTH as u8]),
        marked: random.below(2) as u8,
        texted: random.below(2) as u8,
        ..reached(random, s)
    }
}

/// A position that is read on, often in the middle of an element.
fn good(random: &mut Random, length: usize) -> Position {
    let mut position = Position {
        levels: random.word(),
        place: random.below(length + 1),
        depth: random.between(0, DEPTH) as u8,
        marked: random.below(3) as u8,
        texted: random.below(3) as u8,
        ..Position::OPENED
    };
    for _ in 0..2 {
        let d = random.pick(&DESIGNATIONS);
        match d.side {
            Side::Gl => position.gl = d.set,
            Side::Gr => position.gr = d.set,
        }
    }
    position
}

fn change_field(random: &mut Random, position: &mut Position, length: usize) {
    let places = [length, length + 1, length.wrapping_sub(1)];
    match random.below(8) {
        0 => position.levels = random.word(),
        1 => position.place = random.pick(&places),
        2 => position.place = position.place.wrapping_add(random.pick(&EDGES)),
        3 => position.count = random.pick(&EDGES),
        4 => position.gl = random_octet(random, 16),
        5 => position.gr = random_octet(random, 16),
        6 => position.depth = random_octet(random, 18),
        _ => {
            position.marked = random.octet();
            position.texted = random.octet();
        }
    }
}

/// Any octet, or one under the limit.
fn random_octet(random: &mut Random, limit: usize) -> u8 {
    if random.percent(30) {
        random.octet()
    } else {
        random.below(limit) as u8
    }
}

/// A position that differs, with as much of an opened reader's as still differs.
pub fn simplest(mut position: Position, differs: impl Fn(Position) -> bool) -> Position {
    while let Some(simpler) = simpler(position).into_iter().find(|&p| differs(p)) {
        position = simpler;
    }
    position
}

/// The positions with one field more like an opened reader's.
fn simpler(position: Position) -> Vec<Position> {
    let opened = Position::OPENED;
    let mut all = vec![position.without_idle_digits()];
    let mut push = |change: fn(&mut Position, Position)| {
        let mut simpler = position;
        change(&mut simpler, opened);
        all.push(simpler);
    };
    push(|p, opened| p.levels = opened.levels);
    push(|p, opened| p.place = opened.place);
    push(|p, opened| p.count = opened.count);
    push(|p, opened| p.gl = opened.gl);
    push(|p, opened| p.gr = opened.gr);
    push(|p, opened| p.depth = opened.depth);
    push(|p, opened| p.marked = opened.marked);
    push(|p, opened| p.texted = opened.texted);
    push(|p, _| p.marked = p.marked.min(1));
    push(|p, _| p.texted = p.texted.min(1));
    push(|p, _| p.marked = p.marked.min(2));
    push(|p, _| p.texted = p.texted.min(2));
    push(|p, _| p.depth = p.depth.saturating_sub(1));
    push(|p, _| p.place = p.place.min(1));
    push(|p, _| p.place /= 2);
    all.retain(|simpler| *simpler != position);
    all
}

#[cfg(test)]
mod tests {
    use super::*;
    use crate::strings::random_string;

    #[test]
    fn random_positions_meet_every_answer() {
        let mut random = Random::new(1);
        let mut met = [0; 12];
        for _ in 0..20_000 {
            let s = random_string(&mut random);
            let position = random_position(&mut random, &s);
            let steps = steps::steps(&s, position);
            met[usize::from(steps[steps.len() - 1].answer.number)] += 1;
        }
        let numbers = [0, 2, 3, 4, 5, 6, 7, 8, 9, 11];
        assert!(numbers.iter().all(|&n| met[n] > 50), "{met:?}");
    }

    #[test]
    fn all_positions_are_of_good_and_bad_readers() {
        let (mut good, mut bad) = (0, 0);
        all_positions(|s, position| match steps::steps(s, position)[0] {
            step if step.answer.number == 11 => bad += 1,
            _ => good += 1,
        });
        assert!(good > 10_000 && bad > 10_000, "{good} good, {bad} bad");
    }

    #[test]
    fn simpler_positions_lead_to_the_opened_one() {
        let mut position = random_octets(&mut Random::new(1));
        while let Some(simplest) = simpler(position).pop() {
            position = simplest;
        }
        assert_eq!(position, Position::OPENED);
    }
}
