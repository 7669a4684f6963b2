//! Strings that are hard for a reader that asks a table what an octet starts, by
//! the octets of a GL character and the kind of the GR set, and that passes many
//! octets of text at once: stretches of good octets with one that is not, or that
//! is another's, at every place, and of all lengths around 4, 8, 16 and 32.

use crate::random::Random;
use crate::sets::{self, Sets, Side, DESIGNATIONS};
use crate::strings::segment;
use crate::unit::LIMIT;

/// The places of an octet in a stretch, and the longest stretch.
const PLACES: usize = 40;
const LONGEST: usize = 70;

/// Places around those at which octets taken several at once begin and end.
const EDGES: [usize; 13] = [0, 1, 2, 3, 6, 7, 8, 14, 15, 16, 30, 31, 32];

/// Octets next to where the rules part them.
const CLOSE: [u8; 17] = [
    0x00, 0x08, 0x09, 0x0A, 0x1B, 0x1F, 0x20, 0x21, 0x7E, 0x7F, 0x80, 0x9B, 0x9F, 0xA0, 0xA1, 0xFE,
    0xFF,
];

/// What a stretch is made of: characters of one side, of both in turn, or tabs
/// and newlines, which are no text.
#[derive(Clone, Copy, PartialEq, Eq, Debug)]
pub enum Over {
    Gl,
    Gr,
    Both,
    Free,
}

const TEXT: [Over; 3] = [Over::Gl, Over::Gr, Over::Both];
const SIDES: [Over; 2] = [Over::Gl, Over::Gr];

/// The sets of one octet and of two in GL; those of 94, of 96 and of two octets in GR.
const GL_SETS: [&[u8]; 2] = [&[0, 2], &[12, 13, 14]];
const GR_SETS: [&[u8]; 3] = [&[1], &[3, 4, 5, 6, 7, 8, 9, 10, 11], &[12, 13, 14]];

/// Before a stretch of text: no mark, directions open, and what settles that there
/// are none, or leaves it open.
const BEFORE: [&[u8]; 7] = [
    b"",
    b"\x9B2]",
    b"A",
    b"\x9B2]\x9B1]\x9B2]\x9B]",
    b"\x09\x0A",
    b"\x1B%/1\x80\x83a\x02\x02",
    b"\x1B%/1\x80\x82a\x02",
];

/// All directions closed: text is refused from here on.
const CLOSED: [&[u8]; 2] = [b"\x9B1]\x9B]", b"\x9B2]A\x9B1]\x9B]\x9B]\x09"];

/// After a stretch: the end, marks, reverts, elements that are whole, cut and bad.
const AFTER: [&[u8]; 13] = [
    b"",
    b"\x9B1]",
    b"\x09\x9B2]A",
    b"\x9B]",
    b"\x9B]A",
    b"\x9B]\x09\x0A\x1B(B\x1B-AA",
    b"\x1B(BA\x1B$)A\xB0\xA1",
    b"\x1B",
    b"\x1B$)",
    b"\x9B",
    b"\x00",
    b"\x1B%/1\x80\x83a\x02\xFF\x20",
    b"\x0A\x1B$(C\x30",
];

/// The lengths around the multiples of 4, up to this one.
fn lengths(most: usize) -> impl Iterator<Item = usize> {
    (0..=most).filter(move |length| length % 4 != 2 || *length < 8 || *length == most)
}

/// Takes strings, until it says that there are enough.
pub struct Maker<'a> {
    take: &'a mut dyn FnMut(&[u8]) -> bool,
    /// The strings made so far, by which their lesser parts are taken in turn.
    turn: usize,
    goes_on: bool,
}

/// Shows every string of this file, until one is answered by no.
pub fn all(take: &mut dyn FnMut(&[u8]) -> bool) {
    let mut maker = Maker {
        take,
        turn: 0,
        goes_on: true,
    };
    for gl in GL_SETS {
        for gr in GR_SETS {
            maker.kind(gl, gr);
        }
    }
}

impl Maker<'_> {
    /// All strings for the sets of one kind on each side.
    fn kind(&mut self, gl: &[u8], gr: &[u8]) {
        let families = [
            Maker::octets,
            Maker::closed,
            Maker::neighbours,
            Maker::lengths,
            Maker::changes,
            Maker::controls,
            Maker::elements,
            Maker::long,
        ];
        for family in families {
            if self.goes_on {
                family(self, gl, gr);
            }
        }
    }

    /// Every octet at every place: at the end of a stretch, and within one.
    fn octets(&mut self, gl: &[u8], gr: &[u8]) {
        let tails = [1, 2, 3, 4, 5, 7, 8, 9, 15, 16, 17, 23, 25, 31, 32, 33, 29];
        for over in SIDES {
            for place in 0..=PLACES {
                for octet in 0..=255 {
                    let part = self.part(gl, gr);
                    let lead = part.stretch(over, place);
                    self.string(&[part.before, &part.sets, &lead, &[octet]]);
                    let part = self.part(gl, gr);
                    let tail = part.stretch(over, tails[self.turn / 2 % tails.len()]);
                    let pieces = [part.before, &part.sets, &lead, &[octet], &tail, part.after];
                    self.string(&pieces);
                }
            }
        }
    }

    /// Every octet where all directions are closed, alone and behind tabs.
    fn closed(&mut self, gl: &[u8], gr: &[u8]) {
        for place in EDGES {
            for octet in 0..=255 {
                let part = self.part(gl, gr);
                let (lead, tail) = (part.stretch(Over::Free, place), part.stretch(Over::Both, 9));
                let closed = CLOSED[self.turn % CLOSED.len()];
                self.string(&[closed, &part.sets, &lead, &[octet], &tail]);
            }
        }
    }

    /// Two octets next to where the rules part them, one behind the other: what is
    /// found in the one may not change what is found in the other.
    fn neighbours(&mut self, gl: &[u8], gr: &[u8]) {
        for over in SIDES {
            for place in EDGES {
                for octets in CLOSE.iter().flat_map(|a| CLOSE.map(|b| [*a, b])) {
                    let part = self.part(gl, gr);
                    let (lead, tail) = (part.stretch(over, place), part.stretch(over, 11));
                    self.string(&[part.before, &part.sets, &lead, &octets, &tail]);
                }
            }
        }
    }

    /// Stretches of all lengths: before and behind everything.
    fn lengths(&mut self, gl: &[u8], gr: &[u8]) {
        for over in TEXT {
            for length in lengths(LONGEST) {
                for before in BEFORE.into_iter().chain(CLOSED) {
                    for after in AFTER {
                        let part = self.part(gl, gr);
                        let stretch = part.stretch(over, length);
                        self.string(&[before, &part.sets, &stretch, after]);
                    }
                }
            }
        }
    }

    /// From one side to the other, also within a character of two octets.
    fn changes(&mut self, gl: &[u8], gr: &[u8]) {
        for (from, to) in [(Over::Gl, Over::Gr), (Over::Gr, Over::Gl)] {
            for length in lengths(PLACES) {
                for further in lengths(PLACES) {
                    let part = self.part(gl, gr);
                    let (lead, tail) = (part.stretch(from, length), part.stretch(to, further));
                    let back = part.stretch(from, self.turn % 5);
                    self.string(&[part.before, &part.sets, &lead, &tail, &back]);
                }
            }
        }
    }

    /// A tab or newline at every place, with a stretch of any length behind it.
    fn controls(&mut self, gl: &[u8], gr: &[u8]) {
        for over in TEXT {
            for place in 0..=PLACES {
                for length in lengths(LONGEST - PLACES) {
                    let part = self.part(gl, gr);
                    let (lead, tail) = (part.stretch(over, place), part.stretch(over, length));
                    let control = [0x09 + (self.turn % 2) as u8];
                    self.string(&[part.before, &part.sets, &lead, &control, &tail]);
                }
            }
        }
    }

    /// A whole element between stretches, after which the sets or the directions
    /// are others.
    fn elements(&mut self, gl: &[u8], gr: &[u8]) {
        for element in elements() {
            for over in TEXT {
                for place in lengths(PLACES) {
                    let part = self.part(gl, gr);
                    let other = TEXT[self.turn % TEXT.len()];
                    let (lead, tail) = (part.stretch(over, place), part.stretch(other, 33));
                    let tail = &tail[..self.turn / 3 % 34];
                    self.string(&[part.before, &part.sets, &lead, &element, tail]);
                }
            }
        }
    }

    /// Stretches up to the limit, good, and with an octet in them that is not.
    fn long(&mut self, gl: &[u8], gr: &[u8]) {
        for over in TEXT {
            for (length, place) in [
                (LIMIT, 65_533),
                (LIMIT - 1, 65_535),
                (4_097, 4_096),
                (300, 256),
            ] {
                let part = self.part(gl, gr);
                let stretch = part.stretch(over, length - part.sets.len());
                let mut s = [&part.sets[..], &stretch].concat();
                self.string(&[&s]);
                if let Some(octet) = s.get_mut(place) {
                    *octet = 0x7F;
                    self.string(&[&s]);
                }
            }
        }
    }

    fn string(&mut self, pieces: &[&[u8]]) {
        self.turn += 1;
        self.goes_on = self.goes_on && (self.take)(&pieces.concat());
    }

    /// The sets of these kinds whose turn it is, with what stands around them.
    fn part(&self, gl: &[u8], gr: &[u8]) -> Part {
        let turn = self.turn;
        let in_force = Sets {
            gl: gl[turn % gl.len()],
            gr: gr[turn % gr.len()],
        };
        // The fresh sets need no designation, and get one every second time.
        let fresh = in_force == Sets::FRESH && turn % 4 < 2;
        Part {
            before: BEFORE[turn / 2 % BEFORE.len()],
            sets: if fresh {
                Vec::new()
            } else {
                designated(in_force)
            },
            after: AFTER[turn / 3 % AFTER.len()],
            in_force,
            turn,
        }
    }
}

/// What a string is made with: the sets in force and their designations, what
/// stands before and after, and where the octets of its stretches begin.
struct Part {
    before: &'static [u8],
    sets: Vec<u8>,
    after: &'static [u8],
    in_force: Sets,
    turn: usize,
}

impl Part {
    /// So many good octets; the last may be the first of two.
    fn stretch(&self, over: Over, length: usize) -> Vec<u8> {
        let mut s = Vec::with_capacity(length + 1);
        let mut turn = self.turn;
        while s.len() < length {
            match over {
                Over::Free => s.push([0x09, 0x0A, 0x0A][turn % 3]),
                Over::Gl => character(&mut s, Side::Gl, self.in_force, turn),
                Over::Gr => character(&mut s, Side::Gr, self.in_force, turn),
                Over::Both if turn.is_multiple_of(2) => {
                    character(&mut s, Side::Gl, self.in_force, turn)
                }
                Over::Both => character(&mut s, Side::Gr, self.in_force, turn),
            }
            turn += 1;
        }
        s.truncate(length);
        s
    }
}

/// A few random stretches under random sets, with octets and elements between them.
pub fn random_string(random: &mut Random) -> Vec<u8> {
    let mut s = random.pick(&BEFORE).to_vec();
    for _ in 0..random.between(1, 4) {
        let (gl, gr) = (random.pick(&GL_SETS), random.pick(&GR_SETS));
        let in_force = Sets {
            gl: random.pick(gl),
            gr: random.pick(gr),
        };
        let part = Part {
            before: b"",
            sets: designated(in_force),
            after: b"",
            in_force,
            turn: random.below(1_000),
        };
        s.extend_from_slice(&part.sets);
        for _ in 0..random.between(1, 3) {
            s.extend(random_stretch(random, &part));
        }
    }
    s.extend_from_slice(random.pick(&AFTER));
    s
}

/// A stretch, mostly of whole characters, and now and then what may not follow.
fn random_stretch(random: &mut Random, part: &Part) -> Vec<u8> {
    let over = random.pick(&[Over::Gl, Over::Gr, Over::Both, Over::Free]);
    let length = random.below(LONGEST + 1);
    let odd = over == Over::Both || random.percent(5);
    let mut s = part.stretch(over, if odd { length } else { length / 2 * 2 });
    match random.below(20) {
        0 => s.push(random.octet()),
        1 => s.push(random.pick(&CLOSE)),
        2..=5 => s.push(random.pick(&[0x09, 0x0A])),
        6..=7 => {
            let elements = elements();
            s.extend_from_slice(&elements[random.below(elements.len())]);
        }
        _ => {}
    }
    s
}

/// A character, or a space where one may stand: the first and the last of the set
/// come often, and the turns of seven fall on all places of a word.
pub fn character(s: &mut Vec<u8>, side: Side, in_force: Sets, turn: usize) {
    let set = in_force.on(side);
    let (first, last) = (*sets::values(set).start(), *sets::values(set).end());
    let octets = [
        first,
        0x41,
        last,
        0x5D,
        first,
        0x30,
        last - 1,
        0x31,
        first + 1,
    ];
    let top = if side == Side::Gr { 0x80 } else { 0x00 };
    match sets::width(set) {
        1 if side == Side::Gl && turn % 7 == 3 => s.push(0x20),
        1 => s.push(octets[turn % 7] | top),
        _ => s.extend([octets[turn % 7] | top, octets[turn % 9] | top]),
    }
}

/// The designations of both sets.
fn designated(in_force: Sets) -> Vec<u8> {
    let of = |side, set| {
        let mut found = DESIGNATIONS
            .iter()
            .filter(move |d| d.side == side && d.set == set);
        found.next().expect("a designation for the set").octets
    };
    [of(Side::Gl, in_force.gl), of(Side::Gr, in_force.gr)].concat()
}

/// Every designation and mark, segments with a text, without one and bad ones, and
/// sequences that are cut, or of no use.
fn elements() -> Vec<Vec<u8>> {
    let mut all: Vec<Vec<u8>> = DESIGNATIONS.iter().map(|d| d.octets.to_vec()).collect();
    let others: [&[u8]; 8] = [
        b"\x9B1]",
        b"\x9B2]",
        b"\x9B]",
        b"\x9B1",
        b"\x1B$",
        b"\x1B#",
        b"\x1B(!B",
        b"\x1B%/2\x80",
    ];
    all.extend(others.map(<[u8]>::to_vec));
    all.extend([&b"a\x02\x09A"[..], b"a\x02", b"a"].map(|body| segment(0x31, body)));
    all
}

#[cfg(test)]
mod tests {
    use std::collections::HashMap;

    use super::*;
    use crate::reader;
    use crate::wrong_archive::{asked, Entry};

    /// A set of places, by their remainders of 32.
    type Places = u32;

    /// Every entry of the table is asked, at most places of a block of 32 octets;
    /// and all numbers are met but those of the limit and the depth.
    #[test]
    fn every_entry_is_asked_at_many_places() {
        let mut entries: HashMap<Entry, Places> = HashMap::new();
        let mut met = [0; 10];
        all(&mut |s| {
            for (entry, place) in asked(s) {
                *entries.entry(entry).or_default() |= 1 << (place % 32);
            }
            met[usize::from(reader::check(s).number)] += 1;
            true
        });
        assert_eq!(entries.len(), 2 * 3 * 256);
        let least = entries.values().map(|places| places.count_ones()).min();
        assert!(least >= Some(24), "{least:?}");
        assert!(met[0] > 100_000, "{met:?}");
        assert!(met[2..9].iter().all(|&times| times > 400), "{met:?}");
    }

    #[test]
    fn random_stretches_are_long_enough() {
        let mut random = Random::new(1);
        let (mut accepted, mut octets) = (0, 0);
        for _ in 0..10_000 {
            let s = random_string(&mut random);
            let answer = reader::check(&s);
            accepted += usize::from(answer.is_accepted());
            octets += answer.place;
        }
        assert!(accepted > 1_000, "{accepted}");
        assert!(octets > 500_000, "{octets}");
    }

    #[test]
    fn stretches_are_good() {
        let part = |gl, gr| Part {
            before: b"",
            sets: designated(Sets { gl, gr }),
            after: b"",
            in_force: Sets { gl, gr },
            turn: 5,
        };
        for (gl, gr) in [(0, 1), (2, 3), (0, 12), (13, 1), (12, 11), (14, 13)] {
            for over in [Over::Gl, Over::Gr, Over::Both, Over::Free] {
                let part = part(gl, gr);
                let s = [&part.sets[..], &part.stretch(over, 64)].concat();
                let cut = over == Over::Both && sets::width(gl) != sets::width(gr);
                let answer = reader::check(&s);
                assert!(answer.is_accepted() || cut && answer.number == 2, "{s:X?}");
            }
        }
    }
}
