//! Strings whose units stand under directions: words of marks, and behind each mark
//! text of every kind, tabs, newlines, designations and segments.

use crate::random::Random;
use crate::sets::{self, Sets, Side, DESIGNATIONS};
use crate::stretches::character;
use crate::strings::segment;
use crate::unit::{Direction, DEPTH};

/// A direction mark: a begin, or else a revert.
pub type Mark = Option<Direction>;

const LEFT: Mark = Some(Direction::LeftToRight);
const RIGHT: Mark = Some(Direction::RightToLeft);
const REVERT: Mark = None;

/// Orders of all directions that may be open: one binary digit for each, the
/// outermost lowest, 1 for right-to-left.
const ORDERS: [u16; 10] = [
    0x0000, 0xFFFF, 0xAAAA, 0x5555, 0x00FF, 0xFF00, 0x8001, 0x7FFE, 0x36C9, 0xB2E5,
];

/// Characters in a stretch: few, and numbers around those of octets taken at once.
const LENGTHS: [usize; 12] = [1, 1, 1, 2, 2, 3, 4, 7, 8, 9, 17, 33];

/// Every word of up to so many marks in which each revert has its begin.
pub fn words(most: usize) -> Vec<Vec<Mark>> {
    let mut all = vec![Vec::new()];
    let mut longest = all.clone();
    for _ in 0..most {
        longest = longest.iter().flat_map(|word| longer(word)).collect();
        all.extend_from_slice(&longest);
    }
    all
}

/// The words with one mark more.
fn longer(word: &[Mark]) -> Vec<Vec<Mark>> {
    let mut all = vec![[word, &[LEFT]].concat(), [word, &[RIGHT]].concat()];
    if depth(word) > 0 {
        all.push([word, &[REVERT]].concat());
    }
    all
}

/// The directions that a word leaves open.
fn depth(word: &[Mark]) -> usize {
    let begins = word.iter().flatten().count();
    begins.saturating_sub(word.len() - begins)
}

/// Words that open all directions there may be, revert some, open them in another
/// order, revert all, and begin once more.
pub fn deep_words() -> Vec<Vec<Mark>> {
    let turns = (0..DEPTH).step_by(3);
    turns
        .flat_map(|turn| ORDERS.map(|order| deep_word(order, turn)))
        .collect()
}

fn deep_word(order: u16, turn: usize) -> Vec<Mark> {
    let begin = |level: usize| if order >> level & 1 == 1 { RIGHT } else { LEFT };
    let mut word: Vec<Mark> = (0..DEPTH).map(begin).collect();
    word.extend(vec![REVERT; DEPTH - turn]);
    word.extend((turn..DEPTH).rev().map(begin));
    word.extend(vec![REVERT; DEPTH]);
    word.push(begin(turn));
    word
}

/// A random string of this kind, which goes to one depth after another; now and then
/// a mark follows that is refused.
pub fn random_string(random: &mut Random) -> Vec<u8> {
    let mut word = Vec::new();
    for _ in 0..random.between(1, 6) {
        let any = random.between(0, DEPTH);
        let to = random.pick(&[0, 1, 2, 3, any, any, DEPTH]);
        go_to(random, &mut word, to);
    }
    if random.percent(4) {
        let (to, mark) = random.pick(&[(0, REVERT), (DEPTH, RIGHT)]);
        go_to(random, &mut word, to);
        word.push(mark);
    }
    string(random, &word)
}

/// Begins or reverts up to this depth.
fn go_to(random: &mut Random, word: &mut Vec<Mark>, to: usize) {
    while depth(word) != to {
        let begin = random.pick(&[LEFT, RIGHT]);
        word.push(if depth(word) < to { begin } else { REVERT });
    }
}

/// A string of these marks, with random pieces before the first and behind each.
pub fn string(random: &mut Random, word: &[Mark]) -> Vec<u8> {
    let mut maker = Maker {
        s: Vec::new(),
        sets: Sets::FRESH,
        depth: 0,
    };
    maker.pieces(random);
    for mark in word {
        maker.mark(*mark);
        maker.pieces(random);
    }
    maker.s
}

struct Maker {
    s: Vec<u8>,
    sets: Sets,
    depth: usize,
}

impl Maker {
    fn mark(&mut self, mark: Mark) {
        match mark {
            LEFT => self.s.extend(b"\x9B1]"),
            RIGHT => self.s.extend(b"\x9B2]"),
            REVERT => self.s.extend(b"\x9B]"),
        }
        match mark {
            Some(_) => self.depth += 1,
            None => self.depth = self.depth.saturating_sub(1),
        }
    }

    fn pieces(&mut self, random: &mut Random) {
        for _ in 0..random.pick(&[0, 1, 1, 1, 2, 2, 3]) {
            self.piece(random);
        }
    }

    /// Where no direction is open, what is no text.
    fn piece(&mut self, random: &mut Random) {
        match random.below(if self.depth == 0 { 5 } else { 15 }) {
            0 => self.s.push(0x09),
            1 => self.s.push(0x0A),
            2..=3 => self.designation(random),
            4 => self.segment(random, b""),
            5 => self.segment(random, b"\x02\x9B2]\x9B]\x09\x0A\xE9\x1B(B"),
            6 => self.space(),
            7..=9 => self.text(random, &[Side::Gl]),
            10..=12 => self.text(random, &[Side::Gr]),
            _ => self.text(random, &[Side::Gl, Side::Gr]),
        }
    }

    fn designation(&mut self, random: &mut Random) {
        let d = random.pick(&DESIGNATIONS);
        self.s.extend_from_slice(d.octets);
        self.sets = self.sets.with(d.side, d.set);
    }

    /// A segment with this text, of twelve octets or none: so any d may stand.
    fn segment(&mut self, random: &mut Random, text: &[u8]) {
        let d = random.between(0x30, 0x34) as u8;
        self.s.extend(segment(d, &[b"a\x02", text].concat()));
    }

    /// A space, where need be with a set under which it may stand.
    fn space(&mut self) {
        if sets::width(self.sets.gl) == 2 {
            self.s.extend(b"\x1B(B");
            self.sets = self.sets.with(Side::Gl, 0);
        }
        self.s.push(0x20);
    }

    /// Whole characters, and spaces, of the sides in turn.
    fn text(&mut self, random: &mut Random, sides: &[Side]) {
        let turn = random.below(63);
        for number in 0..random.pick(&LENGTHS) {
            let side = sides[number % sides.len()];
            character(&mut self.s, side, self.sets, turn + number);
        }
    }
}

#[cfg(test)]
mod tests {
    use std::collections::HashMap;

    use super::*;
    use crate::reader::{self, State};
    use crate::shape::Piece;
    use crate::unit::Directed;

    #[test]
    fn words_are_all() {
        let lengths = [0, 1, 2, 3, 4].map(|most| words(most).len());
        assert_eq!(lengths, [1, 1 + 2, 3 + 6, 9 + 16, 25 + 48]);
        assert!(words(3).contains(&vec![RIGHT, REVERT, LEFT]));
        assert!(!words(3).contains(&vec![RIGHT, REVERT, REVERT]));
    }

    #[test]
    fn words_are_accepted() {
        let mut random = Random::new(1);
        for word in words(4).into_iter().chain(deep_words()) {
            let s = string(&mut random, &word);
            assert!(reader::check(&s).is_accepted(), "{s:X?}");
        }
        let mut met = [0; 10];
        for _ in 0..5_000 {
            met[usize::from(reader::check(&random_string(&mut random)).number)] += 1;
        }
        assert!(met[0] > 4_000 && met[8] > 50 && met[9] > 20, "{met:?}");
        assert_eq!(met[0] + met[8] + met[9], 5_000);
    }

    fn kind(piece: &Piece) -> Option<&'static str> {
        Some(match piece {
            Piece::Designation(..) => return None,
            Piece::Tab => "tab",
            Piece::Newline => "newline",
            Piece::Space => "space",
            Piece::Character { side, set, .. } => match (side, sets::width(*set)) {
                (Side::Gl, 1) => "GL",
                (Side::Gr, 1) => "GR",
                (Side::Gl, _) => "pair in GL",
                (Side::Gr, _) => "pair in GR",
            },
            Piece::Segment { has_text, .. } => ["name", "segment"][usize::from(*has_text)],
            Piece::Begin(_) | Piece::Revert => "mark",
        })
    }

    /// What stands before a unit.
    #[derive(Clone, Copy, PartialEq, Eq, Hash, Debug)]
    enum Before {
        Begin,
        Revert,
        Designation,
        Other,
    }

    type Met = (&'static str, Before, Directed);

    /// The units of a string, each with what stands before it.
    fn met(s: &[u8], mut take: impl FnMut(Met)) {
        let mut before = Before::Other;
        reader::read_on(s, State::fresh(), |element, after| {
            if let Some(kind) = kind(&element.piece) {
                take((kind, before, after.marks.directed()));
            }
            before = match element.piece {
                Piece::Begin(_) => Before::Begin,
                Piece::Revert => Before::Revert,
                Piece::Designation(..) => Before::Designation,
                _ => Before::Other,
            };
        });
    }

    /// How often each is met in as many strings as a comparison has.
    fn times_met() -> HashMap<Met, usize> {
        let mut random = Random::new(1);
        let mut times = HashMap::new();
        let mut count = |s: &[u8]| met(s, |met| *times.entry(met).or_insert(0) += 1);
        for word in words(5).into_iter().chain(deep_words()) {
            for _ in 0..10 {
                count(&string(&mut random, &word));
            }
        }
        for _ in 0..5_000 {
            count(&random_string(&mut random));
        }
        times
    }

    const FREE: [&str; 3] = ["tab", "newline", "name"];
    const TEXT: [&str; 6] = ["space", "GL", "GR", "pair in GL", "pair in GR", "segment"];

    /// Behind a mark, a designation and another unit.
    #[test]
    fn units_of_every_kind_are_met_under_each_direction_at_each_depth() {
        let times = times_met();
        let many = |kind, before, directed| *times.get(&(kind, before, directed)).unwrap_or(&0);
        for kind in FREE.into_iter().chain(TEXT) {
            for directed in (1..=16).flat_map(|depth| [(1, depth), (2, depth)]) {
                let behind = [Before::Begin, Before::Designation, Before::Other];
                let least = behind.map(|before| many(kind, before, directed));
                assert!(least.iter().all(|&times| times > 1), "{kind} {directed:?}");
                let reverted = many(kind, Before::Revert, directed);
                assert!(reverted > 1 || directed.1 == 16, "{kind} {directed:?}");
            }
        }
        for kind in FREE {
            let behind = [Before::Revert, Before::Designation, Before::Other];
            let least = behind.map(|before| many(kind, before, (0, 0)));
            assert!(least.iter().all(|&times| times > 100), "{kind}");
        }
    }
}
