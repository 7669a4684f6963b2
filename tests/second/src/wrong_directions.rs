//! Readers that get the direction and the depth of a record wrong, and writers that
//! look at them, to test the comparison itself.

use crate::compare::Comparer;
use crate::faults::{Call, Faulty};
use crate::reader::{self, Marks, State};
use crate::session::StringComparison;
use crate::shape::{Element, Piece};
use crate::steps::{self, Handed, Position};
use crate::unit::*;
use crate::writer;

/// The functions that give records, each with the comparison of a string by it.
pub const RECORDS: [(Call, StringComparison<Faulty>); 3] = [
    (Call::Read, Comparer::readings),
    (Call::Next, Comparer::opened),
    (Call::ArchiveRead, Comparer::archive),
];

#[derive(Clone, Copy, PartialEq, Debug)]
pub enum WrongDirection {
    /// A mark has the direction before it.
    DirectionBefore,
    /// A mark has the depth before it.
    DepthBefore,
    /// A revert does not lower the depth.
    RevertKeepsDepth,
    /// A revert keeps the direction that it ends, where another is beneath.
    RevertKeepsDirection,
    /// It does so where none is left.
    NoneNotRestored,
    /// Right-to-left for left-to-right.
    Exchanged,
    /// The outermost direction, not the innermost.
    Outermost,
    /// Of the open directions eight are kept.
    EightDirections,
    /// The depth has four binary digits.
    FourDigits,
    /// A reader made by hand starts from none.
    FromNone,
    /// Text has the depth 0.
    TextAtNone,
    /// Text has the direction and depth from before the last mark.
    TextBeforeMark,
    /// So has the first unit after a mark, where that is text.
    FirstBeforeMark,
    /// From the ninth unit of text on there is none.
    NinthAtNone,
    /// A character of two octets has none.
    PairAtNone,
    /// So has a tab or a newline.
    ControlAtNone,
    /// So has an extended segment.
    SegmentAtNone,
    /// So has what stands right behind a designation.
    DesignatedAtNone,
}

use WrongDirection::*;

impl WrongDirection {
    pub const ALL: [WrongDirection; 18] = [
        DirectionBefore,
        DepthBefore,
        RevertKeepsDepth,
        RevertKeepsDirection,
        NoneNotRestored,
        Exchanged,
        Outermost,
        EightDirections,
        FourDigits,
        FromNone,
        TextAtNone,
        TextBeforeMark,
        FirstBeforeMark,
        NinthAtNone,
        PairAtNone,
        ControlAtNone,
        SegmentAtNone,
        DesignatedAtNone,
    ];

    /// Whether a function can be wrong so: a step sees one unit, and a list begins
    /// with no direction.
    pub fn is_of(self, call: Call) -> bool {
        match self {
            EightDirections | TextBeforeMark | FirstBeforeMark | NinthAtNone => call != Call::Next,
            FromNone => call == Call::Next,
            _ => true,
        }
    }

    /// The units from a state on.
    pub fn units(self, s: &[u8], from: State) -> Vec<Unit> {
        let mut seen = Seen::before(&from.marks);
        let mut units = Vec::new();
        reader::read_on(s, from, |element, after| {
            let unit = reader::unit_of(element, &after.marks);
            units.extend(unit.map(|unit| self.unit(unit, &seen, &after.marks)));
            seen.pass(element, &after.marks);
        });
        units
    }

    /// All steps of a reader over a string, of which the first is wrong: the next
    /// one starts from where that ends.
    pub fn steps(self, s: &[u8], from: Position) -> Vec<Handed> {
        let mut steps = steps::steps(s, from);
        if steps[0].given == 1 {
            steps[0].unit = self.units(s, from.state())[0];
        }
        steps
    }

    fn unit(self, unit: Unit, seen: &Seen, after: &Marks) -> Unit {
        let (direction, depth) = unit.directed();
        let (direction_before, depth_before) = seen.directed;
        let is_text = matches!(unit.kind, CHARACTER | SPACE);
        unit.with_directed(match (self, unit.kind) {
            (DirectionBefore, LEFT_TO_RIGHT..=REVERT) => (direction_before, depth),
            (DepthBefore, LEFT_TO_RIGHT..=REVERT) => (direction, depth_before),
            (RevertKeepsDepth, REVERT) => (direction, depth_before),
            (RevertKeepsDirection, REVERT) if depth > 0 => (direction_before, depth),
            (NoneNotRestored, REVERT) if depth == 0 => (direction_before, depth),
            (Exchanged, _) => ([0, 2, 1][usize::from(direction)], depth),
            (Outermost, _) => (outermost(after), depth),
            (EightDirections, _) if (1..=seen.lost).contains(&depth) => (1, depth),
            (FourDigits, _) => (direction, depth % 16),
            (TextAtNone, _) if is_text => (direction, 0),
            (TextBeforeMark, _) if is_text => seen.before_mark,
            (FirstBeforeMark, _) if is_text && seen.after_mark => seen.before_mark,
            (NinthAtNone, _) if is_text && seen.text >= 8 => (0, 0),
            (PairAtNone, CHARACTER) if unit.length == 2 => (0, 0),
            (ControlAtNone, TAB | NEWLINE) | (SegmentAtNone, SEGMENT) => (0, 0),
            (DesignatedAtNone, _) if seen.designated => (0, 0),
            (FromNone, LEFT_TO_RIGHT | RIGHT_TO_LEFT) if seen.is_first => (direction, 1),
            (FromNone, _) if seen.is_first => (0, 0),
            _ => (direction, depth),
        })
    }
}

fn outermost(marks: &Marks) -> u16 {
    direction_number(marks.open.first().copied()).into()
}

/// What a reader has seen before a unit.
struct Seen {
    /// Whether it has seen no unit.
    is_first: bool,
    /// The directions after the unit before, and those before the last mark.
    directed: Directed,
    before_mark: Directed,
    /// Whether the unit before was a mark, and whether a designation follows it.
    after_mark: bool,
    designated: bool,
    /// The units of text right before.
    text: usize,
    /// The outermost directions that have no room where eight are kept.
    lost: u16,
}

impl Seen {
    fn before(marks: &Marks) -> Seen {
        Seen {
            is_first: true,
            directed: marks.directed(),
            before_mark: marks.directed(),
            after_mark: false,
            designated: false,
            text: 0,
            lost: marks.directed().1.saturating_sub(8),
        }
    }

    fn pass(&mut self, element: &Element, after: &Marks) {
        let is_text = matches!(element.piece, Piece::Character { .. } | Piece::Space);
        self.text = if is_text { self.text + 1 } else { 0 };
        self.designated = matches!(element.piece, Piece::Designation(..));
        if self.designated {
            return;
        }
        self.is_first = false;
        self.after_mark = matches!(element.piece, Piece::Begin(_) | Piece::Revert);
        if self.after_mark {
            self.before_mark = self.directed;
        }
        self.directed = after.directed();
        let depth = self.directed.1;
        self.lost = self.lost.max(depth.saturating_sub(8)).min(depth);
    }
}

/// Writers that are right on the lists of readings.
#[derive(Clone, Copy, PartialEq, Debug)]
pub enum WrongWriter {
    /// A depth that is not 0 is refused before the first mark.
    RefusesDepth,
    /// A depth over the limit is refused.
    LimitsDepth,
    /// Text after a mark is judged by the depth of its record.
    BelievesDepth,
    /// A mark is written as its record's direction is: left-to-right if that is
    /// odd, and else right-to-left.
    BelievesDirection,
}

use WrongWriter::*;

impl WrongWriter {
    pub const ALL: [WrongWriter; 4] = [RefusesDepth, LimitsDepth, BelievesDepth, BelievesDirection];

    /// The refusal of a list that is not too long.
    pub fn list_refusal(self, units: &[Unit], segments: &[u8]) -> Option<Answer> {
        let mut marks = Marks::default();
        units.iter().enumerate().find_map(|(index, unit)| {
            let admitted = writer::admit_unit(unit, segments, &mut marks);
            let admitted = admitted.and_then(|()| self.admit(unit, &marks));
            admitted.err().map(|number| Answer::refusal(number, index))
        })
    }

    fn admit(self, unit: &Unit, marks: &Marks) -> Result<(), u8> {
        let is_text = matches!(unit.kind, CHARACTER | SPACE);
        match self {
            RefusesDepth if !marks.marked && unit.depth > 0 => Err(8),
            LimitsDepth if usize::from(unit.depth) > DEPTH => Err(9),
            BelievesDepth if marks.marked && is_text && unit.depth == 0 => Err(8),
            _ => Ok(()),
        }
    }

    /// The list that is written in place of a list.
    pub fn written(self, units: &[Unit]) -> Vec<Unit> {
        let mut written = units.to_vec();
        let begins = |unit: &&mut Unit| [LEFT_TO_RIGHT, RIGHT_TO_LEFT].contains(&unit.kind);
        if self == BelievesDirection {
            for unit in written.iter_mut().filter(begins) {
                unit.kind = [RIGHT_TO_LEFT, LEFT_TO_RIGHT][usize::from(unit.direction % 2)];
            }
        }
        written
    }
}

/// Every wrong direction that a function can give is found.
mod tests {
    use super::*;
    use crate::faults::Fault;
    use crate::ffi::Functions;
    use crate::nesting;
    use crate::positions;
    use crate::random::Random;
    use crate::stretches;
    use crate::strings;

    const ENOUGH: usize = 20;

    /// A library of which one function gives wrong directions; the others are not
    /// compared.
    fn comparer(wrong: WrongDirection, call: Call) -> Comparer<Faulty> {
        Comparer {
            library: Faulty::new(Fault::Directions(wrong, call)),
            functions: Functions {
                read: call == Call::Read,
                next: call == Call::Next,
                archive: call == Call::ArchiveRead,
                ..Functions::NONE
            },
        }
    }

    /// How many of the comparisons find it, up to enough of them.
    fn found(differs: impl Iterator<Item = bool>) -> usize {
        differs.filter(|differs| *differs).take(ENOUGH).count()
    }

    #[test]
    fn in_random_nested_strings_and_in_deep_ones() {
        for wrong in WrongDirection::ALL {
            for (call, compare) in RECORDS.into_iter().filter(|of| wrong.is_of(of.0)) {
                let comparer = comparer(wrong, call);
                let mut random = Random::new(1);
                let strings = (0..200).map(|_| nesting::random_string(&mut random));
                let nested = found(strings.map(|s| compare(&comparer, &s).is_err()));
                let words = nesting::deep_words().into_iter();
                let strings = words.map(|word| nesting::string(&mut random, &word));
                let deep = found(strings.map(|s| compare(&comparer, &s).is_err()));
                assert!(nested > 5 && deep > 5, "{wrong:?} {call:?} {nested} {deep}");
            }
        }
    }

    /// They open few directions, and are for the list readers.
    #[test]
    fn in_stretches() {
        let lists = RECORDS.into_iter().filter(|of| of.0 != Call::Next);
        for (call, compare) in lists {
            for wrong in WrongDirection::ALL {
                if !wrong.is_of(call) || [EightDirections, FourDigits].contains(&wrong) {
                    continue;
                }
                let comparer = comparer(wrong, call);
                let mut differences = 0;
                stretches::all(&mut |s| {
                    differences += usize::from(compare(&comparer, s).is_err());
                    differences < ENOUGH
                });
                assert_eq!(differences, ENOUGH, "{wrong:?} {call:?}");
            }
        }
    }

    #[test]
    fn in_readers_made_by_hand() {
        let wrong = WrongDirection::ALL.into_iter();
        for wrong in wrong.filter(|wrong| wrong.is_of(Call::Next)) {
            let comparer = comparer(wrong, Call::Next);
            let mut positions = Random::new(1);
            let mut differs = |s: Vec<u8>| {
                let position = positions::random_position(&mut positions, &s);
                comparer.reader(&s, position).is_err()
            };
            let mut random = Random::new(2);
            let any = found((0..5_000).map(|_| differs(strings::random_string(&mut random))));
            let nested = found((0..500).map(|_| differs(nesting::random_string(&mut random))));
            assert!(any > 5 && nested > 5, "{wrong:?} {any} {nested}");
        }
    }
}
