//! Wrong X11R5 writers, to test the comparison itself.

use crate::ffi::Lent;
use crate::r5_writer;
use crate::sets::{self, Designation, Sets, Side};
use crate::unit::*;
use crate::writer;

#[derive(Clone, Copy, PartialEq, Debug)]
pub enum WrongR5Writer {
    /// A right one.
    Right,
    /// The 00 is written and not counted.
    Uncounted,
    /// The 00 is counted and not written.
    Unwritten,
    /// No room is asked for the 00, which is written where there is some.
    NoRoomFor00,
    /// The limit is that of the octets with the 00.
    LimitWith00,
    /// There is no limit for the writing.
    NoLimit,
    /// 10 comes before 1 for the writing.
    RoomFirst,
    /// 12 for more units than the program's work room serves.
    WorkRoom,
    /// 12 where the output is shorter than the base writer's work room.
    OutputIsWorkRoom,
    /// Set 13 goes to GR.
    GrForX,
    /// The string is the base writer's, with a 00.
    Shortest,
    /// A space that finds a two-octet set in GL takes set 2.
    Set2ForSpace,
    /// A space under set 2 designates set 0.
    SpaceUnder2,
    /// A space under a two-octet set designates nothing.
    SpaceUnderPair,
    /// A character of another side's set designates its set anew.
    EachChange,
    /// Every newline designates set 0, where another stands in GL.
    AtNewline,
    /// At its end a string goes back to set 0.
    BackAtEnd,
    /// The first character of set 3 designates it.
    NotFresh,
    /// A bad segment is 7.
    SevenForSegment,
    /// A mark is 8 or 9 by the direction rule before it is 15.
    RuleFirst,
    /// A mark or segment anywhere is 15 before a bad unit before it.
    ForeignFirst,
    /// A segment is 15 whatever its d and its part.
    AnySegment,
    /// A segment's part is not asked for.
    AnyPart,
    /// A part of no octets lies anywhere.
    EmptyAnywhere,
    /// A bad unit anywhere is 11 before a mark or segment before it.
    BadFirst,
    /// The output holds what fits, though the answer is 10.
    StoredBefore10,
    /// It holds the units before an offending one.
    StoredBeforeRefusal,
    /// An octet behind the string is cleared.
    OctetTooMany,
    /// Accepted has the octets for its place.
    PlaceIsOctets,
    /// A depth that is not 0 is refused.
    LooksAtDepth,
}

use WrongR5Writer::*;

impl WrongR5Writer {
    pub const ALL: [WrongR5Writer; 29] = [
        Uncounted,
        Unwritten,
        NoRoomFor00,
        LimitWith00,
        NoLimit,
        RoomFirst,
        WorkRoom,
        OutputIsWorkRoom,
        GrForX,
        Shortest,
        Set2ForSpace,
        SpaceUnder2,
        SpaceUnderPair,
        EachChange,
        AtNewline,
        BackAtEnd,
        NotFresh,
        SevenForSegment,
        RuleFirst,
        ForeignFirst,
        AnySegment,
        AnyPart,
        EmptyAnywhere,
        BadFirst,
        StoredBefore10,
        StoredBeforeRefusal,
        OctetTooMany,
        PlaceIsOctets,
        LooksAtDepth,
    ];

    /// Whether only a list of about 65,535 units or octets, or of some hundreds, shows it.
    pub fn is_long(self) -> bool {
        matches!(self, LimitWith00 | NoLimit | RoomFirst | WorkRoom)
    }

    pub fn write(self, units: &[Unit], segments: &[u8], out: Lent) -> Answer {
        if let Some(refusal) = self.list_refusal(units, segments) {
            if self == StoredBeforeRefusal && refusal.number != 1 {
                store(&r5_writer::string(&units[..refusal.place]), out);
            }
            return refusal;
        }
        let string = self.string(units, segments);
        let answer = self.answer(units.len(), string.len() - 1, out.lent);
        let stored = match (self, answer.number) {
            (Unwritten, 0) => &string[..string.len() - 1],
            (NoRoomFor00, 0) => &string[..string.len().min(out.lent)],
            (_, 0) => &string[..],
            (StoredBefore10, 10) => &string[..out.lent],
            _ => &[],
        };
        out.octets[..stored.len()].copy_from_slice(stored);
        if self == OctetTooMany && answer.is_accepted() {
            out.octets[string.len()] = 0;
        }
        answer
    }

    fn answer(self, units: usize, octets: usize, room: usize) -> Answer {
        let right = r5_writer::answer(units, octets, room);
        match (self, right.number) {
            (Uncounted, 0 | 10) => Answer {
                count: octets,
                ..right
            },
            (NoRoomFor00, 10) if room == octets => Answer::accepted(units, octets + 1),
            (LimitWith00, 0 | 10) if octets == LIMIT => Answer::refusal(1, 0),
            (NoLimit, 1) if room > octets => Answer::accepted(units, octets + 1),
            (NoLimit | RoomFirst, 1) if room <= octets => Answer::too_short(octets + 1),
            (WorkRoom, _) if units > 909 => Answer::refusal(12, 0),
            (OutputIsWorkRoom, _) if room < writer::work_room(units) => Answer::refusal(12, 0),
            (PlaceIsOctets, 0) => Answer::accepted(octets + 1, octets + 1),
            _ => right,
        }
    }

    fn list_refusal(self, units: &[Unit], segments: &[u8]) -> Option<Answer> {
        let right = r5_writer::list_refusal(units, segments);
        if units.len() > LIMIT {
            return right;
        }
        let of = |number| {
            let offends = |unit| self.offence(unit, segments) == Some(number);
            let index = units.iter().position(offends);
            index.map(|index| Answer::refusal(number, index))
        };
        match self {
            ForeignFirst => of(15).or(right),
            BadFirst => of(11).or(right),
            RuleFirst => self.by_the_rule(units, segments, right),
            _ => units.iter().enumerate().find_map(|(index, unit)| {
                let number = self.offence(unit, segments)?;
                Some(Answer::refusal(number, index))
            }),
        }
    }

    fn offence(self, unit: &Unit, segments: &[u8]) -> Option<u8> {
        let right = r5_writer::offence(unit, segments);
        let good_d = (0x30..=0x34).contains(&unit.code);
        match (self, unit.kind) {
            (LooksAtDepth, _) if unit.depth > 0 => Some(11),
            (AnySegment, SEGMENT) => Some(15),
            (AnyPart, SEGMENT) if good_d => Some(15),
            (EmptyAnywhere, SEGMENT) if good_d && unit.length == 0 => Some(15),
            (SevenForSegment, SEGMENT) if right == Some(15) => {
                let base = writer::list_refusal(&[*unit], segments);
                base.map(|refusal| refusal.number).or(right)
            }
            _ => right,
        }
    }

    /// What the base writer refuses at the same unit.
    fn by_the_rule(self, units: &[Unit], segments: &[u8], right: Option<Answer>) -> Option<Answer> {
        let base = writer::list_refusal(units, segments);
        let same = |right: Answer| base.filter(|base| base.place == right.place);
        right.map(|right| same(right).unwrap_or(right))
    }

    fn string(self, units: &[Unit], segments: &[u8]) -> Vec<u8> {
        if self == Shortest {
            return [&writer::shortest_lazy(units, segments)[..], &[0x00]].concat();
        }
        let (mut string, mut sets) = (Vec::new(), Sets::FRESH);
        let mut before = 0;
        for unit in units {
            if let Some(d) = self.designation(unit, sets, before) {
                string.extend_from_slice(d.octets);
                sets = sets.with(d.side, d.set);
            }
            if unit.kind == CHARACTER {
                before = unit.set;
            }
            match (self, unit.kind, unit.set) {
                (GrForX, CHARACTER, 13) => {
                    r5_writer::push_character(&mut string, unit, Side::Gr);
                }
                _ => r5_writer::push_unit(&mut string, unit),
            }
        }
        if self == BackAtEnd && sets.gl != 0 {
            string.extend([0x1B, 0x28, 0x42]);
        }
        string.push(0x00);
        string
    }

    /// What is designated before a unit; the last character was of the set `before`.
    fn designation(self, unit: &Unit, sets: Sets, before: u8) -> Option<&'static Designation> {
        let right = r5_writer::needed(unit, sets);
        let to = |set, side| r5_writer::designation(set, side);
        let pair = sets::width(sets.gl) == 2;
        match (self, unit.kind) {
            (GrForX, CHARACTER) if unit.set == 13 => match sets.gr {
                13 => None,
                _ => to(13, Side::Gr),
            },
            (Set2ForSpace, SPACE) if pair => to(2, Side::Gl),
            (SpaceUnder2, SPACE) if sets.gl == 2 => to(0, Side::Gl),
            (SpaceUnderPair, SPACE) => None,
            (EachChange, CHARACTER) if unit.set != before => {
                to(unit.set, r5_writer::side(unit.set))
            }
            (AtNewline, NEWLINE) if sets.gl != 0 => to(0, Side::Gl),
            (NotFresh, CHARACTER) if unit.set == 3 && before == 0 => to(3, Side::Gr),
            _ => right,
        }
    }
}

fn store(string: &[u8], out: Lent) {
    let stored = (string.len() - 1).min(out.lent);
    out.octets[..stored].copy_from_slice(&string[..stored]);
}

/// Every wrong writer is found.
mod tests {
    use super::*;
    use crate::compare::Comparer;
    use crate::faults::{Fault, Faulty};
    use crate::ffi::Functions;
    use crate::lists::{self, List};
    use crate::r5_lists;
    use crate::random::Random;

    const ENOUGH: usize = 20;

    fn comparer(wrong: WrongR5Writer) -> Comparer<Faulty> {
        Comparer {
            library: Faulty::new(Fault::R5Writes(wrong)),
            functions: Functions {
                r5: true,
                ..Functions::NONE
            },
        }
    }

    /// How many of the lists show it, up to enough of them.
    fn found(wrong: WrongR5Writer, lists: impl Iterator<Item = List>) -> usize {
        let comparer = comparer(wrong);
        let differs = |list: &List| comparer.r5_list(&list.units, &list.segments).is_err();
        lists.filter(differs).take(ENOUGH).count()
    }

    #[test]
    fn a_right_one_is_not_found() {
        let mut random = Random::new(1);
        let random_lists = (0..5_000).map(|_| r5_lists::random_list(&mut random));
        assert_eq!(found(Right, random_lists), 0);
        let lists = r5_lists::limit_lists(&mut Random::new(2));
        assert_eq!(found(Right, lists.into_iter()), 0);
    }

    /// In lists made for it, short ones or such as are refused, and in random ones.
    #[test]
    fn in_lists() {
        for wrong in WrongR5Writer::ALL.into_iter().filter(|w| !w.is_long()) {
            let mut made = 0;
            let comparer = comparer(wrong);
            let mut compare = |units: &[Unit], segments: &[u8]| {
                if made < ENOUGH {
                    made += usize::from(comparer.r5_list(units, segments).is_err());
                }
            };
            r5_lists::short_lists(|units| compare(units, &[]));
            r5_lists::refused_lists(&mut compare);
            let mut random = Random::new(1);
            let random_lists = (0..5_000).map(|_| r5_lists::random_list(&mut random));
            let in_random = found(wrong, random_lists);
            let base = (0..5_000).map(|_| lists::random_list(&mut random));
            let in_base = found(wrong, base);
            let times = [made, in_random, in_base];
            assert!(times.iter().all(|&times| times > 5), "{wrong:?} {times:?}");
        }
    }

    #[test]
    fn in_lists_at_the_limit() {
        for wrong in WrongR5Writer::ALL.into_iter().filter(|w| w.is_long()) {
            let lists = r5_lists::limit_lists(&mut Random::new(2));
            let times = found(wrong, lists.into_iter());
            assert!(times > 3, "{wrong:?} {times}");
        }
    }
}
