//! Wrong X11R5 readers, to test the comparison itself.

use crate::r5_reader::{reading, units_before};
use crate::reader::{self, State};
use crate::unit::*;

#[derive(Clone, Copy, PartialEq, Debug)]
pub enum WrongR5Reader {
    /// A right one.
    Right,
    /// 14 comes after 1.
    LimitBefore14,
    /// The limit is that of the whole input.
    LimitOfInput,
    /// The limit counts the 00.
    LimitWith00,
    /// Without a 00 the string ends where the input does.
    EndFor00,
    /// The octet behind the input may be the 00.
    LooksBehind,
    /// 14 is at 0.
    Place14,
    /// The last 00 ends the string.
    Last00,
    /// A 00 ends the string only where an element may start.
    Between,
    /// What stands behind the 00 is read on where the 00 cuts an element.
    ReadsOn,
    /// A cut element is refused at the input's length.
    CutAtInput,
    /// Accepted has the input's length.
    AcceptedAtInput,
    /// Accepted counts the 00.
    Counts00,
    /// The direction rule is asked before a mark is refused for what it is.
    RuleFirst,
    /// A mark is refused with 15 where its parameter is read.
    MarkAtParameter,
    /// It is so at its 9B.
    MarkAtOnce,
    /// Marks are taken, as the first reader takes them.
    TakesMarks,
    /// A segment is 15 once its M is read, 7 where that is low.
    AfterM,
    /// A segment's own shape is judged first.
    ShapeFirst,
    /// Every d from 30 to 3F is that of a segment.
    AnyD,
    /// 15 stands at the d, or at the last octet of a mark.
    AtLast,
    /// 15 for a version sequence too.
    VersionIs15,
    /// A version sequence is refused at its 1B.
    VersionAtEscape,
    /// Sets 12 to 14 are not approved for GR.
    NoPairsInGr,
    /// A list that is too short holds what fits.
    StoredBefore10,
    /// The list is filled before a later element is refused.
    ListOfRefusal,
    /// A record behind the last unit is cleared.
    RecordTooMany,
    /// 10 comes before a later offence.
    RoomFirst,
}

use WrongR5Reader::*;

impl WrongR5Reader {
    pub const ALL: [WrongR5Reader; 27] = [
        LimitBefore14,
        LimitOfInput,
        LimitWith00,
        EndFor00,
        LooksBehind,
        Place14,
        Last00,
        Between,
        ReadsOn,
        CutAtInput,
        AcceptedAtInput,
        Counts00,
        RuleFirst,
        MarkAtParameter,
        MarkAtOnce,
        TakesMarks,
        AfterM,
        ShapeFirst,
        AnyD,
        AtLast,
        VersionIs15,
        VersionAtEscape,
        NoPairsInGr,
        StoredBefore10,
        ListOfRefusal,
        RecordTooMany,
        RoomFirst,
    ];

    /// Whether only an input of about 65,535 octets shows it.
    pub fn is_long(self) -> bool {
        matches!(self, LimitBefore14 | LimitOfInput | LimitWith00)
    }

    /// The answer for an input among the octets of a memory, and the list after it.
    pub fn read(self, octets: &[u8], behind: u8, list: &mut [Unit], room: usize) -> Answer {
        let (units, right) = match (self, octets.contains(&0x00)) {
            (LooksBehind, false) => reading(&[octets, &[behind]].concat()),
            _ => self.reading(octets),
        };
        let mut answer = reader::answer_with_room(right, room);
        if self == RoomFirst && room < units.len() {
            answer = Answer::too_short(units.len());
        }
        let stored = match (self, answer.number) {
            (_, 0) => units.len(),
            (StoredBefore10, 10) => room,
            (ListOfRefusal, number) if number != 10 && units.len() <= room => units.len(),
            _ => 0,
        };
        list[..stored].copy_from_slice(&units[..stored]);
        if self == RecordTooMany && answer.is_accepted() {
            list[stored] = Unit::default();
        }
        answer
    }

    fn reading(self, input: &[u8]) -> (Vec<Unit>, Answer) {
        let first = input.iter().position(|&octet| octet == 0x00);
        let long = input.len() > LIMIT;
        match (self, first) {
            (LimitBefore14, None) if long => too_long(),
            (LimitOfInput, Some(_)) if long => too_long(),
            (LimitWith00, Some(LIMIT)) => too_long(),
            (EndFor00, None) => units_before(input, input.len()),
            (Place14, None) => (Vec::new(), Answer::refusal(14, 0)),
            (Last00, Some(_)) => {
                let last = input.iter().rposition(|&octet| octet == 0x00);
                units_before(input, last.unwrap_or(0))
            }
            (Between | ReadsOn, Some(end)) => self.past(input, end),
            (_, Some(end)) => self.spoilt(input, end),
            (_, None) => reading(input),
        }
    }

    /// The reading where the 00 cuts an element.
    fn past(self, input: &[u8], end: usize) -> (Vec<Unit>, Answer) {
        let (units, answer) = units_before(input, end);
        match (self, answer.number) {
            (Between, 2) => units_before(input, end + 1),
            (ReadsOn, 2) => {
                let (units, answer) = reading(&[&input[..end], &input[end + 1..]].concat());
                let place = answer.place + usize::from(answer.place >= end);
                (units, Answer { place, ..answer })
            }
            _ => (units, answer),
        }
    }

    /// A right reading of the octets before the 00, spoilt.
    fn spoilt(self, input: &[u8], end: usize) -> (Vec<Unit>, Answer) {
        let s = &input[..end];
        let (units, right) = units_before(input, end);
        let answer = match (self, right.number) {
            (CutAtInput, 2) => Answer::refusal(2, input.len()),
            (AcceptedAtInput, 0) => Answer::accepted(input.len(), right.count),
            (Counts00, 0) => Answer::accepted(right.place, right.count + 1),
            (VersionIs15, 6) => Answer::refusal(15, right.place - 1),
            (VersionAtEscape, 6) => Answer::refusal(6, right.place - 1),
            (TakesMarks, 15) if s[right.place] == 0x9B => return first_reader(s, right),
            (_, 15) if s[right.place] == 0x9B => self.mark(s, &units, right),
            (_, 15) => self.segment(s, right),
            (AnyD, 4) if follows(s, right.place, b"\x1B%/") => match s[right.place] {
                0x35..=0x3F => Answer::refusal(15, right.place - 3),
                _ => right,
            },
            (MarkAtParameter | MarkAtOnce, 2 | 4) => self.unfinished(s, right),
            (NoPairsInGr, _) => return without_pairs(s, units, right),
            _ => right,
        };
        (units, answer)
    }

    /// A complete mark, where a right reader refuses it.
    fn mark(self, s: &[u8], units: &[Unit], right: Answer) -> Answer {
        let reverts = s[right.place + 1] == 0x5D;
        let texted = units.iter().any(|u| matches!(u.kind, CHARACTER | SPACE));
        match self {
            RuleFirst if reverts || texted => Answer::refusal(8, right.place),
            AtLast if reverts => Answer::refusal(15, right.place + 1),
            AtLast => Answer::refusal(15, right.place + 2),
            _ => right,
        }
    }

    /// A mark that is cut, or unknown.
    fn unfinished(self, s: &[u8], right: Answer) -> Answer {
        let begun = |octets: &[u8]| follows(s, right.place, octets);
        let length = match self {
            MarkAtOnce if begun(b"\x9B") => 1,
            _ if begun(b"\x9B1") || begun(b"\x9B2") => 2,
            _ => return right,
        };
        Answer::refusal(15, right.place - length)
    }

    /// A segment, where a right reader has read its d.
    fn segment(self, s: &[u8], right: Answer) -> Answer {
        let start = right.place;
        match (self, s.get(start + 4)) {
            (AfterM, None) => Answer::refusal(2, s.len()),
            (AfterM, Some(0..=0x7F)) => Answer::refusal(7, start + 4),
            (ShapeFirst, _) => {
                let mut state = State::fresh();
                let answer = reader::advance(s, &mut state, |_, _| {});
                match answer.number {
                    2 | 7 if state.place == start => answer,
                    _ => right,
                }
            }
            (AtLast, _) => Answer::refusal(15, start + 3),
            _ => right,
        }
    }
}

fn too_long() -> (Vec<Unit>, Answer) {
    (Vec::new(), Answer::refusal(1, 0))
}

/// Whether these octets stand right before the place.
fn follows(s: &[u8], place: usize, octets: &[u8]) -> bool {
    s[..place].ends_with(octets)
}

/// The first reader's reading, if it accepts.
fn first_reader(s: &[u8], right: Answer) -> (Vec<Unit>, Answer) {
    match reader::read(s) {
        Ok(units) => {
            let count = units.len();
            (units, Answer::accepted(s.len(), count))
        }
        Err(_) => (Vec::new(), right),
    }
}

/// The reading up to the first designation of a two-octet set to GR.
fn without_pairs(s: &[u8], mut units: Vec<Unit>, right: Answer) -> (Vec<Unit>, Answer) {
    let passed = &s[..right.place];
    let designates = |octets: &[u8]| matches!(octets, [0x1B, 0x24, 0x29, 0x41..=0x43]);
    match passed.windows(4).position(designates) {
        None => (units, right),
        Some(place) => {
            units.retain(|unit| (unit.start as usize) < place);
            (units, Answer::refusal(5, place + 3))
        }
    }
}

/// Every wrong reader is found.
mod tests {
    use super::*;
    use crate::compare::Comparer;
    use crate::faults::{Fault, Faulty};
    use crate::ffi::Functions;
    use crate::r5_strings;
    use crate::random::Random;
    use crate::strings;

    const ENOUGH: usize = 20;

    fn comparer(wrong: WrongR5Reader) -> Comparer<Faulty> {
        Comparer {
            library: Faulty::new(Fault::R5Reads(wrong)),
            functions: Functions {
                r5: true,
                ..Functions::NONE
            },
        }
    }

    /// How many of the inputs show it, up to enough of them.
    fn found(wrong: WrongR5Reader, inputs: impl Iterator<Item = Vec<u8>>) -> usize {
        let comparer = comparer(wrong);
        let differs = |input: &Vec<u8>| comparer.r5_reading(input).is_err();
        inputs.filter(differs).take(ENOUGH).count()
    }

    #[test]
    fn a_right_one_is_not_found() {
        let mut random = Random::new(1);
        let inputs = (0..5_000).map(|_| r5_strings::random_input(&mut random));
        assert_eq!(found(Right, inputs), 0);
        let inputs = r5_strings::limit_inputs(&mut Random::new(2));
        assert_eq!(found(Right, inputs.into_iter()), 0);
    }

    #[test]
    fn in_random_inputs() {
        for wrong in WrongR5Reader::ALL.into_iter().filter(|w| !w.is_long()) {
            let mut random = Random::new(1);
            let inputs = (0..5_000).map(|_| r5_strings::random_input(&mut random));
            let times = found(wrong, inputs);
            assert!(times > 5, "{wrong:?} {times}");
        }
    }

    #[test]
    fn in_inputs_at_the_limit() {
        for wrong in WrongR5Reader::ALL.into_iter().filter(|w| w.is_long()) {
            let inputs = r5_strings::limit_inputs(&mut Random::new(2));
            let times = found(wrong, inputs.into_iter());
            assert!(times > 5, "{wrong:?} {times}");
        }
    }

    /// In the strings of the base comparison, with 00 put in.
    #[test]
    fn in_strings_after_a_prefix() {
        let mut inputs = Vec::new();
        for prefix in strings::prefixes().into_iter().chain([vec![0x9B], vec![]]) {
            strings::all_strings(&prefix, &strings::TELLING, 2, |s| {
                r5_strings::with_00(s, inputs.len() / 2, |input| inputs.push(input.to_vec()));
                true
            });
        }
        for wrong in WrongR5Reader::ALL.into_iter().filter(|w| !w.is_long()) {
            let times = found(wrong, inputs.iter().cloned());
            assert!(times > 5, "{wrong:?} {times}");
        }
    }
}
