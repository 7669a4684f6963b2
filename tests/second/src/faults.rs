//! Libraries with a known fault, to test the comparison itself.

use std::cell::Cell;
use std::ops::Range;

use crate::ffi::{Lent, Library};
use crate::reader::{self, State};
use crate::resource::{self, Made, Way};
use crate::run_steps::{self, RunList, RunReader, RunStep};
use crate::runs::{self, Shown};
use crate::sets::{self, Row};
use crate::steps::{self, Handed, Position};
use crate::unit::*;
use crate::writer;
use crate::wrong_archive::WrongArchive;
use crate::wrong_directions::{WrongDirection, WrongWriter};
use crate::wrong_places::WrongPlace;
use crate::wrong_r5_reader::WrongR5Reader;
use crate::wrong_r5_writer::WrongR5Writer;
use crate::wrong_rules::WrongRule;

#[derive(Clone, Copy, PartialEq)]
pub enum Fault {
    None,
    /// A refusal has a count.
    CountOfRefusal,
    /// The list is filled before a later element is refused.
    ListOfRefusal,
    /// A record behind the last unit is cleared.
    RecordTooMany,
    /// A run of GR octets is handed back one octet late.
    PlaceOfRun,
    /// A space at the end of the list is written as a tab.
    LastSpace,
    /// An octet behind the string is cleared.
    OctetTooMany,
    /// An octet behind the work room is cleared.
    WorkTooMuch,
    /// The writer needs an octet more than it writes.
    NeedsMore,
    /// A reader is opened with ASCII on both sides.
    Opened,
    /// A refused string hands out no unit.
    NoUnitBeforeRefusal,
    /// A reader at the end stays behind its last unit, as before request No. 4.
    EndStaysBehind,
    /// So does one before an offending element.
    RefusalStaysBehind,
    /// A reader stands at the octet that its refusal names.
    StandsAtOctet,
    /// Past its end a reader answers that there is none.
    EndIsOnce,
    /// The units are counted by the library, since the last opening.
    KeepsCount,
    /// A cut element is looked for behind the string.
    LooksBehind,
    /// A step clears the octet behind the string.
    WritesBehind,
    /// A reader made by hand may be one deeper.
    DepthLimit,
    /// Digits that mean nothing make a reader bad.
    IdleDigits,
    /// The count goes from the largest number to 0.
    CountWraps,
    /// A flag is yes only if it is 1.
    FlagIsOne,
    /// The runs in order of a refused string are shown up to the offence.
    RunBeforeRefusal,
    /// A run of GR octets is joined to that of GL octets behind it.
    RunsJoined,
    /// A word behind the last run of a list is cleared.
    WordTooMany,
    /// The runs before an offence are stored, though the string is refused.
    WordsOfRefusal,
    /// A run that a full list has no room for is passed over.
    RunPassedOver,
    /// An offence behind the runs of a list is answered in place of their number.
    RefusalTooEarly,
    /// A bad escape is refused at the octet behind its backslash.
    BehindBackslash,
    /// An escape that the form's end cuts is looked for behind it.
    CutEscape,
    /// A resource output that is too short holds what fits.
    StoredTooEarly,
    /// Too many plain octets are refused before a fault in the form.
    PlainFirst,
    /// A resource input is changed.
    WritesInput,
    /// A designation names a set of its form also where that may not stand, as
    /// `1B 29 42` does in ISO 2022.
    EitherSide,
    /// Every side but 0 is GR.
    SideIsFlag,
    /// A number past the last set has the row of that.
    RowOfNone,
    /// The archive reader is wrong.
    Archive(WrongArchive),
    /// Every refusal of a string has a wrong place.
    Places(WrongPlace),
    /// One of the functions alone refuses at the element's start.
    PlaceOf(Call),
    /// The check and the steps keep a wrong rule for segments.
    Reads(WrongRule),
    /// The writer keeps one.
    Writes(WrongRule),
    /// One of the functions gives wrong directions or depths.
    Directions(WrongDirection, Call),
    /// The writer looks at them.
    LooksAtDirections(WrongWriter),
    /// The X11R5 reader is wrong.
    R5Reads(WrongR5Reader),
    /// The X11R5 writer is.
    R5Writes(WrongR5Writer),
}

/// The functions that hand back the refusal of a string.
#[derive(Clone, Copy, PartialEq, Debug)]
pub enum Call {
    Check,
    Read,
    Run,
    Next,
    NextRun,
    NextRuns,
    ArchiveCheck,
    ArchiveRead,
}

impl Call {
    pub const ALL: [Call; 8] = [
        Call::Check,
        Call::Read,
        Call::Run,
        Call::Next,
        Call::NextRun,
        Call::NextRuns,
        Call::ArchiveCheck,
        Call::ArchiveRead,
    ];
}

pub struct Faulty {
    fault: Fault,
    /// The units handed out since the last opening, and whether an end was met.
    handed: Cell<usize>,
    ended: Cell<bool>,
}

impl Faulty {
    pub fn new(fault: Fault) -> Faulty {
        Faulty {
            fault,
            handed: Cell::new(0),
            ended: Cell::new(false),
        }
    }

    /// The position that a faulty step starts from.
    fn taken(&self, mut position: Position) -> Position {
        match self.fault {
            Fault::DepthLimit if position.depth == 17 => position.depth = 16,
            Fault::IdleDigits if position != position.without_idle_digits() => position.gl = 255,
            Fault::FlagIsOne => {
                position.marked = (position.marked == 1).into();
                position.texted = (position.texted == 1).into();
            }
            _ => {}
        }
        position
    }

    fn steps(&self, s: &[u8], from: Position) -> Vec<Handed> {
        match self.fault {
            Fault::Reads(rule) => rule.steps(s, from),
            Fault::Directions(wrong, Call::Next) => wrong.steps(s, from),
            _ => steps::steps(s, from),
        }
    }

    fn list_refusal(&self, units: &[Unit], segments: &[u8]) -> Option<Answer> {
        match self.fault {
            _ if units.len() > LIMIT => writer::list_refusal(units, segments),
            Fault::Writes(rule) => rule.list_refusal(units, segments),
            Fault::LooksAtDirections(wrong) => wrong.list_refusal(units, segments),
            _ => writer::list_refusal(units, segments),
        }
    }

    /// The string of a list that is not refused.
    fn written(&self, units: &[Unit], segments: &[u8]) -> Vec<u8> {
        match self.fault {
            Fault::LooksAtDirections(wrong) => {
                writer::shortest_lazy(&wrong.written(units), segments)
            }
            _ => writer::shortest_lazy(units, segments),
        }
    }

    /// The units of a list reader, with wrong directions if that is the fault.
    fn directed(&self, call: Call, s: &[u8], units: Vec<Unit>) -> Vec<Unit> {
        match self.fault {
            Fault::Directions(wrong, faulty) if faulty == call => wrong.units(s, State::fresh()),
            _ => units,
        }
    }

    /// What a faulty step hands back in place of the right thing.
    fn spoil(&self, s: &[u8], from: Position, steps: &[Handed]) -> Handed {
        let (first, last) = (steps[0], steps[steps.len() - 1]);
        let mut handed = first;
        handed.answer = self.placed(Call::Next, s, first.position.place, first.answer);
        match self.fault {
            Fault::NoUnitBeforeRefusal if !last.answer.is_accepted() => {
                handed = Handed {
                    position: from,
                    ..last
                };
            }
            Fault::EndStaysBehind if first.given == 0 && first.answer.is_accepted() => {
                handed.position = from;
            }
            Fault::RefusalStaysBehind if !first.answer.is_accepted() => handed.position = from,
            Fault::StandsAtOctet if !first.answer.is_accepted() => {
                handed.position.place = handed.answer.place;
            }
            Fault::EndIsOnce if first.given == 0 && self.ended.replace(true) => {
                handed.answer = Answer::refusal(11, 0);
            }
            Fault::KeepsCount if first.given == 1 => {
                self.handed.set(self.handed.get() + 1);
                handed.position.count = self.handed.get();
            }
            Fault::CountWraps if first.given == 1 => {
                handed.position.count = from.count.wrapping_add(1);
            }
            _ => {}
        }
        handed
    }

    /// The answer of a function, with a wrong place if that is the fault.
    fn placed(&self, call: Call, s: &[u8], start: usize, answer: Answer) -> Answer {
        let wrong = match self.fault {
            Fault::Places(wrong) => wrong,
            Fault::PlaceOf(faulty) if faulty == call => match answer.number {
                2 => WrongPlace::CutAtStart,
                _ => WrongPlace::Start,
            },
            _ => return answer,
        };
        wrong.answer(s, start, answer)
    }

    /// The same for a string that is read from its start.
    fn placed_in_string(&self, call: Call, s: &[u8], answer: Answer) -> Answer {
        if !matches!(self.fault, Fault::Places(_) | Fault::PlaceOf(_)) {
            return answer;
        }
        let steps = steps::steps(s, Position::OPENED);
        let start = steps[steps.len() - 1].position.place;
        self.placed(call, s, start, answer)
    }

    /// The same for a reader of runs: one that has not checked the string answers
    /// for the whole of it, others for the element before which they stand.
    fn placed_in_runs(&self, call: Call, s: &[u8], reader: &RunReader, answer: Answer) -> Answer {
        match reader.checked {
            0 => self.placed_in_string(call, s, answer),
            _ => self.placed(call, s, reader.at.place, answer),
        }
    }

    fn archive(&self) -> WrongArchive {
        match self.fault {
            Fault::Archive(wrong) => wrong,
            _ => WrongArchive::Right,
        }
    }

    /// What a faulty way makes of its input.
    fn made(&self, way: Way, s: &[u8]) -> Made {
        match (self.fault, way.make(s)) {
            (Fault::BehindBackslash, Err(refusal)) if s[refusal.place] == b'\\' => {
                Err(Answer::refusal(refusal.number, refusal.place + 1))
            }
            (Fault::PlainFirst, Err(refusal)) if refusal.number == 13 => {
                way.make(&s[..refusal.place]).and(Err(refusal))
            }
            (_, made) => made,
        }
    }
}

impl Library for Faulty {
    fn check(&self, s: &[u8]) -> Answer {
        let steps = self.steps(s, Position::OPENED);
        let mut answer = steps[steps.len() - 1].answer;
        if self.fault == Fault::CountOfRefusal && answer.number == 8 {
            answer.count = 1;
        }
        self.placed_in_string(Call::Check, s, answer)
    }

    fn read(&self, s: &[u8], list: &mut [Unit], room: usize) -> Answer {
        let (units, answer) = reader::units_from(s, State::fresh());
        let units = self.directed(Call::Read, s, units);
        let answer = reader::answer_with_room(answer, room);
        let early = self.fault == Fault::ListOfRefusal && room >= units.len();
        if answer.is_accepted() || early {
            list[..units.len()].copy_from_slice(&units);
        }
        if answer.is_accepted() && self.fault == Fault::RecordTooMany {
            list[units.len()] = Unit::default();
        }
        self.placed_in_string(Call::Read, s, answer)
    }

    fn run(&self, s: &[u8], number: usize) -> Shown {
        let mut shown = runs::shown(s.len(), &runs::runs(s), number);
        if let (Fault::PlaceOfRun, Some((start, _))) = (self.fault, &mut shown.part) {
            *start += usize::from(s[*start] >= 0xA0);
        }
        shown.answer = self.placed_in_string(Call::Run, s, shown.answer);
        shown
    }

    fn open(&self) -> Position {
        self.handed.set(0);
        self.ended.set(false);
        let mut opened = Position::OPENED;
        if self.fault == Fault::Opened {
            opened.gr = opened.gl;
        }
        opened
    }

    fn next(&self, memory: &mut [u8], mut string: Range<usize>, position: Position) -> Handed {
        if self.fault == Fault::WritesBehind {
            memory[string.end] = 0;
        }
        let cut = reader::check(&memory[string.clone()]).number == 2;
        if self.fault == Fault::LooksBehind && cut {
            string.end += 1;
        }
        let s = &memory[string];
        let from = self.taken(position);
        self.spoil(s, position, &self.steps(s, from))
    }

    fn open_runs(&self) -> RunReader {
        RunReader::OPENED
    }

    fn next_run(&self, memory: &mut [u8], string: Range<usize>, reader: RunReader) -> RunStep {
        let s = &memory[string];
        let mut step = run_steps::run_steps(s, reader)[0];
        let early = run_steps::run_steps(
            s,
            RunReader {
                checked: 1,
                ..reader
            },
        )[0];
        if self.fault == Fault::RunBeforeRefusal && early.shown.part.is_some() {
            step = early;
        }
        if let (Fault::RunsJoined, Some((start, length))) = (self.fault, &mut step.shown.part) {
            let end = *start + *length;
            if s[*start] >= 0xA0 && s.get(end).is_some_and(|octet| *octet == 0x20) {
                *length += 1;
            }
        }
        let answer = step.shown.answer;
        step.shown.answer = self.placed_in_runs(Call::NextRun, s, &step.reader, answer);
        step
    }

    fn next_runs(
        &self,
        memory: &mut [u8],
        string: Range<usize>,
        reader: RunReader,
        list: &mut [u64],
        room: usize,
    ) -> (RunReader, Answer) {
        let s = &memory[string];
        let lists = run_steps::run_lists(s, reader, room);
        let RunList {
            mut words,
            mut reader,
            mut answer,
        } = lists[0].clone();
        match self.fault {
            Fault::WordTooMany if answer.is_accepted() => words.push(0),
            Fault::WordsOfRefusal if !answer.is_accepted() => {
                let checked = RunReader {
                    checked: 1,
                    ..reader
                };
                words = run_steps::run_lists(s, checked, room)[0].words.clone();
            }
            Fault::RunPassedOver if lists.len() > 2 => reader = lists[1].reader,
            Fault::RefusalTooEarly if !words.is_empty() => {
                let next = lists[1].answer;
                answer = if next.is_accepted() { answer } else { next };
            }
            _ => {}
        }
        list[..words.len()].copy_from_slice(&words);
        let answer = self.placed_in_runs(Call::NextRuns, s, &reader, answer);
        (reader, answer)
    }

    fn write(&self, units: &[Unit], segments: &[u8], work: Lent, out: Lent) -> Answer {
        if self.fault == Fault::WorkTooMuch {
            work.octets[work.lent] = 0;
        }
        if let Some(refusal) = self.list_refusal(units, segments) {
            return refusal;
        }
        let mut string = self.written(units, segments);
        let answer = writer::answer(units.len(), string.len(), work.lent, out.lent);
        if let (Fault::LastSpace, Some(0x20)) = (self.fault, string.last()) {
            string.pop();
            string.push(0x09);
        }
        if answer.is_accepted() {
            out.octets[..string.len()].copy_from_slice(&string);
            if self.fault == Fault::OctetTooMany {
                out.octets[string.len()] = 0;
            }
        }
        match (self.fault, answer.number) {
            (Fault::NeedsMore, 10) => Answer::too_short(answer.count + 1),
            _ => answer,
        }
    }

    fn resource(&self, way: Way, memory: &mut [u8], mut string: Range<usize>, out: Lent) -> Answer {
        let length = string.len();
        let refused = way.make(&memory[string.clone()]).is_err();
        if self.fault == Fault::CutEscape && refused {
            string.end += 1;
        }
        let made = self.made(way, &memory[string.clone()]);
        let lent = &mut out.octets[..out.lent];
        let (answer, after) = resource::answer(length, &made, lent);
        lent.copy_from_slice(&after);
        match (self.fault, &made) {
            (Fault::StoredTooEarly, Ok(octets)) if answer.number == 10 => {
                lent.copy_from_slice(&octets[..out.lent]);
            }
            (Fault::OctetTooMany, Ok(octets)) if answer.is_accepted() => {
                out.octets[octets.len()] = 0;
            }
            (Fault::WritesInput, _) if length > 1 => memory[string.start] = 0,
            _ => {}
        }
        answer
    }

    fn set_row(&self, set: u8) -> Row {
        match self.fault {
            Fault::RowOfNone => sets::row(set.min(14)),
            _ => sets::row(set),
        }
    }

    fn set_of(&self, form: u8, side: u8, last: u8) -> u8 {
        let other = sets::set_of(form, 1 - side.min(1), last);
        match (self.fault, sets::set_of(form, side, last)) {
            (Fault::EitherSide, sets::NO_SET) if side < 2 => other,
            (Fault::SideIsFlag, _) => sets::set_of(form, side.min(1), last),
            (_, set) => set,
        }
    }

    fn archive_check(&self, memory: &mut [u8], string: Range<usize>) -> Answer {
        let answer = self.archive().reading(memory, string.clone()).1;
        self.placed_in_string(Call::ArchiveCheck, &memory[string], answer)
    }

    fn archive_read(
        &self,
        memory: &mut [u8],
        string: Range<usize>,
        list: &mut [Unit],
        room: usize,
    ) -> Answer {
        let wrong = self.archive();
        let (units, answer) = wrong.reading(memory, string.clone());
        let units = self.directed(Call::ArchiveRead, &memory[string.clone()], units);
        let answer = wrong.store(&units, answer, list, room);
        self.placed_in_string(Call::ArchiveRead, &memory[string], answer)
    }

    fn r5_read(
        &self,
        memory: &mut [u8],
        input: Range<usize>,
        list: &mut [Unit],
        room: usize,
    ) -> Answer {
        let wrong = match self.fault {
            Fault::R5Reads(wrong) => wrong,
            _ => WrongR5Reader::Right,
        };
        wrong.read(&memory[input.clone()], memory[input.end], list, room)
    }

    fn r5_write(&self, units: &[Unit], segments: &[u8], out: Lent) -> Answer {
        let wrong = match self.fault {
            Fault::R5Writes(wrong) => wrong,
            _ => WrongR5Writer::Right,
        };
        wrong.write(units, segments, out)
    }
}
