//! The comparison of one string, or of one list, with the library.

use crate::ffi::{Functions, Lent, Library};
use crate::oracle::{show_answer, show_octets, show_units};
use crate::reader::{self, State};
use crate::runs::{self, Shown};
use crate::unit::*;
use crate::writer;

/// A call on which the two differ.
#[derive(Clone, PartialEq, Eq, Debug)]
pub struct Difference {
    pub call: String,
    pub second: String,
    pub library: String,
}

pub type Compared = Result<(), Difference>;

/// Records and octets behind what is lent, which no call may change.
const GUARD_RECORDS: usize = 2;
pub const GUARD_OCTETS: usize = 8;

/// Up to so many units the string is also looked up among all lazy strings.
const FEW_UNITS: usize = 8;

/// Up to so many runs each is asked for.
const FEW_RUNS: usize = 40;

pub struct Comparer<L: Library> {
    pub library: L,
    pub functions: Functions,
}

impl<L: Library> Comparer<L> {
    /// Compares every function on a string, and the writer on its units.
    pub fn string(&self, s: &[u8]) -> Compared {
        let (units, answer) = reader::units_from(s, State::fresh());
        self.first_reader(s, &units, answer)?;
        if self.functions.run {
            self.runs(s)?;
        }
        if self.functions.write && answer.is_accepted() {
            self.writes(&units, s, Rooms::Few, Rooms::One)?;
        }
        Ok(())
    }

    /// Compares the check and the list reader alone.
    pub fn readings(&self, s: &[u8]) -> Compared {
        let (units, answer) = reader::units_from(s, State::fresh());
        self.first_reader(s, &units, answer)
    }

    fn first_reader(&self, s: &[u8], units: &[Unit], answer: Answer) -> Compared {
        depths(0, units)?;
        if self.functions.check {
            self.check(s, answer)?;
        }
        if self.functions.read {
            self.reads(s, units, answer)?;
        }
        Ok(())
    }

    /// Compares the writer on a list of units.
    pub fn list(&self, units: &[Unit], segments: &[u8]) -> Compared {
        self.writes(units, segments, Rooms::Many, Rooms::Few)
    }

    fn check(&self, s: &[u8], expected: Answer) -> Compared {
        let call = || "ctext_check".to_string();
        same(expected, self.library.check(s), call, show_answer)
    }

    fn reads(&self, s: &[u8], units: &[Unit], check: Answer) -> Compared {
        for room in rooms_of_a_list(units.len()) {
            self.read(s, units, check, room)?;
        }
        Ok(())
    }

    /// The answer, and every record, lent or guard, after the call.
    fn read(&self, s: &[u8], units: &[Unit], check: Answer, room: usize) -> Compared {
        let theirs = self.first_read(s, room);
        let call = || format!("ctext_read into a list of {room}");
        same_reading(&expected_reading(units, check, room), &theirs, call)
    }

    pub fn first_read(&self, s: &[u8], room: usize) -> Reading {
        let mut list = pattern_list(room);
        let answer = self.library.read(s, &mut list, room);
        Reading { answer, list }
    }

    fn runs(&self, s: &[u8]) -> Compared {
        let runs = runs::runs(s);
        for number in run_numbers(runs.as_ref().map_or(0, Vec::len)) {
            let expected = runs::shown(s.len(), &runs, number);
            let call = || format!("ctext_run number {number}");
            same(expected, self.library.run(s, number), call, show_shown)?;
        }
        Ok(())
    }

    /// In so many rooms the list as it is, and in some with other values in the
    /// fields that the writer has to ignore.
    fn writes(&self, units: &[Unit], segments: &[u8], rooms: Rooms, others: Rooms) -> Compared {
        let expected = match writer::list_refusal(units, segments) {
            Some(refusal) => Expected::Refused(refusal),
            None => written(units, segments)?,
        };
        let mut work = Vec::new();
        self.writes_in(rooms, units, segments, &expected, &mut work)?;
        let other = otherwise_directed(units);
        let compared = self.writes_in(others, &other, segments, &expected, &mut work);
        compared.map_err(|difference| Difference {
            call: format!("{}, directions and depths changed", difference.call),
            ..difference
        })
    }

    /// What one call leaves in the work room is old contents to the next.
    fn writes_in(
        &self,
        rooms: Rooms,
        units: &[Unit],
        segments: &[u8],
        expected: &Expected,
        work: &mut Vec<u8>,
    ) -> Compared {
        for (work_room, room) in rooms_of_a_writing(units.len(), expected.length(), rooms) {
            work.resize(work_room + GUARD_OCTETS, 0xA5);
            self.write(units, segments, expected, work, room)?;
        }
        Ok(())
    }

    /// The answer, every octet of the output and its guard, and the guard of
    /// the work room after the call.
    fn write(
        &self,
        units: &[Unit],
        segments: &[u8],
        expected: &Expected,
        work: &mut [u8],
        room: usize,
    ) -> Compared {
        let work_room = work.len() - GUARD_OCTETS;
        let work_guard: Vec<u8> = (0..GUARD_OCTETS).map(pattern_octet).collect();
        work[work_room..].copy_from_slice(&work_guard);
        let before: Vec<u8> = (0..room + GUARD_OCTETS).map(pattern_octet).collect();
        let answer = expected.answer(units.len(), work_room, room);
        let mut expected_out = before.clone();
        if let (true, Expected::Written(string)) = (answer.is_accepted(), expected) {
            expected_out[..string.len()].copy_from_slice(string);
        }
        let mut out = before;
        let lent_work = Lent {
            octets: work,
            lent: work_room,
        };
        let lent_out = Lent {
            octets: &mut out,
            lent: room,
        };
        let theirs = self.library.write(units, segments, lent_work, lent_out);
        let call = || format!("ctext_write with work room {work_room} and output {room}");
        same(answer, theirs, call, show_answer)?;
        let output = || format!("{}, the output after it", call());
        same(expected_out, out, output, |out| show_octets(out))?;
        let guard = || format!("{}, the octets behind the work room", call());
        let work_end = work[work_room..].to_vec();
        same(work_guard, work_end, guard, |octets| show_octets(octets))
    }
}

/// The answer of a list reader, and the list after it with its guards.
pub struct Reading {
    pub answer: Answer,
    pub list: Vec<Unit>,
}

/// What a list reader has to do with a string of these units and this check's
/// answer, in a list of this room.
pub fn expected_reading(units: &[Unit], check: Answer, room: usize) -> Reading {
    let answer = reader::answer_with_room(check, room);
    let mut list = pattern_list(room);
    if answer.is_accepted() {
        list[..units.len()].copy_from_slice(units);
    }
    Reading { answer, list }
}

pub fn same_reading(second: &Reading, library: &Reading, call: impl Fn() -> String) -> Compared {
    same(&second.answer, &library.answer, &call, |a| show_answer(a))?;
    let records = || format!("{}, the records after it", call());
    same(&second.list, &library.list, records, |list| {
        show_units(list)
    })
}

/// A list of this room before a call, with its guards.
pub fn pattern_list(room: usize) -> Vec<Unit> {
    (0..room + GUARD_RECORDS).map(pattern_unit).collect()
}

/// Holds this program's own reading to what request No. 6 promises, where so many
/// directions are open before its first unit.
pub fn depths(before: u16, units: &[Unit]) -> Compared {
    if depths_follow(before, units) {
        return Ok(());
    }
    Err(Difference {
        call: format!("second alone: depths after {before} open directions"),
        second: show_units(units),
        library: String::new(),
    })
}

/// The list with other values in the two fields that a reading leaves out: 0 in
/// place of any, and the largest in place of 0.
pub fn otherwise_directed(units: &[Unit]) -> Vec<Unit> {
    let other = |value| if value == 0 { u16::MAX } else { 0 };
    let unit = |unit: &Unit| {
        let (direction, depth) = unit.directed();
        unit.with_directed((other(direction), other(depth)))
    };
    units.iter().map(unit).collect()
}

/// What the writer has to do with a list.
enum Expected {
    Refused(Answer),
    /// The one string; the answer may still be a refusal for room.
    Written(Vec<u8>),
}

impl Expected {
    fn length(&self) -> usize {
        match self {
            Expected::Refused(_) => 0,
            Expected::Written(string) => string.len(),
        }
    }

    fn answer(&self, units: usize, work_room: usize, room: usize) -> Answer {
        match self {
            Expected::Refused(refusal) => *refusal,
            Expected::Written(string) => writer::answer(units, string.len(), work_room, room),
        }
    }
}

/// The string that a good list is written as, checked by the other ways to it:
/// the least length over all strings, the list of all lazy strings, and its
/// reading. A difference here is one of this program with itself.
fn written(units: &[Unit], segments: &[u8]) -> Result<Expected, Difference> {
    let string = writer::shortest_lazy(units, segments);
    let least = writer::least_length(units);
    let call = || "second alone: least length, and length of the string".to_string();
    same(least, string.len(), call, |n| n.to_string())?;
    if units.len() <= FEW_UNITS {
        let call = || "second alone: out of all lazy strings, and by choice".to_string();
        let looked_up = writer::shortest_of_all_lazy(units, segments);
        same(&looked_up, &string, call, |s| show_octets(s))?;
    }
    if string.len() <= LIMIT && !reads_as(&string, units, segments) {
        return Err(Difference {
            call: "second alone: the reading of its own string".to_string(),
            second: show_octets(&string),
            library: String::new(),
        });
    }
    Ok(Expected::Written(string))
}

/// Whether the string is accepted and its reading is the list's.
fn reads_as(string: &[u8], units: &[Unit], segments: &[u8]) -> bool {
    let reread = reader::read(string);
    reread.is_ok_and(|reread| same_meanings((&reread, string), (units, segments)))
}

/// Whether two lists, each with the octets of its segments, have one reading.
pub fn same_meanings(a: (&[Unit], &[u8]), b: (&[Unit], &[u8])) -> bool {
    let mine = a.0.iter().map(|unit| meaning(unit, a.1));
    mine.eq(b.0.iter().map(|unit| meaning(unit, b.1)))
}

/// Rooms of a list for so many units, which are those before the offending
/// element in a refused string: exact, longer, none, one less.
pub fn rooms_of_a_list(units: usize) -> Vec<usize> {
    match units {
        0 => vec![0, 3],
        1 => vec![1, 4, 0],
        _ => vec![units, units + 3, 0, units - 1],
    }
}

/// How many sizes of the work room and the output are tried.
#[derive(Clone, Copy)]
enum Rooms {
    One,
    Few,
    Many,
}

/// Pairs of work room and output for a list of so many units and a writing of
/// so many octets.
fn rooms_of_a_writing(units: usize, length: usize, rooms: Rooms) -> Vec<(usize, usize)> {
    let work = writer::work_room(units);
    let short = length.saturating_sub(1);
    let mut pairs = vec![(work, length + 3)];
    if let Rooms::Few | Rooms::Many = rooms {
        pairs.extend([(work, short), (work - 1, length)]);
    }
    if let Rooms::Many = rooms {
        pairs.extend([(work, length), (work, 0), (work + 5, length)]);
        pairs.extend([(work - 1, 0), (0, length + 3), (0, 0)]);
    }
    pairs
}

/// The runs to ask for: all of a few, some of many, and past the last.
fn run_numbers(runs: usize) -> Vec<usize> {
    let mut numbers: Vec<usize> = if runs <= FEW_RUNS {
        (0..runs).collect()
    } else {
        let ends = (0..4).chain(runs - 4..runs);
        ends.chain((1..8).map(|part| runs / 8 * part)).collect()
    };
    numbers.extend([runs, runs + 1, usize::MAX]);
    numbers
}

/// Compares two values, and shows them only if they differ.
pub fn same<T: PartialEq>(
    second: T,
    library: T,
    call: impl Fn() -> String,
    show: impl Fn(&T) -> String,
) -> Compared {
    if second == library {
        return Ok(());
    }
    Err(Difference {
        call: call(),
        second: show(&second),
        library: show(&library),
    })
}

/// A record that no reading gives, another for each place.
fn pattern_unit(place: usize) -> Unit {
    Unit {
        kind: 0xA5,
        set: 0x5A,
        code: 0xFEED,
        start: 0xDEAD_0000 ^ place as u32,
        length: 0xBEEF_0000 ^ place as u32,
        direction: 0xF00D ^ place as u16,
        depth: 0xCAFE ^ place as u16,
    }
}

pub fn pattern_octet(place: usize) -> u8 {
    (place as u8).wrapping_mul(29) ^ 0xC6
}

pub fn show_shown(shown: &Shown) -> String {
    let part = match shown.part {
        None => "the empty part".to_string(),
        Some((start, length)) => format!("part of {length} at {start}"),
    };
    format!(
        "{}, {part}, set {} width {} direction {}",
        show_answer(&shown.answer),
        shown.set,
        shown.width,
        shown.direction
    )
}
