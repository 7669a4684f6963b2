//! The boundary to the proved library: all unsafe code of this program.
//!
//! A function whose cargo feature is off is not referenced. Another function
//! of the library is added by a declaration below, a method of `Library`, and
//! a feature in Cargo.toml.

#![allow(unsafe_code)]
#![cfg_attr(
    not(all(
        feature = "check",
        feature = "read",
        feature = "run",
        feature = "next",
        feature = "runs",
        feature = "listed",
        feature = "write",
        feature = "resource",
        feature = "sets",
        feature = "archive",
        feature = "r5"
    )),
    allow(dead_code)
)]

use std::mem::size_of;
use std::ops::Range;

use crate::resource::Way;
use crate::run_steps::{RunReader, RunStep};
use crate::runs::Shown;
use crate::sets::Row;
use crate::steps::{Handed, Position};
use crate::unit::{Answer, Unit};

/// A library under comparison.
pub trait Library {
    fn check(&self, s: &[u8]) -> Answer;

    /// Lends the first `room` records of the list; the rest are guards.
    fn read(&self, s: &[u8], list: &mut [Unit], room: usize) -> Answer;

    fn run(&self, s: &[u8], number: usize) -> Shown;

    fn open(&self) -> Position;

    /// The string stands at the range in the memory; the rest are guards. It is
    /// mutable so that what a call may not change can be looked at after it.
    fn next(&self, memory: &mut [u8], string: Range<usize>, position: Position) -> Handed;

    fn open_runs(&self) -> RunReader;

    /// As for a step.
    fn next_run(&self, memory: &mut [u8], string: Range<usize>, reader: RunReader) -> RunStep;

    /// As for a step, and lends the first `room` words of the list; the rest are
    /// guards.
    fn next_runs(
        &self,
        memory: &mut [u8],
        string: Range<usize>,
        reader: RunReader,
        list: &mut [u64],
        room: usize,
    ) -> (RunReader, Answer);

    /// Lends the first octets of the work room and of the output; the rest are
    /// guards.
    fn write(&self, units: &[Unit], segments: &[u8], work: Lent, out: Lent) -> Answer;

    /// As for a step, and lends the first octets of the output.
    fn resource(&self, way: Way, memory: &mut [u8], string: Range<usize>, out: Lent) -> Answer;

    fn set_row(&self, set: u8) -> Row;

    fn set_of(&self, form: u8, side: u8, last: u8) -> u8;

    /// The check of the archive reader; the string stands as for a step.
    fn archive_check(&self, memory: &mut [u8], string: Range<usize>) -> Answer;

    /// Its list reader; the list is lent as for a reading.
    fn archive_read(
        &self,
        memory: &mut [u8],
        string: Range<usize>,
        list: &mut [Unit],
        room: usize,
    ) -> Answer;

    /// The X11R5 reader; input and list are lent as for the archive reader.
    fn r5_read(
        &self,
        memory: &mut [u8],
        input: Range<usize>,
        list: &mut [Unit],
        room: usize,
    ) -> Answer;

    /// The X11R5 writer, which takes no work room.
    fn r5_write(&self, units: &[Unit], segments: &[u8], out: Lent) -> Answer;
}

/// Octets of which the first are lent, and the rest are guards.
pub struct Lent<'a> {
    pub octets: &'a mut [u8],
    pub lent: usize,
}

/// Which functions are there to compare.
#[derive(Clone, Copy, PartialEq, Eq, Debug)]
pub struct Functions {
    pub check: bool,
    pub read: bool,
    pub run: bool,
    pub next: bool,
    pub runs: bool,
    pub listed: bool,
    pub write: bool,
    pub resource: bool,
    pub sets: bool,
    pub archive: bool,
    pub r5: bool,
}

impl Functions {
    pub const NONE: Functions = Functions {
        check: false,
        read: false,
        run: false,
        next: false,
        runs: false,
        listed: false,
        write: false,
        resource: false,
        sets: false,
        archive: false,
        r5: false,
    };
}

/// The functions that this program has been linked with.
pub const LINKED: Functions = Functions {
    check: cfg!(feature = "check"),
    read: cfg!(feature = "read"),
    run: cfg!(feature = "run"),
    next: cfg!(feature = "next"),
    runs: cfg!(feature = "runs"),
    listed: cfg!(feature = "listed"),
    write: cfg!(feature = "write"),
    resource: cfg!(feature = "resource"),
    sets: cfg!(feature = "sets"),
    archive: cfg!(feature = "archive"),
    r5: cfg!(feature = "r5"),
};

#[repr(C)]
struct CAnswer {
    place: usize,
    count: usize,
    number: u8,
}

#[repr(C)]
#[derive(Clone, Copy)]
struct CUnit {
    kind: u8,
    set: u8,
    code: u16,
    start: u32,
    length: u32,
    direction: u16,
    depth: u16,
}

#[repr(C)]
struct CRun {
    start: usize,
    end: usize,
    answer: CAnswer,
    set: u8,
    width: u8,
    direction: u8,
}

#[repr(C)]
struct CReader {
    levels: u64,
    place: usize,
    count: usize,
    gl: u8,
    gr: u8,
    depth: u8,
    marked: u8,
    texted: u8,
}

/// A reader that is passed, with the octets behind its fields: they mean
/// nothing, so they hold a pattern.
#[repr(C)]
struct CPassedReader {
    levels: u64,
    place: usize,
    count: usize,
    gl: u8,
    gr: u8,
    depth: u8,
    marked: u8,
    texted: u8,
    behind: [u8; 3],
}

#[repr(C)]
struct CStep {
    reader: CReader,
    answer: CAnswer,
    unit: CUnit,
    given: u8,
}

#[repr(C)]
struct CRunReader {
    levels: u64,
    place: usize,
    gl: u8,
    gr: u8,
    depth: u8,
    marked: u8,
    texted: u8,
    checked: u8,
}

/// A reader of runs that is passed, with the octets behind its fields.
#[repr(C)]
struct CPassedRunReader {
    levels: u64,
    place: usize,
    gl: u8,
    gr: u8,
    depth: u8,
    marked: u8,
    texted: u8,
    checked: u8,
    behind: [u8; 2],
}

#[repr(C)]
struct CRunStep {
    reader: CRunReader,
    run: CRun,
}

#[repr(C)]
struct CRunsStep {
    reader: CRunReader,
    answer: CAnswer,
}

#[repr(C)]
struct CRow {
    form: u8,
    final_octet: u8,
    gl: u8,
    gr: u8,
    octets: u8,
}

/// The header's sizes.
const _: () = assert!(size_of::<CUnit>() == 16);
const _: () = assert!(
    size_of::<CReader>() == 32 && size_of::<CPassedReader>() == 32 && size_of::<CStep>() == 80
);
const _: () = assert!(
    size_of::<CRunReader>() == 24
        && size_of::<CPassedRunReader>() == 24
        && size_of::<CRunStep>() == 72
        && size_of::<CRunsStep>() == 48
);
const _: () = assert!(size_of::<CRow>() == 5);

extern "C" {
    fn ctext_check(s: *const u8, n: usize) -> CAnswer;
    fn ctext_read(s: *const u8, n: usize, units: *mut CUnit, room: usize) -> CAnswer;
    fn ctext_archive_check(s: *const u8, n: usize) -> CAnswer;
    fn ctext_archive_read(s: *const u8, n: usize, units: *mut CUnit, room: usize) -> CAnswer;
    fn ctext_run(s: *const u8, n: usize, k: usize) -> CRun;
    fn ctext_open() -> CReader;
    fn ctext_next(s: *const u8, n: usize, reader: CPassedReader) -> CStep;
    fn ctext_open_runs() -> CRunReader;
    fn ctext_next_run(s: *const u8, n: usize, reader: CPassedRunReader) -> CRunStep;
    fn ctext_next_runs(
        s: *const u8,
        n: usize,
        reader: CPassedRunReader,
        runs: *mut u64,
        room: usize,
    ) -> CRunsStep;
    fn ctext_write(
        units: *const CUnit,
        count: usize,
        segments: *const u8,
        m: usize,
        work: *mut u8,
        w: usize,
        out: *mut u8,
        o: usize,
    ) -> CAnswer;
    fn ctext_resource_write(s: *const u8, n: usize, out: *mut u8, o: usize) -> CAnswer;
    fn ctext_resource_read(s: *const u8, n: usize, out: *mut u8, o: usize) -> CAnswer;
    fn ctext_set_row(set: u8) -> CRow;
    fn ctext_set_of(form: u8, side: u8, final_octet: u8) -> u8;
    fn ctext_r5_read(s: *const u8, n: usize, units: *mut CUnit, room: usize) -> CAnswer;
    fn ctext_r5_write(
        units: *const CUnit,
        n: usize,
        segments: *const u8,
        m: usize,
        out: *mut u8,
        room: usize,
    ) -> CAnswer;
}

/// The proved library, libctext.a.
pub struct Proved;

impl Library for Proved {
    fn check(&self, s: &[u8]) -> Answer {
        #[cfg(feature = "check")]
        // Safety: the octets are lent for the call, with their number.
        let answer = from_c(unsafe { ctext_check(s.as_ptr(), s.len()) });
        #[cfg(not(feature = "check"))]
        let answer = not_linked(s);
        answer
    }

    fn read(&self, s: &[u8], list: &mut [Unit], room: usize) -> Answer {
        assert!(room <= list.len());
        let mut records: Vec<CUnit> = list.iter().map(to_c).collect();
        #[cfg(feature = "read")]
        // Safety: at least `room` records stand at the pointer.
        let answer = from_c(unsafe { ctext_read(s.as_ptr(), s.len(), records.as_mut_ptr(), room) });
        #[cfg(not(feature = "read"))]
        let answer = not_linked((s, &mut records));
        for (unit, record) in list.iter_mut().zip(&records) {
            *unit = unit_from_c(record);
        }
        answer
    }

    fn run(&self, s: &[u8], number: usize) -> Shown {
        #[cfg(feature = "run")]
        // Safety: as for the check.
        let run = unsafe { ctext_run(s.as_ptr(), s.len(), number) };
        #[cfg(not(feature = "run"))]
        let run: CRun = not_linked((s, number));
        shown_from_c(run)
    }

    fn open(&self) -> Position {
        #[cfg(feature = "next")]
        // Safety: nothing is lent.
        let reader = unsafe { ctext_open() };
        #[cfg(not(feature = "next"))]
        let reader = not_linked(());
        position_from_c(reader)
    }

    fn next(&self, memory: &mut [u8], string: Range<usize>, position: Position) -> Handed {
        assert!(string.start <= string.end && string.end <= memory.len());
        let (s, n) = (memory.as_mut_ptr().wrapping_add(string.start), string.len());
        #[cfg(feature = "next")]
        // Safety: so many octets stand at the pointer.
        let step = unsafe { ctext_next(s, n, position_to_c(position)) };
        #[cfg(not(feature = "next"))]
        let step: CStep = not_linked((s, n, position_to_c(position)));
        Handed {
            position: position_from_c(step.reader),
            answer: from_c(step.answer),
            unit: unit_from_c(&step.unit),
            given: step.given,
        }
    }

    fn open_runs(&self) -> RunReader {
        #[cfg(feature = "runs")]
        // Safety: nothing is lent.
        let reader = unsafe { ctext_open_runs() };
        #[cfg(not(feature = "runs"))]
        let reader = not_linked(());
        run_reader_from_c(reader)
    }

    fn next_run(&self, memory: &mut [u8], string: Range<usize>, reader: RunReader) -> RunStep {
        assert!(string.start <= string.end && string.end <= memory.len());
        let (s, n) = (memory.as_mut_ptr().wrapping_add(string.start), string.len());
        #[cfg(feature = "runs")]
        // Safety: so many octets stand at the pointer.
        let step = unsafe { ctext_next_run(s, n, run_reader_to_c(reader)) };
        #[cfg(not(feature = "runs"))]
        let step: CRunStep = not_linked((s, n, run_reader_to_c(reader)));
        RunStep {
            reader: run_reader_from_c(step.reader),
            shown: shown_from_c(step.run),
        }
    }

    fn next_runs(
        &self,
        memory: &mut [u8],
        string: Range<usize>,
        reader: RunReader,
        list: &mut [u64],
        room: usize,
    ) -> (RunReader, Answer) {
        assert!(string.start <= string.end && string.end <= memory.len() && room <= list.len());
        let (s, n) = (memory.as_mut_ptr().wrapping_add(string.start), string.len());
        let (reader, words) = (run_reader_to_c(reader), list.as_mut_ptr());
        #[cfg(feature = "listed")]
        // Safety: so many octets and at least `room` words stand at the pointers.
        let step = unsafe { ctext_next_runs(s, n, reader, words, room) };
        #[cfg(not(feature = "listed"))]
        let step: CRunsStep = not_linked((s, n, reader, words));
        (run_reader_from_c(step.reader), from_c(step.answer))
    }

    fn write(&self, units: &[Unit], segments: &[u8], work: Lent, out: Lent) -> Answer {
        assert!(work.lent <= work.octets.len() && out.lent <= out.octets.len());
        let records: Vec<CUnit> = units.iter().map(to_c).collect();
        #[cfg(feature = "write")]
        // Safety: at each pointer stand at least as many records or octets as
        // the number beside it says.
        let answer = from_c(unsafe {
            ctext_write(
                records.as_ptr(),
                records.len(),
                segments.as_ptr(),
                segments.len(),
                work.octets.as_mut_ptr(),
                work.lent,
                out.octets.as_mut_ptr(),
                out.lent,
            )
        });
        #[cfg(not(feature = "write"))]
        let answer = not_linked((records, segments));
        answer
    }

    fn resource(&self, way: Way, memory: &mut [u8], string: Range<usize>, out: Lent) -> Answer {
        assert!(string.start <= string.end && string.end <= memory.len());
        assert!(out.lent <= out.octets.len());
        let (s, n) = (memory.as_mut_ptr().wrapping_add(string.start), string.len());
        let (out, o) = (out.octets.as_mut_ptr(), out.lent);
        #[cfg(feature = "resource")]
        // Safety: so many octets stand at each pointer.
        let answer = from_c(unsafe {
            match way {
                Way::Write => ctext_resource_write(s, n, out, o),
                Way::Read => ctext_resource_read(s, n, out, o),
            }
        });
        #[cfg(not(feature = "resource"))]
        let answer = not_linked((way, s, n, out, o));
        answer
    }

    fn set_row(&self, set: u8) -> Row {
        #[cfg(feature = "sets")]
        // Safety: nothing is lent.
        let row = unsafe { ctext_set_row(set) };
        #[cfg(not(feature = "sets"))]
        let row: CRow = not_linked(set);
        Row {
            form: row.form,
            last: row.final_octet,
            gl: row.gl,
            gr: row.gr,
            octets: row.octets,
        }
    }

    fn set_of(&self, form: u8, side: u8, last: u8) -> u8 {
        #[cfg(feature = "sets")]
        // Safety: nothing is lent.
        let set = unsafe { ctext_set_of(form, side, last) };
        #[cfg(not(feature = "sets"))]
        let set = not_linked((form, side, last));
        set
    }

    fn archive_check(&self, memory: &mut [u8], string: Range<usize>) -> Answer {
        assert!(string.start <= string.end && string.end <= memory.len());
        let (s, n) = (memory.as_mut_ptr().wrapping_add(string.start), string.len());
        #[cfg(feature = "archive")]
        // Safety: so many octets stand at the pointer.
        let answer = from_c(unsafe { ctext_archive_check(s, n) });
        #[cfg(not(feature = "archive"))]
        let answer = not_linked((s, n));
        answer
    }

    fn archive_read(
        &self,
        memory: &mut [u8],
        string: Range<usize>,
        list: &mut [Unit],
        room: usize,
    ) -> Answer {
        assert!(string.start <= string.end && string.end <= memory.len() && room <= list.len());
        let (s, n) = (memory.as_mut_ptr().wrapping_add(string.start), string.len());
        let mut records: Vec<CUnit> = list.iter().map(to_c).collect();
        #[cfg(feature = "archive")]
        // Safety: so many octets and at least `room` records stand at the pointers.
        let answer = from_c(unsafe { ctext_archive_read(s, n, records.as_mut_ptr(), room) });
        #[cfg(not(feature = "archive"))]
        let answer = not_linked((s, n, &mut records));
        for (unit, record) in list.iter_mut().zip(&records) {
            *unit = unit_from_c(record);
        }
        answer
    }

    fn r5_read(
        &self,
        memory: &mut [u8],
        input: Range<usize>,
        list: &mut [Unit],
        room: usize,
    ) -> Answer {
        assert!(input.start <= input.end && input.end <= memory.len() && room <= list.len());
        let (s, n) = (memory.as_mut_ptr().wrapping_add(input.start), input.len());
        let mut records: Vec<CUnit> = list.iter().map(to_c).collect();
        #[cfg(feature = "r5")]
        // Safety: so many octets and at least `room` records stand at the pointers.
        let answer = from_c(unsafe { ctext_r5_read(s, n, records.as_mut_ptr(), room) });
        #[cfg(not(feature = "r5"))]
        let answer = not_linked((s, n, &mut records));
        for (unit, record) in list.iter_mut().zip(&records) {
            *unit = unit_from_c(record);
        }
        answer
    }

    fn r5_write(&self, units: &[Unit], segments: &[u8], out: Lent) -> Answer {
        assert!(out.lent <= out.octets.len());
        let records: Vec<CUnit> = units.iter().map(to_c).collect();
        let (out, room) = (out.octets.as_mut_ptr(), out.lent);
        #[cfg(feature = "r5")]
        // Safety: at each pointer stand at least as many records or octets as the
        // number beside it says.
        let answer = from_c(unsafe {
            ctext_r5_write(
                records.as_ptr(),
                records.len(),
                segments.as_ptr(),
                segments.len(),
                out,
                room,
            )
        });
        #[cfg(not(feature = "r5"))]
        let answer = not_linked((records, segments, out, room));
        answer
    }
}

#[cfg(not(all(
    feature = "check",
    feature = "read",
    feature = "run",
    feature = "next",
    feature = "runs",
    feature = "listed",
    feature = "write",
    feature = "resource",
    feature = "sets",
    feature = "archive",
    feature = "r5"
)))]
fn not_linked<A, B>(_: A) -> B {
    panic!("this function of the library is not linked")
}

fn from_c(answer: CAnswer) -> Answer {
    Answer {
        number: answer.number,
        place: answer.place,
        count: answer.count,
    }
}

fn shown_from_c(run: CRun) -> Shown {
    Shown {
        part: (run.end != run.start).then_some((run.start, run.end.wrapping_sub(run.start))),
        answer: from_c(run.answer),
        set: run.set,
        width: run.width,
        direction: run.direction,
    }
}

fn to_c(unit: &Unit) -> CUnit {
    CUnit {
        kind: unit.kind,
        set: unit.set,
        code: unit.code,
        start: unit.start,
        length: unit.length,
        direction: unit.direction,
        depth: unit.depth,
    }
}

fn unit_from_c(unit: &CUnit) -> Unit {
    Unit {
        kind: unit.kind,
        set: unit.set,
        code: unit.code,
        start: unit.start,
        length: unit.length,
        direction: unit.direction,
        depth: unit.depth,
    }
}

fn position_from_c(reader: CReader) -> Position {
    Position {
        levels: reader.levels,
        place: reader.place,
        count: reader.count,
        gl: reader.gl,
        gr: reader.gr,
        depth: reader.depth,
        marked: reader.marked,
        texted: reader.texted,
    }
}

fn position_to_c(position: Position) -> CPassedReader {
    CPassedReader {
        levels: position.levels,
        place: position.place,
        count: position.count,
        gl: position.gl,
        gr: position.gr,
        depth: position.depth,
        marked: position.marked,
        texted: position.texted,
        behind: [0xA5, 0x5A, 0xC6],
    }
}

fn run_reader_from_c(reader: CRunReader) -> RunReader {
    let at = Position {
        levels: reader.levels,
        place: reader.place,
        count: 0,
        gl: reader.gl,
        gr: reader.gr,
        depth: reader.depth,
        marked: reader.marked,
        texted: reader.texted,
    };
    RunReader {
        at,
        checked: reader.checked,
    }
}

fn run_reader_to_c(reader: RunReader) -> CPassedRunReader {
    CPassedRunReader {
        levels: reader.at.levels,
        place: reader.at.place,
        gl: reader.at.gl,
        gr: reader.at.gr,
        depth: reader.at.depth,
        marked: reader.at.marked,
        texted: reader.at.texted,
        checked: reader.checked,
        behind: [0xA5, 0x5A],
    }
}
