//! The comparison of a reader of runs with the library's.

use crate::compare::{same, show_shown, Compared, Comparer};
use crate::ffi::Library;
use crate::run_steps::{self, RunReader, RunStep};
use crate::stepping::{show_position, Memory, IN_GL, IN_GR};
use crate::steps::Position;

/// A call, and what it handed back.
struct Call {
    from: RunReader,
    step: RunStep,
}

impl<L: Library> Comparer<L> {
    /// Compares the runs in order of a string.
    pub fn opened_runs(&self, s: &[u8]) -> Compared {
        let opened = self.library.open_runs();
        let call = || "ctext_open_runs".to_string();
        same(RunReader::OPENED, meant(opened), call, show_reader)?;
        self.run_reader(s, opened)
    }

    /// Compares readers of runs made by hand, with what they say of the string.
    pub fn run_readers(&self, s: &[u8], from: Position) -> Compared {
        made_by_hand(from, |reader| self.run_reader(s, reader))
    }

    /// Compares every step of a reader of runs, up to the answer and past it.
    fn run_reader(&self, s: &[u8], from: RunReader) -> Compared {
        let mut memory = Memory::around(s, IN_GR);
        let mut expected = run_steps::run_steps(s, from);
        expected.extend(expected.last().copied());
        let mut calls = Vec::with_capacity(expected.len());
        let mut reader = from;
        for expected in expected {
            let step = self.next_run(&mut memory, reader);
            let call = || format!("ctext_next_run number {}", calls.len());
            let found = RunStep {
                reader: meant(step.reader),
                ..step
            };
            same(expected, found, call, show_step)?;
            calls.push(Call { from: reader, step });
            reader = step.reader;
        }
        memory.is_untouched(s)?;
        self.runs_again(s, &calls)
    }

    /// Makes the same calls the other way round, as for steps.
    fn runs_again(&self, s: &[u8], calls: &[Call]) -> Compared {
        let mut memory = Memory::around(s, IN_GL);
        for (number, saved) in calls.iter().enumerate().rev() {
            let step = self.next_run(&mut memory, saved.from);
            let call = || format!("ctext_next_run number {number}, at first and called again");
            same(saved.step, step, call, show_step)?;
        }
        memory.is_untouched(s)
    }

    fn next_run(&self, memory: &mut Memory, reader: RunReader) -> RunStep {
        let string = memory.string.clone();
        self.library.next_run(&mut memory.octets, string, reader)
    }
}

/// Compares the readers of runs at a position, with all that they say of the string.
pub fn made_by_hand(at: Position, compare: impl Fn(RunReader) -> Compared) -> Compared {
    let at = Position { count: 0, ..at };
    for checked in [0, 1, 254] {
        compare(RunReader { at, checked })?;
    }
    Ok(())
}

/// The reader without the digits that mean nothing.
pub fn meant(reader: RunReader) -> RunReader {
    RunReader {
        at: reader.at.without_idle_digits(),
        ..reader
    }
}

pub fn show_reader(reader: &RunReader) -> String {
    let RunReader { at, checked } = reader;
    format!("{} checked {checked}", show_position(at))
}

fn show_step(step: &RunStep) -> String {
    format!(
        "run {} reader {}",
        show_shown(&step.shown),
        show_reader(&step.reader)
    )
}
