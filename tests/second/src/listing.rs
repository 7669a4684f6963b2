//! The comparison of runs that are stored in a lent list with the library's.

use crate::compare::{same, Compared, Comparer};
use crate::ffi::Library;
use crate::oracle::show_answer;
use crate::run_steps::{self, RunList, RunReader};
use crate::running::{made_by_hand, meant, show_reader};
use crate::stepping::{Memory, IN_GL, IN_GR};
use crate::steps::Position;

/// Words behind the list, which no call may change.
const GUARD_WORDS: usize = 2;

/// A call, and what it handed back, with every word, lent or guard, after it.
struct Call {
    from: RunReader,
    step: RunList,
}

impl<L: Library> Comparer<L> {
    /// Compares the runs of a string in lists of several lengths.
    pub fn listed_runs(&self, s: &[u8]) -> Compared {
        self.listing_reader(s, RunReader::OPENED)
    }

    /// The same for readers of runs made by hand.
    pub fn listing_readers(&self, s: &[u8], from: Position) -> Compared {
        made_by_hand(from, |reader| self.listing_reader(s, reader))
    }

    fn listing_reader(&self, s: &[u8], from: RunReader) -> Compared {
        let runs = run_steps::run_steps(s, from).len() - 1;
        for room in rooms_of_runs(runs) {
            self.run_lists(s, from, room)?;
        }
        Ok(())
    }

    /// Compares every call, up to the one that stores none and past it.
    fn run_lists(&self, s: &[u8], from: RunReader, room: usize) -> Compared {
        let mut memory = Memory::around(s, IN_GR);
        let mut expected = run_steps::run_lists(s, from, room);
        expected.extend(expected.last().cloned());
        let mut calls = Vec::with_capacity(expected.len());
        let mut reader = from;
        for mut expected in expected {
            let rest = expected.words.len()..room + GUARD_WORDS;
            expected.words.extend(rest.map(pattern_word));
            let mut step = self.next_runs(&mut memory, reader, room);
            let call = || format!("ctext_next_runs number {} with room {room}", calls.len());
            let (from, next) = (reader, step.reader);
            step.reader = meant(next);
            same(&expected, &step, call, |list| show_list(list))?;
            step.reader = next;
            calls.push(Call { from, step });
            reader = next;
        }
        memory.is_untouched(s)?;
        self.lists_again(s, &calls, room)
    }

    /// Makes the same calls the other way round, as for steps.
    fn lists_again(&self, s: &[u8], calls: &[Call], room: usize) -> Compared {
        let mut memory = Memory::around(s, IN_GL);
        for (number, saved) in calls.iter().enumerate().rev() {
            let step = self.next_runs(&mut memory, saved.from, room);
            let call = || {
                format!(
                    "ctext_next_runs number {number} with room {room}, at first and called again"
                )
            };
            same(&saved.step, &step, call, |list| show_list(list))?;
        }
        memory.is_untouched(s)
    }

    fn next_runs(&self, memory: &mut Memory, reader: RunReader, room: usize) -> RunList {
        let mut words: Vec<u64> = (0..room + GUARD_WORDS).map(pattern_word).collect();
        let string = memory.string.clone();
        let octets = &mut memory.octets;
        let (reader, answer) = self
            .library
            .next_runs(octets, string, reader, &mut words, room);
        RunList {
            words,
            reader,
            answer,
        }
    }
}

/// Lists of no word, of a few, of as many as there are runs, and of more.
fn rooms_of_runs(runs: usize) -> Vec<usize> {
    let mut rooms = vec![0, 1, 2, runs, runs + 2];
    rooms.sort_unstable();
    rooms.dedup();
    rooms
}

/// A word that is no run, another for each place.
fn pattern_word(place: usize) -> u64 {
    0xFEED_A55A_DEAD_0000 ^ place as u64
}

fn show_list(list: &RunList) -> String {
    let words: Vec<String> = list.words.iter().map(|word| format!("{word:X}")).collect();
    format!(
        "{} words {} reader {}",
        show_answer(&list.answer),
        words.join(" "),
        show_reader(&list.reader)
    )
}
