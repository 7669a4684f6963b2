//! The comparison of the X11R5 reader with the library's, and with the first reader.

use crate::compare::{expected_reading, pattern_list, same_reading};
use crate::compare::{Compared, Comparer, Reading};
use crate::ffi::Library;
use crate::r5_reader;
use crate::stepping::Memory;
use crate::unit::Answer;

/// Behind the input, where a reader that goes on past its end finds a 00.
const BEHIND: u8 = 0x00;

impl<L: Library> Comparer<L> {
    /// Compares the X11R5 reader on an input. Where the string before its 00 is
    /// accepted, the first reader has to accept that with the same records.
    pub fn r5_reading(&self, input: &[u8]) -> Compared {
        let (units, answer) = r5_reader::reading(input);
        let mut memory = Memory::around(input, BEHIND);
        for room in rooms(units.len(), answer) {
            let expected = expected_reading(&units, answer, room);
            let theirs = self.r5_read(&mut memory, room);
            let call = || format!("ctext_r5_read into a list of {room}");
            same_reading(&expected, &theirs, call)?;
            if room == units.len() && answer.is_accepted() && self.functions.read {
                let both = || format!("ctext_read, and ctext_r5_read into a list of {room}");
                let first = self.first_read(&input[..answer.place], room);
                same_reading(&first, &theirs, both)?;
            }
        }
        memory.is_untouched(input)
    }

    fn r5_read(&self, memory: &mut Memory, room: usize) -> Reading {
        let (string, mut list) = (memory.string.clone(), pattern_list(room));
        let library = &self.library;
        let answer = library.r5_read(&mut memory.octets, string, &mut list, room);
        Reading { answer, list }
    }
}

/// Rooms of a list for so many units: exact, one more, one less, none. Where the string
/// is refused, and these are the units before the offending element: one more, none.
fn rooms(units: usize, answer: Answer) -> Vec<usize> {
    match units {
        _ if !answer.is_accepted() => vec![units + 1, 0],
        0 => vec![0, 1],
        1 => vec![1, 2, 0],
        _ => vec![units, units + 1, units - 1, 0],
    }
}
