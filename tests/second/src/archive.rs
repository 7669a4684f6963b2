//! The comparison of the archive reader, whose units, number, place and count have
//! to be those of the first reader for every string.

use crate::compare::{expected_reading, pattern_list, rooms_of_a_list, same, same_reading};
use crate::compare::{Compared, Comparer, Reading};
use crate::ffi::Library;
use crate::oracle::show_answer;
use crate::reader::{self, State};
use crate::stepping::{Memory, IN_GL, IN_GR};
use crate::unit::Answer;

impl<L: Library> Comparer<L> {
    /// Compares the archive reader on a string with this program's reading and
    /// with the library's first reader. The string stands among octets that are
    /// not lent, since a reader that takes many at once may look behind its end.
    pub fn archive(&self, s: &[u8]) -> Compared {
        let (units, answer) = reader::units_from(s, State::fresh());
        let mut memories = [IN_GR, IN_GL].map(|behind| Memory::around(s, behind));
        for memory in &mut memories {
            self.archive_check(s, answer, memory)?;
        }
        for (turn, room) in rooms_of_a_list(units.len()).into_iter().enumerate() {
            let expected = expected_reading(&units, answer, room);
            self.archive_read(s, &expected, room, &mut memories[turn % 2])?;
        }
        memories
            .iter()
            .try_for_each(|memory| memory.is_untouched(s))
    }

    fn archive_check(&self, s: &[u8], expected: Answer, memory: &mut Memory) -> Compared {
        let string = memory.string.clone();
        let theirs = self.library.archive_check(&mut memory.octets, string);
        let call = || "ctext_archive_check".to_string();
        same(expected, theirs, call, show_answer)?;
        if !self.functions.check {
            return Ok(());
        }
        let both = || "ctext_check, and ctext_archive_check".to_string();
        same(self.library.check(s), theirs, both, show_answer)
    }

    /// The answer, and every record, lent or guard, after the call.
    fn archive_read(
        &self,
        s: &[u8],
        expected: &Reading,
        room: usize,
        memory: &mut Memory,
    ) -> Compared {
        let (string, mut list) = (memory.string.clone(), pattern_list(room));
        let library = &self.library;
        let answer = library.archive_read(&mut memory.octets, string, &mut list, room);
        let theirs = Reading { answer, list };
        let call = || format!("ctext_archive_read into a list of {room}");
        same_reading(expected, &theirs, call)?;
        if !self.functions.read {
            return Ok(());
        }
        let both = || format!("ctext_read, and ctext_archive_read into a list of {room}");
        same_reading(&self.first_read(s, room), &theirs, both)
    }
}
