//! The comparison of the X11R5 writer with the library's, and of what it writes with
//! both readers and the first writer.

use crate::compare::{otherwise_directed, same, same_meanings, GUARD_OCTETS};
use crate::compare::{Compared, Comparer, Difference};
use crate::escaping::{output, same_output};
use crate::ffi::{Lent, Library};
use crate::oracle::{show_answer, show_octets};
use crate::r5_reader;
use crate::r5_writer;
use crate::reader;
use crate::unit::*;
use crate::writer;

/// What the pattern in the output is changed by in turn, so that no place has the same
/// octet in both and every store is seen.
const CHANGES: [u8; 2] = [0x00, 0xFF];

/// Octets of an output that is much longer than the need.
const MANY: usize = 100;

/// What the writer has to do with a list: the string with its 00, for which there may
/// be no room, or the refusal.
type Writing = Result<Vec<u8>, Answer>;

impl<L: Library> Comparer<L> {
    /// Compares the X11R5 writer on a list in outputs of many lengths, and once with
    /// other values in the fields that it has to ignore.
    pub fn r5_list(&self, units: &[Unit], segments: &[u8]) -> Compared {
        let writing = writing(units, segments);
        for (turn, room) in rooms(units.len(), &writing).into_iter().enumerate() {
            self.r5_write(units, segments, &writing, (room, CHANGES[turn % 2]))?;
        }
        let (other, room) = (otherwise_directed(units), most(units.len(), &writing));
        let compared = self.r5_write(&other, segments, &writing, (room, CHANGES[0]));
        compared.map_err(|difference| Difference {
            call: format!("{}, directions and depths changed", difference.call),
            ..difference
        })?;
        match writing {
            Ok(string) if string.len() <= LIMIT + 1 => self.r5_written(units, segments, &string),
            _ => Ok(()),
        }
    }

    /// Compares it on the units of a string, in an output of exactly the need and in a
    /// shorter one.
    pub fn r5_rewriting(&self, s: &[u8]) -> Compared {
        let Ok(units) = reader::read(s) else {
            return Ok(());
        };
        let writing = writing(&units, s);
        let need = writing.as_ref().map_or(s.len(), Vec::len);
        self.r5_write(&units, s, &writing, (need, CHANGES[0]))?;
        self.r5_write(&units, s, &writing, (need.saturating_sub(1), CHANGES[1]))
    }

    /// The answer, and every octet of the output and its guard.
    fn r5_write(
        &self,
        units: &[Unit],
        segments: &[u8],
        writing: &Writing,
        (room, change): (usize, u8),
    ) -> Compared {
        let mut out = output(room, change);
        let mut expected = out.clone();
        let answer = match writing {
            Err(refusal) => *refusal,
            Ok(string) => r5_writer::answer(units.len(), string.len() - 1, room),
        };
        if let (true, Ok(string)) = (answer.is_accepted(), writing) {
            expected[..string.len()].copy_from_slice(string);
        }
        let lent = Lent {
            octets: &mut out,
            lent: room,
        };
        let theirs = self.library.r5_write(units, segments, lent);
        let call = || format!("ctext_r5_write into {room} octets");
        same(answer, theirs, call, show_answer)?;
        same_output(&expected, &out, call)
    }

    /// What is written is read back as the list, less its 00 by the first reader too,
    /// and the first writer writes no more than that.
    fn r5_written(&self, units: &[Unit], segments: &[u8], string: &[u8]) -> Compared {
        self.r5_reading(string)?;
        let octets = string.len() - 1;
        let (read, answer) = r5_reader::reading(string);
        let whole = answer == Answer::accepted(octets, units.len());
        if !whole || !same_meanings((&read, string), (units, segments)) {
            return Err(Difference {
                call: "second alone: the reading of its own X11R5 string".to_string(),
                second: show_octets(string),
                library: String::new(),
            });
        }
        match self.functions.write {
            true => self.not_shorter(units, segments, octets),
            false => Ok(()),
        }
    }

    /// The first writer, with no output lent, needs no more than so many octets.
    fn not_shorter(&self, units: &[Unit], segments: &[u8], octets: usize) -> Compared {
        let lent = writer::work_room(units.len());
        let mut work = vec![0; lent];
        let mut out = [0; GUARD_OCTETS];
        let answer = self.library.write(
            units,
            segments,
            Lent {
                octets: &mut work,
                lent,
            },
            Lent {
                octets: &mut out,
                lent: 0,
            },
        );
        let needed = answer.number == 10 || answer == Answer::accepted(0, 0);
        if needed && answer.count <= octets {
            return Ok(());
        }
        Err(Difference {
            call: "ctext_write into 0 octets, and ctext_r5_write".to_string(),
            second: format!("at most {octets}"),
            library: show_answer(&answer),
        })
    }
}

fn writing(units: &[Unit], segments: &[u8]) -> Writing {
    match r5_writer::list_refusal(units, segments) {
        Some(refusal) => Err(refusal),
        None => Ok(r5_writer::string(units)),
    }
}

/// Octets that are enough for what a list may be written as.
fn most(units: usize, writing: &Writing) -> usize {
    match writing {
        Ok(string) => string.len() + MANY,
        Err(_) => 6 * units + MANY,
    }
}

/// Outputs around the need, of no octet and of many. Where a list is refused there is
/// none, and the long one comes with both patterns.
fn rooms(units: usize, writing: &Writing) -> Vec<usize> {
    let most = most(units, writing);
    match writing {
        Err(_) => vec![most, most, 0, 1],
        Ok(string) => {
            let need = string.len();
            let around = need.saturating_sub(2)..=need + 2;
            around.chain([0, most]).collect()
        }
    }
}
