//! The comparison of both ways of the resource form with the library's.

use crate::compare::{pattern_octet, same, Compared, Comparer, Difference, GUARD_OCTETS};
use crate::ffi::{Lent, Library};
use crate::oracle::{show_answer, show_octets};
use crate::resource::{self, Made, Way};
use crate::stepping::Memory;
use crate::unit::Answer;

/// Up to so many octets every length of the output up to them is tried.
const FEW_OCTETS: usize = 40;

/// Of an output that differs so many octets are shown.
const SHOWN: usize = 48;

/// What stands behind the input, and what the pattern in the output is changed
/// by. Each octet behind the input completes an escape that its end cuts. No
/// place has the same octet in two patterns, so that every store is seen.
const SURROUNDINGS: [(u8, u8); 3] = [(b'0', 0x00), (b'n', 0xFF), (b'\\', 0x5A)];

/// One call: the answer, and the output with the guard behind it.
type Called = (Answer, Vec<u8>);

impl<L: Library> Comparer<L> {
    /// Compares the writing of a string, and its reading as a form.
    pub fn resource(&self, s: &[u8]) -> Compared {
        self.way(Way::Write, s)?;
        self.way(Way::Read, s)
    }

    fn way(&self, way: Way, s: &[u8]) -> Compared {
        let made = way.make(s);
        for (behind, change) in SURROUNDINGS {
            let mut memory = Memory::around(s, behind);
            for room in rooms_of_an_output(s.len(), &made) {
                let before = output(room, change);
                let expected = called(s.len(), &made, &before);
                let theirs = self.call(way, &mut memory, before);
                let call = || format!("{} into {room} octets", name(way));
                same(expected.0, theirs.0, call, show_answer)?;
                same_output(&expected.1, &theirs.1, call)?;
                memory.is_untouched(s)?;
            }
        }
        made.map_or(Ok(()), |octets| self.way_back(way.back(), &octets, s))
    }

    /// What one way made of an input must become the input again.
    fn way_back(&self, way: Way, octets: &[u8], input: &[u8]) -> Compared {
        let before = output(input.len(), 0);
        let made = Ok(input.to_vec());
        let expected = called(octets.len(), &made, &before);
        let (answer, after) = self.call(way, &mut Memory::around(octets, b'0'), before);
        let call = || format!("{} of what {} stored", name(way), name(way.back()));
        same(expected.0, answer, call, show_answer)?;
        same_output(&expected.1, &after, call)
    }

    fn call(&self, way: Way, memory: &mut Memory, mut octets: Vec<u8>) -> Called {
        let (string, lent) = (memory.string.clone(), octets.len() - GUARD_OCTETS);
        let out = Lent {
            octets: &mut octets,
            lent,
        };
        let answer = self.library.resource(way, &mut memory.octets, string, out);
        (answer, octets)
    }
}

/// What a call has to answer and to leave, the guard among it.
fn called(input: usize, made: &Made, before: &[u8]) -> Called {
    let (lent, guard) = before.split_at(before.len() - GUARD_OCTETS);
    let (answer, mut after) = resource::answer(input, made, lent);
    after.extend_from_slice(guard);
    (answer, after)
}

/// Outputs around the octets that are needed, and around the input's length
/// where it is refused; of a few octets every shorter one.
fn rooms_of_an_output(input: usize, made: &Made) -> Vec<usize> {
    let need = made.as_ref().map_or(input, Vec::len);
    if need <= FEW_OCTETS {
        return (0..=need + 3).collect();
    }
    [0, 1].into_iter().chain(need - 2..=need + 2).collect()
}

/// An output before a call, with its guard.
pub fn output(room: usize, change: u8) -> Vec<u8> {
    let places = 0..room + GUARD_OCTETS;
    places.map(|place| pattern_octet(place) ^ change).collect()
}

/// Compares two outputs, and shows them from where they begin to differ.
pub fn same_output(second: &[u8], library: &[u8], call: impl Fn() -> String) -> Compared {
    if second == library {
        return Ok(());
    }
    let octets = second.iter().zip(library);
    let place = octets.take_while(|(a, b)| a == b).count();
    let show = |octets: &[u8]| show_octets(&octets[place..octets.len().min(place + SHOWN)]);
    Err(Difference {
        call: format!("{}, the output after it from {place} on", call()),
        second: show(second),
        library: show(library),
    })
}

fn name(way: Way) -> &'static str {
    match way {
        Way::Write => "ctext_resource_write",
        Way::Read => "ctext_resource_read",
    }
}
