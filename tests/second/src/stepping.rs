//! The comparison of a reader that steps over a string with the library's.

use std::ops::Range;

use crate::compare::{depths, pattern_octet, same, Compared, Comparer};
use crate::ffi::Library;
use crate::oracle::{show_answer, show_octets, show_unit};
use crate::steps::{self, Handed, Position};
use crate::unit::Unit;

/// Octets before and behind the string, which no call may change.
const GUARD: usize = 5;

/// The octets behind the string, which would complete most elements that its
/// end cuts: as a second octet in GR; as one in GL, a final, or a mark's end.
pub const IN_GR: u8 = 0xC6;
pub const IN_GL: u8 = 0x5D;

/// A call, and what it handed back.
struct Call {
    from: Position,
    handed: Handed,
}

impl<L: Library> Comparer<L> {
    /// Compares a reader opened on a string.
    pub fn opened(&self, s: &[u8]) -> Compared {
        let opened = self.library.open();
        let call = || "ctext_open".to_string();
        let meant = opened.without_idle_digits();
        same(Position::OPENED, meant, call, show_position)?;
        self.reader(s, opened)
    }

    /// Compares every step of a reader, which may be made by hand, up to the
    /// answer and past it.
    pub fn reader(&self, s: &[u8], from: Position) -> Compared {
        let mut memory = Memory::around(s, IN_GR);
        let mut expected = steps::steps(s, from);
        depths(from.depth.into(), &given(&expected))?;
        expected.extend(expected.last().copied());
        let mut calls = Vec::with_capacity(expected.len());
        let mut position = from;
        for expected in expected {
            let handed = self.next(&mut memory, position);
            let call = || format!("ctext_next number {}", calls.len());
            same(expected, meant(handed), call, show_handed)?;
            calls.push(Call {
                from: position,
                handed,
            });
            position = handed.position;
        }
        memory.is_untouched(s)?;
        self.again(s, &calls)
    }

    /// Makes the same calls the other way round, with the string elsewhere and
    /// other octets behind it: nothing else than the string and the position
    /// may tell what is handed back.
    fn again(&self, s: &[u8], calls: &[Call]) -> Compared {
        let mut memory = Memory::around(s, IN_GL);
        for (number, saved) in calls.iter().enumerate().rev() {
            let handed = self.next(&mut memory, saved.from);
            let call = || format!("ctext_next number {number}, at first and called again");
            same(saved.handed, handed, call, show_handed)?;
        }
        memory.is_untouched(s)
    }

    fn next(&self, memory: &mut Memory, position: Position) -> Handed {
        let string = memory.string.clone();
        self.library.next(&mut memory.octets, string, position)
    }
}

/// The units that are handed out.
fn given(steps: &[Handed]) -> Vec<Unit> {
    let given = steps.iter().filter(|step| step.given == 1);
    given.map(|step| step.unit).collect()
}

/// What is handed back without the digits that mean nothing.
fn meant(handed: Handed) -> Handed {
    Handed {
        position: handed.position.without_idle_digits(),
        ..handed
    }
}

/// A string among octets that are not lent.
pub struct Memory {
    pub octets: Vec<u8>,
    pub string: Range<usize>,
    behind: u8,
}

impl Memory {
    pub fn around(s: &[u8], behind: u8) -> Memory {
        let mut octets = Vec::with_capacity(s.len() + 2 * GUARD);
        octets.extend((0..GUARD).map(pattern_octet));
        octets.extend_from_slice(s);
        octets.extend([behind; GUARD]);
        Memory {
            octets,
            string: GUARD..GUARD + s.len(),
            behind,
        }
    }

    pub fn is_untouched(&self, s: &[u8]) -> Compared {
        let before = Memory::around(s, self.behind);
        let call = || "the string among its guards after all calls".to_string();
        same(before.octets, self.octets.clone(), call, |o| show_octets(o))
    }
}

pub fn show_position(p: &Position) -> String {
    format!(
        "place {} count {} gl {} gr {} depth {} levels {:X} marked {} texted {}",
        p.place, p.count, p.gl, p.gr, p.depth, p.levels, p.marked, p.texted
    )
}

fn show_handed(handed: &Handed) -> String {
    format!(
        "given {} unit {} answer {} reader {}",
        handed.given,
        show_unit(&handed.unit),
        show_answer(&handed.answer),
        show_position(&handed.position)
    )
}
