//! Wrong archive readers, to test the comparison itself: what a reader may get
//! wrong that asks a table what an octet starts, and passes many octets at once.

use std::ops::Range;

use crate::reader::{self, State};
use crate::sets::{self, Sets};
use crate::unit::*;

/// What such a table is asked by: the octets of a GL character, the kind of the GR
/// set (0 for 94, 1 for 96, 2 for two octets), and the octet.
pub type Entry = (usize, u8, u8);

#[derive(Clone, Copy, PartialEq, Debug)]
pub enum WrongArchive {
    /// A right one.
    Right,
    /// An entry of the table says that its octet is not used, or, where it is
    /// not, that it begins an unknown sequence.
    Entry(Entry),
    /// The last of so many octets is not looked at, but in the first so many.
    Unseen(usize),
    /// A cut element is looked for behind the string.
    LooksBehind,
    /// Half a character behind eight whole ones is dropped.
    OddTail,
    /// A second octet may stand on the other side.
    AnySide,
    /// Sixteen octets of text, passed at once, are no text to the first mark.
    ForgetsText,
    /// Sixteen octets of text, passed at once, are asked for no direction.
    AsksNoDirection,
    /// The set stays where the side changes, but at every eighth octet.
    StaleSet,
    /// A tab or newline in the middle of eight octets is passed as no unit.
    LosesControl,
    /// The list is filled before a later element is refused.
    ListOfRefusal,
    /// A record behind the last unit is cleared.
    RecordTooMany,
    /// A list that is too short holds what fits.
    StoredTooEarly,
}

use WrongArchive::*;

impl WrongArchive {
    /// All of them, of the entries one: the others are asked too.
    pub const ALL: [WrongArchive; 13] = [
        Entry((1, 0, 0xA0)),
        Unseen(8),
        Unseen(32),
        LooksBehind,
        OddTail,
        AnySide,
        ForgetsText,
        AsksNoDirection,
        StaleSet,
        LosesControl,
        ListOfRefusal,
        RecordTooMany,
        StoredTooEarly,
    ];

    /// The units and the answer for the string in the memory.
    pub fn reading(self, memory: &[u8], string: Range<usize>) -> (Vec<Unit>, Answer) {
        let s = &memory[string.clone()];
        let (units, answer) = read(s);
        let place = answer.place;
        let passed = Answer::accepted(place, units.len());
        match (self, answer.number) {
            (Entry(entry), number) => match asked(s).iter().find(|asked| asked.0 == entry) {
                Some(&(_, place)) => (units, Answer::refusal(3 + u8::from(number == 3), place)),
                None => (units, answer),
            },
            (Unseen(n), 3) if place >= n && place % n == n - 1 => {
                read(&with(s, place, s[place - 2]))
            }
            (LooksBehind, 2) => read(&memory[string.start..string.end + 1]),
            (OddTail, 2) if units.len() >= 8 && is_text(&s[place - 1..]) => (units, passed),
            (AnySide, 3) if is_text(&[s[place] ^ 0x80]) => read(&with(s, place, s[place] ^ 0x80)),
            (ForgetsText, 8) if place >= 16 && is_text(&s[place - 16..place]) => (units, passed),
            (AsksNoDirection, 8) if s.len() >= place + 16 && is_text(&s[place..place + 16]) => {
                (units, passed)
            }
            (StaleSet, 0) => (stale(units), answer),
            (LosesControl, 0) => without_control(units, answer),
            _ => (units, answer),
        }
    }

    /// What is left in a list of the room, for units and a check's answer.
    pub fn store(self, units: &[Unit], answer: Answer, list: &mut [Unit], room: usize) -> Answer {
        let answer = reader::answer_with_room(answer, room);
        let stored = match (self, answer.number) {
            (_, 0) => units.len(),
            (ListOfRefusal, number) if number != 10 && room >= units.len() => units.len(),
            (StoredTooEarly, 10) => room,
            _ => 0,
        };
        list[..stored].copy_from_slice(&units[..stored]);
        if self == RecordTooMany && answer.is_accepted() {
            list[stored] = Unit::default();
        }
        answer
    }
}

fn read(s: &[u8]) -> (Vec<Unit>, Answer) {
    reader::units_from(s, State::fresh())
}

fn with(s: &[u8], place: usize, octet: u8) -> Vec<u8> {
    [&s[..place], &[octet], &s[place + 1..]].concat()
}

/// Whether all octets are such as stand in characters of some set.
fn is_text(octets: &[u8]) -> bool {
    octets.iter().all(|octet| octet & 0x7F >= 0x20)
}

fn stale(mut units: Vec<Unit>) -> Vec<Unit> {
    for at in 1..units.len() {
        let (before, unit) = (units[at - 1], units[at]);
        let next = before.start + before.length == unit.start && unit.start % 8 != 0;
        if next && (before.kind, unit.kind) == (CHARACTER, CHARACTER) {
            units[at].set = before.set;
        }
    }
    units
}

fn without_control(mut units: Vec<Unit>, answer: Answer) -> (Vec<Unit>, Answer) {
    units.retain(|unit| unit.kind != TAB && unit.kind != NEWLINE || unit.start % 8 != 4);
    let count = units.len();
    (units, Answer { count, ..answer })
}

/// What the table is asked, and at which places, up to the end or the offending
/// element.
pub fn asked(s: &[u8]) -> Vec<(Entry, usize)> {
    let mut asked = Vec::new();
    let (mut state, mut sets) = (State::fresh(), Sets::FRESH);
    reader::advance(s, &mut state, |element, after| {
        asked.push((entry(sets, s[element.start]), element.start));
        sets = after.sets;
    });
    if s.len() <= LIMIT && state.place < s.len() {
        asked.push((entry(sets, s[state.place]), state.place));
    }
    asked
}

fn entry(sets: Sets, octet: u8) -> Entry {
    let kind = match sets.gr {
        1 => 0,
        3..=11 => 1,
        _ => 2,
    };
    (sets::width(sets.gl), kind, octet)
}
