//! The writer: which list is refused, how short a writing can be, and the one
//! string that the paper's choice names.

use crate::reader::{part_of_segment, Marks, Part};
use crate::sets::{self, Designation, Sets, Side, DESIGNATIONS};
use crate::shape;
use crate::unit::*;

/// The most octets of a segment that M and L can count.
const LONGEST_SEGMENT: u32 = 16_383;

/// The work room for a list of so many units.
pub fn work_room(units: usize) -> usize {
    72 * (units + 1)
}

// ---------------------------------------------------------------------------
// Refusals
// ---------------------------------------------------------------------------

/// Refusal 1 for the list, or that of the first offending unit.
pub fn list_refusal(units: &[Unit], segments: &[u8]) -> Option<Answer> {
    if units.len() > LIMIT {
        return Some(Answer::refusal(1, 0));
    }
    let mut marks = Marks::default();
    for (index, unit) in units.iter().enumerate() {
        if let Err(number) = admit_unit(unit, segments, &mut marks) {
            return Some(Answer::refusal(number, index));
        }
    }
    None
}

/// Within a unit the order is 11, 7, 8, 9: a segment is judged by itself before
/// its text is one for the direction rule.
pub fn admit_unit(unit: &Unit, segments: &[u8], marks: &mut Marks) -> Result<(), u8> {
    let part = match unit.kind {
        CHARACTER if !sets::uses(unit.set, unit.code) => return Err(11),
        CHARACTER | SPACE => Part::Text,
        TAB | NEWLINE => Part::Free,
        LEFT_TO_RIGHT => Part::Begin(Direction::LeftToRight),
        RIGHT_TO_LEFT => Part::Begin(Direction::RightToLeft),
        REVERT => Part::Revert,
        SEGMENT => part_of_segment(!text_of_segment(unit, segments)?.is_empty()),
        _ => return Err(11),
    };
    marks.admit(part)
}

/// The text of a segment, or the number of its own refusal.
fn text_of_segment<'a>(unit: &Unit, segments: &'a [u8]) -> Result<&'a [u8], u8> {
    if !(0x30..=0x34).contains(&unit.code) {
        return Err(11);
    }
    let body = part(unit, segments).ok_or(11)?;
    if unit.length > LONGEST_SEGMENT {
        return Err(7);
    }
    shape::segment_text(unit.code as u8, body).ok_or(7)
}

/// The answer for a list of so many units without an offending one, whose
/// shortest writing has `needed` octets.
pub fn answer(units: usize, needed: usize, work: usize, room: usize) -> Answer {
    if work < work_room(units) {
        Answer::refusal(12, 0)
    } else if needed > LIMIT {
        Answer::refusal(1, 0)
    } else if room < needed {
        Answer::too_short(needed)
    } else {
        Answer::accepted(units, needed)
    }
}

// ---------------------------------------------------------------------------
// What a unit needs and costs
// ---------------------------------------------------------------------------

/// Whether the unit can be written with these sets in force.
fn stands(unit: &Unit, sets: Sets) -> bool {
    match unit.kind {
        CHARACTER => sets.gl == unit.set || sets.gr == unit.set,
        SPACE => sets.gl == 0 || sets.gl == 2,
        _ => true,
    }
}

/// The octets of the unit itself, designations aside.
fn own_length(unit: &Unit) -> usize {
    match unit.kind {
        CHARACTER => sets::width(unit.set),
        LEFT_TO_RIGHT | RIGHT_TO_LEFT => 3,
        REVERT => 2,
        SEGMENT => 6 + unit.length as usize,
        _ => 1,
    }
}

/// The designations after which the unit can be written, in the order of the
/// table: GL before GR, and for a space set 0 before set 2.
fn useful_designations(unit: &Unit) -> impl Iterator<Item = &'static Designation> + use<> {
    let unit = *unit;
    DESIGNATIONS.iter().filter(move |d| match unit.kind {
        CHARACTER => d.set == unit.set,
        SPACE => d.set == 0 || d.set == 2,
        _ => false,
    })
}

/// Appends the unit's own octets. The list has no offending unit, and the unit
/// can be written with these sets.
fn push_unit(out: &mut Vec<u8>, unit: &Unit, segments: &[u8], sets: Sets) {
    match unit.kind {
        CHARACTER => push_character(out, unit, sets),
        SPACE => out.push(0x20),
        TAB => out.push(0x09),
        NEWLINE => out.push(0x0A),
        LEFT_TO_RIGHT => out.extend([0x9B, 0x31, 0x5D]),
        RIGHT_TO_LEFT => out.extend([0x9B, 0x32, 0x5D]),
        REVERT => out.extend([0x9B, 0x5D]),
        _ => push_segment(out, unit, segments),
    }
}

/// A set on both sides is used in GL.
fn push_character(out: &mut Vec<u8>, unit: &Unit, sets: Sets) {
    let top = if sets.gl == unit.set { 0x00 } else { 0x80 };
    let [high, low] = unit.code.to_be_bytes();
    if sets::width(unit.set) == 2 {
        out.push(high | top);
    }
    out.push(low | top);
}

fn push_segment(out: &mut Vec<u8>, unit: &Unit, segments: &[u8]) {
    let body = part(unit, segments).expect("a part inside the octets");
    let (high, low) = (body.len() / 128, body.len() % 128);
    out.extend([0x1B, 0x25, 0x2F, unit.code as u8]);
    out.extend([0x80 + high as u8, 0x80 + low as u8]);
    out.extend_from_slice(body);
}

// ---------------------------------------------------------------------------
// The pairs of sets that can be in force
// ---------------------------------------------------------------------------

const GL_SETS: [u8; 5] = [0, 2, 12, 13, 14];
const GR_SETS: [u8; 13] = [1, 3, 4, 5, 6, 7, 8, 9, 10, 11, 12, 13, 14];
const PAIRS: usize = GL_SETS.len() * GR_SETS.len();

/// The octets of the designation of each set to GL, and of each to GR.
const GL_OCTETS: [u32; 5] = [3, 3, 4, 4, 4];
const GR_OCTETS: [u32; 13] = [3, 3, 3, 3, 3, 3, 3, 3, 3, 3, 4, 4, 4];

/// A length for each pair.
type Lengths = [u32; PAIRS];

/// Longer than the writing of any list, and small enough to be added to.
const NO_WAY: u32 = u32::MAX / 2;

/// The pairs themselves: all of the first GL set, all of the second, and so on.
const PAIR: [Sets; PAIRS] = all_pairs();

const fn all_pairs() -> [Sets; PAIRS] {
    let mut pairs = [Sets::FRESH; PAIRS];
    let mut index = 0;
    while index < PAIRS {
        pairs[index] = Sets {
            gl: GL_SETS[index / GR_SETS.len()],
            gr: GR_SETS[index % GR_SETS.len()],
        };
        index += 1;
    }
    pairs
}

/// The place of a set among those of its side.
fn rank(set: u8, side: Side) -> usize {
    let sets: &[u8] = match side {
        Side::Gl => &GL_SETS,
        Side::Gr => &GR_SETS,
    };
    sets.iter()
        .position(|&other| other == set)
        .expect("a set that may stand on the side")
}

fn index(sets: Sets) -> usize {
    rank(sets.gl, Side::Gl) * GR_SETS.len() + rank(sets.gr, Side::Gr)
}

/// The pair after a designation; `rank` is that of its set.
fn index_after(index: usize, side: Side, rank: usize) -> usize {
    let (gl, gr) = (index / GR_SETS.len(), index % GR_SETS.len());
    match side {
        Side::Gl => rank * GR_SETS.len() + gr,
        Side::Gr => gl * GR_SETS.len() + rank,
    }
}

// ---------------------------------------------------------------------------
// The least length over all accepted strings
// ---------------------------------------------------------------------------

/// The least length of all accepted strings that read as the list, whatever
/// designations they hold and wherever: a shortest path over (units done, GL,
/// GR). The list has no offending unit.
pub fn least_length(units: &[Unit]) -> usize {
    let mut lengths = [NO_WAY; PAIRS];
    lengths[index(Sets::FRESH)] = 0;
    for unit in units {
        designate_freely(&mut lengths);
        write_unit(&mut lengths, unit);
    }
    lengths.iter().copied().min().unwrap_or(NO_WAY) as usize
}

/// Any number of designations. Those of one side do not change what those of
/// the other do, and the last one of a side undoes the ones before it: so one
/// for GL and then one for GR, each of them or none, is every way there is.
fn designate_freely(lengths: &mut Lengths) {
    for gr in 0..GR_SETS.len() {
        let least = (0..GL_SETS.len())
            .map(|gl| lengths[gl * GR_SETS.len() + gr])
            .min();
        let least = least.unwrap_or(NO_WAY);
        for (gl, octets) in GL_OCTETS.iter().enumerate() {
            let length = &mut lengths[gl * GR_SETS.len() + gr];
            *length = (*length).min(least + octets);
        }
    }
    for row in lengths.chunks_mut(GR_SETS.len()) {
        let least = row.iter().copied().min().unwrap_or(NO_WAY);
        for (length, octets) in row.iter_mut().zip(&GR_OCTETS) {
            *length = (*length).min(least + octets);
        }
    }
}

fn write_unit(lengths: &mut Lengths, unit: &Unit) {
    let octets = own_length(unit) as u32;
    for (length, &sets) in lengths.iter_mut().zip(&PAIR) {
        *length = if stands(unit, sets) {
            *length + octets
        } else {
            NO_WAY
        };
    }
}

// ---------------------------------------------------------------------------
// The one string, by lengths still to go and a forward choice
// ---------------------------------------------------------------------------

/// The string that the paper's choice names. The list has no offending unit.
pub fn shortest_lazy(units: &[Unit], segments: &[u8]) -> Vec<u8> {
    let to_go = lengths_to_go(units);
    let mut out = Vec::new();
    let mut sets = Sets::FRESH;
    for (unit, after) in units.iter().zip(&to_go[1..]) {
        if !stands(unit, sets) {
            let chosen = useful_designations(unit)
                .min_by_key(|d| d.octets.len() as u32 + after[index(sets.with(d.side, d.set))])
                .expect("every character and space has a designation");
            out.extend_from_slice(chosen.octets);
            sets = sets.with(chosen.side, chosen.set);
        }
        push_unit(&mut out, unit, segments, sets);
    }
    out
}

/// For each number of units done, the least length of a lazy writing of those
/// that follow, for each pair of sets in force.
fn lengths_to_go(units: &[Unit]) -> Vec<Lengths> {
    let mut to_go = vec![[0; PAIRS]; units.len() + 1];
    for done in (0..units.len()).rev() {
        to_go[done] = one_unit_more(&units[done], &to_go[done + 1]);
    }
    to_go
}

fn one_unit_more(unit: &Unit, after: &Lengths) -> Lengths {
    let own = own_length(unit) as u32;
    let mut lengths = after.map(|length| own + length);
    for (from, length) in lengths.iter_mut().enumerate() {
        if !stands(unit, PAIR[from]) {
            *length = NO_WAY;
        }
    }
    for d in useful_designations(unit) {
        let (octets, rank) = (d.octets.len() as u32, rank(d.set, d.side));
        for (from, length) in lengths.iter_mut().enumerate() {
            if !stands(unit, PAIR[from]) {
                let way = octets + own + after[index_after(from, d.side, rank)];
                *length = (*length).min(way);
            }
        }
    }
    lengths
}

// ---------------------------------------------------------------------------
// The one string, by looking at every lazy string
// ---------------------------------------------------------------------------

/// A lazy string and the choices made in it, from left to right.
struct Lazy {
    octets: Vec<u8>,
    sets: Sets,
    /// At each designation its rank among those that would do.
    choices: Vec<usize>,
}

/// The same string as `shortest_lazy`, out of a list of all lazy strings; their
/// number doubles with every choice.
pub fn shortest_of_all_lazy(units: &[Unit], segments: &[u8]) -> Vec<u8> {
    let mut all = vec![Lazy {
        octets: Vec::new(),
        sets: Sets::FRESH,
        choices: Vec::new(),
    }];
    for unit in units {
        all = all
            .iter()
            .flat_map(|lazy| with_unit(lazy, unit, segments))
            .collect();
    }
    all.into_iter()
        .min_by(|a, b| {
            let lengths = a.octets.len().cmp(&b.octets.len());
            lengths.then_with(|| a.choices.cmp(&b.choices))
        })
        .expect("at least one lazy string")
        .octets
}

/// All lazy strings that go on from one by one unit.
fn with_unit(lazy: &Lazy, unit: &Unit, segments: &[u8]) -> Vec<Lazy> {
    let go_on = |designation: Option<(usize, &Designation)>| {
        let (mut octets, mut sets) = (lazy.octets.clone(), lazy.sets);
        let mut choices = lazy.choices.clone();
        if let Some((choice, d)) = designation {
            octets.extend_from_slice(d.octets);
            sets = sets.with(d.side, d.set);
            choices.push(choice);
        }
        push_unit(&mut octets, unit, segments, sets);
        Lazy {
            octets,
            sets,
            choices,
        }
    };
    if stands(unit, lazy.sets) {
        return vec![go_on(None)];
    }
    useful_designations(unit)
        .enumerate()
        .map(|choice| go_on(Some(choice)))
        .collect()
}

#[cfg(test)]
mod tests {
    use super::*;

    #[test]
    fn octets_of_designations() {
        for d in DESIGNATIONS {
            let octets = match d.side {
                Side::Gl => GL_OCTETS[rank(d.set, d.side)],
                Side::Gr => GR_OCTETS[rank(d.set, d.side)],
            };
            assert_eq!(octets as usize, d.octets.len());
        }
    }

    #[test]
    fn pairs_and_their_places() {
        for (place, &sets) in PAIR.iter().enumerate() {
            assert!(sets.are_good());
            assert_eq!(index(sets), place);
            for d in DESIGNATIONS {
                let after = index_after(place, d.side, rank(d.set, d.side));
                assert_eq!(PAIR[after], sets.with(d.side, d.set));
            }
        }
    }

    /// Designation by designation, until none of them gives a shorter way.
    fn designate_one_by_one(lengths: &mut Lengths) {
        let mut shorter = true;
        while shorter {
            shorter = false;
            for from in 0..PAIRS {
                for d in DESIGNATIONS {
                    let to = index(PAIR[from].with(d.side, d.set));
                    let length = lengths[from] + d.octets.len() as u32;
                    shorter |= length < lengths[to];
                    lengths[to] = lengths[to].min(length);
                }
            }
        }
    }

    #[test]
    fn free_designations_are_all_designations() {
        let mut random = crate::random::Random::new(5);
        for _ in 0..2_000 {
            let mut lengths = [NO_WAY; PAIRS];
            for _ in 0..random.between(1, 30) {
                lengths[random.below(PAIRS)] = random.below(20) as u32;
            }
            let mut one_by_one = lengths;
            designate_one_by_one(&mut one_by_one);
            designate_freely(&mut lengths);
            assert_eq!(lengths, one_by_one);
        }
    }
}
