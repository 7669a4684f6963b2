//! The reader: elements by shape, then the direction rule, then units.

use crate::places;
use crate::sets::Sets;
use crate::shape::{self, Element, Piece};
use crate::unit::*;

/// What the direction rule has to know of the elements before.
#[derive(Clone, PartialEq, Eq, Debug, Default)]
pub struct Marks {
    /// The open directions, the innermost last.
    pub open: Vec<Direction>,
    /// Whether a direction mark has occurred.
    pub marked: bool,
    /// Whether text has occurred: a character, a space, or an extended segment
    /// whose own text is not empty.
    pub texted: bool,
}

/// What an element or unit is to the direction rule.
#[derive(Clone, Copy)]
pub enum Part {
    Text,
    Begin(Direction),
    Revert,
    Free,
}

impl Marks {
    /// Takes one more part, or gives the number of its refusal.
    pub fn admit(&mut self, part: Part) -> Result<(), u8> {
        match part {
            Part::Text if self.marked && self.open.is_empty() => return Err(8),
            Part::Text => self.texted = true,
            Part::Begin(_) if self.texted && !self.marked => return Err(8),
            Part::Begin(_) if self.open.len() >= DEPTH => return Err(9),
            Part::Begin(direction) => {
                self.marked = true;
                self.open.push(direction);
            }
            Part::Revert if self.open.is_empty() => return Err(8),
            Part::Revert => {
                self.marked = true;
                self.open.pop();
            }
            Part::Free => {}
        }
        Ok(())
    }

    /// The direction in force.
    pub fn innermost(&self) -> Option<Direction> {
        self.open.last().copied()
    }

    pub fn directed(&self) -> Directed {
        let direction = direction_number(self.innermost());
        (direction.into(), self.open.len() as u16)
    }
}

/// What an element is to the direction rule.
pub fn part_of(piece: &Piece) -> Part {
    match piece {
        Piece::Character { .. } | Piece::Space => Part::Text,
        Piece::Segment { has_text, .. } => part_of_segment(*has_text),
        Piece::Begin(direction) => Part::Begin(*direction),
        Piece::Revert => Part::Revert,
        Piece::Tab | Piece::Newline | Piece::Designation(..) => Part::Free,
    }
}

/// An extended segment is text where it has some, and free where it is a name
/// alone.
pub fn part_of_segment(has_text: bool) -> Part {
    if has_text {
        Part::Text
    } else {
        Part::Free
    }
}

/// The place and state of a reader that hands out units one by one.
#[derive(Clone, PartialEq, Eq, Debug)]
pub struct State {
    pub place: usize,
    pub sets: Sets,
    pub marks: Marks,
    /// The units handed out so far.
    pub handed: usize,
}

impl State {
    /// The state of a reader opened on a string.
    pub fn fresh() -> State {
        State {
            place: 0,
            sets: Sets::FRESH,
            marks: Marks::default(),
            handed: 0,
        }
    }

    /// Whether a reader on a string of this length may hold the state.
    pub fn is_good(&self, length: usize) -> bool {
        self.place <= length && self.sets.are_good() && self.marks.open.len() <= DEPTH
    }

    /// The refusal of the element at the state's place.
    pub fn refusal(&self, s: &[u8], number: u8) -> Answer {
        Answer::refusal(number, places::place(s, self.place, self.sets, number))
    }

    /// Goes past an element that the direction rule has admitted.
    pub fn pass(&mut self, element: &Element) {
        self.place = element.end;
        match element.piece {
            Piece::Designation(side, set) => self.sets = self.sets.with(side, set),
            _ => self.handed = self.handed.saturating_add(1),
        }
    }
}

/// Reads on from a state to the end or the offending element. Shows every
/// element before it, with the state after the element, to `take`, and gives
/// the final answer.
pub fn read_on(s: &[u8], mut state: State, take: impl FnMut(&Element, &State)) -> Answer {
    advance(s, &mut state, take)
}

/// The same, and the state is afterwards that at the end, or that in which the
/// offending element is met; a string that is not read at all leaves it.
pub fn advance(s: &[u8], state: &mut State, mut take: impl FnMut(&Element, &State)) -> Answer {
    if s.len() > LIMIT {
        return Answer::refusal(1, 0);
    }
    if !state.is_good(s.len()) {
        return Answer::refusal(11, 0);
    }
    while state.place < s.len() {
        if let Err(number) = pass_element(s, state, &mut take) {
            return state.refusal(s, number);
        }
    }
    Answer::accepted(s.len(), state.handed)
}

/// Takes the state past the element at its place, or leaves it there.
fn pass_element(
    s: &[u8],
    state: &mut State,
    take: &mut impl FnMut(&Element, &State),
) -> Result<(), u8> {
    let element = shape::element(s, state.place, state.sets)?;
    state.marks.admit(part_of(&element.piece))?;
    state.pass(&element);
    take(&element, state);
    Ok(())
}

/// The unit of an element, with the directions after it; a designation is none.
pub fn unit_of(element: &Element, after: &Marks) -> Option<Unit> {
    let (direction, depth) = after.directed();
    let mut unit = Unit {
        start: element.start as u32,
        length: (element.end - element.start) as u32,
        direction,
        depth,
        ..Unit::default()
    };
    match element.piece {
        Piece::Designation(..) => return None,
        Piece::Character { set, code, .. } => {
            (unit.kind, unit.set, unit.code) = (CHARACTER, set, code);
        }
        Piece::Space => unit.kind = SPACE,
        Piece::Tab => unit.kind = TAB,
        Piece::Newline => unit.kind = NEWLINE,
        Piece::Begin(Direction::LeftToRight) => unit.kind = LEFT_TO_RIGHT,
        Piece::Begin(Direction::RightToLeft) => unit.kind = RIGHT_TO_LEFT,
        Piece::Revert => unit.kind = REVERT,
        Piece::Segment {
            d, start, length, ..
        } => {
            (unit.kind, unit.code) = (SEGMENT, u16::from(d));
            (unit.start, unit.length) = (start as u32, length as u32);
        }
    }
    Some(unit)
}

/// The units that a reader in this state hands out one by one, and the answer
/// that it repeats from then on.
pub fn units_from(s: &[u8], state: State) -> (Vec<Unit>, Answer) {
    let mut units = Vec::new();
    let answer = read_on(s, state, |element, after| {
        units.extend(unit_of(element, &after.marks));
    });
    (units, answer)
}

/// The check's answer.
pub fn check(s: &[u8]) -> Answer {
    read_on(s, State::fresh(), |_, _| {})
}

/// The list reader's answer, from the check's answer and the room of the list.
pub fn answer_with_room(check: Answer, room: usize) -> Answer {
    if check.is_accepted() && room < check.count {
        Answer::too_short(check.count)
    } else {
        check
    }
}

/// The units of an accepted string, or the refusal.
pub fn read(s: &[u8]) -> Result<Vec<Unit>, Answer> {
    let (units, answer) = units_from(s, State::fresh());
    if answer.is_accepted() {
        Ok(units)
    } else {
        Err(answer)
    }
}
