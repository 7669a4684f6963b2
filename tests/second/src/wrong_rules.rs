//! Wrong rules of what an extended segment is to the direction rule, to test
//! the comparison itself: a reader and a writer that keep one of them.

use crate::reader::{self, Marks, Part, State};
use crate::shape::{self, Piece};
use crate::steps::{self, Handed, Position};
use crate::unit::*;
use crate::writer;

#[derive(Clone, Copy, PartialEq, Debug)]
pub enum WrongRule {
    /// Every segment is text, as if its name were part of that.
    EverySegment,
    /// None is, as before request No. 2.
    NoSegment,
    /// The text is taken to stand behind the last 02.
    LastSeparator,
    /// A segment with a text is refused, but a mark behind it is not.
    Forgotten,
    /// A mark behind a segment with a text is refused, but the segment is not.
    NotRefused,
    /// A bad segment is text too, and its shape is judged after that.
    BadToo,
}

use WrongRule::*;

impl WrongRule {
    pub const ALL: [WrongRule; 6] = [
        EverySegment,
        NoSegment,
        LastSeparator,
        Forgotten,
        NotRefused,
        BadToo,
    ];

    /// Takes the n octets of a segment, or gives the number of its refusal.
    fn admit(self, marks: &mut Marks, d: u8, body: &[u8]) -> Result<(), u8> {
        let text = shape::segment_text(d, body);
        let is_text = match (self, text) {
            (BadToo, None) => true,
            (_, None) => return Err(7),
            (EverySegment, _) => true,
            (NoSegment, _) => false,
            (LastSeparator, _) => body.last() != Some(&0x02),
            (_, Some(text)) => !text.is_empty(),
        };
        if is_text {
            self.admit_text(marks)?;
        }
        text.map(|_| ()).ok_or(7)
    }

    fn admit_text(self, marks: &mut Marks) -> Result<(), u8> {
        let before = marks.texted;
        let admitted = marks.admit(Part::Text);
        match self {
            Forgotten => marks.texted = before,
            NotRefused => {
                marks.texted = true;
                return Ok(());
            }
            _ => {}
        }
        admitted
    }

    /// Takes the state past the element at its place; where that is refused, the
    /// state is of no more use.
    fn pass_element(self, s: &[u8], state: &mut State) -> Result<Option<Unit>, u8> {
        let element = match shape::element(s, state.place, state.sets) {
            Err(7) => return self.admit(&mut state.marks, 0x30, &[]).map(|()| None),
            element => element?,
        };
        match element.piece {
            Piece::Segment {
                d, start, length, ..
            } => self.admit(&mut state.marks, d, &s[start..start + length])?,
            piece => state.marks.admit(reader::part_of(&piece))?,
        }
        state.pass(&element);
        Ok(reader::unit_of(&element, &state.marks))
    }

    /// All steps of a reader over a string, the last with the answer.
    pub fn steps(self, s: &[u8], from: Position) -> Vec<Handed> {
        let mut state = from.state();
        if s.len() > LIMIT || !state.is_good(s.len()) {
            return steps::steps(s, from);
        }
        let mut steps = Vec::new();
        let mut answer = None;
        while state.place < s.len() && answer.is_none() {
            let mut after = state.clone();
            match self.pass_element(s, &mut after) {
                Err(number) => answer = Some(state.refusal(s, number)),
                Ok(unit) => {
                    state = after;
                    steps.extend(unit.map(|unit| given(&state, unit)));
                }
            }
        }
        steps.push(Handed {
            position: Position::of(&state),
            answer: answer.unwrap_or(Answer::accepted(s.len(), state.handed)),
            unit: Unit::default(),
            given: 0,
        });
        steps
    }

    /// The refusal of a list that is not too long.
    pub fn list_refusal(self, units: &[Unit], segments: &[u8]) -> Option<Answer> {
        let mut marks = Marks::default();
        units.iter().enumerate().find_map(|(index, unit)| {
            let alone = writer::admit_unit(unit, segments, &mut Marks::default());
            let admitted = match (unit.kind, alone, part(unit, segments)) {
                (SEGMENT, Ok(()) | Err(7), Some(body)) => {
                    self.admit(&mut marks, unit.code as u8, body)
                }
                _ => writer::admit_unit(unit, segments, &mut marks),
            };
            admitted.err().map(|number| Answer::refusal(number, index))
        })
    }
}

/// A step that hands out a unit.
fn given(after: &State, unit: Unit) -> Handed {
    Handed {
        position: Position::of(after),
        answer: Answer::accepted(0, 0),
        unit,
        given: 1,
    }
}
