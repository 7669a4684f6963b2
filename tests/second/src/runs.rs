//! The runs of a string: every octet is labelled, and neighbours of one label
//! make a run.

use crate::reader::{self, State};
use crate::sets::{self, Side};
use crate::shape::{Element, Piece};
use crate::unit::*;

/// A run: the part of the string, and what is in force in it.
#[derive(Clone, Copy, PartialEq, Eq, Debug)]
pub struct Run {
    pub start: usize,
    pub length: usize,
    pub set: u8,
    pub width: u8,
    pub direction: u8,
}

/// What an octet of a character or space stands for.
#[derive(Clone, Copy, PartialEq, Eq)]
pub struct Label {
    pub side: Side,
    pub set: u8,
    pub direction: u8,
}

/// All runs of an accepted string, or the string's refusal.
pub fn runs(s: &[u8]) -> Result<Vec<Run>, Answer> {
    let labels = labels(s)?;
    let mut runs = Vec::new();
    let mut start = 0;
    for stretch in labels.chunk_by(|a, b| a == b) {
        if let Some(label) = stretch[0] {
            runs.push(Run {
                start,
                length: stretch.len(),
                set: label.set,
                width: sets::width(label.set) as u8,
                direction: label.direction,
            });
        }
        start += stretch.len();
    }
    Ok(runs)
}

/// A label for each octet of a character or space, none for every other octet.
fn labels(s: &[u8]) -> Result<Vec<Option<Label>>, Answer> {
    let mut labels = vec![None; s.len()];
    // A space is named by the set that stands in GL.
    let mut gl = State::fresh().sets.gl;
    let answer = reader::read_on(s, State::fresh(), |element, state| {
        if let Piece::Designation(Side::Gl, set) = element.piece {
            gl = set;
        }
        let direction = direction_number(state.marks.innermost());
        let label = label_of(element, gl, direction);
        labels[element.start..element.end].fill(label);
    });
    if answer.is_accepted() {
        Ok(labels)
    } else {
        Err(answer)
    }
}

/// The label of an element, with the set in GL and the direction in force.
pub fn label_of(element: &Element, gl: u8, direction: u8) -> Option<Label> {
    let (side, set) = match element.piece {
        Piece::Space => (Side::Gl, gl),
        Piece::Character { side, set, .. } => (side, set),
        _ => return None,
    };
    Some(Label {
        side,
        set,
        direction,
    })
}

/// What is handed back for a run by number. No part is the empty part.
#[derive(Clone, Copy, PartialEq, Eq, Debug)]
pub struct Shown {
    /// Start and length of the part in the string.
    pub part: Option<(usize, usize)>,
    pub answer: Answer,
    pub set: u8,
    pub width: u8,
    pub direction: u8,
}

/// The run of this number of a string of this length.
pub fn shown(length: usize, runs: &Result<Vec<Run>, Answer>, number: usize) -> Shown {
    let run = match runs {
        Err(refusal) => return nothing(*refusal),
        Ok(runs) => runs.get(number),
    };
    match run {
        None => nothing(Answer::refusal(11, 0)),
        Some(run) => shown_run(length, run),
    }
}

/// A run of a string of this length.
pub fn shown_run(length: usize, run: &Run) -> Shown {
    Shown {
        part: Some((run.start, run.length)),
        answer: Answer::accepted(length, run.length),
        set: run.set,
        width: run.width,
        direction: run.direction,
    }
}

/// The empty part beside a refusal.
pub fn nothing(refusal: Answer) -> Shown {
    Shown {
        part: None,
        answer: refusal,
        set: 0,
        width: 0,
        direction: 0,
    }
}
