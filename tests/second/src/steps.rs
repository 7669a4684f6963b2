//! What a reader that steps hands out. A reader is a plain value, which anybody
//! may have made, so it can hold what no reading leads to.

use crate::reader::{self, Marks, State};
use crate::sets::Sets;
use crate::unit::*;

/// Where a reader stands.
#[derive(Clone, Copy, PartialEq, Eq, Debug)]
pub struct Position {
    /// The open directions in binary digits: the innermost lowest, 1 for
    /// right-to-left. Digits from `depth` upwards are idle: they mean nothing.
    pub levels: u64,
    pub place: usize,
    pub count: usize,
    pub gl: u8,
    pub gr: u8,
    pub depth: u8,
    /// 0 for no, anything else for yes.
    pub marked: u8,
    pub texted: u8,
}

impl Position {
    /// A reader opened on a string.
    pub const OPENED: Position = Position {
        levels: 0,
        place: 0,
        count: 0,
        gl: Sets::FRESH.gl,
        gr: Sets::FRESH.gr,
        depth: 0,
        marked: 0,
        texted: 0,
    };

    /// The position with all idle digits 0.
    pub fn without_idle_digits(self) -> Position {
        let used = 1_u64.checked_shl(self.depth.into());
        let levels = used.map_or(self.levels, |used| self.levels & (used - 1));
        Position { levels, ..self }
    }

    /// What the position means to the rules.
    pub fn state(&self) -> State {
        State {
            place: self.place,
            sets: Sets {
                gl: self.gl,
                gr: self.gr,
            },
            marks: Marks {
                open: self.open(),
                marked: self.marked != 0,
                texted: self.texted != 0,
            },
            handed: self.count,
        }
    }

    /// The open directions, the innermost last.
    fn open(&self) -> Vec<Direction> {
        let digits = (0..u32::from(self.depth)).rev();
        digits
            .map(|digit| match self.levels.checked_shr(digit) {
                Some(shifted) if shifted % 2 == 1 => Direction::RightToLeft,
                _ => Direction::LeftToRight,
            })
            .collect()
    }

    /// The position as a step gives it.
    pub fn of(state: &State) -> Position {
        let open = &state.marks.open;
        Position {
            levels: open.iter().fold(0, |levels, direction| {
                levels << 1 | u64::from(*direction == Direction::RightToLeft)
            }),
            place: state.place,
            count: state.handed,
            gl: state.sets.gl,
            gr: state.sets.gr,
            depth: open.len() as u8,
            marked: state.marks.marked.into(),
            texted: state.marks.texted.into(),
        }
    }
}

/// What one step hands back: the next unit, or else the answer.
#[derive(Clone, Copy, PartialEq, Eq, Debug)]
pub struct Handed {
    /// Where the reader stands after the step.
    pub position: Position,
    pub answer: Answer,
    pub unit: Unit,
    pub given: u8,
}

/// All steps of a reader over a string: those with a unit, and the one with the
/// answer, which repeats from then on. With the answer the reader stands at the
/// end, or at the start of the offending element, also where only designations
/// stand before that.
pub fn steps(s: &[u8], from: Position) -> Vec<Handed> {
    let mut state = from.state();
    let mut steps = Vec::new();
    let answer = reader::advance(s, &mut state, |element, after| {
        if let Some(unit) = reader::unit_of(element, &after.marks) {
            steps.push(Handed {
                position: Position::of(after),
                answer: Answer::accepted(0, 0),
                unit,
                given: 1,
            });
        }
    });
    steps.push(Handed {
        position: Position::of(&state),
        answer,
        unit: Unit::default(),
        given: 0,
    });
    steps
}

#[cfg(test)]
mod tests {
    use super::*;

    fn by_hand(depth: u8, levels: u64) -> Position {
        Position {
            depth,
            levels,
            ..Position::OPENED
        }
    }

    #[test]
    fn an_opened_reader_is_in_the_fresh_state() {
        assert_eq!(Position::OPENED.state(), State::fresh());
        assert_eq!(Position::of(&State::fresh()), Position::OPENED);
    }

    #[test]
    fn digits_are_directions() {
        use Direction::{LeftToRight as L, RightToLeft as R};
        assert_eq!(by_hand(0, u64::MAX).open(), []);
        assert_eq!(by_hand(3, 0b11_0011).open(), [L, R, R]);
        assert_eq!(by_hand(255, u64::MAX).open().len(), 255);
        assert_eq!(by_hand(0, u64::MAX).without_idle_digits().levels, 0);
        assert_eq!(by_hand(3, 0b11_0011).without_idle_digits().levels, 0b011);
        for depth in [64, 65, 255] {
            let all = by_hand(depth, u64::MAX);
            assert_eq!(all.without_idle_digits(), all);
        }
        for depth in 0..=255 {
            let position = by_hand(depth, 0xFEDC_BA98_7654_3210);
            let packed = Position::of(&position.state());
            assert_eq!(packed, position.without_idle_digits());
        }
    }

    /// Place, count, depth and levels after each unit, and the answer.
    #[test]
    fn steps_over_a_refused_string() {
        let s = b"\x9B\x32\x5D\x1B\x24\x28\x420!\x9B\x5D\x1B\x28\x42\x00";
        let steps = steps(s, Position::OPENED);
        let stands: Vec<(usize, usize, u8, u64)> = steps
            .iter()
            .map(|step| step.position)
            .map(|p| (p.place, p.count, p.depth, p.levels))
            .collect();
        assert_eq!(
            stands,
            [(3, 1, 1, 1), (9, 2, 1, 1), (11, 3, 0, 0), (14, 3, 0, 0)]
        );
        let sets: Vec<u8> = steps.iter().map(|step| step.position.gl).collect();
        assert_eq!(sets, [0, 13, 13, 0]);
        assert_eq!(steps[3].answer, Answer::refusal(3, 14));
        assert_eq!(steps[3].given, 0);
    }

    /// Place, count, sets and answer of the last step.
    fn stands(s: &[u8], from: Position) -> (usize, usize, u8, u8, Answer) {
        let steps = steps(s, from);
        let last = steps[steps.len() - 1];
        let at = last.position;
        // From there on it repeats.
        assert_eq!(super::steps(s, at), [last]);
        (at.place, at.count, at.gl, at.gr, last.answer)
    }

    /// The reader is past the designations, and before the element whose octet
    /// its answer names; the units stay counted.
    #[test]
    fn a_reader_stands_before_the_offending_element() {
        let opened = Position::OPENED;
        let refused = Answer::refusal;
        let found = stands(b"\x1B(J\x1B$B", opened);
        assert_eq!(found, (3, 0, 2, 3, refused(4, 5)));
        let found = stands(b"A\x1B(J\x1B-B\x1B%/2\x80\x84ab\x02\xFF", opened);
        assert_eq!(found, (7, 1, 2, 4, refused(7, 16)));
        let found = stands(b"\x1B$(B0!0", opened);
        assert_eq!(found, (6, 1, 13, 3, refused(2, 7)));
        let found = stands(b"A\x1B(J\x9B1]", opened);
        assert_eq!(found, (4, 1, 2, 3, refused(8, 4)));
        let found = stands(b"A\x1B(J", opened);
        assert_eq!(found, (4, 1, 2, 3, Answer::accepted(4, 1)));
        let found = stands(b"\x1B(J\x1B-B", opened);
        assert_eq!(found, (6, 0, 2, 4, Answer::accepted(6, 0)));
    }

    /// Also one made by hand, whose directions and count stay; one that is not
    /// read on does not move.
    #[test]
    fn a_reader_made_by_hand_stands_there_too() {
        let from = Position {
            place: 1,
            count: 7,
            marked: 9,
            ..by_hand(3, 0b1_0101)
        };
        let last = steps(b"\x00\x1B(J\x1B-!B", from)[0];
        let stands = Position {
            place: 4,
            marked: 1,
            gl: 2,
            ..by_hand(3, 0b101)
        };
        assert_eq!(last.answer, Answer::refusal(5, 7));
        assert_eq!(last.position, Position { count: 7, ..stands });
        let long = [&[0x1B, 0x28, 0x4A][..], &[0x09; LIMIT]].concat();
        let last = steps(&long, by_hand(1, 1))[0];
        assert_eq!(last.answer, Answer::refusal(1, 0));
        assert_eq!(last.position, by_hand(1, 1));
    }

    /// Where no direction is open after a mark, a segment with a text is refused
    /// and the reader stays; elsewhere it is remembered as text.
    #[test]
    fn steps_over_a_segment() {
        let at = |depth, marked, texted| Position {
            marked,
            texted,
            ..by_hand(depth, 0)
        };
        let (with_text, name) = (b"\x1B%/1\x80\x83a\x02\x02", b"\x1B%/4\x80\x82a\x02");
        for texted in [0, 1] {
            let refused = steps(with_text, at(0, 1, texted));
            assert_eq!(refused.len(), 1);
            assert_eq!(refused[0].answer, Answer::refusal(8, 0));
            assert_eq!(refused[0].position, at(0, 1, texted));
            for (depth, marked) in [(0, 0), (1, 0), (1, 1)] {
                let handed = steps(with_text, at(depth, marked, texted))[0];
                assert_eq!((handed.given, handed.unit.length), (1, 3));
                assert_eq!(
                    (handed.position.marked, handed.position.texted),
                    (marked, 1)
                );
                let handed = steps(name, at(depth, marked, texted))[0];
                assert_eq!((handed.given, handed.position.texted), (1, texted));
            }
            let handed = steps(name, at(0, 1, texted))[0];
            assert_eq!((handed.given, handed.position.texted), (1, texted));
        }
    }

    #[test]
    fn a_bad_reader_stays() {
        let bad = Position {
            marked: 7,
            count: 5,
            ..by_hand(17, u64::MAX)
        };
        let steps = steps(b"A", bad);
        assert_eq!(steps.len(), 1);
        assert_eq!(steps[0].answer, Answer::refusal(11, 0));
        let stays = Position {
            marked: 1,
            levels: 0x1_FFFF,
            ..bad
        };
        assert_eq!(steps[0].position, stays);
    }
}
