//! What a reader of runs shows, one run after the other. It is a plain value,
//! which anybody may have made, so it can hold what no reading leads to.

use crate::reader::{self, State};
use crate::runs::{self, Label, Run, Shown};
use crate::sets;
use crate::steps::Position;
use crate::unit::*;

/// Where a reader of runs stands. Its count is idle, and always 0.
#[derive(Clone, Copy, PartialEq, Eq, Debug)]
pub struct RunReader {
    pub at: Position,
    /// Whether the string is known to be accepted: 0 for no, anything else for
    /// yes.
    pub checked: u8,
}

impl RunReader {
    /// A reader of runs opened on a string.
    pub const OPENED: RunReader = RunReader {
        at: Position::OPENED,
        checked: 0,
    };

    fn of(state: &State, checked: bool) -> RunReader {
        let at = Position {
            count: 0,
            ..Position::of(state)
        };
        RunReader {
            at,
            checked: checked.into(),
        }
    }
}

/// What one step hands back, and where the reader stands after it.
#[derive(Clone, Copy, PartialEq, Eq, Debug)]
pub struct RunStep {
    pub reader: RunReader,
    pub shown: Shown,
}

/// All steps over a string: those that show a run, and the one with the answer,
/// which repeats from then on.
pub fn run_steps(s: &[u8], from: RunReader) -> Vec<RunStep> {
    let state = from.at.state();
    let checked = from.checked != 0;
    if let Some(refusal) = refused_at_once(s, &state, checked) {
        let reader = RunReader::of(&state, checked);
        return vec![nothing(reader, refusal)];
    }
    let mut steps = Vec::new();
    let mut last = RunReader::of(&state, true);
    let mut open: Option<(Label, usize)> = None;
    let answer = reader::read_on(s, state, |element, after| {
        let direction = direction_number(after.marks.innermost());
        let label = runs::label_of(element, after.sets.gl, direction);
        if open.map(|(label, _)| label) != label {
            steps.extend(open.map(|run| shown(s, run, element.start, last)));
            open = label.map(|label| (label, element.start));
        }
        last = RunReader::of(after, true);
    });
    steps.extend(open.map(|run| shown(s, run, last.at.place, last)));
    let end = if answer.is_accepted() {
        Answer::refusal(11, 0)
    } else {
        answer
    };
    steps.push(nothing(last, end));
    steps
}

/// The words that one call stores, what it hands back, and where the reader
/// stands after it.
#[derive(Clone, PartialEq, Eq, Debug)]
pub struct RunList {
    pub words: Vec<u64>,
    pub reader: RunReader,
    pub answer: Answer,
}

/// All calls over a string with room for so many runs: those that store some,
/// and the one that stores none, which repeats from then on.
pub fn run_lists(s: &[u8], from: RunReader, room: usize) -> Vec<RunList> {
    let state = from.at.state();
    let checked = from.checked != 0;
    if let Some(refusal) = refused_at_once(s, &state, checked) {
        return vec![list(&[], RunReader::of(&state, checked), refusal)];
    }
    let stored = |count| Answer::accepted(s.len(), count);
    if room == 0 {
        return vec![list(&[], RunReader::of(&state, true), stored(0))];
    }
    let mut steps = run_steps(s, from);
    let end = steps.pop().expect("the step with the answer");
    let lists = steps.chunks(room).map(|runs| {
        // Where there is room left, the rest of the string was read too.
        let full = runs.get(room - 1);
        let reader = full.map_or(end.reader, |last| last.reader);
        list(runs, reader, stored(runs.len()))
    });
    let answer = match end.shown.answer.number {
        11 => stored(0),
        _ => end.shown.answer,
    };
    lists.chain([list(&[], end.reader, answer)]).collect()
}

fn list(runs: &[RunStep], reader: RunReader, answer: Answer) -> RunList {
    let words = runs.iter().map(|run| word(&run.shown)).collect();
    RunList {
        words,
        reader,
        answer,
    }
}

/// A run in one word: from the lowest octet on, its start and its end in two
/// octets each, and in one each its set, width and direction.
fn word(run: &Shown) -> u64 {
    let (start, length) = run.part.expect("a run has a part");
    let [s0, s1] = (start as u16).to_le_bytes();
    let [e0, e1] = ((start + length) as u16).to_le_bytes();
    u64::from_le_bytes([s0, s1, e0, e1, run.set, run.width, run.direction, 0])
}

/// A string that is too long, a reader that cannot be, a refused string: in
/// this order, and before any run.
fn refused_at_once(s: &[u8], state: &State, checked: bool) -> Option<Answer> {
    if s.len() > LIMIT {
        return Some(Answer::refusal(1, 0));
    }
    if !state.is_good(s.len()) {
        return Some(Answer::refusal(11, 0));
    }
    let whole = reader::check(s);
    (!checked && !whole.is_accepted()).then_some(whole)
}

fn shown(s: &[u8], (label, start): (Label, usize), end: usize, reader: RunReader) -> RunStep {
    let run = Run {
        start,
        length: end - start,
        set: label.set,
        width: sets::width(label.set) as u8,
        direction: label.direction,
    };
    RunStep {
        reader,
        shown: runs::shown_run(s.len(), &run),
    }
}

fn nothing(reader: RunReader, refusal: Answer) -> RunStep {
    RunStep {
        reader,
        shown: runs::nothing(refusal),
    }
}

#[cfg(test)]
mod tests {
    use super::*;
    use crate::random::Random;
    use crate::strings::random_string;

    fn by_number(s: &[u8]) -> Vec<Shown> {
        let all = runs::runs(s);
        let many = all.as_ref().map_or(0, Vec::len);
        (0..=many).map(|k| runs::shown(s.len(), &all, k)).collect()
    }

    fn in_order(s: &[u8], from: RunReader) -> Vec<Shown> {
        run_steps(s, from).iter().map(|step| step.shown).collect()
    }

    #[test]
    fn runs_in_order_are_those_by_number() {
        let mut random = Random::new(5);
        for _ in 0..20_000 {
            let s = random_string(&mut random);
            assert_eq!(in_order(&s, RunReader::OPENED), by_number(&s), "{s:?}");
        }
    }

    #[test]
    fn each_reader_goes_on_by_itself() {
        let mut random = Random::new(6);
        for _ in 0..5_000 {
            let s = random_string(&mut random);
            let steps = run_steps(&s, RunReader::OPENED);
            for (k, step) in steps.iter().enumerate() {
                let rest = run_steps(&s, step.reader);
                let last = steps.len() - 1;
                assert_eq!(rest, steps[last.min(k + 1)..], "{s:?}");
            }
        }
    }

    /// A run before the offence, for a reader that says that the string is
    /// accepted, and none for one that does not.
    #[test]
    fn a_reader_is_taken_at_its_word() {
        let s = [0x41, 0xE9, 0x00];
        let word = RunReader {
            checked: 2,
            ..RunReader::OPENED
        };
        let steps = run_steps(&s, word);
        let parts: Vec<_> = steps.iter().map(|step| step.shown.part).collect();
        assert_eq!(parts, [Some((0, 1)), Some((1, 1)), None]);
        assert_eq!(steps[2].shown.answer, Answer::refusal(3, 2));
        assert_eq!(steps[2].reader.at.place, 2);
        assert_eq!(steps[2].reader.checked, 1);
        let none = run_steps(&s, RunReader::OPENED);
        assert_eq!(none.len(), 1);
        assert_eq!(none[0].shown.answer, Answer::refusal(3, 2));
        assert_eq!(none[0].reader, RunReader::OPENED);
    }

    /// The answer names the octet, and the reader stands at the element's start.
    #[test]
    fn a_refused_reader_stands_before_the_element() {
        let s = [0x41, 0x1B, 0x28, 0x4A, 0x1B, 0x24, 0x42];
        let word = RunReader {
            checked: 1,
            ..RunReader::OPENED
        };
        let steps = run_steps(&s, word);
        let answers: Vec<Answer> = steps.iter().map(|step| step.shown.answer).collect();
        assert_eq!(answers, [Answer::accepted(7, 1), Answer::refusal(4, 6)]);
        let stands = steps[1].reader.at;
        assert_eq!((stands.place, stands.gl), (4, 2));
        let lists = run_lists(&s, word, 3);
        assert_eq!(lists[1].answer, Answer::refusal(4, 6));
        assert_eq!(lists[1].reader.at, stands);
        let none = run_steps(&s, RunReader::OPENED);
        assert_eq!(none[0].shown.answer, Answer::refusal(4, 6));
        assert_eq!(none[0].reader, RunReader::OPENED);
    }

    #[test]
    fn a_run_is_one_word() {
        let s = [
            0x9B, 0x32, 0x5D, 0x1B, 0x24, 0x29, 0x42, 0xB0, 0xA1, 0x41, 0x0A,
        ];
        let lists = run_lists(&s, RunReader::OPENED, 2);
        let words = [0x0002_020D_0009_0007, 0x0002_0100_000A_0009];
        assert_eq!(lists[0].words, words);
        assert_eq!(lists[0].answer, Answer::accepted(11, 2));
        assert_eq!(lists[0].reader.at.place, 10);
        assert_eq!(lists[1].words, []);
        assert_eq!(lists[1].answer, Answer::accepted(11, 0));
        assert_eq!(lists[1].reader.at.place, 11);
    }

    #[test]
    fn listed_runs_are_those_in_order() {
        let mut random = Random::new(7);
        for _ in 0..5_000 {
            let s = random_string(&mut random);
            let mut runs = run_steps(&s, RunReader::OPENED);
            runs.pop();
            let words: Vec<u64> = runs.iter().map(|run| word(&run.shown)).collect();
            for room in 1..5 {
                let lists = run_lists(&s, RunReader::OPENED, room);
                let stored = lists.iter().flat_map(|list| list.words.clone());
                assert_eq!(stored.collect::<Vec<u64>>(), words, "{s:?}");
                for (k, list) in lists.iter().enumerate() {
                    let rest = run_lists(&s, list.reader, room);
                    let last = lists.len() - 1;
                    assert_eq!(rest, lists[last.min(k + 1)..], "{s:?}");
                }
            }
        }
    }

    /// The runs before an offence are listed, and then the refusal, but where
    /// there is no room for any.
    #[test]
    fn a_list_ends_before_an_offence() {
        let s = [0x41, 0xE9, 0x00];
        let word = RunReader {
            checked: 2,
            ..RunReader::OPENED
        };
        let answers = |room| -> Vec<Answer> {
            let lists = run_lists(&s, word, room);
            lists.iter().map(|list| list.answer).collect()
        };
        let accepted = |count| Answer::accepted(3, count);
        assert_eq!(answers(5), [accepted(2), Answer::refusal(3, 2)]);
        assert_eq!(answers(2), [accepted(2), Answer::refusal(3, 2)]);
        assert_eq!(answers(0), [accepted(0)]);
        let opened = run_lists(&s, RunReader::OPENED, 5);
        assert_eq!(opened[0].answer, Answer::refusal(3, 2));
        assert_eq!(opened[0].reader, RunReader::OPENED);
    }
}
