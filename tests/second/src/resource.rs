//! The form of octets in X resource files, written and read: a backslash is two
//! backslashes, a newline is `\n`, octet 00 is `\000`, and all else stays.

use crate::unit::{Answer, LIMIT};

/// The most octets of a form.
pub const FORM_LIMIT: usize = 262_140;

const BACKSLASH: u8 = b'\\';
const NEWLINE: u8 = 0x0A;
const ZERO: u8 = 0x00;

/// From octets to their form, or back.
#[derive(Clone, Copy, PartialEq, Eq, Debug)]
pub enum Way {
    Write,
    Read,
}

/// What a way makes of its input if the output has room, or the refusal.
pub type Made = Result<Vec<u8>, Answer>;

impl Way {
    pub fn make(self, input: &[u8]) -> Made {
        match self {
            Way::Write => write(input),
            Way::Read => read(input),
        }
    }

    pub fn back(self) -> Way {
        match self {
            Way::Write => Way::Read,
            Way::Read => Way::Write,
        }
    }
}

/// The answer for an input of this length, and the output that was lent as it
/// is afterwards.
pub fn answer(input: usize, made: &Made, output: &[u8]) -> (Answer, Vec<u8>) {
    match made {
        Err(refusal) => (*refusal, output.to_vec()),
        Ok(octets) => match output.get(octets.len()..) {
            None => (Answer::too_short(octets.len()), output.to_vec()),
            Some(rest) => (
                Answer::accepted(input, octets.len()),
                [octets, rest].concat(),
            ),
        },
    }
}

fn write(plain: &[u8]) -> Made {
    if plain.len() > LIMIT {
        return Err(Answer::refusal(1, 0));
    }
    Ok(form(plain))
}

/// The form of any number of octets.
pub fn form(plain: &[u8]) -> Vec<u8> {
    let mut form = Vec::with_capacity(plain.len());
    for &octet in plain {
        match octet {
            BACKSLASH => form.extend(br"\\"),
            NEWLINE => form.extend(br"\n"),
            ZERO => form.extend(br"\000"),
            _ => form.push(octet),
        }
    }
    form
}

fn read(form: &[u8]) -> Made {
    if form.len() > FORM_LIMIT {
        return Err(Answer::refusal(1, 0));
    }
    let mut plain = Vec::with_capacity(form.len());
    let mut rest = form;
    while !rest.is_empty() {
        let Some((octet, behind)) = first(rest) else {
            return Err(Answer::refusal(13, form.len() - rest.len()));
        };
        plain.push(octet);
        rest = behind;
    }
    if plain.len() > LIMIT {
        return Err(Answer::refusal(1, 0));
    }
    Ok(plain)
}

/// The octet that the beginning of a form stands for, and the form behind it;
/// none where it begins with what no form has.
fn first(form: &[u8]) -> Option<(u8, &[u8])> {
    match form {
        [b'\\', b'\\', behind @ ..] => Some((BACKSLASH, behind)),
        [b'\\', b'n', behind @ ..] => Some((NEWLINE, behind)),
        [b'\\', b'0', b'0', b'0', behind @ ..] => Some((ZERO, behind)),
        [BACKSLASH | NEWLINE | ZERO, ..] | [] => None,
        [octet, behind @ ..] => Some((*octet, behind)),
    }
}

/// The request's words, and what docs/DECISIONS.md says of them.
#[cfg(test)]
mod tests {
    use super::*;
    use crate::strings::{all_strings, every_octet};

    /// The plain octets and the form of each other, both ways.
    fn pairs(expected: &[(&[u8], &[u8])]) {
        for &(plain, form) in expected {
            assert_eq!(write(plain), Ok(form.to_vec()));
            assert_eq!(read(form), Ok(plain.to_vec()));
        }
    }

    /// Forms that are refused with 13, and the place.
    fn faults(expected: &[(&[u8], usize)]) {
        for &(form, place) in expected {
            assert_eq!(read(form), Err(Answer::refusal(13, place)), "{form:?}");
        }
    }

    #[test]
    fn octets_and_their_forms() {
        pairs(&[
            (b"", b""),
            (b"\\", b"\\\\"),
            (b"\n", b"\\n"),
            (b"\0", b"\\000"),
            (b"\x001", b"\\0001"),
            (b"\\n", b"\\\\n"),
            (b"\\000", b"\\\\000"),
            (b"n0\t\r \x1B\x7F\x80\xFF", b"n0\t\r \x1B\x7F\x80\xFF"),
            (b"a\\b\nc\0d", b"a\\\\b\\nc\\000d"),
        ]);
    }

    #[test]
    fn other_backslashes() {
        faults(&[(b"\\N", 0), (b"\\x00", 0), (b"\\012", 0), (b"\\t", 0)]);
        faults(&[(b"\\001", 0), (b"\\00n", 0), (b"\\0\\000", 0)]);
        faults(&[(b"ab\\\\\\c", 4), (b"\\n\\000\\1\n", 6)]);
    }

    #[test]
    fn cut_escapes() {
        faults(&[(b"\\", 0), (b"\\0", 0), (b"\\00", 0)]);
        faults(&[(b"A\\", 1), (b"\\\\\\0", 2), (b"\\000\\00", 4)]);
    }

    #[test]
    fn raw_newline_and_zero() {
        faults(&[(b"\n", 0), (b"\0", 0), (b"A\nB", 1), (b"AB\0", 2)]);
        faults(&[(b"\\n\n", 2), (b"\\\n", 0), (b"\\\0", 0), (b"\\00\0", 0)]);
    }

    #[test]
    fn the_output() {
        let given = |way: Way, input: &[u8], output: &[u8]| {
            let (answer, after) = answer(input.len(), &way.make(input), output);
            ((answer.number, answer.place, answer.count), after)
        };
        let written = given(Way::Write, b"a\0", b"......");
        assert_eq!(written, ((0, 2, 5), b"a\\000.".to_vec()));
        let short = given(Way::Write, b"a\0", b"....");
        assert_eq!(short, ((10, 0, 5), b"....".to_vec()));
        let read = given(Way::Read, b"a\\000", b"...");
        assert_eq!(read, ((0, 5, 2), b"a\0.".to_vec()));
        let short = given(Way::Read, b"a\\000", b".");
        assert_eq!(short, ((10, 0, 2), b".".to_vec()));
        let fault = given(Way::Read, b"ab\\c", b".");
        assert_eq!(fault, ((13, 2, 0), b".".to_vec()));
        assert_eq!(given(Way::Write, b"", b""), ((0, 0, 0), vec![]));
        assert_eq!(given(Way::Read, b"", b""), ((0, 0, 0), vec![]));
    }

    #[test]
    fn limits() {
        let too_long = Err(Answer::refusal(1, 0));
        let zeros = vec![0; LIMIT];
        let longest = br"\000".repeat(LIMIT);
        assert_eq!(longest.len(), FORM_LIMIT);
        pairs(&[(&zeros, &longest), (&[b'A'; LIMIT], &[b'A'; LIMIT])]);
        assert_eq!(write(&[b'A'; LIMIT + 1]), too_long);
        assert_eq!(write(&[0; LIMIT + 1]), too_long);
        assert_eq!(read(&[&longest[..], b"A"].concat()), too_long);
        assert_eq!(read(&[b'\n'; FORM_LIMIT + 1]), too_long);
        assert_eq!(read(&[b'A'; LIMIT + 1]), too_long);
        assert_eq!(read(&[b'A'; FORM_LIMIT]), too_long);
        assert_eq!(read(&br"\n".repeat(LIMIT + 1)), too_long);
    }

    #[test]
    fn a_fault_comes_before_too_many_plain_octets() {
        let many = vec![b'A'; FORM_LIMIT - 1];
        faults(&[
            (&[&many[..], b"\n"].concat(), FORM_LIMIT - 1),
            (&[&many[..], b"\\"].concat(), FORM_LIMIT - 1),
            (&[b"\0", &many[..]].concat(), 0),
            (&[&many[..LIMIT], b"\\N"].concat(), LIMIT),
        ]);
    }

    /// What is read back is what was written, and a form that is accepted is
    /// the only one for its octets.
    #[test]
    fn back_and_forth() {
        for length in 0..=2 {
            all_strings(&[], &every_octet(), length, |s| {
                assert_eq!(read(&form(s)), Ok(s.to_vec()));
                if let Ok(plain) = read(s) {
                    assert_eq!(form(&plain), s);
                }
                true
            });
        }
    }
}
