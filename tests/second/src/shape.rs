//! The shape of elements: a machine that is fed one octet at a time splits a
//! string into elements. It knows the sets in force and nothing of directions.

use crate::sets::{self, Sets, Side};
use crate::unit::Direction;

/// What a complete element is.
#[derive(Clone, Copy, PartialEq, Eq, Debug)]
pub enum Piece {
    Designation(Side, u8),
    Tab,
    Newline,
    Space,
    Character {
        side: Side,
        set: u8,
        code: u16,
    },
    Begin(Direction),
    Revert,
    /// Start and length are those of the n octets.
    Segment {
        d: u8,
        start: usize,
        length: usize,
        has_text: bool,
    },
}

/// A complete element and the octets start..end in which it stands.
#[derive(Clone, Copy, PartialEq, Eq, Debug)]
pub struct Element {
    pub start: usize,
    pub end: usize,
    pub piece: Piece,
}

/// What has been seen of an element that is not complete yet.
enum Inside {
    /// `1B`
    Escape,
    /// `1B 24`
    Dollar,
    /// `1B 28`, `1B 29`, `1B 2D`, `1B 24 28` or `1B 24 29`, no intermediate yet
    Designating,
    /// the same and at least one intermediate
    Intermediate,
    /// `1B 25`
    Percent,
    /// `1B 25 2F`
    Slash,
    /// `1B 25 2F d`
    High { d: u8 },
    /// `1B 25 2F d M`
    Low { d: u8, high: u8 },
    /// `9B`
    Csi,
    /// `9B 31` or `9B 32`
    Parameter(Direction),
    /// the first octet of a two-octet character
    Second { side: Side, set: u8, first: u8 },
}

/// What one more octet makes of an element.
enum Step {
    More(Inside),
    Done(Piece),
    /// The n octets of an extended segment follow.
    Body {
        d: u8,
        n: usize,
    },
    Refused(u8),
}

use Inside::*;
use Step::*;

/// The first octet of an element.
fn first(octet: u8, sets: Sets) -> Step {
    match octet {
        0x09 => Done(Piece::Tab),
        0x0A => Done(Piece::Newline),
        0x1B => More(Escape),
        0x9B => More(Csi),
        0x20 if sets::width(sets.gl) == 1 => Done(Piece::Space),
        0x20..=0x7F => graphic(octet, Side::Gl, sets.gl),
        0xA0..=0xFF => graphic(octet - 0x80, Side::Gr, sets.gr),
        _ => Refused(3),
    }
}

/// The first octet, less its top bit, of a character of the set on a side.
fn graphic(low: u8, side: Side, set: u8) -> Step {
    if !sets::values(set).contains(&low) {
        return Refused(3);
    }
    if sets::width(set) == 2 {
        return More(Second {
            side,
            set,
            first: low,
        });
    }
    let code = u16::from(low);
    Done(Piece::Character { side, set, code })
}

/// One more octet of an element; `seen` are the element's octets with this one.
fn next(inside: Inside, octet: u8, seen: &[u8]) -> Step {
    match (inside, octet) {
        (Escape, 0x23) => Refused(6),
        (Escape, 0x24) => More(Dollar),
        (Escape, 0x25) => More(Percent),
        (Escape, 0x28 | 0x29 | 0x2D) => More(Designating),
        (Dollar, 0x28 | 0x29) => More(Designating),
        (Designating, 0x21..=0x23) => More(Intermediate),
        (Intermediate, 0x20..=0x2F) => More(Intermediate),
        (Designating | Intermediate, 0x40..=0x7E) => designated(seen),
        (Percent, 0x2F) => More(Slash),
        (Slash, 0x30..=0x34) => More(High { d: octet }),
        (High { d }, 0x80..) => More(Low { d, high: octet }),
        (Low { d, high }, 0x80..) => Body {
            d,
            n: usize::from(high - 0x80) * 128 + usize::from(octet - 0x80),
        },
        (High { .. } | Low { .. }, _) => Refused(7),
        (Csi, 0x31) => More(Parameter(Direction::LeftToRight)),
        (Csi, 0x32) => More(Parameter(Direction::RightToLeft)),
        (Csi, 0x5D) => Done(Piece::Revert),
        (Parameter(direction), 0x5D) => Done(Piece::Begin(direction)),
        (Second { side, set, first }, _) => second(side, set, first, octet),
        _ => Refused(4),
    }
}

/// A designating sequence that has its final. Those with intermediates are in
/// no table either.
fn designated(seen: &[u8]) -> Step {
    match sets::spelled(seen) {
        Some(d) => Done(Piece::Designation(d.side, d.set)),
        None => Refused(5),
    }
}

/// The second octet of a character must stand on the side of the first.
fn second(side: Side, set: u8, first: u8, octet: u8) -> Step {
    let low = match side {
        Side::Gl => octet,
        Side::Gr => octet.wrapping_sub(0x80),
    };
    if !sets::values(set).contains(&low) {
        return Refused(3);
    }
    let code = u16::from_be_bytes([first, low]);
    Done(Piece::Character { side, set, code })
}

/// The text of an extended segment: what stands behind the first 02 of its n
/// octets. There is none unless these are a good name, 02 and a text of a
/// length that d allows.
pub fn segment_text(d: u8, body: &[u8]) -> Option<&[u8]> {
    let name_length = body.iter().position(|&octet| octet == 0x02)?;
    let (name, text) = (&body[..name_length], &body[name_length + 1..]);
    let good_name = !name.is_empty() && name.iter().all(is_name_octet);
    (good_name && text.len() % octets_of_one(d) == 0).then_some(text)
}

/// The octets of one character in the text of a segment.
pub fn octets_of_one(d: u8) -> usize {
    match d {
        0x32 => 2,
        0x33 => 3,
        0x34 => 4,
        _ => 1,
    }
}

pub fn is_name_octet(octet: &u8) -> bool {
    matches!(octet, 0x21..=0x7E | 0xA1..=0xFF) && !matches!(octet, 0x2A | 0x3F)
}

/// The element that starts at `start`, or the number of its refusal. Where in the
/// element that is, `places` looks for.
pub fn element(s: &[u8], start: usize, sets: Sets) -> Result<Element, u8> {
    let mut step = first(s[start], sets);
    let mut end = start + 1;
    loop {
        match step {
            Done(piece) => return Ok(Element { start, end, piece }),
            Refused(number) => return Err(number),
            Body { d, n } => return segment(s, start, end, d, n),
            More(inside) => {
                let octet = *s.get(end).ok_or(2)?;
                end += 1;
                step = next(inside, octet, &s[start..end]);
            }
        }
    }
}

/// The extended segment whose n octets start at `body`.
fn segment(s: &[u8], start: usize, body: usize, d: u8, n: usize) -> Result<Element, u8> {
    let end = body + n;
    let octets = s.get(body..end).ok_or(2)?;
    let text = segment_text(d, octets).ok_or(7)?;
    let piece = Piece::Segment {
        d,
        start: body,
        length: n,
        has_text: !text.is_empty(),
    };
    Ok(Element { start, end, piece })
}
