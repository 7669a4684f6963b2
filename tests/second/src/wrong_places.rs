//! Wrong rules of the octet at which a string is refused, to test the comparison
//! itself: each moves the place that request No. 4 names.

use crate::shape;
use crate::unit::Answer;

#[derive(Clone, Copy, PartialEq, Debug)]
pub enum WrongPlace {
    /// The element's start, as before the request; a cut one apart.
    Start,
    /// A cut element is refused at its start.
    CutAtStart,
    /// A cut element is refused at its last octet.
    CutAtLast,
    /// A cut segment is refused where its n octets would end.
    CutAtItsEnd,
    /// A bad second octet is refused at the first.
    FirstOfPair,
    /// A designation with intermediates is refused at the first of them.
    Intermediate,
    /// A version sequence is refused at its 1B.
    VersionAtEscape,
    /// A low L is refused at M.
    MForL,
    /// Of a low M and a low L, the second is taken.
    LForM,
    /// A segment of no octets is refused behind its L.
    BehindL,
    /// A segment with a bad name is refused at its last octet.
    SegmentEnd,
    /// A bad name octet is missed where there is no 02.
    NameWithout02,
    /// An empty name is missed where the text's length is wrong.
    LengthFirst,
    /// What is refused at the last of the n octets is refused behind it.
    BehindSegment,
    /// A text of a wrong length is refused at the 02 before it.
    AtSeparator,
}

use WrongPlace::*;

impl WrongPlace {
    pub const ALL: [WrongPlace; 15] = [
        Start,
        CutAtStart,
        CutAtLast,
        CutAtItsEnd,
        FirstOfPair,
        Intermediate,
        VersionAtEscape,
        MForL,
        LForM,
        BehindL,
        SegmentEnd,
        NameWithout02,
        LengthFirst,
        BehindSegment,
        AtSeparator,
    ];

    /// The answer with its place moved; `start` is that of the offending element.
    pub fn answer(self, s: &[u8], start: usize, right: Answer) -> Answer {
        match right.number {
            2..=7 => {
                let place = self.place(&s[start..], right.number, right.place - start);
                Answer::refusal(right.number, start + place)
            }
            _ => right,
        }
    }

    /// The wrong place in the element, for a right one.
    fn place(self, element: &[u8], number: u8, right: usize) -> usize {
        match (self, number) {
            (Start, 3..) | (CutAtStart, 2) | (FirstOfPair, 3) | (VersionAtEscape, 6) => 0,
            (CutAtLast, 2) => right - 1,
            (CutAtItsEnd, 2) if element.starts_with(b"\x1B%/") && right >= 6 => 6 + length(element),
            (Intermediate, 4 | 5) => first_intermediate(element).map_or(right, |i| i.min(right)),
            (MForL, 7) if right == 5 && element[5] < 0x80 => 4,
            (LForM, 7) if right == 4 && element.get(5).is_some_and(|&l| l < 0x80) => 5,
            (_, 7) if right > 4 && element[5] >= 0x80 => self.place_in_body(element, right),
            _ => right,
        }
    }

    fn place_in_body(self, element: &[u8], right: usize) -> usize {
        let n = length(element);
        let (body, last) = (&element[6..6 + n], 5 + n);
        let separator = body.iter().position(|&octet| octet == 0x02);
        let uneven = |text: usize| !text.is_multiple_of(shape::octets_of_one(element[3]));
        match (self, separator) {
            (BehindL, _) if n == 0 => 6,
            (SegmentEnd, _) | (NameWithout02, None) => last,
            (LengthFirst, Some(0)) if uneven(n - 1) => last,
            (BehindSegment, _) if right == last => last + 1,
            (AtSeparator, Some(place)) if right == last => 6 + place,
            _ => right,
        }
    }
}

/// The n of a segment whose M and L are good.
fn length(element: &[u8]) -> usize {
    usize::from(element[4] - 0x80) * 128 + usize::from(element[5] - 0x80)
}

fn first_intermediate(element: &[u8]) -> Option<usize> {
    let place = if element[1] == 0x24 { 3 } else { 2 };
    let octet = element.get(place)?;
    matches!(octet, 0x21..=0x23).then_some(place)
}
