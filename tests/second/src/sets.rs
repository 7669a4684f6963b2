//! The fifteen sets and the eighteen designations, written out from the
//! paper's table.

use std::ops::RangeInclusive;

#[derive(Clone, Copy, PartialEq, Eq, Debug)]
pub enum Side {
    Gl,
    Gr,
}

/// A designation: all of its octets, and the set that it puts on a side.
#[derive(Clone, Copy, PartialEq, Eq, Debug)]
pub struct Designation {
    pub octets: &'static [u8],
    pub side: Side,
    pub set: u8,
}

const fn gl(octets: &'static [u8], set: u8) -> Designation {
    Designation {
        octets,
        side: Side::Gl,
        set,
    }
}

const fn gr(octets: &'static [u8], set: u8) -> Designation {
    Designation {
        octets,
        side: Side::Gr,
        set,
    }
}

/// Every designation there is. Those of GL come first and lower sets come
/// first: this is also the writer's order of preference.
pub const DESIGNATIONS: [Designation; 18] = [
    gl(&[0x1B, 0x28, 0x42], 0),
    gl(&[0x1B, 0x28, 0x4A], 2),
    gl(&[0x1B, 0x24, 0x28, 0x41], 12),
    gl(&[0x1B, 0x24, 0x28, 0x42], 13),
    gl(&[0x1B, 0x24, 0x28, 0x43], 14),
    gr(&[0x1B, 0x29, 0x49], 1),
    gr(&[0x1B, 0x2D, 0x41], 3),
    gr(&[0x1B, 0x2D, 0x42], 4),
    gr(&[0x1B, 0x2D, 0x43], 5),
    gr(&[0x1B, 0x2D, 0x44], 6),
    gr(&[0x1B, 0x2D, 0x46], 7),
    gr(&[0x1B, 0x2D, 0x47], 8),
    gr(&[0x1B, 0x2D, 0x48], 9),
    gr(&[0x1B, 0x2D, 0x4C], 10),
    gr(&[0x1B, 0x2D, 0x4D], 11),
    gr(&[0x1B, 0x24, 0x29, 0x41], 12),
    gr(&[0x1B, 0x24, 0x29, 0x42], 13),
    gr(&[0x1B, 0x24, 0x29, 0x43], 14),
];

/// The number that stands for no set.
pub const NO_SET: u8 = 15;

/// A row of the paper's table, in the numbers of the header: the form (1 for 94,
/// 2 for 96, 3 for 94 by 94), the final octet, whether the set may stand in GL and
/// in GR, and the octets of a character. All 0 for no set.
#[derive(Clone, Copy, PartialEq, Eq, Debug, Default)]
pub struct Row {
    pub form: u8,
    pub last: u8,
    pub gl: u8,
    pub gr: u8,
    pub octets: u8,
}

/// What stands before the final octet of a designation of each form, to GL (0)
/// and to GR (1).
const LEADS: [(u8, u8, &[u8]); 5] = [
    (1, 0, &[0x1B, 0x28]),
    (1, 1, &[0x1B, 0x29]),
    (2, 1, &[0x1B, 0x2D]),
    (3, 0, &[0x1B, 0x24, 0x28]),
    (3, 1, &[0x1B, 0x24, 0x29]),
];

/// What designations begin with, up to their final octets.
pub fn leads() -> impl Iterator<Item = &'static [u8]> {
    LEADS.iter().map(|lead| lead.2)
}

/// The octets of a designation by its form, side and final octet, where there is
/// such a form for the side.
fn spelling(form: u8, side: u8, last: u8) -> Option<Vec<u8>> {
    let lead = LEADS.iter().find(|lead| (lead.0, lead.1) == (form, side));
    lead.map(|(_, _, before)| [before, &[last][..]].concat())
}

/// The set that a designation names by its form, side and final octet.
pub fn set_of(form: u8, side: u8, last: u8) -> u8 {
    let octets = spelling(form, side, last);
    let found = octets.and_then(|octets| spelled(&octets));
    found.map_or(NO_SET, |designation| designation.set)
}

/// The row of a set, read off its designations.
pub fn row(set: u8) -> Row {
    let mut row = Row::default();
    for designation in DESIGNATIONS.iter().filter(|d| d.set == set) {
        let octets = designation.octets;
        let lead = LEADS.iter().find(|lead| octets.starts_with(lead.2));
        row.form = lead.expect("a designation has a form").0;
        row.last = octets[octets.len() - 1];
        row.octets = width(set) as u8;
        match designation.side {
            Side::Gl => row.gl = 1,
            Side::Gr => row.gr = 1,
        }
    }
    row
}

/// The designation spelled by exactly these octets.
pub fn spelled(octets: &[u8]) -> Option<&'static Designation> {
    DESIGNATIONS.iter().find(|d| d.octets == octets)
}

/// Whether a set may stand on a side: some designation puts it there.
pub fn may_stand(set: u8, side: Side) -> bool {
    DESIGNATIONS.iter().any(|d| d.set == set && d.side == side)
}

/// The number of octets of a character of the set.
pub fn width(set: u8) -> usize {
    if set >= 12 {
        2
    } else {
        1
    }
}

/// The values, less the top bit, of each octet of a character of the set.
pub fn values(set: u8) -> RangeInclusive<u8> {
    match set {
        3..=11 => 0x20..=0x7F,
        _ => 0x21..=0x7E,
    }
}

/// Whether the set exists and uses the code.
pub fn uses(set: u8, code: u16) -> bool {
    let [high, low] = code.to_be_bytes();
    let values = values(set);
    match set {
        0..=11 => high == 0 && values.contains(&low),
        12..=14 => values.contains(&high) && values.contains(&low),
        _ => false,
    }
}

/// The sets in force.
#[derive(Clone, Copy, PartialEq, Eq, Debug)]
pub struct Sets {
    pub gl: u8,
    pub gr: u8,
}

impl Sets {
    pub const FRESH: Sets = Sets { gl: 0, gr: 3 };

    pub fn on(self, side: Side) -> u8 {
        match side {
            Side::Gl => self.gl,
            Side::Gr => self.gr,
        }
    }

    pub fn with(self, side: Side, set: u8) -> Sets {
        match side {
            Side::Gl => Sets { gl: set, ..self },
            Side::Gr => Sets { gr: set, ..self },
        }
    }

    /// Whether each set may stand where it stands.
    pub fn are_good(self) -> bool {
        may_stand(self.gl, Side::Gl) && may_stand(self.gr, Side::Gr)
    }
}

#[cfg(test)]
mod tests {
    use super::*;

    /// The paper's table: set, octets (1 for 94, 2 for 96, 3 for 94 by 94),
    /// final, GL, GR.
    const TABLE: [(u8, u8, u8, bool, bool); 15] = [
        (0, 1, 0x42, true, false),
        (1, 1, 0x49, false, true),
        (2, 1, 0x4A, true, false),
        (3, 2, 0x41, false, true),
        (4, 2, 0x42, false, true),
        (5, 2, 0x43, false, true),
        (6, 2, 0x44, false, true),
        (7, 2, 0x46, false, true),
        (8, 2, 0x47, false, true),
        (9, 2, 0x48, false, true),
        (10, 2, 0x4C, false, true),
        (11, 2, 0x4D, false, true),
        (12, 3, 0x41, true, true),
        (13, 3, 0x42, true, true),
        (14, 3, 0x43, true, true),
    ];

    #[test]
    fn designations_are_those_of_the_table() {
        let mut count = 0;
        for (set, shape, last, in_gl, in_gr) in TABLE {
            for (side, number, allowed) in [(Side::Gl, 0, in_gl), (Side::Gr, 1, in_gr)] {
                assert_eq!(may_stand(set, side), allowed, "set {set}");
                if allowed {
                    let octets = spelling(shape, number, last).expect("a form of the side");
                    let found = spelled(&octets).expect("a designation of the table");
                    assert_eq!((found.side, found.set), (side, set));
                    assert_eq!(set_of(shape, number, last), set);
                    count += 1;
                }
            }
        }
        assert_eq!(count, DESIGNATIONS.len());
    }

    #[test]
    fn rows_are_those_of_the_table() {
        for (set, form, last, in_gl, in_gr) in TABLE {
            let expected = Row {
                form,
                last,
                gl: in_gl.into(),
                gr: in_gr.into(),
                octets: if form == 3 { 2 } else { 1 },
            };
            assert_eq!(row(set), expected, "set {set}");
        }
        assert!((NO_SET..=255).all(|set| row(set) == Row::default()));
    }

    #[test]
    fn other_forms_sides_and_octets_name_no_set() {
        assert_eq!(set_of(1, 1, 0x42), NO_SET);
        assert_eq!(set_of(2, 0, 0x41), NO_SET);
        assert_eq!(set_of(2, 1, 0x45), NO_SET);
        assert_eq!(set_of(3, 0, 0xC1), NO_SET);
        for number in (0..=255).filter(|number| ![1, 2, 3].contains(number)) {
            assert_eq!(set_of(number, 0, 0x42), NO_SET);
        }
        assert!((2..=255).all(|side| set_of(3, side, 0x42) == NO_SET));
    }

    #[test]
    fn codes_of_each_set() {
        for (set, shape, ..) in TABLE {
            for code in 0..=0xFFFF_u16 {
                let (high, low) = (code >> 8, code & 0xFF);
                let expected = match shape {
                    1 => (0x21..=0x7E).contains(&code),
                    2 => (0x20..=0x7F).contains(&code),
                    _ => (0x21..=0x7E).contains(&high) && (0x21..=0x7E).contains(&low),
                };
                assert_eq!(uses(set, code), expected, "set {set} code {code:X}");
            }
            assert_eq!(width(set), if shape == 3 { 2 } else { 1 });
        }
        assert!(!uses(15, 0x41) && !uses(255, 0x3021));
    }
}
