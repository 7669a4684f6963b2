//! Answers, units and directions, as the paper names them.

/// An answer: number, place, count.
#[derive(Clone, Copy, PartialEq, Eq, Debug)]
pub struct Answer {
    pub number: u8,
    pub place: usize,
    pub count: usize,
}

impl Answer {
    pub fn accepted(place: usize, count: usize) -> Answer {
        Answer {
            number: 0,
            place,
            count,
        }
    }

    pub fn refusal(number: u8, place: usize) -> Answer {
        Answer {
            number,
            place,
            count: 0,
        }
    }

    /// Refusal 10 with the count needed.
    pub fn too_short(needed: usize) -> Answer {
        Answer {
            number: 10,
            place: 0,
            count: needed,
        }
    }

    pub fn is_accepted(&self) -> bool {
        self.number == 0
    }
}

/// The most octets of a string and the most units of a list.
pub const LIMIT: usize = 65_535;

/// The most directions open at once.
pub const DEPTH: usize = 16;

pub const CHARACTER: u8 = 0;
pub const SPACE: u8 = 1;
pub const TAB: u8 = 2;
pub const NEWLINE: u8 = 3;
pub const LEFT_TO_RIGHT: u8 = 4;
pub const RIGHT_TO_LEFT: u8 = 5;
pub const REVERT: u8 = 6;
pub const SEGMENT: u8 = 7;

#[derive(Clone, Copy, PartialEq, Eq, Debug, Default)]
pub struct Unit {
    pub kind: u8,
    pub set: u8,
    pub code: u16,
    pub start: u32,
    pub length: u32,
    /// The number of the direction in force after the unit.
    pub direction: u16,
    /// The directions that are then open.
    pub depth: u16,
}

/// The number of the direction in force, and how many are open.
pub type Directed = (u16, u16);

impl Unit {
    pub fn directed(&self) -> Directed {
        (self.direction, self.depth)
    }

    pub fn with_directed(self, (direction, depth): Directed) -> Unit {
        Unit {
            direction,
            depth,
            ..self
        }
    }

    pub fn is_mark(&self) -> bool {
        matches!(self.kind, LEFT_TO_RIGHT | RIGHT_TO_LEFT | REVERT)
    }
}

/// What request No. 6 promises of units after so many open directions: each depth
/// differs from that before by at most 1, only a mark changes it, and a direction
/// is in force where one is open, and there alone.
pub fn depths_follow(mut before: u16, units: &[Unit]) -> bool {
    units.iter().all(|unit| {
        let far = unit.depth.abs_diff(before);
        before = unit.depth;
        far <= u16::from(unit.is_mark()) && (unit.direction == 0) == (unit.depth == 0)
    })
}

#[derive(Clone, Copy, PartialEq, Eq, Debug)]
pub enum Direction {
    LeftToRight,
    RightToLeft,
}

/// The number of a direction in force, 0 for none.
pub fn direction_number(direction: Option<Direction>) -> u8 {
    match direction {
        None => 0,
        Some(Direction::LeftToRight) => 1,
        Some(Direction::RightToLeft) => 2,
    }
}

/// What a unit means to a reading: unused fields are left out, direction and depth
/// too, and an extended segment is its d and its octets.
#[derive(Clone, Copy, PartialEq, Eq, Debug)]
pub enum Meaning<'a> {
    Character { set: u8, code: u16 },
    Segment { d: u16, octets: &'a [u8] },
    Other { kind: u8 },
}

/// The meaning of a unit whose segments stand in `octets`; none where the part
/// of a segment does not lie wholly in them.
pub fn meaning<'a>(unit: &Unit, octets: &'a [u8]) -> Option<Meaning<'a>> {
    Some(match unit.kind {
        CHARACTER => Meaning::Character {
            set: unit.set,
            code: unit.code,
        },
        SEGMENT => Meaning::Segment {
            d: unit.code,
            octets: part(unit, octets)?,
        },
        kind => Meaning::Other { kind },
    })
}

/// The octets that a unit's start and length name, if they lie in `octets`.
pub fn part<'a>(unit: &Unit, octets: &'a [u8]) -> Option<&'a [u8]> {
    let start = unit.start as usize;
    let end = start.checked_add(unit.length as usize)?;
    octets.get(start..end)
}
