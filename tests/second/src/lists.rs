//! Lists of units to compare: random ones, damaged ones, and those at the limit.

use crate::random::Random;
use crate::reader::Marks;
use crate::sets;
use crate::shape;
use crate::strings::{any_body, random_body, random_value};
use crate::unit::*;
use crate::writer;

/// A list of units with the octets in which its extended segments stand.
pub struct List {
    pub units: Vec<Unit>,
    pub segments: Vec<u8>,
}

/// A random list: few sets and many changes between them, in most cases with a
/// writing.
pub fn random_list(random: &mut Random) -> List {
    let length = match random.below(12) {
        0 => random.between(40, 200),
        1..=3 => random.between(9, 40),
        _ => random.between(0, 8),
    };
    let mut list = good_list(random, length);
    if random.percent(25) {
        for _ in 0..random.between(1, 2) {
            damage(random, &mut list);
        }
    }
    if random.percent(50) {
        for unit in &mut list.units {
            fill_unused(random, unit);
        }
    }
    direct(random, &mut list);
    list
}

fn good_list(random: &mut Random, length: usize) -> List {
    let mut maker = Maker::new(random);
    if maker.directed && random.percent(60) {
        maker.begin(random);
        if random.percent(70) {
            maker.revert();
        }
    }
    for _ in 0..length {
        maker.unit(random);
    }
    maker.list
}

struct Maker {
    list: List,
    /// The sets of the characters.
    palette: Vec<u8>,
    with_marks: bool,
    with_segments: bool,
    deep: bool,
    /// Whether it is mostly segments and marks, and the direction rule often
    /// left aside.
    directed: bool,
    depth: usize,
}

impl Maker {
    fn new(random: &mut Random) -> Maker {
        let palette = (0..random.between(1, 4))
            .map(|_| random_set(random))
            .collect();
        let deep = random.percent(4);
        let directed = !deep && random.percent(20);
        Maker {
            list: List {
                units: Vec::new(),
                segments: Vec::new(),
            },
            palette,
            with_marks: deep || directed || random.percent(25),
            with_segments: directed || random.percent(25),
            deep,
            directed,
            depth: 0,
        }
    }

    fn unit(&mut self, random: &mut Random) {
        match random.below(100) {
            _ if self.directed && random.percent(40) => self.segment(random),
            _ if self.directed && random.percent(10) => self.segment_again(random),
            _ if self.directed && random.percent(50) => self.mark(random),
            0..=9 if self.with_segments => self.segment(random),
            10..=24 if self.with_marks => self.mark(random),
            25..=84 if self.deep => self.begin(random),
            25..=34 => self.push(random.pick(&[TAB, NEWLINE])),
            35..=49 => self.text(random, SPACE),
            _ => self.text(random, CHARACTER),
        }
    }

    fn push(&mut self, kind: u8) {
        self.list.units.push(Unit {
            kind,
            ..Unit::default()
        });
    }

    /// In a list with marks every character and space has one open, and so has
    /// nearly every segment with a text.
    fn text(&mut self, random: &mut Random, kind: u8) {
        if self.with_marks && self.depth == 0 {
            self.begin(random);
        }
        self.push(kind);
        if kind == CHARACTER {
            let set = random.pick(&self.palette);
            let unit = self.list.units.last_mut().expect("the unit just pushed");
            unit.set = set;
            unit.code = random_code(random, set);
        }
    }

    fn begin(&mut self, random: &mut Random) {
        if self.depth < DEPTH || random.percent(20) {
            self.push(random.pick(&[LEFT_TO_RIGHT, RIGHT_TO_LEFT]));
            self.depth += 1;
        }
    }

    fn mark(&mut self, random: &mut Random) {
        if self.depth > 0 && random.percent(60) {
            self.revert();
        } else {
            self.begin(random);
        }
    }

    fn revert(&mut self) {
        self.push(REVERT);
        self.depth -= 1;
    }

    /// A segment with a text has a direction open too, but often not where the
    /// rule is left aside.
    fn segment(&mut self, random: &mut Random) {
        let (d, body) = if self.directed {
            any_body(random)
        } else {
            random_body(random)
        };
        let has_text = shape::segment_text(d, &body).is_some_and(|text| !text.is_empty());
        let aside = self.directed && random.percent(70);
        if has_text && self.with_marks && self.depth == 0 && !aside {
            self.begin(random);
        }
        let start = self.list.segments.len();
        self.list.units.push(Unit {
            kind: SEGMENT,
            code: u16::from(d),
            start: start as u32,
            length: body.len() as u32,
            ..Unit::default()
        });
        self.list.segments.extend(body);
    }

    /// The octets of the last segment with another d and another end: so one
    /// name stands with a text and without.
    fn segment_again(&mut self, random: &mut Random) {
        let last = self.list.units.iter().rfind(|unit| unit.kind == SEGMENT);
        let Some(&(mut unit)) = last else {
            return;
        };
        let body = part(&unit, &self.list.segments).unwrap_or_default();
        let name = body.iter().position(|&octet| octet == 0x02).unwrap_or(0) as u32;
        unit.code = random.between(0x30, 0x34) as u16;
        unit.length = name + random.below(4) as u32;
        self.list.units.push(unit);
    }
}

/// Sets that may stand on both sides, and those of GL, are the ones that make
/// the writer choose.
fn random_set(random: &mut Random) -> u8 {
    match random.below(10) {
        0..=4 => random.between(12, 14) as u8,
        5..=6 => random.pick(&[0, 2]),
        _ => random.below(15) as u8,
    }
}

fn random_code(random: &mut Random, set: u8) -> u16 {
    let low = random_value(random, set);
    let high = if sets::width(set) == 2 {
        random_value(random, set)
    } else {
        0
    };
    u16::from_be_bytes([high, low])
}

/// Spoils a unit, or puts in one that is bad or misplaced.
fn damage(random: &mut Random, list: &mut List) {
    if random.percent(30) {
        return insert_misplaced(random, list);
    }
    if list.units.is_empty() {
        return;
    }
    let place = random.below(list.units.len());
    let unit = &mut list.units[place];
    match random.below(6) {
        0 => unit.kind = random.octet(),
        1 => unit.kind = random.between(6, 9) as u8,
        2 => unit.set = random_bad_set(random),
        3 => unit.code = random_bad_code(random, unit.code),
        _ => spoil_part(random, unit, list.segments.len()),
    }
}

fn random_bad_set(random: &mut Random) -> u8 {
    match random.below(3) {
        0 => 15,
        1 => random.octet(),
        _ => random.below(15) as u8,
    }
}

/// Codes around the ends of each range, and codes with the top bits left on.
fn random_bad_code(random: &mut Random, code: u16) -> u16 {
    let edges = [
        0x00, 0x20, 0x21, 0x7E, 0x7F, 0x80, 0xA0, 0xA1, 0xFE, 0xFF, 0x2F, 0x30, 0x34, 0x35,
    ];
    match random.below(4) {
        0 => code ^ random.pick(&[0x80, 0x8000, 0x8080, 0x100]),
        1 => random.pick(&edges),
        2 => random.pick(&edges) << 8 | random.pick(&edges),
        _ => random.number() as u16,
    }
}

/// Starts and lengths at the ends of the octets and of the machine's numbers.
fn spoil_part(random: &mut Random, unit: &mut Unit, octets: usize) {
    let octets = octets as u32;
    let edges = [
        0,
        1,
        octets,
        octets + 1,
        octets.wrapping_sub(1),
        16_383,
        16_384,
        1 << 31,
        u32::MAX,
        u32::MAX - 1,
        u32::MAX - octets,
        (1 << 31) + octets,
    ];
    unit.kind = SEGMENT;
    if !(0x30..=0x34).contains(&unit.code) {
        unit.code = random.between(0x2F, 0x35) as u16;
    }
    match random.below(3) {
        0 => unit.start = random.pick(&edges),
        1 => unit.length = random.pick(&edges),
        _ => (unit.start, unit.length) = (random.pick(&edges), random.pick(&edges)),
    }
}

/// A mark or text where it may be wrong, or a part out of the middle of the
/// segments' octets.
fn insert_misplaced(random: &mut Random, list: &mut List) {
    let octets = list.segments.len();
    let start = random.below(octets + 2);
    let kinds = [SPACE, LEFT_TO_RIGHT, RIGHT_TO_LEFT, REVERT, SEGMENT];
    let unit = Unit {
        kind: random.pick(&kinds),
        code: random.between(0x30, 0x34) as u16,
        start: start as u32,
        length: random.below(octets.saturating_sub(start) + 2) as u32,
        ..Unit::default()
    };
    let place = random.below(list.units.len() + 1);
    list.units.insert(place, unit);
}

/// Puts anything into the fields that the kind does not use.
fn fill_unused(random: &mut Random, unit: &mut Unit) {
    if unit.kind != CHARACTER {
        unit.set = random.octet();
    }
    if unit.kind != CHARACTER && unit.kind != SEGMENT {
        unit.code = random.number() as u16;
    }
    if unit.kind != SEGMENT {
        unit.start = random.number();
        unit.length = random.number();
    }
}

/// Puts values into the direction and depth of each unit, which the writer does
/// not look at: none, those of a reading, the largest, small ones, or any.
fn direct(random: &mut Random, list: &mut List) {
    let values = random.below(5);
    let mut marks = Marks::default();
    for unit in &mut list.units {
        *unit = unit.with_directed(match values {
            0 => (0, 0),
            1 => directed(unit, &list.segments, &mut marks),
            2 => (u16::MAX, u16::MAX),
            3 => (random.below(4) as u16, random.below(DEPTH + 2) as u16),
            _ => (random.number() as u16, random.number() as u16),
        });
    }
}

/// What a reading has there; a unit that is refused leaves the directions.
fn directed(unit: &Unit, segments: &[u8], marks: &mut Marks) -> Directed {
    // The list may be one that is refused.
    let _ = writer::admit_unit(unit, segments, marks);
    marks.directed()
}

/// Lists of about 65,535 units, and lists whose writing has about 65,535 octets.
pub fn limit_lists(random: &mut Random) -> Vec<List> {
    let mut all = plain_limit_lists(random);
    for list in &mut all {
        direct(random, list);
    }
    all
}

fn plain_limit_lists(random: &mut Random) -> Vec<List> {
    let mut all = Vec::new();
    for length in [LIMIT - 1, LIMIT, LIMIT + 1] {
        all.push(same_units(TAB, length));
        all.push(same_units(9, length));
    }
    for length in [LIMIT - 1, LIMIT, LIMIT + 1] {
        all.push(plain_list_with_writing(random, length));
        all.push(segments_with_writing(length));
    }
    for length in [16_382, 16_383, 16_384, 16_385] {
        all.push(long_segment(length, 10));
    }
    for text in [0, 1] {
        let mut list = long_segment(16_383, 16_382 - text);
        let mark = |kind| same_units(kind, 1).units[0];
        list.units.splice(0..0, [mark(LEFT_TO_RIGHT), mark(REVERT)]);
        all.push(list);
    }
    all
}

fn same_units(kind: u8, length: usize) -> List {
    let unit = Unit {
        kind,
        ..Unit::default()
    };
    List {
        units: vec![unit; length],
        segments: Vec::new(),
    }
}

/// A random list with tabs at its end, whose shortest writing has this length.
pub fn list_with_writing(random: &mut Random, length: usize) -> List {
    let mut list = plain_list_with_writing(random, length);
    direct(random, &mut list);
    list
}

fn plain_list_with_writing(random: &mut Random, length: usize) -> List {
    let mut list = good_list(random, length / 10);
    while writer::list_refusal(&list.units, &list.segments).is_some()
        || writer::least_length(&list.units) > length
    {
        list = good_list(random, length / 10);
    }
    pad(&mut list, length);
    list
}

/// Adds tabs until the shortest writing has this length.
fn pad(list: &mut List, length: usize) {
    let tabs = length - writer::least_length(&list.units);
    list.units.extend(same_units(TAB, tabs).units);
}

/// Longest segments, all with the same octets, and tabs.
fn segments_with_writing(length: usize) -> List {
    let mut list = long_segment(16_383, 10);
    let unit = list.units[0];
    list.units.extend([unit, unit]);
    pad(&mut list, length);
    list
}

/// A good segment but for its length, with a name of so many octets.
fn long_segment(length: usize, name: usize) -> List {
    let mut segments = vec![0x41; length];
    segments[name] = 0x02;
    let unit = Unit {
        kind: SEGMENT,
        code: 0x30,
        length: length as u32,
        ..Unit::default()
    };
    List {
        units: vec![unit],
        segments,
    }
}

#[cfg(test)]
mod tests {
    use std::collections::HashMap;

    use super::*;

    #[test]
    fn random_lists_meet_every_answer() {
        let mut random = Random::new(1);
        let mut met = [0; 12];
        for _ in 0..20_000 {
            let list = random_list(&mut random);
            let refusal = writer::list_refusal(&list.units, &list.segments);
            met[refusal.map_or(0, |answer| usize::from(answer.number))] += 1;
        }
        assert!(met[0] > 10_000, "{met:?}");
        let numbers = [7, 8, 9, 11];
        assert!(numbers.iter().all(|&n| met[n] > 50), "{met:?}");
    }

    /// Where the unit of an index stands, by the direction rule.
    fn phase(units: &[Unit]) -> &'static str {
        let many = |kinds: &[u8]| units.iter().filter(|u| kinds.contains(&u.kind)).count();
        let begun = many(&[LEFT_TO_RIGHT, RIGHT_TO_LEFT]);
        match begun.checked_sub(many(&[REVERT])) {
            _ if begun == 0 => "no mark read",
            Some(0) => "all reverted",
            _ => "open",
        }
    }

    fn kind(unit: &Unit, segments: &[u8]) -> &'static str {
        let body = part(unit, segments).unwrap_or_default();
        match shape::segment_text(unit.code as u8, body) {
            None => "bad",
            Some([]) => "no text",
            Some([0x02, ..]) => "02 in front of the text",
            Some(_) => "text",
        }
    }

    #[test]
    fn segments_of_every_kind_are_met_in_every_phase() {
        let mut random = Random::new(1);
        let mut times = HashMap::new();
        for _ in 0..20_000 {
            let List { units, segments } = random_list(&mut random);
            let refusal = writer::list_refusal(&units, &segments);
            let judged = refusal.map_or(units.len(), |refusal| refusal.place + 1);
            for (index, unit) in units[..judged].iter().enumerate() {
                if unit.kind == SEGMENT {
                    let met = (phase(&units[..index]), kind(unit, &segments), unit.code);
                    *times.entry(met).or_insert(0) += 1;
                }
            }
        }
        for phase in ["no mark read", "open", "all reverted"] {
            for d in 0x30..=0x34 {
                let kinds = ["no text", "text", "02 in front of the text", "bad"];
                let least = kinds.map(|kind| *times.get(&(phase, kind, d)).unwrap_or(&0));
                assert!(least.iter().all(|&times| times > 5), "{phase}, d {d:X}");
            }
        }
    }

    /// The values of a reading, those that no reading has there, and none, in
    /// lists that are written and in such as are refused.
    #[test]
    fn directions_of_every_make_are_met() {
        let mut random = Random::new(1);
        let mut times = HashMap::new();
        for _ in 0..20_000 {
            let List { units, segments } = random_list(&mut random);
            if !units.iter().any(Unit::is_mark) {
                continue;
            }
            let refused = writer::list_refusal(&units, &segments).is_some();
            let mut marks = Marks::default();
            let right = |unit: &Unit| directed(unit, &segments, &mut marks) == unit.directed();
            let make = match units[0].directed() {
                _ if units.iter().all(right) => "of a reading",
                (0, 0) => "none",
                (u16::MAX, u16::MAX) => "the largest",
                (0..4, 0..18) => "small",
                _ => "any",
            };
            *times.entry((make, refused)).or_insert(0) += 1;
        }
        assert_eq!(times.len(), 10);
        assert!(times.values().all(|&times| times > 300), "{times:?}");
    }

    #[test]
    fn lists_at_the_limit_are_what_they_say() {
        let mut random = Random::new(1);
        let answers: Vec<u8> = limit_lists(&mut random)
            .iter()
            .map(
                |list| match writer::list_refusal(&list.units, &list.segments) {
                    Some(refusal) => refusal.number,
                    None if writer::least_length(&list.units) > LIMIT => 100,
                    None => 0,
                },
            )
            .collect();
        let tabs_and_kind_9 = [0, 11, 0, 11, 1, 1];
        let writings = [0, 0, 0, 0, 100, 100];
        let segments = [0, 0, 7, 7];
        let reverted_with_segment = [0, 8];
        assert_eq!(answers[..6], tabs_and_kind_9);
        assert_eq!(answers[6..12], writings);
        assert_eq!(answers[12..16], segments);
        assert_eq!(answers[16..], reverted_with_segment);
    }
}
