//! Strings to compare: all of a kind, random ones, and those at the limit.

use crate::odd;
use crate::random::Random;
use crate::reader;
use crate::sets::{self, Sets, Side, DESIGNATIONS};
use crate::shape;
use crate::unit::{DEPTH, LIMIT};

/// Octets that some rule tells from their neighbours.
pub const TELLING: [u8; 34] = [
    0x00, 0x02, 0x09, 0x0A, 0x1B, 0x20, 0x21, 0x23, 0x24, 0x25, 0x28, 0x29, 0x2D, 0x2F, 0x30, 0x31,
    0x32, 0x35, 0x41, 0x42, 0x43, 0x49, 0x4A, 0x5D, 0x7E, 0x7F, 0x80, 0x84, 0x9B, 0xA0, 0xA1, 0xB0,
    0xFE, 0xFF,
];

/// Fewer of them, for longer strings.
pub const FEW: [u8; 12] = [
    0x02, 0x09, 0x1B, 0x20, 0x24, 0x28, 0x30, 0x31, 0x42, 0x5D, 0x9B, 0xB0,
];

/// Every octet.
pub fn every_octet() -> Vec<u8> {
    (0..=255).collect()
}

/// Before octets at which a sequence or a segment may be refused, alone and
/// behind other elements.
const REFUSED: [&[u8]; 7] = [
    b"\x1B(!",
    b"\x1B$)#/",
    b"A\x9B2",
    b"\x1B%/2\x80",
    b"\x1B%/2\x80\x82",
    b"A\x1B%/3\x80\x83",
    b"\x1B-B\x1B%/2\x80\x83a",
];

/// Beginnings after which octets mean something else.
pub fn prefixes() -> Vec<Vec<u8>> {
    let mut all: Vec<Vec<u8>> = DESIGNATIONS.iter().map(|d| d.octets.to_vec()).collect();
    let marks: [&[u8]; 2] = [&[0x9B, 0x32, 0x5D], &[0x9B, 0x31, 0x5D, 0x9B, 0x5D]];
    let segments: [&[u8]; 3] = [
        &[0x1B, 0x25, 0x2F, 0x31, 0x80, 0x82],
        &[0x1B, 0x25, 0x2F, 0x32, 0x80, 0x83],
        &[0x1B, 0x25, 0x2F, 0x31, 0x80, 0x84],
    ];
    // One octet before the end of a segment without text and of one with a
    // text, so that a mark fits behind it; inside a name where a direction is
    // open, and where all are reverted.
    let directed: [&[u8]; 5] = [
        b"\x1B%/1\x80\x82a",
        b"\x1B%/1\x80\x83a\x02",
        b"\x9B1]\x1B%/1\x80\x83a",
        b"\x9B1]\x9B]\x1B%/1\x80\x83a",
        b"\x9B1]\x9B]\x1B%/2\x80\x84a",
    ];
    let sequences: [&[u8]; 6] = [
        &[0x1B, 0x28],
        &[0x1B, 0x2D],
        &[0x1B, 0x24],
        &[0x1B, 0x24, 0x29],
        &[0x1B, 0x25, 0x2F],
        &[0x1B, 0x25, 0x2F, 0x31],
    ];
    let others = marks.iter().chain(&segments).chain(&directed);
    let others = others.chain(&sequences).chain(&REFUSED);
    all.extend(others.map(|prefix| prefix.to_vec()));
    all
}

/// Shows every string over the alphabet of this length, after the prefix.
pub fn all_strings(
    prefix: &[u8],
    alphabet: &[u8],
    length: usize,
    mut show: impl FnMut(&[u8]) -> bool,
) {
    let mut s = prefix.to_vec();
    s.resize(prefix.len() + length, alphabet[0]);
    let mut places = vec![0; length];
    loop {
        if !show(&s) {
            return;
        }
        let Some(turn) = places.iter().rposition(|&p| p + 1 < alphabet.len()) else {
            return;
        };
        places[turn] += 1;
        places[turn + 1..].fill(0);
        for (octet, &place) in s[prefix.len()..].iter_mut().zip(&places) {
            *octet = alphabet[place];
        }
    }
}

/// A random string: pieces of the grammar, in some cases a refused one in front
/// or at the end, then damage in most cases.
pub fn random_string(random: &mut Random) -> Vec<u8> {
    let pieces = match random.below(10) {
        0 => random.between(30, 120),
        1..=3 => random.between(8, 30),
        _ => random.between(0, 8),
    };
    let mut s = Builder::new(random).build(random, pieces);
    if random.percent(6) {
        s.splice(0..0, odd::piece(random, Sets::FRESH));
    }
    let changes = random.pick(&[0, 0, 0, 1, 1, 1, 2, 3]);
    for _ in 0..changes {
        damage(random, &mut s, &TELLING);
    }
    s
}

/// One octet changed, inserted or dropped, or the end cut off.
pub fn damage(random: &mut Random, s: &mut Vec<u8>, telling: &[u8]) {
    let place = random.below(s.len() + 1);
    let octet = if random.percent(50) {
        random.pick(telling)
    } else {
        random.octet()
    };
    if place == s.len() {
        s.push(octet);
        return;
    }
    match random.below(4) {
        0 => s[place] = octet,
        1 => s.insert(place, octet),
        2 => {
            s.remove(place);
        }
        _ => s.truncate(place),
    }
}

/// Builds strings that are mostly accepted.
struct Builder {
    s: Vec<u8>,
    sets: Sets,
    depth: usize,
    marked: bool,
    texted: bool,
    /// Whether marks are wanted, and whether many of them.
    with_marks: bool,
    deep: bool,
    /// Whether it is mostly segments and marks, and the rule often left aside.
    directed: bool,
}

impl Builder {
    fn new(random: &mut Random) -> Builder {
        let deep = random.percent(5);
        let directed = !deep && random.percent(25);
        Builder {
            s: Vec::new(),
            sets: Sets::FRESH,
            depth: 0,
            marked: false,
            texted: false,
            with_marks: deep || directed || random.percent(40),
            deep,
            directed,
        }
    }

    fn build(mut self, random: &mut Random, pieces: usize) -> Vec<u8> {
        if self.directed && random.percent(60) {
            self.begin(random);
            if random.percent(70) {
                self.revert(random);
            }
        }
        for _ in 0..pieces {
            self.piece(random);
        }
        if random.percent(20) {
            self.s.extend(odd::piece(random, self.sets));
        }
        self.s
    }

    fn piece(&mut self, random: &mut Random) {
        if self.deep && random.percent(60) {
            return self.begin(random);
        }
        match random.below(if self.directed { 400 } else { 100 }) {
            0..=44 => self.text(random),
            45..=64 => self.designation(random),
            65..=72 => self.s.push(random.pick(&[0x09, 0x0A])),
            73..=80 => self.begin(random),
            81..=87 => self.revert(random),
            88..=95 => self.segment(random),
            96 => self.s.extend(odd::piece(random, self.sets)),
            97..=99 => self.text(random),
            100..=224 => self.segment(random),
            225..=299 => self.begin(random),
            _ => self.revert(random),
        }
    }

    /// Whether to go on: now and then the direction rule is left aside.
    fn goes_on(&self, random: &mut Random, rule_holds: bool) -> bool {
        rule_holds || random.percent(if self.deep { 15 } else { 2 })
    }

    /// Whether text may stand here by the direction rule: where marks are
    /// wanted, it waits for one.
    fn takes_text(&self) -> bool {
        !self.marked && !self.with_marks || self.depth > 0
    }

    fn text(&mut self, random: &mut Random) {
        let may = self.takes_text();
        if !self.goes_on(random, may) {
            return self.begin(random);
        }
        self.texted = true;
        if random.percent(20) && sets::width(self.sets.gl) == 1 {
            return self.s.push(0x20);
        }
        let (side, top) = random.pick(&[(Side::Gl, 0x00), (Side::Gr, 0x80)]);
        let set = self.sets.on(side);
        for _ in 0..sets::width(set) {
            let octet = random_value(random, set);
            self.s.push(octet | top);
        }
    }

    /// A segment whose text may not stand here loses it, or waits as a
    /// character does. A bad one is refused wherever it stands.
    fn segment(&mut self, random: &mut Random) {
        let (d, mut body) = if self.directed {
            any_body(random)
        } else {
            random_body(random)
        };
        let text = shape::segment_text(d, &body).map_or(0, <[u8]>::len);
        let may = text == 0 || self.takes_text() || self.directed && random.percent(50);
        if self.goes_on(random, may) {
            self.texted |= text > 0;
        } else if random.percent(50) {
            body.truncate(body.len() - text);
        } else {
            return self.begin(random);
        }
        self.s.extend(segment(d, &body));
    }

    fn designation(&mut self, random: &mut Random) {
        let d = random.pick(&DESIGNATIONS);
        self.s.extend_from_slice(d.octets);
        self.sets = self.sets.with(d.side, d.set);
    }

    fn begin(&mut self, random: &mut Random) {
        let first = self.marked || !self.texted || self.directed;
        let may = first && self.depth < DEPTH && self.with_marks;
        if self.goes_on(random, may) {
            self.s.extend([0x9B, random.pick(&[0x31, 0x32]), 0x5D]);
            self.marked = true;
            self.depth += 1;
        }
    }

    fn revert(&mut self, random: &mut Random) {
        let may = self.depth > 0;
        if self.goes_on(random, may) {
            self.s.extend([0x9B, 0x5D]);
            self.marked = true;
            self.depth = self.depth.saturating_sub(1);
        }
    }
}

/// An octet of a character, less its top bit; the first and last are frequent.
pub fn random_value(random: &mut Random, set: u8) -> u8 {
    let values = sets::values(set);
    match random.below(8) {
        0 => *values.start(),
        1 => *values.end(),
        _ => random.between(usize::from(*values.start()), usize::from(*values.end())) as u8,
    }
}

/// The d and the octets of an extended segment, mostly good ones.
pub fn random_body(random: &mut Random) -> (u8, Vec<u8>) {
    let d = random.between(0x30, 0x34) as u8;
    let name_length = random.between(1, 4);
    let mut body: Vec<u8> = (0..name_length)
        .map(|_| random_name_octet(random))
        .collect();
    body.push(0x02);
    let octets_of_one = octets_of_one(d);
    let mut text_length = match random.below(100) {
        0..=39 => 0,
        40 => octets_of_one * random.below(300),
        _ => octets_of_one * random.between(1, 4),
    };
    if random.percent(5) {
        text_length += 1;
    }
    // More 02 than the one that ends the name.
    let separators = if random.percent(15) { 60 } else { 0 };
    for _ in 0..text_length {
        let telling = random.pick(&TELLING);
        body.push(match random.below(100) {
            other if other < separators => 0x02,
            other if other % 2 == 0 => telling,
            _ => random.octet(),
        });
    }
    if random.percent(5) {
        let place = random.below(body.len());
        body[place] = random.octet();
    }
    (d, body)
}

/// The same with more bad ones, and with texts that are one character of 02.
pub fn any_body(random: &mut Random) -> (u8, Vec<u8>) {
    let (d, mut body) = random_body(random);
    match random.below(20) {
        0 => body.insert(0, 0x02),
        1 => body[0] = random.pick(&[0x20, 0x2A, 0x3F, 0x7F, 0x80, 0xA0]),
        2 => body.retain(|&octet| octet != 0x02),
        3 => body.push(0x41),
        4 => {
            let text = shape::segment_text(d, &body).map_or(0, <[u8]>::len);
            body.truncate(body.len() - text);
            body.extend(vec![0x02; octets_of_one(d)]);
        }
        _ => {}
    }
    (d, body)
}

/// The octets of a character in the text of a segment.
fn octets_of_one(d: u8) -> usize {
    [1, 1, 2, 3, 4][usize::from(d - 0x30)]
}

pub fn random_name_octet(random: &mut Random) -> u8 {
    loop {
        let octet = random.octet();
        let good = (0x21..=0x7E).contains(&octet) || octet >= 0xA1;
        if good && octet != 0x2A && octet != 0x3F {
            return octet;
        }
    }
}

pub fn segment(d: u8, body: &[u8]) -> Vec<u8> {
    let mut s = segment_head(d, body.len());
    s.extend_from_slice(body);
    s
}

/// The six octets before the n.
pub fn segment_head(d: u8, n: usize) -> Vec<u8> {
    let (high, low) = (n / 128, n % 128);
    vec![0x1B, 0x25, 0x2F, d, 0x80 + high as u8, 0x80 + low as u8]
}

/// What is wrong with a longest segment that has no 02 but those given: no 02 at
/// all, two bad octets in its name, no name, and a text of one octet.
const FAULTS: [&[(usize, u8)]; 4] = [
    &[],
    &[(10_000, 0x3F), (16_000, 0x7F)],
    &[(0, 0x02), (1, 0x2A)],
    &[(16_381, 0x02), (16_382, 0x00)],
];

/// Strings of about 65,535 octets.
pub fn limit_strings(random: &mut Random) -> Vec<Vec<u8>> {
    let mut all = Vec::new();
    for length in [LIMIT - 1, LIMIT, LIMIT + 1, LIMIT + 2] {
        all.push(vec![0x20; length]);
        all.push([&[0x00][..], &vec![0x41; length - 1]].concat());
        all.push([&vec![0x41; length - 1][..], &[0x00]].concat());
        all.push(repeated(&[0x1B, 0x24, 0x28, 0x42], &[0x30, 0x21], length));
        all.push(repeated(&[], &[0x41, 0xE9, 0x09], length));
        all.push(repeated(&[], &[0x1B, 0x28, 0x42], length));
        all.push(ending_in_segment(length, 0));
        all.push(ending_in_segment(length, 1));
        all.push(reverted_with_segment(length, 0));
        all.push(reverted_with_segment(length, 1));
        all.extend(FAULTS.map(|octets| ending_in_bad_segment(length, octets)));
        all.push(random_limit_string(random, length));
    }
    all
}

/// The octets again and again, cut at the length.
pub fn repeated(prefix: &[u8], octets: &[u8], length: usize) -> Vec<u8> {
    let endless = prefix.iter().chain(octets.iter().cycle());
    endless.take(length).copied().collect()
}

/// Tabs, three longest segments and a shorter one that lacks `missing` octets at
/// the string's end.
fn ending_in_segment(length: usize, missing: usize) -> Vec<u8> {
    let mut body = vec![0x41; 16_383];
    body[100] = 0x02;
    let longest = segment(0x31, &body);
    let last = segment(0x30, &body[..1_000]);
    let tabs = length + missing - 3 * longest.len() - last.len();
    let mut s = vec![0x09; tabs];
    for part in [&longest, &longest, &longest, &last] {
        s.extend_from_slice(part);
    }
    s.truncate(length);
    s
}

/// A direction begun and reverted, tabs, and a longest segment that is a name
/// and a text of so many octets.
fn reverted_with_segment(length: usize, text: usize) -> Vec<u8> {
    let mut body = vec![0x41; 16_383];
    body[16_382 - text] = 0x02;
    let last = segment(0x31, &body);
    let mut s = vec![0x9B, 0x31, 0x5D, 0x9B, 0x5D];
    s.resize(length - last.len(), 0x09);
    s.extend(last);
    s
}

/// Tabs and a longest segment, two octets a character, without 02 and with these
/// octets in place of good ones.
fn ending_in_bad_segment(length: usize, octets: &[(usize, u8)]) -> Vec<u8> {
    let mut body = vec![0x41; 16_383];
    for &(place, octet) in octets {
        body[place] = octet;
    }
    let last = segment(0x32, &body);
    let mut s = vec![0x09; length - last.len()];
    s.extend(last);
    s
}

/// A random accepted string with tabs at its end, of exactly this length.
pub fn random_limit_string(random: &mut Random, length: usize) -> Vec<u8> {
    let fresh_sets = [0x1B, 0x28, 0x42, 0x1B, 0x2D, 0x41];
    let mut s = Vec::new();
    while s.len() < length / 2 {
        let longer = [&s[..], &fresh_sets, &random_string(random)].concat();
        if reader::check(&longer).is_accepted() {
            s = longer;
        }
    }
    s.resize(length, 0x09);
    s
}

#[cfg(test)]
mod tests {
    use std::collections::HashMap;

    use super::*;
    use crate::reader::State;
    use crate::shape::Piece;
    use crate::unit::{Answer, CHARACTER, LEFT_TO_RIGHT, SEGMENT, SPACE};

    #[test]
    fn all_strings_are_all() {
        let mut seen = Vec::new();
        all_strings(&[7], &[1, 2, 3], 2, |s| {
            seen.push(s.to_vec());
            true
        });
        assert_eq!(seen.len(), 9);
        assert_eq!(seen[0], [7, 1, 1]);
        assert_eq!(seen[5], [7, 2, 3]);
        assert_eq!(seen[8], [7, 3, 3]);
        let mut count = 0;
        all_strings(&[], &every_octet(), 0, |_| {
            count += 1;
            true
        });
        assert_eq!(count, 1);
    }

    #[test]
    fn random_strings_meet_every_answer() {
        let mut random = Random::new(1);
        let mut met = [0; 10];
        for _ in 0..20_000 {
            let answer = reader::check(&random_string(&mut random));
            met[usize::from(answer.number)] += 1;
        }
        assert!(met[0] > 6_000, "{met:?}");
        assert!(met[2..].iter().all(|&times| times > 20), "{met:?}");
    }

    /// Where a segment stands, by the direction rule.
    fn phase(state: &State) -> &'static str {
        match (state.marks.marked, state.marks.open.len()) {
            (false, _) => "no mark read",
            (true, 0) => "all reverted",
            _ => "open",
        }
    }

    /// The phase, kind and d of the element at a reader's place, if that is a
    /// segment, good or bad.
    fn segment_at(s: &[u8], state: &State) -> Option<(&'static str, &'static str, u8)> {
        let kind = match shape::element(s, state.place, state.sets).map(|e| e.piece) {
            Err(7) => "bad",
            Ok(Piece::Segment {
                d, start, length, ..
            }) => match shape::segment_text(d, &s[start..start + length])? {
                [] => "no text",
                [0x02] => "02 alone",
                text if text.contains(&0x02) => "02 in the text",
                _ => "text",
            },
            _ => return None,
        };
        Some((phase(state), kind, s[state.place + 3]))
    }

    /// All segments of a string, that at which it is refused too.
    fn segments_met(s: &[u8]) -> Vec<(&'static str, &'static str, u8)> {
        let mut states = vec![State::fresh()];
        reader::read_on(s, State::fresh(), |_, after| states.push(after.clone()));
        let starts = states.iter().filter(|state| state.place < s.len());
        starts.filter_map(|state| segment_at(s, state)).collect()
    }

    #[test]
    fn segments_of_every_kind_are_met_in_every_phase() {
        let mut random = Random::new(1);
        let mut times = HashMap::new();
        for _ in 0..20_000 {
            for met in segments_met(&random_string(&mut random)) {
                *times.entry(met).or_insert(0) += 1;
            }
        }
        for phase in ["no mark read", "open", "all reverted"] {
            for d in 0x30..=0x34 {
                let many = |kind| *times.get(&(phase, kind, d)).unwrap_or(&0);
                let least = ["no text", "text", "02 in the text", "bad"].map(many);
                assert!(least.iter().all(|&times| times > 10), "{phase}, d {d:X}");
                assert!(d > 0x31 || many("02 alone") > 5, "{phase}, d {d:X}");
            }
        }
    }

    /// A mark is refused for the text of a segment alone, and let be by one
    /// without text.
    #[test]
    fn segments_are_met_before_the_first_mark() {
        let mut random = Random::new(1);
        let (mut refused, mut let_be) = (0, 0);
        for _ in 0..20_000 {
            let s = random_string(&mut random);
            let (units, answer) = reader::units_from(&s, State::fresh());
            let kinds: Vec<u8> = units.iter().map(|unit| unit.kind).collect();
            let before: Vec<u8> = kinds
                .iter()
                .copied()
                .take_while(|&k| k < LEFT_TO_RIGHT || k == SEGMENT)
                .collect();
            if !before.contains(&SEGMENT) || before.contains(&CHARACTER) || before.contains(&SPACE)
            {
                continue;
            }
            let begins =
                answer.number == 8 && s[answer.place] == 0x9B && s[answer.place + 1] != 0x5D;
            refused += usize::from(before.len() == kinds.len() && begins);
            let_be += usize::from(before.len() < kinds.len());
        }
        assert!(
            refused > 100 && let_be > 100,
            "{refused} refused, {let_be} let be"
        );
    }

    #[test]
    fn strings_at_the_limit_are_what_they_say() {
        let mut random = Random::new(1);
        let answers: Vec<(usize, Answer)> = limit_strings(&mut random)
            .iter()
            .map(|s| (s.len(), reader::check(s)))
            .collect();
        let of = |length| -> Vec<Answer> {
            let here = answers.iter().filter(|answer| answer.0 == length);
            here.map(|answer| answer.1).collect()
        };
        let numbers = |length| -> Vec<u8> { of(length).iter().map(|a| a.number).collect() };
        let places = |length| -> Vec<usize> { of(length).iter().map(|a| a.place).collect() };
        let short = [0, 3, 3, 0, 0, 2, 0, 2, 0, 8, 7, 7, 7, 7, 0];
        assert_eq!(numbers(LIMIT - 1), short);
        let whole = [0, 3, 3, 2, 0, 0, 0, 2, 0, 8, 7, 7, 7, 7, 0];
        assert_eq!(numbers(LIMIT), whole);
        let (last, body) = (LIMIT - 1, LIMIT - 16_383);
        assert_eq!(places(LIMIT)[1..4], [0, last, LIMIT]);
        assert_eq!(places(LIMIT)[7..10], [LIMIT, LIMIT, body - 6]);
        assert_eq!(places(LIMIT)[10..14], [last, body + 10_000, body, last]);
        assert_eq!(of(LIMIT + 1), [Answer::refusal(1, 0); 15]);
        assert_eq!(of(LIMIT + 2), [Answer::refusal(1, 0); 15]);
    }
}
