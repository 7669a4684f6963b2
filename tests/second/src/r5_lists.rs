//! Lists for the X11R5 writer: every offending unit at every place, short lists of all
//! sets, random ones that are mostly written, and those at the limits.

use crate::lists::{self, List};
use crate::r5_writer;
use crate::random::Random;
use crate::sets;
use crate::unit::*;

/// Up to so many good units stand around an offending one.
const FEW: usize = 5;

/// The octets of segments: a good one, and then no 02; all are more than M and L can
/// count.
const GOOD: &[u8] = b"a\x02bb";
const OCTETS: usize = 20_000;

fn octets_of_segments() -> Vec<u8> {
    let mut octets = GOOD.to_vec();
    octets.resize(OCTETS, b'a');
    octets
}

fn plain(kind: u8) -> Unit {
    Unit {
        kind,
        ..Unit::default()
    }
}

fn character(set: u8, code: u16) -> Unit {
    Unit {
        set,
        code,
        ..plain(CHARACTER)
    }
}

fn segment(d: u16, start: u32, length: u32) -> Unit {
    Unit {
        code: d,
        start,
        length,
        ..plain(SEGMENT)
    }
}

/// Bad units: kinds, sets and codes, and segments with another d or a part that does
/// not lie in the octets.
fn bad_units() -> Vec<Unit> {
    let all = OCTETS as u32;
    let mut units: Vec<Unit> = [8, 9, 255].map(plain).to_vec();
    let characters = [
        (0, 0x20),
        (0, 0x7F),
        (0, 0xC1),
        (1, 0x20),
        (2, 0x121),
        (3, 0x1F),
        (11, 0x80),
        (12, 0x21),
        (13, 0xB0A1),
        (13, 0x3020),
        (14, 0x7F21),
        (15, 0x41),
        (255, 0x3021),
    ];
    units.extend(characters.map(|(set, code)| character(set, code)));
    units.extend([0x00, 0x2F, 0x35, 0xB1, 0x131].map(|d| segment(d, 0, 4)));
    let parts = [
        (all + 1, 0),
        (all, 1),
        (0, all + 1),
        (1, all),
        (u32::MAX, 0),
        (u32::MAX, 1),
        (1, u32::MAX),
        (1 << 31, 1 << 31),
    ];
    units.extend(parts.map(|(start, length)| segment(0x31, start, length)));
    units.push(segment(0x35, all, 1));
    units
}

/// Units that the X11R5 form has not: marks, which the base refuses by 8 or 9 in some
/// places, and segments, good ones and such as the base refuses by 7.
fn foreign_units() -> Vec<Unit> {
    let all = OCTETS as u32;
    let mut units = [LEFT_TO_RIGHT, RIGHT_TO_LEFT, REVERT].map(plain).to_vec();
    units.extend((0x30..=0x34).map(|d| segment(d, 0, 4)));
    let parts = [
        (0, 2),
        (0, 3),
        (0, 0),
        (all, 0),
        (1, 3),
        (4, 9),
        (0, 16_383),
        (0, 16_384),
        (0, all),
    ];
    units.extend(parts.map(|(start, length)| segment(0x32, start, length)));
    units
}

/// Shows lists with each offending unit at each place, and with a bad unit and a
/// foreign one at any two places.
pub fn refused_lists(mut take: impl FnMut(&[Unit], &[u8])) {
    let (bad, foreign) = (bad_units(), foreign_units());
    let segments = octets_of_segments();
    let mut show = |units: Vec<Unit>| take(&units, &segments);
    for unit in bad.iter().chain(&foreign) {
        for length in 0..=FEW {
            (0..=length).for_each(|place| show(with(length, &[(place, *unit)])));
        }
    }
    let pairs = bad.iter().flat_map(|a| foreign.iter().map(|b| (*a, *b)));
    for (a, b) in pairs {
        for (first, last) in (1..=FEW + 1).flat_map(|last| (0..last).map(move |f| (f, last))) {
            show(with(FEW, &[(first, a), (last, b)]));
            show(with(FEW, &[(first, b), (last, a)]));
        }
    }
}

/// So many good units, and others put in at their places.
fn with(length: usize, others: &[(usize, Unit)]) -> Vec<Unit> {
    let good: [Unit; FEW] = [
        character(13, 0x3021),
        plain(SPACE),
        character(0, 0x41),
        plain(TAB),
        character(4, 0x69),
    ];
    let mut units = good[..length].to_vec();
    for &(place, unit) in others {
        units.insert(place, unit);
    }
    units
}

/// Shows every list of up to three units over all sets, a space, a tab and a newline,
/// and every one of up to five over those that change the sets most.
pub fn short_lists(mut take: impl FnMut(&[Unit])) {
    let of = |set: u8| match sets::width(set) {
        1 => character(set, 0x5C),
        _ => character(set, 0x307E),
    };
    let controls = [SPACE, TAB, NEWLINE].map(plain);
    let every: Vec<Unit> = (0..=14).map(of).chain(controls).collect();
    let mut few: Vec<Unit> = [0, 2, 3, 12, 13].map(of).to_vec();
    few.extend([plain(SPACE), plain(TAB)]);
    for (units, most) in [(every, 3), (few, 5)] {
        for length in 0..=most {
            all_lists(&units, length, &mut take);
        }
    }
}

fn all_lists(palette: &[Unit], length: u32, take: &mut impl FnMut(&[Unit])) {
    for number in 0..palette.len().pow(length) {
        let place = |turn| number / palette.len().pow(turn) % palette.len();
        let units: Vec<Unit> = (0..length).map(|turn| palette[place(turn)]).collect();
        take(&units);
    }
}

/// A random list, mostly without the units that the form has not.
pub fn random_list(random: &mut Random) -> List {
    let mut list = lists::random_list(random);
    if random.percent(90) {
        let foreign = |unit: &Unit| unit.is_mark() || unit.kind == SEGMENT;
        list.units.retain(|unit| !foreign(unit));
    }
    list
}

/// Lists whose strings have about 65,535 octets before their 00, and lists of about
/// 65,535 units, some with an offending one at their end.
pub fn limit_lists(random: &mut Random) -> Vec<List> {
    let mut all = Vec::new();
    for octets in LIMIT - 1..=LIMIT + 2 {
        all.extend(beginnings(random).map(|units| padded(units, octets)));
    }
    for length in [LIMIT - 1, LIMIT, LIMIT + 1] {
        for last in [plain(TAB), plain(REVERT), segment(0x31, 0, 0), plain(9)] {
            let mut units = vec![plain(TAB); length];
            units[length - 1] = last;
            all.push(without_segments(units));
        }
    }
    // The base writer needs 19,666 octets for these.
    let pair = [character(13, 0x3021), character(0, 0x41)];
    all.push(without_segments(pair.repeat(6_554)));
    all
}

/// Beginnings of long lists: characters of two octets, sets that take turns on either
/// side, and random units.
fn beginnings(random: &mut Random) -> [Vec<Unit>; 4] {
    let (x, a) = (character(14, 0x3021), character(2, 0x41));
    let (kana, latin) = (character(1, 0x31), character(11, 0x20));
    [
        vec![x; 32_000],
        [x, plain(SPACE), a].repeat(4_500),
        [kana, latin, kana].repeat(5_000),
        random_good(random, 50_000),
    ]
}

/// Random units whose string has about so many octets.
fn random_good(random: &mut Random, octets: usize) -> Vec<Unit> {
    let (mut units, mut length) = (Vec::new(), 0);
    while length < octets {
        let mut more = lists::random_list(random).units;
        more.retain(|unit| r5_writer::offence(unit, &[]).is_none());
        length += r5_writer::string(&more).len();
        units.extend(more);
    }
    units
}

/// The units, and tabs until their string has so many octets before its 00.
fn padded(mut units: Vec<Unit>, octets: usize) -> List {
    let tabs = (octets + 1).saturating_sub(r5_writer::string(&units).len());
    units.resize(units.len() + tabs, plain(TAB));
    without_segments(units)
}

fn without_segments(units: Vec<Unit>) -> List {
    let segments = Vec::new();
    List { units, segments }
}

/// A random list whose string has about 65,535 octets.
pub fn random_limit_list(random: &mut Random) -> List {
    let octets = random.between(LIMIT - 1, LIMIT + 2);
    let units = random_good(random, 50_000);
    padded(units, octets)
}

#[cfg(test)]
mod tests {
    use super::*;

    fn refusal(list: &List) -> Option<Answer> {
        r5_writer::list_refusal(&list.units, &list.segments)
    }

    /// Each of them is refused for what it is, at the first offending unit.
    #[test]
    fn refused_lists_are_what_they_say() {
        let numbers = |units: Vec<Unit>| -> Vec<Option<u8>> {
            let segments = octets_of_segments();
            let offence = |unit| r5_writer::offence(unit, &segments);
            units.iter().map(offence).collect()
        };
        assert!(numbers(bad_units()).iter().all(|n| *n == Some(11)));
        assert!(numbers(foreign_units()).iter().all(|n| *n == Some(15)));
        let mut met = [[0; FEW + 1]; 16];
        refused_lists(|units, segments| {
            let refusal = r5_writer::list_refusal(units, segments).expect("a refusal");
            met[usize::from(refusal.number)][refusal.place] += 1;
        });
        let met = [met[11], met[15]];
        assert!(met.iter().flatten().all(|&times| times > 100), "{met:?}");
    }

    #[test]
    fn short_lists_are_written() {
        let mut count = 0;
        short_lists(|units| {
            count += 1;
            assert_eq!(r5_writer::list_refusal(units, &[]), None);
        });
        let every = 1 + 18 + 18 * 18 + 18 * 18 * 18;
        assert_eq!(
            count,
            every + (0..=5).map(|n| 7_usize.pow(n)).sum::<usize>()
        );
    }

    #[test]
    fn random_lists_are_written_and_refused() {
        let mut random = Random::new(1);
        let mut met = [0; 16];
        for _ in 0..20_000 {
            let refusal = refusal(&random_list(&mut random));
            met[refusal.map_or(0, |answer| usize::from(answer.number))] += 1;
        }
        assert!(met[0] > 12_000 && met[11] > 400 && met[15] > 400, "{met:?}");
    }

    #[test]
    fn lists_at_the_limit_are_what_they_say() {
        let mut random = Random::new(1);
        let answers: Vec<(u8, usize)> = limit_lists(&mut random)
            .iter()
            .map(|list| match refusal(list) {
                Some(refusal) => (refusal.number, refusal.place),
                None => (0, r5_writer::string(&list.units).len() - 1),
            })
            .collect();
        for (octets, answers) in (LIMIT - 1..).zip(answers[..16].chunks(4)) {
            assert_eq!(answers, [(0, octets); 4]);
        }
        for (length, answers) in (LIMIT - 1..).zip(answers[16..24].chunks(4)) {
            let last = length - 1;
            assert_eq!(answers, [(0, length), (15, last), (15, last), (11, last)]);
        }
        assert_eq!(answers[24..28], [(1, 0); 4]);
        assert_eq!(answers[28], (0, 65_540));
        assert_eq!(answers.len(), 29);
    }
}
