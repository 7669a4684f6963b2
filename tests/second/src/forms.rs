//! Strings for both ways of the resource form: random ones, and those at the
//! limits.

use crate::random::Random;
use crate::resource::{self, FORM_LIMIT};
use crate::strings::{damage, repeated};
use crate::unit::LIMIT;

/// The octets that some rule of the form names, and one other.
pub const TELLING: [u8; 7] = [b'\\', b'n', b'0', b'1', 0x0A, 0x00, b'A'];

/// What no form has, at its end or before most of what may follow.
const FAULTS: [&[u8]; 6] = [b"\\", b"\\0", b"\\00", b"\n", b"\0", b"\\012"];

/// A form is cut inside the escapes of so many octets at its end.
const CUT_OCTETS: usize = 12;

/// Random octets, their form, this form damaged, and cut inside its escapes.
pub fn random_strings(random: &mut Random) -> Vec<Vec<u8>> {
    let plain = random_plain(random);
    let form = resource::form(&plain);
    let mut damaged = form.clone();
    for _ in 0..random.between(1, 3) {
        damage(random, &mut damaged, &TELLING);
    }
    let mut all = cut_forms(&plain);
    all.extend([plain, form, damaged]);
    all
}

fn random_plain(random: &mut Random) -> Vec<u8> {
    let length = match random.below(40) {
        0 => random.between(200, 4_000),
        1..=9 => random.between(13, 200),
        _ => random.between(0, 12),
    };
    weighted_octets(random, length)
}

/// Octets of which few, or many, or most are telling ones.
fn weighted_octets(random: &mut Random, length: usize) -> Vec<u8> {
    let telling = random.pick(&[5, 30, 60, 95]);
    let mut octet = || {
        if random.percent(telling) {
            random.pick(&TELLING)
        } else {
            random.octet()
        }
    };
    (0..length).map(|_| octet()).collect()
}

/// The form of the octets, cut at every place inside the last escapes.
fn cut_forms(plain: &[u8]) -> Vec<Vec<u8>> {
    let (before, last) = plain.split_at(plain.len().saturating_sub(CUT_OCTETS));
    let mut form = resource::form(before);
    let mut all = Vec::new();
    for &octet in last {
        let escape = resource::form(&[octet]);
        all.extend((1..escape.len()).map(|cut| [&form, &escape[..cut]].concat()));
        form.extend(escape);
    }
    all
}

/// Strings of about 65,535 octets, forms of these, and forms of about 262,140
/// octets, without a fault and with one at either end.
pub fn limit_strings(random: &mut Random) -> Vec<Vec<u8>> {
    let mut all = Vec::new();
    for length in [LIMIT, LIMIT + 1] {
        for plain in limit_plains(random, length) {
            let form = resource::form(&plain);
            all.extend(FAULTS.map(|fault| [fault, &form].concat()));
            all.extend(FAULTS.map(|fault| [&form, fault].concat()));
            all.extend([plain, form]);
        }
    }
    for length in [FORM_LIMIT, FORM_LIMIT + 1] {
        all.extend(limit_forms(length));
    }
    all
}

/// Octets of one make and mixed ones, and two with which a form within its
/// limit stands for 65,536 octets, most of them 00.
fn limit_plains(random: &mut Random, length: usize) -> Vec<Vec<u8>> {
    let pieces: [&[u8]; 6] = [b"\\", b"\n", b"\0", b"A", b"\xFF", b"\\\n\0A"];
    let mut all: Vec<Vec<u8>> = pieces
        .iter()
        .map(|piece| repeated(&[], piece, length))
        .collect();
    all.push([&vec![0; length - 2][..], b"AA"].concat());
    all.push(repeated(b"A\n", b"\0", length));
    all.push(weighted_octets(random, length));
    all
}

/// Forms of exactly this length.
fn limit_forms(length: usize) -> Vec<Vec<u8>> {
    let mut all = Vec::new();
    for piece in [&b"A"[..], br"\\", br"\n", br"\000", b"\n", b"\0"] {
        all.push(repeated(&[], piece, length));
        all.extend(FAULTS.map(|fault| repeated(fault, piece, length)));
        let before = |fault: &[u8]| repeated(&[], piece, length - fault.len());
        all.extend(FAULTS.map(|fault| [&before(fault), fault].concat()));
    }
    all
}

/// One of about 65,535 octets at random, or its form, mostly damaged.
pub fn random_limit_string(random: &mut Random) -> Vec<u8> {
    let length = random.between(LIMIT - 1, LIMIT + 1);
    let plain = weighted_octets(random, length);
    if random.percent(30) {
        return plain;
    }
    let mut form = resource::form(&plain);
    for _ in 0..random.below(3) {
        damage(random, &mut form, &TELLING);
    }
    form
}

#[cfg(test)]
mod tests {
    use super::*;
    use crate::resource::Way;
    use crate::unit::Answer;

    /// The number of times for each number of an answer.
    fn met(strings: &[Vec<u8>], way: Way) -> [usize; 14] {
        let mut met = [0; 14];
        for s in strings {
            let refusal = way.make(s).err();
            met[refusal.map_or(0, |answer| usize::from(answer.number))] += 1;
        }
        met
    }

    #[test]
    fn random_strings_are_accepted_and_refused() {
        let mut random = Random::new(1);
        let all: Vec<Vec<u8>> = (0..5_000)
            .flat_map(|_| random_strings(&mut random))
            .collect();
        let met = met(&all, Way::Read);
        assert!(met[0] > 5_000 && met[13] > 10_000, "{met:?}");
        assert!(all.iter().any(|s| s.len() > 3_000));
    }

    #[test]
    fn forms_are_cut_inside_escapes() {
        let cut = cut_forms(b"\\A\0");
        assert_eq!(cut.len(), 4);
        assert_eq!(cut[0], b"\\");
        assert_eq!(cut[1], b"\\\\A\\");
        assert_eq!(cut[3], b"\\\\A\\00");
        assert_eq!(cut_forms(&[0; 100]).len(), 3 * CUT_OCTETS);
    }

    #[test]
    fn strings_at_the_limits_are_what_they_say() {
        let all = limit_strings(&mut Random::new(1));
        // The plain ones of 65,535 octets, and two that are their own forms.
        assert_eq!(met(&all, Way::Write)[0], 9 + 2);
        let within: Vec<Vec<u8>> = all.into_iter().filter(|s| s.len() <= FORM_LIMIT).collect();
        let met = met(&within, Way::Read);
        assert!(met[0] >= 9 && met[1] >= 10 && met[13] >= 100, "{met:?}");
        let read = |s: &[u8]| Way::Read.make(s);
        let zeros = [&br"\000".repeat(LIMIT - 1)[..], b"AA"].concat();
        assert_eq!(zeros.len(), FORM_LIMIT - 2);
        assert!(within.contains(&zeros));
        assert_eq!(read(&zeros), Err(Answer::refusal(1, 0)));
        let faulty = [&zeros[..], b"\n"].concat();
        assert!(within.contains(&faulty));
        assert_eq!(read(&faulty), Err(Answer::refusal(13, FORM_LIMIT - 2)));
    }
}
