//! Makes an input on which two implementations differ as small as dropping
//! parts of it can.

use std::time::{Duration, Instant};

/// An input is shrunk for so long at most; only long ones need more.
const PATIENCE: Duration = Duration::from_secs(3);

/// Stretches of up to so many are dropped at every place: a mark, a designation
/// or a two-octet character goes as a whole or not at all.
const SHORT: usize = 8;

/// Drops stretches of the input, long ones first, while it still differs.
pub fn shrink<T: Clone>(mut input: Vec<T>, differs: impl Fn(&[T]) -> bool) -> Vec<T> {
    let started = Instant::now();
    let goes_on = || started.elapsed() < PATIENCE;
    let mut stretch = input.len().div_ceil(2);
    while stretch > SHORT {
        drop_stretches(&mut input, stretch, stretch, &differs, &goes_on);
        stretch /= 2;
    }
    // A drop can make possible what failed before it.
    let mut before = usize::MAX;
    while input.len() < before {
        before = input.len();
        for stretch in (1..=SHORT).rev() {
            drop_stretches(&mut input, stretch, 1, &differs, &goes_on);
        }
    }
    input
}

/// Tries to drop stretches of this length, `step` apart.
fn drop_stretches<T: Clone>(
    input: &mut Vec<T>,
    stretch: usize,
    step: usize,
    differs: &impl Fn(&[T]) -> bool,
    goes_on: &impl Fn() -> bool,
) {
    let mut start = 0;
    while start < input.len() && goes_on() {
        let end = input.len().min(start + stretch);
        let shorter = [&input[..start], &input[end..]].concat();
        if differs(&shorter) {
            *input = shorter;
        } else {
            start += step;
        }
    }
}

#[cfg(test)]
mod tests {
    use super::*;

    #[test]
    fn drops_all_that_is_not_needed() {
        let input: Vec<u8> = (0..=255).collect();
        let needed = |s: &[u8]| s.contains(&7) && s.contains(&200);
        assert_eq!(shrink(input, needed), [7, 200]);
        let whole = |s: &[u8]| s.len().is_multiple_of(3) && s.contains(&100);
        assert_eq!(shrink((0..=254).collect(), whole).len(), 3);
        assert_eq!(shrink(vec![1, 2, 3], |_| true), []);
        assert_eq!(shrink(Vec::<u8>::new(), |_| true), []);
    }
}
