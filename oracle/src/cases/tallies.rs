//! Reports seen and those of each of the five kinds, in the order of `Kind`: numbers that add up, just do not, or would if their sum wrapped.

use crate::script::bounds::beside;
use crate::script::rng::Rng;

/// A count: any, or about the greatest.
pub fn count(rng: &mut Rng) -> u64 {
    match rng.below(5) {
        0 => u64::MAX - rng.below(3) as u64,
        1 | 2 => rng.below(5000) as u64,
        _ => rng.number(8),
    }
}

/// So many reports seen, of one kind or of some: every set of kinds is drawn, and whichever of them may have the most.
pub fn split(rng: &mut Rng, seen: u64) -> [u64; 6] {
    let (set, from) = (1 + rng.below(31), rng.below(5));
    let mut kinds = (0..5).map(|i| (from + i) % 5).filter(|i| set & (1 << i) > 0);
    let first = kinds.next().expect("the set is not empty");
    let mut tallies = [seen, 0, 0, 0, 0, 0];
    let mut left = seen;
    for kind in kinds {
        let some = match rng.below(4) {
            0 => 1,
            1 => rng.below(300) as u64,
            2 => left / 2,
            _ => rng.number(8),
        };
        tallies[1 + kind] = some.min(left);
        left -= tallies[1 + kind];
    }
    tallies[1 + first] = left;
    tallies
}

/// Tallies that add up.
pub fn lawful(rng: &mut Rng) -> [u64; 6] {
    let seen = count(rng);
    split(rng, seen)
}

/// Two kinds of lawful tallies raised so that the sum is 2^64 more: it would wrap to what it was.
fn wrapped(rng: &mut Rng, tallies: &mut [u64; 6]) {
    let one = rng.below(5);
    let other = (one + 1 + rng.below(4)) % 5;
    let sum = tallies[1 + one] + tallies[1 + other];
    if sum < u64::MAX {
        let more = sum + 1 + rng.draw() % (u64::MAX - sum);
        (tallies[1 + one], tallies[1 + other]) = (more, sum.wrapping_sub(more));
    }
}

/// Lawful tallies spoilt: mostly one of the six is one less or one more, or any; or the sum wraps.
pub fn spoil(rng: &mut Rng, tallies: &mut [u64; 6]) {
    let i = rng.below(6);
    match rng.below(6) {
        0 => wrapped(rng, tallies),
        1 => tallies[i] = count(rng),
        2 => tallies[1 + rng.below(5)] = u64::MAX - rng.below(3) as u64,
        _ => tallies[i] = beside(rng, tallies[i]),
    }
}

/// Every way to be at an edge of the rule: nothing, one report, one too few and one too many, the greatest sums, and those that wrap.
pub fn edges() -> Vec<[u64; 6]> {
    let top = u64::MAX;
    let with = |seen: u64, kinds: &[(usize, u64)]| {
        let mut tallies = [seen, 0, 0, 0, 0, 0];
        kinds.iter().for_each(|(kind, n)| tallies[1 + kind] = *n);
        tallies
    };
    // Reports of no kind: one, as in a record from before the two counters, and as many as fit.
    let mut all = vec![with(0, &[]), with(1, &[]), with(top, &[])];
    // All kinds at once; five times the greatest wraps to the greatest less 4.
    all.extend([4, 5, 6].map(|seen| [seen, 1, 1, 1, 1, 1]));
    all.extend([[15, 3, 5, 4, 1, 2], [14, 3, 5, 4, 1, 2], [16, 3, 5, 4, 1, 2]]);
    all.extend([top - 5, top - 4, top - 3, top].map(|seen| [seen, top, top, top, top, top]));
    for i in 0..5 {
        all.extend([0, 1, 2].map(|seen| with(seen, &[(i, 1)])));
        for seen in [top - 2, top - 1, top] {
            all.extend([top - 2, top - 1, top].map(|n| with(seen, &[(i, n)])));
        }
        for j in (0..5).filter(|j| *j != i) {
            all.push(with(1, &[(i, 1), (j, 1)]));
            all.extend([top - 2, top - 1, top].map(|n| with(top, &[(i, n), (j, 1)])));
            all.extend([0, 9].map(|seen| with(seen, &[(i, top), (j, 1 + seen)])));
            // A pair of equal numbers, once.
            if i < j {
                all.extend([0, top].map(|seen| with(seen, &[(i, 1 << 63), (j, 1 << 63)])));
                all.push(with(top, &[(i, 1 << 63), (j, (1 << 63) - 1)]));
            }
        }
    }
    all
}
