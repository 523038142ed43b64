//! Values at risk as fast as we could write them in safe Rust by the means of the engine alone: whole numbers, a threshold
//! and a sorted array of the highest. The losses of a residual are worked out once, and added up for its bucket and its
//! benchmark. Loops take a few numbers at a time; rustc makes of that what it can.

use crate::rules::{residuals, Changes, Method, Nets, Risks, MOST_SCENARIOS};

/// The most losses that a tail has.
const MOST_TAIL: usize = MOST_SCENARIOS / 100;

/// The highest of numbers, each turned first.
fn highest<const MANY: usize, T: Copy + Ord>(numbers: &[[T; MANY]], lowest: T, turn: impl Fn(T) -> T) -> T {
    let mut high = [lowest; MANY];
    for numbers in numbers {
        for (high, &number) in high.iter_mut().zip(numbers) {
            *high = turn(number).max(*high);
        }
    }
    high.into_iter().fold(lowest, T::max)
}

/// Puts a number into its place among others that fall. The lowest goes.
fn put<T: Copy + Ord>(places: &mut [T], number: T) {
    places.iter_mut().fold(number, |number, place| {
        let lower = number.min(*place);
        *place = number.max(*place);
        lower
    });
}

/// The k-th highest of numbers, each turned first. At least k numbers reach the lowest of the highest of k chunks: it takes
/// all places at first, and what is not above the lowest place is passed over, so many at a time as `FEW` says.
fn kth_highest<const MANY: usize, const FEW: usize, T: Copy + Ord>(
    numbers: &[T],
    k: usize,
    (lowest, most): (T, T),
    turn: impl Fn(T) -> T + Copy,
) -> T {
    let (blocks, rest) = numbers.as_chunks::<MANY>();
    if k == 1 {
        return rest.iter().fold(highest(blocks, lowest, turn), |high, &number| high.max(turn(number)));
    }
    let chunks = blocks.chunks_exact(blocks.len() / k).take(k);
    let mut bound = chunks.fold(most, |low, chunk| low.min(highest(chunk, lowest, turn)));
    let places = &mut [bound; MOST_TAIL][..k];
    let (blocks, rest) = numbers.as_chunks::<FEW>();
    for number in rest.iter().copied().map(turn) {
        if number > bound {
            put(places, number);
            bound = places[k - 1];
        }
    }
    for block in blocks {
        if block.iter().fold(false, |any, &number| any | (turn(number) > bound)) {
            let above = block.iter().map(|&number| i32::from(turn(number) > bound)).sum::<i32>();
            if above == 1 {
                put(places, block.iter().fold(lowest, |high, &number| high.max(turn(number))));
            } else {
                for number in block.map(turn) {
                    if number > places[k - 1] {
                        put(places, number);
                    }
                }
            }
            bound = places[k - 1];
        }
    }
    bound
}

/// A net, negated, and the changes of its residual: their products are its losses.
#[derive(Clone, Copy)]
struct Leg<'a> {
    weight: i64,
    changes: &'a [i32],
}

impl Leg<'_> {
    /// The value at risk, which comes of one of the changes.
    fn risk(self, k: usize) -> u64 {
        let range = (i32::MIN, i32::MAX);
        let change = if self.weight < 0 {
            kth_highest::<16, 16, _>(self.changes, k, range, |change| -change)
        } else {
            kth_highest::<16, 16, _>(self.changes, k, range, |change| change)
        };
        u64::from(change.max(0).unsigned_abs()) * self.weight.unsigned_abs()
    }
}

/// The value at risk of losses.
fn value_at_risk(losses: &[i64], k: usize) -> u64 {
    kth_highest::<4, 2, _>(losses, k, (i64::MIN, i64::MAX), |loss| loss).max(0).unsigned_abs()
}

/// Hands each loss of a leg to `set`, with its sum.
fn each(sums: &mut [i64], leg: Leg, set: impl Fn(&mut i64, i64)) {
    let few = |sums: &mut [i64], changes: &[i32]| {
        for (sum, &change) in sums.iter_mut().zip(changes) {
            set(sum, leg.weight * i64::from(change));
        }
    };
    let (sums, last) = sums.as_chunks_mut::<8>();
    let (changes, last_changes) = leg.changes.as_chunks::<8>();
    sums.iter_mut().zip(changes).for_each(|(sums, changes)| few(sums, changes));
    few(last, last_changes);
}

/// Hands each loss of two legs to `set`, with its sum.
fn each_of_two(sums: &mut [i64], one: Leg, other: Leg, set: impl Fn(&mut i64, i64)) {
    let few = |sums: &mut [i64], changes: &[i32], others: &[i32]| {
        for ((sum, &change), &other_change) in sums.iter_mut().zip(changes).zip(others) {
            set(sum, one.weight * i64::from(change) + other.weight * i64::from(other_change));
        }
    };
    let (sums, last) = sums.as_chunks_mut::<8>();
    let (changes, last_changes) = one.changes.as_chunks::<8>();
    let (others, last_others) = other.changes.as_chunks::<8>();
    sums.iter_mut().zip(changes).zip(others).for_each(|((sums, a), b)| few(sums, a, b));
    few(last, last_changes, last_others);
}

/// Adds the losses of legs, two of them at once. What stands in the sums counts if they have begun.
fn add<'a>(sums: &mut [i64], mut begun: bool, mut legs: impl Iterator<Item = Leg<'a>>) {
    while let Some(one) = legs.next() {
        match (legs.next(), begun) {
            (Some(other), true) => each_of_two(sums, one, other, |sum, loss| *sum += loss),
            (Some(other), false) => each_of_two(sums, one, other, |sum, loss| *sum = loss),
            (None, true) => each(sums, one, |sum, loss| *sum += loss),
            (None, false) => each(sums, one, |sum, loss| *sum = loss),
        }
        begun = true;
    }
}

/// Losses of a bucket and of a benchmark.
pub struct Same {
    bucket: [i64; MOST_SCENARIOS],
    all: [i64; MOST_SCENARIOS],
}

impl Method for Same {
    fn new() -> Self {
        Same { bucket: [0; MOST_SCENARIOS], all: [0; MOST_SCENARIOS] }
    }

    fn risks(&mut self, nets: &Nets, changes: Changes) -> Risks {
        let k = changes.k();
        let leg = |residual| Leg { weight: -i64::from(nets.net(residual)), changes: changes.of(residual) };
        let some = &mut self.bucket[..changes.scenarios];
        let all = &mut self.all[..changes.scenarios];
        let (mut begun, mut alone) = (false, 0);
        let mut risks = Risks::default();
        for bucket in nets.buckets() {
            let risk = residuals(bucket).map(|residual| leg(residual).risk(k)).sum::<u64>();
            risks.residuals += risk;
            if bucket.count_ones() == 1 {
                risks.buckets += risk;
                alone |= bucket;
                continue;
            }
            add(some, false, residuals(bucket).map(leg));
            risks.buckets += value_at_risk(some, k);
            if begun {
                all.iter_mut().zip(&*some).for_each(|(sum, loss)| *sum += loss);
            } else {
                all.copy_from_slice(some);
                begun = true;
            }
        }
        risks.whole = match nets.standing().count_ones() {
            0 | 1 => risks.residuals,
            _ => {
                add(all, begun, residuals(alone).map(leg));
                value_at_risk(all, k)
            }
        };
        risks
    }
}
