//! Values at risk as fast as we could write them in safe Rust, by whatever means. The losses of a residual are worked out
//! once, in numbers of 64 bits with a fraction, and added up for its bucket and its benchmark; the k-th highest is found
//! in lanes and blocks.

use crate::rules::{residuals, Changes, Method, Nets, Risks, MOST_SCENARIOS};

fn greater<T: PartialOrd>(a: T, b: T) -> T {
    if a > b {
        a
    } else {
        b
    }
}

/// The k-th highest of a few numbers: the lowest of those that fewer than k are above.
#[inline(always)]
fn kth_of_few<T: Copy + PartialOrd>(numbers: &[T], k: i32, highest: T) -> T {
    let mut kth = highest;
    for &number in numbers {
        let above = numbers.iter().fold(0, |sum, &other| sum + i32::from(other > number));
        let at_least = if above < k { number } else { highest };
        kth = if at_least < kth { at_least } else { kth };
    }
    kth
}

/// The k-th highest of numbers, each turned first. The highest of each of 16 lanes are looked at before all others: at
/// least k numbers reach the k-th of those, so few are above it and have to be kept.
#[inline(always)]
fn kth_highest<T: Copy + PartialOrd>(
    numbers: &[T],
    k: usize,
    (lowest, highest): (T, T),
    turn: impl Fn(T) -> T,
) -> T {
    const LANES: usize = 16;
    const KEPT: usize = 64;
    let mut lanes = [lowest; LANES];
    let (blocks, rest) = numbers.as_chunks::<LANES>();
    for block in blocks {
        for (lane, &number) in lanes.iter_mut().zip(block) {
            *lane = greater(turn(number), *lane);
        }
    }
    for (lane, &number) in lanes.iter_mut().zip(rest) {
        *lane = greater(turn(number), *lane);
    }
    if k == 1 {
        return lanes.into_iter().fold(lowest, greater);
    }
    // At least k numbers reach this one, and all above it are kept.
    let mut least = kth_of_few(&lanes, k as i32, highest);
    let mut kept = [lowest; KEPT];
    let mut many = 0;
    let mut keep = |block: &[T]| {
        for &number in block {
            kept[many % KEPT] = turn(number);
            many += usize::from(turn(number) > least);
        }
        if many > KEPT - LANES {
            least = kth_of_few(&kept[..many], k as i32, highest);
            let mut higher = 0;
            for at in 0..many {
                kept[higher] = kept[at];
                higher += usize::from(kept[at] > least);
            }
            many = higher;
        }
        least
    };
    let mut bound = keep(rest);
    for block in blocks {
        if block.iter().fold(false, |any, &number| any | (turn(number) > bound)) {
            bound = keep(block);
        }
    }
    if many < k {
        least
    } else {
        kth_of_few(&kept[..many], k as i32, highest)
    }
}

/// Value at risk of losses.
fn value_at_risk(losses: &[f64], k: usize) -> u64 {
    greater(kth_highest(losses, k, (f64::NEG_INFINITY, f64::INFINITY), |loss| loss), 0.0) as u64
}

/// The losses of a residual are `-net * change`, so its k-th highest loss comes of one of its changes.
fn residual_risk(net: i32, changes: &[i32], k: usize) -> u64 {
    let range = (i32::MIN, i32::MAX);
    let change = if net > 0 {
        -kth_highest(changes, k, range, |change| -change)
    } else {
        kth_highest(changes, k, range, |change| change)
    };
    (-i64::from(net) * i64::from(change)).max(0).unsigned_abs()
}

/// Puts or adds the losses of a residual. All sums are whole and below 2 to the 53rd, so nothing is lost in them.
fn put(sums: &mut [f64], changes: &[i32], weight: i32, begun: &mut bool) {
    let weight = f64::from(weight);
    if *begun {
        sums.iter_mut().zip(changes).for_each(|(sum, &change)| *sum += weight * f64::from(change));
    } else {
        sums.iter_mut().zip(changes).for_each(|(sum, &change)| *sum = weight * f64::from(change));
        *begun = true;
    }
}

/// Losses of a bucket and of a benchmark.
pub struct Fast {
    bucket: [f64; MOST_SCENARIOS],
    all: [f64; MOST_SCENARIOS],
}

impl Method for Fast {
    fn new() -> Self {
        Fast { bucket: [0.0; MOST_SCENARIOS], all: [0.0; MOST_SCENARIOS] }
    }

    fn risks(&mut self, nets: &Nets, changes: Changes) -> Risks {
        let k = changes.k();
        let mut risks = Risks::default();
        let all = &mut self.all[..changes.scenarios];
        let some = &mut self.bucket[..changes.scenarios];
        let mut begun = false;
        if nets.standing().count_ones() == 1 {
            let residual = nets.standing().trailing_zeros() as usize;
            let risk = residual_risk(nets.net(residual), changes.of(residual), k);
            return Risks { residuals: risk, buckets: risk, whole: risk };
        }
        for bucket in nets.buckets() {
            let alone = bucket.count_ones() == 1;
            let mut bucket_begun = false;
            for residual in residuals(bucket) {
                let (net, changes) = (nets.net(residual), changes.of(residual));
                let weight = -net;
                let risk = residual_risk(net, changes, k);
                risks.residuals += risk;
                if alone {
                    risks.buckets += risk;
                    put(all, changes, weight, &mut begun);
                } else {
                    put(some, changes, weight, &mut bucket_begun);
                }
            }
            if bucket_begun {
                risks.buckets += value_at_risk(some, k);
                if begun {
                    all.iter_mut().zip(&*some).for_each(|(sum, &loss)| *sum += loss);
                } else {
                    all.copy_from_slice(some);
                    begun = true;
                }
            }
        }
        if begun {
            risks.whole = value_at_risk(all, k);
        }
        risks
    }
}
