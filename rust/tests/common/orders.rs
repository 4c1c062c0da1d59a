//! Orders that many keys may come in: each gives numbers below a count, all of them where nothing
//! else is said.

use super::Random;

pub type Order = fn(usize) -> Vec<usize>;

/// Every order with its name.
pub const ORDERS: [(&str, Order); 13] = [
    ("rising", rising),
    ("falling", falling),
    ("shuffled", shuffled),
    ("zigzag", zigzag),
    ("inside-out", inside_out),
    ("comb", comb),
    ("comb, falling", falling_comb),
    ("two runs", two_runs),
    ("two falling runs", two_falling_runs),
    ("dense gap", dense_gap),
    ("falling twice", falling_twice),
    ("shuffled twice", shuffled_twice),
    ("at random", at_random),
];

/// How many teeth of a comb lie between two numbers of its first run.
const TEETH: usize = 64;

pub fn rising(count: usize) -> Vec<usize> {
    (0..count).collect()
}

pub fn falling(count: usize) -> Vec<usize> {
    (0..count).rev().collect()
}

pub fn shuffled(count: usize) -> Vec<usize> {
    let mut numbers = rising(count);
    Random::new(1 + count as u64).shuffle(&mut numbers);
    numbers
}

/// The lowest, the highest, the lowest that is left, and so on.
pub fn zigzag(count: usize) -> Vec<usize> {
    let side = |i: usize| match i % 2 {
        0 => i / 2,
        _ => count - 1 - i / 2,
    };
    (0..count).map(side).collect()
}

/// From the middle outwards, above and below in turns.
pub fn inside_out(count: usize) -> Vec<usize> {
    zigzag(count).into_iter().rev().collect()
}

/// Runs of rising numbers laid between each other, so that every run goes past the numbers of those
/// before it.
pub fn comb(count: usize) -> Vec<usize> {
    runs(count).flatten().collect()
}

/// The same with falling runs.
pub fn falling_comb(count: usize) -> Vec<usize> {
    runs(count).flat_map(Iterator::rev).collect()
}

/// The runs of a comb, those that lie beside each other seldom in turn.
fn runs(count: usize) -> impl Iterator<Item = std::iter::StepBy<std::ops::Range<usize>>> {
    (0..TEETH).map(move |run| (run * 37 % TEETH..count).step_by(TEETH))
}

/// The lower and the upper half in turns, both rising (of an odd count all but the last): no two
/// that follow each other are neighbours, and what is behind is never come to again.
pub fn two_runs(count: usize) -> Vec<usize> {
    let half = count / 2;
    (0..half).flat_map(|i| [i, half + i]).collect()
}

/// The same with both falling.
pub fn two_falling_runs(count: usize) -> Vec<usize> {
    two_runs(count).into_iter().rev().collect()
}

/// Both ends shuffled, and then the middle third falling, twice: many numbers between two that were
/// neighbours.
pub fn dense_gap(count: usize) -> Vec<usize> {
    let middle = count / 3..count - count / 3;
    let mut ends = rising(count);
    ends.retain(|number| !middle.contains(number));
    Random::new(1 + count as u64).shuffle(&mut ends);
    let gap = || middle.clone().rev();
    ends.into_iter().chain(gap()).chain(gap()).collect()
}

/// The lower half of the numbers, falling, and all of it again.
pub fn falling_twice(count: usize) -> Vec<usize> {
    falling(count / 2).repeat(2)
}

/// The lower half of the numbers, shuffled, and then in another order.
pub fn shuffled_twice(count: usize) -> Vec<usize> {
    let mut again = rising(count / 2);
    Random::new(2 + count as u64).shuffle(&mut again);
    [shuffled(count / 2), again].concat()
}

/// As many numbers drawn at random, some never and some often.
pub fn at_random(count: usize) -> Vec<usize> {
    let mut random = Random::new(1 + count as u64);
    (0..count).map(|_| random.below(count)).collect()
}
