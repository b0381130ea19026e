//! The one-year step of one class, with a row that reaches its figure.

use crate::rows::interval;
use crate::scheme::{accept, index_of, Figures, Scheme, MAX_CLASSES, MAX_PAYOFF, ONE};

/// The low figure of a class, rounded down, and a row that reaches the
/// unrounded one.
pub fn low_step(scheme: &Scheme, payoff: &Figures, class: u64) -> Result<(u64, Figures), u8> {
    let index = checked(scheme, payoff, class)?;
    let order = Order::rising(payoff, scheme.s());
    let row = fill(interval(scheme, index), order.classes());
    Ok((worth(&row, payoff, scheme.s()) / ONE, row))
}

/// The high figure of a class, rounded up, and a row that reaches the
/// unrounded one.
pub fn high_step(scheme: &Scheme, payoff: &Figures, class: u64) -> Result<(u64, Figures), u8> {
    let index = checked(scheme, payoff, class)?;
    let order = Order::rising(payoff, scheme.s());
    let row = fill(interval(scheme, index), order.classes().rev());
    Ok((worth(&row, payoff, scheme.s()).div_ceil(ONE), row))
}

fn checked(scheme: &Scheme, payoff: &Figures, class: u64) -> Result<usize, u8> {
    accept(scheme)?;
    if payoff[..scheme.s()].iter().any(|&p| p > MAX_PAYOFF) {
        return Err(10);
    }
    index_of(scheme, class)
}

/// Starts from the lower entries and gives what is left of ONE to the classes
/// in the order given, each up to its upper entry.
fn fill((lower, upper): (Figures, Figures), order: impl Iterator<Item = usize>) -> Figures {
    let mut row = lower;
    let mut free = ONE - row.iter().sum::<u64>();
    for j in order {
        let given = free.min(upper[j] - lower[j]);
        row[j] += given;
        free -= given;
        if free == 0 {
            break;
        }
    }
    row
}

/// The sum of part times payoff; at most ONE times the payoff limit.
fn worth(row: &Figures, payoff: &Figures, s: usize) -> u64 {
    row[..s]
        .iter()
        .zip(payoff)
        .map(|(part, value)| part * value)
        .sum()
}

/// The classes of a scheme by rising payoff.
pub(crate) struct Order {
    /// Payoff and, in the low five bits, the index of its class.
    keys: Figures,
    count: usize,
}

impl Order {
    /// Ranks the first `count` classes; their payoffs are within the limit.
    pub(crate) fn rising(payoff: &Figures, count: usize) -> Order {
        let mut keys = [0; MAX_CLASSES];
        for (j, (key, value)) in keys.iter_mut().zip(&payoff[..count]).enumerate() {
            *key = value << 5 | j as u64;
        }
        keys[..count].sort_unstable();
        Order { keys, count }
    }

    /// The indexes of the classes, lowest payoff first.
    pub(crate) fn classes(&self) -> impl DoubleEndedIterator<Item = usize> + '_ {
        self.keys[..self.count]
            .iter()
            .map(|key| (key & 31) as usize)
    }
}
