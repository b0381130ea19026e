//! Bounds over years: shares, chances of having reached a class, means, totals
//! and share sheets.

use crate::rows::interval;
use crate::scheme::{
    accept, index_of, within_horizon, Figures, Scheme, MAX_CLASSES, MAX_COLUMNS, ONE, TENTHS,
};
use crate::step::Order;

/// Low and high parts of a class after `year` years.
pub fn share(scheme: &Scheme, class: u64, year: u64) -> Result<(u64, u64), u8> {
    accept(scheme)?;
    let index = index_of(scheme, class)?;
    within_horizon(scheme, year)?;
    let chain = Chain::new(scheme);
    Ok(chain.at_start(chain.bounds(&unit(index), year)))
}

/// Low and high parts of the chance of having stood in a class at least once by
/// `year`.
pub fn reached(scheme: &Scheme, class: u64, year: u64) -> Result<(u64, u64), u8> {
    accept(scheme)?;
    let index = index_of(scheme, class)?;
    within_horizon(scheme, year)?;
    let chain = Chain::new(scheme);
    Ok(chain.at_start(chain.reached(index, year)))
}

/// Low and high cents of the mean premium of `year`.
pub fn mean(scheme: &Scheme, year: u64) -> Result<(u64, u64), u8> {
    accept(scheme)?;
    within_horizon(scheme, year)?;
    let chain = Chain::new(scheme);
    let bounds = chain.bounds(&scheme.premium_tenths(), year);
    Ok(cents(chain.at_start(bounds)))
}

/// Low and high cents of the total of the premiums of years 0 to `year` - 1.
pub fn total(scheme: &Scheme, year: u64) -> Result<(u64, u64), u8> {
    accept(scheme)?;
    within_horizon(scheme, year)?;
    let chain = Chain::new(scheme);
    let totals = chain.totals(&scheme.premium_tenths(), year);
    Ok(cents(chain.at_start(totals)))
}

/// Fills two slices of s numbers with the low and the high share of each class
/// after `year` years.
pub fn share_sheet(
    scheme: &Scheme,
    year: u64,
    low: &mut [u64],
    high: &mut [u64],
) -> Result<(), u8> {
    accept(scheme)?;
    within_horizon(scheme, year)?;
    if low.len() != scheme.s() || high.len() != scheme.s() {
        return Err(13);
    }
    let chain = Chain::new(scheme);
    for (index, (low, high)) in low.iter_mut().zip(high).enumerate() {
        (*low, *high) = chain.at_start(chain.bounds(&unit(index), year));
    }
    Ok(())
}

/// Low and high in tenths of a cent, rounded outward to cents.
pub(crate) fn cents((low, high): (u64, u64)) -> (u64, u64) {
    (low / TENTHS, high.div_ceil(TENTHS))
}

/// The payoff for the share of the class at `index`, and for the chance of
/// having reached it.
pub(crate) fn unit(index: usize) -> Figures {
    let mut payoff = [0; MAX_CLASSES];
    payoff[index] = ONE;
    payoff
}

/// The figures with the premiums added class by class.
pub(crate) fn plus(mut figures: Figures, premiums: &Figures) -> Figures {
    for (figure, premium) in figures.iter_mut().zip(premiums) {
        *figure += premium;
    }
    figures
}

/// The interval rows of all classes of an accepted scheme, worked out once.
/// Only entries that some column reaches are held, gathered by the class they
/// lead to, so that a year walks them once in the order of the payoffs.
pub(crate) struct Chain {
    s: usize,
    /// The index of the start class.
    pub(crate) start: usize,
    /// The entries to class j are from `ends[j - 1]` (0 for the first) to `ends[j]`.
    ends: [usize; MAX_CLASSES],
    entries: [Entry; MAX_CLASSES * MAX_COLUMNS],
    /// ONE less the lower entries of each row.
    free: [u32; MAX_CLASSES],
}

/// An entry of an interval row, without the class it leads to.
#[derive(Clone, Copy, Default)]
struct Entry {
    /// The index of the class whose row this is.
    from: u8,
    lower: u32,
    /// Upper less lower.
    room: u32,
}

impl Chain {
    pub(crate) fn new(scheme: &Scheme) -> Chain {
        let s = scheme.s();
        let mut chain = Chain {
            s,
            start: usize::from(scheme.start) - 1,
            ends: [0; MAX_CLASSES],
            entries: [Entry::default(); MAX_CLASSES * MAX_COLUMNS],
            free: [0; MAX_CLASSES],
        };

        // Count the entries that lead to each class, then let `ends` hold
        // where those of each class begin; placing them moves it to their end.
        for i in 0..s {
            for j in distinct(scheme.rules_of(i)) {
                chain.ends[j] += 1;
            }
        }
        let mut begin = 0;
        for end in &mut chain.ends[..s] {
            let count = *end;
            *end = begin;
            begin += count;
        }
        let lowers: u64 = scheme.lowers[..scheme.m()]
            .iter()
            .map(|&l| u64::from(l))
            .sum();
        for i in 0..s {
            let (lower, upper) = interval(scheme, i);
            for j in distinct(scheme.rules_of(i)) {
                chain.entries[chain.ends[j]] = Entry {
                    from: i as u8,
                    lower: lower[j] as u32,
                    room: (upper[j] - lower[j]) as u32,
                };
                chain.ends[j] += 1;
            }
            chain.free[i] = (ONE - lowers) as u32;
        }
        chain
    }

    /// The low figures of a year from those of the year before.
    pub(crate) fn low_year(&self, figures: &Figures) -> Figures {
        let order = Order::rising(figures, self.s);
        self.worths(figures, order.classes())
            .map(|worth| worth / ONE)
    }

    /// The high figures of a year from those of the year before.
    pub(crate) fn high_year(&self, figures: &Figures) -> Figures {
        let order = Order::rising(figures, self.s);
        self.worths(figures, order.classes().rev())
            .map(|worth| worth.div_ceil(ONE))
    }

    /// For every class the sum of part times figure, what is left of ONE going
    /// to the classes in the order given.
    #[inline]
    fn worths(&self, figures: &Figures, order: impl Iterator<Item = usize>) -> Figures {
        let mut free = self.free;
        let mut worths = [0; MAX_CLASSES];
        for j in order {
            let begin = if j == 0 { 0 } else { self.ends[j - 1] };
            for entry in &self.entries[begin..self.ends[j]] {
                let i = usize::from(entry.from);
                let given = entry.room.min(free[i]);
                free[i] -= given;
                worths[i] += u64::from(entry.lower + given) * figures[j];
            }
        }
        worths
    }

    /// The low and the high figures of all classes after `years` steps.
    pub(crate) fn bounds(&self, payoff: &Figures, years: u64) -> (Figures, Figures) {
        self.run(payoff, years, |figures| figures)
    }

    /// The low and the high totals of all classes: the premiums of `years`
    /// years.
    pub(crate) fn totals(&self, premiums: &Figures, years: u64) -> (Figures, Figures) {
        self.run(&[0; MAX_CLASSES], years, |figures| plus(figures, premiums))
    }

    /// The low and the high chances of all classes to have reached the class at
    /// `index` by `years`: its own is ONE in every year.
    fn reached(&self, index: usize, years: u64) -> (Figures, Figures) {
        self.run(&unit(index), years, |mut figures| {
            figures[index] = ONE;
            figures
        })
    }

    /// Low and high run on their own from the payoff; `then` is done to the
    /// figures of each step.
    #[inline]
    fn run(
        &self,
        payoff: &Figures,
        years: u64,
        then: impl Fn(Figures) -> Figures,
    ) -> (Figures, Figures) {
        let (mut low, mut high) = (*payoff, *payoff);
        for _ in 0..years {
            low = then(self.low_year(&low));
            high = then(self.high_year(&high));
        }
        (low, high)
    }

    /// The start class's low and high figure.
    fn at_start(&self, (low, high): (Figures, Figures)) -> (u64, u64) {
        (low[self.start], high[self.start])
    }
}

/// The indexes of the classes that a rule row leads to, each once.
fn distinct(rules: &[u8]) -> impl Iterator<Item = usize> + '_ {
    let mut seen = 0u32;
    rules.iter().filter_map(move |&rule| {
        let j = rule - 1;
        let new = seen & 1 << j == 0;
        seen |= 1 << j;
        new.then_some(usize::from(j))
    })
}
