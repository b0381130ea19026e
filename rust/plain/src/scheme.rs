//! The scheme, its limits, and the first cause for which it is declined.

/// One whole, in parts.
pub const ONE: u64 = 1_000_000_000;
/// The most classes of a scheme.
pub const MAX_CLASSES: usize = 32;
/// The most claim columns of a scheme.
pub const MAX_COLUMNS: usize = 8;
/// The longest horizon in years.
pub const MAX_HORIZON: u8 = 100;
/// The highest premium in cents.
pub const MAX_PREMIUM: u32 = 10_000_000;
/// The highest payoff of the one-year step.
pub const MAX_PAYOFF: u64 = 10_000_000_000;
/// The tenths of a cent in a cent; money is carried in tenths.
pub const TENTHS: u64 = 10;
/// The highest base premium of a ready scheme in cents.
pub const MAX_BASE: u64 = 2_500_000;

/// One number for each class; class i is at i - 1.
pub type Figures = [u64; MAX_CLASSES];

/// A scheme. Values beyond `classes` and `columns` are ignored.
#[derive(Clone, Debug, PartialEq, Eq)]
pub struct Scheme {
    pub classes: u8,
    pub columns: u8,
    pub start: u8,
    pub horizon: u8,
    /// The next class of class i after k claims is at (i - 1) * MAX_COLUMNS + k.
    pub rules: [u8; MAX_CLASSES * MAX_COLUMNS],
    pub lowers: [u32; MAX_COLUMNS],
    pub uppers: [u32; MAX_COLUMNS],
    pub premiums: [u32; MAX_CLASSES],
}

impl Scheme {
    /// All values 0; not accepted, a place to build from.
    pub const EMPTY: Scheme = Scheme {
        classes: 0,
        columns: 0,
        start: 0,
        horizon: 0,
        rules: [0; MAX_CLASSES * MAX_COLUMNS],
        lowers: [0; MAX_COLUMNS],
        uppers: [0; MAX_COLUMNS],
        premiums: [0; MAX_CLASSES],
    };

    /// s as an index bound.
    pub(crate) fn s(&self) -> usize {
        usize::from(self.classes)
    }

    /// m as an index bound.
    pub(crate) fn m(&self) -> usize {
        usize::from(self.columns)
    }

    /// The rules of the class at `index` (class number less 1).
    pub(crate) fn rules_of(&self, index: usize) -> &[u8] {
        &self.rules[index * MAX_COLUMNS..][..self.m()]
    }

    /// The premiums in tenths of a cent, 0 beyond s.
    pub(crate) fn premium_tenths(&self) -> Figures {
        let mut figures = [0; MAX_CLASSES];
        for (figure, &premium) in figures.iter_mut().zip(&self.premiums[..self.s()]) {
            *figure = u64::from(premium) * TENTHS;
        }
        figures
    }
}

/// The number of the first cause for which the scheme is declined (3, 5 to
/// 10), or 0 where it is accepted.
pub fn cause(scheme: &Scheme) -> u8 {
    let (s, m) = (scheme.s(), scheme.m());
    if !(1..=MAX_CLASSES).contains(&s) || !(1..=MAX_COLUMNS).contains(&m) {
        return 3;
    }
    if scheme.start == 0 || scheme.start > scheme.classes {
        return 5;
    }
    if scheme.horizon > MAX_HORIZON {
        return 6;
    }
    let rule_fits = |&rule: &u8| rule >= 1 && rule <= scheme.classes;
    if !(0..s).all(|index| scheme.rules_of(index).iter().all(rule_fits)) {
        return 7;
    }
    let (lowers, uppers) = (&scheme.lowers[..m], &scheme.uppers[..m]);
    let band_fits = |(&lower, &upper)| lower <= upper && u64::from(upper) <= ONE;
    if !lowers.iter().zip(uppers).all(band_fits) {
        return 8;
    }
    if sum(lowers) > ONE || sum(uppers) < ONE {
        return 9;
    }
    if scheme.premiums[..s].iter().any(|&p| p > MAX_PREMIUM) {
        return 10;
    }
    0
}

fn sum(values: &[u32]) -> u64 {
    values.iter().map(|&value| u64::from(value)).sum()
}

/// Declines a scheme that is not accepted.
pub(crate) fn accept(scheme: &Scheme) -> Result<(), u8> {
    match cause(scheme) {
        0 => Ok(()),
        number => Err(number),
    }
}

/// The index of a queried class of an accepted scheme.
pub(crate) fn index_of(scheme: &Scheme, class: u64) -> Result<usize, u8> {
    if class == 0 || class > u64::from(scheme.classes) {
        Err(11)
    } else {
        Ok(class as usize - 1)
    }
}

/// Declines a queried year above the horizon.
pub(crate) fn within_horizon(scheme: &Scheme, year: u64) -> Result<(), u8> {
    if year > u64::from(scheme.horizon) {
        Err(12)
    } else {
        Ok(())
    }
}
