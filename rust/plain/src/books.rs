//! Books of chambers that open in many classes: their pooled shares, means and
//! totals, and the joining of two books.

use crate::scheme::{accept, index_of, within_horizon, Figures, Scheme, MAX_CLASSES, TENTHS};
use crate::years::{unit, Chain};

/// The highest count of chambers in a class.
pub const MAX_COUNT: u32 = 1_000_000;

/// How many chambers open in each class; class i is at i - 1.
pub type Book = [u32; MAX_CLASSES];

/// Low and high parts of a class after `year` years, pooled over a book.
pub fn pooled_share(scheme: &Scheme, book: &Book, class: u64, year: u64) -> Result<(u64, u64), u8> {
    accept(scheme)?;
    let index = index_of(scheme, class)?;
    within_horizon(scheme, year)?;
    let pool = Pool::new(scheme, book)?;
    let chain = Chain::new(scheme);
    Ok(pool.parts(&chain.bounds(&unit(index), year)))
}

/// Fills two slices of s numbers with the low and the high share of each class
/// after `year` years, pooled over a book.
pub fn pooled_share_sheet(
    scheme: &Scheme,
    book: &Book,
    year: u64,
    low: &mut [u64],
    high: &mut [u64],
) -> Result<(), u8> {
    accept(scheme)?;
    within_horizon(scheme, year)?;
    let pool = Pool::new(scheme, book)?;
    if low.len() != scheme.s() || high.len() != scheme.s() {
        return Err(13);
    }
    let chain = Chain::new(scheme);
    for (index, (low, high)) in low.iter_mut().zip(high).enumerate() {
        (*low, *high) = pool.parts(&chain.bounds(&unit(index), year));
    }
    Ok(())
}

/// Low and high cents of the mean premium of `year`, pooled over a book.
pub fn pooled_mean(scheme: &Scheme, book: &Book, year: u64) -> Result<(u64, u64), u8> {
    accept(scheme)?;
    within_horizon(scheme, year)?;
    let pool = Pool::new(scheme, book)?;
    let chain = Chain::new(scheme);
    Ok(pool.cents(&chain.bounds(&scheme.premium_tenths(), year)))
}

/// Low and high cents of the total of the premiums of years 0 to `year` - 1,
/// pooled over a book.
pub fn pooled_total(scheme: &Scheme, book: &Book, year: u64) -> Result<(u64, u64), u8> {
    accept(scheme)?;
    within_horizon(scheme, year)?;
    let pool = Pool::new(scheme, book)?;
    let chain = Chain::new(scheme);
    Ok(pool.cents(&chain.totals(&scheme.premium_tenths(), year)))
}

/// The book of two books together: all counts added.
pub fn join(first: &Book, second: &Book) -> Result<Book, u8> {
    let mut joined = [0; MAX_CLASSES];
    for (sum, (&a, &b)) in joined.iter_mut().zip(first.iter().zip(second)) {
        // A sum within the limit has both counts within it.
        let added = a.checked_add(b).filter(|&added| added <= MAX_COUNT);
        *sum = added.ok_or(18)?;
    }
    Ok(joined)
}

/// The counts of a book that a scheme pools, those of its classes; not all of
/// them are 0.
struct Pool<'a> {
    counts: &'a [u32],
    /// The sum of the counts.
    chambers: u64,
}

impl<'a> Pool<'a> {
    /// Declines a count above the limit, then a book without chambers; the
    /// scheme is accepted.
    fn new(scheme: &Scheme, book: &'a Book) -> Result<Pool<'a>, u8> {
        let counts = &book[..scheme.s()];
        if counts.iter().any(|&count| count > MAX_COUNT) {
            return Err(18);
        }
        let chambers = counts.iter().map(|&count| u64::from(count)).sum();
        if chambers == 0 {
            return Err(19);
        }
        Ok(Pool { counts, chambers })
    }

    /// Low and high parts, pooled from those of all classes.
    fn parts(&self, bounds: &(Figures, Figures)) -> (u64, u64) {
        self.over(self.chambers, bounds)
    }

    /// Low and high cents, pooled from the tenths of all classes: one rounding,
    /// straight to cents.
    fn cents(&self, bounds: &(Figures, Figures)) -> (u64, u64) {
        self.over(self.chambers * TENTHS, bounds)
    }

    /// The sums of count times figure over a divisor, rounded outward.
    fn over(&self, divisor: u64, (low, high): &(Figures, Figures)) -> (u64, u64) {
        let (low, high) = (self.weighted(low), self.weighted(high));
        (low / divisor, high.div_ceil(divisor))
    }

    /// The sum of count times figure; at most 32 times the limit of a count
    /// times the highest total, 10,000,000,000 tenths.
    fn weighted(&self, figures: &Figures) -> u64 {
        let counted = self.counts.iter().zip(figures);
        counted
            .map(|(&count, figure)| u64::from(count) * figure)
            .sum()
    }
}
