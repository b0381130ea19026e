//! Demand 3 by exact arithmetic on the library's answers: no picks leave the
//! bounds, and the extreme ones come within t parts of each share and of each
//! chance of having reached a class, and nearer than one cent plus t tenths to
//! each figure of money. Pooled over a book, with the same picks for all of it,
//! they come within t + 1 parts of each share.

use plain::{Book, Scheme, ONE};
use trials::exact::Fraction;
use trials::made::{self, Shape};
use trials::picks::{
    any_picks, exact_mean, exact_pooled_mean, exact_pooled_shares, exact_pooled_total,
    exact_reached, exact_shares, exact_total, extreme_picks, near_money, premium_tenths,
    reached_picks, unit, Matrix,
};
use trials::rng::Rng;

/// The longest horizon of the small schemes.
const YEARS: u64 = 4;

/// What is told of one year of a scheme.
struct Figures<T> {
    shares: Vec<T>,
    /// The chances of having reached the classes; none where pooled.
    reached: Vec<T>,
    mean: T,
    total: T,
}

/// One year of a scheme, from its start class or pooled over a book, with the
/// library's bounds.
struct Trial<'a> {
    scheme: &'a Scheme,
    book: Option<&'a Book>,
    year: u64,
    bounds: Figures<(u64, u64)>,
}

/// Low and high by a call.
fn bounds(call: impl FnOnce(&mut [u64]) -> Result<(), u8>) -> (u64, u64) {
    let mut out = [0; 2];
    call(&mut out).expect("bounds");
    out.into()
}

/// The library's bounds from the start class.
fn from_start(record: &[u8], s: usize, year: u64) -> Figures<(u64, u64)> {
    let (mut low, mut high) = (vec![0; s], vec![0; s]);
    library::share_sheet(record, year, &mut low, &mut high).expect("a share sheet");
    let shares: Vec<(u64, u64)> = low.into_iter().zip(high).collect();
    for (class, &share) in (1..).zip(&shares) {
        assert_eq!(
            bounds(|out| library::share(record, class, year, out)),
            share
        );
    }
    let reached = |class| bounds(|out| library::reached(record, class, year, out));
    Figures {
        shares,
        reached: (1..=s as u64).map(reached).collect(),
        mean: bounds(|out| library::mean(record, year, out)),
        total: bounds(|out| library::total(record, year, out)),
    }
}

/// The library's bounds pooled over a book.
fn pooled(record: &[u8], s: usize, book: &Book, year: u64) -> Figures<(u64, u64)> {
    let (mut low, mut high) = (vec![0; s], vec![0; s]);
    library::pooled_share_sheet(record, book, year, &mut low, &mut high).expect("a share sheet");
    let shares: Vec<(u64, u64)> = low.into_iter().zip(high).collect();
    for (class, &share) in (1..).zip(&shares) {
        let alone = bounds(|out| library::pooled_share(record, book, class, year, out));
        assert_eq!(alone, share);
    }
    Figures {
        shares,
        reached: Vec::new(),
        mean: bounds(|out| library::pooled_mean(record, book, year, out)),
        total: bounds(|out| library::pooled_total(record, book, year, out)),
    }
}

impl<'a> Trial<'a> {
    fn new(scheme: &'a Scheme, book: Option<&'a Book>, year: u64) -> Trial<'a> {
        let record = made::record_by_turns(scheme, year);
        let s = usize::from(scheme.classes);
        let bounds = match book {
            None => from_start(&record, s, year),
            Some(book) => pooled(&record, s, book, year),
        };
        Trial {
            scheme,
            book,
            year,
            bounds,
        }
    }

    /// The exact figures of picks.
    fn exact(&self, picks: &[Matrix]) -> Figures<Fraction> {
        let scheme = self.scheme;
        match self.book {
            None => Figures {
                shares: exact_shares(scheme, picks),
                reached: exact_reached(scheme, picks),
                mean: exact_mean(scheme, picks),
                total: exact_total(scheme, picks),
            },
            Some(book) => Figures {
                shares: exact_pooled_shares(scheme, book, picks),
                reached: Vec::new(),
                mean: exact_pooled_mean(scheme, book, picks),
                total: exact_pooled_total(scheme, book, picks),
            },
        }
    }

    /// Checks that picks leave no bound, and hands back their exact figures.
    fn check_inside(&self, picks: &[Matrix]) -> Figures<Fraction> {
        let within = |exact: &Fraction, (low, high): (u64, u64)| {
            let (scheme, book) = (self.scheme, self.book);
            assert!(exact.between(low, high), "{scheme:?} {book:?} {picks:?}");
        };
        let exact = self.exact(picks);
        for (share, &bounds) in exact.shares.iter().zip(&self.bounds.shares) {
            within(&share.times(ONE), bounds);
        }
        for (chance, &bounds) in exact.reached.iter().zip(&self.bounds.reached) {
            within(&chance.times(ONE), bounds);
        }
        within(&exact.mean, self.bounds.mean);
        within(&exact.total, self.bounds.total);
        exact
    }

    /// Checks that the picks that follow the steps of each bound come close to
    /// it, and leave no other. Where they start has no part in them.
    fn check_close(&self) {
        let (scheme, year) = (self.scheme, self.year);
        let premiums = premium_tenths(scheme);
        let room = year + u64::from(self.book.is_some());
        for high in [false, true] {
            let near = |exact: &Fraction, (low, top): (u64, u64)| match high {
                false => exact.between(low, low + room),
                true => exact.between(top.saturating_sub(room), top),
            };
            for (j, &share) in self.bounds.shares.iter().enumerate() {
                let picks = extreme_picks(scheme, &unit(j), None, year, high);
                let exact = self.check_inside(&picks);
                assert!(near(&exact.shares[j].times(ONE), share));
            }
            for (j, &chance) in self.bounds.reached.iter().enumerate() {
                let picks = reached_picks(scheme, j, year, high);
                let exact = self.check_inside(&picks);
                assert!(near(&exact.reached[j].times(ONE), chance));
            }
            let bound = |(low, top): (u64, u64)| if high { top } else { low };
            let picks = extreme_picks(scheme, &premiums, None, year, high);
            let exact = self.check_inside(&picks);
            assert!(near_money(&exact.mean, bound(self.bounds.mean), year));
            let picks = extreme_picks(scheme, &[0; 32], Some(&premiums), year, high);
            let exact = self.check_inside(&picks);
            assert!(near_money(&exact.total, bound(self.bounds.total), year));
        }
    }
}

fn small_scheme(rng: &mut Rng) -> Scheme {
    let shape = Shape::up_to(rng, 4, 8);
    let mut scheme = made::scheme_of(rng, shape);
    scheme.horizon = YEARS as u8;
    scheme
}

/// Random rows over random denominators, a new one for each class and year.
#[test]
fn no_picks_leave() {
    let mut rng = Rng::new(111);
    for _ in 0..2_000 {
        let scheme = small_scheme(&mut rng);
        for year in 0..=YEARS {
            let trial = Trial::new(&scheme, None, year);
            for _ in 0..2 {
                trial.check_inside(&any_picks(&mut rng, &scheme, year));
            }
        }
    }
}

#[test]
fn no_picks_leave_pooled_bounds() {
    let mut rng = Rng::new(113);
    for _ in 0..1_000 {
        let scheme = small_scheme(&mut rng);
        for year in 0..=YEARS {
            let book = made::pooled_book(&mut rng, scheme.classes);
            let trial = Trial::new(&scheme, Some(&book), year);
            trial.check_inside(&any_picks(&mut rng, &scheme, year));
        }
    }
}

#[test]
fn extreme_picks_come_close() {
    let mut rng = Rng::new(112);
    for _ in 0..500 {
        let scheme = small_scheme(&mut rng);
        for year in 0..=YEARS {
            Trial::new(&scheme, None, year).check_close();
        }
    }
}

#[test]
fn extreme_picks_come_close_to_pooled_bounds() {
    let mut rng = Rng::new(114);
    for _ in 0..200 {
        let scheme = small_scheme(&mut rng);
        for year in 0..=YEARS {
            let book = made::pooled_book(&mut rng, scheme.classes);
            Trial::new(&scheme, Some(&book), year).check_close();
        }
    }
}
