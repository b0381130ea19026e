//! Demand 3 by exact arithmetic: no picks leave the bounds, and some come
//! within t parts of each share and of each chance of having reached a class, and
//! nearer than one cent plus t tenths to each figure of money. Pooled over a
//! book, with the same picks for all of it, some come within t + 1 parts of each
//! share.

use plain::{
    mean, pooled_mean, pooled_share, pooled_share_sheet, pooled_total, reached, share, share_sheet,
    total, Book, Scheme, MAX_HORIZON, ONE,
};
use std::cmp::Ordering;
use trials::exact::{Fraction, Nat};
use trials::made::{self, Shape};
use trials::picks::{
    any_picks, any_row, exact_mean, exact_pooled_mean, exact_pooled_shares, exact_pooled_total,
    exact_reached, exact_shares, exact_total, extreme_picks, inside, near_money, premium_tenths,
    reached_picks, unit, Matrix,
};
use trials::rng::Rng;

#[test]
fn naturals() {
    let mut rng = Rng::new(21);
    for _ in 0..2_000 {
        let mut number = || rng.draw() >> rng.below(64);
        let (a, b, c) = (number(), number(), number());
        let nat = |value: u64| Nat::from(value);
        assert_eq!(
            nat(a).add(&nat(b)),
            Nat::from(u128::from(a) + u128::from(b))
        );
        assert_eq!(
            nat(a).mul(&nat(b)),
            Nat::from(u128::from(a) * u128::from(b))
        );
        assert_eq!(nat(a).cmp(&nat(b)), a.cmp(&b));
        let (ab, bc) = (nat(a).mul_small(b), nat(b).mul_small(c));
        assert_eq!(ab.mul_small(c), bc.mul(&nat(a)));
        let long = ab.mul(&bc).mul(&ab);
        let left = long.mul(&ab.add(&bc));
        assert_eq!(left, long.mul(&ab).add(&long.mul(&bc)));
        assert_eq!(
            ab.cmp(&bc),
            long.mul(&ab).cmp(&long.mul(&bc)).then(ab.cmp(&bc))
        );

        let (d, e) = (c | 1, b | 1);
        let part = |top: u64, bottom: u64| Fraction {
            numerator: nat(top),
            denominator: nat(bottom),
        };
        let order = (u128::from(a) * u128::from(e)).cmp(&(u128::from(b) * u128::from(d)));
        assert_eq!(part(a, d).compare(&part(b, e)), order);
        let sum = part(a, d).add(&part(b, e));
        let turned = part(b, e).add(&part(a, d));
        assert_eq!(sum.compare(&turned), Ordering::Equal);
        assert!(part(a, d).between(a / d, a.div_ceil(d)));
    }
}

/// After 2 years 12 tenths are too far, above and below, and what is nearer
/// is near enough.
#[test]
fn nearness_of_money() {
    let hundredths = |value: u64| Fraction {
        numerator: value.into(),
        denominator: 100u64.into(),
    };
    for (value, near) in [(880, false), (881, true), (1119, true), (1120, false)] {
        assert_eq!(near_money(&hundredths(value), 10, 2), near, "{value}");
    }
}

/// Checks all bounds of a year against picks for it.
fn check_inside(scheme: &Scheme, year: u64, picks: &[Matrix]) {
    let s = usize::from(scheme.classes);
    let (mut low, mut high) = (vec![0; s], vec![0; s]);
    share_sheet(scheme, year, &mut low, &mut high).unwrap();
    for (j, exact) in exact_shares(scheme, picks).iter().enumerate() {
        assert_eq!(share(scheme, j as u64 + 1, year), Ok((low[j], high[j])));
        assert!(
            exact.times(ONE).between(low[j], high[j]),
            "{scheme:?} {year} {picks:?}"
        );
    }
    check_reached_inside(scheme, year, picks);
    let (low, high) = mean(scheme, year).unwrap();
    assert!(
        exact_mean(scheme, picks).between(low, high),
        "{scheme:?} {year} {picks:?}"
    );
    let (low, high) = total(scheme, year).unwrap();
    assert!(
        exact_total(scheme, picks).between(low, high),
        "{scheme:?} {year} {picks:?}"
    );
}

/// Checks the bounds for having reached each class by a year against picks for
/// it.
fn check_reached_inside(scheme: &Scheme, year: u64, picks: &[Matrix]) {
    for (j, exact) in exact_reached(scheme, picks).iter().enumerate() {
        let (low, high) = reached(scheme, j as u64 + 1, year).unwrap();
        assert!(
            exact.times(ONE).between(low, high),
            "{scheme:?} {year} {picks:?}"
        );
        let stayed = by_staying(scheme, j, picks);
        assert_eq!(exact.compare(&stayed), Ordering::Equal);
    }
}

/// The exact chance of having reached the class at `index`, without sequences:
/// its share where it leads to itself alone in every year.
fn by_staying(scheme: &Scheme, index: usize, picks: &[Matrix]) -> Fraction {
    let mut picks = picks.to_vec();
    for matrix in &mut picks {
        let row = &mut matrix[index];
        row.parts.fill(0);
        row.parts[index] = row.over;
    }
    exact_shares(scheme, &picks).swap_remove(index)
}

fn small_scheme(rng: &mut Rng) -> Scheme {
    let shape = Shape::up_to(rng, 4, 8);
    let mut scheme = made::scheme_of(rng, shape);
    scheme.horizon = 4;
    scheme
}

#[test]
fn rows_inside() {
    let mut rng = Rng::new(22);
    let mut small = 0;
    for _ in 0..4_000 {
        let scheme = made::scheme(&mut rng);
        let class = rng.between(1, u64::from(scheme.classes));
        let picked = any_row(&mut rng, &scheme, class);
        for (lower, upper) in [
            plain::interval_row(&scheme, class).unwrap(),
            plain::row(&scheme, class).unwrap(),
        ] {
            assert!(inside(&lower, &upper, &picked));
        }
        small += u64::from(picked.over < 100);
    }
    assert!(small > 400);
}

#[test]
fn no_picks_leave() {
    let mut rng = Rng::new(23);
    for _ in 0..6_000 {
        let scheme = small_scheme(&mut rng);
        for year in 0..=4 {
            let picks = any_picks(&mut rng, &scheme, year);
            check_inside(&scheme, year, &picks);
        }
    }
}

/// Checks that the extreme picks of each bound come close to it, and leave no
/// bound where `all` is set.
fn check_close(scheme: &Scheme, year: u64, classes: &[usize], all: bool) {
    let premiums = premium_tenths(scheme);
    for high in [false, true] {
        // The picks of a low bound lie from it to `year` above, those of a
        // high bound from `year` below to it.
        let near = |exact: &Fraction, (low, top): (u64, u64)| match high {
            false => exact.between(low, low + year),
            true => exact.between(top.saturating_sub(year), top),
        };
        for &j in classes {
            let picks = extreme_picks(scheme, &unit(j), None, year, high);
            let exact = exact_shares(scheme, &picks)[j].times(ONE);
            assert!(near(&exact, share(scheme, j as u64 + 1, year).unwrap()));
            if all {
                check_inside(scheme, year, &picks);
            }
            let picks = reached_picks(scheme, j, year, high);
            let exact = by_staying(scheme, j, &picks).times(ONE);
            assert!(near(&exact, reached(scheme, j as u64 + 1, year).unwrap()));
            if all {
                check_inside(scheme, year, &picks);
            }
        }
        let picks = extreme_picks(scheme, &premiums, None, year, high);
        let bound = |(low, top): (u64, u64)| if high { top } else { low };
        let mean = bound(mean(scheme, year).unwrap());
        assert!(near_money(&exact_mean(scheme, &picks), mean, year));
        if all {
            check_inside(scheme, year, &picks);
        }
        let picks = extreme_picks(scheme, &[0; 32], Some(&premiums), year, high);
        let total = bound(total(scheme, year).unwrap());
        assert!(near_money(&exact_total(scheme, &picks), total, year));
        if all {
            check_inside(scheme, year, &picks);
        }
    }
}

#[test]
fn extreme_picks_come_close() {
    let mut rng = Rng::new(24);
    for _ in 0..1_000 {
        let scheme = small_scheme(&mut rng);
        let classes: Vec<usize> = (0..usize::from(scheme.classes)).collect();
        for year in 0..=4 {
            check_close(&scheme, year, &classes, true);
        }
    }
}

#[test]
fn extreme_picks_come_close_on_larger_schemes() {
    let mut rng = Rng::new(25);
    for _ in 0..150 {
        let mut scheme = made::scheme(&mut rng);
        scheme.horizon = MAX_HORIZON;
        let year = rng.between(5, 12);
        let class = rng.below(u64::from(scheme.classes)) as usize;
        check_close(&scheme, year, &[class], false);
    }
}

/// Checks all pooled bounds of a year against picks for it.
fn check_pooled_inside(scheme: &Scheme, book: &Book, year: u64, picks: &[Matrix]) {
    let s = usize::from(scheme.classes);
    let told = || format!("{scheme:?} {book:?} {year} {picks:?}");
    let (mut low, mut high) = (vec![0; s], vec![0; s]);
    pooled_share_sheet(scheme, book, year, &mut low, &mut high).unwrap();
    let shares = exact_pooled_shares(scheme, book, picks);
    for (j, exact) in shares.iter().enumerate() {
        assert!(exact.times(ONE).between(low[j], high[j]), "{}", told());
    }
    let (low, high) = pooled_mean(scheme, book, year).unwrap();
    let exact = exact_pooled_mean(scheme, book, picks);
    assert!(exact.between(low, high), "{}", told());
    let (low, high) = pooled_total(scheme, book, year).unwrap();
    let exact = exact_pooled_total(scheme, book, picks);
    assert!(exact.between(low, high), "{}", told());
}

#[test]
fn no_picks_leave_pooled_bounds() {
    let mut rng = Rng::new(26);
    for _ in 0..2_000 {
        let scheme = small_scheme(&mut rng);
        for year in 0..=4 {
            let book = made::pooled_book(&mut rng, scheme.classes);
            let picks = any_picks(&mut rng, &scheme, year);
            check_pooled_inside(&scheme, &book, year, &picks);
        }
    }
}

/// Checks that the extreme picks of each pooled bound come close to it, and
/// leave no pooled bound where `all` is set. They are those of the bound for
/// the start class: the start has no part in them.
fn check_pooled_close(scheme: &Scheme, book: &Book, year: u64, classes: &[usize], all: bool) {
    let premiums = premium_tenths(scheme);
    for high in [false, true] {
        let bound = |(low, top): (u64, u64)| if high { top } else { low };
        let mut used = Vec::new();
        for &j in classes {
            let picks = extreme_picks(scheme, &unit(j), None, year, high);
            let exact = exact_pooled_shares(scheme, book, &picks)[j].times(ONE);
            let share = bound(pooled_share(scheme, book, j as u64 + 1, year).unwrap());
            let room = year + 1;
            assert!(exact.between(share.saturating_sub(room), share + room));
            used.push(picks);
        }
        let picks = extreme_picks(scheme, &premiums, None, year, high);
        let mean = bound(pooled_mean(scheme, book, year).unwrap());
        let exact = exact_pooled_mean(scheme, book, &picks);
        assert!(near_money(&exact, mean, year));
        used.push(picks);
        let picks = extreme_picks(scheme, &[0; 32], Some(&premiums), year, high);
        let total = bound(pooled_total(scheme, book, year).unwrap());
        let exact = exact_pooled_total(scheme, book, &picks);
        assert!(near_money(&exact, total, year));
        used.push(picks);
        for picks in used.iter().filter(|_| all) {
            check_pooled_inside(scheme, book, year, picks);
        }
    }
}

#[test]
fn extreme_picks_come_close_to_pooled_bounds() {
    let mut rng = Rng::new(27);
    for _ in 0..400 {
        let scheme = small_scheme(&mut rng);
        let classes: Vec<usize> = (0..usize::from(scheme.classes)).collect();
        for year in 0..=4 {
            let book = made::pooled_book(&mut rng, scheme.classes);
            check_pooled_close(&scheme, &book, year, &classes, true);
        }
    }
}

#[test]
fn extreme_picks_come_close_to_pooled_bounds_of_larger_schemes() {
    let mut rng = Rng::new(28);
    for _ in 0..50 {
        let mut scheme = made::scheme(&mut rng);
        scheme.horizon = MAX_HORIZON;
        let book = made::pooled_book(&mut rng, scheme.classes);
        let year = rng.between(5, 12);
        let class = rng.below(u64::from(scheme.classes)) as usize;
        check_pooled_close(&scheme, &book, year, &[class], false);
    }
}
