//! Rows, one-year steps, rule rows and bands of the proved library against the
//! plain version.

mod lent;

use lent::{check_one, near, of_length, Lent};
use plain::{Figures, Scheme, ONE};
use trials::exact::Fraction;
use trials::made::{self, Shape};
use trials::picks::{
    exact_mean, exact_reached, exact_shares, exact_total, inside, near_money, picks_by,
    premium_tenths, staying, unit, Row,
};
use trials::rng::Rng;

/// Marks that no call writes.
const MARK: u64 = 0xA5A5_A5A5_A5A5_A5A5;
const SMALL_MARK: u32 = 0xA5A5_A5A5;
const BYTE: u8 = 0xA5;

/// What the plain version answers on the scheme, or the cause of reading it.
fn asked<T>(record: &[u8], ask: impl FnOnce(&Scheme) -> Result<T, u8>) -> Result<T, u8> {
    ask(&plain::read(record)?)
}

/// The tight row into slices of a and b numbers.
fn check_row(record: &[u8], class: u64, a: usize, b: usize) {
    let rows = asked(record, |scheme| plain::row(scheme, class));
    let wanted = of_length(a == 32 && b == 32, rows);
    let (mut lower, mut upper) = (Lent::new(a, MARK), Lent::new(b, MARK));
    let answer = library::row(record, class, lower.part(), upper.part());
    check_one(answer, &wanted.map(|rows| rows.0), &lower);
    check_one(answer, &wanted.map(|rows| rows.1), &upper);
}

/// The sum of part times payoff.
fn worth(row: &[u64], payoff: &Figures) -> u128 {
    let one = |(&part, &value): (&u64, &u64)| u128::from(part) * u128::from(value);
    row.iter().zip(payoff).map(one).sum()
}

/// Checks what a step must say of its row: inside, whole, 0 beyond s, and of
/// the same worth as the plain version's.
fn check_step_row(record: &[u8], class: u64, row: &[u64], plain_row: &Figures, payoff: &Figures) {
    let scheme = plain::read(record).expect("a record");
    let s = usize::from(scheme.classes);
    let (lower, upper) = plain::interval_row(&scheme, class).expect("a row");
    let parts = row[..s].to_vec();
    assert!(inside(&lower, &upper, &Row { parts, over: ONE }));
    assert!(row[s..].iter().all(|&part| part == 0));
    assert_eq!(worth(&row[..s], payoff), worth(&plain_row[..s], payoff));
}

/// A step with a payoff of any length, into slices of a and b numbers.
fn check_step(record: &[u8], payoff: &[u64], class: u64, high: bool, a: usize, b: usize) {
    let mut whole = [0; 32];
    for (value, &given) in whole.iter_mut().zip(payoff) {
        *value = given;
    }
    let step = if high {
        plain::high_step
    } else {
        plain::low_step
    };
    let fits = payoff.len() == 32 && a == 1 && b == 32;
    let wanted = of_length(fits, asked(record, |scheme| step(scheme, &whole, class)));
    let (mut figure, mut row) = (Lent::new(a, MARK), Lent::new(b, MARK));
    let step = if high {
        library::high_step
    } else {
        library::low_step
    };
    let answer = step(record, payoff, class, figure.part(), row.part());
    check_one(answer, &wanted.map(|(figure, _)| [figure]), &figure);
    match wanted {
        Ok((_, plain_row)) => check_step_row(record, class, row.left(), &plain_row, &whole),
        Err(_) => row.untouched(),
    }
}

/// The rule row into a slice of this length.
fn check_rule_row(record: &[u8], class: u64, length: usize) {
    let rules = asked(record, |scheme| match class {
        1.. if class <= u64::from(scheme.classes) => Ok(plain::rule_row(record, class)),
        _ => Err(11),
    });
    let wanted = rules.and_then(|rules| of_length(length == rules.len(), Ok(rules)));
    let mut out = Lent::new(length, BYTE);
    let answer = library::rule_row(record, class, out.part());
    check_one(answer, &wanted, &out);
}

/// The bands into slices of a and b numbers.
fn check_bands(record: &[u8], a: usize, b: usize) {
    let bands = asked(record, |_| Ok(plain::bands(record)));
    let wanted = bands.and_then(|bands| of_length(a == bands.len() && b == bands.len(), Ok(bands)));
    let ends = wanted.map(|bands| bands.into_iter().unzip::<u32, u32, Vec<_>, Vec<_>>());
    let (mut lower, mut upper) = (Lent::new(a, SMALL_MARK), Lent::new(b, SMALL_MARK));
    let answer = library::bands(record, lower.part(), upper.part());
    check_one(answer, &ends.clone().map(|ends| ends.0), &lower);
    check_one(answer, &ends.map(|ends| ends.1), &upper);
}

/// A payoff for s classes, of 32 numbers or another length, sometimes past its
/// limit.
fn payoff(rng: &mut Rng, s: u8) -> Vec<u64> {
    let mut payoff = match rng.below(4) {
        0 => made::excess_payoff(rng, s),
        _ => made::payoff(rng, s),
    }
    .to_vec();
    if rng.once_in(3) {
        let length = rng.pick(&[0, 1, usize::from(s), 31, 33, 34]);
        payoff.resize(length, u64::MAX);
    }
    payoff
}

/// Every operation on one record, with every length near the right one.
fn compare(rng: &mut Rng, record: &[u8]) {
    let (s, m) = plain::read(record).map_or((2, 2), |scheme| (scheme.classes, scheme.columns));
    let (top, m) = (u64::from(s), usize::from(m));
    let out_of_range = rng.pick(&[0, top + 1, top + 256, top + (1 << 32), u64::MAX]);
    for class in [rng.between(1, top), rng.pick(&[1, top]), out_of_range] {
        check_row(record, class, 32, 32);
        check_row(record, class, rng.pick(&near(32)), rng.pick(&near(32)));
        for high in [false, true] {
            let payoff = payoff(rng, s);
            check_step(record, &payoff, class, high, 1, 32);
            let lengths = (rng.pick(&near(1)), rng.pick(&near(32)));
            check_step(record, &payoff, class, high, lengths.0, lengths.1);
        }
        for length in near(m) {
            check_rule_row(record, class, length);
        }
    }
    for length in near(m) {
        check_bands(record, length, m);
        check_bands(record, m, length);
        check_bands(record, length, rng.pick(&near(m)));
    }
}

#[test]
fn accepted() {
    let mut rng = Rng::new(131);
    for s in 1..=32 {
        for m in 1..=8 {
            for turn in 0..120 {
                let scheme = made::scheme_of(&mut rng, Shape::of(s, m));
                compare(&mut rng, &made::record_by_turns(&scheme, turn));
            }
        }
    }
}

#[test]
fn damaged() {
    let mut rng = Rng::new(132);
    for _ in 0..40_000 {
        let record = made::damaged(&mut rng);
        compare(&mut rng, &record);
    }
}

/// The picks made of the rows that the library's own steps hand back come close
/// to its bounds.
#[test]
fn extreme_picks_come_close() {
    let mut rng = Rng::new(133);
    for _ in 0..500 {
        let shape = Shape::up_to(&mut rng, 5, 8);
        let mut scheme = made::scheme_of(&mut rng, shape);
        scheme.horizon = 4;
        for year in 0..=4 {
            check_close(&scheme, year);
        }
    }
}

/// Checks the picks of each bound of a year against it.
fn check_close(scheme: &Scheme, year: u64) {
    let record = made::record_by_turns(scheme, year);
    let s = scheme.classes;
    let premiums = premium_tenths(scheme);
    for high in [false, true] {
        let step = if high {
            library::high_step
        } else {
            library::low_step
        };
        let one = |figures: &Figures, class| {
            let (mut figure, mut row) = ([0], [0; 32]);
            step(&record, figures, class, &mut figure, &mut row).expect("a step");
            (figure[0], row)
        };
        let near = |exact: Fraction, [low, top]: [u64; 2]| match high {
            false => assert!(exact.between(low, low + year)),
            true => assert!(exact.between(top.saturating_sub(year), top)),
        };
        let mut out = [0; 2];
        for j in 0..usize::from(s) {
            let class = j as u64 + 1;
            let picks = picks_by(one, s, &unit(j), None, year);
            library::share(&record, class, year, &mut out).expect("a share");
            near(exact_shares(scheme, &picks)[j].times(ONE), out);
            let picks = picks_by(staying(one, j), s, &unit(j), None, year);
            library::reached(&record, class, year, &mut out).expect("a chance");
            near(exact_reached(scheme, &picks)[j].times(ONE), out);
        }
        let picks = picks_by(one, s, &premiums, None, year);
        library::mean(&record, year, &mut out).expect("a mean");
        assert!(near_money(
            &exact_mean(scheme, &picks),
            out[usize::from(high)],
            year
        ));
        let picks = picks_by(one, s, &[0; 32], Some(&premiums), year);
        library::total(&record, year, &mut out).expect("a total");
        assert!(near_money(
            &exact_total(scheme, &picks),
            out[usize::from(high)],
            year
        ));
    }
}
