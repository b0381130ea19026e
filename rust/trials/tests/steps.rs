//! Rows and the one-year step against plain enumeration, and the bounds over
//! years against steps put one on another.

use plain::{
    high_step, interval_row, low_step, mean, row, share, share_sheet, sheet, total, Figures,
    Scheme, ONE,
};
use trials::made::{self, Shape};
use trials::picks::{inside, premium_tenths, Row};
use trials::rng::Rng;

/// The interval row by its sums.
fn summed_row(scheme: &Scheme, class: usize) -> (Figures, Figures) {
    let (mut lower, mut upper) = ([0; 32], [0; 32]);
    for j in 1..=usize::from(scheme.classes) {
        let columns = || {
            (0..usize::from(scheme.columns))
                .filter(|k| usize::from(scheme.rules[(class - 1) * 8 + k]) == j)
        };
        lower[j - 1] = columns().map(|k| u64::from(scheme.lowers[k])).sum();
        upper[j - 1] = ONE.min(columns().map(|k| u64::from(scheme.uppers[k])).sum());
    }
    (lower, upper)
}

#[test]
fn interval_rows() {
    let mut rng = Rng::new(11);
    for _ in 0..2_000 {
        let scheme = made::scheme(&mut rng);
        for class in 1..=usize::from(scheme.classes) {
            let (lower, upper) = summed_row(&scheme, class);
            assert_eq!(interval_row(&scheme, class as u64), Ok((lower, upper)));
            assert!(lower.iter().sum::<u64>() <= ONE && ONE <= upper.iter().sum());
        }
    }
}

/// The sum of part times payoff.
fn worth(parts: &[u64], payoff: &Figures) -> u128 {
    parts
        .iter()
        .zip(payoff)
        .map(|(&part, &value)| u128::from(part) * u128::from(value))
        .sum()
}

/// The least and the greatest worth over the vertices: all entries but one at
/// an end of theirs.
fn by_vertices(lower: &Figures, upper: &Figures, s: usize, payoff: &Figures) -> (u128, u128) {
    let mut worths = Vec::new();
    for free in 0..s {
        for ends in 0..1u32 << s {
            let mut parts: Vec<u64> = (0..s)
                .map(|j| {
                    if ends >> j & 1 == 0 {
                        lower[j]
                    } else {
                        upper[j]
                    }
                })
                .collect();
            parts[free] = 0;
            let others: u64 = parts.iter().sum();
            if others <= ONE && (lower[free]..=upper[free]).contains(&(ONE - others)) {
                parts[free] = ONE - others;
                worths.push(worth(&parts, payoff));
            }
        }
    }
    (*worths.iter().min().unwrap(), *worths.iter().max().unwrap())
}

/// Every end of a tight row is the least or the greatest of its entry over the
/// vertices of the interval row.
#[test]
fn tight_rows_against_vertices() {
    let mut rng = Rng::new(14);
    let mut moved = [0; 2];
    for _ in 0..3_000 {
        let shape = Shape::up_to(&mut rng, 6, 8);
        let scheme = made::scheme_of(&mut rng, shape);
        let s = usize::from(shape.classes);
        for class in 1..=s as u64 {
            let (lower, upper) = interval_row(&scheme, class).unwrap();
            let (tight_lower, tight_upper) = row(&scheme, class).unwrap();
            for j in 0..s {
                let mut at_j = [0; 32];
                at_j[j] = 1;
                let (least, most) = by_vertices(&lower, &upper, s, &at_j);
                assert_eq!(u128::from(tight_lower[j]), least);
                assert_eq!(u128::from(tight_upper[j]), most);
                moved[0] += u64::from(tight_lower[j] != lower[j]);
                moved[1] += u64::from(tight_upper[j] != upper[j]);
            }
            let beyond = tight_lower[s..].iter().chain(&tight_upper[s..]);
            assert!(beyond.into_iter().all(|&end| end == 0));
        }
    }
    assert!(
        moved[0] > 1_000 && moved[1] > 1_000,
        "ends moved: {moved:?}"
    );
}

/// Checks that a handed row is inside, 0 beyond s, and reaches the worth.
fn check_row(scheme: &Scheme, class: u64, handed: &Figures, payoff: &Figures, reached: u128) {
    let s = usize::from(scheme.classes);
    let (lower, upper) = interval_row(scheme, class).unwrap();
    assert!(inside(
        &lower,
        &upper,
        &Row {
            parts: handed[..s].to_vec(),
            over: ONE
        }
    ));
    assert!(handed[s..].iter().all(|&part| part == 0));
    assert_eq!(worth(&handed[..s], payoff), reached);
}

#[test]
fn steps_against_vertices() {
    let mut rng = Rng::new(12);
    for _ in 0..30_000 {
        let shape = Shape::up_to(&mut rng, 6, 8);
        let scheme = made::scheme_of(&mut rng, shape);
        let s = shape.classes;
        let class = rng.between(1, u64::from(s));
        let payoff = made::payoff(&mut rng, s);
        let (lower, upper) = interval_row(&scheme, class).unwrap();
        let (least, most) = by_vertices(&lower, &upper, usize::from(s), &payoff);
        let one = u128::from(ONE);

        let (low, handed) = low_step(&scheme, &payoff, class).unwrap();
        assert_eq!(u128::from(low), least / one);
        check_row(&scheme, class, &handed, &payoff, least);
        let (high, handed) = high_step(&scheme, &payoff, class).unwrap();
        assert_eq!(u128::from(high), most.div_ceil(one));
        check_row(&scheme, class, &handed, &payoff, most);
    }
}

#[test]
fn steps_of_any_size() {
    let mut rng = Rng::new(13);
    for _ in 0..40_000 {
        let scheme = made::scheme(&mut rng);
        let s = usize::from(scheme.classes);
        let class = rng.between(1, s as u64);
        let payoff = made::payoff(&mut rng, scheme.classes);
        let (low, low_row) = low_step(&scheme, &payoff, class).unwrap();
        let (high, high_row) = high_step(&scheme, &payoff, class).unwrap();
        let one = u128::from(ONE);
        let (least, most) = (
            worth(&low_row[..s], &payoff),
            worth(&high_row[..s], &payoff),
        );
        assert_eq!(
            (u128::from(low), u128::from(high)),
            (least / one, most.div_ceil(one))
        );
        check_row(&scheme, class, &low_row, &payoff, least);
        check_row(&scheme, class, &high_row, &payoff, most);

        // The row is best: no pair of classes lets parts move for the better.
        let (lower, upper) = interval_row(&scheme, class).unwrap();
        for a in 0..s {
            for b in 0..s {
                if payoff[a] > payoff[b] {
                    assert!(low_row[a] == lower[a] || low_row[b] == upper[b]);
                    assert!(high_row[b] == lower[b] || high_row[a] == upper[a]);
                }
            }
        }
    }
}

type Step = fn(&Scheme, &Figures, u64) -> Result<(u64, Figures), u8>;

/// The figures of all classes a year on, class by class.
fn a_year(step: Step, scheme: &Scheme, figures: &Figures) -> Figures {
    let mut next = [0; 32];
    for class in 1..=usize::from(scheme.classes) {
        next[class - 1] = step(scheme, figures, class as u64).unwrap().0;
    }
    next
}

/// All low and high figures a year on; the last pair is the total's, to which
/// a premium is added.
fn all_a_year(scheme: &Scheme, pairs: &mut [(Figures, Figures)]) {
    for (low, high) in pairs.iter_mut() {
        *low = a_year(low_step, scheme, low);
        *high = a_year(high_step, scheme, high);
    }
    let (low, high) = pairs.last_mut().expect("the total");
    for figures in [low, high] {
        for (figure, premium) in figures.iter_mut().zip(premium_tenths(scheme)) {
            *figure += premium;
        }
    }
}

/// The sheet of an accepted record from one-year steps.
fn sheet_by_steps(scheme: &Scheme) -> String {
    let s = usize::from(scheme.classes);
    let start = usize::from(scheme.start) - 1;
    let premiums = premium_tenths(scheme);
    let mut text = format!(
        "SCHEME {s} {} {} {}\n",
        scheme.columns, scheme.start, scheme.horizon
    );
    // Low and high figures: one pair a class, then the mean, then the total,
    // both in tenths of a cent.
    let mut pairs: Vec<(Figures, Figures)> = (0..s)
        .map(|j| {
            let mut payoff = [0; 32];
            payoff[j] = ONE;
            (payoff, payoff)
        })
        .collect();
    pairs.push((premiums, premiums));
    pairs.push(([0; 32], [0; 32]));
    for year in 0..=u64::from(scheme.horizon) {
        if year > 0 {
            all_a_year(scheme, &mut pairs);
        }
        let at_start = |pair: usize| (pairs[pair].0[start], pairs[pair].1[start]);
        let (mut low, mut high) = (vec![0; s], vec![0; s]);
        share_sheet(scheme, year, &mut low, &mut high).unwrap();
        for j in 0..s {
            assert_eq!((low[j], high[j]), at_start(j));
            text += &format!("YEAR {year} CLASS {} {} {}\n", j + 1, low[j], high[j]);
        }
        let class = 1 + year % s as u64;
        assert_eq!(share(scheme, class, year), Ok(at_start(class as usize - 1)));
        let cents = |(low, high): (u64, u64)| (low / 10, high.div_ceil(10));
        assert_eq!(mean(scheme, year), Ok(cents(at_start(s))));
        assert_eq!(total(scheme, year), Ok(cents(at_start(s + 1))));
        let (low, high) = cents(at_start(s));
        text += &format!("YEAR {year} PREMIUM {low} {high}\n");
    }
    let (low, high) = (
        pairs[s + 1].0[start] / 10,
        pairs[s + 1].1[start].div_ceil(10),
    );
    text + &format!("TOTAL {low} {high}\n")
}

#[test]
fn years_and_sheets_by_steps() {
    let mut rng = Rng::new(14);
    for turn in 0..600 {
        let mut scheme = made::scheme(&mut rng);
        if turn % 8 != 0 {
            scheme.horizon %= 9;
        }
        let text = sheet_by_steps(&scheme);
        let given = sheet(&made::record_of(&scheme));
        assert!(given == text.as_bytes(), "{scheme:?}");
    }
}
