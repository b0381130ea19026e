//! Picked stochastic rows and the exact figures of a list of matrices.

use crate::exact::{Fraction, Nat};
use crate::rng::Rng;
use plain::{high_step, low_step, Book, Figures, Scheme, MAX_CLASSES, ONE};

/// A stochastic row: whole numbers, one for each class, that sum to `over`.
#[derive(Clone, Debug)]
pub struct Row {
    pub parts: Vec<u64>,
    pub over: u64,
}

/// One row for each class.
pub type Matrix = Vec<Row>;

/// Whether a row is stochastic and inside an interval row of its size.
pub fn inside(lower: &Figures, upper: &Figures, row: &Row) -> bool {
    let over = u128::from(row.over);
    let fits = |((&part, &low), &high): ((&u64, &u64), &u64)| {
        let part = u128::from(part) * u128::from(ONE);
        u128::from(low) * over <= part && part <= u128::from(high) * over
    };
    row.over >= 1
        && row.parts.iter().map(|&part| u128::from(part)).sum::<u128>() == over
        && row.parts.iter().zip(lower).zip(upper).all(fits)
}

/// A random row over `over` inside the interval of a class, where there is one.
pub fn random_row(rng: &mut Rng, scheme: &Scheme, class: u64, over: u64) -> Option<Row> {
    let (lower, upper) = plain::interval_row(scheme, class).expect("a class of the scheme");
    let s = usize::from(scheme.classes);
    let scaled = |end: u64| u128::from(end) * u128::from(over);
    let least: Vec<u64> = lower[..s]
        .iter()
        .map(|&l| scaled(l).div_ceil(u128::from(ONE)) as u64)
        .collect();
    let most: Vec<u64> = upper[..s]
        .iter()
        .map(|&u| (scaled(u) / u128::from(ONE)) as u64)
        .collect();
    let parts = parts_between(rng, &least, &most, over)?;
    let row = Row { parts, over };
    assert!(inside(&lower, &upper, &row));
    Some(row)
}

/// Random parts from `least` to `most` that sum to `over`, where there are any.
fn parts_between(rng: &mut Rng, least: &[u64], most: &[u64], over: u64) -> Option<Vec<u64>> {
    if least.iter().zip(most).any(|(l, u)| l > u) {
        return None;
    }
    let used: u128 = least.iter().map(|&l| u128::from(l)).sum();
    let mut rest = u128::from(over).checked_sub(used)?;
    let ends = least.iter().zip(most);
    let mut room: u128 = ends.map(|(l, u)| u128::from(u - l)).sum();
    if rest > room {
        return None;
    }

    let mut parts = least.to_vec();
    let mut places: Vec<usize> = (0..parts.len()).collect();
    rng.shuffle(&mut places);
    for j in places {
        let here = u128::from(most[j] - least[j]);
        room -= here;
        // What the places after this one cannot take, and what there is.
        let need = rest.saturating_sub(room) as u64;
        let can = here.min(rest) as u64;
        let given = match rng.below(4) {
            0 => need,
            1 => can,
            _ => rng.between(need, can),
        };
        parts[j] += given;
        rest -= u128::from(given);
    }
    Some(parts)
}

/// A row for a class: over a small or large number, extreme, or a mixture of
/// two rows over ONE.
pub fn any_row(rng: &mut Rng, scheme: &Scheme, class: u64) -> Row {
    for _ in 0..4 {
        let over = match rng.below(6) {
            0 | 1 => rng.between(1, 12),
            2 => rng.between(1, 100_000),
            3 => rng.between(1, u64::MAX),
            4 => rng.pick(&[1, 2, 10, 1000, ONE - 1, ONE, ONE + 1, u64::MAX]),
            _ => return mixture(rng, scheme, class),
        };
        if let Some(row) = random_row(rng, scheme, class, over) {
            return row;
        }
    }
    random_row(rng, scheme, class, ONE).expect("a row of whole parts")
}

/// Two rows over ONE, extreme or random, mixed in whole weights.
fn mixture(rng: &mut Rng, scheme: &Scheme, class: u64) -> Row {
    let payoff = crate::made::payoff(rng, scheme.classes);
    let low = extreme_row(scheme, &payoff, class, false);
    let other = match rng.below(3) {
        0 => extreme_row(scheme, &payoff, class, true),
        1 => random_row(rng, scheme, class, ONE).expect("a row of whole parts"),
        _ => return low,
    };
    let (a, b) = (rng.between(0, 9), rng.between(1, 9));
    let parts = low
        .parts
        .iter()
        .zip(&other.parts)
        .map(|(x, y)| a * x + b * y)
        .collect();
    Row {
        parts,
        over: (a + b) * ONE,
    }
}

/// The low or the high step of a scheme.
fn step_of(scheme: &Scheme, high: bool) -> impl Fn(&Figures, u64) -> (u64, Figures) + '_ {
    let step = if high { high_step } else { low_step };
    move |figures, class| step(scheme, figures, class).expect("a step")
}

/// The row that a step hands back, as a pick.
fn extreme_row(scheme: &Scheme, payoff: &Figures, class: u64, high: bool) -> Row {
    let (_, row) = step_of(scheme, high)(payoff, class);
    Row {
        parts: row[..usize::from(scheme.classes)].to_vec(),
        over: ONE,
    }
}

/// Random picks for `years` years.
pub fn any_picks(rng: &mut Rng, scheme: &Scheme, years: u64) -> Vec<Matrix> {
    let classes = 1..=u64::from(scheme.classes);
    (0..years)
        .map(|_| {
            classes
                .clone()
                .map(|class| any_row(rng, scheme, class))
                .collect()
        })
        .collect()
}

/// The picks that follow the steps of a bound: the matrix of the first year is
/// made of the rows of the last step. With `added` the figures of each year
/// get these added, as in a total.
pub fn extreme_picks(
    scheme: &Scheme,
    payoff: &Figures,
    added: Option<&Figures>,
    years: u64,
    high: bool,
) -> Vec<Matrix> {
    let step = step_of(scheme, high);
    picks_by(step, scheme.classes, payoff, added, years)
}

/// The same for s classes, from any one-year step of figures and a class.
pub fn picks_by(
    step: impl Fn(&Figures, u64) -> (u64, Figures),
    s: u8,
    payoff: &Figures,
    added: Option<&Figures>,
    years: u64,
) -> Vec<Matrix> {
    let s = usize::from(s);
    let mut figures = *payoff;
    let mut picks = Vec::new();
    for _ in 0..years {
        let mut next = [0; MAX_CLASSES];
        let mut matrix = Vec::new();
        for i in 0..s {
            let (figure, row) = step(&figures, i as u64 + 1);
            next[i] = figure + added.map_or(0, |added| added[i]);
            matrix.push(Row {
                parts: row[..s].to_vec(),
                over: ONE,
            });
        }
        figures = next;
        picks.push(matrix);
    }
    picks.reverse();
    picks
}

/// A one-year step but that the figure of the class at `index` is ONE, as in the
/// chance of having reached it.
pub fn staying(
    step: impl Fn(&Figures, u64) -> (u64, Figures),
    index: usize,
) -> impl Fn(&Figures, u64) -> (u64, Figures) {
    move |figures, class| match step(figures, class) {
        (_, row) if class == index as u64 + 1 => (ONE, row),
        figure_and_row => figure_and_row,
    }
}

/// The picks that follow the steps of a bound for the chance of having reached
/// the class at `index`.
pub fn reached_picks(scheme: &Scheme, index: usize, years: u64, high: bool) -> Vec<Matrix> {
    let step = staying(step_of(scheme, high), index);
    picks_by(step, scheme.classes, &unit(index), None, years)
}

/// The payoff for the share of the class at `index`, and for the chance of
/// having reached it.
pub fn unit(index: usize) -> Figures {
    let mut payoff = [0; MAX_CLASSES];
    payoff[index] = ONE;
    payoff
}

/// The premiums of a scheme in tenths of a cent, 0 beyond s.
pub fn premium_tenths(scheme: &Scheme) -> Figures {
    let mut figures = [0; MAX_CLASSES];
    let used = &scheme.premiums[..usize::from(scheme.classes)];
    for (figure, &premium) in figures.iter_mut().zip(used) {
        *figure = u64::from(premium) * 10;
    }
    figures
}

/// Whether an exact figure of money comes close enough to a bound: nearer than
/// one cent plus a tenth for each year.
pub fn near_money(exact: &Fraction, bound: u64, years: u64) -> bool {
    exact.nearer(bound, 10 + years)
}

/// The exact shares of all classes: the start class's row in the product of
/// the matrices, first year leftmost.
pub fn exact_shares(scheme: &Scheme, picks: &[Matrix]) -> Vec<Fraction> {
    let s = usize::from(scheme.classes);
    let mut numerators = vec![Nat::from(0u64); s];
    numerators[usize::from(scheme.start) - 1] = Nat::from(1u64);
    let mut denominator = Nat::from(1u64);
    for matrix in picks {
        let (entries, over) = common(matrix);
        let mut next = vec![Nat::from(0u64); s];
        for (weight, row) in numerators.iter().zip(&entries) {
            for (sum, entry) in next.iter_mut().zip(row) {
                *sum = sum.add(&weight.mul(entry));
            }
        }
        numerators = next;
        denominator = denominator.mul(&over);
    }
    fractions(numerators, &denominator)
}

/// The entries of a matrix over one denominator, and this: that of all rows, or
/// the product of theirs.
fn common(matrix: &Matrix) -> (Vec<Vec<Nat>>, Nat) {
    let overs: Vec<Nat> = matrix.iter().map(|row| row.over.into()).collect();
    let (scales, over) = if overs.iter().all(|over| *over == overs[0]) {
        (vec![Nat::from(1u64); overs.len()], overs[0].clone())
    } else {
        let others = |i: usize| product(overs[..i].iter().chain(&overs[i + 1..]));
        ((0..overs.len()).map(others).collect(), product(&overs))
    };
    let scaled = |(row, scale): (&Row, &Nat)| {
        let parts = row.parts.iter();
        parts.map(|&part| scale.mul_small(part)).collect()
    };
    (matrix.iter().zip(&scales).map(scaled).collect(), over)
}

fn product<'a>(factors: impl IntoIterator<Item = &'a Nat>) -> Nat {
    let factors = factors.into_iter();
    factors.fold(Nat::from(1u64), |product, factor| product.mul(factor))
}

/// Fractions of these numerators and one denominator.
fn fractions(numerators: Vec<Nat>, denominator: &Nat) -> Vec<Fraction> {
    let fraction = |numerator| Fraction {
        numerator,
        denominator: denominator.clone(),
    };
    numerators.into_iter().map(fraction).collect()
}

/// The exact chances of having reached each class: for each the sum over every
/// sequence of classes, one for each of years 0 to t, that begins at the start
/// class and holds the class, of the product of the picked entries along it.
pub fn exact_reached(scheme: &Scheme, picks: &[Matrix]) -> Vec<Fraction> {
    let s = usize::from(scheme.classes);
    let start = usize::from(scheme.start) - 1;
    let (years, overs): (Vec<_>, Vec<_>) = picks.iter().map(common).unzip();
    let mut numerators = vec![Nat::from(0u64); s];
    for sequence in sequences(s, picks.len() + 1).filter(|sequence| sequence[0] == start) {
        let steps = sequence.windows(2).zip(&years);
        let product = product(steps.map(|(step, entries)| &entries[step[0]][step[1]]));
        for (class, sum) in numerators.iter_mut().enumerate() {
            if sequence.contains(&class) {
                *sum = sum.add(&product);
            }
        }
    }
    fractions(numerators, &product(&overs))
}

/// Every sequence of so many indexes of s classes.
fn sequences(s: usize, length: usize) -> impl Iterator<Item = Vec<usize>> {
    let digits = move |number: usize| (0..length as u32).map(move |at| number / s.pow(at) % s);
    (0..s.pow(length as u32)).map(move |number| digits(number).collect())
}

/// The exact mean premium after the picked years.
pub fn exact_mean(scheme: &Scheme, picks: &[Matrix]) -> Fraction {
    let shares = exact_shares(scheme, picks);
    let mut numerator = Nat::from(0u64);
    for (share, &premium) in shares.iter().zip(&scheme.premiums) {
        numerator = numerator.add(&share.numerator.mul_small(u64::from(premium)));
    }
    Fraction {
        numerator,
        denominator: shares[0].denominator.clone(),
    }
}

/// The exact total of as many premiums as there are picked years.
pub fn exact_total(scheme: &Scheme, picks: &[Matrix]) -> Fraction {
    let means = (0..picks.len()).map(|years| exact_mean(scheme, &picks[..years]));
    means.fold(Fraction::whole(0), |sum, mean| sum.add(&mean))
}

/// The exact figures of a scheme with each of its classes in turn as the start
/// class.
fn for_each_class<T>(scheme: &Scheme, exact: impl Fn(&Scheme) -> T) -> Vec<T> {
    let starting = |start| Scheme {
        start,
        ..scheme.clone()
    };
    (1..=scheme.classes)
        .map(|class| exact(&starting(class)))
        .collect()
}

/// The sum of count times exact figure, class by class, over the sum of the
/// counts.
fn pooled<'a>(book: &Book, figures: impl Iterator<Item = &'a Fraction>) -> Fraction {
    let mut sum = Fraction::whole(0);
    let mut chambers = 0;
    for (figure, &count) in figures.zip(book) {
        let count = u64::from(count);
        sum = sum.add(&figure.times(count));
        chambers += count;
    }
    sum.over(chambers)
}

/// The exact shares of all classes, pooled over a book: the same matrices hold
/// for all of it.
pub fn exact_pooled_shares(scheme: &Scheme, book: &Book, picks: &[Matrix]) -> Vec<Fraction> {
    let shares = for_each_class(scheme, |scheme| exact_shares(scheme, picks));
    (0..usize::from(scheme.classes))
        .map(|j| pooled(book, shares.iter().map(|shares| &shares[j])))
        .collect()
}

/// The exact mean premium after the picked years, pooled over a book.
pub fn exact_pooled_mean(scheme: &Scheme, book: &Book, picks: &[Matrix]) -> Fraction {
    let means = for_each_class(scheme, |scheme| exact_mean(scheme, picks));
    pooled(book, means.iter())
}

/// The exact total of as many premiums as there are picked years, pooled over
/// a book.
pub fn exact_pooled_total(scheme: &Scheme, book: &Book, picks: &[Matrix]) -> Fraction {
    let totals = for_each_class(scheme, |scheme| exact_total(scheme, picks));
    pooled(book, totals.iter())
}
