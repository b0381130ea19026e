//! The pooled operations of the comparison, and books joined.

use crate::lent::{check_one, near, of_length, Lent};
use crate::{check_bounds, classes, years, Tally, Trial, LONG, MARK};
use plain::{Book, MAX_CLASSES};
use trials::made;
use trials::rng::Rng;

/// A mark that no call writes as a count.
const COUNT_MARK: u32 = 0xA5A5_A5A5;

/// A pooled low and high, the share that of a class.
#[derive(Clone, Copy)]
enum Figure {
    Share(u64),
    Mean,
    Total,
}

/// Says which books they were where a comparison fails.
struct Named<'a>(&'a [&'a [u32]]);

impl Drop for Named<'_> {
    fn drop(&mut self) {
        if std::thread::panicking() {
            eprintln!("with the books {:?}", self.0);
        }
    }
}

/// The book that lent counts stand for before 13: those missing are 0, and
/// those beyond 32 are ignored.
fn whole(counts: &[u32]) -> Book {
    let mut book = [0; MAX_CLASSES];
    for (count, &lent) in book.iter_mut().zip(counts) {
        *count = lent;
    }
    book
}

/// A book for s classes in a slice of this length.
fn book_of(rng: &mut Rng, s: u64, length: usize) -> Vec<u32> {
    let mut counts = made::book(rng, s as u8).to_vec();
    counts.resize(length, u32::MAX);
    counts
}

/// A pooled low and high with a book of any length, and an `out` of this one.
fn check_figure(
    tally: &mut Tally,
    trial: &Trial,
    book: &[u32],
    figure: Figure,
    year: u64,
    length: usize,
) {
    let _named = Named(&[book]);
    let counts = whole(book);
    let bounds = trial.asked(|scheme| match figure {
        Figure::Share(class) => plain::pooled_share(scheme, &counts, class, year),
        Figure::Mean => plain::pooled_mean(scheme, &counts, year),
        Figure::Total => plain::pooled_total(scheme, &counts, year),
    });
    let bounds = of_length(book.len() == MAX_CLASSES, bounds);
    tally.count_pooled(of_length(length == 2, bounds));
    let record = trial.record;
    check_bounds(tally, length, bounds, |out| match figure {
        Figure::Share(class) => library::pooled_share(record, book, class, year, out),
        Figure::Mean => library::pooled_mean(record, book, year, out),
        Figure::Total => library::pooled_total(record, book, year, out),
    });
}

/// A pooled share sheet with a book of any length, into slices of a and b
/// numbers.
fn check_share_sheet(
    tally: &mut Tally,
    trial: &Trial,
    book: &[u32],
    year: u64,
    (a, b): (usize, usize),
) {
    let _named = Named(&[book]);
    let (mut plain_low, mut plain_high) = (vec![MARK; a], vec![MARK; b]);
    let answer = trial.asked(|scheme| {
        plain::pooled_share_sheet(scheme, &whole(book), year, &mut plain_low, &mut plain_high)
    });
    let wanted = of_length(book.len() == MAX_CLASSES, answer);
    tally.count_pooled(wanted);
    let (mut low, mut high) = (Lent::new(a, MARK), Lent::new(b, MARK));
    let answer = library::pooled_share_sheet(trial.record, book, year, low.part(), high.part());
    check_one(answer, &wanted.map(|()| plain_low), &low);
    check_one(answer, &wanted.map(|()| plain_high), &high);
    tally.calls += 1;
}

/// Compares the pooled operations on one record, with draws of their own: those
/// of the others, and the records that follow, are the same without them.
pub fn compare(tally: &mut Tally, trial: &Trial) {
    let rng = &mut Rng::new(tally.records);
    let (s, horizon) = (trial.s(), trial.horizon());
    let few = if rng.once_in(LONG) { 100 } else { 1 };
    let years_one = years(rng, horizon.min(few + 100 / s), horizon);
    let [class, edge, beyond] = classes(rng, s).map(Figure::Share);
    for figure in [class, edge, beyond, Figure::Mean, Figure::Total] {
        let book = book_of(rng, s, MAX_CLASSES);
        check_figure(tally, trial, &book, figure, rng.pick(&years_one), 2);
    }
    let years_all = years(rng, horizon.min(few + 400 / (s * s)), horizon);
    let book = book_of(rng, s, MAX_CLASSES);
    let lengths = (s as usize, s as usize);
    check_share_sheet(tally, trial, &book, rng.pick(&years_all), lengths);
    compare_lengths(tally, rng, trial);
}

/// Every length near the right one of the book and of the bounds' slice, and
/// some of the sheet's slices, at an early year.
fn compare_lengths(tally: &mut Tally, rng: &mut Rng, trial: &Trial) {
    let s = trial.s();
    let right = s as usize;
    let early = trial.horizon().min(rng.below(2));
    let late = trial.horizon() + 1;
    let share = Figure::Share(rng.between(1, s));
    let figures = [share, Figure::Mean, Figure::Total];
    for length in near(MAX_CLASSES) {
        let book = book_of(rng, s, length);
        match rng.below(4) {
            0 => check_share_sheet(tally, trial, &book, early, (right, right)),
            _ => check_figure(tally, trial, &book, rng.pick(&figures), early, 2),
        }
    }
    for length in near(2) {
        let book = book_of(rng, s, MAX_CLASSES);
        check_figure(tally, trial, &book, rng.pick(&figures), early, length);
    }
    let any = rng.pick(&near(right));
    for lengths in [(any, right), (right, any)] {
        let book = book_of(rng, s, MAX_CLASSES);
        check_share_sheet(tally, trial, &book, early, lengths);
    }
    for year in [early, late] {
        let length = rng.pick(&near(MAX_CLASSES));
        let book = book_of(rng, s, length);
        let wrong = Figure::Share(s + 1);
        for figure in [wrong, rng.pick(&figures)] {
            check_figure(tally, trial, &book, figure, year, rng.pick(&near(2)));
        }
        let lengths = (rng.pick(&near(right)), rng.pick(&near(right)));
        check_share_sheet(tally, trial, &book, year, lengths);
    }
}

/// Two books of any lengths joined into a slice of this length; whether they
/// were.
fn check_join(first: &[u32], second: &[u32], length: usize) -> bool {
    let _named = Named(&[first, second]);
    let joined = plain::join(&whole(first), &whole(second));
    let lengths = [first.len(), second.len(), length];
    let wanted = of_length(lengths == [MAX_CLASSES; 3], joined);
    let mut out = Lent::new(length, COUNT_MARK);
    let answer = library::join(first, second, out.part());
    check_one(answer, &wanted, &out);
    wanted.is_ok()
}

/// Books with edge values often, of every length near the right one.
#[test]
fn joins() {
    let mut rng = Rng::new(106);
    let (mut joined, mut declined) = (0, 0);
    for _ in 0..50_000 {
        let s = rng.pick(&[1, 2, 5, 31, 32, 32]);
        let (first, second) = (
            book_of(&mut rng, s, MAX_CLASSES),
            book_of(&mut rng, s, MAX_CLASSES),
        );
        match check_join(&first, &second, MAX_CLASSES) {
            true => joined += 1,
            false => declined += 1,
        }
        for length in near(MAX_CLASSES) {
            let other = book_of(&mut rng, s, length);
            check_join(&other, &second, MAX_CLASSES);
            check_join(&first, &other, MAX_CLASSES);
            check_join(&first, &second, length);
            check_join(&other, &other, rng.pick(&near(MAX_CLASSES)));
        }
    }
    assert!(joined >= 5_000 && declined >= 5_000, "{joined} {declined}");
}

/// Sums at the limit and past it in each class alone; the last three would
/// wrap to a sum within it.
#[test]
fn joins_at_the_limit() {
    let (most, half) = (plain::MAX_COUNT, plain::MAX_COUNT / 2);
    let sums = [
        (most, 0, true),
        (half, half, true),
        (most, 1, false),
        (half, half + 1, false),
        (most + 1, 0, false),
        (u32::MAX, 1, false),
        (1 << 31, 1 << 31, false),
        (u32::MAX, most + 1, false),
    ];
    for place in 0..MAX_CLASSES {
        let at = |count: u32| {
            let mut book = [1; MAX_CLASSES];
            book[place] = count;
            book
        };
        for (a, b, fits) in sums {
            assert_eq!(check_join(&at(a), &at(b), MAX_CLASSES), fits);
            assert_eq!(check_join(&at(b), &at(a), MAX_CLASSES), fits);
        }
    }
}
