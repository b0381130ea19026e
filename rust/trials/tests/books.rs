//! Books pooled and joined: worked examples, causes in their order, and pooled
//! figures against one-year steps and against other books.

use plain::{
    high_step, join, low_step, mean, pooled_mean, pooled_share, pooled_share_sheet, pooled_total,
    share, total, Book, Figures, Scheme, MAX_CLASSES, MAX_COLUMNS, MAX_COUNT, MAX_PREMIUM, ONE,
};
use trials::family::EXAMPLE_A;
use trials::made;
use trials::picks::premium_tenths;
use trials::rng::Rng;

/// Low and high.
type Bounds = (u64, u64);

fn example_a() -> Scheme {
    plain::read(&EXAMPLE_A).expect("Example A")
}

/// A book with these counts at the front and 0 after them.
fn book(counts: &[u32]) -> Book {
    let mut book = [0; MAX_CLASSES];
    book[..counts.len()].copy_from_slice(counts);
    book
}

/// All pooled figures of a year: the share of each class, the mean and the
/// total. Where one call is declined all are, for the same cause.
fn figures(scheme: &Scheme, book: &Book, year: u64) -> Result<Vec<Bounds>, u8> {
    let s = usize::from(scheme.classes);
    let (mut low, mut high) = (vec![0; s], vec![0; s]);
    let sheet = pooled_share_sheet(scheme, book, year, &mut low, &mut high);
    let mut all: Vec<Bounds> = low.into_iter().zip(high).collect();
    for (class, &bounds) in (1..).zip(&all) {
        let alone = pooled_share(scheme, book, class, year);
        assert_eq!(alone, sheet.map(|()| bounds));
    }
    let mean = pooled_mean(scheme, book, year);
    let total = pooled_total(scheme, book, year);
    assert_eq!((mean.err(), total.err()), (sheet.err(), sheet.err()));
    all.extend([mean?, total?]);
    Ok(all)
}

/// An accepted scheme with a book that is pooled, and a year.
fn any_pool(rng: &mut Rng) -> (Scheme, Book, u64) {
    let scheme = made::scheme(rng);
    let book = made::pooled_book(rng, scheme.classes);
    let year = rng.between(0, u64::from(scheme.horizon.min(12)));
    (scheme, book, year)
}

/// The book with 0 beyond s, as a scheme sees it.
fn seen(book: &Book, scheme: &Scheme) -> Book {
    let mut seen = *book;
    seen[usize::from(scheme.classes)..].fill(0);
    seen
}

/// From class 1 the shares of year 2 are 942500000 to ONE and 0 to 57500000,
/// the mean is 10000 to 10287.5 and the total 20000 to 20250; from class 2 the
/// figures are those of the sheet. Three chambers open in class 1, one in
/// class 2.
#[test]
fn example_a_three_and_one() {
    let a = example_a();
    let three_and_one = book(&[3, 1]);
    let years = [
        [
            (750_000_000, 750_000_000),
            (250_000_000, 250_000_000),
            (11_250, 11_250),
            (0, 0),
        ],
        [
            (912_500_000, 975_000_000),
            (25_000_000, 87_500_000),
            (10_125, 10_438),
            (11_250, 11_250),
        ],
        [
            (936_875_000, 997_500_000),
            (2_500_000, 63_125_000),
            (10_012, 10_316),
            (21_375, 21_688),
        ],
    ];
    for (year, wanted) in (0..).zip(years) {
        assert_eq!(figures(&a, &three_and_one, year), Ok(wanted.to_vec()));
    }
}

/// Two chambers in class 1, one in class 2: thirds, rounded outward.
#[test]
fn example_a_two_and_one() {
    let a = example_a();
    let two_and_one = book(&[2, 1]);
    let years = [
        [
            (666_666_666, 666_666_667),
            (333_333_333, 333_333_334),
            (11_666, 11_667),
            (0, 0),
        ],
        [
            (900_000_000, 966_666_667),
            (33_333_333, 100_000_000),
            (10_166, 10_500),
            (11_666, 11_667),
        ],
        [
            (935_000_000, 996_666_667),
            (3_333_333, 65_000_000),
            (10_016, 10_325),
            (21_833, 22_167),
        ],
    ];
    for (year, wanted) in (0..).zip(years) {
        assert_eq!(figures(&a, &two_and_one, year), Ok(wanted.to_vec()));
    }
}

/// What comes of pooling figures that were rounded to cents class by class.
fn rounded_too_early(
    scheme: &Scheme,
    counts: &[u32],
    ask: fn(&Scheme, u64) -> Result<Bounds, u8>,
    year: u64,
) -> Bounds {
    let (mut lows, mut highs, mut chambers) = (0, 0, 0);
    for (start, &count) in (1..).zip(counts) {
        let mut scheme = scheme.clone();
        scheme.start = start;
        let (low, high) = ask(&scheme, year).unwrap();
        let count = u64::from(count);
        lows += count * low;
        highs += count * high;
        chambers += count;
    }
    (lows / chambers, highs.div_ceil(chambers))
}

/// Example A, year 2: the high means are 10287.5 and 10400, and two chambers
/// to one make 10325, not a cent more. Year 3: the high totals are 30537.5 and
/// 36400, and two to three make 34055.
#[test]
fn money_is_rounded_once() {
    let mut a = example_a();
    a.horizon = 3;
    let counts = [2, 1];
    assert_eq!(pooled_mean(&a, &book(&counts), 2), Ok((10_016, 10_325)));
    assert_eq!(rounded_too_early(&a, &counts, mean, 2), (10_016, 10_326));
    let counts = [2, 3];
    assert_eq!(pooled_total(&a, &book(&counts), 3), Ok((33_330, 34_055)));
    assert_eq!(rounded_too_early(&a, &counts, total, 3), (33_330, 34_056));
}

/// A tenth of class 1 leaves for class 2 each year, with premiums of 10 and 20
/// cents: the means of year 2 are 11.9 and 20, and four chambers to one make
/// 13.52. Rounded to cents too early, the low mean would be 12.
#[test]
fn low_money_is_rounded_once() {
    let tenth = 100_000_000;
    let mut leaving = Scheme {
        classes: 2,
        columns: 2,
        start: 1,
        horizon: 2,
        ..Scheme::EMPTY
    };
    leaving.rules[..2].copy_from_slice(&[1, 2]);
    leaving.rules[MAX_COLUMNS..][..2].copy_from_slice(&[2, 2]);
    leaving.lowers[..2].copy_from_slice(&[9 * tenth, tenth]);
    leaving.uppers = leaving.lowers;
    leaving.premiums[..2].copy_from_slice(&[10, 20]);
    let counts = [4, 1];
    assert_eq!(pooled_mean(&leaving, &book(&counts), 2), Ok((13, 14)));
    assert_eq!(rounded_too_early(&leaving, &counts, mean, 2), (12, 14));
}

/// The most classes, chambers, premiums and years: no sum is too large.
#[test]
fn the_largest_book() {
    let mut most = Scheme {
        classes: MAX_CLASSES as u8,
        columns: 1,
        start: 1,
        horizon: 100,
        ..Scheme::EMPTY
    };
    most.rules.fill(32);
    most.uppers[0] = ONE as u32;
    most.premiums.fill(MAX_PREMIUM);
    let full = [MAX_COUNT; MAX_CLASSES];
    assert_eq!(pooled_total(&most, &full, 100), Ok((ONE, ONE)));
    assert_eq!(pooled_mean(&most, &full, 100), Ok((10_000_000, 10_000_000)));
    assert_eq!(pooled_share(&most, &full, 32, 100), Ok((ONE, ONE)));
    assert_eq!(
        pooled_share(&most, &full, 32, 0),
        Ok((31_250_000, 31_250_000))
    );
}

#[test]
fn one_chamber_in_the_start_class() {
    let mut rng = Rng::new(41);
    for _ in 0..2_000 {
        let (scheme, _, year) = any_pool(&mut rng);
        let mut one = [0; MAX_CLASSES];
        one[usize::from(scheme.start) - 1] = 1;
        let classes = 1..=u64::from(scheme.classes);
        let mut old: Vec<Bounds> = classes
            .map(|class| share(&scheme, class, year).unwrap())
            .collect();
        old.extend([mean(&scheme, year).unwrap(), total(&scheme, year).unwrap()]);
        assert_eq!(figures(&scheme, &one, year), Ok(old), "{scheme:?} {year}");
    }
}

#[test]
fn a_book_and_its_double() {
    let mut rng = Rng::new(42);
    let mut doubled = 0;
    for _ in 0..2_000 {
        let (scheme, book, year) = any_pool(&mut rng);
        let book = seen(&book, &scheme);
        if let Ok(double) = join(&book, &book) {
            assert_eq!(
                figures(&scheme, &double, year),
                figures(&scheme, &book, year)
            );
            doubled += 1;
        }
    }
    assert!(doubled > 800, "{doubled}");
}

/// No figure of a joined book is outside those of the two.
#[test]
fn joined_books_lie_between() {
    let mut rng = Rng::new(43);
    let mut between = 0;
    for _ in 0..3_000 {
        let (scheme, first, year) = any_pool(&mut rng);
        let first = seen(&first, &scheme);
        let second = seen(&made::pooled_book(&mut rng, scheme.classes), &scheme);
        let Ok(joined) = join(&first, &second) else {
            continue;
        };
        let of = |book: &Book| figures(&scheme, book, year).unwrap();
        let two = of(&first).into_iter().zip(of(&second));
        for ((a, b), joined) in two.zip(of(&joined)) {
            assert!((a.0.min(b.0)..=a.0.max(b.0)).contains(&joined.0));
            assert!((a.1.min(b.1)..=a.1.max(b.1)).contains(&joined.1));
            between += u64::from(a.0 != b.0 && joined.0 != a.0 && joined.0 != b.0);
        }
    }
    assert!(between > 1_000, "{between}");
}

#[test]
fn counts_beyond_s_are_ignored() {
    let a = example_a();
    let mut junk = [u32::MAX; MAX_CLASSES];
    junk[..2].copy_from_slice(&[3, 1]);
    assert_eq!(figures(&a, &junk, 2), figures(&a, &book(&[3, 1]), 2));
    let mut rng = Rng::new(44);
    let mut differ = 0;
    for _ in 0..2_000 {
        let (scheme, book, year) = any_pool(&mut rng);
        let clear = seen(&book, &scheme);
        assert_eq!(
            figures(&scheme, &book, year),
            figures(&scheme, &clear, year)
        );
        differ += u64::from(book != clear);
    }
    assert!(differ > 500, "{differ}");
}

type Step = fn(&Scheme, &Figures, u64) -> Result<(u64, Figures), u8>;

/// The figures of all classes after so many one-year steps, these added to
/// those of each year.
fn by_steps(step: Step, scheme: &Scheme, payoff: &Figures, added: &Figures, years: u64) -> Figures {
    let mut figures = *payoff;
    for _ in 0..years {
        let mut next = *added;
        for (class, figure) in (1..=u64::from(scheme.classes)).zip(&mut next) {
            *figure += step(scheme, &figures, class).unwrap().0;
        }
        figures = next;
    }
    figures
}

#[test]
fn pooled_by_steps() {
    let mut rng = Rng::new(45);
    for _ in 0..1_000 {
        let (scheme, book, year) = any_pool(&mut rng);
        let s = usize::from(scheme.classes);
        let counts: Vec<u128> = book[..s].iter().map(|&count| count.into()).collect();
        let chambers: u128 = counts.iter().sum();
        let pooled = |payoff: &Figures, added: &Figures, larger: u128| {
            let sum = |step: Step| -> u128 {
                let figures = by_steps(step, &scheme, payoff, added, year);
                let counted = counts.iter().zip(figures);
                counted
                    .map(|(count, figure)| count * u128::from(figure))
                    .sum()
            };
            let divisor = chambers * larger;
            let (low, high) = (sum(low_step) / divisor, sum(high_step).div_ceil(divisor));
            (low as u64, high as u64)
        };
        let none = [0; MAX_CLASSES];
        let mut wanted: Vec<Bounds> = (0..s)
            .map(|j| {
                let mut payoff = none;
                payoff[j] = ONE;
                pooled(&payoff, &none, 1)
            })
            .collect();
        let premiums = premium_tenths(&scheme);
        wanted.push(pooled(&premiums, &none, 10));
        wanted.push(pooled(&none, &premiums, 10));
        assert_eq!(figures(&scheme, &book, year), Ok(wanted));
    }
}

/// The cause of a pooled share sheet of year and slices of these lengths; its
/// slices stay as they were.
fn sheet_cause(scheme: &Scheme, book: &Book, year: u64, (a, b): (usize, usize)) -> u8 {
    let (mut low, mut high) = (vec![7; a], vec![8; b]);
    let answer = pooled_share_sheet(scheme, book, year, &mut low, &mut high);
    assert_eq!((low, high), (vec![7; a], vec![8; b]));
    answer.expect_err("a declined call")
}

/// Counts at the limit and past it, and books without chambers for the scheme,
/// whatever stands beyond s.
#[test]
fn causes_of_books() {
    let a = example_a();
    let edge = book(&[MAX_COUNT, MAX_COUNT]);
    assert!(figures(&a, &edge, 2).is_ok());
    let none = book(&[]);
    let (mut beyond, mut full_beyond) = (none, none);
    beyond[2] = 1;
    full_beyond[2..].fill(u32::MAX);
    for empty in [none, beyond, full_beyond] {
        assert_eq!(figures(&a, &empty, 2), Err(19));
    }
    for excess in [MAX_COUNT + 1, u32::MAX] {
        for counts in [[excess, 0], [0, excess], [1, excess], [excess, excess]] {
            assert_eq!(figures(&a, &book(&counts), 2), Err(18));
        }
    }
}

#[test]
fn causes_in_order() {
    let a = example_a();
    let (good, excess, none) = (book(&[3, 1]), book(&[0, MAX_COUNT + 1]), book(&[]));
    for (any, cause) in [(good, None), (excess, Some(18)), (none, Some(19))] {
        // 11, then 12, then what the book has.
        for year in [0, 2, 3, u64::MAX] {
            for class in [0, 3, u64::MAX] {
                assert_eq!(pooled_share(&a, &any, class, year), Err(11));
            }
        }
        for year in [3, u64::MAX] {
            assert_eq!(figures(&a, &any, year), Err(12));
            assert_eq!(sheet_cause(&a, &any, year, (1, 2)), 12);
        }
        assert_eq!(pooled_share(&a, &any, 2, 2).err(), cause);
        assert_eq!(pooled_mean(&a, &any, 2).err(), cause);
        assert_eq!(pooled_total(&a, &any, 2).err(), cause);
        // 13 comes last.
        for lengths in [(1, 2), (2, 1), (2, 3), (3, 2), (3, 3), (0, 0), (32, 32)] {
            assert_eq!(sheet_cause(&a, &any, 2, lengths), cause.unwrap_or(13));
        }
    }
}

/// The causes of the scheme come before all others.
#[test]
fn declined_schemes() {
    let mut rng = Rng::new(46);
    let mut seen = [0; 11];
    for _ in 0..20_000 {
        let scheme = made::damaged_scheme(&mut rng);
        let cause = plain::cause(&scheme);
        seen[usize::from(cause)] += 1;
        if cause == 0 {
            continue;
        }
        let book = made::book(&mut rng, MAX_CLASSES as u8);
        let (class, year) = (rng.below(40), rng.below(256));
        assert_eq!(pooled_share(&scheme, &book, class, year), Err(cause));
        assert_eq!(pooled_mean(&scheme, &book, year), Err(cause));
        assert_eq!(pooled_total(&scheme, &book, year), Err(cause));
        assert_eq!(sheet_cause(&scheme, &book, year, (2, 2)), cause);
    }
    for cause in [3, 5, 6, 7, 8, 9, 10] {
        assert!(seen[cause] > 50, "{seen:?}");
    }
}

/// 1,000,000 is joined, one more is not, in any class and however it comes
/// about; the largest counts do not wrap.
#[test]
fn joins_at_the_limit() {
    let (half, excess) = (MAX_COUNT / 2, MAX_COUNT + 1);
    for place in 0..MAX_CLASSES {
        let at = |count: u32| {
            let mut book = [1; MAX_CLASSES];
            book[place] = count;
            book
        };
        let mut joined = [2; MAX_CLASSES];
        joined[place] = MAX_COUNT;
        for (a, b) in [
            (MAX_COUNT, 0),
            (0, MAX_COUNT),
            (half, half),
            (1, MAX_COUNT - 1),
        ] {
            assert_eq!(join(&at(a), &at(b)), Ok(joined));
        }
        for (a, b) in [(MAX_COUNT, 1), (half, half + 1), (excess, 0), (0, excess)] {
            assert_eq!(join(&at(a), &at(b)), Err(18));
        }
        // The first two of these sums would wrap to 0, the last to 1,000,000.
        let wrapping = [(u32::MAX, 1), (1 << 31, 1 << 31), (u32::MAX, excess)];
        for (a, b) in wrapping {
            assert!(a.wrapping_add(b) <= MAX_COUNT);
            assert_eq!(join(&at(a), &at(b)), Err(18));
            assert_eq!(join(&at(b), &at(a)), Err(18));
        }
        assert_eq!(join(&at(u32::MAX), &at(u32::MAX)), Err(18));
    }
    let none = [0; MAX_CLASSES];
    assert_eq!(join(&none, &none), Ok(none));
}

#[test]
fn joins_by_adding() {
    let mut rng = Rng::new(47);
    let mut declined = 0;
    for _ in 0..20_000 {
        let s = rng.pick(&[1, 2, 5, 31, 32]);
        let (first, second) = (made::book(&mut rng, s), made::book(&mut rng, s));
        let sums: Vec<u64> = first
            .iter()
            .zip(second)
            .map(|(&a, b)| u64::from(a) + u64::from(b))
            .collect();
        match join(&first, &second) {
            Ok(joined) => {
                assert_eq!(joined.map(u64::from)[..], sums);
                assert!(sums.iter().all(|&sum| sum <= 1_000_000));
            }
            Err(cause) => {
                assert_eq!(cause, 18);
                assert!(sums.iter().any(|&sum| sum > 1_000_000));
                declined += 1;
            }
        }
        assert_eq!(join(&first, &second), join(&second, &first));
    }
    assert!((4_000..=17_000).contains(&declined), "{declined}");
}
