//! The chance of having reached a class: worked examples, causes in their order,
//! and its bounds against one-year steps, against shares and against other rules.

use plain::{
    high_step, low_step, reached, share, Figures, Scheme, MAX_CLASSES, MAX_COLUMNS, MAX_HORIZON,
    MAX_PREMIUM, ONE,
};
use trials::family::{turning, EXAMPLE_A};
use trials::made;
use trials::picks::unit;
use trials::rng::Rng;

fn example_a() -> Scheme {
    plain::read(&EXAMPLE_A).expect("Example A")
}

/// An accepted scheme, one of its classes, and a year, a late one now and then.
fn any_query(rng: &mut Rng) -> (Scheme, u64, u64) {
    let scheme = made::scheme(rng);
    let class = rng.between(1, u64::from(scheme.classes));
    let most = if rng.once_in(16) { MAX_HORIZON } else { 12 };
    let year = rng.between(0, u64::from(scheme.horizon.min(most)));
    (scheme, class, year)
}

/// The rules of a class.
fn rules_of(scheme: &mut Scheme, class: u64) -> &mut [u8] {
    let first = (class as usize - 1) * MAX_COLUMNS;
    &mut scheme.rules[first..first + usize::from(scheme.columns)]
}

/// Class 2 goes to class 1 with at least .8 and at most .9. In year 2 the low
/// is .8 + .2 x .8, the high .9 + .1 x .9.
#[test]
fn example_a_from_class_2() {
    let a = example_a();
    let class_1 = [
        (0, 0),
        (800_000_000, 900_000_000),
        (960_000_000, 990_000_000),
    ];
    for (year, bounds) in (0..).zip(class_1) {
        assert_eq!(reached(&a, 1, year), Ok(bounds));
        assert_eq!(reached(&a, 2, year), Ok((ONE, ONE)));
    }
}

/// Class 1 goes to class 2 with at most .05, and may not at all. In year 2 the
/// high is .05 + .95 x .05.
#[test]
fn example_a_from_class_1() {
    let mut a = example_a();
    a.start = 1;
    let class_2 = [(0, 0), (0, 50_000_000), (0, 97_500_000)];
    for (year, bounds) in (0..).zip(class_2) {
        assert_eq!(reached(&a, 1, year), Ok((ONE, ONE)));
        assert_eq!(reached(&a, 2, year), Ok(bounds));
    }
}

/// About a third of class 1 stays each year: 8/9 have left it by year 2, 26/27
/// by year 3, and a low figure is rounded down, a high one up.
#[test]
fn thirds() {
    let mut thirds = Scheme {
        classes: 2,
        columns: 2,
        start: 1,
        horizon: 3,
        ..Scheme::EMPTY
    };
    for class in 1..=2 {
        rules_of(&mut thirds, class).copy_from_slice(&[1, 2]);
    }
    thirds.lowers[..2].copy_from_slice(&[333_333_333, 666_666_667]);
    thirds.uppers = thirds.lowers;
    let class_2 = [
        (0, 0),
        (666_666_667, 666_666_667),
        (888_888_889, 888_888_890),
        (962_962_963, 962_962_964),
    ];
    for (year, bounds) in (0..).zip(class_2) {
        assert_eq!(reached(&thirds, 2, year), Ok(bounds));
    }
}

#[test]
fn one_class() {
    let mut one = turning(1);
    one.horizon = MAX_HORIZON;
    for year in 0..=100 {
        assert_eq!(reached(&one, 1, year), Ok((ONE, ONE)));
    }
}

/// From class 1 nothing leads to class 2.
#[test]
fn a_class_out_of_reach() {
    let mut kept = example_a();
    (kept.start, kept.horizon) = (1, MAX_HORIZON);
    rules_of(&mut kept, 1).fill(1);
    for year in 0..=100 {
        assert_eq!(reached(&kept, 1, year), Ok((ONE, ONE)));
        assert_eq!(reached(&kept, 2, year), Ok((0, 0)));
    }
}

/// In a cycle of five each class is left again: its share is ONE every fifth
/// year only, and it has been reached from the first of them on.
#[test]
fn a_class_left_again() {
    let mut five = turning(5);
    five.horizon = 20;
    for year in 0..=20 {
        for class in 1..=5 {
            let whole = |is: bool| if is { (ONE, ONE) } else { (0, 0) };
            let (now, by_now) = (year % 5 + 1 == class, year + 1 >= class);
            assert_eq!(share(&five, class, year), Ok(whole(now)));
            assert_eq!(reached(&five, class, year), Ok(whole(by_now)));
        }
    }
}

#[test]
fn the_start_class_is_reached() {
    let mut rng = Rng::new(61);
    for _ in 0..1_000 {
        let (scheme, _, year) = any_query(&mut rng);
        let start = u64::from(scheme.start);
        assert_eq!(reached(&scheme, start, year), Ok((ONE, ONE)));
    }
}

/// From year to year no bound falls, and none is below that of the share.
#[test]
fn bounds_rise_and_cover_shares() {
    let mut rng = Rng::new(62);
    let (mut rose, mut above) = ([0; 2], [0; 2]);
    for _ in 0..3_000 {
        let (scheme, class, last) = any_query(&mut rng);
        let mut before = (0, 0);
        for year in 0..=last {
            let (low, high) = reached(&scheme, class, year).unwrap();
            let now = share(&scheme, class, year).unwrap();
            assert!(low <= high && high <= ONE);
            assert!(before.0 <= low && before.1 <= high);
            assert!(now.0 <= low && now.1 <= high);
            rose[0] += u64::from(year > 0 && before.0 < low);
            rose[1] += u64::from(year > 0 && before.1 < high);
            above[0] += u64::from(now.0 < low);
            above[1] += u64::from(now.1 < high);
            before = (low, high);
        }
    }
    assert!(rose.iter().chain(&above).all(|&count| count > 1_000));
}

/// Once it is reached, what the rules of the class say does not matter; where
/// all of them lead to the class itself, the bounds are those of its share.
#[test]
fn rules_of_the_class_do_not_matter() {
    let mut rng = Rng::new(63);
    let mut left = 0;
    for _ in 0..3_000 {
        let (mut scheme, class, year) = any_query(&mut rng);
        let bounds = reached(&scheme, class, year);
        left += u64::from(bounds != share(&scheme, class, year));
        let s = u64::from(scheme.classes);
        rules_of(&mut scheme, class).fill_with(|| rng.between(1, s) as u8);
        assert_eq!(reached(&scheme, class, year), bounds);
        rules_of(&mut scheme, class).fill(class as u8);
        assert_eq!(reached(&scheme, class, year), bounds);
        assert_eq!(share(&scheme, class, year), bounds);
    }
    assert!(left > 300, "{left}");
}

type Step = fn(&Scheme, &Figures, u64) -> Result<(u64, Figures), u8>;

/// The start class's figure by one-year steps, the class's own being ONE.
fn by_steps(step: Step, scheme: &Scheme, class: u64, years: u64) -> u64 {
    let mut figures = unit(class as usize - 1);
    for _ in 0..years {
        let mut next = [0; MAX_CLASSES];
        for (from, figure) in (1..=u64::from(scheme.classes)).zip(&mut next) {
            *figure = match from == class {
                true => ONE,
                false => step(scheme, &figures, from).unwrap().0,
            };
        }
        figures = next;
    }
    figures[usize::from(scheme.start) - 1]
}

#[test]
fn reached_by_steps() {
    let mut rng = Rng::new(64);
    for _ in 0..2_000 {
        let (scheme, class, year) = any_query(&mut rng);
        let wanted = (
            by_steps(low_step, &scheme, class, year),
            by_steps(high_step, &scheme, class, year),
        );
        assert_eq!(reached(&scheme, class, year), Ok(wanted));
    }
}

/// What spoils a scheme.
type Fault = fn(&mut Scheme);

/// Each fault comes before those that are there already.
#[test]
fn causes_in_order() {
    let mut a = example_a();
    assert!(reached(&a, 2, 2).is_ok());
    assert_eq!(reached(&a, 2, 3), Err(12));
    assert_eq!(reached(&a, 3, 3), Err(11));
    let faults: [(u8, Fault); 7] = [
        (10, |a| a.premiums[1] = MAX_PREMIUM + 1),
        (9, |a| a.lowers = a.uppers),
        (8, |a| a.uppers[2] = ONE as u32 + 1),
        (7, |a| a.rules[0] = 3),
        (6, |a| a.horizon = MAX_HORIZON + 1),
        (5, |a| a.start = 3),
        (3, |a| a.columns = 0),
    ];
    for (cause, fault) in faults {
        fault(&mut a);
        for class in [0, 2, 3, u64::MAX] {
            for year in [2, 3, u64::MAX] {
                assert_eq!(reached(&a, class, year), Err(cause));
            }
        }
    }
}

/// Numbers out of range, also where the last byte or the last four are within.
#[test]
fn wide_classes_and_years() {
    let a = example_a();
    let wide = 1 << 32;
    for class in [0, 3, 256, 257, 258, wide, wide + 1, wide + 2, u64::MAX] {
        for year in [0, 2, 3, wide, u64::MAX] {
            assert_eq!(reached(&a, class, year), Err(11));
        }
    }
    for year in [3, 256, 257, 258, wide, wide + 1, wide + 2, u64::MAX] {
        for class in [1, 2] {
            assert_eq!(reached(&a, class, year), Err(12));
        }
    }
}
