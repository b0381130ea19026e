//! The mixing check of the proved library against the plain version, which
//! searches count by count.

mod lent;

use lent::{check_one, near, of_length, Lent};
use plain::{Scheme, LAYOUTS, MAX_COLUMNS};
use std::collections::BTreeSet;
use std::io::Write;
use trials::family::{slowest, turning};
use trials::made::{self, Shape};
use trials::rng::Rng;

/// A mark that no call writes.
const MARK: u64 = 0xA5A5_A5A5_A5A5_A5A5;

/// How many calls were answered with a count, how many were declined by 16, and
/// how many by another cause.
#[derive(Default)]
struct Tally {
    mixing: u64,
    not_mixing: u64,
    declined: u64,
    /// The counts that were answered, each once.
    counts: BTreeSet<u64>,
}

/// The check with a slice of this length: the first count that mixes.
fn check(tally: &mut Tally, record: &[u8], length: usize) {
    let first = plain::read(record).and_then(|scheme| plain::mixing(&scheme));
    let wanted = of_length(length == 1, first);
    let mut count = Lent::new(length, MARK);
    let answer = library::mixing(record, count.part());
    check_one(answer, &wanted.map(|count| [count]), &count);
    match wanted {
        Ok(count) => {
            tally.mixing += 1;
            tally.counts.insert(count);
        }
        Err(16) => tally.not_mixing += 1,
        Err(_) => tally.declined += 1,
    }
}

/// The check with the right length, and with one near it.
fn compare(tally: &mut Tally, rng: &mut Rng, record: &[u8]) {
    check(tally, record, 1);
    check(tally, record, rng.pick(&near(1)));
}

/// Accepted schemes of every size, in both versions.
fn sizes(tally: &mut Tally) {
    let mut rng = Rng::new(141);
    for s in 1..=32 {
        for m in 1..=8 {
            for turn in 0..20 {
                let scheme = made::scheme_of(&mut rng, Shape::of(s, m));
                compare(tally, &mut rng, &made::record_by_turns(&scheme, turn));
            }
        }
    }
}

/// Classes in a cycle of every size with one to three chords, so that counts of
/// every size are answered.
fn chords(tally: &mut Tally) {
    let mut rng = Rng::new(144);
    for s in 2..=32 {
        for turn in 0..100 {
            let mut scheme = turning(s);
            for _ in 0..rng.between(1, 3) {
                let from = rng.below(u64::from(s)) as usize;
                scheme.rules[from * MAX_COLUMNS + 1] = rng.between(1, u64::from(s)) as u8;
            }
            compare(tally, &mut rng, &made::record_by_turns(&scheme, turn));
        }
    }
}

/// Records of both versions with damage of every kind.
fn damaged(tally: &mut Tally) {
    let mut rng = Rng::new(142);
    for _ in 0..10_000 {
        let record = made::damaged(&mut rng);
        compare(tally, &mut rng, &record);
    }
}

#[test]
fn agrees() {
    let mut tally = Tally::default();
    sizes(&mut tally);
    chords(&mut tally);
    damaged(&mut tally);
    // Past the capture of tests, so that it always shows.
    writeln!(
        std::io::stderr(),
        "mixing checks agree: {} answered, with {} counts, {} times none, {} other causes",
        tally.mixing,
        tally.counts.len(),
        tally.not_mixing,
        tally.declined
    )
    .expect("standard error");
    assert!(tally.mixing >= 1_000 && tally.not_mixing >= 1_000 && tally.declined >= 1_000);
    assert!(tally.counts.len() >= 300);
}

/// What the library answers for a scheme, in both versions alike.
fn answer(scheme: &Scheme) -> Result<u64, u8> {
    let [first, second] = LAYOUTS.map(|layout| {
        let mut count = [0];
        let record = made::record_in(scheme, layout.version);
        library::mixing(&record, &mut count).map(|()| count[0])
    });
    assert_eq!(first, second);
    first
}

/// Cycles of every size never mix; with one chord they mix at last.
#[test]
fn cycles() {
    for s in 2..=32 {
        assert_eq!(answer(&turning(s)), Err(16));
        let first = u64::from(s - 1) * u64::from(s - 1) + 1;
        assert_eq!(plain::mixing(&slowest(s)), Ok(first));
        assert_eq!(answer(&slowest(s)), Ok(first));
    }
}

/// Where bands are trimmed the first count that mixes comes no later.
#[test]
fn trimmed() {
    let mut rng = Rng::new(143);
    let (mut kept, mut gained) = (0, 0);
    for _ in 0..5_000 {
        let wide = made::scheme(&mut rng);
        let narrow = made::trimmed(&mut rng, &wide);
        match (answer(&wide), answer(&narrow)) {
            (Ok(before), Ok(after)) => {
                assert!(after <= before);
                kept += 1;
            }
            (Err(16), Ok(_)) => gained += 1,
            (wide, narrow) => assert_eq!(wide, narrow),
        }
    }
    assert!(kept >= 100 && gained >= 10, "{kept} kept, {gained} gained");
}
