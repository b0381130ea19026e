//! The deepest calls on a small stack. One that needs more ends the process
//! with "has overflowed its stack".

use trials::made::{self, Shape};
use trials::rng::Rng;

const SMALL: usize = 64 * 1024;

/// The record of a scheme of 32 classes, 8 columns and 100 years, in a version.
fn largest(version: u8) -> Vec<u8> {
    let mut scheme = made::scheme_of(&mut Rng::new(121), Shape::of(32, 8));
    scheme.horizon = 100;
    made::record_in(&scheme, version)
}

/// Shares, the chance of having reached a class, mean and total of the last
/// year.
fn deepest(record: &[u8]) -> [u64; 72] {
    let mut all = [0; 72];
    let (shares, rest) = all.split_at_mut(64);
    let (low, high) = shares.split_at_mut(32);
    let answers = [
        library::check(record),
        library::share(record, 32, 100, &mut rest[..2]),
        library::mean(record, 100, &mut rest[2..4]),
        library::total(record, 100, &mut rest[4..6]),
        library::reached(record, 32, 100, &mut rest[6..]),
        library::share_sheet(record, 100, low, high),
    ];
    assert_eq!(answers, [Ok(()); 6]);
    all
}

/// Shares, mean and total, pooled over the book of a book and itself.
fn deepest_pooled(record: &[u8]) -> [u64; 70] {
    let mut all = [0; 70];
    let (shares, rest) = all.split_at_mut(64);
    let (low, high) = shares.split_at_mut(32);
    let (half, mut book) = ([500_000; 32], [0; 32]);
    let answers = [
        library::join(&half, &half, &mut book),
        library::pooled_share(record, &book, 32, 100, &mut rest[..2]),
        library::pooled_mean(record, &book, 100, &mut rest[2..4]),
        library::pooled_total(record, &book, 100, &mut rest[4..]),
        library::pooled_share_sheet(record, &book, 100, low, high),
    ];
    assert_eq!(answers, [Ok(()); 5]);
    all
}

/// All of them.
fn both(record: &[u8]) -> ([u64; 72], [u64; 70]) {
    (deepest(record), deepest_pooled(record))
}

#[test]
fn deepest_calls_on_64_kib() {
    deepest_calls(1);
    deepest_calls(2);
}

/// The calls on the record of a version.
fn deepest_calls(version: u8) {
    let record = largest(version);
    let wanted = both(&record);
    let thread = std::thread::Builder::new()
        .name("a stack of 64 KiB".to_string())
        .stack_size(SMALL)
        .spawn(move || both(&record));
    let got = thread.expect("a thread").join().expect("the calls");
    assert_eq!(got, wanted);
}
