//! Times the proved library beside the plain version: same records, same run,
//! batches of the two taking turns, the best batch of each counted. Times are
//! the thread's own on the processor, so that other work on the machine counts
//! little.
//!
//! Both sides start from the record's bytes, and answer into lent slices; only
//! the plain version's sheet comes as text of its own.

use plain::{Book, Scheme, MAX_CLASSES};
use std::hint::black_box;
use std::time::Duration;
use trials::made::{record_of, scheme_of, Shape};
use trials::rng::Rng;

/// How many batches of each side are run.
const ROUNDS: usize = 100;

/// How long a batch is to take at least, where one call takes less.
const BATCH: Duration = Duration::from_millis(2);

/// A side's call.
type Call<'a> = Box<dyn FnMut() + 'a>;

/// An operation on a record, of the library and of the plain version.
struct Operation<'a> {
    name: &'static str,
    library: Call<'a>,
    plain: Call<'a>,
}

/// The best times of one call, in microseconds.
#[derive(Clone, Copy)]
struct Times {
    library: f64,
    plain: f64,
}

impl Times {
    fn ratio(&self) -> f64 {
        self.library / self.plain
    }
}

/// C's `struct timespec` on 64-bit Linux.
#[repr(C)]
struct Timespec {
    seconds: i64,
    nanoseconds: i64,
}

extern "C" {
    fn clock_gettime(clock: i32, time: *mut Timespec) -> i32;
}

/// C's CLOCK_THREAD_CPUTIME_ID on Linux.
const THREAD_CLOCK: i32 = 3;

/// The time that this thread has had on the processor.
fn now() -> Duration {
    let mut time = Timespec {
        seconds: 0,
        nanoseconds: 0,
    };
    // SAFETY: the pointer is to a struct of the layout that the call fills.
    let answer = unsafe { clock_gettime(THREAD_CLOCK, &mut time) };
    assert_eq!(answer, 0);
    Duration::new(time.seconds as u64, time.nanoseconds as u32)
}

/// How long so many calls take.
fn time(call: &mut Call, count: u32) -> Duration {
    let start = now();
    for _ in 0..count {
        call();
    }
    now() - start
}

/// How many calls fill a batch.
fn batch(call: &mut Call) -> u32 {
    let mut count = 1;
    while time(call, count) < BATCH {
        count *= 2;
    }
    count
}

/// Runs the batches of two calls in turns: the best times of each.
fn in_turns(first: &mut Call, second: &mut Call) -> [f64; 2] {
    let counts = [batch(first), batch(second)];
    let mut best = [Duration::MAX; 2];
    for _ in 0..ROUNDS {
        best[0] = best[0].min(time(first, counts[0]));
        best[1] = best[1].min(time(second, counts[1]));
    }
    [0, 1].map(|side| best[side].as_secs_f64() * 1e6 / f64::from(counts[side]))
}

/// Runs both sides of an operation.
fn race(operation: &mut Operation) -> Times {
    let [library, plain] = in_turns(&mut operation.library, &mut operation.plain);
    Times { library, plain }
}

/// The plain version from the record's bytes on.
fn read(record: &[u8]) -> Scheme {
    plain::read(black_box(record)).expect("a record")
}

/// A share of the last year.
fn share(record: &[u8], class: u64, year: u64) -> Operation<'_> {
    let mut out = [0; 2];
    Operation {
        name: "share",
        library: Box::new(move || {
            library::share(black_box(record), class, year, &mut out).expect("a share");
            black_box(&out);
        }),
        plain: Box::new(move || {
            black_box(plain::share(&read(record), class, year).expect("a share"));
        }),
    }
}

/// The chance of having reached the same class by the last year.
fn reached(record: &[u8], class: u64, year: u64) -> Operation<'_> {
    let mut out = [0; 2];
    Operation {
        name: "reached",
        library: Box::new(move || {
            library::reached(black_box(record), class, year, &mut out).expect("a chance");
            black_box(&out);
        }),
        plain: Box::new(move || {
            black_box(plain::reached(&read(record), class, year).expect("a chance"));
        }),
    }
}

/// A book with chambers in every class.
fn book() -> Book {
    let mut book = [0; MAX_CLASSES];
    for (class, count) in (1..).zip(&mut book) {
        *count = 31_000 * class;
    }
    book
}

/// The same share pooled over a book.
fn pooled_share(record: &[u8], book: Book, class: u64, year: u64) -> Operation<'_> {
    let mut out = [0; 2];
    Operation {
        name: "pooled share",
        library: Box::new(move || {
            library::pooled_share(black_box(record), &book, class, year, &mut out)
                .expect("a share");
            black_box(&out);
        }),
        plain: Box::new(move || {
            black_box(plain::pooled_share(&read(record), &book, class, year).expect("a share"));
        }),
    }
}

fn mean(record: &[u8], year: u64) -> Operation<'_> {
    let mut out = [0; 2];
    Operation {
        name: "mean",
        library: Box::new(move || {
            library::mean(black_box(record), year, &mut out).expect("a mean");
            black_box(&out);
        }),
        plain: Box::new(move || {
            black_box(plain::mean(&read(record), year).expect("a mean"));
        }),
    }
}

fn total(record: &[u8], year: u64) -> Operation<'_> {
    let mut out = [0; 2];
    Operation {
        name: "total",
        library: Box::new(move || {
            library::total(black_box(record), year, &mut out).expect("a total");
            black_box(&out);
        }),
        plain: Box::new(move || {
            black_box(plain::total(&read(record), year).expect("a total"));
        }),
    }
}

fn share_sheet(record: &[u8], s: usize, year: u64) -> Operation<'_> {
    let (mut low, mut high) = (vec![0; s], vec![0; s]);
    let (mut plain_low, mut plain_high) = (vec![0; s], vec![0; s]);
    Operation {
        name: "share sheet",
        library: Box::new(move || {
            library::share_sheet(black_box(record), year, &mut low, &mut high).expect("a sheet");
            black_box((&low, &high));
        }),
        plain: Box::new(move || {
            plain::share_sheet(&read(record), year, &mut plain_low, &mut plain_high)
                .expect("a sheet");
            black_box((&plain_low, &plain_high));
        }),
    }
}

fn pooled_share_sheet(record: &[u8], book: Book, s: usize, year: u64) -> Operation<'_> {
    let (mut low, mut high) = (vec![0; s], vec![0; s]);
    let (mut plain_low, mut plain_high) = (vec![0; s], vec![0; s]);
    Operation {
        name: "pooled share sheet",
        library: Box::new(move || {
            library::pooled_share_sheet(black_box(record), &book, year, &mut low, &mut high)
                .expect("a sheet");
            black_box((&low, &high));
        }),
        plain: Box::new(move || {
            let (low, high) = (&mut plain_low, &mut plain_high);
            plain::pooled_share_sheet(&read(record), &book, year, low, high).expect("a sheet");
            black_box((&plain_low, &plain_high));
        }),
    }
}

fn sheet(record: &[u8]) -> Operation<'_> {
    let mut out = vec![0; library::SHEET_ROOM];
    let mut length = [0];
    Operation {
        name: "whole sheet",
        library: Box::new(move || {
            library::sheet(black_box(record), &mut out, &mut length).expect("a text");
            black_box((&out, &length));
        }),
        plain: Box::new(move || {
            black_box(plain::sheet(black_box(record)));
        }),
    }
}

fn check(record: &[u8]) -> Operation<'_> {
    Operation {
        name: "read",
        library: Box::new(move || {
            library::check(black_box(record)).expect("a record");
        }),
        plain: Box::new(move || {
            black_box(read(record));
        }),
    }
}

/// The record read and written in a version.
fn rewrite<'a>(name: &'static str, record: &'a [u8], version: u64) -> Operation<'a> {
    let mut out = [0; library::RECORD_ROOM];
    let mut length = [0];
    let mut plain_out = [0; library::RECORD_ROOM];
    Operation {
        name,
        library: Box::new(move || {
            library::rewrite(black_box(record), version, &mut out, &mut length).expect("a record");
            black_box((&out, &length));
        }),
        plain: Box::new(move || {
            black_box(plain::write(&read(record), version, &mut plain_out).expect("a record"));
            black_box(&plain_out);
        }),
    }
}

fn mixing(record: &[u8]) -> Operation<'_> {
    let mut count = [0];
    Operation {
        name: "mixing",
        library: Box::new(move || {
            library::mixing(black_box(record), &mut count).expect("a count");
            black_box(&count);
        }),
        plain: Box::new(move || {
            black_box(plain::mixing(&read(record)).expect("a count"));
        }),
    }
}

/// A scheme with rules, bands and premiums of the usual kind: no claim lowers
/// the class by 1, k claims raise it by 3k - 1, and few chambers have many.
fn usual(s: u8) -> Scheme {
    let mut scheme = Scheme {
        classes: s,
        columns: 8,
        start: s.div_ceil(2),
        horizon: 100,
        ..Scheme::EMPTY
    };
    for class in 1..=i32::from(s) {
        for claims in 0..8 {
            let place = (class - 1) * 8 + claims;
            let next = (class + 3 * claims - 1).clamp(1, i32::from(s));
            scheme.rules[place as usize] = next as u8;
        }
        scheme.premiums[class as usize - 1] = 50_000 + 7_000 * class as u32;
    }
    scheme.lowers = [880_000_000, 70_000_000, 3_000_000, 100_000, 2_000, 0, 0, 0];
    scheme.uppers = [
        920_000_000,
        110_000_000,
        9_000_000,
        600_000,
        50_000,
        4_000,
        500,
        100,
    ];
    scheme
}

/// Any rules, and bands about random probabilities; premiums at random.
fn random(seed: u64, s: u8) -> Scheme {
    let mut rng = Rng::new(seed);
    let mut scheme = scheme_of(&mut rng, Shape::of(s, 8));
    scheme.horizon = 100;
    for rule in &mut scheme.rules {
        *rule = rng.between(1, u64::from(s)) as u8;
    }
    for k in 0..8 {
        scheme.lowers[k] = rng.between(0, 125_000_000) as u32;
        scheme.uppers[k] = rng.between(125_000_000, 400_000_000) as u32;
    }
    for premium in &mut scheme.premiums[..usize::from(s)] {
        *premium = rng.between(10_000, 1_000_000) as u32;
    }
    scheme
}

/// The schemes of s classes that are timed, each with its name.
fn schemes(s: u8) -> [(&'static str, Vec<u8>); 4] {
    [
        ("usual", record_of(&usual(s))),
        ("random 1", record_of(&random(1, s))),
        ("random 2", record_of(&random(2, s))),
        ("random 3", record_of(&random(3, s))),
    ]
}

/// How many operations are timed.
const OPERATIONS: usize = 12;

/// All operations on a record of version 1 with 32 classes and 100 years.
fn operations(record: &[u8]) -> [Operation<'_>; OPERATIONS] {
    [
        share(record, 20, 100),
        reached(record, 20, 100),
        pooled_share(record, book(), 20, 100),
        share_sheet(record, 32, 100),
        pooled_share_sheet(record, book(), 32, 100),
        mean(record, 100),
        total(record, 100),
        sheet(record),
        check(record),
        rewrite("read, write", record, 1),
        rewrite("read, write as 2", record, 2),
        mixing(record),
    ]
}

/// One line for each operation, with the scheme of the worst ratio.
fn main_table() {
    println!("s 32, m 8, t 100; microseconds a call; the scheme of the worst ratio");
    println!(
        "{:<18} {:>12} {:>12} {:>8}  {:<9} all ratios",
        "operation", "library", "plain", "ratio", "scheme"
    );
    let schemes = schemes(32);
    let mut all: Vec<[Operation; OPERATIONS]> = schemes
        .iter()
        .map(|(_, record)| operations(record))
        .collect();
    let mut worst: f64 = 0.0;
    for at in 0..OPERATIONS {
        let times: Vec<Times> = all
            .iter_mut()
            .map(|operations| race(&mut operations[at]))
            .collect();
        let ratios: Vec<String> = times
            .iter()
            .map(|times| format!("{:.2}", times.ratio()))
            .collect();
        let slowest = (0..times.len())
            .max_by(|&a, &b| times[a].ratio().total_cmp(&times[b].ratio()))
            .expect("some schemes");
        worst = worst.max(times[slowest].ratio());
        println!(
            "{:<18} {:>12.2} {:>12.2} {:>8.2}  {:<9} {}",
            all[slowest][at].name,
            times[slowest].library,
            times[slowest].plain,
            times[slowest].ratio(),
            schemes[slowest].0,
            ratios.join(" ")
        );
    }
    println!("worst ratio: {worst:.2}");
}

/// What a pooled share takes beside a share, both of the library.
fn pooled_table() {
    println!(
        "\npooled share beside share, both of the library, s 32, m 8, t 100; microseconds a call"
    );
    println!(
        "{:<12} {:>12} {:>12} {:>8}",
        "scheme", "pooled", "share", "ratio"
    );
    for (name, record) in schemes(32) {
        let mut pooled = pooled_share(&record, book(), 20, 100);
        let mut alone = share(&record, 20, 100);
        let [pooled, alone] = in_turns(&mut pooled.library, &mut alone.library);
        println!(
            "{name:<12} {pooled:>12.2} {alone:>12.2} {:>8.2}",
            pooled / alone
        );
    }
}

/// A table of one share at growing sizes.
fn growth_table(title: &str, letter: &str, rows: &[(u64, Vec<u8>, u64)]) {
    println!("\n{title}; microseconds a call");
    println!(
        "{letter:<12} {:>12} {:>12} {:>8}",
        "library", "plain", "ratio"
    );
    for (size, record, year) in rows {
        let times = race(&mut share(record, 3, *year));
        println!(
            "{size:<12} {:>12.2} {:>12.2} {:>8.2}",
            times.library,
            times.plain,
            times.ratio()
        );
    }
}

fn main() {
    main_table();
    pooled_table();
    let years = [0, 25, 50, 100].map(|t| (t, record_of(&random(1, 32)), t));
    growth_table("share, s 32, m 8, by years t (random 1)", "t", &years);
    let sizes = [4, 8, 16, 32].map(|s| (u64::from(s), record_of(&random(1, s)), 100));
    growth_table("share, m 8, t 100, by classes s (random 1)", "s", &sizes);
}
