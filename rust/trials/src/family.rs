//! The fixed family of records and the report of the answers on it. The line
//! format is described in the binary `family`.

use crate::labels::labels;
use crate::made::{damage, record_in, record_of, scheme_of, Shape};
use crate::rng::Rng;
use plain::{
    Book, Figures, Scheme, MAX_CLASSES, MAX_COLUMNS, MAX_COUNT, MAX_HORIZON, MAX_PAYOFF, MAX_RECORD,
};
use std::fmt::Write;

/// Example A of the scope.
pub const EXAMPLE_A: [u8; 45] = [
    0x01, 0x00, 0x2D, 0x02, 0x03, 0x02, 0x02, 0x01, 0x01, 0x02, 0x01, 0x02, 0x02, 0x2F, 0xAF, 0x08,
    0x00, 0x35, 0xA4, 0xE9, 0x00, 0x05, 0xF5, 0xE1, 0x00, 0x0B, 0xEB, 0xC2, 0x00, 0x00, 0x00, 0x00,
    0x00, 0x02, 0xFA, 0xF0, 0x80, 0x00, 0x00, 0x27, 0x10, 0x00, 0x00, 0x3A, 0x98,
];

/// Sizes s, m of the made-up schemes of the family.
const SIZES: [(u8, u8); 26] = [
    (1, 1),
    (1, 8),
    (2, 1),
    (2, 2),
    (2, 8),
    (3, 2),
    (3, 3),
    (3, 8),
    (4, 4),
    (5, 5),
    (6, 2),
    (7, 3),
    (8, 8),
    (10, 2),
    (11, 4),
    (12, 6),
    (13, 8),
    (16, 8),
    (18, 5),
    (20, 4),
    (24, 5),
    (27, 7),
    (31, 1),
    (31, 8),
    (32, 1),
    (32, 8),
];

/// How many of the kinds of damage the family has, each in records of version 1.
const DAMAGES: u64 = 17;

/// The records of the family; those of version 2 come last.
pub fn records() -> Vec<Vec<u8>> {
    let mut rng = Rng::new(2007);
    let mut records = vec![EXAMPLE_A.to_vec()];
    records.extend([thirds(), three()].iter().map(record_of));
    records.extend(ready_schemes().iter().map(record_of));
    records.extend(SIZES.map(|(s, m)| made_up(&mut rng, Shape::of(s, m))));
    records.push(Vec::new());
    for kind in 0..DAMAGES {
        records.extend(declined(&mut rng, kind));
    }
    records.extend(edges());
    records.extend(damaged_examples());
    records.extend([turning(32), slowest(32)].iter().map(record_of));
    records.extend(labels());
    records
}

/// Both classes 0 to 1, 1+ to 2, in thirds.
pub(crate) fn thirds() -> Scheme {
    let mut thirds = small(2, 2, 2);
    for rules in thirds.rules.chunks_exact_mut(MAX_COLUMNS).take(2) {
        rules[..2].copy_from_slice(&[1, 2]);
    }
    thirds.lowers[..2].copy_from_slice(&[333_333_333, 666_666_667]);
    thirds.uppers = thirds.lowers;
    thirds.premiums[..2].copy_from_slice(&[10, 11]);
    thirds
}

/// One row of three classes.
pub(crate) fn three() -> Scheme {
    let mut three = small(3, 3, 3);
    for rules in three.rules.chunks_exact_mut(MAX_COLUMNS).take(3) {
        rules[..3].copy_from_slice(&[1, 2, 3]);
    }
    three.lowers[..3].copy_from_slice(&[100_000_000, 200_000_000, 300_000_000]);
    three.uppers[..3].copy_from_slice(&[500_000_000, 600_000_000, 400_000_000]);
    three.premiums[..3].copy_from_slice(&[30, 10, 20]);
    three
}

/// The ready schemes as they are, and one with narrow bands.
pub(crate) fn ready_schemes() -> [Scheme; 4] {
    let ready = |number, base| plain::ready(number, base).expect("a ready scheme");
    let mut narrow = ready(3, 120_000);
    narrow.lowers[..5].copy_from_slice(&[880_000_000, 70_000_000, 3_000_000, 50_000, 0]);
    narrow.uppers[..5].copy_from_slice(&[920_000_000, 110_000_000, 9_000_000, 900_000, 60_000]);
    narrow.horizon = MAX_HORIZON;
    [
        ready(1, 100_000),
        ready(2, 2_500_000),
        ready(3, 77_777),
        narrow,
    ]
}

/// The record of a made-up scheme; of the largest at the longest horizon.
pub(crate) fn made_up(rng: &mut Rng, shape: Shape) -> Vec<u8> {
    let mut scheme = scheme_of(rng, shape);
    if shape.classes >= 31 {
        scheme.horizon = MAX_HORIZON;
    }
    record_in(&scheme, shape.version)
}

/// The first two records with damage of a kind that are declined.
fn declined(rng: &mut Rng, kind: u64) -> Vec<Vec<u8>> {
    let tried = (0..10_000).map(|_| {
        let shape = Shape::up_to(rng, 6, 4);
        let mut bytes = record_in(&scheme_of(rng, shape), shape.version);
        damage(rng, &mut bytes, kind);
        bytes
    });
    tried
        .filter(|bytes| plain::read(bytes).is_err())
        .take(2)
        .collect()
}

/// One class and two columns at the edges of acceptance: the lowers sum to
/// ONE, the premium is 10,000,000 and the horizon 100.
pub(crate) const EDGE: [u8; 29] = [
    0x01, 0x00, 0x1D, 0x01, 0x02, 0x01, 0x64, 0x01, 0x01, 0x1D, 0xCD, 0x65, 0x00, 0x23, 0xC3, 0x46,
    0x00, 0x1D, 0xCD, 0x65, 0x00, 0x23, 0xC3, 0x46, 0x00, 0x00, 0x98, 0x96, 0x80,
];

/// The record at the edges of acceptance, and one past each: the lowers' sum,
/// the premium, the horizon, the columns, the start, a rule, a band's lower
/// above its upper, and its upper above ONE.
fn edges() -> [Vec<u8>; 9] {
    [
        EDGE.to_vec(),
        changed(&EDGE, 20, &[0x01]),
        changed(&EDGE, 28, &[0x81]),
        changed(&EDGE, 6, &[101]),
        changed(&EDGE, 4, &[9]),
        changed(&EDGE, 5, &[2]),
        changed(&EDGE, 8, &[2]),
        changed(&EDGE, 9, &[0x23, 0xC3, 0x46, 0x01]),
        changed(&EDGE, 13, &[0xFF; 4]),
    ]
}

/// Example A cut to 6 and to 44 bytes, saying version 2, with 33 classes and
/// with 4 columns; and one byte more than a record can have, all of them 1.
fn damaged_examples() -> [Vec<u8>; 6] {
    [
        EXAMPLE_A[..6].to_vec(),
        EXAMPLE_A[..44].to_vec(),
        changed(&EXAMPLE_A, 0, &[2]),
        changed(&EXAMPLE_A, 3, &[33]),
        changed(&EXAMPLE_A, 4, &[4]),
        vec![1; MAX_RECORD + 1],
    ]
}

/// Classes that each lead to the next, and the last to the first: no count of
/// years mixes.
pub fn turning(classes: u8) -> Scheme {
    let mut turning = small(classes, 2, 1);
    for class in 1..=classes {
        let place = usize::from(class - 1) * MAX_COLUMNS;
        turning.rules[place..place + 2].fill(class % classes + 1);
    }
    turning.lowers[..2].fill(400_000_000);
    turning.uppers[..2].fill(600_000_000);
    turning
}

/// The same, but that the last class but one may also lead to the first: of so
/// many classes, two or more, none that mixes takes longer, (s - 1)² + 1 years.
pub fn slowest(classes: u8) -> Scheme {
    let mut slowest = turning(classes);
    slowest.rules[usize::from(classes - 2) * MAX_COLUMNS + 1] = 1;
    slowest
}

/// The record with other bytes at a place.
pub(crate) fn changed(record: &[u8], place: usize, bytes: &[u8]) -> Vec<u8> {
    let mut record = record.to_vec();
    record[place..place + bytes.len()].copy_from_slice(bytes);
    record
}

/// A scheme with start 1, all rules and premiums still to be set.
fn small(classes: u8, columns: u8, horizon: u8) -> Scheme {
    Scheme {
        classes,
        columns,
        start: 1,
        horizon,
        ..Scheme::EMPTY
    }
}

/// The report on the family.
pub fn report() -> String {
    let mut out = String::new();
    for (index, record) in records().iter().enumerate() {
        report_record(&mut out, index as u64 + 1, record);
    }
    report_ready(&mut out);
    out
}

macro_rules! put {
    ($out:expr, $($rest:tt)*) => {
        write!($out, $($rest)*).expect("writing to a string")
    };
}

/// The report on one record.
pub fn report_record(out: &mut String, number: u64, record: &[u8]) {
    let read = plain::read(record);
    let told = answer(read.as_ref().map(|_| vec![]).map_err(|&cause| cause));
    put!(out, "RECORD {number} {} {told}\n", record.len());
    report_rules(out, record, &[0, 1]);
    put!(out, "BANDS");
    for (lower, upper) in plain::bands(record) {
        put!(out, " {lower} {upper}");
    }
    out.push('\n');
    report_reader(out, record);
    if let Ok(scheme) = read {
        report_scheme(out, number, record, &scheme);
    }
}

/// One call more of the reader than there can be columns.
fn report_reader(out: &mut String, record: &[u8]) {
    let (number, mut reader) = plain::open(record);
    put!(out, "READER {number}");
    for _ in 0..=MAX_COLUMNS {
        report_band(out, reader.next());
    }
    put!(out, " FIRST");
    report_band(out, plain::bands(record).first().copied());
    out.push('\n');
}

fn report_band(out: &mut String, band: Option<(u32, u32)>) {
    match band {
        Some((lower, upper)) => put!(out, " {lower} {upper}"),
        None => out.push_str(" -"),
    }
}

fn report_rules(out: &mut String, record: &[u8], classes: &[u64]) {
    for &class in classes {
        put!(out, "RULES {class}");
        for rule in plain::rule_row(record, class) {
            put!(out, " {rule}");
        }
        out.push('\n');
    }
}

fn report_scheme(out: &mut String, number: u64, record: &[u8], scheme: &Scheme) {
    let s = u64::from(scheme.classes);
    let start = u64::from(scheme.start);
    let horizon = u64::from(scheme.horizon);
    let years = [0, 1, 2, horizon, horizon + 1];
    report_rules(out, record, &[start, s, s + 1]);
    report_writes(out, scheme);
    let mixing = plain::mixing(scheme).map(|count| vec![count]);
    put!(out, "MIXING {}\n", answer(mixing));
    for class in [0, 1, start, s, s + 1] {
        report_class(out, number, scheme, class, &years);
    }
    for year in years {
        report_year(out, scheme, year);
    }
    for kind in 0..5 {
        let book = book(scheme, number, kind, u32::MAX);
        for year in [1, horizon, horizon + 1] {
            report_pooled(out, scheme, (kind, &book), year);
        }
    }
    report_joins(out, number, scheme);
}

/// The scheme written in each version: with room to spare, with as many bytes
/// as that takes, and with one less; then in versions that there are not.
fn report_writes(out: &mut String, scheme: &Scheme) {
    let spare = MAX_RECORD + 5;
    for version in [1, 2] {
        let length = report_write(out, scheme, version, spare).expect("an accepted scheme");
        for room in [length, length - 1] {
            let _ = report_write(out, scheme, version, room);
        }
    }
    for version in [0, 3, 257] {
        let _ = report_write(out, scheme, version, spare);
    }
}

/// The scheme written in a version to so many bytes, and the answer.
fn report_write(out: &mut String, scheme: &Scheme, version: u64, room: usize) -> Result<usize, u8> {
    let mut bytes = vec![0xAA; room];
    let written = plain::write(scheme, version, &mut bytes);
    let told = answer(written.map(|length| vec![length as u64]));
    put!(out, "WRITE {version} {room} {told} {}\n", bytes_sum(&bytes));
    written
}

fn report_class(out: &mut String, number: u64, scheme: &Scheme, class: u64, years: &[u64]) {
    let sums = |(lower, upper): (Figures, Figures)| {
        pair((checksum(lower.into_iter()), checksum(upper.into_iter())))
    };
    let interval = plain::interval_row(scheme, class).map(sums);
    put!(out, "INTERVAL {class} {}\n", answer(interval));
    let row = plain::row(scheme, class).map(sums);
    put!(out, "ROW {class} {}\n", answer(row));
    for kind in 0..4 {
        let payoff = payoff(scheme, number, kind);
        let low = plain::low_step(scheme, &payoff, class).map(|(figure, _)| figure);
        let high = plain::high_step(scheme, &payoff, class).map(|(figure, _)| figure);
        let result = low.and_then(|low| high.map(|high| (low, high)));
        put!(out, "STEP {class} {kind} {}\n", answer(result.map(pair)));
    }
    for &year in years {
        let result = plain::share(scheme, class, year).map(pair);
        put!(out, "SHARE {class} {year} {}\n", answer(result));
    }
    for &year in years {
        let result = plain::reached(scheme, class, year).map(pair);
        put!(out, "REACHED {class} {year} {}\n", answer(result));
    }
}

fn report_year(out: &mut String, scheme: &Scheme, year: u64) {
    let mean = plain::mean(scheme, year).map(pair);
    put!(out, "MEAN {year} {}\n", answer(mean));
    let total = plain::total(scheme, year).map(pair);
    put!(out, "TOTAL {year} {}\n", answer(total));
    let s = usize::from(scheme.classes);
    for (a, b) in [(s, s), (s, s + 1), (s / 2, s)] {
        let (mut low, mut high) = (vec![7; a], vec![7; b]);
        let result = plain::share_sheet(scheme, year, &mut low, &mut high).map(|()| vec![]);
        put!(
            out,
            "SHARES {year} {} {} {}\n",
            answer(result),
            checksum(low.into_iter()),
            checksum(high.into_iter())
        );
    }
}

/// What is pooled over a book of a kind.
fn report_pooled(out: &mut String, scheme: &Scheme, (kind, book): (u64, &Book), year: u64) {
    let share = plain::pooled_share(scheme, book, u64::from(scheme.classes), year);
    let mean = plain::pooled_mean(scheme, book, year);
    let total = plain::pooled_total(scheme, book, year);
    let [share, mean, total] = [share, mean, total].map(|bounds| answer(bounds.map(pair)));
    put!(out, "POOLED {kind} {year} {share} {mean} {total}\n");
    let s = usize::from(scheme.classes);
    for (a, b) in [(s, s), (s, s + 1)] {
        let (mut low, mut high) = (vec![7; a], vec![7; b]);
        let result = plain::pooled_share_sheet(scheme, book, year, &mut low, &mut high);
        put!(
            out,
            "POOLSHARES {kind} {year} {} {} {}\n",
            answer(result.map(|()| vec![])),
            checksum(low.into_iter()),
            checksum(high.into_iter())
        );
    }
}

/// Books joined, by their kinds and what stands beyond s.
fn report_joins(out: &mut String, number: u64, scheme: &Scheme) {
    let joins = [(0, 1, 0), (1, 1, 0), (2, 4, 0), (2, 0, 0), (4, 4, u32::MAX)];
    for (first, second, beyond) in joins {
        let of = |kind| book(scheme, number, kind, beyond);
        let result = plain::join(&of(first), &of(second));
        let counts = result.unwrap_or([0; MAX_CLASSES]);
        put!(
            out,
            "JOIN {first} {second} {} {}\n",
            answer(result.map(|_| vec![])),
            checksum(counts.into_iter().map(u64::from))
        );
    }
}

fn report_ready(out: &mut String) {
    let queries = [
        (0, 2_500_001),
        (1, 0),
        (1, 2_500_000),
        (2, 999),
        (2, 2_500_001),
        (3, 123_457),
        (3, 4_000_000_000),
        (4, 0),
        (1, 100_000),
        (3, 2_500_000),
        (3, 2_500_001),
    ];
    for (number, base) in queries {
        let ready = plain::ready(number, base);
        let result = ready.as_ref().map_err(|&cause| cause).map(|scheme| {
            let records = [1, 2].map(|version| record_in(scheme, version));
            let sums = records.map(|record| [record.len() as u64, bytes_sum(&record)]);
            sums.concat()
        });
        put!(out, "READY {number} {base} {}\n", answer(result));
        if let Ok(scheme) = ready {
            report_rules(out, &record_of(&scheme), &[1, 10]);
            for class in [1, 18] {
                put!(out, "PREMIUM {class} {}\n", scheme.premiums[class - 1]);
            }
        }
    }
}

/// A payoff of the kinds that the format names.
fn payoff(scheme: &Scheme, number: u64, kind: u64) -> Figures {
    let s = u64::from(scheme.classes);
    let mut payoff = [4 * MAX_PAYOFF; MAX_CLASSES];
    for class in 1..=s {
        let index = class as usize - 1;
        let mixed = (6_180_339_887 * class + 2_718_281_828 * number) % (MAX_PAYOFF + 1);
        payoff[index] = match kind {
            0 => 1000 * u64::from(scheme.premiums[index]),
            1 => mixed % 3,
            2 if class == s => MAX_PAYOFF + 1,
            _ => mixed,
        };
    }
    payoff
}

/// A book of the kinds that the format names, with this count beyond s.
fn book(scheme: &Scheme, number: u64, kind: u64, beyond: u32) -> Book {
    let s = u64::from(scheme.classes);
    let mut book = [beyond; MAX_CLASSES];
    for class in 1..=s {
        let mixed = (618_033 * class + 271_828 * number) % u64::from(MAX_COUNT + 1);
        book[class as usize - 1] = match kind {
            0 => u32::from(class == u64::from(scheme.start)),
            2 => MAX_COUNT,
            3 if class == s => MAX_COUNT + 1,
            4 => 0,
            _ => mixed as u32,
        };
    }
    book
}

fn pair((low, high): (u64, u64)) -> Vec<u64> {
    vec![low, high]
}

fn answer(result: Result<Vec<u64>, u8>) -> String {
    match result {
        Ok(numbers) => numbers
            .iter()
            .fold("OK".to_string(), |text, n| text + " " + &n.to_string()),
        Err(cause) => format!("NO {cause}"),
    }
}

/// The checksum of bytes.
pub fn bytes_sum(bytes: &[u8]) -> u64 {
    checksum(bytes.iter().map(|&byte| u64::from(byte)))
}

/// The checksum that the format names.
pub fn checksum(numbers: impl Iterator<Item = u64>) -> u64 {
    numbers.fold(0, |sum, number| {
        (sum * 16_777_619 + number % 4_294_967_291 + 1) % 4_294_967_291
    })
}
