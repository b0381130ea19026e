//! The proved library against the plain version, on more than 100,000 records
//! of each version.

mod lent;
mod pooled;

use lent::{check_one, near, of_length, Lent};
use plain::{places, Scheme, FRONT};
use std::io::Write;
use trials::family;
use trials::made::{self, Shape, DAMAGES};
use trials::rng::Rng;

/// Marks that no call writes: answers stay below, texts and their lengths too.
const MARK: u64 = 0xA5A5_A5A5_A5A5_A5A5;
const BYTE: u8 = 0xA5;

/// How many records of each version are to be compared at least.
const LEAST: u64 = 100_000;

/// The versions of the record.
const VERSIONS: [u8; 2] = [1, 2];

/// Versions that no record is written in; the last bytes of some are 1 or 2.
const NO_VERSIONS: [u64; 6] = [0, 3, 257, 258, (1 << 32) + 1, u64::MAX];

/// What was compared.
#[derive(Default)]
struct Tally {
    records: u64,
    /// Records whose first byte is 1, and 2.
    versions: [u64; 2],
    calls: u64,
    /// Records written in the other version and in their own again.
    returned: u64,
    /// Sheets of accepted records, and REFUSED lines of the others.
    sheets: u64,
    refusals: u64,
    /// Records by the cause of reading them.
    causes: [u64; 18],
    /// Pooled calls by their cause, 0 where they are answered.
    pooled: [u64; 20],
}

impl Tally {
    fn add(&mut self, other: &Tally) {
        self.records += other.records;
        self.calls += other.calls;
        self.sheets += other.sheets;
        self.refusals += other.refusals;
        self.returned += other.returned;
        for (sum, count) in self.versions.iter_mut().zip(other.versions) {
            *sum += count;
        }
        for (sum, count) in self.causes.iter_mut().zip(other.causes) {
            *sum += count;
        }
        for (sum, count) in self.pooled.iter_mut().zip(other.pooled) {
            *sum += count;
        }
    }

    /// Counts a record by its first byte and by the cause of reading it.
    fn count_record(&mut self, record: &[u8], cause: u8) {
        self.records += 1;
        self.causes[usize::from(cause)] += 1;
        for (count, version) in self.versions.iter_mut().zip(VERSIONS) {
            *count += u64::from(record.first() == Some(&version));
        }
    }

    /// Counts a pooled call by what is wanted of it.
    fn count_pooled<T>(&mut self, wanted: Result<T, u8>) {
        self.pooled[usize::from(wanted.err().unwrap_or(0))] += 1;
    }
}

/// One record with what the plain version reads in it.
struct Trial<'a> {
    record: &'a [u8],
    read: Result<Scheme, u8>,
}

impl Trial<'_> {
    /// The number of classes, or one where the record is declined.
    fn s(&self) -> u64 {
        self.read
            .as_ref()
            .map_or(1, |scheme| u64::from(scheme.classes))
    }

    fn horizon(&self) -> u64 {
        self.read
            .as_ref()
            .map_or(3, |scheme| u64::from(scheme.horizon))
    }

    /// What the plain version answers on the scheme, or the cause of reading.
    fn asked<T>(&self, ask: impl FnOnce(&Scheme) -> Result<T, u8>) -> Result<T, u8> {
        ask(self.read.as_ref().map_err(|&cause| cause)?)
    }
}

/// A call for bounds with an `out` of this length.
fn check_bounds(
    tally: &mut Tally,
    length: usize,
    bounds: Result<(u64, u64), u8>,
    call: impl FnOnce(&mut [u64]) -> Result<(), u8>,
) {
    let wanted = of_length(length == 2, bounds.map(|(low, high)| [low, high]));
    let mut out = Lent::new(length, MARK);
    let answer = call(out.part());
    check_one(answer, &wanted, &out);
    tally.calls += 1;
}

fn check_share(tally: &mut Tally, trial: &Trial, class: u64, year: u64, length: usize) {
    let bounds = trial.asked(|scheme| plain::share(scheme, class, year));
    check_bounds(tally, length, bounds, |out| {
        library::share(trial.record, class, year, out)
    });
}

fn check_reached(tally: &mut Tally, trial: &Trial, class: u64, year: u64, length: usize) {
    let bounds = trial.asked(|scheme| plain::reached(scheme, class, year));
    check_bounds(tally, length, bounds, |out| {
        library::reached(trial.record, class, year, out)
    });
}

fn check_mean(tally: &mut Tally, trial: &Trial, year: u64, length: usize) {
    let bounds = trial.asked(|scheme| plain::mean(scheme, year));
    check_bounds(tally, length, bounds, |out| {
        library::mean(trial.record, year, out)
    });
}

fn check_total(tally: &mut Tally, trial: &Trial, year: u64, length: usize) {
    let bounds = trial.asked(|scheme| plain::total(scheme, year));
    check_bounds(tally, length, bounds, |out| {
        library::total(trial.record, year, out)
    });
}

/// A share sheet into slices of a and b numbers.
fn check_share_sheet(tally: &mut Tally, trial: &Trial, year: u64, a: usize, b: usize) {
    let (mut plain_low, mut plain_high) = (vec![MARK; a], vec![MARK; b]);
    let wanted =
        trial.asked(|scheme| plain::share_sheet(scheme, year, &mut plain_low, &mut plain_high));
    let (mut low, mut high) = (Lent::new(a, MARK), Lent::new(b, MARK));
    let answer = library::share_sheet(trial.record, year, low.part(), high.part());
    check_one(answer, &wanted.map(|()| plain_low), &low);
    check_one(answer, &wanted.map(|()| plain_high), &high);
    tally.calls += 1;
}

/// A text or record of `room` bytes at least into `out`, and its length into
/// `length`.
fn check_text(
    tally: &mut Tally,
    text: Result<Vec<u8>, u8>,
    room: usize,
    (out_length, length_length): (usize, usize),
    call: impl FnOnce(&mut [u8], &mut [u64]) -> Result<(), u8>,
) {
    let wanted = of_length(out_length >= room && length_length == 1, text);
    let size = wanted
        .as_ref()
        .map(|text| [text.len() as u64])
        .map_err(|&cause| cause);
    let mut out = Lent::new(out_length, BYTE);
    let mut length = Lent::new(length_length, MARK);
    let answer = call(out.part(), length.part());
    check_one(answer, &wanted, &out);
    check_one(answer, &size, &length);
    tally.calls += 1;
}

/// The version as a byte, or its cause.
fn known(version: u64) -> Result<u8, u8> {
    match version {
        1 => Ok(1),
        2 => Ok(2),
        _ => Err(1),
    }
}

/// The record read and written in a version, with slices of these lengths.
fn check_rewrite(tally: &mut Tally, trial: &Trial, version: u64, lengths: (usize, usize)) {
    let write = |version| trial.asked(|scheme| Ok(made::record_in(scheme, version)));
    let text = known(version).and_then(write);
    let room = text.as_ref().map_or(0, |text| text.len());
    check_text(tally, text, room, lengths, |out, length| {
        library::rewrite(trial.record, version, out, length)
    });
}

/// The library's own bytes of a record in a version.
fn rewritten(record: &[u8], version: u8) -> Vec<u8> {
    let mut out = vec![BYTE; library::RECORD_ROOM];
    let mut length = [0];
    library::rewrite(record, version.into(), &mut out, &mut length).expect("a record");
    out.truncate(length[0] as usize);
    out
}

/// An accepted record keeps its bytes where the library writes it in the other
/// version and that in its own again.
fn check_return(tally: &mut Tally, record: &[u8]) {
    let own = record[places::VERSION];
    let other = rewritten(record, if own == 1 { 2 } else { 1 });
    assert_ne!(other[places::VERSION], own);
    assert_eq!(library::check(&other), Ok(()));
    assert_eq!(rewritten(&other, own), record);
    tally.returned += 1;
}

/// The room that a sheet of the record is to have.
fn sheet_room(trial: &Trial) -> usize {
    match trial.read {
        Ok(_) => 47 + (trial.horizon() as usize + 1) * (40 * trial.s() as usize + 35),
        Err(_) => 11,
    }
}

/// The sheet's text of any bytes, with slices of these lengths.
fn check_sheet(tally: &mut Tally, trial: &Trial, lengths: (usize, usize)) {
    let text = Ok(plain::sheet(trial.record));
    check_text(tally, text, sheet_room(trial), lengths, |out, length| {
        library::sheet(trial.record, out, length)
    });
}

/// Classes to ask for: within and out of range.
fn classes(rng: &mut Rng, s: u64) -> [u64; 3] {
    let within = rng.between(1, s);
    [
        within,
        rng.pick(&[1, s]),
        rng.pick(&[0, s + 1, s + 256, s + (1 << 32), u64::MAX]),
    ]
}

/// Years to ask for: within `most` and out of range.
fn years(rng: &mut Rng, most: u64, horizon: u64) -> [u64; 3] {
    let late = horizon + 1;
    [
        rng.between(0, most),
        rng.pick(&[most, most, 0]),
        rng.pick(&[late, late + 255, late + (1 << 32), u64::MAX]),
    ]
}

/// Once in so many times a record is asked for years up to its horizon, and
/// otherwise for fewer, since those of a large scheme take long.
const LONG: u64 = 40;

/// Says which record it was where a comparison fails.
struct Named<'a>(&'a [u8]);

impl Drop for Named<'_> {
    fn drop(&mut self) {
        if std::thread::panicking() {
            let digits: String = self.0.iter().map(|byte| format!("{byte:02x}")).collect();
            eprintln!("on the record {digits}");
        }
    }
}

/// Compares every operation on one record.
fn compare(tally: &mut Tally, rng: &mut Rng, record: &[u8]) {
    let _named = Named(record);
    let trial = Trial {
        record,
        read: plain::read(record),
    };
    let cause = trial.read.as_ref().err().copied().unwrap_or(0);
    tally.count_record(record, cause);
    assert_eq!(library::check(record).err().unwrap_or(0), cause);

    let (s, horizon) = (trial.s(), trial.horizon());
    let few = if rng.once_in(LONG) { 100 } else { 1 };
    let classes = classes(rng, s);
    let years_one = years(rng, horizon.min(few + 100 / s), horizon);
    for class in classes {
        let year = rng.pick(&years_one);
        check_share(tally, &trial, class, year, 2);
        check_reached(tally, &trial, class, year, 2);
    }
    for year in years_one {
        check_share(tally, &trial, classes[0], year, 2);
        check_reached(tally, &trial, classes[0], year, 2);
        check_mean(tally, &trial, year, 2);
        check_total(tally, &trial, year, 2);
    }
    let years_all = years(rng, horizon.min(few + 400 / (s * s)), horizon);
    check_share_sheet(tally, &trial, rng.pick(&years_all), s as usize, s as usize);
    compare_lengths(tally, rng, &trial);
    compare_rewrites(tally, rng, &trial);
    pooled::compare(tally, &trial);
    if rng.once_in(16) || cause != 0 {
        compare_sheet(tally, rng, &trial);
    }
}

/// Every length near the right one of every lent slice, at an early year.
fn compare_lengths(tally: &mut Tally, rng: &mut Rng, trial: &Trial) {
    let s = trial.s();
    let early = trial.horizon().min(rng.below(2));
    let late = trial.horizon() + 1;
    let class = rng.between(1, s);
    for length in near(2) {
        check_share(tally, trial, class, early, length);
        check_reached(tally, trial, class, early, length);
        check_mean(tally, trial, early, length);
        check_total(tally, trial, early, length);
    }
    let wrong = rng.pick(&near(2));
    for class in [s + 1, s] {
        check_share(tally, trial, class, late, wrong);
        check_reached(tally, trial, class, late, wrong);
    }
    check_mean(tally, trial, late, wrong);
    check_total(tally, trial, late, wrong);

    for a in near(s as usize) {
        check_share_sheet(tally, trial, early, a, s as usize);
        check_share_sheet(tally, trial, early, s as usize, a);
        check_share_sheet(tally, trial, early, a, rng.pick(&near(s as usize)));
        check_share_sheet(tally, trial, late, a, rng.pick(&near(s as usize)));
    }
}

/// The record written in every version, with every length near the right one.
fn compare_rewrites(tally: &mut Tally, rng: &mut Rng, trial: &Trial) {
    for version in VERSIONS {
        let room = match &trial.read {
            Ok(scheme) => made::record_in(scheme, version).len(),
            Err(_) => trial.record.len(),
        };
        for out in near(room) {
            for length in [1, rng.pick(&near(1))] {
                check_rewrite(tally, trial, version.into(), (out, length));
            }
        }
    }
    for version in NO_VERSIONS {
        let lengths = (rng.pick(&near(trial.record.len())), rng.pick(&near(1)));
        check_rewrite(tally, trial, version, lengths);
        check_rewrite(tally, trial, version, (library::RECORD_ROOM, 1));
    }
    if trial.read.is_ok() {
        check_return(tally, trial.record);
    }
}

/// The sheet's text, with every length near the room; long ones now and then.
fn compare_sheet(tally: &mut Tally, rng: &mut Rng, trial: &Trial) {
    let (s, room) = (trial.s(), sheet_room(trial));
    for out in [0, room - 1] {
        check_sheet_length(tally, trial, (out, 1));
    }
    check_sheet_length(tally, trial, (room, rng.pick(&[0, 2, 3])));
    if s * s * trial.horizon() <= 1_000 || rng.once_in(LONG) {
        for out in [room, room + 1, room + 2] {
            check_sheet(tally, trial, (out, 1));
        }
        match trial.read {
            Ok(_) => tally.sheets += 1,
            Err(_) => tally.refusals += 1,
        }
    }
}

/// A sheet that is declined for a slice's length; what its text is does not
/// matter.
fn check_sheet_length(tally: &mut Tally, trial: &Trial, lengths: (usize, usize)) {
    check_text(
        tally,
        Ok(Vec::new()),
        sheet_room(trial),
        lengths,
        |out, length| library::sheet(trial.record, out, length),
    );
}

/// Accepted schemes of every size, in both versions.
fn sizes(tally: &mut Tally) {
    let mut rng = Rng::new(101);
    for s in 1..=32 {
        for m in 1..=8 {
            for turn in 0..400 {
                let scheme = made::scheme_of(&mut rng, Shape::of(s, m));
                compare(tally, &mut rng, &made::record_by_turns(&scheme, turn));
            }
        }
    }
}

/// Records of both versions with damage of every kind.
fn damaged(tally: &mut Tally) {
    let mut rng = Rng::new(102);
    for _ in 0..88_000 {
        let record = made::damaged(&mut rng);
        compare(tally, &mut rng, &record);
    }
}

/// Records of version 2 beside the family's of version 1: of the same schemes,
/// and small ones with damage of every kind.
fn labels(rng: &mut Rng, records: &[Vec<u8>]) -> Vec<Vec<u8>> {
    let schemes = records
        .iter()
        .filter(|record| record.first() == Some(&1))
        .filter_map(|record| plain::read(record).ok());
    let mut labels: Vec<Vec<u8>> = schemes.map(|scheme| made::record_in(&scheme, 2)).collect();
    for kind in (0..DAMAGES).cycle().take(2 * DAMAGES as usize) {
        let shape = Shape::up_to(rng, 6, 4).in_version(2);
        let mut label = made::record_in(&made::scheme_of(rng, shape), shape.version);
        made::damage(rng, &mut label, kind);
        labels.push(label);
    }
    labels
}

/// The family's records and more of version 2, and every byte of some set to
/// edge values.
fn edges(tally: &mut Tally) {
    let mut rng = Rng::new(103);
    let mut records = family::records();
    records.extend(labels(&mut rng, &records));
    for record in records {
        compare(tally, &mut rng, &record);
        if record.len() > 120 {
            continue;
        }
        for place in 0..record.len() {
            let byte = record[place];
            for value in [
                0,
                1,
                2,
                100,
                101,
                255,
                byte.wrapping_add(1),
                byte.wrapping_sub(1),
            ] {
                let mut other = record.clone();
                other[place] = value;
                compare(tally, &mut rng, &other);
            }
        }
    }
}

/// Any bytes, most with a version and a length field that fit, some longer
/// than a length field can say.
fn bytes(tally: &mut Tally) {
    let mut rng = Rng::new(104);
    for _ in 0..20_000 {
        let length = match rng.below(200) {
            0 => rng.between(60_000, 70_000),
            1..=20 => rng.between(0, 600),
            _ => rng.between(0, 64),
        } as usize;
        let mut record = vec![0; length];
        record.fill_with(|| rng.draw() as u8);
        if length >= FRONT && !rng.once_in(4) {
            record[places::VERSION] = rng.pick(&VERSIONS);
            made::set_length(&mut record);
            record[places::CLASSES] = rng.between(0, 5) as u8;
            record[places::COLUMNS] = rng.between(0, 5) as u8;
        }
        if length > places::LAST_COLUMN && rng.once_in(2) {
            record[places::LAST_COLUMN] = record[places::COLUMNS].wrapping_sub(1);
        }
        compare(tally, &mut rng, &record);
    }
}

#[test]
fn records() {
    let parts: [fn(&mut Tally); 4] = [sizes, damaged, edges, bytes];
    let mut all = Tally::default();
    std::thread::scope(|scope| {
        let run = |part: fn(&mut Tally)| {
            move || {
                let mut tally = Tally::default();
                part(&mut tally);
                tally
            }
        };
        let threads = parts.map(|part| scope.spawn(run(part)));
        for thread in threads {
            all.add(&thread.join().expect("a comparison"));
        }
    });
    let line = format!(
        "library and plain version agree: {} records, {} of them of version 2, {} calls, {} of them pooled, {} sheets, {} REFUSED lines, {} records rewritten in the other version and back; by cause 0 to 10: {:?}, 17: {}",
        all.records,
        all.versions[1],
        all.calls,
        all.pooled.iter().sum::<u64>(),
        all.sheets,
        all.refusals,
        all.returned,
        &all.causes[..=10],
        all.causes[17]
    );
    // Past the capture of tests, so that it always shows.
    writeln!(std::io::stderr(), "{line}").expect("standard error");
    assert!(all.versions.iter().all(|&count| count >= LEAST));
    assert_eq!(all.returned, all.causes[0]);
    for cause in (0..=10).chain([17]) {
        assert!(all.causes[cause] >= 100, "{:?}", all.causes);
    }
    for cause in (0..=13).chain([17, 18, 19]) {
        assert!(all.pooled[cause] >= 1_000, "{:?}", all.pooled);
    }
}

/// A ready scheme in a version, with every length near the right one.
fn check_ready(tally: &mut Tally, number: u64, base: u64, version: u64) {
    let write = |version| Ok(made::record_in(&plain::ready(number, base)?, version));
    let record = known(version).and_then(write);
    let room = record.as_ref().map_or(5, |record| record.len());
    for out in near(room) {
        for length in near(1) {
            let record = record.clone();
            check_text(tally, record, room, (out, length), |out, length| {
                library::ready(number, base, version, out, length)
            });
        }
    }
}

/// The ready schemes in every version.
#[test]
fn ready() {
    let mut rng = Rng::new(105);
    let mut tally = Tally::default();
    for number in [0, 1, 2, 3, 4, 257, (1 << 32) + 1, u64::MAX] {
        let mut bases = vec![
            0,
            1,
            999,
            1000,
            2_499_999,
            2_500_000,
            2_500_001,
            1 << 32,
            u64::MAX,
        ];
        bases.extend((0..200).map(|_| rng.between(0, 2_600_000)));
        for base in bases {
            for version in VERSIONS.map(u64::from).into_iter().chain(NO_VERSIONS) {
                check_ready(&mut tally, number, base, version);
            }
        }
    }
}
