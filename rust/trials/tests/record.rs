//! Reading, writing and refusals on random records and schemes.

use plain::{
    bands, cause, high_step, interval_row, low_step, mean, open, reached, read, row, rule_row,
    share, share_sheet, sheet, total, write, Scheme, ONE,
};
use trials::made::{self, Shape};
use trials::rng::Rng;

/// The numbers of the record written out once more, as a second opinion beside
/// those of the plain version.
const VERSIONS: [u8; 2] = [1, 2];
const SHORTEST: usize = 7;
const END: usize = 4;
const BAND: usize = 8;

/// Versions that no record is written in; the last bytes of some are 1 or 2.
const NO_VERSIONS: [u64; 9] = [
    0,
    3,
    255,
    256,
    257,
    258,
    (1 << 32) + 1,
    (1 << 32) + 2,
    u64::MAX,
];

/// Where the rules, the bands and the premiums start, the bytes of a premium,
/// and where the record ends.
fn places(version: u8, s: usize, m: usize) -> [usize; 5] {
    match version {
        1 => {
            let length = 7 + s * m + 8 * m + 4 * s;
            [7, 7 + s * m, length - 4 * s, 4, length]
        }
        2 => {
            let length = 8 + s * m + 8 * m + 3 * s;
            [8, 8 + s * m, length - 3 * s, 3, length]
        }
        _ => panic!("there is no version {version}"),
    }
}

/// The number in so many bytes.
fn number_in(bytes: &[u8], place: usize, width: usize) -> u64 {
    let all = bytes[place..place + width].iter();
    all.fold(0, |sum, &byte| sum * 256 + u64::from(byte))
}

/// The causes of the table that bytes can have, each on its own, in order.
fn first_cause(bytes: &[u8]) -> u8 {
    let at = |place: usize| usize::from(bytes[place]);
    let number = |place: usize, width: usize| number_in(bytes, place, width);
    if bytes.is_empty() || !VERSIONS.contains(&bytes[0]) {
        return 1;
    }
    if bytes.len() < SHORTEST || number(1, 2) != bytes.len() as u64 {
        return 2;
    }
    let (s, m) = (at(3), at(4));
    if !(1..=32).contains(&s) || !(1..=8).contains(&m) {
        return 3;
    }
    let [rules, bands, premiums, width, length] = places(bytes[0], s, m);
    if bytes.len() != length {
        return 4;
    }
    let rule_fails = |place: usize| at(place) == 0 || at(place) > s;
    let lower = |k: usize| number(bands + BAND * k, END);
    let upper = |k: usize| number(bands + BAND * k + END, END);
    let premium = |i: usize| number(premiums + width * i, width);
    let causes = [
        (17, bytes[0] == 2 && at(7) + 1 != m),
        (5, at(5) == 0 || at(5) > s),
        (6, at(6) > 100),
        (7, (rules..bands).any(rule_fails)),
        (8, (0..m).any(|k| lower(k) > upper(k) || upper(k) > ONE)),
        (
            9,
            (0..m).map(lower).sum::<u64>() > ONE || (0..m).map(upper).sum::<u64>() < ONE,
        ),
        (10, (0..s).any(|i| premium(i) > 10_000_000)),
    ];
    causes
        .iter()
        .find(|(_, holds)| *holds)
        .map_or(0, |(number, _)| *number)
}

/// A scheme written in a version: read again, with room to spare and a byte
/// short.
fn check_written(scheme: &Scheme, version: u8) {
    let (s, m) = (usize::from(scheme.classes), usize::from(scheme.columns));
    let mut out = [0x5A; 500];
    let length = write(scheme, version.into(), &mut out).unwrap();
    assert_eq!(length, places(version, s, m)[4]);
    assert_eq!(out[0], version);
    assert!(out[length..].iter().all(|&byte| byte == 0x5A));
    assert_eq!(first_cause(&out[..length]), 0);
    assert_eq!(read(&out[..length]), Ok(made::cleared(scheme)));

    let mut short = vec![0x5A; length - 1];
    assert_eq!(write(scheme, version.into(), &mut short), Err(13));
    assert!(short.iter().all(|&byte| byte == 0x5A));
}

#[test]
fn read_after_write() {
    let mut rng = Rng::new(1);
    for s in 1..=32 {
        for m in 1..=8 {
            for _ in 0..4 {
                let scheme = made::scheme_of(&mut rng, Shape::of(s, m));
                for version in VERSIONS {
                    check_written(&scheme, version);
                }
            }
        }
    }
}

/// The bytes of a scheme in a version.
fn written(scheme: &Scheme, version: u8) -> Vec<u8> {
    let mut out = vec![0; 455];
    let length = write(scheme, version.into(), &mut out).expect("a record");
    out.truncate(length);
    out
}

/// A record written in the other version and in its own again keeps its bytes.
fn check_there_and_back(record: &[u8], scheme: &Scheme) {
    let own = record[0];
    let other = written(scheme, 3 - own);
    assert_eq!(other[0], 3 - own);
    assert_eq!(read(&other).as_ref(), Ok(scheme));
    check_parts(&other, scheme);
    let back = read(&other).map(|scheme| written(&scheme, own));
    assert_eq!(back.as_deref(), Ok(record));
}

#[test]
fn junk_is_ignored() {
    let mut rng = Rng::new(2);
    for _ in 0..400 {
        let scheme = made::scheme(&mut rng);
        let clear = made::cleared(&scheme);
        assert_eq!(cause(&clear), 0);
        let year = u64::from(scheme.horizon.min(5));
        let class = u64::from(scheme.start);
        let payoff = made::payoff(&mut rng, scheme.classes);
        assert_eq!(interval_row(&scheme, class), interval_row(&clear, class));
        assert_eq!(row(&scheme, class), row(&clear, class));
        assert_eq!(
            low_step(&scheme, &payoff, class),
            low_step(&clear, &payoff, class)
        );
        assert_eq!(share(&scheme, class, year), share(&clear, class, year));
        for class in 1..=u64::from(scheme.classes) {
            assert_eq!(reached(&scheme, class, year), reached(&clear, class, year));
        }
        assert_eq!(mean(&scheme, year), mean(&clear, year));
        assert_eq!(total(&scheme, year), total(&clear, year));
    }
}

#[test]
fn write_after_read() {
    let mut rng = Rng::new(3);
    // By whether byte 0 is 2, and by cause.
    let mut seen = [[0; 18]; 2];
    for turn in 0..400_000 {
        let record = if turn % 10 == 0 {
            made::record(&mut rng)
        } else {
            made::damaged(&mut rng)
        };
        let expected = first_cause(&record);
        let label = usize::from(record.first() == Some(&2));
        seen[label][usize::from(expected)] += 1;
        match read(&record) {
            Ok(scheme) => {
                assert_eq!((expected, cause(&scheme)), (0, 0));
                assert_eq!(scheme, made::cleared(&scheme));
                let mut out = vec![0; record.len()];
                let length = write(&scheme, record[0].into(), &mut out);
                assert_eq!(length, Ok(record.len()));
                assert_eq!(out, record);
                check_there_and_back(&record, &scheme);
                check_parts(&record, &scheme);
            }
            Err(number) => check_declined(&record, number, expected),
        }
    }
    for (label, alone) in [1, 17].into_iter().enumerate() {
        for number in [alone, 0].into_iter().chain(2..=10) {
            assert!(seen[label][number] >= 100, "causes met: {seen:?}");
        }
    }
}

/// What every part of a declined record answers.
fn check_declined(record: &[u8], number: u8, expected: u8) {
    assert_eq!(number, expected);
    for class in [0, 1, 2, u64::MAX] {
        assert!(rule_row(record, class).is_empty());
    }
    assert!(bands(record).is_empty());
    let (told, mut reader) = open(record);
    assert_eq!((told, reader.next()), (number, None));
    assert_eq!(sheet(record), format!("REFUSED {number}\n").as_bytes());
}

fn check_parts(record: &[u8], scheme: &Scheme) {
    let (s, m) = (usize::from(scheme.classes), usize::from(scheme.columns));
    let rules = places(record[0], s, m)[0];
    for class in 1..=s {
        let part = rule_row(record, class as u64);
        assert_eq!(part, &scheme.rules[(class - 1) * 8..(class - 1) * 8 + m]);
        let place = rules + (class - 1) * m;
        assert!(std::ptr::eq(part, &record[place..place + m]));
    }
    assert!(rule_row(record, 0).is_empty());
    assert!(rule_row(record, s as u64 + 1).is_empty());
    let stored: Vec<(u32, u32)> = (0..m)
        .map(|k| (scheme.lowers[k], scheme.uppers[k]))
        .collect();
    assert_eq!(bands(record), stored);
}

/// Two classes and two columns in version 2; the first band is 0 to 0, and the
/// second 0 to ONE.
const LABEL: [u8; 34] = [
    2, 0, 34, 2, 2, 1, 5, 1, 1, 2, 2, 1, 0, 0, 0, 0, 0, 0, 0, 0, 0, 0, 0, 0, 0x3B, 0x9A, 0xCA, 0,
    0x98, 0x96, 0x80, 0, 0, 0,
];

/// Every set of faults behind the sizes, each with the cause of its first; a
/// wrong length and a wrong s come before them all.
#[test]
fn order_of_causes() {
    assert_eq!(read(&LABEL).err(), None);
    // Cause, place and value: byte 7, start, horizon, a rule, a lower above its
    // upper, uppers that sum to less than ONE, and a premium.
    let faults = [
        (17, 7, 2),
        (5, 5, 3),
        (6, 6, 101),
        (7, 11, 0),
        (8, 15, 1),
        (9, 24, 0x3A),
        (10, 30, 0x81),
    ];
    for set in 1..1 << faults.len() {
        let mut bytes = LABEL.to_vec();
        let chosen = (0..faults.len()).filter(|at| set >> at & 1 == 1);
        let chosen: Vec<_> = chosen.map(|at| faults[at]).collect();
        for &(_, place, value) in &chosen {
            bytes[place] = value;
        }
        assert_eq!(read(&bytes), Err(chosen[0].0));
        assert_eq!(first_cause(&bytes), chosen[0].0);
        let mut longer = bytes.clone();
        longer.push(0);
        longer[2] += 1;
        assert_eq!(read(&longer), Err(4));
        let mut shorter = bytes[..33].to_vec();
        shorter[2] -= 1;
        assert_eq!(read(&shorter), Err(4));
        bytes[3] = 33;
        assert_eq!(read(&bytes), Err(3));
    }
}

/// Seven bytes are enough for the sizes to be read, in both versions.
#[test]
fn shortest_bytes() {
    for version in VERSIONS {
        for (length, s, m, number) in [
            (1, 1, 1, 2),
            (6, 1, 1, 2),
            (6, 0, 1, 2),
            (7, 1, 1, 4),
            (7, 0, 1, 3),
            (7, 1, 9, 3),
            (8, 1, 1, 4),
            (8, 33, 1, 3),
        ] {
            let all = [version, 0, length, s, m, 1, 0, 0];
            let bytes = &all[..usize::from(length)];
            assert_eq!(read(bytes), Err(number), "{bytes:?}");
            assert_eq!(first_cause(bytes), number);
        }
        assert_eq!(read(&[version, 0, 8, 1, 1, 1, 0]), Err(2));
    }
}

/// Versions that there are not are refused before the scheme and the room, and
/// nothing is written.
#[test]
fn versions_refused() {
    let mut rng = Rng::new(8);
    for turn in 0..2_000 {
        let scheme = match turn % 2 {
            0 => made::scheme(&mut rng),
            _ => made::damaged_scheme(&mut rng),
        };
        for version in NO_VERSIONS.into_iter().chain([rng.draw() | 4]) {
            let mut out = vec![0x77; rng.pick(&[0, 6, 7, 44, 455, 500])];
            assert_eq!(write(&scheme, version, &mut out), Err(1));
            assert!(out.iter().all(|&byte| byte == 0x77));
        }
        for version in VERSIONS {
            let number = scheme_cause(&scheme);
            let wanted = if number == 0 { 13 } else { number };
            assert_eq!(write(&scheme, version.into(), &mut [0x77; 6]), Err(wanted));
        }
    }
}

#[test]
fn random_bytes() {
    let mut rng = Rng::new(4);
    for _ in 0..120_000 {
        let length = rng.below(64) as usize;
        let mut bytes = vec![0; length];
        bytes.fill_with(|| rng.draw() as u8);
        if length > 2 && !rng.once_in(4) {
            bytes[0] = rng.pick(&VERSIONS);
            bytes[1] = 0;
            bytes[2] = length as u8;
        }
        if length > 4 && rng.once_in(2) {
            bytes[3] = rng.between(1, 4) as u8;
            bytes[4] = rng.between(1, 4) as u8;
        }
        if length > 7 && rng.once_in(2) {
            bytes[7] = bytes[4].wrapping_sub(1);
        }
        assert_eq!(read(&bytes).err().unwrap_or(0), first_cause(&bytes));
    }
}

/// The cause of a scheme, each of the list on its own.
fn scheme_cause(scheme: &Scheme) -> u8 {
    let (s, m) = (usize::from(scheme.classes), usize::from(scheme.columns));
    if s == 0 || s > 32 || m == 0 || m > 8 {
        return 3;
    }
    let parts = |bands: &[u32; 8]| bands[..m].iter().map(|&b| u64::from(b)).sum::<u64>();
    let mut rules = (0..s * 8)
        .filter(|place| place % 8 < m)
        .map(|place| scheme.rules[place]);
    let causes = [
        (5, !(1..=s).contains(&usize::from(scheme.start))),
        (6, scheme.horizon > 100),
        (7, rules.any(|rule| !(1..=s).contains(&usize::from(rule)))),
        (
            8,
            (0..m).any(|k| scheme.lowers[k] > scheme.uppers[k] || scheme.uppers[k] > 1_000_000_000),
        ),
        (
            9,
            parts(&scheme.lowers) > ONE || parts(&scheme.uppers) < ONE,
        ),
        (
            10,
            scheme.premiums[..s]
                .iter()
                .any(|&premium| premium > 10_000_000),
        ),
    ];
    causes
        .iter()
        .find(|(_, holds)| *holds)
        .map_or(0, |(number, _)| *number)
}

#[test]
fn declined_schemes() {
    let mut rng = Rng::new(5);
    let mut seen = [0; 11];
    for _ in 0..60_000 {
        let scheme = made::damaged_scheme(&mut rng);
        let number = scheme_cause(&scheme);
        seen[usize::from(number)] += 1;
        assert_eq!(cause(&scheme), number);
        if number == 0 {
            continue;
        }
        // Every operation answers the scheme's cause, whatever else is wrong,
        // and leaves what it was lent as it was.
        let class = rng.pick(&[0, 1, 33, u64::MAX]);
        let year = rng.pick(&[0, 1, 101, u64::MAX]);
        let payoff = rng.pick(&[[0; 32], [u64::MAX; 32]]);
        assert_eq!(interval_row(&scheme, class), Err(number));
        assert_eq!(row(&scheme, class), Err(number));
        assert_eq!(low_step(&scheme, &payoff, class), Err(number));
        assert_eq!(high_step(&scheme, &payoff, class), Err(number));
        assert_eq!(share(&scheme, class, year), Err(number));
        assert_eq!(reached(&scheme, class, year), Err(number));
        assert_eq!(mean(&scheme, year), Err(number));
        assert_eq!(total(&scheme, year), Err(number));
        let mut out = vec![0x77; rng.below(500) as usize];
        let version = rng.pick(&VERSIONS);
        assert_eq!(write(&scheme, version.into(), &mut out), Err(number));
        assert!(out.iter().all(|&byte| byte == 0x77));
        let mut low = vec![9; rng.below(40) as usize];
        let mut high = vec![9; usize::from(scheme.classes)];
        assert_eq!(share_sheet(&scheme, year, &mut low, &mut high), Err(number));
        assert!(low.iter().chain(&high).all(|&figure| figure == 9));
    }
    for number in [0, 3, 5, 6, 7, 8, 9, 10] {
        assert!(seen[number] >= 100, "causes met: {seen:?}");
    }
}

#[test]
fn declined_queries() {
    let mut rng = Rng::new(6);
    for _ in 0..2_000 {
        let scheme = made::scheme(&mut rng);
        let s = u64::from(scheme.classes);
        let late = u64::from(scheme.horizon) + 1;
        for class in [0, s + 1, s + (1 << 32), u64::MAX] {
            let payoff = made::payoff(&mut rng, scheme.classes);
            let excess = made::excess_payoff(&mut rng, scheme.classes);
            assert_eq!(interval_row(&scheme, class), Err(11));
            assert_eq!(row(&scheme, class), Err(11));
            assert_eq!(low_step(&scheme, &payoff, class), Err(11));
            assert_eq!(high_step(&scheme, &payoff, class), Err(11));
            assert_eq!(low_step(&scheme, &excess, class), Err(10));
            assert_eq!(high_step(&scheme, &excess, class), Err(10));
            assert_eq!(low_step(&scheme, &excess, s), Err(10));
            assert_eq!(high_step(&scheme, &excess, s), Err(10));
            assert_eq!(share(&scheme, class, late), Err(11));
            assert_eq!(reached(&scheme, class, late), Err(11));
        }
        for year in [late, late + (1 << 32), u64::MAX] {
            assert_eq!(share(&scheme, s, year), Err(12));
            assert_eq!(reached(&scheme, s, year), Err(12));
            assert_eq!(mean(&scheme, year), Err(12));
            assert_eq!(total(&scheme, year), Err(12));
        }
        let s = s as usize;
        for (year, a, b, number) in [
            (0, s, s + 1, 13),
            (0, s + 1, s, 13),
            (0, s - 1, s, 13),
            (0, s, s - 1, 13),
            (0, s + 1, s + 1, 13),
            (late, s, s, 12),
            (late, s + 1, s, 12),
        ] {
            let (mut low, mut high) = (vec![9; a], vec![9; b]);
            assert_eq!(share_sheet(&scheme, year, &mut low, &mut high), Err(number));
            assert!(low.iter().chain(&high).all(|&figure| figure == 9));
        }
    }
}
