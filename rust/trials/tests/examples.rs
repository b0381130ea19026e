//! The examples of the scope.

use plain::{
    bands, cause, high_step, interval_row, low_step, mean, open, read, ready, row, rule_row, share,
    share_sheet, sheet, total, write, Scheme, MAX_RECORD, ONE,
};
use trials::family::EXAMPLE_A;
use trials::labels::LABEL_A;
use trials::made::{cleared, record_in, record_of};

const SHEET_A: &str = "\
SCHEME 2 3 2 2
YEAR 0 CLASS 1 0 0
YEAR 0 CLASS 2 1000000000 1000000000
YEAR 0 PREMIUM 15000 15000
YEAR 1 CLASS 1 800000000 900000000
YEAR 1 CLASS 2 100000000 200000000
YEAR 1 PREMIUM 10500 11000
YEAR 2 CLASS 1 920000000 990000000
YEAR 2 CLASS 2 10000000 80000000
YEAR 2 PREMIUM 10050 10400
TOTAL 25500 26000
";

/// The bytes of hexadecimal text; spaces and bars are skipped.
fn bytes(text: &str) -> Vec<u8> {
    let digits: Vec<u8> = text
        .chars()
        .filter_map(|c| c.to_digit(16))
        .map(|digit| digit as u8)
        .collect();
    digits.chunks(2).map(|two| two[0] * 16 + two[1]).collect()
}

/// A row with these entries at the front and 0 after them.
fn padded(entries: &[u64]) -> [u64; 32] {
    let mut row = [0; 32];
    row[..entries.len()].copy_from_slice(entries);
    row
}

fn example_a() -> Scheme {
    read(&EXAMPLE_A).expect("Example A")
}

/// Classes 1 to `rules.len()` with the rules, bands and premiums given.
fn scheme(
    start: u8,
    horizon: u8,
    rules: &[&[u8]],
    bands: &[(u32, u32)],
    premiums: &[u32],
) -> Scheme {
    let mut scheme = Scheme {
        classes: rules.len() as u8,
        columns: bands.len() as u8,
        start,
        horizon,
        ..Scheme::EMPTY
    };
    for (i, rules) in rules.iter().enumerate() {
        scheme.rules[i * 8..i * 8 + rules.len()].copy_from_slice(rules);
    }
    for (k, &(lower, upper)) in bands.iter().enumerate() {
        scheme.lowers[k] = lower;
        scheme.uppers[k] = upper;
    }
    scheme.premiums[..premiums.len()].copy_from_slice(premiums);
    scheme
}

/// The bands of Example A, in either version.
const BANDS_A: &str = "2FAF0800 35A4E900 05F5E100 0BEBC200 00000000 02FAF080";

#[test]
fn example_a_record() {
    let text = format!("01 002D 02 03 02 02 | 01 01 02 01 02 02 | {BANDS_A} | 00002710 00003A98");
    assert_eq!(bytes(&text), EXAMPLE_A);
    let expected = scheme(
        2,
        2,
        &[&[1, 1, 2], &[1, 2, 2]],
        &[
            (800_000_000, 900_000_000),
            (100_000_000, 200_000_000),
            (0, 50_000_000),
        ],
        &[10_000, 15_000],
    );
    assert_eq!(read(&EXAMPLE_A), Ok(expected.clone()));
    assert_eq!(cause(&expected), 0);

    let mut out = [0xEE; 50];
    assert_eq!(write(&expected, 1, &mut out), Ok(45));
    assert_eq!(out[..45], EXAMPLE_A);
    assert_eq!(out[45..], [0xEE; 5]);

    assert_eq!(rule_row(&EXAMPLE_A, 1), [1, 1, 2]);
    assert_eq!(rule_row(&EXAMPLE_A, 2), [1, 2, 2]);
    assert!(std::ptr::eq(rule_row(&EXAMPLE_A, 2), &EXAMPLE_A[10..13]));
    assert!(rule_row(&EXAMPLE_A, 0).is_empty());
    assert!(rule_row(&EXAMPLE_A, 3).is_empty());
    assert!(rule_row(&EXAMPLE_A, u64::MAX).is_empty());

    assert_eq!(
        bands(&EXAMPLE_A),
        [
            (800_000_000, 900_000_000),
            (100_000_000, 200_000_000),
            (0, 50_000_000)
        ]
    );
    let (number, mut reader) = open(&EXAMPLE_A);
    assert_eq!(number, 0);
    assert_eq!(reader.by_ref().count(), 3);
    assert_eq!((reader.next(), reader.next()), (None, None));
    let (number, mut reader) = open(&EXAMPLE_A[..44]);
    assert_eq!((number, reader.next()), (2, None));
}

#[test]
fn example_a_label() {
    let text = format!("02 002C 02 03 02 02 02 | 01 01 02 01 02 02 | {BANDS_A} | 002710 003A98");
    let label = bytes(&text);
    assert_eq!((label.len(), &label[..]), (44, &LABEL_A[..]));
    let a = example_a();
    assert_eq!(read(&label), Ok(a.clone()));

    let mut out = [0xEE; 50];
    assert_eq!(write(&a, 2, &mut out), Ok(44));
    assert_eq!(out[..44], label);
    assert_eq!(out[44..], [0xEE; 6]);
    assert_eq!(write(&a, 2, &mut [0xEE; 43]), Err(13));

    assert_eq!(rule_row(&label, 1), [1, 1, 2]);
    assert!(std::ptr::eq(rule_row(&label, 1), &label[8..11]));
    assert!(std::ptr::eq(rule_row(&label, 2), &label[11..14]));
    assert!(rule_row(&label, 3).is_empty());
    assert_eq!(bands(&label), bands(&EXAMPLE_A));
    let (number, mut reader) = open(&label);
    assert_eq!((number, reader.by_ref().count()), (0, 3));
    assert_eq!((reader.next(), reader.next()), (None, None));
    assert_eq!(sheet(&label), sheet(&EXAMPLE_A));
    assert_eq!(sheet(&label), SHEET_A.as_bytes());
}

/// The label of Example A with other bytes at these places.
fn label_with(changes: &[(usize, u8)]) -> Vec<u8> {
    let mut label = LABEL_A.to_vec();
    for &(place, value) in changes {
        label[place] = value;
    }
    label
}

#[test]
fn labels_declined() {
    for last in (0..=255).filter(|&last| last != 2) {
        let label = label_with(&[(7, last)]);
        assert_eq!(read(&label), Err(17));
        assert_eq!(sheet(&label), b"REFUSED 17\n");
        assert_eq!(open(&label).0, 17);
        assert!(bands(&label).is_empty() && rule_row(&label, 1).is_empty());
    }
    // Before the start, and after the length and the sizes.
    assert_eq!(read(&label_with(&[(7, 3), (5, 0)])), Err(17));
    assert_eq!(read(&label_with(&[(5, 0)])), Err(5));
    assert_eq!(read(&label_with(&[(7, 3), (2, 0x2B)])[..43]), Err(4));
    assert_eq!(read(&label_with(&[(7, 3), (4, 4)])), Err(4));
    assert_eq!(read(&label_with(&[(7, 3), (3, 33)])), Err(3));
    assert_eq!(read(&label_with(&[(7, 3), (2, 0x2B)])), Err(2));
    // The bytes of one version under the name of another.
    assert_eq!(read(&label_with(&[(0, 1)])), Err(4));
    assert_eq!(read(&label_with(&[(0, 3)])), Err(1));
    let mut other = EXAMPLE_A;
    other[0] = 2;
    assert_eq!(read(&other), Err(4));
}

#[test]
fn premiums_of_three_bytes() {
    let mut a = example_a();
    a.premiums[1] = 10_000_000;
    let label = record_in(&a, 2);
    assert_eq!(label[38..], [0x00, 0x27, 0x10, 0x98, 0x96, 0x80]);
    assert_eq!(read(&label), Ok(a.clone()));
    assert_eq!(read(&record_of(&a)), Ok(a.clone()));
    for premium in [[0x98, 0x96, 0x81], [0xFF, 0x96, 0x80], [0xFF; 3]] {
        let changes = [(41, premium[0]), (42, premium[1]), (43, premium[2])];
        assert_eq!(read(&label_with(&changes)), Err(10));
    }
    a.premiums[1] = 10_000_001;
    for version in [1, 2] {
        assert_eq!(write(&a, version, &mut [0; 45]), Err(10));
    }
    // A premium that would lose its first byte.
    a.premiums[1] = 1 << 24;
    assert_eq!(write(&a, 2, &mut [0; 44]), Err(10));
}

#[test]
fn versions_to_write() {
    let mut a = example_a();
    for version in [0, 3, 255, 256, 257, 258, (1 << 32) | 1, u64::MAX] {
        for room in [0, 43, 44, 45, 50] {
            let mut out = vec![0xEE; room];
            assert_eq!(write(&a, version, &mut out), Err(1));
            assert!(out.iter().all(|&byte| byte == 0xEE));
        }
    }
    a.classes = 0;
    assert_eq!(write(&a, 3, &mut [0; 45]), Err(1));
    assert_eq!(write(&a, 2, &mut []), Err(3));
}

#[test]
fn example_a_interval_rows() {
    let a = example_a();
    let row_1 = (
        padded(&[900_000_000, 0]),
        padded(&[1_000_000_000, 50_000_000]),
    );
    let row_2 = (
        padded(&[800_000_000, 100_000_000]),
        padded(&[900_000_000, 250_000_000]),
    );
    assert_eq!(interval_row(&a, 1), Ok(row_1));
    assert_eq!(interval_row(&a, 2), Ok(row_2));
    assert_eq!(interval_row(&a, 0), Err(11));
    assert_eq!(interval_row(&a, 3), Err(11));
}

#[test]
fn example_a_rows() {
    let a = example_a();
    let row_1 = (
        padded(&[950_000_000, 0]),
        padded(&[1_000_000_000, 50_000_000]),
    );
    let row_2 = (
        padded(&[800_000_000, 100_000_000]),
        padded(&[900_000_000, 200_000_000]),
    );
    assert_eq!(row(&a, 1), Ok(row_1));
    assert_eq!(row(&a, 2), Ok(row_2));
    assert_eq!(row(&a, 0), Err(11));
    assert_eq!(row(&a, 3), Err(11));
}

#[test]
fn example_a_bounds() {
    let a = example_a();
    assert_eq!(share(&a, 1, 0), Ok((0, 0)));
    assert_eq!(share(&a, 2, 0), Ok((ONE, ONE)));
    assert_eq!(share(&a, 1, 1), Ok((800_000_000, 900_000_000)));
    assert_eq!(share(&a, 2, 1), Ok((100_000_000, 200_000_000)));
    assert_eq!(share(&a, 1, 2), Ok((920_000_000, 990_000_000)));
    assert_eq!(share(&a, 2, 2), Ok((10_000_000, 80_000_000)));
    assert_eq!(mean(&a, 0), Ok((15_000, 15_000)));
    assert_eq!(mean(&a, 1), Ok((10_500, 11_000)));
    assert_eq!(mean(&a, 2), Ok((10_050, 10_400)));
    assert_eq!(total(&a, 0), Ok((0, 0)));
    assert_eq!(total(&a, 1), Ok((15_000, 15_000)));
    assert_eq!(total(&a, 2), Ok((25_500, 26_000)));

    let (mut low, mut high) = ([0; 2], [0; 2]);
    assert_eq!(share_sheet(&a, 2, &mut low, &mut high), Ok(()));
    assert_eq!(
        (low, high),
        ([920_000_000, 10_000_000], [990_000_000, 80_000_000])
    );

    assert_eq!(share(&a, 1, 3), Err(12));
    assert_eq!(share(&a, 3, 3), Err(11));
    assert_eq!(mean(&a, 3), Err(12));
    assert_eq!(total(&a, u64::MAX), Err(12));
}

#[test]
fn example_a_sheet() {
    assert_eq!(String::from_utf8(sheet(&EXAMPLE_A)).unwrap(), SHEET_A);
    assert_eq!(sheet(&[]), b"REFUSED 1\n");
    assert_eq!(sheet(&EXAMPLE_A[..44]), b"REFUSED 2\n");
    let mut late = EXAMPLE_A;
    late[43] = 0xFF;
    late[42] = 0xFF;
    assert_eq!(sheet(&late), b"REFUSED 10\n");
}

#[test]
fn one_year() {
    let rules: &[&[u8]] = &[&[1, 2, 3], &[1, 2, 3], &[1, 2, 3]];
    let tenth = 100_000_000;
    let bands = [
        (tenth, 5 * tenth),
        (2 * tenth, 6 * tenth),
        (3 * tenth, 4 * tenth),
    ];
    let mut three = scheme(1, 1, rules, &bands, &[0; 3]);
    let mut payoff = padded(&[30, 10, 20]);
    payoff[3..].fill(u64::MAX);
    let row = |tenths: [u64; 3]| padded(&tenths.map(|t| t * u64::from(tenth)));
    for class in 1..=3 {
        assert_eq!(low_step(&three, &payoff, class), Ok((15, row([1, 6, 3]))));
        assert_eq!(high_step(&three, &payoff, class), Ok((23, row([5, 2, 3]))));
    }
    three.lowers = [0; 8];
    assert_eq!(low_step(&three, &payoff, 1).unwrap().0, 14);
    assert_eq!(high_step(&three, &payoff, 1).unwrap().0, 24);
}

#[test]
fn tight_rows() {
    let tenth = 100_000_000;
    let tenths = |entries: &[u64]| padded(&entries.iter().map(|t| t * tenth).collect::<Vec<_>>());
    let of_bands = |rules: &[u8], ends: &[(u32, u32)]| {
        let bands: Vec<_> = ends
            .iter()
            .map(|(a, b)| (a * tenth as u32, b * tenth as u32))
            .collect();
        let rules = vec![rules; rules.len()];
        row(&scheme(1, 1, &rules, &bands, &vec![0; rules.len()]), 1)
    };
    // Lower ends that rise from 0.
    let rising = of_bands(&[1, 2], &[(0, 6), (0, 7)]);
    assert_eq!(rising, Ok((tenths(&[3, 4]), tenths(&[6, 7]))));
    // Both ends of one entry move, each by the old entries.
    let both = of_bands(&[1, 2], &[(1, 9), (2, 5)]);
    assert_eq!(both, Ok((tenths(&[5, 2]), tenths(&[8, 5]))));
    // The row of the first step: nothing changes.
    let kept = of_bands(&[1, 2, 3], &[(1, 5), (2, 6), (3, 4)]);
    assert_eq!(kept, Ok((tenths(&[1, 2, 3]), tenths(&[5, 6, 4]))));
    // One class: ONE and ONE.
    let one = of_bands(&[1], &[(0, 10)]);
    assert_eq!(one, Ok((tenths(&[10]), tenths(&[10]))));
}

#[test]
fn one_class() {
    let one = scheme(1, 100, &[&[1, 1]], &[(1, ONE as u32), (0, 5)], &[12_345]);
    for year in 0..=100 {
        assert_eq!(share(&one, 1, year), Ok((ONE, ONE)));
        assert_eq!(mean(&one, year), Ok((12_345, 12_345)));
        assert_eq!(total(&one, year), Ok((12_345 * year, 12_345 * year)));
    }
}

#[test]
fn horizon_0() {
    let mut a = example_a();
    a.horizon = 0;
    assert_eq!(total(&a, 0), Ok((0, 0)));
    assert_eq!(total(&a, 1), Err(12));
    let text = "SCHEME 2 3 2 0\nYEAR 0 CLASS 1 0 0\nYEAR 0 CLASS 2 1000000000 1000000000\n\
                YEAR 0 PREMIUM 15000 15000\nTOTAL 0 0\n";
    assert_eq!(sheet(&record_of(&a)), text.as_bytes());
}

#[test]
fn thirds() {
    let thirds = scheme(
        1,
        1,
        &[&[1, 2], &[1, 2]],
        &[(333_333_333, 333_333_333), (666_666_667, 666_666_667)],
        &[10, 11],
    );
    assert_eq!(mean(&thirds, 1), Ok((10, 11)));
}

/// A tenth of class 1 leaves for class 2 each year, with premiums of 10 and 20
/// cents: the exact mean of year 3 is 12.71, the exact total of 4 premiums
/// 45.61. Rounded to cents in every year, the low mean would stay 11, and the
/// low total would be 44.
#[test]
fn money_in_tenths() {
    let tenth = 100_000_000;
    let leaving = scheme(
        1,
        5,
        &[&[1, 2], &[2, 2]],
        &[(9 * tenth, 9 * tenth), (tenth, tenth)],
        &[10, 20],
    );
    let means = [(10, 10), (11, 11), (11, 12), (12, 13)];
    for (year, bounds) in (0..).zip(means) {
        assert_eq!(mean(&leaving, year), Ok(bounds));
    }
    assert_eq!(total(&leaving, 4), Ok((45, 46)));
}

#[test]
fn payoff_limit() {
    let a = example_a();
    let mut payoff = padded(&[0, 10_000_000_000]);
    payoff[2..].fill(10_000_000_001);
    assert_eq!(low_step(&a, &payoff, 2).unwrap().0, 1_000_000_000);
    assert_eq!(high_step(&a, &payoff, 2).unwrap().0, 2_000_000_000);
    payoff[0] = 10_000_000_000;
    assert_eq!(high_step(&a, &payoff, 1).unwrap().0, 10_000_000_000);
    payoff[0] += 1;
    assert_eq!(low_step(&a, &payoff, 1), Err(10));
    assert_eq!(high_step(&a, &payoff, 3), Err(10));
}

#[test]
fn ready_schemes() {
    let tenths: [&[u64]; 3] = [
        &[
            792, 822, 855, 888, 938, 996, 1000, 1000, 1000, 1000, 1802, 1951, 2208, 2379, 2581,
            2824, 3066, 3579,
        ],
        &[
            701, 731, 764, 802, 865, 919, 982, 1000, 1000, 1000, 1551, 1676, 1793, 1970, 2120,
            2297, 2509, 2944,
        ],
        &[
            541, 570, 604, 642, 785, 839, 901, 975, 1000, 1000, 1471, 1596, 1740, 1890, 2040, 2217,
            2336, 2416, 2609, 2837, 3111, 3148, 3435, 3953,
        ],
    ];
    let rise = [3i64, 4, 4];
    for number in 1..=3 {
        let tenths = tenths[number - 1];
        let s = tenths.len();
        for base in [0, 1, 999, 1000, 123_457, 2_500_000] {
            let scheme = ready(number as u64, base).unwrap();
            assert_eq!(cause(&scheme), 0);
            assert_eq!(scheme, cleared(&scheme));
            let head = (scheme.classes, scheme.columns, scheme.start, scheme.horizon);
            assert_eq!(head, (s as u8, 5, 10, 40));
            assert_eq!(scheme.lowers, [0; 8]);
            assert_eq!(scheme.uppers[..5], [ONE as u32; 5]);
            for class in 1..=s {
                let premium = (base * tenths[class - 1]) / 1000;
                assert_eq!(u64::from(scheme.premiums[class - 1]), premium);
                for k in 0..5 {
                    let moved = if k == 0 {
                        -1
                    } else {
                        rise[number - 1] * k as i64 - 1
                    };
                    let next = (class as i64 + moved).max(1).min(s as i64);
                    assert_eq!(i64::from(scheme.rules[(class - 1) * 8 + k]), next);
                }
            }
        }
    }
    let first = ready(1, 1000).unwrap();
    assert_eq!(first.rules[9 * 8..9 * 8 + 5], [9, 12, 15, 18, 18]);
    assert_eq!(first.rules[0], 1);
    assert_eq!(first.premiums[17], 3579);
    assert_eq!(ready(3, 2_500_000).unwrap().premiums[23], 9_882_500);

    assert_eq!(ready(0, 0), Err(14));
    assert_eq!(ready(4, 2_500_001), Err(14));
    assert_eq!(ready(u64::MAX, 0), Err(14));
    assert_eq!(ready(2, 2_500_001), Err(15));
    assert_eq!(ready(3, u64::MAX), Err(15));
}

#[test]
fn limits() {
    let mut sums = scheme(
        1,
        1,
        &[&[1, 1]],
        &[(400_000_000, ONE as u32), (600_000_000, ONE as u32)],
        &[0],
    );
    assert_eq!(cause(&sums), 0);
    assert_eq!(share(&sums, 1, 1), Ok((ONE, ONE)));
    sums.lowers[1] += 1;
    assert_eq!(cause(&sums), 9);
    sums.lowers = [0; 8];
    sums.uppers[..2].copy_from_slice(&[400_000_000, 600_000_000]);
    assert_eq!(cause(&sums), 0);
    sums.uppers[0] -= 1;
    assert_eq!(cause(&sums), 9);

    let mut a = example_a();
    a.premiums[1] = 10_000_000;
    assert_eq!(cause(&a), 0);
    assert_eq!(read(&record_of(&a)), Ok(a.clone()));
    a.premiums[1] = 10_000_001;
    assert_eq!(cause(&a), 10);
    assert_eq!(mean(&a, 1), Err(10));

    let mut a = example_a();
    a.horizon = 100;
    assert_eq!(cause(&a), 0);
    assert!(share(&a, 1, 100).is_ok());
    assert_eq!(share(&a, 1, 101), Err(12));
    a.horizon = 101;
    assert_eq!(cause(&a), 6);

    // The longest record, and the highest total.
    let rules = [[32; 8]; 32];
    let rules: Vec<&[u8]> = rules.iter().map(|row| &row[..]).collect();
    let most = scheme(32, 100, &rules, &[(0, ONE as u32); 8], &[10_000_000; 32]);
    let lengths = [1, 2].map(|version| record_in(&most, version).len());
    assert_eq!((lengths, MAX_RECORD), ([455, 424], 455));
    assert_eq!(total(&most, 100), Ok((ONE, ONE)));
}
