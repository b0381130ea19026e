//! The family's report is fixed.

use trials::family::{bytes_sum, records, report, EXAMPLE_A};
use trials::labels::{EITHER, LABEL_A};

/// How many records come before those of version 2.
const LABELS: usize = 85;

/// The cause of reading a record, or 0.
fn cause(record: &[u8]) -> u8 {
    plain::read(record).err().unwrap_or(0)
}

#[test]
fn every_cause_occurs() {
    let causes: Vec<u8> = records().iter().map(|record| cause(record)).collect();
    for number in (0..=10).chain([17]) {
        assert!(causes.contains(&number), "cause {number}");
    }
    let at_edges = [0, 9, 10, 6, 3, 5, 7, 8, 8, 2, 2, 4, 3, 4, 2, 0, 0];
    assert_eq!(causes[68..LABELS], at_edges);
    let labels = [
        vec![0; 15],
        vec![0, 9, 10, 10, 6, 3, 5, 7, 8, 8],
        vec![17, 17, 17, 17, 4, 3],
        vec![2, 2, 4, 3],
        vec![4, 1, 1, 1, 8, 7, 0, 0],
    ];
    assert_eq!(causes[LABELS..], labels.concat());
}

/// The records of version 1 are those from before there was version 2.
#[test]
fn older_records_stay() {
    let older = records()[..LABELS].concat();
    assert_eq!((older.len(), bytes_sum(&older)), (8_114, 394_466_807));
}

/// Of the new records the accepted ones are of version 2, but for one that is
/// accepted as either.
#[test]
fn labels_are_of_version_2() {
    let all = records();
    let accepted: Vec<u8> = all[LABELS..]
        .iter()
        .filter(|record| cause(record) == 0)
        .map(|record| record[0])
        .collect();
    let mut wanted = [2; 18];
    wanted[16] = 1;
    assert_eq!(accepted, wanted);
    assert_eq!(plain::read(&LABEL_A), plain::read(&EXAMPLE_A));
    let mut either = EITHER;
    let label = plain::read(&either).expect("a record of version 2");
    either[0] = 1;
    let record = plain::read(&either).expect("a record of version 1");
    assert_ne!((label.lowers, label.uppers), (record.lowers, record.uppers));
}

#[test]
fn report_is_fixed() {
    let report = report();
    assert!(report.ends_with('\n'));
    assert_eq!(
        (report.len(), bytes_sum(report.as_bytes())),
        (275614, 1016917679)
    );
}
