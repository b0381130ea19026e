//! The family's records of version 2, the door label, and bytes that are near
//! to one.

use crate::family::{changed, made_up, ready_schemes, thirds, three, EDGE, EXAMPLE_A};
use crate::made::{record_in, set_length, Shape};
use crate::rng::Rng;
use plain::{places, VERSION_2};

/// Example A of the scope in version 2.
pub const LABEL_A: [u8; 44] = [
    0x02, 0x00, 0x2C, 0x02, 0x03, 0x02, 0x02, 0x02, 0x01, 0x01, 0x02, 0x01, 0x02, 0x02, 0x2F, 0xAF,
    0x08, 0x00, 0x35, 0xA4, 0xE9, 0x00, 0x05, 0xF5, 0xE1, 0x00, 0x0B, 0xEB, 0xC2, 0x00, 0x00, 0x00,
    0x00, 0x00, 0x02, 0xFA, 0xF0, 0x80, 0x00, 0x27, 0x10, 0x00, 0x3A, 0x98,
];

/// The record at the edges of acceptance in version 2.
pub const LABEL_EDGE: [u8; 29] = [
    0x02, 0x00, 0x1D, 0x01, 0x02, 0x01, 0x64, 0x01, 0x01, 0x01, 0x1D, 0xCD, 0x65, 0x00, 0x23, 0xC3,
    0x46, 0x00, 0x1D, 0xCD, 0x65, 0x00, 0x23, 0xC3, 0x46, 0x00, 0x98, 0x96, 0x80,
];

/// Accepted as version 2, and with the first byte 1 as version 1, where the
/// bands are others; the two lengths are equal for one class.
pub const EITHER: [u8; 29] = [
    0x02, 0x00, 0x1D, 0x01, 0x02, 0x01, 0x02, 0x01, 0x01, 0x01, 0x00, 0x00, 0x00, 0x3B, 0x3B, 0x00,
    0x00, 0x00, 0x00, 0x00, 0x00, 0x3B, 0x3B, 0x00, 0x00, 0x00, 0x01, 0x86, 0xA0,
];

/// Sizes s, m of the made-up schemes.
const SIZES: [(u8, u8); 8] = [
    (1, 1),
    (1, 8),
    (2, 3),
    (5, 4),
    (12, 7),
    (18, 5),
    (32, 1),
    (32, 8),
];

/// The records, the accepted ones first.
pub fn labels() -> Vec<Vec<u8>> {
    let mut rng = Rng::new(2008);
    let version = VERSION_2.version;
    let mut labels = vec![LABEL_A.to_vec()];
    let schemes = [thirds(), three()].into_iter().chain(ready_schemes());
    labels.extend(schemes.map(|scheme| record_in(&scheme, version)));
    labels.extend(SIZES.map(|(s, m)| made_up(&mut rng, Shape::of(s, m).in_version(version))));
    labels.extend(edges());
    labels.extend(last_columns());
    labels.extend(short());
    labels.extend(other_versions());
    labels
}

/// The record at the edges of acceptance, and one past each: the lowers' sum,
/// the premium, also by its first byte, the horizon, the columns, the start, a
/// rule, a band's lower above its upper, and its upper above ONE.
fn edges() -> [Vec<u8>; 10] {
    [
        LABEL_EDGE.to_vec(),
        changed(&LABEL_EDGE, 21, &[0x01]),
        changed(&LABEL_EDGE, 28, &[0x81]),
        changed(&LABEL_EDGE, 26, &[0xFF]),
        changed(&LABEL_EDGE, 6, &[101]),
        changed(&LABEL_EDGE, 4, &[9]),
        changed(&LABEL_EDGE, 5, &[2]),
        changed(&LABEL_EDGE, 9, &[2]),
        changed(&LABEL_EDGE, 10, &[0x23, 0xC3, 0x46, 0x01]),
        changed(&LABEL_EDGE, 14, &[0xFF; 4]),
    ]
}

/// Byte 7 other than 1, of two columns: 0, 2 and 255; then 0 also with start 0,
/// with a byte less, and with 33 classes.
fn last_columns() -> [Vec<u8>; 6] {
    let [none, more, most] = [0, 2, 255].map(|last| changed(&LABEL_EDGE, 7, &[last]));
    let mut short = none[..none.len() - 1].to_vec();
    set_length(&mut short);
    [
        none.clone(),
        more,
        most,
        changed(&none, places::START, &[0]),
        short,
        changed(&none, places::CLASSES, &[33]),
    ]
}

/// Example A's label without its last byte; then 6 bytes and 7 of one class and one
/// column, and 7 of no class, with a length field that fits.
fn short() -> [Vec<u8>; 4] {
    [
        LABEL_A[..LABEL_A.len() - 1].to_vec(),
        vec![2, 0, 6, 1, 1, 1],
        vec![2, 0, 7, 1, 1, 1, 0],
        vec![2, 0, 7, 0, 1, 1, 0],
    ]
}

/// Records whose first byte is another version: Example A, one with equal
/// lengths that is then declined, and one that stays accepted.
fn other_versions() -> [Vec<u8>; 8] {
    let says = |record: &[u8], version: u8| changed(record, places::VERSION, &[version]);
    [
        says(&LABEL_A, 1),
        says(&LABEL_A, 3),
        says(&EXAMPLE_A, 3),
        says(&EXAMPLE_A, 0),
        says(&LABEL_EDGE, 1),
        says(&EDGE, 2),
        says(&EITHER, 1),
        says(&EITHER, 2),
    ]
}
