//! The record: its layouts, reading, writing, the rule row and the reader of
//! the bands.

use crate::scheme::{accept, index_of, Scheme, MAX_CLASSES, MAX_COLUMNS};

/// Where the numbers at the front of a record stand: all but the last whatever
/// its version.
pub mod places {
    /// The version.
    pub const VERSION: usize = 0;
    /// The length of the whole record.
    pub const LENGTH: usize = 1;
    /// The number of classes, s.
    pub const CLASSES: usize = 3;
    /// The number of claim columns, m.
    pub const COLUMNS: usize = 4;
    /// The start class.
    pub const START: usize = 5;
    /// The horizon.
    pub const HORIZON: usize = 6;
    /// From version 2 on, the claim number that opens the last column, m - 1.
    pub const LAST_COLUMN: usize = 7;
}

/// The bytes at the front that every version has.
pub const FRONT: usize = 7;
/// The bytes of the length field.
pub const LENGTH_WIDTH: usize = 2;
/// The bytes of a lower or an upper end of a band.
pub const END_WIDTH: usize = 4;
/// The bytes of a band: its lower end, then its upper end.
const BAND_WIDTH: usize = 2 * END_WIDTH;

/// What the versions of the record differ in.
#[derive(Clone, Copy, Debug, PartialEq, Eq)]
pub struct Layout {
    /// The first byte.
    pub version: u8,
    /// The bytes before the rules.
    pub header: usize,
    /// Where the claim number that opens the last column stands, if it does.
    pub last_column: Option<usize>,
    /// The bytes of a premium.
    pub premium_width: usize,
}

/// Version 1.
pub const VERSION_1: Layout = Layout {
    version: 1,
    header: FRONT,
    last_column: None,
    premium_width: 4,
};

/// Version 2, the door label.
pub const VERSION_2: Layout = Layout {
    version: 2,
    header: FRONT + 1,
    last_column: Some(places::LAST_COLUMN),
    premium_width: 3,
};

/// The layouts of all versions, the oldest first.
pub const LAYOUTS: [Layout; 2] = [VERSION_1, VERSION_2];

/// The length of the longest record.
pub const MAX_RECORD: usize = longest();

/// The greatest length over all layouts.
const fn longest() -> usize {
    let (mut most, mut at) = (0, 0);
    while at < LAYOUTS.len() {
        let length = LAYOUTS[at].length(MAX_CLASSES, MAX_COLUMNS);
        if length > most {
            most = length;
        }
        at += 1;
    }
    most
}

/// The layout of a version; none where there is no such version.
pub fn layout_in(version: u64) -> Option<Layout> {
    let is_it = |layout: &&Layout| u64::from(layout.version) == version;
    LAYOUTS.iter().find(is_it).copied()
}

/// The layout that the first byte tells; none where there is no such version.
pub fn layout_of(bytes: &[u8]) -> Option<Layout> {
    layout_in(u64::from(*bytes.get(places::VERSION)?))
}

/// Places in a record of s classes and m columns.
impl Layout {
    /// Where the rules start.
    pub const fn rules(&self) -> usize {
        self.header
    }

    /// Where the band of column k starts.
    pub const fn band(&self, s: usize, m: usize, k: usize) -> usize {
        self.rules() + s * m + BAND_WIDTH * k
    }

    /// Where the premium of the class at index i starts.
    pub const fn premium(&self, s: usize, m: usize, i: usize) -> usize {
        self.band(s, m, m) + self.premium_width * i
    }

    /// The length of the record.
    pub const fn length(&self, s: usize, m: usize) -> usize {
        self.premium(s, m, s)
    }
}

/// The number in `width` bytes, big-endian.
pub fn number_at(bytes: &[u8], at: usize, width: usize) -> u32 {
    let mut whole = 0u32.to_be_bytes();
    let first = whole.len() - width;
    whole[first..].copy_from_slice(&bytes[at..at + width]);
    u32::from_be_bytes(whole)
}

/// Puts a number into `width` bytes, big-endian; of one that does not fit, its
/// last bytes.
pub fn put_number(bytes: &mut [u8], at: usize, width: usize, number: u32) {
    let whole = number.to_be_bytes();
    bytes[at..at + width].copy_from_slice(&whole[whole.len() - width..]);
}

/// Reads a record; all of the bytes are the record.
pub fn read(record: &[u8]) -> Result<Scheme, u8> {
    accepted(record).map(|(_, scheme)| scheme)
}

/// The layout and the scheme of an accepted record.
fn accepted(record: &[u8]) -> Result<(Layout, Scheme), u8> {
    let layout = layout_of(record).ok_or(1)?;
    if record.len() < FRONT {
        return Err(2);
    }
    if number_at(record, places::LENGTH, LENGTH_WIDTH) as usize != record.len() {
        return Err(2);
    }
    let (s, m) = sizes(record);
    if !(1..=MAX_CLASSES).contains(&s) || !(1..=MAX_COLUMNS).contains(&m) {
        return Err(3);
    }
    if record.len() != layout.length(s, m) {
        return Err(4);
    }
    let differs = |place: usize| usize::from(record[place]) != m - 1;
    if layout.last_column.is_some_and(differs) {
        return Err(17);
    }
    let scheme = stored(layout, record);
    accept(&scheme)?;
    Ok((layout, scheme))
}

/// The stored s and m.
fn sizes(record: &[u8]) -> (usize, usize) {
    let at = |place: usize| usize::from(record[place]);
    (at(places::CLASSES), at(places::COLUMNS))
}

/// The scheme as a record of the right length stores it.
fn stored(layout: Layout, record: &[u8]) -> Scheme {
    let (s, m) = sizes(record);
    let mut scheme = Scheme {
        classes: record[places::CLASSES],
        columns: record[places::COLUMNS],
        start: record[places::START],
        horizon: record[places::HORIZON],
        ..Scheme::EMPTY
    };
    let rows = record[layout.rules()..].chunks_exact(m).take(s);
    for (rules, row) in scheme.rules.chunks_exact_mut(MAX_COLUMNS).zip(rows) {
        rules[..m].copy_from_slice(row);
    }
    for k in 0..m {
        let band = layout.band(s, m, k);
        scheme.lowers[k] = number_at(record, band, END_WIDTH);
        scheme.uppers[k] = number_at(record, band + END_WIDTH, END_WIDTH);
    }
    for i in 0..s {
        let place = layout.premium(s, m, i);
        scheme.premiums[i] = number_at(record, place, layout.premium_width);
    }
    scheme
}

/// Writes the record of a scheme in a version to the front of `out` and answers
/// its length. Bytes past the length stay as they were.
pub fn write(scheme: &Scheme, version: u64, out: &mut [u8]) -> Result<usize, u8> {
    let layout = layout_in(version).ok_or(1)?;
    accept(scheme)?;
    let length = layout.length(scheme.s(), scheme.m());
    if out.len() < length {
        return Err(13);
    }
    store(layout, scheme, &mut out[..length]);
    Ok(length)
}

/// Stores an accepted scheme in a record of the right length.
fn store(layout: Layout, scheme: &Scheme, record: &mut [u8]) {
    let (s, m) = (scheme.s(), scheme.m());
    record[places::VERSION] = layout.version;
    put_number(record, places::LENGTH, LENGTH_WIDTH, record.len() as u32);
    record[places::CLASSES] = scheme.classes;
    record[places::COLUMNS] = scheme.columns;
    record[places::START] = scheme.start;
    record[places::HORIZON] = scheme.horizon;
    if let Some(place) = layout.last_column {
        record[place] = scheme.columns - 1;
    }
    let rows = record[layout.rules()..].chunks_exact_mut(m).take(s);
    for (i, row) in rows.enumerate() {
        row.copy_from_slice(scheme.rules_of(i));
    }
    for k in 0..m {
        let band = layout.band(s, m, k);
        put_number(record, band, END_WIDTH, scheme.lowers[k]);
        put_number(record, band + END_WIDTH, END_WIDTH, scheme.uppers[k]);
    }
    for i in 0..s {
        let place = layout.premium(s, m, i);
        put_number(record, place, layout.premium_width, scheme.premiums[i]);
    }
}

/// The rule row of a class as a part of the record; empty where the record is
/// declined or has no such class.
pub fn rule_row(record: &[u8], class: u64) -> &[u8] {
    let Ok((layout, scheme)) = accepted(record) else {
        return &[];
    };
    match index_of(&scheme, class) {
        Ok(index) => &record[layout.rules() + index * scheme.m()..][..scheme.m()],
        Err(_) => &[],
    }
}

/// Hands out the bands of a record in order, lower and upper.
#[derive(Clone, Debug)]
pub struct Bands<'a> {
    /// The stored bands not yet handed out.
    rest: &'a [u8],
}

impl Iterator for Bands<'_> {
    type Item = (u32, u32);

    fn next(&mut self) -> Option<(u32, u32)> {
        let (band, rest) = self.rest.split_at_checked(BAND_WIDTH)?;
        self.rest = rest;
        let end = |at: usize| number_at(band, at, END_WIDTH);
        Some((end(0), end(END_WIDTH)))
    }
}

/// Opens the reader of the bands: 0 and the reader, or the number of the cause
/// and a reader over an empty part.
pub fn open(record: &[u8]) -> (u8, Bands<'_>) {
    match accepted(record) {
        Ok((layout, scheme)) => {
            let (s, m) = (scheme.s(), scheme.m());
            let rest = &record[layout.band(s, m, 0)..layout.band(s, m, m)];
            (0, Bands { rest })
        }
        Err(number) => (number, Bands { rest: &[] }),
    }
}

/// All bands of a record from column 0; none where it is declined.
pub fn bands(record: &[u8]) -> Vec<(u32, u32)> {
    open(record).1.collect()
}
