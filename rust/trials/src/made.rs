//! Made-up schemes, records, damaged ones, payoffs and books, with edge values
//! often.

use crate::rng::Rng;
use plain::{
    layout_in, layout_of, number_at, places, put_number, Book, Figures, Layout, Scheme, END_WIDTH,
    FRONT, LAYOUTS, LENGTH_WIDTH, MAX_CLASSES, MAX_COLUMNS, MAX_COUNT, MAX_HORIZON, MAX_PAYOFF,
    MAX_PREMIUM, MAX_RECORD, ONE, VERSION_1, VERSION_2,
};

/// How the bands of a scheme are given.
#[derive(Clone, Copy, Debug, PartialEq, Eq)]
pub enum BandLists {
    /// One list for all classes.
    Shared,
    /// One list for each class.
    ByClass,
}

/// What is to be made. Today's schemes have shared bands and one size step, and
/// their records version 1 or 2; asked for anything else, a maker fails.
#[derive(Clone, Copy, Debug, PartialEq, Eq)]
pub struct Shape {
    /// The version of the record.
    pub version: u8,
    /// The number of classes, s.
    pub classes: u8,
    /// The number of claim columns, m.
    pub columns: u8,
    /// How the bands are given.
    pub bands: BandLists,
    /// The number of size steps, z.
    pub sizes: u8,
}

impl Shape {
    /// The usual shape of s classes and m columns, its record of version 1.
    pub const fn of(s: u8, m: u8) -> Shape {
        Shape {
            version: VERSION_1.version,
            classes: s,
            columns: m,
            bands: BandLists::Shared,
            sizes: 1,
        }
    }

    /// The same with a record of this version.
    pub const fn in_version(self, version: u8) -> Shape {
        Shape { version, ..self }
    }

    /// The usual shape of 1 to s classes and 1 to m columns.
    pub fn up_to(rng: &mut Rng, s: u8, m: u8) -> Shape {
        let s = rng.between(1, u64::from(s)) as u8;
        let m = rng.between(1, u64::from(m)) as u8;
        Shape::of(s, m)
    }

    /// Any shape that can be made.
    pub fn any(rng: &mut Rng) -> Shape {
        let (most_s, most_m) = (MAX_CLASSES as u64, MAX_COLUMNS as u64);
        let s = match rng.below(8) {
            0 => rng.pick(&[1, 2, most_s - 1, most_s]),
            1..=3 => rng.between(1, 6),
            _ => rng.between(1, most_s),
        };
        let m = match rng.below(4) {
            0 => rng.pick(&[1, 2, most_m]),
            _ => rng.between(1, most_m),
        };
        let layout = rng.pick(&LAYOUTS);
        Shape::of(s as u8, m as u8).in_version(layout.version)
    }

    /// Fails where the shape cannot be made.
    fn check(&self) {
        check_version(self.version);
        let (s, m) = (usize::from(self.classes), usize::from(self.columns));
        assert!((1..=MAX_CLASSES).contains(&s), "no scheme has {s} classes");
        assert!((1..=MAX_COLUMNS).contains(&m), "no scheme has {m} columns");
        let (lists, z) = (self.bands, self.sizes);
        assert_eq!(lists, BandLists::Shared, "no scheme has bands by class");
        assert_eq!(z, 1, "no scheme has {z} size steps");
    }
}

/// Fails where no record is written in a version.
fn check_version(version: u8) {
    let known = layout_in(u64::from(version)).is_some();
    assert!(known, "no record is written in version {version}");
}

/// An accepted scheme of any shape.
pub fn scheme(rng: &mut Rng) -> Scheme {
    let shape = Shape::any(rng);
    scheme_of(rng, shape)
}

/// An accepted scheme of a shape, now and then with junk beyond its classes
/// and columns.
pub fn scheme_of(rng: &mut Rng, shape: Shape) -> Scheme {
    shape.check();
    let (s, m) = (shape.classes, shape.columns);
    let mut scheme = Scheme {
        classes: s,
        columns: m,
        start: match rng.below(4) {
            0 => 1,
            1 => s,
            _ => rng.between(1, u64::from(s)) as u8,
        },
        horizon: match rng.below(3) {
            0 => rng.pick(&[0, 1, 2, MAX_HORIZON]),
            1 => rng.between(0, 12) as u8,
            _ => rng.between(0, u64::from(MAX_HORIZON)) as u8,
        },
        ..Scheme::EMPTY
    };
    if rng.once_in(3) {
        spoil_unused(rng, &mut scheme);
    }
    set_rules(rng, &mut scheme);
    set_bands(rng, &mut scheme);
    set_premiums(rng, &mut scheme);
    assert_eq!(plain::cause(&scheme), 0);
    scheme
}

/// Junk in every place; those in use are set afterwards.
fn spoil_unused(rng: &mut Rng, scheme: &mut Scheme) {
    scheme.rules.fill_with(|| rng.draw() as u8);
    scheme.lowers.fill_with(|| rng.draw() as u32);
    scheme.uppers.fill_with(|| rng.draw() as u32);
    scheme.premiums.fill_with(|| rng.draw() as u32);
}

fn set_rules(rng: &mut Rng, scheme: &mut Scheme) {
    let (s, m) = (u64::from(scheme.classes), usize::from(scheme.columns));
    let kind = rng.below(7);
    let fixed = rng.between(1, s);
    let two = [rng.between(1, s), rng.between(1, s)];
    for class in 1..=s {
        let merged = rng.between(1, s);
        for k in 0..m {
            let next = match kind {
                // One class for all.
                0 => fixed,
                // Two classes for all.
                1 => rng.pick(&two),
                // All columns of a class merged.
                2 => merged,
                // Merged with opposite movement: odd and even columns.
                3 if k % 2 == 0 => class.max(2) - 1,
                3 => (class + k as u64).min(s),
                // A usual scale.
                4 if k == 0 => class.max(2) - 1,
                4 => (class + 2 * k as u64).min(s),
                // Nobody moves, but for one column.
                5 if k != 1 => class,
                _ => rng.between(1, s),
            };
            scheme.rules[(class as usize - 1) * MAX_COLUMNS + k] = next as u8;
        }
    }
}

/// `count` numbers that sum to `total`.
fn split(rng: &mut Rng, total: u64, count: usize) -> Vec<u64> {
    let mut parts = vec![0; count];
    let mut rest = total;
    let mut places: Vec<usize> = (0..count).collect();
    rng.shuffle(&mut places);
    for &place in &places[1..] {
        parts[place] = match rng.below(4) {
            0 => 0,
            1 => rng.between(0, rest.min(7)),
            2 => rng.between(0, rest),
            _ => rng.between(0, rest / 2),
        };
        rest -= parts[place];
    }
    parts[places[0]] = rest;
    parts
}

fn set_bands(rng: &mut Rng, scheme: &mut Scheme) {
    let m = usize::from(scheme.columns);
    put_bands(scheme, &band_list(rng, m));
}

/// Puts a list of bands into a scheme, from column 0.
fn put_bands(scheme: &mut Scheme, bands: &[(u32, u32)]) {
    for (k, &(lower, upper)) in bands.iter().enumerate() {
        scheme.lowers[k] = lower;
        scheme.uppers[k] = upper;
    }
}

/// A list of m bands that a scheme may have.
fn band_list(rng: &mut Rng, m: usize) -> Vec<(u32, u32)> {
    let centre = split(rng, ONE, m);
    let kind = rng.below(8);
    let width = rng.pick(&[1, 2, 1000, 50_000_000, ONE]);
    let band = |part: u64| {
        let less = part - rng.between(0, width.min(part));
        let more = part + rng.between(0, width.min(ONE - part));
        let (lower, upper) = match kind {
            // Nothing known.
            0 => (0, ONE),
            // Everything known.
            1 => (part, part),
            // Lowers sum to ONE.
            2 => (part, more),
            // Uppers sum to ONE.
            3 => (less, part),
            // Ends at 0, at ONE or at the part.
            4 => (rng.pick(&[0, part]), rng.pick(&[part, ONE])),
            _ => (less, more),
        };
        (lower as u32, upper as u32)
    };
    centre.into_iter().map(band).collect()
}

/// Numbers from the lower to the upper ends that sum to ONE.
fn between_ends(rng: &mut Rng, lowers: &[u32], uppers: &[u32]) -> Vec<u64> {
    let mut parts: Vec<u64> = lowers.iter().map(|&lower| u64::from(lower)).collect();
    let mut rest = ONE - parts.iter().sum::<u64>();
    let mut places: Vec<usize> = (0..parts.len()).collect();
    rng.shuffle(&mut places);
    // Once round at random, and once more for what is left.
    for whole in [false, true] {
        for &place in &places {
            let room = rest.min(u64::from(uppers[place]) - parts[place]);
            let more = if whole { room } else { rng.between(0, room) };
            parts[place] += more;
            rest -= more;
        }
    }
    assert_eq!(rest, 0);
    parts
}

/// A list of bands, each inside the matching band, that a scheme may have.
fn trimmed_list(rng: &mut Rng, lowers: &[u32], uppers: &[u32]) -> Vec<(u32, u32)> {
    let parts = between_ends(rng, lowers, uppers);
    let ends = lowers.iter().zip(uppers);
    let band = |(part, (&lower, &upper)): (u64, (&u32, &u32))| {
        let (lower, upper) = (u64::from(lower), u64::from(upper));
        // Each end stays, goes to the part, or goes part of the way.
        let raised = match rng.below(4) {
            0 | 1 => lower,
            2 => part,
            _ => rng.between(lower, part),
        };
        let lowered = match rng.below(4) {
            0 | 1 => upper,
            2 => part,
            _ => rng.between(part, upper),
        };
        (raised as u32, lowered as u32)
    };
    parts.into_iter().zip(ends).map(band).collect()
}

/// An accepted scheme that is equal but for its bands, each of them inside the
/// matching band; other junk beyond s and m now and then.
pub fn trimmed(rng: &mut Rng, scheme: &Scheme) -> Scheme {
    let m = usize::from(scheme.columns);
    let mut narrow = cleared(scheme);
    let bands = trimmed_list(rng, &scheme.lowers[..m], &scheme.uppers[..m]);
    put_bands(&mut narrow, &bands);
    if rng.once_in(3) {
        narrow.lowers[m..].fill_with(|| rng.draw() as u32);
        narrow.uppers[m..].fill_with(|| rng.draw() as u32);
    }
    assert_eq!(plain::cause(&narrow), 0);
    narrow
}

fn set_premiums(rng: &mut Rng, scheme: &mut Scheme) {
    let s = usize::from(scheme.classes);
    let kind = rng.below(6);
    for premium in &mut scheme.premiums[..s] {
        *premium = match kind {
            0 => 0,
            1 => MAX_PREMIUM,
            2 => rng.pick(&[0, 1, MAX_PREMIUM - 1, MAX_PREMIUM]),
            3 => rng.between(10, 13) as u32,
            _ => rng.between(0, u64::from(MAX_PREMIUM)) as u32,
        };
    }
}

/// The same scheme with 0 in the places not in use.
pub fn cleared(scheme: &Scheme) -> Scheme {
    let (s, m) = (usize::from(scheme.classes), usize::from(scheme.columns));
    let mut clear = scheme.clone();
    for (place, rule) in clear.rules.iter_mut().enumerate() {
        if place / MAX_COLUMNS >= s || place % MAX_COLUMNS >= m {
            *rule = 0;
        }
    }
    clear.lowers[m..].fill(0);
    clear.uppers[m..].fill(0);
    clear.premiums[s..].fill(0);
    clear
}

/// The record of an accepted scheme in the usual version.
pub fn record_of(scheme: &Scheme) -> Vec<u8> {
    record_in(scheme, VERSION_1.version)
}

/// The record of an accepted scheme in a version.
pub fn record_in(scheme: &Scheme, version: u8) -> Vec<u8> {
    check_version(version);
    let mut bytes = vec![0; MAX_RECORD];
    let length = plain::write(scheme, version.into(), &mut bytes).expect("an accepted scheme");
    bytes.truncate(length);
    bytes
}

/// The record of an accepted scheme, the versions taking turns.
pub fn record_by_turns(scheme: &Scheme, turn: u64) -> Vec<u8> {
    let at = turn % LAYOUTS.len() as u64;
    record_in(scheme, LAYOUTS[at as usize].version)
}

/// The record of some accepted scheme in some version.
pub fn record(rng: &mut Rng) -> Vec<u8> {
    let shape = Shape::any(rng);
    record_in(&scheme_of(rng, shape), shape.version)
}

/// How many kinds of damage `damage` knows.
pub const DAMAGES: u64 = 19;

/// A record with one or two damages; a few of these leave it accepted.
pub fn damaged(rng: &mut Rng) -> Vec<u8> {
    let mut bytes = record(rng);
    let kind = rng.below(DAMAGES);
    damage(rng, &mut bytes, kind);
    if rng.once_in(4) {
        let kind = rng.below(DAMAGES);
        damage(rng, &mut bytes, kind);
    }
    bytes
}

/// Damages a record. Fields are sought where its own version, s and m put them,
/// those of an unknown version as in version 1; nothing happens where that is
/// past its end.
pub fn damage(rng: &mut Rng, bytes: &mut Vec<u8>, kind: u64) {
    let layout = layout_of(bytes).unwrap_or(VERSION_1);
    if bytes.len() < FRONT {
        bytes.push(rng.draw() as u8);
        return;
    }
    let fields = Fields {
        layout,
        s: usize::from(bytes[places::CLASSES]),
        m: usize::from(bytes[places::COLUMNS]),
    };
    let column = rng.below(fields.m.max(1) as u64) as usize;
    match kind {
        // Too short or too long, with the length field as it was or set right.
        0 | 1 => shorten(rng, bytes, layout.header),
        2 | 3 => lengthen(rng, bytes),
        // Any byte.
        4 => {
            let at = rng.below(bytes.len() as u64) as usize;
            bytes[at] = rng.draw() as u8;
        }
        5..=11 => damage_front(rng, bytes, kind),
        12 => fields.damage_rule(rng, bytes),
        13 => fields.damage_band(rng, bytes, column),
        14 => fields.damage_lowers(rng, bytes, column),
        15 => fields.damage_uppers(rng, bytes, column),
        16 => fields.damage_premium(rng, bytes),
        17 => fields.damage_last_column(rng, bytes),
        18 => fields.change_version(rng, bytes),
        _ => panic!("there is no damage of kind {kind}"),
    }
    if matches!(kind, 1 | 3) {
        set_length(bytes);
    }
}

/// Cuts a record, often by one byte or to about the length of its header.
fn shorten(rng: &mut Rng, bytes: &mut Vec<u8>, header: usize) {
    let length = match rng.below(3) {
        0 => bytes.len() - 1,
        1 => rng.below(header as u64 + 1) as usize,
        _ => rng.below(bytes.len() as u64) as usize,
    };
    bytes.truncate(length);
}

/// Puts a few bytes after a record.
fn lengthen(rng: &mut Rng, bytes: &mut Vec<u8>) {
    for _ in 0..rng.between(1, 9) {
        bytes.push(rng.draw() as u8);
    }
}

/// Sets the length field right, where there is room for one.
pub fn set_length(bytes: &mut [u8]) {
    put(bytes, places::LENGTH, LENGTH_WIDTH, bytes.len() as u32);
}

/// Damages a number at the front of a record.
fn damage_front(rng: &mut Rng, bytes: &mut [u8], kind: u64) {
    let (most_s, most_m) = (MAX_CLASSES as u8, MAX_COLUMNS as u8);
    let s = bytes[places::CLASSES];
    let (place, value) = match kind {
        // The length field.
        5 => {
            let last = places::LENGTH + LENGTH_WIDTH - 1;
            (last, bytes[last].wrapping_add(rng.pick(&[1, 255])))
        }
        6 => (places::LENGTH, rng.draw() as u8),
        // The next version, or one that there is not.
        7 => {
            let next = bytes[places::VERSION].wrapping_add(1);
            (places::VERSION, rng.pick(&[0, next, 255]))
        }
        // s and m, past their limits or only not those of this record.
        8 => (places::CLASSES, rng.pick(&[0, 1, most_s, most_s + 1, 255])),
        9 => (places::COLUMNS, rng.pick(&[0, 1, most_m, most_m + 1, 255])),
        // The start and the horizon.
        10 => (places::START, rng.pick(&[0, s, s.wrapping_add(1), 255])),
        _ => (
            places::HORIZON,
            rng.pick(&[0, MAX_HORIZON, MAX_HORIZON + 1, 255]),
        ),
    };
    bytes[place] = value;
}

/// Where the fields of a record are: its layout, s and m, whatever these are.
struct Fields {
    layout: Layout,
    s: usize,
    m: usize,
}

impl Fields {
    fn lower(&self, k: usize) -> usize {
        self.layout.band(self.s, self.m, k)
    }

    fn upper(&self, k: usize) -> usize {
        self.lower(k) + END_WIDTH
    }

    /// The sum of the ends at these places, but for that of one column.
    fn others(&self, bytes: &[u8], place: impl Fn(usize) -> usize, column: usize) -> u64 {
        (0..self.m)
            .filter(|&k| k != column)
            .map(|k| u64::from(end(bytes, place(k))))
            .sum()
    }

    fn damage_rule(&self, rng: &mut Rng, bytes: &mut [u8]) {
        let count = (self.s * self.m).max(1);
        let at = self.layout.rules() + rng.below(count as u64) as usize;
        let s = self.s as u8;
        let value = rng.pick(&[0, s, s.wrapping_add(1), 255]);
        if let Some(rule) = bytes.get_mut(at) {
            *rule = value;
        }
    }

    /// The ends of a band, out of order or past ONE.
    fn damage_band(&self, rng: &mut Rng, bytes: &mut [u8], column: usize) {
        let (lower, upper) = (self.lower(column), self.upper(column));
        match rng.below(3) {
            0 => put_end(bytes, lower, end(bytes, upper).wrapping_add(1)),
            1 => {
                let value = rng.pick(&[ONE as u32, ONE as u32 + 1, u32::MAX]);
                put_end(bytes, upper, value);
            }
            _ => put_end(bytes, upper, end(bytes, lower).wrapping_sub(1)),
        }
    }

    /// The lowers to ONE or ONE and 1, where they were near.
    fn damage_lowers(&self, rng: &mut Rng, bytes: &mut [u8], column: usize) {
        let rest = self.others(bytes, |k| self.lower(k), column);
        let lower = (ONE + rng.below(2)).saturating_sub(rest) as u32;
        put_end(bytes, self.lower(column), lower);
        let upper = end(bytes, self.upper(column)).max(lower);
        put_end(bytes, self.upper(column), upper);
    }

    /// The uppers to ONE or ONE less 1, likewise.
    fn damage_uppers(&self, rng: &mut Rng, bytes: &mut [u8], column: usize) {
        let rest = self.others(bytes, |k| self.upper(k), column);
        let upper = (ONE - rng.below(2)).saturating_sub(rest) as u32;
        put_end(bytes, self.upper(column), upper);
        let lower = end(bytes, self.lower(column)).min(upper);
        put_end(bytes, self.lower(column), lower);
    }

    fn damage_premium(&self, rng: &mut Rng, bytes: &mut [u8]) {
        let i = rng.below(self.s.max(1) as u64) as usize;
        let value = rng.pick(&[0, MAX_PREMIUM, MAX_PREMIUM + 1, u32::MAX]);
        let at = self.layout.premium(self.s, self.m, i);
        put(bytes, at, self.layout.premium_width, value);
    }

    /// The claim number that opens the last column; in version 1 the first rule
    /// stands there.
    fn damage_last_column(&self, rng: &mut Rng, bytes: &mut [u8]) {
        let m = self.m as u8;
        let near = [m.wrapping_sub(2), m.wrapping_sub(1), m];
        let value = rng.pick(&[0, near[0], near[1], near[2], 255]);
        if let Some(byte) = bytes.get_mut(places::LAST_COLUMN) {
            *byte = value;
        }
    }

    /// The other version, half the time with as many bytes as it would have.
    fn change_version(&self, rng: &mut Rng, bytes: &mut Vec<u8>) {
        let other = match self.layout == VERSION_1 {
            true => VERSION_2,
            false => VERSION_1,
        };
        bytes[places::VERSION] = other.version;
        if rng.once_in(2) {
            bytes.resize(other.length(self.s, self.m), rng.draw() as u8);
            set_length(bytes);
        }
    }
}

/// An end of a band; 0 past the end of the bytes.
fn end(bytes: &[u8], at: usize) -> u32 {
    if at + END_WIDTH <= bytes.len() {
        number_at(bytes, at, END_WIDTH)
    } else {
        0
    }
}

fn put_end(bytes: &mut [u8], at: usize, number: u32) {
    put(bytes, at, END_WIDTH, number);
}

/// Puts a number, where the bytes have room for it.
fn put(bytes: &mut [u8], at: usize, width: usize, number: u32) {
    if at + width <= bytes.len() {
        put_number(bytes, at, width, number);
    }
}

/// An accepted scheme with one or two fields set near or past their limits.
pub fn damaged_scheme(rng: &mut Rng) -> Scheme {
    let mut scheme = scheme(rng);
    for _ in 0..rng.between(1, 2) {
        let s = usize::from(scheme.classes).clamp(1, MAX_CLASSES);
        let m = usize::from(scheme.columns).clamp(1, MAX_COLUMNS);
        let class = rng.below(s as u64) as usize;
        let k = rng.below(m as u64) as usize;
        match rng.below(9) {
            0 => scheme.classes = rng.pick(&[0, MAX_CLASSES as u8 + 1, 255]),
            1 => scheme.columns = rng.pick(&[0, MAX_COLUMNS as u8 + 1, 255]),
            2 => {
                scheme.start =
                    rng.pick(&[0, 1, scheme.classes, scheme.classes.wrapping_add(1), 255])
            }
            3 => scheme.horizon = rng.pick(&[MAX_HORIZON, MAX_HORIZON + 1, 255]),
            4 => {
                scheme.rules[class * MAX_COLUMNS + k] =
                    rng.pick(&[0, 1, scheme.classes, scheme.classes.wrapping_add(1), 255]);
            }
            5 => scheme.lowers[k] = scheme.uppers[k].wrapping_add(1),
            6 => scheme.uppers[k] = rng.pick(&[ONE as u32, ONE as u32 + 1, u32::MAX]),
            7 => {
                // Lowers above ONE, or uppers below, with each band in order.
                if rng.once_in(2) && m > 1 {
                    scheme.lowers[..m].fill((ONE / m as u64 + 1) as u32);
                    scheme.uppers[..m].fill(ONE as u32);
                } else {
                    scheme.lowers[..m].fill(0);
                    scheme.uppers[..m].fill(((ONE - 1) / m as u64) as u32);
                }
            }
            _ => scheme.premiums[class] = rng.pick(&[MAX_PREMIUM, MAX_PREMIUM + 1, u32::MAX]),
        }
    }
    scheme
}

/// A payoff for s classes, within the limit; junk beyond s.
pub fn payoff(rng: &mut Rng, s: u8) -> Figures {
    let mut payoff = [0; MAX_CLASSES];
    payoff.fill_with(|| rng.draw());
    let kind = rng.below(7);
    let equal = rng.between(0, MAX_PAYOFF);
    for value in &mut payoff[..usize::from(s)] {
        *value = match kind {
            0 => 0,
            1 => equal,
            2 => MAX_PAYOFF,
            3 => rng.pick(&[0, 1, MAX_PAYOFF - 1, MAX_PAYOFF]),
            4 => rng.between(0, 3),
            5 => rng.pick(&[equal, equal / 2]),
            _ => rng.between(0, MAX_PAYOFF),
        };
    }
    payoff
}

/// A payoff with one of its values for s classes past the limit.
pub fn excess_payoff(rng: &mut Rng, s: u8) -> Figures {
    let mut payoff = payoff(rng, s);
    let class = rng.below(u64::from(s)) as usize;
    payoff[class] = rng.pick(&[MAX_PAYOFF + 1, u64::MAX]);
    payoff
}

/// A book for s classes; once in eight times one that pooling refuses, and in
/// half of them junk beyond s.
pub fn book(rng: &mut Rng, s: u8) -> Book {
    let mut book = pooled_book(rng, s);
    if rng.once_in(8) {
        spoil_book(rng, &mut book[..usize::from(s)]);
    }
    book
}

/// A book for s classes that pooling accepts; in half of them junk beyond s.
pub fn pooled_book(rng: &mut Rng, s: u8) -> Book {
    let mut book = [0; MAX_CLASSES];
    if rng.once_in(2) {
        let edges = [0, 1, MAX_COUNT, MAX_COUNT + 1, u32::MAX];
        book.fill_with(|| match rng.below(6) {
            0 => rng.draw() as u32,
            _ => rng.pick(&edges),
        });
    }
    let counts = &mut book[..usize::from(s)];
    let kind = rng.below(6);
    for count in counts.iter_mut() {
        *count = match kind {
            0 => 0,
            1 => rng.pick(&[0, 1]),
            2 => rng.between(0, 9) as u32,
            3 => rng.pick(&[0, 1, MAX_COUNT - 1, MAX_COUNT]),
            4 => rng.between(0, u64::from(MAX_COUNT / 2)) as u32,
            _ => rng.between(0, u64::from(MAX_COUNT)) as u32,
        };
    }
    if counts.iter().all(|&count| count == 0) {
        let class = rng.below(u64::from(s)) as usize;
        counts[class] = rng.pick(&[1, 2, MAX_COUNT]);
    }
    book
}

/// Puts a count past the limit, or takes all chambers away.
fn spoil_book(rng: &mut Rng, counts: &mut [u32]) {
    if rng.once_in(3) {
        counts.fill(0);
    } else {
        let class = rng.below(counts.len() as u64) as usize;
        counts[class] = rng.pick(&[MAX_COUNT + 1, u32::MAX]);
    }
}
