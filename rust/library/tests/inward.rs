//! Item 1 of document 02 on the library's answers: where each band of a scheme
//! lies inside the matching band of another, the same calls are answered, no low
//! is smaller and no high is larger. Pooled ones too.

use std::io::Write;
use trials::made;
use trials::rng::Rng;

/// How many pairs of schemes are tried.
const PAIRS: u64 = 20_000;

/// The record of a scheme, and that of the scheme with trimmed bands, of the
/// same version or not.
struct Pair {
    wide: Vec<u8>,
    narrow: Vec<u8>,
    s: u64,
    horizon: u64,
}

impl Pair {
    /// Whether what takes long is tried too.
    fn is_small(&self) -> bool {
        self.s > 1 && self.s * self.s * self.horizon <= 1_000
    }
}

/// How many bounds moved, how many stayed, and how many calls both declined.
#[derive(Default)]
struct Moves {
    moved: u64,
    stayed: u64,
    declined: u64,
}

impl Moves {
    /// A low and a high of the wide scheme beside those of the trimmed one.
    fn inward(&mut self, wide: [u64; 2], narrow: [u64; 2]) {
        assert!(wide[0] <= narrow[0] && narrow[1] <= wide[1]);
        for side in 0..2 {
            match wide[side] == narrow[side] {
                true => self.stayed += 1,
                false => self.moved += 1,
            }
        }
    }

    /// The same call on both records.
    fn call<T>(&mut self, pair: &Pair, call: impl Fn(&[u8]) -> Result<T, u8>) -> Option<(T, T)> {
        match (call(&pair.wide), call(&pair.narrow)) {
            (Ok(wide), Ok(narrow)) => Some((wide, narrow)),
            (wide, narrow) => {
                assert_eq!(wide.err(), narrow.err());
                self.declined += 1;
                None
            }
        }
    }

    /// A call for a low and a high.
    fn bounds(&mut self, pair: &Pair, call: impl Fn(&[u8], &mut [u64]) -> Result<(), u8>) {
        let both = |record: &[u8]| {
            let mut out = [0; 2];
            call(record, &mut out).map(|()| out)
        };
        if let Some((wide, narrow)) = self.call(pair, both) {
            self.inward(wide, narrow);
        }
    }

    /// A call for the shares of all classes.
    fn share_sheet(
        &mut self,
        pair: &Pair,
        call: impl Fn(&[u8], &mut [u64], &mut [u64]) -> Result<(), u8>,
    ) {
        let sheet = |record: &[u8]| {
            let (mut low, mut high) = (vec![0; pair.s as usize], vec![0; pair.s as usize]);
            call(record, &mut low, &mut high).map(|()| (low, high))
        };
        if let Some((wide, narrow)) = self.call(pair, sheet) {
            let shares = wide.0.into_iter().zip(wide.1);
            for (share, trimmed) in shares.zip(narrow.0.into_iter().zip(narrow.1)) {
                self.inward(share.into(), trimmed.into());
            }
        }
    }

    /// The figures of a class and a year.
    fn figures(&mut self, pair: &Pair, class: u64, year: u64) {
        self.bounds(pair, |record, out| library::share(record, class, year, out));
        self.bounds(pair, |record, out| {
            library::reached(record, class, year, out)
        });
        self.bounds(pair, |record, out| library::mean(record, year, out));
        self.bounds(pair, |record, out| library::total(record, year, out));
        self.share_sheet(pair, |record, low, high| {
            library::share_sheet(record, year, low, high)
        });
    }

    /// The same, pooled over a book; the share sheet of small schemes only.
    fn pooled(&mut self, pair: &Pair, book: &[u32], class: u64, year: u64) {
        self.bounds(pair, |record, out| {
            library::pooled_share(record, book, class, year, out)
        });
        self.bounds(pair, |record, out| {
            library::pooled_mean(record, book, year, out)
        });
        self.bounds(pair, |record, out| {
            library::pooled_total(record, book, year, out)
        });
        if pair.is_small() {
            self.share_sheet(pair, |record, low, high| {
                library::pooled_share_sheet(record, book, year, low, high)
            });
        }
    }

    /// The lower and the upper ends of a class's row.
    fn row(&mut self, pair: &Pair, class: u64) {
        let row = |record: &[u8]| {
            let (mut lower, mut upper) = ([0; 32], [0; 32]);
            library::row(record, class, &mut lower, &mut upper).map(|()| (lower, upper))
        };
        if let Some((wide, narrow)) = self.call(pair, row) {
            for j in 0..pair.s as usize {
                self.inward([wide.0[j], wide.1[j]], [narrow.0[j], narrow.1[j]]);
            }
        }
    }

    /// The low and the high step of one payoff.
    fn steps(&mut self, pair: &Pair, payoff: &[u64], class: u64) {
        self.bounds(pair, |record, out| {
            let (low, high) = out.split_at_mut(1);
            library::low_step(record, payoff, class, low, &mut [0; 32])?;
            library::high_step(record, payoff, class, high, &mut [0; 32])
        });
    }

    /// Every low and high of the sheet's text.
    fn sheet(&mut self, pair: &Pair) {
        let (wide, narrow) = (sheet(&pair.wide), sheet(&pair.narrow));
        assert_eq!(wide.len(), narrow.len());
        for (line, trimmed) in wide.iter().zip(&narrow) {
            assert_eq!(line.0, trimmed.0);
            self.inward(line.1, trimmed.1);
        }
    }
}

/// The lines of a record's sheet: what is told, and its low and high.
fn sheet(record: &[u8]) -> Vec<(String, [u64; 2])> {
    let mut out = vec![0; library::SHEET_ROOM];
    let mut length = [0];
    library::sheet(record, &mut out, &mut length).expect("a sheet");
    out.truncate(length[0] as usize);
    let text = String::from_utf8(out).expect("a text");
    let bounds = |line: &str| {
        let mut words: Vec<&str> = line.split(' ').collect();
        let high = words.pop()?.parse().ok()?;
        let low = words.pop()?.parse().ok()?;
        Some((words.join(" "), [low, high]))
    };
    // The first line tells the scheme's size.
    text.lines()
        .skip(1)
        .map(|line| bounds(line).expect("a low and a high"))
        .collect()
}

#[test]
fn trimmed_bands_move_bounds_inward() {
    let mut rng = Rng::new(121);
    let mut moves = Moves::default();
    for turn in 0..PAIRS {
        let scheme = made::scheme(&mut rng);
        let narrow = made::trimmed(&mut rng, &scheme);
        let pair = Pair {
            wide: made::record_by_turns(&scheme, turn),
            narrow: made::record_by_turns(&narrow, turn / 2),
            s: u64::from(scheme.classes),
            horizon: u64::from(scheme.horizon),
        };
        // Now and then a class or a year that there is not.
        let (class, year) = match rng.below(16) {
            0 => (pair.s + 1, 0),
            1 => (1, pair.horizon + 1),
            _ => (rng.between(1, pair.s), rng.between(0, pair.horizon.min(8))),
        };
        moves.figures(&pair, class, year);
        let book = made::book(&mut rng, scheme.classes);
        moves.pooled(&pair, &book, class, year);
        moves.row(&pair, class);
        let payoff = made::payoff(&mut rng, scheme.classes);
        moves.steps(&pair, &payoff, class);
        if pair.is_small() {
            moves.sheet(&pair);
        }
    }
    // Past the capture of tests, so that it always shows.
    writeln!(
        std::io::stderr(),
        "trimmed bands move bounds inward: {PAIRS} pairs, {} bounds moved, {} stayed, {} calls declined for both",
        moves.moved,
        moves.stayed,
        moves.declined
    )
    .expect("standard error");
    assert!(moves.moved >= PAIRS && moves.stayed >= PAIRS && moves.declined >= 1_000);
}
