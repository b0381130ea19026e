//! The text of the sheet.

use crate::record::read;
use crate::scheme::{Scheme, MAX_CLASSES};
use crate::years::{cents, plus, unit, Chain};

/// The lines of the sheet of a record, or `REFUSED` and the number.
pub fn sheet(record: &[u8]) -> Vec<u8> {
    match read(record) {
        Ok(scheme) => lines(&scheme),
        Err(number) => {
            let mut text = Vec::new();
            line(&mut text, b"REFUSED", &[u64::from(number)]);
            text
        }
    }
}

fn lines(scheme: &Scheme) -> Vec<u8> {
    let chain = Chain::new(scheme);
    let s = scheme.s();
    let start = chain.start;
    let horizon = u64::from(scheme.horizon);
    let premiums = scheme.premium_tenths();

    // No line is longer than 48 bytes.
    let mut text = Vec::with_capacity(48 * ((s + 1) * (horizon as usize + 1) + 2));
    let head = [scheme.classes, scheme.columns, scheme.start, scheme.horizon];
    line(&mut text, b"SCHEME", &head.map(u64::from));

    // Figures by class, one set for the share of each class; a year's step
    // carries them all on.
    let mut low_shares = [[0; MAX_CLASSES]; MAX_CLASSES];
    for (index, figures) in low_shares[..s].iter_mut().enumerate() {
        *figures = unit(index);
    }
    let mut high_shares = low_shares;
    let (mut low_mean, mut high_mean) = (premiums, premiums);
    let (mut low_total, mut high_total) = ([0; MAX_CLASSES], [0; MAX_CLASSES]);

    for year in 0..=horizon {
        if year > 0 {
            for figures in &mut low_shares[..s] {
                *figures = chain.low_year(figures);
            }
            for figures in &mut high_shares[..s] {
                *figures = chain.high_year(figures);
            }
            low_mean = chain.low_year(&low_mean);
            high_mean = chain.high_year(&high_mean);
            low_total = plus(chain.low_year(&low_total), &premiums);
            high_total = plus(chain.high_year(&high_total), &premiums);
        }
        for (class, (low, high)) in (1..).zip(low_shares[..s].iter().zip(&high_shares)) {
            text.extend_from_slice(b"YEAR ");
            number(&mut text, year);
            line(&mut text, b" CLASS", &[class, low[start], high[start]]);
        }
        text.extend_from_slice(b"YEAR ");
        number(&mut text, year);
        let (low, high) = cents((low_mean[start], high_mean[start]));
        line(&mut text, b" PREMIUM", &[low, high]);
    }
    let (low, high) = cents((low_total[start], high_total[start]));
    line(&mut text, b"TOTAL", &[low, high]);
    text
}

/// A word and numbers, one space before each, and the end of the line.
fn line(text: &mut Vec<u8>, word: &[u8], numbers: &[u64]) {
    text.extend_from_slice(word);
    for &value in numbers {
        text.push(b' ');
        number(text, value);
    }
    text.push(b'\n');
}

/// A number in decimal without leading zeros.
fn number(text: &mut Vec<u8>, mut value: u64) {
    let mut digits = [0; 20];
    let mut at = digits.len();
    loop {
        at -= 1;
        digits[at] = b'0' + (value % 10) as u8;
        value /= 10;
        if value == 0 {
            break;
        }
    }
    text.extend_from_slice(&digits[at..]);
}
