//! The ready schemes.

use crate::scheme::{Scheme, MAX_BASE, MAX_COLUMNS, ONE};

/// Premiums by class in tenths of a percent of the base.
const SCALE_1: [u64; 18] = [
    792, 822, 855, 888, 938, 996, 1000, 1000, 1000, 1000, 1802, 1951, 2208, 2379, 2581, 2824, 3066,
    3579,
];
const SCALE_2: [u64; 18] = [
    701, 731, 764, 802, 865, 919, 982, 1000, 1000, 1000, 1551, 1676, 1793, 1970, 2120, 2297, 2509,
    2944,
];
const SCALE_3: [u64; 24] = [
    541, 570, 604, 642, 785, 839, 901, 975, 1000, 1000, 1471, 1596, 1740, 1890, 2040, 2217, 2336,
    2416, 2609, 2837, 3111, 3148, 3435, 3953,
];

const COLUMNS: u8 = 5;
const START: u8 = 10;
const HORIZON: u8 = 40;

/// Ready scheme 1, 2 or 3 with premiums scaled from a base in cents.
pub fn ready(number: u64, base: u64) -> Result<Scheme, u8> {
    let (scale, claim_step): (&[u64], usize) = match number {
        1 => (&SCALE_1, 3),
        2 => (&SCALE_2, 4),
        3 => (&SCALE_3, 4),
        _ => return Err(14),
    };
    if base > MAX_BASE {
        return Err(15);
    }

    let s = scale.len();
    let m = usize::from(COLUMNS);
    let mut scheme = Scheme {
        classes: s as u8,
        columns: COLUMNS,
        start: START,
        horizon: HORIZON,
        ..Scheme::EMPTY
    };
    for class in 1..=s {
        let rules = &mut scheme.rules[(class - 1) * MAX_COLUMNS..][..m];
        for (claims, rule) in rules.iter_mut().enumerate() {
            let next = class + claim_step * claims - 1;
            *rule = next.clamp(1, s) as u8;
        }
    }
    scheme.uppers[..m].fill(ONE as u32);
    for (premium, tenths) in scheme.premiums.iter_mut().zip(scale) {
        *premium = (base * tenths / 1000) as u32;
    }
    Ok(scheme)
}
