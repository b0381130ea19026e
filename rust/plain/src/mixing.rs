//! The mixing check of a scheme, count by count.

use crate::rows::row;
use crate::scheme::{accept, Scheme};

/// The last count of years that is looked at.
const MAX_COUNT: usize = 1024;

/// The first count of years, 1 to 1,024, in which every class can go to every
/// class, each step having a tight lower entry above 0.
pub fn mixing(scheme: &Scheme) -> Result<u64, u8> {
    accept(scheme)?;
    let first = years(scheme).take(MAX_COUNT).position(|mixes| mixes);
    first.map(|before| before as u64 + 1).ok_or(16)
}

/// For each count of years from 1 on, whether it mixes: the classes that each
/// class can be in are walked on year by year.
fn years(scheme: &Scheme) -> impl Iterator<Item = bool> {
    let steps: Vec<u32> = (1..=u64::from(scheme.classes))
        .map(|class| {
            let (lower, _) = row(scheme, class).expect("a row of an accepted scheme");
            set(lower.iter().map(|&entry| entry > 0))
        })
        .collect();
    let s = steps.len();
    let all = set((0..s).map(|_| true));
    let alone: Vec<u32> = (0..s).map(|class| 1 << class).collect();
    let next = move |within: &Vec<u32>| {
        let on = |&from: &u32| {
            let inside = (0..s).filter(|&class| from >> class & 1 == 1);
            inside.fold(0, |sum, class| sum | steps[class])
        };
        Some(within.iter().map(on).collect())
    };
    std::iter::successors(Some(alone), next)
        .skip(1)
        .map(move |within: Vec<u32>| within.iter().all(|&classes| classes == all))
}

/// The set of the classes that are told to be in it, class 1 first.
fn set(told: impl Iterator<Item = bool>) -> u32 {
    told.enumerate()
        .fold(0, |sum, (class, inside)| sum | u32::from(inside) << class)
}
