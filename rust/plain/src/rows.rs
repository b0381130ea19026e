//! Interval rows and tight rows.

use crate::scheme::{accept, index_of, Figures, Scheme, MAX_CLASSES, ONE};

/// The lower and the upper entries from a class to every class, made tight; 0
/// beyond s.
pub fn row(scheme: &Scheme, class: u64) -> Result<(Figures, Figures), u8> {
    let (lower, upper) = interval_row(scheme, class)?;
    Ok(tight(&lower, &upper, usize::from(scheme.classes)))
}

/// The interval row of a class, on which all figures rest; 0 beyond s.
pub fn interval_row(scheme: &Scheme, class: u64) -> Result<(Figures, Figures), u8> {
    accept(scheme)?;
    let index = index_of(scheme, class)?;
    Ok(interval(scheme, index))
}

/// The interval row of the class at `index` of an accepted scheme.
pub(crate) fn interval(scheme: &Scheme, index: usize) -> (Figures, Figures) {
    let mut lower = [0; MAX_CLASSES];
    let mut upper = [0; MAX_CLASSES];
    for (k, &rule) in scheme.rules_of(index).iter().enumerate() {
        let j = usize::from(rule) - 1;
        lower[j] += u64::from(scheme.lowers[k]);
        upper[j] = ONE.min(upper[j] + u64::from(scheme.uppers[k]));
    }
    (lower, upper)
}

/// The lower entry becomes the larger of the old one and ONE minus the other
/// upper entries, never below 0; the upper entry the smaller of the old one and
/// ONE minus the other lower entries. Both use the old entries.
fn tight(lower: &Figures, upper: &Figures, s: usize) -> (Figures, Figures) {
    let others = |entries: &Figures, j: usize| -> u64 {
        let all = entries[..s].iter().enumerate();
        all.filter(|&(k, _)| k != j).map(|(_, &entry)| entry).sum()
    };
    let mut tight_lower = [0; MAX_CLASSES];
    let mut tight_upper = [0; MAX_CLASSES];
    for j in 0..s {
        tight_lower[j] = lower[j].max(ONE.saturating_sub(others(upper, j)));
        tight_upper[j] = upper[j].min(ONE - others(lower, j));
    }
    (tight_lower, tight_upper)
}
