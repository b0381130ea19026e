//! A lent slice between guards.

use std::fmt::Debug;

/// How many guards stand on each side.
const GUARDS: usize = 3;

/// A slice to lend, filled with a mark, with marks as guards on both sides.
pub struct Lent<T> {
    all: Vec<T>,
    mark: T,
}

impl<T: Copy + PartialEq + Debug> Lent<T> {
    pub fn new(length: usize, mark: T) -> Lent<T> {
        Lent {
            all: vec![mark; GUARDS + length + GUARDS],
            mark,
        }
    }

    /// The part to lend.
    pub fn part(&mut self) -> &mut [T] {
        let end = self.all.len() - GUARDS;
        &mut self.all[GUARDS..end]
    }

    /// Checks the guards, and hands back what stands in the part.
    pub fn left(&self) -> &[T] {
        let end = self.all.len() - GUARDS;
        let guards = self.all[..GUARDS].iter().chain(&self.all[end..]);
        assert!(guards.copied().all(|guard| guard == self.mark));
        &self.all[GUARDS..end]
    }

    /// Checks that nothing was written, in the part or around it.
    pub fn untouched(&self) {
        assert!(self.all.iter().all(|&one| one == self.mark));
    }

    /// Checks that these stand at the front of the part, and marks after them.
    pub fn holds(&self, front: &[T]) {
        let (written, rest) = self.left().split_at(front.len());
        assert_eq!(written, front);
        assert!(rest.iter().all(|&one| one == self.mark));
    }
}

/// Checks what a call answered with a slice lent to it: the numbers wanted and
/// nothing past them, or the cause and the slice as it was.
pub fn check_one<T, U>(answer: Result<(), u8>, wanted: &Result<U, u8>, lent: &Lent<T>)
where
    T: Copy + PartialEq + Debug,
    U: AsRef<[T]>,
{
    match wanted {
        Ok(front) => {
            assert_eq!(answer, Ok(()));
            lent.holds(front.as_ref());
        }
        Err(cause) => {
            assert_eq!(answer, Err(*cause));
            lent.untouched();
        }
    }
}

/// Lengths near the right one.
pub fn near(right: usize) -> [usize; 5] {
    [0, right.saturating_sub(1), right, right + 1, right + 2]
}

/// Declines a slice of the wrong length, after all other causes.
pub fn of_length<T>(fits: bool, answer: Result<T, u8>) -> Result<T, u8> {
    answer.and_then(|value| if fits { Ok(value) } else { Err(13) })
}
