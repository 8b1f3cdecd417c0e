//! A buffer with guard elements on both sides, so that a write outside what was lent is seen.
const GUARDS: usize = 4;

pub struct Guarded<T> {
    all: Vec<T>,
    fill: T,
}

impl<T: Copy + PartialEq> Guarded<T> {
    /// A buffer of `len` elements, all of them `fill`, and so are the guards.
    pub fn new(len: usize, fill: T) -> Guarded<T> {
        Guarded { all: vec![fill; len + 2 * GUARDS], fill }
    }

    pub fn lent(&mut self) -> &mut [T] {
        let end = self.all.len() - GUARDS;
        &mut self.all[GUARDS..end]
    }

    /// Whether the buffer holds `written` in front, and what it held before everywhere else, guards included.
    pub fn holds(&self, written: &[T]) -> bool {
        let (before, rest) = self.all.split_at(GUARDS);
        let (front, after) = rest.split_at(written.len().min(rest.len()));
        front == written && before.iter().chain(after).all(|&x| x == self.fill)
    }
}
