//! Lists to lend, with what lies around them, so that a write beside them shows.

use oracle::rng::Rng;

/// A list that is lent: a part of a longer buffer. What stood in the whole buffer is kept, so that a write shows.
#[derive(Default)]
pub struct Lent<T> {
    buffer: Vec<T>,
    before: Vec<T>,
    start: usize,
    pub len: usize,
}

impl<T: Copy + PartialEq> Lent<T> {
    /// Elements before and after the list, and a few more before it, so that it begins anywhere.
    const MARGIN: usize = 64;
    const SHIFTS: usize = 16;

    pub fn fill(&mut self, rng: &mut Rng, margin: T, list: impl IntoIterator<Item = T>) {
        self.start = Self::MARGIN + rng.below(Self::SHIFTS);
        self.before.clear();
        self.before.resize(self.start, margin);
        self.before.extend(list);
        self.len = self.before.len() - self.start;
        self.before.resize(self.start + self.len + Self::MARGIN, margin);
        self.buffer.clone_from(&self.before);
    }

    pub fn list(&mut self) -> &mut [T] {
        &mut self.buffer[self.start..self.start + self.len]
    }

    pub fn list_before(&self) -> &[T] {
        &self.before[self.start..self.start + self.len]
    }

    /// Nothing is written at all.
    pub fn is_kept(&self) -> bool {
        self.buffer == self.before
    }

    /// The list has this length, and nothing is written beside it.
    pub fn is_kept_around(&self, len: usize) -> bool {
        self.len == len && self.is_kept_beside(len)
    }

    /// Nothing is written beside the first `written` elements of the list.
    pub fn is_kept_beside(&self, written: usize) -> bool {
        let end = self.start + written;
        written <= self.len
            && self.buffer[..self.start] == self.before[..self.start]
            && self.buffer[end..] == self.before[end..]
    }
}
