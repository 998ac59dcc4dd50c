//! Memory lent to a call: garbage inside wider garbage, with a copy that shows
//! every entry touched.

use crate::random::Random;
use std::fmt::Debug;

const MARGIN: usize = 24;

pub trait Garbage: Copy + PartialEq + Debug {
    fn garbage(random: &mut Random) -> Self;
}

impl Garbage for u8 {
    fn garbage(random: &mut Random) -> Self {
        random.byte()
    }
}

impl Garbage for u16 {
    fn garbage(random: &mut Random) -> Self {
        random.number() as u16
    }
}

impl Garbage for u32 {
    fn garbage(random: &mut Random) -> Self {
        random.number() as u32
    }
}

pub struct Lent<T> {
    all: Vec<T>,
    copy: Vec<T>,
    start: usize,
    len: usize,
}

impl<T: Garbage> Lent<T> {
    /// `len` entries of garbage, starting at a random offset of the allocation.
    pub fn garbage(random: &mut Random, len: usize) -> Self {
        let contents: Vec<T> = (0..len).map(|_| T::garbage(random)).collect();
        Self::holding(random, &contents)
    }

    pub fn holding(random: &mut Random, contents: &[T]) -> Self {
        let start = random.between(1, MARGIN);
        let mut all: Vec<T> = (0..start).map(|_| T::garbage(random)).collect();
        all.extend_from_slice(contents);
        all.extend((0..MARGIN).map(|_| T::garbage(random)));
        Lent {
            copy: all.clone(),
            all,
            start,
            len: contents.len(),
        }
    }

    pub fn part(&mut self) -> &mut [T] {
        &mut self.all[self.start..self.start + self.len]
    }

    pub fn contents(&self) -> &[T] {
        &self.all[self.start..self.start + self.len]
    }

    /// Nothing lent and nothing around it has changed.
    pub fn expect_untouched(&self, case: impl Debug) {
        assert!(self.all == self.copy, "touched: {case:?}");
    }

    /// The contents stand at the front; all behind and around them is as it was.
    pub fn expect_front(&self, contents: &[T], case: impl Debug) {
        let behind = self.start + contents.len();
        let front = &self.all[self.start..behind];
        if let Some(at) = (0..contents.len()).find(|&at| front[at] != contents[at]) {
            let (found, expected) = (front[at], contents[at]);
            panic!("entry {at} is {found:?}, not {expected:?}: {case:?}");
        }
        let before = self.all[..self.start] == self.copy[..self.start];
        let after = self.all[behind..] == self.copy[behind..];
        assert!(before && after, "touched beyond the contents: {case:?}");
    }
}
