//! Slices to lend to a call, each in the midst of a larger array, so that what a call changes beside them is seen.

use std::fmt::Display;
use std::ops::Range;

/// Elements before and after a lent slice, which no call may touch.
const GUARD: usize = 4;

pub trait Element: Copy + PartialEq + Display + Into<u64> {
    /// What an element holds before a call that may write to it, and a guard always: a number of its place.
    fn marker(at: usize) -> Self;
}

impl Element for u8 {
    fn marker(at: usize) -> u8 {
        0xA5 ^ at as u8
    }
}

impl Element for u32 {
    fn marker(at: usize) -> u32 {
        0xA5A5_0000 | at as u32
    }
}

impl Element for u64 {
    /// No moment, no level, no remainder and no number of row means.
    fn marker(at: usize) -> u64 {
        0xA5A5_0000_0000_0000 | at as u64
    }
}

/// A slice, the guards on either side of it, and what all of them held at first.
pub struct Lent<T> {
    /// What an element is called where it is at fault.
    name: &'static str,
    first: Vec<T>,
    now: Vec<T>,
}

impl<T: Element> Lent<T> {
    /// `count` elements to write to.
    pub fn marked(name: &'static str, count: usize) -> Lent<T> {
        let first: Vec<T> = (0..count + 2 * GUARD).map(T::marker).collect();
        Lent { name, now: first.clone(), first }
    }

    /// `content`, to be read.
    pub fn holding(name: &'static str, content: &[T]) -> Lent<T> {
        let mut lent = Lent::marked(name, content.len());
        lent.slice_mut().copy_from_slice(content);
        lent.first = lent.now.clone();
        lent
    }

    fn range(&self) -> Range<usize> {
        GUARD..self.now.len() - GUARD
    }

    pub fn slice(&self) -> &[T] {
        &self.now[self.range()]
    }

    pub fn slice_mut(&mut self) -> &mut [T] {
        let range = self.range();
        &mut self.now[range]
    }

    /// The one element of a slice that has one.
    pub fn number_mut(&mut self) -> &mut T {
        &mut self.slice_mut()[0]
    }

    /// The name and the first `count` elements, after a call that writes these and no more; or a line on what else it has
    /// changed.
    pub fn written(&self, count: usize) -> Result<(&'static str, Vec<u64>), String> {
        if count > self.slice().len() {
            return Err(format!("{count} elements '{}' of {} lent", self.name, self.slice().len()));
        }
        let written = GUARD..GUARD + count;
        match (0..self.now.len()).find(|at| !written.contains(at) && self.now[*at] != self.first[*at]) {
            None => Ok((self.name, self.now[written].iter().map(|&element| element.into()).collect())),
            Some(at) => {
                let place = at as isize - GUARD as isize;
                Err(format!("{} {place} was {}, and now is {}", self.name, self.first[at], self.now[at]))
            }
        }
    }

    /// After a call that only reads: all is as it was, or a line on what is not.
    pub fn unchanged(&self) -> Result<(), String> {
        self.written(0).map(|_| ())
    }
}
