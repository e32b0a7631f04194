//! Counts of the distinct values of a column in plain Rust: by a bit for each value of a range, in
//! one number or in words, and by what a user would pick instead, a tree or a table of hashes.

use crate::plain::Window;
use std::collections::{BTreeSet, HashSet};

/// A column, the least number of a range that it is in, and which of its rows are present.
#[derive(Clone, Copy)]
pub struct Column<'a> {
    pub values: &'a [i32],
    pub least: i32,
    pub present: Option<Window<'a>>,
}

impl Column<'_> {
    fn is_present(&self, i: usize) -> bool {
        self.present.is_none_or(|present| {
            let at = present.at + i;
            (present.words[at / 64] >> (at % 64)) & 1 == 1
        })
    }

    /// Returns 1 if a row is null, and otherwise 0.
    fn null(&self) -> u64 {
        u64::from((0..self.values.len()).any(|i| !self.is_present(i)))
    }

    fn present_values(&self) -> impl Iterator<Item = i32> {
        (0..self.values.len())
            .filter(|i| self.is_present(*i))
            .map(|i| self.values[i])
    }
}

/// Counts by the bits of a number of 128 bits.
#[inline(never)]
pub fn distinct_in_number(column: Column) -> u64 {
    let set = |seen: u128, value: i32| seen | 1 << (value - column.least);
    let seen = match column.present {
        None => column.values.iter().copied().fold(0, set),
        Some(_) => column.present_values().fold(0, set),
    };
    u64::from(seen.count_ones()) + column.null()
}

/// Counts by the bits of words.
#[inline(never)]
pub fn distinct_in_words(column: Column, range: usize) -> u64 {
    let mut seen = vec![0u64; range.div_ceil(64)];
    let set = |value: i32| {
        let place = (value - column.least) as usize;
        seen[place / 64] |= 1 << (place % 64);
    };
    match column.present {
        None => column.values.iter().copied().for_each(set),
        Some(_) => column.present_values().for_each(set),
    }
    count(&seen) + column.null()
}

/// Counts by a tree. All rows have to be present.
#[inline(never)]
pub fn distinct_in_tree(values: &[i32]) -> u64 {
    values.iter().collect::<BTreeSet<_>>().len() as u64
}

/// Counts by a table of hashes. All rows have to be present.
#[inline(never)]
pub fn distinct_in_table(values: &[i32]) -> u64 {
    values.iter().collect::<HashSet<_>>().len() as u64
}

/// Returns the number of values in two sets of bits, which are joined in a third one.
#[inline(never)]
pub fn joined(left: &[u64], right: &[u64]) -> u64 {
    let mut seen = vec![0u64; left.len()];
    for set in [left, right] {
        for (word, more) in seen.iter_mut().zip(set) {
            *word |= more;
        }
    }
    count(&seen)
}

fn count(words: &[u64]) -> u64 {
    words.iter().map(|word| u64::from(word.count_ones())).sum()
}

/// Returns the set of some numbers as bits.
pub fn set_of(values: &[i32], range: usize) -> Vec<u64> {
    let mut seen = vec![0u64; range.div_ceil(64)];
    for value in values {
        seen[*value as usize / 64] |= 1 << (value % 64);
    }
    seen
}

/// Returns how many of false, true and null a column of bits has.
#[inline(never)]
pub fn distinct_truths(values: Window) -> u64 {
    let (mut ones, mut zeros) = (0u64, 0u64);
    for i in 0..values.len {
        let at = values.at + i;
        let bit = (values.words[at / 64] >> (at % 64)) & 1;
        ones |= bit;
        zeros |= 1 - bit;
    }
    ones + zeros
}
