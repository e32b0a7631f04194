//! The kernels on arrays that hold arrays in plain Rust, 64 results a word.

use crate::nested_rows::{COLUMNS, Keyed, Lists, Mixed, WIDTH};
use crate::plain::{compare_pairs, equal};
use crate::plain_strings::{equal_texts, test_rows};
use crate::string_rows::Texts;

/// Compares lists without nulls, whose numbers of items are the same on both sides. Compares all
/// items at once, and folds the results of each list.
#[inline(never)]
pub fn equal_lists_at_once(left: &Lists, right: &Lists) -> Vec<u64> {
    let items = left.items.iter().zip(&right.items).map(|(l, r)| l == r);
    let items: &[bool] = &items.collect::<Vec<bool>>();
    let (l, r) = (&left.offsets[..], &right.offsets[..]);
    test_rows(left.count(), move |i| {
        let (from, to) = (l[i] as usize, l[i + 1] as usize);
        to - from == (r[i + 1] - r[i]) as usize
            && items[from..to].iter().fold(true, |all, b| all & b)
    })
}

/// Offsets, items and a validity.
type Parts<'a> = (&'a [i32], &'a [i32], &'a [u64]);

#[inline]
fn parts(lists: &Lists) -> Parts<'_> {
    (&lists.offsets, &lists.items, &lists.present)
}

#[inline]
fn is_present(words: &[u64], i: usize) -> bool {
    words.is_empty() || (words[i / 64] >> (i % 64)) & 1 == 1
}

/// Returns the items between neighbouring offsets.
#[inline]
fn list_row<'a>((offsets, items, _): Parts<'a>, i: usize) -> &'a [i32] {
    &items[offsets[i] as usize..offsets[i + 1] as usize]
}

/// Returns whether two short lists have the same items. It takes less time than the comparison of
/// the slices, which calls `memcmp`.
#[inline]
fn same_items(left: &[i32], right: &[i32]) -> bool {
    let pairs = left.iter().zip(right);
    left.len() == right.len() && pairs.fold(true, |all, (l, r)| all & (l == r))
}

/// Compares any lists, row by row.
#[inline(never)]
pub fn equal_lists(left: &Lists, right: &Lists) -> Vec<u64> {
    let (l, r) = (parts(left), parts(right));
    test_rows(left.count(), move |i| {
        match (is_present(l.2, i), is_present(r.2, i)) {
            (true, true) => same_items(list_row(l, i), list_row(r, i)),
            (l, r) => l == r,
        }
    })
}

/// Compares lists of `WIDTH` items.
#[inline(never)]
pub fn equal_fixed_lists(left: &[i32], right: &[i32]) -> Vec<u64> {
    let (left, _) = left.as_chunks::<WIDTH>();
    let (right, _) = right.as_chunks::<WIDTH>();
    compare_pairs(left, right, |l, r| l == r)
}

/// Compares structs of columns that stand one after the other.
#[inline(never)]
pub fn equal_structs(left: &[i32], right: &[i32]) -> Vec<u64> {
    let count = left.len() / COLUMNS;
    let mut told = vec![u64::MAX; count.div_ceil(64)];
    for (l, r) in left
        .chunks_exact(count.max(1))
        .zip(right.chunks_exact(count.max(1)))
    {
        for (word, column) in told.iter_mut().zip(equal(l, r)) {
            *word &= column;
        }
    }
    told
}

/// Compares lists of `WIDTH` texts, text by text.
#[inline(never)]
pub fn equal_text_lists(left: &Texts, right: &Texts) -> Vec<u64> {
    test_rows(left.count() / WIDTH, move |i| {
        let mut texts = WIDTH * i..WIDTH * i + WIDTH;
        texts.all(|k| left.row(k) == right.row(k))
    })
}

/// Compares structs of numbers and a text, column by column.
#[inline(never)]
pub fn equal_mixed(mixed: &Mixed) -> Vec<u64> {
    let (numbers, texts) = (&mixed.numbers, &mixed.texts);
    let mut told = equal_texts(&texts.left, &texts.right);
    let count = texts.left.count().max(1);
    let columns = numbers.left.chunks_exact(count);
    for (l, r) in columns.zip(numbers.right.chunks_exact(count)) {
        for (word, column) in told.iter_mut().zip(equal(l, r)) {
            *word &= column;
        }
    }
    told
}

/// Returns the text that a key names.
#[inline]
fn entry(texts: &Texts, key: u32) -> &[u8] {
    texts.row(key as usize)
}

/// Compares rows that keys name among texts. Both texts are looked up.
#[inline(never)]
pub fn equal_dictionaries(left: &Keyed, right: &Keyed) -> Vec<u64> {
    let (l, r) = (&left.entries, &right.entries);
    compare_pairs(&left.keys, &right.keys, move |a, b| {
        entry(l, a) == entry(r, b)
    })
}

/// Returns the text that a key names, if it is not null.
#[inline]
fn present_entry(keyed: &Keyed, key: u32) -> Option<&[u8]> {
    keyed.has_entry(key).then(|| entry(&keyed.entries, key))
}

/// Compares columns in which some texts are null. A null is equal to a null alone.
#[inline(never)]
pub fn equal_dictionaries_with_nulls(left: &Keyed, right: &Keyed) -> Vec<u64> {
    compare_pairs(&left.keys, &right.keys, move |a, b| {
        present_entry(left, a) == present_entry(right, b)
    })
}
