//! The kernels on strings in plain Rust, 64 results a word.

use crate::plain::{compare_pairs, test_each, word_of};
use crate::string_rows::{Texts, Views};

/// Returns the results for the rows from the first one on.
#[inline]
pub fn test_rows(count: usize, test: impl Fn(usize) -> bool + Copy) -> Vec<u64> {
    let full = count / 64;
    let mut words = Vec::with_capacity(count.div_ceil(64));
    words.extend((0..full).map(move |k| word_of((64 * k..64 * k + 64).map(test))));
    if count % 64 > 0 {
        words.push(word_of((64 * full..count).map(test)));
    }
    words
}

/// Returns the length of a view's string in bytes.
#[inline]
fn len_of(view: u128) -> usize {
    view as u32 as usize
}

/// Returns the first four bytes as a number, in which the first byte is the highest.
#[inline]
fn prefix_of(view: u128) -> u32 {
    ((view >> 32) as u32).swap_bytes()
}

/// Returns whether the string that one view holds is less than that of another.
#[inline]
fn short_less(l: u128, r: u128) -> bool {
    if prefix_of(l) != prefix_of(r) {
        return prefix_of(l) < prefix_of(r);
    }
    l.to_le_bytes()[4..4 + len_of(l)] < r.to_le_bytes()[4..4 + len_of(r)]
}

/// Returns the bytes of a view's string in its buffer.
#[inline]
fn long_row(view: u128, buffers: &[Vec<u8>]) -> &[u8] {
    let at = (view >> 96) as usize;
    &buffers[(view >> 64) as u32 as usize][at..at + len_of(view)]
}

#[inline(never)]
pub fn equal_short(left: &Views, right: &Views) -> Vec<u64> {
    compare_pairs(&left.views, &right.views, |l, r| l == r)
}

#[inline(never)]
pub fn less_short(left: &Views, right: &Views) -> Vec<u64> {
    compare_pairs(&left.views, &right.views, short_less)
}

#[inline(never)]
pub fn equal_short_constant(left: &Views, right: &[u8]) -> Vec<u64> {
    test_each(&left.views, |l| l.to_le_bytes()[4..4 + len_of(l)] == *right)
}

#[inline(never)]
pub fn less_short_constant(left: &Views, right: &[u8]) -> Vec<u64> {
    test_each(&left.views, |l| l.to_le_bytes()[4..4 + len_of(l)] < *right)
}

#[inline(never)]
pub fn equal_long(left: &Views, right: &Views) -> Vec<u64> {
    let (left_buffers, right_buffers) = (&left.buffers[..], &right.buffers[..]);
    compare_pairs(&left.views, &right.views, move |l, r| {
        long_row(l, left_buffers) == long_row(r, right_buffers)
    })
}

#[inline(never)]
pub fn less_long(left: &Views, right: &Views) -> Vec<u64> {
    let (left_buffers, right_buffers) = (&left.buffers[..], &right.buffers[..]);
    compare_pairs(&left.views, &right.views, move |l, r| {
        long_row(l, left_buffers) < long_row(r, right_buffers)
    })
}

/// The offsets and the bytes of strings.
type Parts<'a> = (&'a [i32], &'a [u8]);

#[inline]
fn parts(texts: &Texts) -> Parts<'_> {
    (&texts.offsets, &texts.bytes)
}

/// Returns the bytes between neighbouring offsets.
#[inline]
fn text_row<'a>((offsets, bytes): Parts<'a>, i: usize) -> &'a [u8] {
    &bytes[offsets[i] as usize..offsets[i + 1] as usize]
}

#[inline(never)]
pub fn equal_texts(left: &Texts, right: &Texts) -> Vec<u64> {
    let (l, r) = (parts(left), parts(right));
    test_rows(left.count(), move |i| text_row(l, i) == text_row(r, i))
}

#[inline(never)]
pub fn less_texts(left: &Texts, right: &Texts) -> Vec<u64> {
    let (l, r) = (parts(left), parts(right));
    test_rows(left.count(), move |i| text_row(l, i) < text_row(r, i))
}

/// The number of bytes of a block.
const BLOCK: usize = 16;

/// Returns string `i` as a number of sixteen bytes, the first one being the greatest, with zeros
/// after its bytes, and its length. None where it is longer, or fewer bytes lie there.
#[inline]
fn block_of((offsets, bytes): Parts<'_>, i: usize) -> Option<(u128, usize)> {
    let from = offsets[i] as usize;
    let len = offsets[i + 1] as usize - from;
    let block = bytes[from..].first_chunk::<BLOCK>()?;
    let kept = MASKS.get(len)?;
    Some((u128::from_be_bytes(*block) & kept, len))
}

/// Numbers whose first 0, 1, 2, .. bytes are ones, the first byte being the greatest.
const MASKS: [u128; BLOCK + 1] = {
    let mut masks = [0; BLOCK + 1];
    let mut n = 1;
    while n <= BLOCK {
        masks[n] = u128::MAX << (8 * (BLOCK - n));
        n += 1;
    }
    masks
};

/// Returns whether two texts are equal, as blocks where both are one.
#[inline(never)]
pub fn equal_texts_by_blocks(left: &Texts, right: &Texts) -> Vec<u64> {
    let (l, r) = (parts(left), parts(right));
    test_rows(left.count(), move |i| {
        match (block_of(l, i), block_of(r, i)) {
            (Some(x), Some(y)) => (x.0 == y.0) & (x.1 == y.1),
            _ => text_row(l, i) == text_row(r, i),
        }
    })
}

/// Returns whether one text is less than another, as blocks where both are one.
#[inline(never)]
pub fn less_texts_by_blocks(left: &Texts, right: &Texts) -> Vec<u64> {
    let (l, r) = (parts(left), parts(right));
    test_rows(left.count(), move |i| {
        match (block_of(l, i), block_of(r, i)) {
            (Some(x), Some(y)) => (x.0 < y.0) | ((x.0 == y.0) & (x.1 < y.1)),
            _ => text_row(l, i) < text_row(r, i),
        }
    })
}

#[inline(never)]
pub fn equal_texts_constant(left: &Texts, right: &[u8]) -> Vec<u64> {
    let l = parts(left);
    test_rows(left.count(), move |i| text_row(l, i) == right)
}

#[inline(never)]
pub fn less_texts_constant(left: &Texts, right: &[u8]) -> Vec<u64> {
    let l = parts(left);
    test_rows(left.count(), move |i| text_row(l, i) < right)
}

/// The number of bytes of a string of one size.
const SIZE: usize = 16;

#[inline(never)]
pub fn equal_sized(left: &[u8], right: &[u8]) -> Vec<u64> {
    let (left, _) = left.as_chunks::<SIZE>();
    let (right, _) = right.as_chunks::<SIZE>();
    compare_pairs(left, right, |l, r| l[..] == r[..])
}

/// Returns the length of the least text in bytes.
#[inline(never)]
pub fn least_text(texts: &Texts) -> Option<usize> {
    (0..texts.count())
        .map(|i| texts.row(i))
        .min()
        .map(<[u8]>::len)
}

/// Returns the length of the greatest text in bytes.
#[inline(never)]
pub fn greatest_text(texts: &Texts) -> Option<usize> {
    (0..texts.count())
        .map(|i| texts.row(i))
        .max()
        .map(<[u8]>::len)
}

/// Returns the length of the least string that lies in its view.
#[inline(never)]
pub fn least_short(strings: &Views) -> Option<usize> {
    let least = |best: u128, view: u128| if short_less(view, best) { view } else { best };
    strings.views.iter().copied().reduce(least).map(len_of)
}

/// Returns the length of the greatest string that lies in its view.
#[inline(never)]
pub fn greatest_short(strings: &Views) -> Option<usize> {
    let greatest = |best: u128, view: u128| if short_less(best, view) { view } else { best };
    strings.views.iter().copied().reduce(greatest).map(len_of)
}
