//! The kernels in plain Rust, 64 results a word.
//!
//! A window of bits is a slice of words, the place of its first bit, and its length in bits. Each
//! maker gives new words whose bits past the length may be anything.

/// Returns the word whose bit `i` is the `i`-th result, for at most 64 of them.
#[inline]
pub fn word_of(answers: impl Iterator<Item = bool>) -> u64 {
    answers
        .enumerate()
        .fold(0, |word, (i, answer)| word | (u64::from(answer) << i))
}

/// Returns a bit for each place at which two slices of one length pass a test.
#[inline]
pub fn compare_pairs<T: Copy>(left: &[T], right: &[T], test: impl Fn(T, T) -> bool) -> Vec<u64> {
    let (left_words, left_rest) = left.as_chunks::<64>();
    let (right_words, right_rest) = right.as_chunks::<64>();
    let mut words = Vec::with_capacity(left.len().div_ceil(64));
    words.extend(
        left_words
            .iter()
            .zip(right_words)
            .map(|(l, r)| word_of(l.iter().zip(r).map(|(a, b)| test(*a, *b)))),
    );
    if !left_rest.is_empty() {
        words.push(word_of(
            left_rest.iter().zip(right_rest).map(|(a, b)| test(*a, *b)),
        ));
    }
    words
}

/// Returns a bit for each element of a slice that passes a test.
#[inline]
pub fn test_each<T: Copy>(values: &[T], test: impl Fn(T) -> bool) -> Vec<u64> {
    let (full, rest) = values.as_chunks::<64>();
    let mut words = Vec::with_capacity(values.len().div_ceil(64));
    words.extend(
        full.iter()
            .map(|chunk| word_of(chunk.iter().map(|value| test(*value)))),
    );
    if !rest.is_empty() {
        words.push(word_of(rest.iter().map(|value| test(*value))));
    }
    words
}

#[inline(never)]
pub fn equal<T: Copy + PartialEq>(left: &[T], right: &[T]) -> Vec<u64> {
    compare_pairs(left, right, |l, r| l == r)
}

#[inline(never)]
pub fn less<T: Copy + PartialOrd>(left: &[T], right: &[T]) -> Vec<u64> {
    compare_pairs(left, right, |l, r| l < r)
}

#[inline(never)]
pub fn equal_constant<T: Copy + PartialEq>(left: &[T], right: T) -> Vec<u64> {
    test_each(left, |l| l == right)
}

#[inline(never)]
pub fn less_constant<T: Copy + PartialOrd>(left: &[T], right: T) -> Vec<u64> {
    test_each(left, |l| l < right)
}

/// Returns a bit for each row, 1 if the rows of two arrays are equal. A null is equal to a null
/// alone. The windows are those of the validities.
pub fn equal_missing<T: Copy + PartialEq>(
    left: &[T],
    right: &[T],
    left_validity: Window,
    right_validity: Window,
) -> Vec<u64> {
    let words = &equal(left, right);
    let len = left.len();
    let raw = Window { words, at: 0, len };
    merge_eq(raw, left_validity, right_validity)
}

/// Returns the byte whose bits are eight truth values. The product has each of them once in its
/// highest byte.
#[inline]
fn byte_of(bools: &[bool; 8]) -> u8 {
    let bytes = u64::from_le_bytes(bools.map(u8::from));
    (bytes.wrapping_mul(0x0102_0408_1020_4080) >> 56) as u8
}

#[inline(never)]
pub fn from_bools(values: &[bool]) -> Vec<u64> {
    let (full, rest) = values.as_chunks::<64>();
    let mut words = Vec::with_capacity(values.len().div_ceil(64));
    words.extend(full.iter().map(|chunk| {
        let mut bytes = [0; 8];
        for (byte, eight) in bytes.iter_mut().zip(chunk.as_chunks::<8>().0) {
            *byte = byte_of(eight);
        }
        u64::from_le_bytes(bytes)
    }));
    if !rest.is_empty() {
        words.push(word_of(rest.iter().copied()));
    }
    words
}

/// A window of bits.
#[derive(Clone, Copy)]
pub struct Window<'a> {
    pub words: &'a [u64],
    pub at: usize,
    pub len: usize,
}

impl<'a> Window<'a> {
    /// Returns the words in which the bits lie, with the word after them if there is one, and the
    /// number of bits before the first bit of the window.
    #[inline]
    fn parts(&self) -> (&'a [u64], u32) {
        let words = &self.words[self.at / 64..];
        let count = words.len().min(self.len.div_ceil(64) + 1);
        (&words[..count], (self.at % 64) as u32)
    }

    /// Returns the words of a window that begins where a word does.
    #[inline]
    fn aligned(&self) -> &'a [u64] {
        &self.words[self.at / 64..self.at / 64 + self.len.div_ceil(64)]
    }
}

/// Returns the 64 bits from bit `by` of `low` on. `high` is the word after it.
#[inline(always)]
fn join(low: u64, high: u64, by: u32) -> u64 {
    (low >> by) | ((high << 1) << (63 - by))
}

/// Returns how many of the first `count` words have a word after them.
#[inline]
fn whole_of(words: &[u64], count: usize) -> usize {
    words.len().saturating_sub(1).min(count)
}

/// Returns the first words, and the words after each of them, as two slices of one length.
#[inline]
fn neighbours(words: &[u64], whole: usize) -> (&[u64], &[u64]) {
    (&words[..whole], &words[words.len().min(1)..][..whole])
}

/// Returns the 64 bits from bit `by` of word `k` on, with zeros past the last word.
#[inline]
fn outer_word(words: &[u64], k: usize, by: u32) -> u64 {
    let word = |k: usize| words.get(k).copied().unwrap_or(0);
    join(word(k), word(k + 1), by)
}

/// Applies an operator to the words of two windows of one length, at any places.
#[inline]
fn shifted2(left: Window, right: Window, op: impl Fn(u64, u64) -> u64 + Copy) -> Vec<u64> {
    let ((l, l_by), (r, r_by)) = (left.parts(), right.parts());
    let count = left.len.div_ceil(64);
    let whole = whole_of(l, count).min(whole_of(r, count));
    let ((l_low, l_high), (r_low, r_high)) = (neighbours(l, whole), neighbours(r, whole));
    let mut words = Vec::with_capacity(count);
    words.extend((0..whole).map(move |k| {
        op(
            join(l_low[k], l_high[k], l_by),
            join(r_low[k], r_high[k], r_by),
        )
    }));
    words.extend((whole..count).map(|k| op(outer_word(l, k, l_by), outer_word(r, k, r_by))));
    words
}

/// Applies an operator to the words of three windows of one length, at any places.
#[inline]
fn shifted3(
    told: Window,
    left: Window,
    right: Window,
    op: impl Fn(u64, u64, u64) -> u64 + Copy,
) -> Vec<u64> {
    let ((q, q_by), (l, l_by), (r, r_by)) = (told.parts(), left.parts(), right.parts());
    let count = told.len.div_ceil(64);
    let whole = [q, l, r]
        .iter()
        .fold(count, |least, words| whole_of(words, least));
    let ((q_low, q_high), (l_low, l_high)) = (neighbours(q, whole), neighbours(l, whole));
    let (r_low, r_high) = neighbours(r, whole);
    let mut words = Vec::with_capacity(count);
    words.extend((0..whole).map(move |k| {
        op(
            join(q_low[k], q_high[k], q_by),
            join(l_low[k], l_high[k], l_by),
            join(r_low[k], r_high[k], r_by),
        )
    }));
    words.extend((whole..count).map(|k| {
        op(
            outer_word(q, k, q_by),
            outer_word(l, k, l_by),
            outer_word(r, k, r_by),
        )
    }));
    words
}

/// Applies an operator to the words of two windows that begin where a word does.
#[inline]
fn aligned2(left: Window, right: Window, op: impl Fn(u64, u64) -> u64 + Copy) -> Vec<u64> {
    left.aligned()
        .iter()
        .zip(right.aligned())
        .map(|(l, r)| op(*l, *r))
        .collect()
}

/// Applies an operator to the words of three windows that begin where a word does.
#[inline]
fn aligned3(
    told: Window,
    left: Window,
    right: Window,
    op: impl Fn(u64, u64, u64) -> u64 + Copy,
) -> Vec<u64> {
    told.aligned()
        .iter()
        .zip(left.aligned())
        .zip(right.aligned())
        .map(|((q, l), r)| op(*q, *l, *r))
        .collect()
}

#[inline(never)]
pub fn and(left: Window, right: Window) -> Vec<u64> {
    shifted2(left, right, |l, r| l & r)
}

#[inline(never)]
pub fn or(left: Window, right: Window) -> Vec<u64> {
    shifted2(left, right, |l, r| l | r)
}

#[inline(never)]
pub fn xor(left: Window, right: Window) -> Vec<u64> {
    shifted2(left, right, |l, r| l ^ r)
}

#[inline(never)]
pub fn xnor(left: Window, right: Window) -> Vec<u64> {
    shifted2(left, right, |l, r| !(l ^ r))
}

/// Returns the bits that are 0 on the left and 1 on the right.
#[inline(never)]
pub fn not_and(left: Window, right: Window) -> Vec<u64> {
    shifted2(left, right, |l, r| !l & r)
}

#[inline(never)]
pub fn not(bits: Window) -> Vec<u64> {
    let (words, by) = bits.parts();
    let count = bits.len.div_ceil(64);
    let whole = whole_of(words, count);
    let (low, high) = neighbours(words, whole);
    let mut made = Vec::with_capacity(count);
    made.extend((0..whole).map(move |k| !join(low[k], high[k], by)));
    made.extend((whole..count).map(|k| !outer_word(words, k, by)));
    made
}

#[inline(never)]
pub fn merge_eq(told: Window, left: Window, right: Window) -> Vec<u64> {
    shifted3(told, left, right, |q, l, r| (q & l & r) | !(l | r))
}

#[inline(never)]
pub fn merge_ne(told: Window, left: Window, right: Window) -> Vec<u64> {
    shifted3(told, left, right, |q, l, r| (q & l & r) | (l ^ r))
}

#[inline(never)]
pub fn and_aligned(left: Window, right: Window) -> Vec<u64> {
    aligned2(left, right, |l, r| l & r)
}

#[inline(never)]
pub fn or_aligned(left: Window, right: Window) -> Vec<u64> {
    aligned2(left, right, |l, r| l | r)
}

#[inline(never)]
pub fn xor_aligned(left: Window, right: Window) -> Vec<u64> {
    aligned2(left, right, |l, r| l ^ r)
}

#[inline(never)]
pub fn xnor_aligned(left: Window, right: Window) -> Vec<u64> {
    aligned2(left, right, |l, r| !(l ^ r))
}

#[inline(never)]
pub fn not_and_aligned(left: Window, right: Window) -> Vec<u64> {
    aligned2(left, right, |l, r| !l & r)
}

#[inline(never)]
pub fn not_aligned(bits: Window) -> Vec<u64> {
    bits.aligned().iter().map(|word| !word).collect()
}

#[inline(never)]
pub fn merge_eq_aligned(told: Window, left: Window, right: Window) -> Vec<u64> {
    aligned3(told, left, right, |q, l, r| (q & l & r) | !(l | r))
}

#[inline(never)]
pub fn merge_ne_aligned(told: Window, left: Window, right: Window) -> Vec<u64> {
    aligned3(told, left, right, |q, l, r| (q & l & r) | (l ^ r))
}

/// Counts the ones of a window that begins at a word.
#[inline(never)]
pub fn set_bits_aligned(bits: Window) -> usize {
    let words = bits.aligned();
    let whole: u32 = words[..bits.len / 64]
        .iter()
        .map(|word| word.count_ones())
        .sum();
    let rest = bits.len % 64;
    let last = if rest > 0 {
        (words[bits.len / 64] & ((1 << rest) - 1)).count_ones()
    } else {
        0
    };
    (whole + last) as usize
}

/// Counts the bits that are 1 in both of two windows that begin where a word does.
#[inline(never)]
pub fn num_intersections_with_aligned(left: Window, right: Window) -> usize {
    let (l, r) = (left.aligned(), right.aligned());
    let full = left.len / 64;
    let whole: u32 = l[..full]
        .iter()
        .zip(&r[..full])
        .map(|(a, b)| (a & b).count_ones())
        .sum();
    let rest = left.len % 64;
    let last = if rest > 0 {
        (l[full] & r[full] & ((1 << rest) - 1)).count_ones()
    } else {
        0
    };
    (whole + last) as usize
}

/// Counts the ones of the `len` bits whose words from the first on are asked of `inner`, as far as
/// `whole`, and from there of `outer`.
#[inline]
fn count_of(
    len: usize,
    whole: usize,
    inner: impl Fn(usize) -> u64,
    outer: impl Fn(usize) -> u64,
) -> usize {
    let full = len / 64;
    let counted: u32 = (0..whole).map(|k| inner(k).count_ones()).sum();
    let rest: u32 = (whole..full).map(|k| outer(k).count_ones()).sum();
    let last = outer(full) & ((1 << (len % 64)) - 1);
    (counted + rest + last.count_ones()) as usize
}

/// Returns whether all bits are true, if there is one.
#[inline(never)]
pub fn all_true(bits: Window) -> Option<bool> {
    (bits.len > 0).then(|| set_bits(bits) == bits.len)
}

/// Returns whether an odd number of bits is true, if there is one.
#[inline(never)]
pub fn odd_trues(bits: Window) -> Option<bool> {
    (bits.len > 0).then(|| set_bits(bits) % 2 == 1)
}

/// Counts the ones of a window.
#[inline(never)]
pub fn set_bits(bits: Window) -> usize {
    let (words, by) = bits.parts();
    let whole = whole_of(words, bits.len / 64);
    let (low, high) = neighbours(words, whole);
    count_of(
        bits.len,
        whole,
        move |k| join(low[k], high[k], by),
        |k| outer_word(words, k, by),
    )
}

/// Counts the bits that are 1 in both of two windows.
#[inline(never)]
pub fn num_intersections_with(left: Window, right: Window) -> usize {
    let ((l, l_by), (r, r_by)) = (left.parts(), right.parts());
    let full = left.len / 64;
    let whole = whole_of(l, full).min(whole_of(r, full));
    let ((l_low, l_high), (r_low, r_high)) = (neighbours(l, whole), neighbours(r, whole));
    count_of(
        left.len,
        whole,
        move |k| join(l_low[k], l_high[k], l_by) & join(r_low[k], r_high[k], r_by),
        |k| outer_word(l, k, l_by) & outer_word(r, k, r_by),
    )
}
