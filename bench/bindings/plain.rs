//! Plain Rust: 64 results a word, null equal to null alone.

fn packed(count: usize, same: impl Fn(usize) -> bool) -> Vec<u64> {
    let word = |at: usize| {
        (0..(count - 64 * at).min(64))
            .fold(0, |word, bit| word | u64::from(same(64 * at + bit)) << bit)
    };
    (0..count.div_ceil(64)).map(word).collect()
}

pub fn numbers(left: &[i32], right: &[i32]) -> Vec<u64> {
    let right = &right[..left.len()];
    packed(left.len(), |row| left[row] == right[row])
}

pub fn present_numbers(left: &[i32], right: &[i32], early: &[u64], late: &[u64]) -> Vec<u64> {
    let mut words = numbers(left, right);
    for (word, (l, r)) in words.iter_mut().zip(early.iter().zip(late)) {
        *word = (*word & l & r) | !(l | r);
    }
    words
}

fn text<'a>(offsets: &[i32], bytes: &'a [u8], row: usize) -> &'a [u8] {
    &bytes[offsets[row] as usize..offsets[row + 1] as usize]
}

pub fn texts(offsets: &[i32], left: &[u8], right: &[u8]) -> Vec<u64> {
    packed(offsets.len() - 1, |row| {
        text(offsets, left, row) == text(offsets, right, row)
    })
}

fn number(view: &[u8; 16], at: usize) -> usize {
    u32::from_le_bytes([view[at], view[at + 1], view[at + 2], view[at + 3]]) as usize
}

fn viewed<'a>(view: &'a [u8; 16], bytes: &'a [u8]) -> &'a [u8] {
    let length = number(view, 0);
    if length <= 12 {
        &view[4..4 + length]
    } else {
        &bytes[number(view, 12)..][..length]
    }
}

pub fn views(views: [&[[u8; 16]]; 2], bytes: [&[u8]; 2]) -> Vec<u64> {
    packed(views[0].len(), |row| {
        let (left, right) = (&views[0][row], &views[1][row]);
        left[..8] == right[..8] && viewed(left, bytes[0]) == viewed(right, bytes[1])
    })
}

pub fn lists(offsets: &[i32], left: &[i32], right: &[i32]) -> Vec<u64> {
    packed(offsets.len() - 1, |row| {
        let items = offsets[row] as usize..offsets[row + 1] as usize;
        left[items.clone()] == right[items]
    })
}

pub fn structs(rows: usize, offsets: &[i32], values: [&[i32]; 2], bytes: [&[u8]; 2]) -> Vec<u64> {
    packed(rows, |row| {
        values[0][row] == values[1][row]
            && values[0][rows + row] == values[1][rows + row]
            && text(offsets, bytes[0], row) == text(offsets, bytes[1], row)
    })
}

pub fn dictionaries(offsets: &[i32], bytes: &[u8], left: &[i32], right: &[i32]) -> Vec<u64> {
    packed(left.len(), |row| {
        text(offsets, bytes, left[row] as usize) == text(offsets, bytes, right[row] as usize)
    })
}
