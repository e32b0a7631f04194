//! The strings that the kernels are run on, between offsets and by views.

use crate::operands::Numbers;

/// Strings one after the other.
pub struct Texts {
    /// The offset at which each string begins, and last the end of the last one.
    pub offsets: Vec<i32>,
    pub bytes: Vec<u8>,
}

impl Texts {
    pub fn new() -> Texts {
        Texts {
            offsets: vec![0],
            bytes: Vec::new(),
        }
    }

    pub fn push(&mut self, row: &[u8]) {
        self.bytes.extend_from_slice(row);
        self.offsets.push(self.bytes.len() as i32);
    }

    pub fn count(&self) -> usize {
        self.offsets.len() - 1
    }

    #[inline]
    pub fn row(&self, i: usize) -> &[u8] {
        &self.bytes[self.offsets[i] as usize..self.offsets[i + 1] as usize]
    }

    /// Returns the string in the middle, or the empty one if there is none.
    pub fn middle(&self) -> &[u8] {
        let middle = self.count() / 2;
        if middle < self.count() {
            self.row(middle)
        } else {
            &[]
        }
    }
}

/// The most bytes of a string that its view holds.
const INLINED: usize = 12;

/// Strings by views. A view begins with the length, and then has the bytes of a short string, or of
/// a longer one the first four, the number of its buffer and where it begins there.
pub struct Views {
    pub views: Vec<u128>,
    pub buffers: Vec<Vec<u8>>,
    /// The string in the middle.
    pub middle: Vec<u8>,
}

impl Views {
    fn new(texts: &Texts) -> Views {
        let mut buffer = Vec::new();
        let views = (0..texts.count())
            .map(|i| view_of(texts.row(i), &mut buffer))
            .collect();
        Views {
            views,
            buffers: vec![buffer],
            middle: texts.middle().to_vec(),
        }
    }
}

/// Returns the view of a string. A long string is put into the only buffer.
fn view_of(row: &[u8], buffer: &mut Vec<u8>) -> u128 {
    let mut bytes = [0; 16];
    bytes[..4].copy_from_slice(&(row.len() as u32).to_le_bytes());
    if row.len() <= INLINED {
        bytes[4..4 + row.len()].copy_from_slice(row);
    } else {
        bytes[4..8].copy_from_slice(&row[..4]);
        bytes[12..].copy_from_slice(&(buffer.len() as u32).to_le_bytes());
        buffer.extend_from_slice(row);
    }
    u128::from_le_bytes(bytes)
}

/// Two columns of one length.
pub struct Pair<T> {
    pub left: T,
    pub right: T,
}

/// Strings of `least` to `most` letters after a prefix.
struct Shape {
    prefix: &'static [u8],
    least: u64,
    most: u64,
}

impl Shape {
    /// Returns a string whose letters look random.
    fn row(&self, numbers: &mut Numbers) -> Vec<u8> {
        let letters = self.least + numbers.next() % (self.most - self.least + 1);
        let mut row = self.prefix.to_vec();
        row.extend((0..letters).map(|_| b'a' + (numbers.next() % 26) as u8));
        row
    }

    /// Creates two columns, which have the same string in about half of the rows.
    fn pair(&self, numbers: &mut Numbers, count: usize) -> Pair<Texts> {
        let (mut left, mut right) = (Texts::new(), Texts::new());
        for _ in 0..count {
            let row = self.row(numbers);
            left.push(&row);
            if numbers.next() & 1 == 0 {
                right.push(&row);
            } else {
                right.push(&self.row(numbers));
            }
        }
        Pair { left, right }
    }

    fn views(&self, numbers: &mut Numbers, count: usize) -> Pair<Views> {
        let Pair { left, right } = self.pair(numbers, count);
        Pair {
            left: Views::new(&left),
            right: Views::new(&right),
        }
    }
}

/// Creates two columns of `count` texts of about 6 bytes.
pub fn texts(numbers: &mut Numbers, count: usize) -> Pair<Texts> {
    let shape = Shape {
        prefix: b"",
        least: 3,
        most: 9,
    };
    shape.pair(numbers, count)
}

/// Returns `count` texts of about 6 bytes.
pub fn entries(numbers: &mut Numbers, count: usize) -> Texts {
    texts(numbers, count).left
}

/// The strings of one run.
pub struct Strings {
    /// Views that hold their strings.
    pub short: Pair<Views>,
    /// Views of strings of 20 bytes whose first four are the same.
    pub long: Pair<Views>,
    /// Texts of about 6 bytes.
    pub texts: Pair<Texts>,
    /// Strings of 16 bytes.
    pub sized: Pair<Texts>,
}

impl Strings {
    pub fn new(count: usize) -> Strings {
        let numbers = &mut Numbers::new(2_463_534_242);
        let letters = |least, most| Shape {
            prefix: b"",
            least,
            most,
        };
        let long = Shape {
            prefix: b"same",
            least: 16,
            most: 16,
        };
        Strings {
            short: letters(0, INLINED as u64).views(numbers, count),
            long: long.views(numbers, count),
            texts: letters(3, 9).pair(numbers, count),
            sized: letters(16, 16).pair(numbers, count),
        }
    }
}
