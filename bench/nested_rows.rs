//! The arrays that hold arrays that the kernels are run on.

use crate::operands::Numbers;
use crate::string_rows::{Pair, Texts, entries, texts};

/// The number of items of a list.
pub const WIDTH: usize = 4;

/// The number of columns of a struct.
pub const COLUMNS: usize = 8;

/// The number of entries of a dictionary.
const ENTRIES: usize = 1_000;

/// The way in which every seventh list is special.
#[derive(Clone, Copy)]
pub enum Seventh {
    /// Nothing.
    Like,
    /// It is null on both sides, and has no items.
    NullWithoutItems,
    /// It is null on both sides, and has items.
    NullWithItems,
    /// It has one more item on the right.
    Longer,
}

/// Lists of numbers between offsets.
pub struct Lists {
    /// The offset at which each list begins, and last the end of the last list.
    pub offsets: Vec<i32>,
    pub items: Vec<i32>,
    /// Words of the validity, or none where no list is null.
    pub present: Vec<u64>,
}

impl Lists {
    fn new() -> Lists {
        Lists {
            offsets: vec![0],
            items: Vec::new(),
            present: Vec::new(),
        }
    }

    fn push(&mut self, row: &[i32]) {
        self.items.extend_from_slice(row);
        self.offsets.push(self.items.len() as i32);
    }

    /// Makes every seventh list null.
    fn mask(&mut self) {
        let count = self.count();
        self.present = vec![u64::MAX; count.div_ceil(64)];
        for i in (6..count).step_by(7) {
            self.present[i / 64] &= !(1 << (i % 64));
        }
    }

    pub fn count(&self) -> usize {
        self.offsets.len() - 1
    }

    /// Creates two columns of `count` lists. About three quarters are equal.
    fn pair(numbers: &mut Numbers, count: usize, seventh: Seventh) -> Pair<Lists> {
        let (mut left, mut right) = (Lists::new(), Lists::new());
        for i in 0..count {
            let row: [i32; WIDTH] = std::array::from_fn(|_| numbers.next() as i32);
            let mut other = row;
            other[i % WIDTH] ^= i32::from(numbers.next() & 3 == 0);
            match seventh {
                Seventh::NullWithoutItems if i % 7 == 6 => {
                    left.push(&[]);
                    right.push(&[]);
                }
                Seventh::Longer if i % 7 == 6 => {
                    left.push(&row);
                    right.push(&[0, 1, 2, 3, 4]);
                }
                _ => {
                    left.push(&row);
                    right.push(&other);
                }
            }
        }
        if matches!(seventh, Seventh::NullWithoutItems | Seventh::NullWithItems) {
            left.mask();
            right.mask();
        }
        Pair { left, right }
    }
}

/// Rows that keys name among texts.
pub struct Keyed {
    pub keys: Vec<u32>,
    /// The keys as they cross to the library.
    pub crossing: Vec<i32>,
    pub entries: Texts,
    /// Words of the validity of the entries, or none where no entry is null.
    pub present: Vec<u64>,
}

impl Keyed {
    fn new(keys: Vec<u32>, entries: Texts) -> Keyed {
        Keyed {
            crossing: keys.iter().map(|key| *key as i32).collect(),
            keys,
            entries,
            present: Vec::new(),
        }
    }

    /// Makes each entry null whose index passes the test.
    fn mask(mut self, is_null: impl Fn(usize) -> bool) -> Keyed {
        self.present = vec![u64::MAX; ENTRIES.div_ceil(64)];
        for k in (0..ENTRIES).filter(|k| is_null(*k)) {
            self.present[k / 64] &= !(1 << (k % 64));
        }
        self
    }

    /// Returns whether the entry of a key is present.
    #[inline]
    pub fn has_entry(&self, key: u32) -> bool {
        self.present[key as usize / 64] >> (key % 64) & 1 == 1
    }

    /// Creates two columns in which every seventh text is null.
    fn masked_pair(numbers: &mut Numbers, count: usize) -> Pair<Keyed> {
        let Pair { left, right } = Keyed::pair(numbers, count);
        Pair {
            left: left.mask(|k| k % 7 == 6),
            right: right.mask(|k| (ENTRIES - 1 - k) % 7 == 6),
        }
    }

    /// Creates two columns of `count` rows. About half of them have the same text, at other places
    /// among the entries.
    fn pair(numbers: &mut Numbers, count: usize) -> Pair<Keyed> {
        let texts = entries(numbers, ENTRIES);
        let mut turned = Texts::new();
        (0..ENTRIES).rev().for_each(|k| turned.push(texts.row(k)));
        let (mut left, mut right) = (Vec::new(), Vec::new());
        for _ in 0..count {
            let key = numbers.next() as usize % ENTRIES;
            let other = match numbers.next() & 1 {
                0 => key,
                _ => numbers.next() as usize % ENTRIES,
            };
            left.push(key as u32);
            right.push((ENTRIES - 1 - other) as u32);
        }
        Pair {
            left: Keyed::new(left, texts),
            right: Keyed::new(right, turned),
        }
    }
}

/// Creates columns of `count` rows each, one after the other. About one row in sixteen differs.
pub fn structs(count: usize) -> Pair<Vec<i32>> {
    let numbers = &mut Numbers::new(521_288_629);
    let left: Vec<i32> = (0..COLUMNS * count)
        .map(|_| numbers.next() as i32)
        .collect();
    let right = left
        .iter()
        .map(|x| x ^ i32::from(numbers.next() & 127 == 0))
        .collect();
    Pair { left, right }
}

/// The number of columns of numbers of a struct, beside one of texts.
pub const NUMBER_COLUMNS: usize = 2;

/// Structs of numbers and of a text. About half are equal.
pub struct Mixed {
    /// Columns one after the other.
    pub numbers: Pair<Vec<i32>>,
    pub texts: Pair<Texts>,
}

impl Mixed {
    fn new(numbers: &mut Numbers, count: usize) -> Mixed {
        let left: Vec<i32> = (0..NUMBER_COLUMNS * count)
            .map(|_| numbers.next() as i32)
            .collect();
        let right = left
            .iter()
            .map(|x| x ^ i32::from(numbers.next() & 127 == 0))
            .collect();
        Mixed {
            numbers: Pair { left, right },
            texts: texts(numbers, count),
        }
    }
}

/// Returns the offsets at which lists of `WIDTH` items begin, and last the end of the last list.
pub fn regular_offsets(items: usize) -> Vec<i32> {
    (0..=items / WIDTH).map(|i| (WIDTH * i) as i32).collect()
}

/// The arrays of one run. The lists have one item for each row of the other arrays.
pub struct Nested {
    pub like: Pair<Lists>,
    pub null_without_items: Pair<Lists>,
    pub null_with_items: Pair<Lists>,
    pub longer: Pair<Lists>,
    pub keyed: Pair<Keyed>,
    pub keyed_with_nulls: Pair<Keyed>,
    /// The items of lists of texts.
    pub texts: Pair<Texts>,
    pub mixed: Mixed,
}

impl Nested {
    pub fn new(count: usize) -> Nested {
        let numbers = &mut Numbers::new(362_436_069);
        let mut lists = |seventh| Lists::pair(numbers, count / WIDTH, seventh);
        Nested {
            like: lists(Seventh::Like),
            null_without_items: lists(Seventh::NullWithoutItems),
            null_with_items: lists(Seventh::NullWithItems),
            longer: lists(Seventh::Longer),
            keyed: Keyed::pair(numbers, count),
            keyed_with_nulls: Keyed::masked_pair(numbers, count),
            texts: texts(numbers, count / WIDTH * WIDTH),
            mixed: Mixed::new(numbers, count),
        }
    }
}
