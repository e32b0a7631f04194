//! Times `dunkelva_equal` of the library for C, beside the kernel alone on arrays that are made
//! (what the crossing costs), and beside plain Rust. Prints nanoseconds a row, the best of many.
//! Arguments: numbers of rows (16384, 1048576 and 8388608, if none is given).

mod columns;
mod kernels;
mod plain;

use columns::{Column, equal};
use std::hint::black_box;
use std::time::{Duration, Instant};

/// Numbers that look random, the same in each run.
pub struct Numbers(u64);

impl Numbers {
    fn next(&mut self) -> u64 {
        self.0 ^= self.0 << 13;
        self.0 ^= self.0 >> 7;
        self.0 ^= self.0 << 17;
        self.0 >> 11
    }

    fn below(&mut self, count: u64) -> u64 {
        self.next() % count
    }
}

/// A pair of columns, and the ways to compare them.
struct Case<'a> {
    name: &'a str,
    rows: usize,
    left: &'a Column,
    right: &'a Column,
    alone: &'a dyn Fn(usize) -> u64,
    plain: &'a dyn Fn() -> Vec<u64>,
}

/// The time that each way is run for.
const TIME: Duration = Duration::from_millis(600);

/// Returns the least nanoseconds a row of several runs.
fn best(rows: usize, mut run: impl FnMut()) -> f64 {
    let end = Instant::now() + TIME;
    let mut least = f64::MAX;
    let mut runs = 0;
    while runs < 3 || Instant::now() < end {
        let start = Instant::now();
        run();
        least = least.min(start.elapsed().as_nanos() as f64);
        runs += 1;
    }
    least / rows as f64
}

/// Returns the nanoseconds a row of a kernel that is run on arrays that are made once.
fn best_alone(rows: usize, run: &dyn Fn(usize) -> u64) -> f64 {
    let repeats = (1 << 22) / rows + 2;
    let time = |repeats| {
        best(rows, || {
            black_box(run(repeats));
        })
    };
    (time(repeats) - time(0)) / repeats as f64
}

impl Case<'_> {
    /// Compares the results of both sides, and prints the times.
    fn time(&self) {
        let (name, rows) = (self.name, self.rows);
        let mut bits = vec![0u8; rows.div_ceil(8)];
        if !equal(self.left, self.right, &mut bits) {
            println!("{name:16} {rows:>8} rows: not served");
            return;
        }
        let wanted: Vec<u8> = (self.plain)()
            .iter()
            .flat_map(|word| word.to_le_bytes())
            .collect();
        assert_eq!(bits, wanted[..bits.len()], "{name}");
        let ours = best(rows, || assert!(equal(self.left, self.right, &mut bits)));
        let alone = best_alone(rows, self.alone);
        let plain = best(rows, || drop(black_box((self.plain)())));
        println!(
            "{name:16} {rows:>8} rows: {ours:6.2} from C, {alone:6.2} alone, {plain:6.2} plain Rust"
        );
    }
}

/// Texts between offsets, of 3 to 9 bytes. An eighth of them differ on the right.
struct Texts {
    offsets: Vec<i32>,
    left: Vec<u8>,
    right: Vec<u8>,
}

fn texts(numbers: &mut Numbers, rows: usize) -> Texts {
    let mut offsets = vec![0];
    for row in 0..rows {
        offsets.push(offsets[row] + 3 + numbers.below(7) as i32);
    }
    let bytes = offsets[rows] as usize;
    let left: Vec<u8> = (0..bytes).map(|_| b'a' + numbers.below(3) as u8).collect();
    let mut right = left.clone();
    for _ in 0..rows / 8 {
        right[numbers.below(bytes as u64) as usize] = b'z';
    }
    Texts {
        offsets,
        left,
        right,
    }
}

fn time_numbers(numbers: &mut Numbers, rows: usize) {
    let left: Vec<i32> = (0..rows).map(|_| numbers.below(2) as i32).collect();
    let right: Vec<i32> = (0..rows).map(|_| numbers.below(2) as i32).collect();
    // the right validity of the kernel alone begins a word later
    let present: Vec<u64> = (0..rows / 64 + 2)
        .map(|_| numbers.next() | numbers.next() << 40)
        .collect();
    let (early, late) = (&present[..], &present[1..]);
    Case {
        name: "i32",
        rows,
        left: &Column::flat("i", rows, None, &left),
        right: &Column::flat("i", rows, None, &right),
        alone: &|repeats| kernels::numbers(&left, &right, None, repeats),
        plain: &|| plain::numbers(&left, &right),
    }
    .time();
    Case {
        name: "i32 with nulls",
        rows,
        left: &Column::flat("i", rows, Some(early), &left),
        right: &Column::flat("i", rows, Some(late), &right),
        alone: &|repeats| kernels::numbers(&left, &right, Some(&present), repeats),
        plain: &|| plain::present_numbers(&left, &right, early, late),
    }
    .time();
}

fn time_texts(numbers: &mut Numbers, rows: usize) {
    let texts = texts(numbers, rows);
    let Texts {
        offsets,
        left,
        right,
    } = &texts;
    Case {
        name: "utf8",
        rows,
        left: &Column::texts(offsets, left),
        right: &Column::texts(offsets, right),
        alone: &|repeats| kernels::texts(offsets, left, right, repeats),
        plain: &|| plain::texts(offsets, left, right),
    }
    .time();
}

/// Returns views of 20 bytes, all with one prefix, into their bytes one after another.
fn views(bytes: &[u8]) -> Vec<[u8; 16]> {
    let view = |(row, text): (usize, &[u8])| {
        let mut view = [0; 16];
        view[0] = 20;
        view[4..8].copy_from_slice(&text[..4]);
        view[12..].copy_from_slice(&(20 * row as u32).to_le_bytes());
        view
    };
    bytes.chunks(20).enumerate().map(view).collect()
}

fn time_views(numbers: &mut Numbers, rows: usize) {
    let mut left = vec![b'a'; 20 * rows];
    for text in left.chunks_mut(20) {
        text[4..].fill_with(|| b'a' + numbers.below(3) as u8);
    }
    let mut right = left.clone();
    for row in (0..rows).step_by(8) {
        right[20 * row + 19] = b'z';
    }
    let (left_views, right_views) = (&views(&left), &views(&right));
    Case {
        name: "utf8 views",
        rows,
        left: &Column::views(left_views, &left),
        right: &Column::views(right_views, &right),
        alone: &|repeats| kernels::views([left_views, right_views], [&left, &right], repeats),
        plain: &|| plain::views([left_views, right_views], [&left, &right]),
    }
    .time();
}

fn time_lists(numbers: &mut Numbers, rows: usize) {
    let mut offsets = vec![0];
    for row in 0..rows {
        offsets.push(offsets[row] + numbers.below(9) as i32);
    }
    let items = offsets[rows] as usize;
    let left: Vec<i32> = (0..items).map(|_| numbers.below(2) as i32).collect();
    let mut right = left.clone();
    for _ in 0..rows / 8 {
        right[numbers.below(items as u64) as usize] += 5;
    }
    Case {
        name: "list<i32>",
        rows,
        left: &Column::lists(&offsets, Column::flat("i", items, None, &left)),
        right: &Column::lists(&offsets, Column::flat("i", items, None, &right)),
        alone: &|repeats| kernels::lists(&offsets, &left, &right, repeats),
        plain: &|| plain::lists(&offsets, &left, &right),
    }
    .time();
}

fn time_structs(numbers: &mut Numbers, rows: usize) {
    let texts = texts(numbers, rows);
    let Texts {
        offsets,
        left,
        right,
    } = &texts;
    let values: Vec<i32> = (0..2 * rows).map(|_| numbers.below(2) as i32).collect();
    let mut others = values.clone();
    for _ in 0..rows / 8 {
        others[numbers.below(2 * rows as u64) as usize] += 5;
    }
    let column = |values: &[i32], bytes: &[u8]| {
        let (first, second) = values.split_at(rows);
        let fields = vec![
            ("first", Column::flat("i", rows, None, first)),
            ("second", Column::flat("i", rows, None, second)),
            ("text", Column::texts(offsets, bytes)),
        ];
        Column::structs(rows, fields)
    };
    Case {
        name: "struct",
        rows,
        left: &column(&values, left),
        right: &column(&others, right),
        alone: &|repeats| {
            kernels::structs(rows, offsets, [&values, &others], [left, right], repeats)
        },
        plain: &|| plain::structs(rows, offsets, [&values, &others], [left, right]),
    }
    .time();
}

fn time_dictionaries(numbers: &mut Numbers, rows: usize) {
    let texts = texts(numbers, 1000);
    let Texts { offsets, left, .. } = &texts;
    let keys: Vec<i32> = (0..rows).map(|_| numbers.below(1000) as i32).collect();
    let mut others = keys.clone();
    for _ in 0..rows / 8 {
        others[numbers.below(rows as u64) as usize] = numbers.below(1000) as i32;
    }
    Case {
        name: "dictionary",
        rows,
        left: &Column::dictionary(&keys, Column::texts(offsets, left)),
        right: &Column::dictionary(&others, Column::texts(offsets, left)),
        alone: &|repeats| kernels::dictionaries(offsets, left, [&keys, &others], repeats),
        plain: &|| plain::dictionaries(offsets, left, &keys, &others),
    }
    .time();
}

fn main() {
    let asked: Vec<usize> = std::env::args()
        .skip(1)
        .map(|rows| rows.parse().expect("a number of rows"))
        .collect();
    let sizes = if asked.is_empty() {
        vec![1 << 14, 1 << 20, 1 << 23]
    } else {
        asked
    };
    for rows in sizes {
        let numbers = &mut Numbers(88_172_645_463_325_252);
        time_numbers(numbers, rows);
        time_texts(numbers, rows);
        time_views(numbers, rows);
        time_lists(numbers, rows);
        time_structs(numbers, rows);
        time_dictionaries(numbers, rows);
    }
}
