//! States of distinct values: columns appended in one array or in chunks, with and without nulls,
//! and merges.

use crate::operands::{Numbers, Rows, rows, words};
use crate::plain::Window;
use crate::plain_states::{
    Column, distinct_in_number, distinct_in_table, distinct_in_tree, distinct_in_words,
    joined, set_of,
};
use crate::timing::{Asked, Bench, Kernel, Run, Side, repeat};
use std::hint::black_box;

#[allow(improper_ctypes)]
unsafe extern "C" {
    safe fn polars_time_states(
        values: Rows<i64>,
        validities: Rows<u64>,
        greatest: i32,
        chunk: usize,
        shift: usize,
        repeats: usize,
    ) -> u64;

    safe fn polars_time_merges(
        left: Rows<i64>,
        right: Rows<i64>,
        greatest: i32,
        repeats: usize,
    ) -> u64;
}

/// The bit at which a validity begins in its words.
const SHIFT: usize = 13;

/// The number of values for which a state has a bit in one number.
const FEW: usize = 100;

/// The number of values that a state keeps in a bitmap.
const MANY: usize = 10_000;

/// The number of rows of a short chunk.
const CHUNK: usize = 1_000;

/// A column of numbers from 0 to below a bound, in which the greatest of these does not occur. A
/// state of these values has never seen all, and so reads each row.
struct Drawn {
    range: usize,
    values: Vec<i32>,
    wide: Vec<i64>,
    /// An eighth of the rows are null.
    validity: Vec<u64>,
}

impl Drawn {
    fn new(range: usize, count: usize) -> Drawn {
        let mut numbers = Numbers::new(0x2545_F491_4F6C_DD1D);
        let values: Vec<i32> = (0..count)
            .map(|_| (numbers.next() % (range as u64 - 1)) as i32)
            .collect();
        let word_count = count.div_ceil(64) + 4;
        let [first, second, third] = [(); 3].map(|()| words(&mut numbers, word_count));
        let validity = first
            .iter()
            .zip(&second)
            .zip(&third)
            .map(|((x, y), z)| x | y | z)
            .collect();
        Drawn {
            range,
            wide: values.iter().map(|value| i64::from(*value)).collect(),
            values,
            validity,
        }
    }

    fn column(&self) -> Column<'_> {
        Column {
            values: &self.values,
            least: 0,
            present: None,
        }
    }

    fn column_with_nulls(&self) -> Column<'_> {
        Column {
            values: &self.values,
            least: 0,
            present: Some(Window {
                words: &self.validity,
                at: SHIFT,
                len: self.values.len(),
            }),
        }
    }

    /// Appends the column to a state of the library, in chunks of `chunk` rows.
    fn run(&self, validity: &[u64], chunk: usize, repeats: usize) -> u64 {
        polars_time_states(
            rows(&self.wide),
            rows(validity),
            self.range as i32 - 1,
            chunk,
            SHIFT,
            repeats,
        )
    }

    /// Counts the distinct values of a column, by the bits of a number or of words.
    fn plain(&self, column: Column) -> u64 {
        if self.range == FEW {
            distinct_in_number(black_box(column))
        } else {
            distinct_in_words(black_box(column), self.range)
        }
    }

    /// Hands the column in one chunk, with nulls and in short chunks to `each`.
    fn for_each(&self, each: &mut dyn FnMut(&Kernel)) {
        let whole = self.values.len();
        let values = |repeats: usize| answers(repeats, || self.plain(self.column()));
        let with_nulls =
            |repeats: usize| answers(repeats, || self.plain(self.column_with_nulls()));
        let one_chunk = |repeats: usize| self.run(&[], whole, repeats);
        let mut hand = |form: &str, asked: Asked, ours: Side, plain: Side, beside| {
            each(&Kernel {
                name: &format!("distinct of {}{form}", self.range),
                asked,
                ours,
                plain,
                beside,
            });
        };
        hand("", Asked::Ratio([1.0; 2]), &one_chunk, &values, None);
        hand(
            ", nulls, of all",
            Asked::Ratio([1.3; 2]),
            &|repeats| self.run(&self.validity, whole, repeats),
            &with_nulls,
            Some(&one_chunk),
        );
        hand(
            ", chunks of 1,000, of all",
            Asked::Ratio([1.1; 2]),
            &|repeats| self.run(&[], CHUNK, repeats),
            &values,
            Some(&one_chunk),
        );
        hand(
            ", beside a tree",
            Asked::Nothing,
            &one_chunk,
            &|repeats| answers(repeats, || distinct_in_tree(black_box(&self.values))),
            None,
        );
        hand(
            ", beside a table of hashes",
            Asked::Nothing,
            &one_chunk,
            &|repeats| answers(repeats, || distinct_in_table(black_box(&self.values))),
            None,
        );
    }
}

/// Runs a peer that returns one number a run.
fn answers(repeats: usize, answer: impl Fn() -> u64) -> u64 {
    repeat(&[(); 2], repeats, |(), _| black_box(answer()))
}

/// Hands a column whose first rows have all values to `each`: the state stops reading once it has
/// seen all.
fn full(count: usize, each: &mut dyn FnMut(&Kernel)) {
    let values: Vec<i32> = (0..count).map(|i| (i % FEW) as i32).collect();
    let wide: Vec<i64> = values.iter().map(|value| i64::from(*value)).collect();
    let column = Column {
        values: &values,
        least: 0,
        present: None,
    };
    // a microsecond in all
    let asked = Asked::Nanoseconds([1_000.0 / 16_384.0, 1_000.0 / 1_048_576.0]);
    each(&Kernel {
        name: "distinct, all seen at once",
        asked,
        ours: &|repeats| {
            polars_time_states(rows(&wide), rows(&[]), FEW as i32 - 1, count, 0, repeats)
        },
        plain: &|repeats| answers(repeats, || distinct_in_number(black_box(column))),
        beside: None,
    });
}

/// Hands each kernel to `each`.
pub fn for_each(count: usize, each: &mut dyn FnMut(&Kernel)) {
    Drawn::new(FEW, count).for_each(each);
    Drawn::new(MANY, count).for_each(each);
    full(count, each);
}

/// Times two states of 10,000 values merged into a third.
pub fn compare(bench: &mut Bench) {
    let (left, right) = (Drawn::new(MANY, MANY), Drawn::new(MANY, MANY / 2));
    let sets = [&left, &right].map(|drawn| set_of(&drawn.values, MANY));
    bench.time(
        &Run::of(MANY),
        0,
        &Kernel {
            name: "two states of 10000 merged",
            asked: Asked::Ratio([1.1; 2]),
            ours: &|repeats| {
                polars_time_merges(
                    rows(&left.wide),
                    rows(&right.wide),
                    MANY as i32 - 1,
                    repeats,
                )
            },
            plain: &|repeats| {
                answers(repeats, || {
                    joined(black_box(&sets[0]), black_box(&sets[1]))
                })
            },
            beside: None,
        },
    );
}
