//! The comparisons of arrays that hold arrays, in which two null rows are equal.

use crate::nested_rows::{Keyed, Lists, Mixed, Nested, WIDTH, regular_offsets, structs};
use crate::operands::{Rows, rows};
use crate::plain_nested as plain;
use crate::string_rows::{Pair, Texts};
use crate::strings::run_equal_texts;
use crate::timing::{Asked, Bench, Kernel, Run, plain_rows};

/// The kernels, as the library numbers them.
#[derive(Clone, Copy)]
#[repr(u32)]
enum NestedKernel {
    TotEqMissing,
}

/// The content of an array, as the library numbers it.
#[derive(Clone, Copy)]
#[repr(u32)]
enum NestedType {
    Lists,
    FixedLists,
    Structs,
    Dictionaries,
    DeepLists,
    TextLists,
}

/// The kernels on columns, as the library numbers them.
#[derive(Clone, Copy)]
#[repr(u32)]
enum ColumnKernel {
    TotEq,
}

#[allow(improper_ctypes)]
unsafe extern "C" {
    safe fn polars_time_nested(
        left_offsets: Rows<i32>,
        right_offsets: Rows<i32>,
        left_items: Rows<i32>,
        right_items: Rows<i32>,
        left_present: Rows<u64>,
        right_present: Rows<u64>,
        left_bytes: Rows<u8>,
        right_bytes: Rows<u8>,
        kernel: NestedKernel,
        nested_type: NestedType,
        size: usize,
        repeats: usize,
    ) -> u64;
    safe fn polars_time_columns(
        left: Rows<i32>,
        right: Rows<i32>,
        kernel: ColumnKernel,
        rows: usize,
        repeats: usize,
    ) -> u64;
}

/// The parts from which the library makes an array. Each type reads some of them.
#[derive(Clone, Copy, Default)]
struct Parts<'a> {
    offsets: &'a [i32],
    items: &'a [i32],
    present: &'a [u64],
    bytes: &'a [u8],
}

impl Parts<'_> {
    /// Returns the parts of an array that is made of items alone.
    fn of_items(items: &[i32]) -> Parts<'_> {
        Parts {
            items,
            ..Parts::default()
        }
    }
}

/// Two arrays that the library makes and runs its kernels on.
struct Arrays<'a> {
    nested_type: NestedType,
    /// The width of lists, the rows of structs, or how many levels of lists there are.
    size: usize,
    left: Parts<'a>,
    right: Parts<'a>,
}

impl Arrays<'_> {
    fn run(&self, kernel: NestedKernel, repeats: usize) -> u64 {
        polars_time_nested(
            rows(self.left.offsets),
            rows(self.right.offsets),
            rows(self.left.items),
            rows(self.right.items),
            rows(self.left.present),
            rows(self.right.present),
            rows(self.left.bytes),
            rows(self.right.bytes),
            kernel,
            self.nested_type,
            self.size,
            repeats,
        )
    }

    /// Runs the test where rows are equal.
    fn run_eq(&self, repeats: usize) -> u64 {
        self.run(NestedKernel::TotEqMissing, repeats)
    }
}

/// Runs the raw comparison of each pair of columns, one after the other.
fn run_columns(count: usize, left: &[i32], right: &[i32], repeats: usize) -> u64 {
    polars_time_columns(rows(left), rows(right), ColumnKernel::TotEq, count, repeats)
}

type Peer<T> = fn(&T, &T) -> Vec<u64>;

fn of_lists(lists: &Lists) -> Parts<'_> {
    Parts {
        offsets: &lists.offsets,
        items: &lists.items,
        present: &lists.present,
        ..Parts::default()
    }
}

/// Hands the kernel on lists between offsets to `each`.
fn hand_lists(
    name: &str,
    asked: f64,
    Pair { left, right }: &Pair<Lists>,
    peer: Peer<Lists>,
    each: &mut dyn FnMut(&Kernel),
) {
    let arrays = Arrays {
        nested_type: NestedType::Lists,
        size: 0,
        left: of_lists(left),
        right: of_lists(right),
    };
    each(&Kernel {
        name: &format!("tot_eq_missing lists of 4{name}"),
        asked: Asked::Ratio([asked, asked]),
        ours: &|repeats| arrays.run_eq(repeats),
        plain: &|repeats| plain_rows(left.count(), repeats, || peer(left, right)),
        beside: None,
    });
}

/// Hands the kernel on lists of one width to `each`. It is timed beside the raw comparison of all
/// items.
fn hand_fixed_lists(left: &[i32], right: &[i32], each: &mut dyn FnMut(&Kernel)) {
    let arrays = Arrays {
        nested_type: NestedType::FixedLists,
        size: WIDTH,
        left: Parts::of_items(left),
        right: Parts::of_items(right),
    };
    each(&Kernel {
        name: "tot_eq_missing lists of width 4",
        asked: Asked::Ratio([1.3, 1.3]),
        ours: &|repeats| arrays.run_eq(repeats),
        plain: &|repeats| {
            plain_rows(left.len() / WIDTH, repeats, || {
                plain::equal_fixed_lists(left, right)
            })
        },
        beside: Some(&|repeats| run_columns(left.len(), left, right, repeats)),
    });
}

fn of_keyed(keyed: &Keyed) -> Parts<'_> {
    Parts {
        offsets: &keyed.entries.offsets,
        items: &keyed.crossing,
        present: &keyed.present,
        bytes: &keyed.entries.bytes,
        ..Parts::default()
    }
}

/// Hands the kernel on dictionaries to `each`, with the ratio that is asked of it.
fn hand_dictionaries(
    name: &str,
    asked: f64,
    Pair { left, right }: &Pair<Keyed>,
    peer: Peer<Keyed>,
    each: &mut dyn FnMut(&Kernel),
) {
    let arrays = Arrays {
        nested_type: NestedType::Dictionaries,
        size: 0,
        left: of_keyed(left),
        right: of_keyed(right),
    };
    each(&Kernel {
        name: &format!("tot_eq_missing dictionary of texts{name}"),
        asked: Asked::Ratio([asked, asked]),
        ours: &|repeats| arrays.run_eq(repeats),
        plain: &|repeats| plain_rows(left.keys.len(), repeats, || peer(left, right)),
        beside: None,
    });
}

/// Returns the parts of an array of texts, with items beside them.
fn of_texts<'a>(texts: &'a Texts, items: &'a [i32]) -> Parts<'a> {
    Parts {
        offsets: &texts.offsets,
        bytes: &texts.bytes,
        items,
        ..Parts::default()
    }
}

/// Hands the kernel on lists of texts to `each`. It is timed beside the raw comparison of all
/// texts.
fn hand_text_lists(pair: &Pair<Texts>, each: &mut dyn FnMut(&Kernel)) {
    let Pair { left, right } = pair;
    let begins = regular_offsets(left.count());
    let arrays = Arrays {
        nested_type: NestedType::TextLists,
        size: 0,
        left: of_texts(left, &begins),
        right: of_texts(right, &begins),
    };
    let lists = left.count() / WIDTH;
    each(&Kernel {
        name: "tot_eq_missing lists of 4 texts",
        asked: Asked::Ratio([1.3, 1.3]),
        ours: &|repeats| arrays.run_eq(repeats),
        plain: &|repeats| plain_rows(lists, repeats, || plain::equal_text_lists(left, right)),
        beside: Some(&|repeats| run_equal_texts(pair, repeats)),
    });
}

/// Hands the kernel on structs of numbers and a text to `each`. It is timed beside the raw
/// comparisons of the columns, one after the other.
fn hand_mixed_structs(mixed: &Mixed, each: &mut dyn FnMut(&Kernel)) {
    let Mixed { numbers, texts } = mixed;
    let count = texts.left.count();
    let arrays = Arrays {
        nested_type: NestedType::Structs,
        size: count,
        left: of_texts(&texts.left, &numbers.left),
        right: of_texts(&texts.right, &numbers.right),
    };
    each(&Kernel {
        name: "tot_eq_missing structs with a text",
        asked: Asked::Ratio([1.3, 1.3]),
        ours: &|repeats| arrays.run_eq(repeats),
        plain: &|repeats| plain_rows(count, repeats, || plain::equal_mixed(mixed)),
        beside: Some(&|repeats| {
            run_columns(count, &numbers.left, &numbers.right, repeats)
                .wrapping_add(run_equal_texts(texts, repeats))
        }),
    });
}

/// Hands each kernel on lists, dictionaries and structs with texts to `each`.
pub fn for_each(nested: &Nested, each: &mut dyn FnMut(&Kernel)) {
    let by_row = plain::equal_lists;
    hand_lists("", 1.0, &nested.like, plain::equal_lists_at_once, each);
    hand_lists(
        ", empty nulls",
        1.3,
        &nested.null_without_items,
        by_row,
        each,
    );
    hand_lists(", nulls", 1.3, &nested.null_with_items, by_row, each);
    hand_lists(", longer", 1.3, &nested.longer, by_row, each);
    hand_fixed_lists(&nested.like.left.items, &nested.like.right.items, each);
    hand_dictionaries("", 2.0, &nested.keyed, plain::equal_dictionaries, each);
    hand_dictionaries(
        ", nulls",
        2.5,
        &nested.keyed_with_nulls,
        plain::equal_dictionaries_with_nulls,
        each,
    );
    hand_text_lists(&nested.texts, each);
    hand_mixed_structs(&nested.mixed, each);
}

/// The name of the kernel on structs.
const STRUCTS: &str = "tot_eq_missing structs of 8";

/// Hands the kernel on structs of `count` rows to `each`. It is timed beside the raw comparison of
/// the columns, one after the other.
pub fn for_structs(count: usize, each: &mut dyn FnMut(&Kernel)) {
    let Pair { left, right } = &structs(count);
    let arrays = Arrays {
        nested_type: NestedType::Structs,
        size: count,
        left: Parts::of_items(left),
        right: Parts::of_items(right),
    };
    each(&Kernel {
        name: STRUCTS,
        asked: Asked::Ratio([1.1, 1.1]),
        ours: &|repeats| arrays.run_eq(repeats),
        plain: &|repeats| plain_rows(count, repeats, || plain::equal_structs(left, right)),
        beside: Some(&|repeats| run_columns(count, left, right, repeats)),
    });
}

/// The number of levels of lists around a number.
const LEVELS: usize = 200;

/// Hands the kernel on one row of many levels of lists to `each`.
pub fn for_deep_lists(each: &mut dyn FnMut(&Kernel)) {
    for (name, right) in [("equal", 1), ("unequal", 2)] {
        let right_items = [right];
        let arrays = Arrays {
            nested_type: NestedType::DeepLists,
            size: LEVELS,
            left: Parts::of_items(&[1]),
            right: Parts::of_items(&right_items),
        };
        each(&Kernel {
            name: &format!("tot_eq_missing 200 levels, {name}"),
            asked: Asked::Nanoseconds([1e6, 1e6]),
            ours: &|repeats| arrays.run_eq(repeats),
            plain: &|repeats| plain_rows(1, repeats, || vec![u64::from(right == 1)]),
            // The peer does next to nothing, and the library would be run as often.
            beside: Some(&|repeats| arrays.run_eq(repeats)),
        });
    }
}

/// The numbers of rows that structs are timed at.
const STRUCT_ROWS: [usize; 4] = [1_000, 10_000, 100_000, 1_000_000];

/// Times the kernels on structs and on many levels of lists, and prints their lines.
pub fn compare(bench: &mut Bench) {
    let mut times = Vec::new();
    for count in STRUCT_ROWS {
        for_structs(count, &mut |kernel| {
            times.extend(bench.time(&Run::of(count), 0, kernel));
        });
    }
    bench.growth(STRUCTS, &times, 1.3);
    for_deep_lists(&mut |kernel| {
        bench.time(&Run::of(1), 0, kernel);
    });
}
