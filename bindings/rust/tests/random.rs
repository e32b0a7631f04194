//! Random columns, whose results a plain account in Rust computes again.
//!
//! CASES says how many cases each test tries, and SEED which.

mod common;

use common::chance::Chance;
use common::column::Column;
use common::number_from;
use common::row::{some_row, some_rows, some_type, Int, Row, Type, INTS};
use dunkelva::{
    compare, compare_number, count_ones, count_zeros, equal, equal_counted, is_null, leading_ones,
    leading_zeros, max, min, min_max, not_equal, reduce_bits, trailing_ones, trailing_zeros,
    wrapping_sum, Array, BitOperation, Comparison, EqualOptions, Error, Integer, Mask,
};

const LENGTHS: [usize; 9] = [0, 1, 7, 8, 9, 63, 64, 65, 200];
const TESTS: [Comparison; 6] = [
    Comparison::Equal,
    Comparison::Unequal,
    Comparison::Less,
    Comparison::LessOrEqual,
    Comparison::Greater,
    Comparison::GreaterOrEqual,
];

/// Runs a test for `cases` cases, or for the number in the environment variable `CASES`.
fn each_case(cases: u64, test: impl Fn(&mut Chance, u64)) {
    let seed = number_from("SEED", 1);
    for case in 0..number_from("CASES", cases) {
        test(&mut Chance::new(seed, case), case);
    }
}

fn truths(mask: &Mask) -> Vec<bool> {
    mask.iter().collect()
}

/// Returns rows, about half of them those of the left side.
fn right_of(left: &[Row], kind: &Type, chance: &mut Chance) -> Vec<Row> {
    let row = |row: &Row| {
        if chance.percent(60) {
            row.clone()
        } else {
            some_row(kind, chance)
        }
    };
    left.iter().map(row).collect()
}

#[test]
fn rows_of_all_types_are_equal_where_their_values_are() {
    each_case(600, |chance, case| {
        let kind = some_type(chance, 4);
        let count = *chance.one_of(&LENGTHS);
        let left_rows = some_rows(&kind, chance, count);
        let right_rows = right_of(&left_rows, &kind, chance);
        let left_column = Column::of(&kind, &left_rows, chance);
        let right_column = Column::of(&kind, &right_rows, chance);
        let (left, right) = (left_column.array(), right_column.array());
        let wanted: Vec<_> = left_rows
            .iter()
            .zip(&right_rows)
            .map(|(l, r)| l == r)
            .collect();
        let told = format!("case {case}: {left:?}");

        let same = equal(&left, &right).expect(&told);
        assert_eq!(truths(&same), wanted, "{told}");
        assert_eq!(
            same.count_set(),
            wanted.iter().filter(|it| **it).count(),
            "{told}"
        );
        assert_eq!(
            truths(&not_equal(&left, &right).expect(&told)),
            not(&wanted),
            "{told}"
        );
        assert_eq!(equal(&right, &left), Ok(same), "{told}");
        assert!(equal(&left, &left.clone()).expect(&told).all(), "{told}");
        let (counted, _) = equal_counted(&left, &right, EqualOptions::default()).expect(&told);
        assert_eq!(truths(&counted), wanted, "{told}");

        let (first, second) = (chance.below(count + 1), chance.below(count + 1));
        let rows = chance.below(count - first.max(second) + 1);
        let windows = (
            left.slice(first, rows).unwrap(),
            right.slice(second, rows).unwrap(),
        );
        let pairs = left_rows[first..]
            .iter()
            .zip(&right_rows[second..])
            .take(rows);
        let wanted: Vec<_> = pairs.map(|(l, r)| l == r).collect();
        assert_eq!(
            truths(&equal(&windows.0, &windows.1).expect(&told)),
            wanted,
            "{told}"
        );

        let nulls: Vec<_> = left_rows.iter().map(|it| *it == Row::Null).collect();
        assert_eq!(truths(&is_null(&left).expect(&told)), nulls, "{told}");
    });
}

fn not(truths: &[bool]) -> Vec<bool> {
    truths.iter().map(|it| !it).collect()
}

#[test]
fn long_columns_are_compared_in_several_windows() {
    each_case(6, |chance, case| {
        let kind = some_type(chance, 2);
        let count = 20_000 + chance.below(20_000);
        let left_rows = some_rows(&kind, chance, count);
        let right_rows = right_of(&left_rows, &kind, chance);
        let left = Column::of(&kind, &left_rows, chance);
        let right = Column::of(&kind, &right_rows, chance);
        let same = equal(&left.array(), &right.array()).unwrap();
        let wanted: Vec<_> = left_rows
            .iter()
            .zip(&right_rows)
            .map(|(l, r)| l == r)
            .collect();
        assert!(truths(&same) == wanted, "case {case}: {:?}", left.array());
    });
}

/// A column of numbers, with its rows.
struct Numbers {
    int: Int,
    rows: Vec<Option<i128>>,
    column: Column,
}

impl Numbers {
    fn some(int: Int, count: usize, chance: &mut Chance) -> Numbers {
        let null_cases = *chance.one_of(&[0, 20, 100]);
        let row = |_| {
            if chance.percent(null_cases) {
                None
            } else {
                Some(int.some(chance))
            }
        };
        let rows: Vec<_> = (0..count).map(row).collect();
        let plain: Vec<_> = rows
            .iter()
            .map(|it| it.map_or(Row::Null, Row::Number))
            .collect();
        let column = Column::of(&Type::Int(int), &plain, chance);
        Numbers { int, rows, column }
    }

    fn present(&self) -> impl Iterator<Item = i128> + '_ {
        self.rows.iter().copied().flatten()
    }

    /// Returns the digits of each row in two's complement, the highest first.
    fn digits(&self) -> Vec<Option<Vec<u8>>> {
        let bits = self.int.bits;
        let digits = |row: i128| {
            (0..bits)
                .rev()
                .map(|place| (row >> place & 1) as u8)
                .collect()
        };
        self.rows.iter().map(|it| it.map(digits)).collect()
    }
}

/// Says whether a test holds of two rows.
fn holds(test: Comparison, left: Option<i128>, right: Option<i128>) -> bool {
    match test {
        Comparison::Equal => left == right,
        Comparison::Unequal => left != right,
        _ => left.zip(right).map_or(false, |(l, r)| match test {
            Comparison::Less => l < r,
            Comparison::LessOrEqual => l <= r,
            Comparison::Greater => l > r,
            _ => l >= r,
        }),
    }
}

fn lacks(int: Int, number: i128) -> Error {
    let format = match (int.bits, int.is_signed) {
        (8, true) => "c",
        (16, true) => "s",
        (32, true) => "i",
        (64, true) => "l",
        (8, false) => "C",
        (16, false) => "S",
        (32, false) => "I",
        _ => "L",
    };
    Error::NotRepresentable {
        number,
        format: format.into(),
    }
}

#[test]
fn numbers_are_compared_as_in_rust() {
    each_case(200, |chance, case| {
        let int = *chance.one_of(&INTS);
        let count = *chance.one_of(&LENGTHS);
        let (left, right) = (
            Numbers::some(int, count, chance),
            Numbers::some(int, count, chance),
        );
        let (one, other) = (left.column.array(), right.column.array());
        for test in TESTS {
            let pairs = left.rows.iter().zip(&right.rows);
            let wanted: Vec<_> = pairs.map(|(&l, &r)| holds(test, l, r)).collect();
            assert_eq!(
                truths(&compare(&one, test, &other).unwrap()),
                wanted,
                "{case} {test:?}"
            );
        }
        let (least, greatest) = (int.least(), int.greatest());
        for number in [least, greatest, 1, least - 1, greatest + 1, (1 << 64) + 1] {
            for test in TESTS {
                let got = compare_number(&one, test, number).map(|it| truths(&it));
                let rows = left
                    .rows
                    .iter()
                    .map(|&it| holds(test, it, Some(number)))
                    .collect();
                let is_one = least <= number && number <= greatest;
                let wanted = if is_one {
                    Ok(rows)
                } else {
                    Err(lacks(int, number))
                };
                assert_eq!(got, wanted, "{case} {test:?} {number}");
            }
        }
    });
}

/// Returns the results of the methods of `Numbers<T>`.
fn typed<T: Integer>(array: &Array<'_>) -> [Option<i128>; 8] {
    let rows = array.to_numbers::<T>().unwrap();
    let (least, greatest) = match rows.min_max().unwrap() {
        Some((least, greatest)) => (Some(least), Some(greatest)),
        None => (None, None),
    };
    let joined = |it| rows.reduce_bits(it).unwrap();
    [
        rows.wrapping_sum().unwrap(),
        least,
        greatest,
        rows.min().unwrap(),
        rows.max().unwrap(),
        joined(BitOperation::And),
        joined(BitOperation::Or),
        joined(BitOperation::Xor),
    ]
    .map(|it| it.map(Into::into))
}

fn typed_as(int: Int, array: &Array<'_>) -> [Option<i128>; 8] {
    match (int.bits, int.is_signed) {
        (8, true) => typed::<i8>(array),
        (16, true) => typed::<i16>(array),
        (32, true) => typed::<i32>(array),
        (64, true) => typed::<i64>(array),
        (8, false) => typed::<u8>(array),
        (16, false) => typed::<u16>(array),
        (32, false) => typed::<u32>(array),
        _ => typed::<u64>(array),
    }
}

#[test]
fn numbers_are_reduced_as_in_rust() {
    each_case(200, |chance, case| {
        let int = *chance.one_of(&INTS);
        let count = *chance.one_of(&LENGTHS);
        let numbers = Numbers::some(int, count, chance);
        let array = numbers.column.array();
        let present: Vec<_> = numbers.present().collect();
        let is_some = !present.is_empty();
        let least = present.iter().copied().min();
        let greatest = present.iter().copied().max();
        let total = is_some.then(|| int.wrapped(present.iter().sum()));
        assert_eq!(wrapping_sum(&array), Ok(total), "{case}");
        assert_eq!(min_max(&array), Ok(least.zip(greatest)), "{case}");
        assert_eq!(
            (min(&array), max(&array)),
            (Ok(least), Ok(greatest)),
            "{case}"
        );
        let join = |join: fn(i128, i128) -> i128| present.iter().copied().reduce(join);
        let [and, or, xor] = [join(|l, r| l & r), join(|l, r| l | r), join(|l, r| l ^ r)];
        for (join, wanted) in [
            (BitOperation::And, and),
            (BitOperation::Or, or),
            (BitOperation::Xor, xor),
        ] {
            assert_eq!(reduce_bits(&array, join), Ok(wanted), "{case} {join:?}");
        }
        let wanted = [total, least, greatest, least, greatest, and, or, xor];
        assert_eq!(typed_as(int, &array), wanted, "{case}");
    });
}

type Count = fn(&Array<'_>) -> Result<dunkelva::Numbers<'static, u32>, Error>;

fn counts(call: Count, array: &Array<'_>) -> Vec<Option<u32>> {
    call(array).unwrap().iter().collect()
}

#[test]
fn bits_are_counted_by_their_digits() {
    each_case(200, |chance, case| {
        let int = *chance.one_of(&INTS);
        let count = *chance.one_of(&LENGTHS);
        let numbers = Numbers::some(int, count, chance);
        let array = numbers.column.array();
        let all: [(u8, Count); 2] = [(1, count_ones), (0, count_zeros)];
        for (bit, call) in all {
            let count = |row: Vec<u8>| row.iter().filter(|it| **it == bit).count() as u32;
            let wanted: Vec<_> = numbers
                .digits()
                .into_iter()
                .map(|it| it.map(count))
                .collect();
            assert_eq!(counts(call, &array), wanted, "{case} {bit}");
        }
        let ends: [(u8, Count, Count); 2] = [
            (1, leading_ones, trailing_ones),
            (0, leading_zeros, trailing_zeros),
        ];
        for (bit, leading, trailing) in ends {
            let first = |row: Vec<u8>| row.iter().take_while(|it| **it == bit).count() as u32;
            let last = |row: Vec<u8>| row.iter().rev().take_while(|it| **it == bit).count() as u32;
            let wanted: Vec<_> = numbers
                .digits()
                .into_iter()
                .map(|it| it.map(first))
                .collect();
            assert_eq!(counts(leading, &array), wanted, "{case} {bit}");
            let wanted: Vec<_> = numbers
                .digits()
                .into_iter()
                .map(|it| it.map(last))
                .collect();
            assert_eq!(counts(trailing, &array), wanted, "{case} {bit}");
        }
    });
}
