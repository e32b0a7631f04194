//! Arithmetic: rows worked out by hand, and random ones beside Rust's own numbers.

mod common;

use common::chance::Chance;
use common::column::Column;
use common::number_from;
use common::row::{Int, Row, Type, INTS};
use dunkelva::{
    arithmetic, wrapping_abs, wrapping_add, wrapping_floor_div, wrapping_mod, wrapping_mul,
    wrapping_neg, wrapping_sub, wrapping_sum, wrapping_trunc_div, Array, Bitmap, Error, Integer,
    Numbers, Operation,
};

const OPERATIONS: [Operation; 6] = [
    Operation::Add,
    Operation::Sub,
    Operation::Mul,
    Operation::FloorDiv,
    Operation::TruncDiv,
    Operation::Mod,
];

fn rows<T: Integer>(numbers: &Numbers<'_, T>) -> Vec<Option<i128>> {
    numbers.iter().map(|row| row.map(Into::into)).collect()
}

#[test]
fn worked_rows() -> Result<(), Error> {
    let left: Numbers<'_, i8> = [Some(100), Some(-7), Some(-128), None, Some(5)]
        .into_iter()
        .collect();
    let right: Numbers<'_, i8> = [Some(100), Some(2), Some(-1), Some(1), Some(0)]
        .into_iter()
        .collect();
    let wanted = |found: Numbers<'_, i8>, wanted: [Option<i8>; 5]| {
        assert!(found.iter().eq(wanted), "{found:?} {wanted:?}");
    };
    wanted(
        wrapping_add(&left, &right)?,
        [Some(-56), Some(-5), Some(127), None, Some(5)],
    );
    wanted(
        wrapping_sub(&left, &right)?,
        [Some(0), Some(-9), Some(-127), None, Some(5)],
    );
    wanted(
        wrapping_mul(&left, &right)?,
        [Some(16), Some(-14), Some(-128), None, Some(0)],
    );
    wanted(
        wrapping_floor_div(&left, &right)?,
        [Some(1), Some(-4), Some(-128), None, None],
    );
    wanted(
        wrapping_trunc_div(&left, &right)?,
        [Some(1), Some(-3), Some(-128), None, None],
    );
    wanted(
        wrapping_mod(&left, &right)?,
        [Some(0), Some(1), Some(0), None, None],
    );
    wanted(
        wrapping_neg(&left)?,
        [Some(-100), Some(7), Some(-128), None, Some(-5)],
    );
    wanted(
        wrapping_abs(&left)?,
        [Some(100), Some(7), Some(-128), None, Some(5)],
    );
    Ok(())
}

#[test]
fn a_number_takes_the_type_of_the_rows() -> Result<(), Error> {
    let rows = Numbers::from(vec![i64::MAX, -7]);
    assert_eq!(wrapping_add(&rows, 4)?.values(), [i64::MIN + 3, -3]);
    assert_eq!(wrapping_sub(4, &rows)?.values(), [4 - i64::MAX, 11]);
    let bytes = Numbers::from(&[7_u8, 0]);
    let parts = wrapping_floor_div(200, &bytes)?;
    assert!(parts.iter().eq([Some(28), None]));
    let divided = wrapping_mod(&bytes, 0)?;
    assert!(divided.iter().eq([None, None]));
    assert_eq!(divided.values(), [0, 0]);
    assert_eq!(wrapping_mul(100_i8, 3)?.values(), [44]); // 300 - 256
    assert!(wrapping_trunc_div(1_u64, 0)?.iter().eq([None]));
    Ok(())
}

#[test]
fn numbers_are_an_array_again() -> Result<(), Error> {
    let present = Bitmap::new(&[0b110], 0, 3)?;
    let left = Numbers::from(&[1_u16, 2, 3]).with_validity(present)?;
    let numbers = wrapping_add(&left, &Numbers::from(&[10, 20, 30]))?;
    assert_eq!(numbers.values(), [0, 22, 33]);
    assert_eq!(left.values(), [1, 2, 3]);
    let validity = numbers.validity().unwrap();
    assert!(validity.iter().eq([false, true, true]));
    assert_eq!((numbers.len(), numbers.is_empty()), (3, false));
    assert_eq!(wrapping_sum(&numbers)?, Some(55));
    let twice = wrapping_add(&numbers, &numbers)?;
    assert_eq!(rows(&twice), [None, Some(44), Some(66)]);
    let days = Numbers::from(&[19_000]).with_format("tdD")?;
    assert_eq!(rows(&wrapping_add(&days, 1)?), [Some(19_001)]);
    Ok(())
}

#[test]
fn numbers_of_arrays() -> Result<(), Error> {
    let array = Array::numbers(&[1_i64, 2, 3]).with_validity(Bitmap::new(&[0b101], 0, 3)?)?;
    let numbers: Numbers<'_, i64> = array.slice(1, 2)?.to_numbers()?;
    assert!(numbers.iter().eq([None, Some(3)]));
    assert_eq!(
        (numbers.get(0), numbers.get(1)),
        (Some(None), Some(Some(3)))
    );
    assert_eq!(numbers.get(2), None);
    let same: Numbers<'_, i64> = [None, Some(3)].into_iter().collect();
    assert_eq!(numbers, same);
    assert_ne!(numbers, Numbers::from(&[2, 3]));
    let inner = numbers.slice(1, 1)?;
    assert_eq!(inner.values(), [3]);
    assert_eq!(Array::from(inner).len(), 1);
    let days: Numbers<'_, i32> = Array::numbers(&[7]).with_format("tdD")?.to_numbers()?;
    assert_ne!(days, Numbers::from(&[7]));
    Ok(())
}

#[test]
fn types_are_refused() {
    let seconds = Numbers::from(&[1_i64]).with_format("tss:").unwrap();
    let differ = Error::TypeMismatch {
        left: "tss:".into(),
        right: "l".into(),
    };
    assert_eq!(wrapping_add(&seconds, &Numbers::from(&[1])), Err(differ));
    let other = Error::TypeMismatch {
        left: "tss:".into(),
        right: "i".into(),
    };
    assert_eq!(seconds.to_numbers::<i32>(), Err(other));
    let refused = |array: Array<'_>, format: &str| {
        let format = format.into();
        assert_eq!(
            array.to_numbers::<i32>(),
            Err(Error::Unsupported { format })
        );
    };
    refused(Array::numbers(&[1.5_f32]), "f");
    refused(Array::nulls(1), "n");
    refused(Array::decimals(&[1], 9, 2).unwrap(), "d:9,2");
    let keys = Array::dictionary(&[0_i32], Array::numbers(&[5]));
    refused(keys.unwrap(), "i<i>");
    refused(Array::texts(&[0, 1], b"a").unwrap(), "u");
}

/// Calculates with two numbers of a type.
fn account(int: Int, left: i128, operation: Operation, right: i128) -> Option<i128> {
    let is_below = |number: i128| number < 0;
    let floor = |l: i128, r: i128| {
        let is_rounded = l % r != 0 && is_below(l) != is_below(r);
        l / r - i128::from(is_rounded)
    };
    let result = match operation {
        Operation::Add => left + right,
        Operation::Sub => left - right,
        Operation::Mul => left.wrapping_mul(right), // 2^128 is a multiple of 2^64
        _ if right == 0 => return None,
        Operation::FloorDiv => floor(left, right),
        Operation::TruncDiv => left / right,
        Operation::Mod => left - floor(left, right) * right,
    };
    Some(int.wrapped(result))
}

struct Side {
    rows: Vec<Option<i128>>,
    column: Column,
}

impl Side {
    fn some(int: Int, count: usize, chance: &mut Chance) -> Side {
        let nulls = *chance.one_of(&[0, 20, 100]);
        let row = |_| {
            if chance.percent(nulls) {
                None
            } else {
                Some(int.some(chance))
            }
        };
        let rows: Vec<_> = (0..count).map(row).collect();
        let plain: Vec<_> = rows
            .iter()
            .map(|it| it.map_or(Row::Null, Row::Number))
            .collect();
        Side {
            column: Column::of(&Type::Int(int), &plain, chance),
            rows,
        }
    }
}

fn try_all<T: Integer + TryFrom<i128>>(int: Int, chance: &mut Chance, case: u64) {
    let count = *chance.one_of(&[0, 1, 7, 8, 63, 64, 65, 200]);
    let (left, right) = (
        Side::some(int, count, chance),
        Side::some(int, count, chance),
    );
    let (one, other) = (left.column.array(), right.column.array());
    let one: Numbers<'_, T> = one.to_numbers().unwrap();
    let other: Numbers<'_, T> = other.to_numbers().unwrap();
    assert_eq!(rows(&one), left.rows, "{case}");
    let number = int.some(chance);
    let typed = T::try_from(number).ok().expect("a number of the type");
    for operation in OPERATIONS {
        let told = format!("{case} {int:?} {operation:?} {number}");
        let pairs = left.rows.iter().zip(&right.rows).map(|(l, r)| l.zip(*r));
        let wanted: Vec<_> = pairs
            .map(|it| it.and_then(|(l, r)| account(int, l, operation, r)))
            .collect();
        let found = arithmetic(&one, operation, &other).unwrap();
        assert_eq!(rows(&found), wanted, "{told}");
        let with = |result: &dyn Fn(i128) -> Option<i128>| -> Vec<_> {
            left.rows.iter().map(|it| it.and_then(result)).collect()
        };
        let found = arithmetic(&one, operation, typed).unwrap();
        assert_eq!(
            rows(&found),
            with(&|it| account(int, it, operation, number)),
            "{told}"
        );
        let found = arithmetic(typed, operation, &one).unwrap();
        assert_eq!(
            rows(&found),
            with(&|it| account(int, number, operation, it)),
            "{told}"
        );
    }
    let signed = |sign: fn(i128) -> i128| -> Vec<_> {
        left.rows
            .iter()
            .map(|it| it.map(|row| int.wrapped(sign(row))))
            .collect()
    };
    assert_eq!(
        rows(&wrapping_neg(&one).unwrap()),
        signed(|it| -it),
        "{case} {int:?}"
    );
    assert_eq!(
        rows(&wrapping_abs(&one).unwrap()),
        signed(i128::abs),
        "{case} {int:?}"
    );
}

#[test]
fn random_rows() {
    let seed = number_from("SEED", 1);
    for case in 0..number_from("CASES", 200) {
        let chance = &mut Chance::new(seed, case);
        let int = *chance.one_of(&INTS);
        match (int.bits, int.is_signed) {
            (8, true) => try_all::<i8>(int, chance, case),
            (16, true) => try_all::<i16>(int, chance, case),
            (32, true) => try_all::<i32>(int, chance, case),
            (64, true) => try_all::<i64>(int, chance, case),
            (8, false) => try_all::<u8>(int, chance, case),
            (16, false) => try_all::<u16>(int, chance, case),
            (32, false) => try_all::<u32>(int, chance, case),
            _ => try_all::<u64>(int, chance, case),
        }
    }
}
