//! The line language by std alone: reads standard input, runs each line, and writes all results.
//!
//! It is what `time_lines.py` times the program beside.

use std::fmt::{Display, Write as _};
use std::io::{Read, Write, stdin, stdout};
use std::str::FromStr;

#[derive(Clone, Copy)]
enum Fault {
    Op,
    TypeName,
    Row,
    Length,
    Range,
}

impl Fault {
    fn word(self) -> &'static str {
        match self {
            Fault::Op => "op",
            Fault::TypeName => "type",
            Fault::Row => "row",
            Fault::Length => "length",
            Fault::Range => "range",
        }
    }
}

type Answer = Result<(), Fault>;
type Rows<T> = Vec<Option<T>>;

/// The value of a row of a line.
trait Value: Copy + Ord + FromStr + Display {
    const BITS: u32;

    /// Returns the bits, and 0 above them.
    fn bits(self) -> u64;

    fn of_bits(bits: u64) -> Self;
}

trait Number: Value {
    fn whole(self) -> i128;

    fn wrapped(number: i128) -> Self;
}

macro_rules! number {
    ($($number:ty, $unsigned:ty;)+) => {
        $(impl Value for $number {
            const BITS: u32 = <$number>::BITS;

            fn bits(self) -> u64 {
                self as $unsigned as u64
            }

            fn of_bits(bits: u64) -> Self {
                bits as $number
            }
        }

        impl Number for $number {
            fn whole(self) -> i128 {
                self as i128
            }

            fn wrapped(number: i128) -> Self {
                number as $number
            }
        })+
    };
}

number! { i8, u8; i16, u16; i32, u32; i64, u64; u8, u8; u16, u16; u32, u32; u64, u64; }

impl Value for bool {
    const BITS: u32 = 1;

    fn bits(self) -> u64 {
        self as u64
    }

    fn of_bits(bits: u64) -> Self {
        bits != 0
    }
}

fn parse<'a, T: Value>(words: impl Iterator<Item = &'a str>) -> Result<Vec<Rows<T>>, Fault> {
    let mut lists = vec![Vec::new()];
    for word in words {
        match word {
            "|" => lists.push(Vec::new()),
            "null" => lists.last_mut().unwrap().push(None),
            _ => lists.last_mut().unwrap().push(Some(word.parse().map_err(|_| Fault::Row)?)),
        }
    }
    Ok(lists)
}

fn one<T>(lists: &[Rows<T>]) -> Result<&Rows<T>, Fault> {
    match lists {
        [list] => Ok(list),
        _ => Err(Fault::Length),
    }
}

fn two<T>(lists: &[Rows<T>]) -> Result<(&Rows<T>, &Rows<T>), Fault> {
    match lists {
        [left, right] => Ok((left, right)),
        _ => Err(Fault::Length),
    }
}

fn pairs<T>(lists: &[Rows<T>]) -> Result<(&Rows<T>, &Rows<T>), Fault> {
    let (left, right) = two(lists)?;
    if left.len() == right.len() { Ok((left, right)) } else { Err(Fault::Length) }
}

fn scalar<T: Copy>(rows: &Rows<T>) -> Result<T, Fault> {
    match rows.as_slice() {
        [Some(row)] => Ok(*row),
        [None] => Err(Fault::Range),
        _ => Err(Fault::Length),
    }
}

fn put<D: Display>(rows: impl Iterator<Item = Option<D>>, out: &mut String) -> Answer {
    for (i, row) in rows.enumerate() {
        if i > 0 {
            out.push(' ');
        }
        match row {
            Some(row) => write!(out, "{row}").unwrap(),
            None => out.push_str("null"),
        }
    }
    Ok(())
}

fn put_found<D: Display>(found: Option<D>, out: &mut String) -> Answer {
    match found {
        Some(row) => write!(out, "{row}").unwrap(),
        None => out.push_str("none"),
    }
    Ok(())
}

fn compare<T: Value>(lists: &[Rows<T>], test: impl Fn(T, T) -> bool, out: &mut String) -> Answer {
    let (left, right) = pairs(lists)?;
    put(left.iter().zip(right).map(|(a, b)| Some(test((*a)?, (*b)?))), out)
}

fn compare_scalar<T: Value>(
    lists: &[Rows<T>],
    test: impl Fn(T, T) -> bool,
    out: &mut String,
) -> Answer {
    let (rows, right) = two(lists)?;
    let b = scalar(right)?;
    put(rows.iter().map(|a| Some(test((*a)?, b))), out)
}

fn compare_missing<T: Value>(lists: &[Rows<T>], wanted: bool, out: &mut String) -> Answer {
    let (left, right) = pairs(lists)?;
    put(left.iter().zip(right).map(|(a, b)| Some((a == b) == wanted)), out)
}

fn compare_missing_scalar<T: Value>(lists: &[Rows<T>], wanted: bool, out: &mut String) -> Answer {
    let (rows, right) = two(lists)?;
    let b = scalar(right)?;
    put(rows.iter().map(|a| Some((*a == Some(b)) == wanted)), out)
}

fn count<T: Value>(lists: &[Rows<T>], count: impl Fn(u64) -> u32, out: &mut String) -> Answer {
    put(one(lists)?.iter().map(|a| a.map(|a| count(a.bits()))), out)
}

fn reduce<T: Value>(lists: &[Rows<T>], join: impl Fn(u64, u64) -> u64, out: &mut String) -> Answer {
    let bits = one(lists)?.iter().flatten().map(|a| a.bits()).reduce(join);
    put_found(bits.map(T::of_bits), out)
}

fn leading<T: Value>(bits: u64) -> u32 {
    (bits << (64 - T::BITS)).leading_ones().min(T::BITS)
}

fn mask<T: Value>() -> u64 {
    u64::MAX >> (64 - T::BITS)
}

/// Returns an operation on rows of every type, or `None` for another name.
fn general<T: Value>(name: &str, lists: &[Rows<T>], out: &mut String) -> Option<Answer> {
    Some(match name {
        "eq" => compare(lists, |a, b| a == b, out),
        "ne" => compare(lists, |a, b| a != b, out),
        "lt" => compare(lists, |a, b| a < b, out),
        "le" => compare(lists, |a, b| a <= b, out),
        "gt" => compare(lists, |a, b| a > b, out),
        "ge" => compare(lists, |a, b| a >= b, out),
        "eq_missing" => compare_missing(lists, true, out),
        "ne_missing" => compare_missing(lists, false, out),
        "eq_broadcast" => compare_scalar(lists, |a, b| a == b, out),
        "ne_broadcast" => compare_scalar(lists, |a, b| a != b, out),
        "lt_broadcast" => compare_scalar(lists, |a, b| a < b, out),
        "le_broadcast" => compare_scalar(lists, |a, b| a <= b, out),
        "gt_broadcast" => compare_scalar(lists, |a, b| a > b, out),
        "ge_broadcast" => compare_scalar(lists, |a, b| a >= b, out),
        "eq_missing_broadcast" => compare_missing_scalar(lists, true, out),
        "ne_missing_broadcast" => compare_missing_scalar(lists, false, out),
        "count_ones" => count(lists, |bits| bits.count_ones(), out),
        "count_zeros" => count(lists, |bits| T::BITS - bits.count_ones(), out),
        "leading_ones" => count(lists, leading::<T>, out),
        "leading_zeros" => count(lists, |bits| leading::<T>(!bits), out),
        "trailing_ones" => count(lists, |bits| bits.trailing_ones(), out),
        "trailing_zeros" => count(lists, |bits| bits.trailing_zeros().min(T::BITS), out),
        "reduce_and" => reduce(lists, |a, b| a & b, out),
        "reduce_or" => reduce(lists, |a, b| a | b, out),
        "reduce_xor" => reduce(lists, |a, b| (a ^ b) & mask::<T>(), out),
        "min" => one(lists).and_then(|rows| put_found(rows.iter().flatten().min(), out)),
        "max" => one(lists).and_then(|rows| put_found(rows.iter().flatten().max(), out)),
        "min_max" => one(lists).and_then(|rows| extremes(rows, out)),
        _ => return None,
    })
}

fn extremes<T: Value>(rows: &Rows<T>, out: &mut String) -> Answer {
    match (rows.iter().flatten().min(), rows.iter().flatten().max()) {
        (Some(least), Some(greatest)) => write!(out, "{least} {greatest}").unwrap(),
        _ => out.push_str("none"),
    }
    Ok(())
}

fn floor_quotient(a: i128, b: i128) -> i128 {
    let quotient = a / b;
    if a % b != 0 && (a < 0) != (b < 0) { quotient - 1 } else { quotient }
}

type Calculation = fn(i128, i128) -> Option<i128>;

fn calculation(name: &str) -> Option<Calculation> {
    Some(match name {
        "add" => |a, b| Some(a + b),
        "sub" => |a, b| Some(a - b),
        "mul" => |a, b| Some(a.wrapping_mul(b)),
        "floor_div" | "legacy_div" => |a, b| (b != 0).then(|| floor_quotient(a, b)),
        "trunc_div" => |a, b| (b != 0).then(|| a / b),
        "mod" => |a, b| (b != 0).then(|| a - b * floor_quotient(a, b)),
        _ => return None,
    })
}

fn made<T: Number>(operation: Calculation, a: Option<T>, b: Option<T>) -> Option<T> {
    operation(a?.whole(), b?.whole()).map(T::wrapped)
}

/// Returns an operation on numbers, or `None` for another name.
fn numeric<T: Number>(name: &str, lists: &[Rows<T>], out: &mut String) -> Option<Answer> {
    if let Some(name) = name.strip_suffix("_scalar_lhs") {
        let operation = calculation(name).filter(|_| name != "add" && name != "mul")?;
        return Some(two(lists).and_then(|(left, rows)| {
            let a = scalar(left)?;
            put(rows.iter().map(|b| made(operation, Some(a), *b)), out)
        }));
    }
    if let Some(name) = name.strip_suffix("_scalar") {
        let operation = calculation(name)?;
        return Some(two(lists).and_then(|(rows, right)| {
            let b = scalar(right)?;
            put(rows.iter().map(|a| made(operation, *a, Some(b))), out)
        }));
    }
    if let Some(operation) = calculation(name) {
        return Some(pairs(lists).and_then(|(left, right)| {
            put(left.iter().zip(right).map(|(a, b)| made(operation, *a, *b)), out)
        }));
    }
    Some(match name {
        "abs" => one(lists).and_then(|rows| {
            put(rows.iter().map(|a| a.map(|a| T::wrapped(a.whole().abs()))), out)
        }),
        "neg" => one(lists).and_then(|rows| {
            put(rows.iter().map(|a| a.map(|a| T::wrapped(-a.whole()))), out)
        }),
        "sum" => one(lists).and_then(|rows| {
            let sum = rows.iter().flatten().fold(0i128, |sum, a| sum.wrapping_add(a.whole()));
            put_found(Some(T::wrapped(sum)), out)
        }),
        "unique_range" | "n_unique_range" | "n_unique_non_null_range" | "seen_all_range" => {
            two(lists).and_then(|(ends, rows)| range(name, ends, rows, out))
        }
        _ => return None,
    })
}

fn range<T: Number>(name: &str, ends: &Rows<T>, rows: &Rows<T>, out: &mut String) -> Answer {
    let (first, last) = match ends.as_slice() {
        [Some(first), Some(last)] => (first.whole(), last.whole()),
        [_, _] => return Err(Fault::Range),
        _ => return Err(Fault::Length),
    };
    let outside = |a: &T| a.whole() < first || a.whole() > last;
    if last < first || last - first >= 1_000_000 || rows.iter().flatten().any(outside) {
        return Err(Fault::Range);
    }
    let mut seen = vec![false; (last - first + 1) as usize];
    let mut is_null = false;
    for row in rows {
        match row {
            Some(a) => seen[(a.whole() - first) as usize] = true,
            None => is_null = true,
        }
    }
    let present = seen.iter().filter(|seen| **seen).count();
    match name {
        "unique_range" => {
            let values = seen.iter().enumerate().filter(|(_, seen)| **seen);
            let values = values.map(|(i, _)| Some(first + i as i128));
            put(values.chain(is_null.then_some(None)), out)
        }
        "n_unique_range" => put_found(Some(present + is_null as usize), out),
        "n_unique_non_null_range" => put_found(Some(present), out),
        _ => put_found(Some(present == seen.len() && is_null), out),
    }
}

fn truths(name: &str, lists: &[Rows<bool>], out: &mut String) -> Option<Answer> {
    if !matches!(name, "unique" | "n_unique" | "n_unique_non_null") {
        return None;
    }
    Some(one(lists).and_then(|rows| {
        let values = [false, true].into_iter().filter(|value| rows.contains(&Some(*value)));
        let is_null = rows.contains(&None);
        match name {
            "unique" => put(values.map(Some).chain(is_null.then_some(None)), out),
            "n_unique" => put_found(Some(values.count() + is_null as usize), out),
            _ => put_found(Some(values.count()), out),
        }
    }))
}

const GENERAL: [&str; 28] = [
    "eq", "ne", "lt", "le", "gt", "ge", "eq_missing", "ne_missing", "eq_broadcast", "ne_broadcast",
    "lt_broadcast", "le_broadcast", "gt_broadcast", "ge_broadcast", "eq_missing_broadcast",
    "ne_missing_broadcast", "count_ones", "count_zeros", "leading_ones", "leading_zeros",
    "trailing_ones", "trailing_zeros", "reduce_and", "reduce_or", "reduce_xor", "min", "max",
    "min_max",
];

const NUMERIC: [&str; 26] = [
    "abs", "neg", "add", "sub", "mul", "floor_div", "trunc_div", "mod", "legacy_div", "add_scalar",
    "sub_scalar", "mul_scalar", "floor_div_scalar", "trunc_div_scalar", "mod_scalar",
    "legacy_div_scalar", "sub_scalar_lhs", "floor_div_scalar_lhs", "trunc_div_scalar_lhs",
    "mod_scalar_lhs", "legacy_div_scalar_lhs", "sum", "unique_range", "n_unique_range",
    "n_unique_non_null_range", "seen_all_range",
];

const TRUTHS: [&str; 3] = ["unique", "n_unique", "n_unique_non_null"];

fn answer_numbers<'a, T: Number>(
    name: &str,
    words: impl Iterator<Item = &'a str>,
    out: &mut String,
) -> Answer {
    if TRUTHS.contains(&name) {
        return Err(Fault::TypeName);
    }
    let lists = parse::<T>(words)?;
    general(name, &lists, out).or_else(|| numeric(name, &lists, out)).unwrap_or(Err(Fault::Op))
}

fn answer_truths<'a>(name: &str, words: impl Iterator<Item = &'a str>, out: &mut String) -> Answer {
    if NUMERIC.contains(&name) {
        return Err(Fault::TypeName);
    }
    let lists = parse::<bool>(words)?;
    general(name, &lists, out).or_else(|| truths(name, &lists, out)).unwrap_or(Err(Fault::Op))
}

fn answer(line: &str, out: &mut String) -> Answer {
    let mut words = line.split(' ').filter(|word| !word.is_empty());
    let name = words.next().ok_or(Fault::Op)?;
    if !GENERAL.contains(&name) && !NUMERIC.contains(&name) && !TRUTHS.contains(&name) {
        return Err(Fault::Op);
    }
    match words.next() {
        Some("i8") => answer_numbers::<i8>(name, words, out),
        Some("i16") => answer_numbers::<i16>(name, words, out),
        Some("i32") => answer_numbers::<i32>(name, words, out),
        Some("i64") => answer_numbers::<i64>(name, words, out),
        Some("u8") => answer_numbers::<u8>(name, words, out),
        Some("u16") => answer_numbers::<u16>(name, words, out),
        Some("u32") => answer_numbers::<u32>(name, words, out),
        Some("u64") => answer_numbers::<u64>(name, words, out),
        Some("bool") => answer_truths(name, words, out),
        _ => Err(Fault::TypeName),
    }
}

fn main() {
    let mut input = Vec::new();
    stdin().read_to_end(&mut input).unwrap();
    let mut out = String::new();
    let mut lines: Vec<&[u8]> = input.split(|byte| *byte == b'\n').collect();
    if lines.last().is_some_and(|last| last.is_empty()) {
        lines.pop();
    }
    for (i, line) in lines.iter().enumerate() {
        let at = out.len();
        let answered = match std::str::from_utf8(line) {
            Ok(line) => answer(line, &mut out),
            Err(_) => Err(Fault::Op),
        };
        if let Err(fault) = answered {
            out.truncate(at);
            write!(out, "line {}: refused: {}", i + 1, fault.word()).unwrap();
        }
        out.push('\n');
    }
    stdout().write_all(out.as_bytes()).unwrap();
}
