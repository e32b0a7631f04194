//! Reductions of a column of numbers in plain Rust: an iterator that is folded, and for nulls a
//! loop that tests the bit of each row.

use crate::plain::Window;
use crate::plain_arithmetic::Number;
use std::ops::{BitAnd, BitOr, BitXor};

/// Numbers with an order and bits.
pub trait Reduced:
    Number + Ord + BitAnd<Output = Self> + BitOr<Output = Self> + BitXor<Output = Self>
{
    fn count_ones(self) -> u32;

    fn leading_zeros(self) -> u32;

    fn trailing_zeros(self) -> u32;
}

macro_rules! reduced {
    ($($type:ty)*) => {
        $(
            impl Reduced for $type {
                #[inline(always)]
                fn count_ones(self) -> u32 {
                    self.count_ones()
                }

                #[inline(always)]
                fn leading_zeros(self) -> u32 {
                    self.leading_zeros()
                }

                #[inline(always)]
                fn trailing_zeros(self) -> u32 {
                    self.trailing_zeros()
                }
            }
        )*
    };
}

reduced! { i8 i16 i32 i64 u8 u16 u32 u64 }

/// Returns the number to which two numbers are joined.
pub trait Join {
    fn join<T: Reduced>(left: T, right: T) -> T;
}

macro_rules! joins {
    ($($name:ident, |$x:ident, $y:ident| $joined:expr;)*) => {
        $(
            pub struct $name;

            impl Join for $name {
                #[inline(always)]
                fn join<T: Reduced>($x: T, $y: T) -> T {
                    $joined
                }
            }
        )*
    };
}

joins! {
    Sum, |x, y| x.add(y);
    And, |x, y| x & y;
    Or, |x, y| x | y;
    Xor, |x, y| x ^ y;
    Min, |x, y| x.min(y);
    Max, |x, y| x.max(y);
}

/// Joins all numbers. Returns `None` if there are none.
#[inline(never)]
pub fn reduce<T: Reduced, J: Join>(values: &[T]) -> Option<T> {
    values.iter().copied().reduce(J::join)
}

/// Joins the numbers whose bit is 1. Returns `None` if there are none.
#[inline(never)]
pub fn reduce_present<T: Reduced, J: Join>(values: &[T], present: Window) -> Option<T> {
    values
        .iter()
        .enumerate()
        .filter(|(i, _)| {
            let at = present.at + i;
            (present.words[at / 64] >> (at % 64)) & 1 == 1
        })
        .map(|(_, value)| *value)
        .reduce(J::join)
}

/// Returns the least and the greatest number.
#[inline(never)]
pub fn ends<T: Reduced>(values: &[T]) -> Option<(T, T)> {
    let first = *values.first()?;
    Some(
        values
            .iter()
            .fold((first, first), |(least, greatest), value| {
                (least.min(*value), greatest.max(*value))
            }),
    )
}

/// A count of the bits of a number.
pub trait Count {
    fn count<T: Reduced>(number: T) -> u32;
}

macro_rules! bit_counts {
    ($($name:ident, |$x:ident| $count:expr;)*) => {
        $(
            pub struct $name;

            impl Count for $name {
                #[inline(always)]
                fn count<T: Reduced>($x: T) -> u32 {
                    $count
                }
            }
        )*
    };
}

bit_counts! {
    Ones, |x| x.count_ones();
    LeadingZeros, |x| x.leading_zeros();
    TrailingZeros, |x| x.trailing_zeros();
}

/// Returns the count of each number.
#[inline(never)]
pub fn counts<T: Reduced, C: Count>(values: &[T]) -> Vec<u32> {
    values.iter().map(|value| C::count(*value)).collect()
}
