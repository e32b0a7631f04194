//! Arithmetic on columns of numbers in plain Rust: a loop over what is written in place, a
//! collected iterator for new values. Words of bits say which rows are present.

use crate::plain::test_each;

/// The operations that numbers of all widths share.
pub trait Number: Copy + PartialEq {
    const ZERO: Self;

    /// Returns the number of 64 bits, cut or widened to the type.
    fn of(wide: i64) -> Self;

    /// Returns the number, cut or widened to 64 bits.
    fn wide(self) -> u64;

    fn abs(self) -> Self;

    fn neg(self) -> Self;

    fn add(self, other: Self) -> Self;

    fn sub(self, other: Self) -> Self;

    fn mul(self, other: Self) -> Self;

    /// Returns the quotient by a number that is not 0, rounded toward 0.
    fn trunc_div(self, other: Self) -> Self;

    /// Returns the remainder of the quotient rounded toward 0.
    fn rest(self, other: Self) -> Self;

    /// Returns whether a remainder and its divisor lie on different sides of 0.
    fn is_across(self, divisor: Self) -> bool;

    /// Returns the quotient by a number that is not 0, rounded down. The remainder is computed from
    /// the product of the quotient, since not all types get both from one division.
    #[inline(always)]
    fn floor_div(self, other: Self) -> Self {
        let quotient = self.trunc_div(other);
        let across = self.sub(quotient.mul(other)).is_across(other);
        quotient.sub(Self::of(i64::from(across)))
    }

    /// Returns the remainder of the quotient rounded down.
    #[inline(always)]
    fn modulo(self, other: Self) -> Self {
        let rest = self.rest(other);
        if rest.is_across(other) {
            rest.add(other)
        } else {
            rest
        }
    }
}

/// Divisions are those of `$wide`: a processor takes longer for less than 32 bits.
macro_rules! number {
    ($type:ty, $wide:ty, |$x:ident| $abs:expr, |$rest:ident, $divisor:ident| $across:expr) => {
        impl Number for $type {
            const ZERO: $type = 0;

            #[inline(always)]
            fn of(wide: i64) -> $type {
                wide as $type
            }

            #[inline(always)]
            fn wide(self) -> u64 {
                self as u64
            }

            #[inline(always)]
            fn abs(self) -> $type {
                let $x = self;
                $abs
            }

            #[inline(always)]
            fn neg(self) -> $type {
                self.wrapping_neg()
            }

            #[inline(always)]
            fn add(self, other: $type) -> $type {
                self.wrapping_add(other)
            }

            #[inline(always)]
            fn sub(self, other: $type) -> $type {
                self.wrapping_sub(other)
            }

            #[inline(always)]
            fn mul(self, other: $type) -> $type {
                self.wrapping_mul(other)
            }

            #[inline(always)]
            fn trunc_div(self, other: $type) -> $type {
                <$wide>::from(self).wrapping_div(<$wide>::from(other)) as $type
            }

            #[inline(always)]
            fn rest(self, other: $type) -> $type {
                <$wide>::from(self).wrapping_rem(<$wide>::from(other)) as $type
            }

            #[inline(always)]
            fn is_across(self, divisor: $type) -> bool {
                let ($rest, $divisor) = (self, divisor);
                $across
            }
        }
    };
}

/// Both sides of `&` are evaluated, so that there is no branch.
macro_rules! signed {
    ($($type:ty as $wide:ty;)*) => {
        $(number!(
            $type,
            $wide,
            |x| x.wrapping_abs(),
            |rest, divisor| (rest != 0) & ((rest < 0) != (divisor < 0))
        );)*
    };
}

macro_rules! unsigned {
    ($($type:ty as $wide:ty;)*) => {
        $(number!($type, $wide, |x| x, |_rest, _divisor| false);)*
    };
}

signed! { i8 as i8; i16 as i32; i32 as i32; i64 as i64; }
unsigned! { u8 as u32; u16 as u32; u32 as u32; u64 as u64; }

/// An operation on each two numbers at one place, or on each number and one that stays.
pub trait Operation {
    /// Returns whether the operation divides: a row is null where the right number is 0.
    const DIVIDES: bool;

    fn answer<T: Number>(left: T, right: T) -> T;
}

macro_rules! operations {
    ($($name:ident, $divides:expr, |$x:ident, $y:ident| $answer:expr;)*) => {
        $(
            pub struct $name;

            impl Operation for $name {
                const DIVIDES: bool = $divides;

                #[inline(always)]
                fn answer<T: Number>($x: T, $y: T) -> T {
                    $answer
                }
            }
        )*
    };
}

operations! {
    Abs, false, |x, _y| x.abs();
    Neg, false, |x, _y| x.neg();
    Add, false, |x, y| x.add(y);
    Sub, false, |x, y| x.sub(y);
    Mul, false, |x, y| x.mul(y);
    FloorDiv, true, |x, y| x.floor_div(y);
    TruncDiv, true, |x, y| x.trunc_div(y);
    Mod, true, |x, y| x.modulo(y);
}

/// Returns the result of the operation. If it divides by 0 the row is null, and the number does not
/// matter.
#[inline(always)]
fn answer<T: Number, O: Operation>(left: T, right: T) -> T {
    if O::DIVIDES && right == T::ZERO {
        T::ZERO
    } else {
        O::answer(left, right)
    }
}

#[inline(never)]
pub fn pairs<T: Number, O: Operation>(left: &[T], right: &[T]) -> Vec<T> {
    left.iter()
        .zip(right)
        .map(|(x, y)| answer::<T, O>(*x, *y))
        .collect()
}

#[inline(never)]
pub fn pairs_in_place<T: Number, O: Operation>(left: &mut [T], right: &[T]) {
    for (x, y) in left.iter_mut().zip(right) {
        *x = answer::<T, O>(*x, *y);
    }
}

/// Returns the results for each number and `scalar`, or none if they would be divided by 0.
#[inline(never)]
pub fn lone<T: Number, O: Operation>(values: &[T], scalar: T) -> Vec<T> {
    if O::DIVIDES && scalar == T::ZERO {
        return Vec::new();
    }
    values.iter().map(|x| O::answer(*x, scalar)).collect()
}

/// Replaces each number by its result with `scalar`, unless it would be divided by 0.
#[inline(never)]
pub fn lone_in_place<T: Number, O: Operation>(values: &mut [T], scalar: T) {
    if O::DIVIDES && scalar == T::ZERO {
        return;
    }
    for x in values {
        *x = O::answer(*x, scalar);
    }
}

/// Returns a bit for each number that is not 0.
#[inline(never)]
pub fn nonzero<T: Number>(values: &[T]) -> Vec<u64> {
    test_each(values, |value| value != T::ZERO)
}

/// Returns the bits that the words have, and the other ones too, if there are some.
#[inline(never)]
pub fn joined(words: &[u64], others: &[u64]) -> Vec<u64> {
    words.iter().zip(others).map(|(x, y)| x & y).collect()
}

/// Joins words in place, over the first ones.
#[inline(never)]
pub fn join(words: &mut [u64], others: &[u64]) {
    for (x, y) in words.iter_mut().zip(others) {
        *x &= y;
    }
}
