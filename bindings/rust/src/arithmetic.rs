//! Arithmetic, row by row.
#![forbid(unsafe_code)]

use crate::structs::Typed;
use crate::sys::{self, Wide};
use crate::types::Integer;
use crate::{Array, Error, Numbers};
use std::os::raw::c_uint;

/// An operation on two numbers. Results wrap around in the number type: in `i8` 100 + 100 is -56.
#[derive(Clone, Copy, Debug, PartialEq, Eq, Hash)]
pub enum Operation {
    /// The sum.
    Add = 0,
    /// The difference.
    Sub = 1,
    /// The product.
    Mul = 2,
    /// The quotient, rounded down: -7 divided by 2 is -4. Null if the divisor is 0.
    FloorDiv = 3,
    /// The quotient, rounded toward 0, like Rust's `/`: -7 divided by 2 is -3. Null if the divisor
    /// is 0.
    TruncDiv = 4,
    /// The remainder of the division that rounds down: -7 modulo 2 is 1. Unlike the result of
    /// Rust's `%`, the remainder is 0 or has the sign of the divisor. Null if the divisor is 0.
    Mod = 5,
}

/// One side of an operation: a column of numbers, or one number for all rows.
///
/// `&Numbers<T>` and numbers of type `T` convert into an operand.
#[derive(Clone, Copy, Debug)]
pub enum Operand<'x, T: Integer> {
    /// A number for each row, or null.
    Rows(&'x Numbers<'x, T>),
    /// One number for all rows.
    Number(T),
}

impl<'x, T: Integer> From<&'x Numbers<'_, T>> for Operand<'x, T> {
    fn from(rows: &'x Numbers<'_, T>) -> Self {
        Operand::Rows(rows)
    }
}

impl<T: Integer> From<T> for Operand<'_, T> {
    fn from(number: T) -> Self {
        Operand::Number(number)
    }
}

/// Calculates with two columns of numbers row by row, or with a column and one number. Results wrap
/// around in the number type. A result is null if one of the two rows is null, or if the divisor
/// is 0.
///
/// If both sides are numbers, the result has one row.
///
/// For dates, times, and decimals of 32 and 64 bits, the call calculates with the stored integers;
/// the scale of decimals is ignored. The result has the format of plain integers.
///
/// # Errors
///
/// - [`Error::LengthMismatch`], if both sides are columns, and their lengths differ.
/// - [`Error::TypeMismatch`], if both sides are columns, and their formats differ.
/// - [`Error::Unsupported`], if the format is [`INTERVAL_DAY_TIME`](crate::format).
/// - [`Error::NoMemory`], if an allocation fails.
///
/// # Examples
///
/// ```
/// use dunkelva::{arithmetic, wrapping_sum, Error, Numbers, Operation};
///
/// let amounts: Numbers<i64> = [Some(7), Some(-7), None, Some(1)].into_iter().collect();
/// let parts = Numbers::from(&[2, 2, 2, 0]);
/// let each = arithmetic(&amounts, Operation::FloorDiv, &parts)?;
/// assert!(each.iter().eq([Some(3), Some(-4), None, None]));
/// assert_eq!(wrapping_sum(&each)?, Some(-1));
/// let rests = arithmetic(&amounts, Operation::Mod, 4)?;
/// assert!(rests.iter().eq([Some(3), Some(1), None, Some(1)]));
/// # Ok::<(), Error>(())
/// ```
pub fn arithmetic<'l, 'r, T: Integer>(
    left: impl Into<Operand<'l, T>>,
    operation: Operation,
    right: impl Into<Operand<'r, T>>,
) -> Result<Numbers<'static, T>, Error> {
    match (left.into(), right.into()) {
        (Operand::Rows(left), Operand::Rows(right)) => of_rows(left, operation, right),
        (Operand::Rows(rows), Operand::Number(number)) => {
            with_number(rows.typed(), rows, (operation, Side::Right), number)
        }
        (Operand::Number(number), Operand::Rows(rows)) => {
            with_number(rows.typed(), rows, (operation, Side::Left), number)
        }
        (Operand::Number(left), Operand::Number(right)) => {
            let one = Numbers::from(vec![left]);
            with_number(one.typed(), &one, (operation, Side::Right), right)
        }
    }
}

fn of_rows<T: Integer>(
    left: &Numbers<'_, T>,
    operation: Operation,
    right: &Numbers<'_, T>,
) -> Result<Numbers<'static, T>, Error> {
    left.has_length_of(right)?;
    let (one, other) = (left.typed(), right.typed());
    Numbers::written(left.len(), |values, present| {
        match sys::arithmetic(operation as c_uint, &one, &other, values, present) {
            2 => Err(Error::types_differ(left, right)),
            status => Error::check_array(status, left),
        }
    })
}

/// The side of an operation on which a number stands.
enum Side {
    Left = 0,
    Right = 1,
}

fn with_number<T: Integer>(
    typed: Typed<'_, T>,
    array: &Array<'_>,
    (operation, side): (Operation, Side),
    number: T,
) -> Result<Numbers<'static, T>, Error> {
    let number = Wide::of(number.into());
    let which = (operation as c_uint, side as c_uint);
    Numbers::written(array.len(), |values, present| {
        let status = sys::arithmetic_number(which, &number, &typed, values, present);
        Error::check_array(status, array)
    })
}

/// Copies numbers from any address: adds 0 to them, as plain integers.
pub(crate) fn copied<T: Integer>(
    typed: Typed<'_, T>,
    array: &Array<'_>,
) -> Result<Numbers<'static, T>, Error> {
    let plain = typed.into_plain();
    with_number(plain, array, (Operation::Add, Side::Right), T::default())
}

/// Negates each row. Results wrap around: in `i8` the negative of -128 is -128. Null rows stay
/// null.
///
/// # Errors
///
/// [`Error::Unsupported`], if the format is [`INTERVAL_DAY_TIME`](crate::format);
/// [`Error::NoMemory`], if an allocation fails.
///
/// # Examples
///
/// ```
/// use dunkelva::{wrapping_neg, Error, Numbers};
///
/// let negative = wrapping_neg(&Numbers::from(&[5_i8, -128]))?;
/// assert_eq!(negative.values(), [-5, -128]);
/// # Ok::<(), Error>(())
/// ```
pub fn wrapping_neg<T: Integer>(rows: &Numbers<'_, T>) -> Result<Numbers<'static, T>, Error> {
    signed(0, rows)
}

/// Returns the absolute value of each row. Results wrap around: in `i8` the absolute value of -128
/// is -128. Null rows stay null.
///
/// # Errors
///
/// [`Error::Unsupported`], if the format is [`INTERVAL_DAY_TIME`](crate::format);
/// [`Error::NoMemory`], if an allocation fails.
///
/// # Examples
///
/// ```
/// use dunkelva::{wrapping_abs, Error, Numbers};
///
/// let distances = wrapping_abs(&Numbers::from(&[-5_i8, 7, -128]))?;
/// assert_eq!(distances.values(), [5, 7, -128]);
/// # Ok::<(), Error>(())
/// ```
pub fn wrapping_abs<T: Integer>(rows: &Numbers<'_, T>) -> Result<Numbers<'static, T>, Error> {
    signed(1, rows)
}

fn signed<T: Integer>(sign: c_uint, rows: &Numbers<'_, T>) -> Result<Numbers<'static, T>, Error> {
    let typed = rows.typed();
    Numbers::written(rows.len(), |values, present| {
        Error::check_array(sys::sign(sign, &typed, values, present), rows)
    })
}

macro_rules! operations {
    ($($name:ident: $operation:ident, $what:literal, $call:literal, $result:literal;)*) => {
        $(
            #[doc = concat!($what, ", row by row. Results wrap around. The call is [`arithmetic`]")]
            #[doc = concat!("with [`Operation::", stringify!($operation), "`].")]
            ///
            /// # Errors
            ///
            /// The errors of [`arithmetic`].
            ///
            /// # Examples
            ///
            /// ```
            #[doc = concat!("use dunkelva::{", stringify!($name), ", Error, Numbers};")]
            ///
            /// let rows: Numbers<i8> = [Some(100), None, Some(-7)].into_iter().collect();
            #[doc = concat!("let found = ", stringify!($name), $call, "?;")]
            #[doc = concat!("assert!(found.iter().eq(", $result, "));")]
            /// # Ok::<(), Error>(())
            /// ```
            pub fn $name<'l, 'r, T: Integer>(
                left: impl Into<Operand<'l, T>>,
                right: impl Into<Operand<'r, T>>,
            ) -> Result<Numbers<'static, T>, Error> {
                arithmetic(left, Operation::$operation, right)
            }
        )*
    };
}

operations! {
    wrapping_add: Add, "Adds numbers", "(&rows, &rows)", "[Some(-56), None, Some(-14)]";
    wrapping_sub: Sub, "Subtracts numbers", "(100, &rows)", "[Some(0), None, Some(107)]";
    wrapping_mul: Mul, "Multiplies numbers", "(&rows, 3)", "[Some(44), None, Some(-21)]";
    wrapping_floor_div: FloorDiv, "Divides numbers, rounding down", "(&rows, 2)",
        "[Some(50), None, Some(-4)]";
    wrapping_trunc_div: TruncDiv, "Divides numbers, rounding toward 0", "(&rows, 2)",
        "[Some(50), None, Some(-3)]";
    wrapping_mod: Mod, "Returns the remainders of the division that rounds down", "(&rows, 2)",
        "[Some(0), None, Some(1)]";
}
