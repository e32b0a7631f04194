//! The Rust types of rows, offsets and keys, and their formats.
//!
//! A format ends with a zero byte, as in C.
#![forbid(unsafe_code)]

use std::fmt::Debug;

pub(crate) mod sealed {
    /// An integer that 128 bits hold.
    pub trait Widen: Copy {
        /// Returns the same number.
        fn widen(self) -> i128;
    }

    macro_rules! widened {
        ($($number:ty),*) => {
            $(
                impl Widen for $number {
                    fn widen(self) -> i128 {
                        self as i128
                    }
                }
            )*
        };
    }

    widened!(i8, i16, i32, i64, i128, isize, u8, u16, u32, u64, usize);

    /// A type of the elements that buffers have.
    pub trait Sealed: Copy + Send + Sync {
        /// Lends elements.
        fn lend(elements: &[Self]) -> Slice<'_>;

        /// Returns the elements, if they are of this type.
        fn seen(slice: Slice<'_>) -> Option<&[Self]>;
    }

    macro_rules! elements {
        ($($kind:ident: $element:ty),*) => {
            /// The elements of a buffer.
            #[derive(Debug)]
            pub enum Slice<'x> {
                $($kind(&'x [$element])),*
            }

            $(
                impl Sealed for $element {
                    fn lend(elements: &[Self]) -> Slice<'_> {
                        Slice::$kind(elements)
                    }

                    fn seen(slice: Slice<'_>) -> Option<&[Self]> {
                        match slice {
                            Slice::$kind(elements) => Some(elements),
                            _ => None,
                        }
                    }
                }
            )*
        };
    }

    elements! {
        I8: i8, I16: i16, I32: i32, I64: i64, I128: i128,
        U8: u8, U16: u16, U32: u32, U64: u64, U128: u128,
        F32: f32, F64: f64
    }
}

/// A type of numbers that an array can store: `i8` to `i64`, `u8` to `u64`, `f32`, `f64`.
///
/// Floats are compared only by [`equal_with`](crate::equal_with) and
/// [`equal_counted`](crate::equal_counted), with
/// [`EqualOptions::floats_by_bits`](crate::EqualOptions::floats_by_bits).
pub trait Number:
    sealed::Sealed + Copy + Debug + Default + PartialEq + Send + Sync + 'static
{
    #[doc(hidden)]
    const FORMAT: &'static [u8];
}

/// A type of integers that an array can store: `i8` to `i64`, `u8` to `u64`. Arithmetic needs these
/// types, and so do the keys of dictionaries.
pub trait Integer: Number + AnyInteger + Ord + Into<i128> + TryFrom<i128> {}

/// A type of integers that can be compared with an array, or be the ends of a range: `i8` to
/// `i128`, `u8` to `u64`, `isize`, `usize`. `bool` is not such a type:
///
/// ```compile_fail,E0277
/// # use dunkelva::{compare_number, Array, Comparison};
/// let found = compare_number(&Array::numbers(&[1, 2]), Comparison::Less, true);
/// ```
pub trait AnyInteger: sealed::Widen {}

impl<T: sealed::Widen> AnyInteger for T {}

/// A type of offsets into bytes or items: `i32` or `i64`.
pub trait Offset: Number + Ord {
    #[doc(hidden)]
    const TEXTS: &'static [u8];
    #[doc(hidden)]
    const BINARY: &'static [u8];
    #[doc(hidden)]
    const LIST: &'static [u8];
    #[doc(hidden)]
    fn place(self) -> Option<usize>;
}

macro_rules! numbers {
    ($($number:ty = $format:literal),*) => {
        $(
            impl Number for $number {
                const FORMAT: &'static [u8] = $format;
            }
        )*
    };
}

macro_rules! keys {
    ($($number:ty = $format:literal),*) => {
        numbers!($($number = $format),*);
        $(impl Integer for $number {})*
    };
}

keys!(i8 = b"c\0", i16 = b"s\0", i32 = b"i\0", i64 = b"l\0");
keys!(u8 = b"C\0", u16 = b"S\0", u32 = b"I\0", u64 = b"L\0");
numbers!(f32 = b"f\0", f64 = b"g\0");

impl Offset for i32 {
    const TEXTS: &'static [u8] = b"u\0";
    const BINARY: &'static [u8] = b"z\0";
    const LIST: &'static [u8] = b"+l\0";
    fn place(self) -> Option<usize> {
        usize::try_from(self).ok()
    }
}

impl Offset for i64 {
    const TEXTS: &'static [u8] = b"U\0";
    const BINARY: &'static [u8] = b"Z\0";
    const LIST: &'static [u8] = b"+L\0";
    fn place(self) -> Option<usize> {
        usize::try_from(self).ok()
    }
}

/// Returns the plain format, such as `l`, of the whole numbers of 8 to 64 bits that a format stands
/// for. The argument has no byte 0 at its end.
pub(crate) fn numbers_of(format: &[u8]) -> Option<&'static [u8]> {
    let plain = [i8::FORMAT, i16::FORMAT, i32::FORMAT, i64::FORMAT]
        .into_iter()
        .chain([u8::FORMAT, u16::FORMAT, u32::FORMAT, u64::FORMAT]);
    let text = std::str::from_utf8(format).ok()?;
    let is_of = |it: &&[u8]| it.strip_suffix(b"\0") == Some(format) || is_kept_as(text, it);
    plain.into_iter().find(is_of)
}

/// Says whether a format stands for numbers that are kept as those of a plain format, `i` or `l`:
/// dates, times, points in time, spans, decimals.
pub(crate) fn is_kept_as(format: &str, plain: &[u8]) -> bool {
    let bits = match format {
        "tdD" | "tts" | "ttm" | "tiM" => 32,
        "tdm" | "ttu" | "ttn" | "tDs" | "tDm" | "tDu" | "tDn" | "tiD" => 64,
        _ if ["tss:", "tsm:", "tsu:", "tsn:"]
            .iter()
            .any(|it| format.starts_with(it)) =>
        {
            64
        }
        _ => decimal_bits(format),
    };
    matches!((bits, plain), (32, b"i\0") | (64, b"l\0"))
}

/// Returns how many bits a decimal of a format such as `d:9,2,32` has, if they are 32 or 64, and 0
/// for other formats. Decimals of 32 bits have up to 9 digits, those of 64 bits up to 18.
fn decimal_bits(format: &str) -> u32 {
    let parts = format.strip_prefix("d:").unwrap_or_default().split(',');
    let (precision, scale, bits, most) = match parts.collect::<Vec<_>>()[..] {
        [precision, scale, "32"] => (precision, scale, 32, 9),
        [precision, scale, "64"] => (precision, scale, 64, 18),
        _ => return 0,
    };
    let has_precision = digits(precision).map_or(false, |it| (1..=most).contains(&it));
    let has_scale = digits(scale.strip_prefix('-').unwrap_or(scale)).is_some();
    if has_precision && has_scale {
        bits
    } else {
        0
    }
}

/// Returns the number of a text that has only digits.
fn digits(text: &str) -> Option<i32> {
    let is_all = text.bytes().all(|it| it.is_ascii_digit());
    text.parse().ok().filter(|_| is_all)
}

/// Returns the least and the greatest number of a plain format.
pub(crate) fn bounds(plain: &[u8]) -> Option<(i128, i128)> {
    macro_rules! find {
        ($($number:ident),*) => {
            $(
                if plain == $number::FORMAT {
                    return Some(($number::MIN.into(), $number::MAX.into()));
                }
            )*
        };
    }
    find!(i8, i16, i32, i64, u8, u16, u32, u64);
    None
}

#[cfg(test)]
mod tests {
    use super::{bounds, is_kept_as, numbers_of};

    #[test]
    fn formats_fit_the_width_of_their_numbers() {
        for format in ["tdD", "tts", "ttm", "tiM", "d:9,2,32", "d:9,-2,32"] {
            assert!(
                is_kept_as(format, b"i\0") && !is_kept_as(format, b"l\0"),
                "{format}"
            );
        }
        for format in [
            "tdm",
            "ttn",
            "tDu",
            "tiD",
            "tss:",
            "tsn:Europe/Oslo",
            "d:18,4,64",
        ] {
            assert!(
                is_kept_as(format, b"l\0") && !is_kept_as(format, b"i\0"),
                "{format}"
            );
        }
        // "d:9,32" is a decimal of 128 bits with the scale 32.
        for format in [
            "",
            "i",
            "l",
            "u",
            "tin",
            "d:9,32",
            "d:9,2",
            "d:9,2,128",
            "d:9,2,32,",
            "d:x,y,32",
            "d:,2,32",
            "d:9,,32",
            "d:9,-,32",
            "d:9,--2,32",
            "d:+9,2,32",
            "d:9,+2,32",
            "d:9, 2,32",
            "d:0,0,32",
            "d:10,2,32",
            "d:19,2,64",
            "d:9,2147483648,64",
            "+s",
        ] {
            assert!(
                !is_kept_as(format, b"i\0") && !is_kept_as(format, b"l\0"),
                "{format}"
            );
        }
        assert!(!is_kept_as("tdD", b"I\0"));
    }

    #[test]
    fn formats_stand_for_numbers_of_one_type() {
        for format in ["c", "s", "i", "l", "C", "S", "I", "L"] {
            let plain = numbers_of(format.as_bytes()).unwrap();
            assert_eq!(plain, format!("{format}\0").as_bytes());
        }
        assert_eq!(bounds(b"c\0"), Some((-128, 127)));
        assert_eq!(bounds(b"S\0"), Some((0, 65_535)));
        assert_eq!(bounds(b"f\0"), None);
        assert_eq!(numbers_of(b"tdD"), Some(&b"i\0"[..]));
        assert_eq!(numbers_of(b"tsu:UTC"), Some(&b"l\0"[..]));
        for format in [
            "", "f", "g", "e", "b", "n", "u", "d:9,2", "+l", "ii", "i\0", "tdDx",
        ] {
            assert_eq!(numbers_of(format.as_bytes()), None, "{format:?}");
        }
    }
}
