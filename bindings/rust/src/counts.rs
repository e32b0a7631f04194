//! Counts of the bits of each row.
#![forbid(unsafe_code)]

use crate::mask::zeros;
use crate::structs::Structs;
use crate::{is_null, sys, Array, Error, Numbers};
use std::os::raw::c_uint;

macro_rules! counts {
    ($($name:ident: $bits:literal, $what:literal, $result:literal;)*) => {
        $(
            #[doc = concat!("Counts the ", $what, " in each row. The count of a null row is null.")]
            ///
            /// Takes arrays of integers of 8 to 64 bits, dates, times, timestamps, durations, and
            /// decimals of 32 and 64 bits.
            ///
            /// # Errors
            ///
            /// - [`Error::Unsupported`], if the array has another type.
            /// - [`Error::BadStructs`] or [`Error::BadArray`], if the structs or the offsets of a
            ///   column of another crate are wrong.
            /// - [`Error::NoMemory`], if an allocation fails.
            ///
            /// # Examples
            ///
            /// ```
            #[doc = concat!("use dunkelva::{", stringify!($name), ", Array, Error};")]
            ///
            /// let rows: Array = [Some(0b1110_0001_u8), None].into_iter().collect();
            #[doc = concat!("let counts = ", stringify!($name), "(&rows)?;")]
            #[doc = concat!("assert!(counts.iter().eq([Some(", $result, "), None]));")]
            /// # Ok::<(), Error>(())
            /// ```
            pub fn $name(array: &Array<'_>) -> Result<Numbers<'static, u32>, Error> {
                count_bits($bits, array)
            }
        )*
    };
}

counts! {
    count_ones: 0, "bits that are 1", "4";
    count_zeros: 1, "bits that are 0", "4";
    leading_ones: 2, "ones above the highest zero", "3";
    leading_zeros: 3, "zeros above the highest one", "0";
    trailing_ones: 4, "ones below the lowest zero", "1";
    trailing_zeros: 5, "zeros below the lowest one", "0";
}

fn count_bits(bits: c_uint, array: &Array<'_>) -> Result<Numbers<'static, u32>, Error> {
    let mut counts = zeros(array.len())?;
    let status = sys::count_bits(bits, &Structs::of(array), &mut counts);
    Error::check_array(status, array)?;
    Ok(Numbers::kept(counts, !is_null(array)?))
}
