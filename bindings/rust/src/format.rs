//! Formats of dates, times, timestamps, durations and intervals, for
//! [`Array::with_format`](crate::Array::with_format) and
//! [`Numbers::with_format`](crate::Numbers::with_format).
//!
//! A format is a text of the [Arrow C data
//! interface](https://arrow.apache.org/docs/format/CDataInterface.html). The constants have the
//! names of Arrow's types. To set the time zone of timestamps, append it to the format. Decimals of
//! 32 and 64 bits have formats such as `d:9,2,32` and `d:18,2,64`, with the precision, the scale
//! and the bits.
//!
//! Intervals in days and milliseconds can be compared by [`equal`](crate::equal) and collected by
//! [`Unique`](crate::Unique). Calls that order numbers or calculate with them return
//! [`Error::Unsupported`](crate::Error::Unsupported) for these intervals.
//!
//! # Examples
//!
//! ```
//! use dunkelva::{format, Array, Error};
//!
//! let days = Array::numbers(&[19_000_i32]).with_format(format::DATE32)?;
//! let in_oslo = format!("{}Europe/Oslo", format::TIMESTAMP_SECOND);
//! let points = Array::numbers(&[1_700_000_000_i64]).with_format(&in_oslo)?;
//! assert_eq!((days.format(), points.format()), ("tdD", "tss:Europe/Oslo"));
//! # Ok::<(), Error>(())
//! ```
#![forbid(unsafe_code)]

macro_rules! formats {
    ($($name:ident = $format:literal, $bits:ident: $what:literal;)*) => {
        $(
            #[doc = concat!($what, ", in `", stringify!($bits), "`.")]
            pub const $name: &str = $format;
        )*

        #[cfg(test)]
        const ALL: &[(&str, &str)] = &[$(($format, stringify!($bits))),*];
    };
}

formats! {
    DATE32 = "tdD", i32: "Days since 1970-01-01";
    DATE64 = "tdm", i64: "Milliseconds since 1970-01-01, for whole days";
    TIME32_SECOND = "tts", i32: "Seconds since midnight";
    TIME32_MILLISECOND = "ttm", i32: "Milliseconds since midnight";
    TIME64_MICROSECOND = "ttu", i64: "Microseconds since midnight";
    TIME64_NANOSECOND = "ttn", i64: "Nanoseconds since midnight";
    DURATION_SECOND = "tDs", i64: "Durations in seconds";
    DURATION_MILLISECOND = "tDm", i64: "Durations in milliseconds";
    DURATION_MICROSECOND = "tDu", i64: "Durations in microseconds";
    DURATION_NANOSECOND = "tDn", i64: "Durations in nanoseconds";
    INTERVAL_YEAR_MONTH = "tiM", i32: "Intervals in months";
    INTERVAL_DAY_TIME = "tiD", i64: "Intervals in days and milliseconds, of 32 bits each";
    TIMESTAMP_SECOND = "tss:", i64: "Timestamps in seconds, without a time zone";
    TIMESTAMP_MILLISECOND = "tsm:", i64: "Timestamps in milliseconds, without a time zone";
    TIMESTAMP_MICROSECOND = "tsu:", i64: "Timestamps in microseconds, without a time zone";
    TIMESTAMP_NANOSECOND = "tsn:", i64: "Timestamps in nanoseconds, without a time zone";
}

#[cfg(test)]
mod tests {
    use super::ALL;
    use crate::names::Shown;
    use crate::types::is_kept_as;

    #[test]
    fn formats_are_of_numbers_of_their_width() {
        for (format, number) in ALL {
            let is_short = *number == "i32";
            assert_eq!(is_kept_as(format, b"i\0"), is_short, "{format}");
            assert_eq!(is_kept_as(format, b"l\0"), !is_short, "{format}");
        }
    }

    #[test]
    fn names_are_those_of_arrow() {
        for (format, name) in [
            (super::DATE32, "Date32"),
            (super::DATE64, "Date64"),
            (super::TIME32_MILLISECOND, "Time32(Millisecond)"),
            (super::TIME64_MICROSECOND, "Time64(Microsecond)"),
            (super::DURATION_NANOSECOND, "Duration(Nanosecond)"),
            (super::INTERVAL_YEAR_MONTH, "Interval(YearMonth)"),
            (super::INTERVAL_DAY_TIME, "Interval(DayTime)"),
            (super::TIMESTAMP_SECOND, "Timestamp(Second)"),
            (super::TIMESTAMP_NANOSECOND, "Timestamp(Nanosecond)"),
        ] {
            assert_eq!(Shown(format).to_string(), format!("{format} ({name})"));
        }
    }
}
