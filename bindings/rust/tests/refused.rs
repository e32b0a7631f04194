//! Lies about lengths, and what else is refused.

mod common;

use dunkelva::{
    compare, compare_number, count_ones, equal, equal_counted, format, is_null, min_max,
    wrapping_add, wrapping_neg, wrapping_sum, Array, BitOperation, Bitmap, Comparison,
    EqualOptions, Error, Mask, Numbers, Unique,
};

/// Returns the error of a call that does not support a type.
fn unsupported<T>(format: &str) -> Result<T, Error> {
    let format = format.into();
    Err(Error::Unsupported { format })
}

/// Returns the message of an error.
fn message<T: std::fmt::Debug>(result: Result<T, Error>) -> String {
    result.unwrap_err().to_string()
}

#[test]
fn bits_that_are_too_few() {
    assert!(Bitmap::new(&[0; 2], 3, 13).is_ok());
    assert_eq!(
        message(Bitmap::new(&[0; 2], 3, 14)),
        "the bits have length 16, and 17 is needed"
    );
    for (first, rows) in [(usize::MAX, 1), (1, usize::MAX), (17, 0)] {
        assert!(matches!(
            Bitmap::new(&[0; 2], first, rows),
            Err(Error::WrongLength { .. })
        ));
    }
    assert_eq!(Bitmap::new(&[0xff], 0, 8).unwrap().get(8), None);
    assert_eq!(Bitmap::new(&[0xff], 3, 5).unwrap().get(usize::MAX), None);
}

#[test]
fn validities_of_another_length() {
    for rows in [2, 4] {
        let present = Bitmap::new(&[0xff], 0, rows).unwrap();
        let refused = Err(Error::WrongLength {
            what: "bits of the validity".into(),
            has: rows,
            needs: 3,
        });
        assert_eq!(
            Array::numbers(&[1, 2, 3]).with_validity(present).map(drop),
            refused
        );
    }
    let present = Bitmap::new(&[0xff], 0, 2).unwrap();
    assert_eq!(
        Array::nulls(2).with_validity(present).map(drop),
        unsupported("n")
    );
    let owned = Array::numbers(&[1, 2]).with_validity(Mask::from(vec![true]));
    assert_eq!(
        message(owned),
        "the bits of the validity have length 1, and 2 is needed"
    );
}

#[test]
fn offsets_that_lie() {
    let told = "the offsets end at 4, but there are 3 bytes";
    assert_eq!(message(Array::texts(&[0, 1, 4], b"abc")), told);
    assert_eq!(message(Array::binary(&[0_i64, 4], b"abc")), told);
    assert_eq!(message(Array::texts(&[4_i64], b"abc")), told);
    let told = "the offsets end at 3, but there are 2 items";
    assert_eq!(
        message(Array::lists(&[0, 1, 3], Array::numbers(&[1, 2]))),
        told
    );
    for offsets in [
        [0, 2, 1],
        [-1, 0, 1],
        [0, -1, 1],
        [i32::MAX, 0, 1],
        [0, 9, 1],
    ] {
        assert_eq!(
            Array::texts(&offsets, b"abc").map(drop),
            Err(Error::BadOffsets)
        );
        let large = offsets.map(i64::from);
        assert_eq!(
            Array::binary(&large, b"abc").map(drop),
            Err(Error::BadOffsets)
        );
        assert_eq!(
            Array::lists(&large, Array::nulls(9)).map(drop),
            Err(Error::BadOffsets)
        );
    }
}

#[test]
fn sizes_that_lie() {
    assert!(Array::fixed_size_binary(3, 2, b"abcdef").is_ok());
    assert_eq!(
        message(Array::fixed_size_binary(3, 2, b"abcde")),
        "the bytes have length 5, and 6 is needed"
    );
    assert!(Array::fixed_size_binary(usize::MAX, 2, b"abcde").is_err());
    assert_eq!(
        message(Array::fixed_size_lists(
            2,
            3,
            Array::numbers(&[1, 2, 3, 4, 5])
        )),
        "the items have length 5, and 6 is needed"
    );
}

#[test]
fn fields_of_other_lengths() {
    for count in [1, 3] {
        let fields = [("a", Array::nulls(2)), ("b", Array::nulls(count))];
        assert_eq!(
            message(Array::structs(2, fields)),
            format!("the rows of the field \"b\" have length {count}, and 2 is needed")
        );
    }
    let named = Array::structs(1, [("a\0b", Array::nulls(1))]);
    assert_eq!(message(named), "the name \"a\\0b\" has a byte 0");
}

#[test]
fn windows_outside() {
    let array = Array::numbers(&[1, 2, 3]);
    assert_eq!(array.slice(3, 0).map(|it| it.len()), Ok(0));
    for (first, rows) in [(0, 4), (4, 0), (2, 2), (usize::MAX, 1), (1, usize::MAX)] {
        let outside = Error::SliceOutOfBounds {
            first,
            rows,
            len: 3,
        };
        assert_eq!(array.slice(first, rows).map(drop), Err(outside));
    }
    assert_eq!(
        message(array.slice(2, 2)),
        "2 rows from row 2 on were asked for, and the array has 3"
    );
}

#[test]
fn formats_that_do_not_fit() {
    let formats = [
        "tdm",
        "l",
        "",
        "d:9,32",
        "d:9,2",
        "d:x,y,32",
        "d:10,2,32",
        "tdD\0",
        "tdDx",
        "+s",
        "w:4",
    ];
    for format in formats {
        let refused = Error::BadFormat {
            format: format.into(),
            array: "i".into(),
        };
        let array = Array::numbers(&[1, 2]).with_format(format);
        assert_eq!(array.map(drop), Err(refused), "{format:?}");
    }
    let days = Array::numbers(&[1, 2]).with_format("tdD").unwrap();
    assert_eq!(
        message(days.with_format("tts")),
        "the format \"tts\" does not fit the type tdD (Date32)"
    );
    let keys = Array::dictionary(&[0_i32], Array::nulls(1)).unwrap();
    assert_eq!(
        message(keys.with_format("tdD")),
        "the format \"tdD\" does not fit the type i<n> (Dictionary(Int32, Null))"
    );
    // what is taken, the library can read
    for (format, wide) in [("d:9,-2,32", false), ("d:18,0,64", true), ("tsu:", true)] {
        let array = match wide {
            true => Array::numbers(&[1_i64]).with_format(format),
            false => Array::numbers(&[1_i32]).with_format(format),
        };
        let array = array.unwrap();
        assert_eq!(array.format(), format);
        assert!(equal(&array, &array).unwrap().all(), "{format}");
    }
}

#[test]
fn keys_that_name_no_entry() {
    for key in [2_i16, -1, i16::MAX] {
        let keys = [0, key];
        let array = Array::dictionary(&keys, Array::numbers(&[5, 6])).unwrap();
        assert_eq!(equal(&array, &array), Err(Error::BadArray));
        // under a null a key may be anything
        let present = Bitmap::new(&[0b01], 0, 2).unwrap();
        let array = array.with_validity(present).unwrap();
        assert!(equal(&array, &array).unwrap().all());
    }
}

#[test]
fn lengths_that_differ() {
    let (short, long) = (Numbers::from(&[1]), Numbers::from(&[1, 2]));
    let differ = Error::LengthMismatch { left: 1, right: 2 };
    assert_eq!(differ.to_string(), "the lengths differ: 1 and 2");
    assert_eq!(equal(&short, &long), Err(differ.clone()));
    assert_eq!(
        compare(&short, Comparison::Less, &long),
        Err(differ.clone())
    );
    let counted = equal_counted(&short, &long, EqualOptions::default());
    assert_eq!(counted, Err(differ.clone()));
    assert_eq!(wrapping_add(&short, &long), Err(differ));
    assert!(wrapping_add(&short, 1).is_ok() && wrapping_add(&long, 1).is_ok());
}

#[test]
fn types_that_differ() {
    let differ = |left: &Array<'_>, right: &Array<'_>, one: &str, other: &str| {
        let differ = Error::TypeMismatch {
            left: one.into(),
            right: other.into(),
        };
        assert_eq!(equal(left, right), Err(differ.clone()));
        let counted = equal_counted(left, right, EqualOptions::default());
        assert_eq!(counted, Err(differ));
        let told = message(equal(right, left));
        assert!(told.starts_with(&format!("the types differ: {other} (")));
    };
    let (small, wide) = (Array::numbers(&[1]), Array::numbers(&[1_i64]));
    differ(&small, &wide, "i", "l");
    assert!(matches!(
        compare(&small, Comparison::Less, &wide),
        Err(Error::TypeMismatch { .. })
    ));
    let words: Array<'_> = ["a"].into_iter().collect();
    let keys = Array::dictionary(&[0], words.clone()).unwrap();
    differ(&small, &keys, "i", "i<u>");
    let list = |items| Array::lists(&[0, 1], items).unwrap();
    differ(
        &list(small.clone()),
        &list(keys.clone()),
        "+l<i>",
        "+l<i<u>>",
    );
    let rows = |name, array| Array::structs(1, [("id", list(words.clone())), (name, array)]);
    let (left, right) = (rows("n", small.clone()), rows("n", wide));
    differ(
        &left.unwrap(),
        &right.unwrap(),
        "+s<id: +l<u>, n: i>",
        "+s<id: +l<u>, n: l>",
    );
    let (left, right) = (rows("n", small.clone()), rows("m", small));
    differ(
        &left.unwrap(),
        &right.unwrap(),
        "+s<id: +l<u>, n: i>",
        "+s<id: +l<u>, m: i>",
    );
}

#[test]
fn types_are_told_with_their_names_in_arrow() {
    let told = |left: Result<Array<'_>, Error>, right: Result<Array<'_>, Error>| {
        message(equal(&left.unwrap(), &right.unwrap()))
    };
    let (texts, large) = (Array::texts(&[0_i32], b""), Array::texts(&[0_i64], b""));
    assert_eq!(
        told(texts, large),
        "the types differ: u (Utf8) and U (LargeUtf8)"
    );
    let lists = Array::lists(&[0, 1], Array::numbers(&[1_u8]));
    let rows = [("a b", Array::nulls(1)), ("c", Array::numbers(&[1_i64]))];
    assert_eq!(
        told(lists, Array::structs(1, rows)),
        "the types differ: +l<C> (List(UInt8)) and \
         +s<\"a b\": n, c: l> (Struct(\"a b\": Null, c: Int64))"
    );
}

#[test]
fn numbers_that_a_type_lacks() {
    let bytes = Array::numbers(&[1_i8]);
    for number in [128, -129, i64::MAX] {
        let lacks = Error::NotRepresentable {
            number: number.into(),
            format: "c".into(),
        };
        let found = compare_number(&bytes, Comparison::Less, number);
        assert_eq!(found, Err(lacks));
    }
    assert_eq!(
        message(compare_number(&bytes, Comparison::Less, 128)),
        "the type c (Int8) has no number 128"
    );
}

#[test]
fn types_that_a_call_does_not_take() {
    let bytes = Array::binary(&[0, 1], b"a").unwrap();
    assert_eq!(wrapping_sum(&bytes), unsupported("z"));
    assert_eq!(
        message(wrapping_sum(&bytes)),
        "the call does not support the type z (Binary)"
    );
    assert_eq!(min_max(&Array::numbers(&[1.5])), unsupported("g"));
    let less = compare_number(&bytes, Comparison::Less, 1);
    assert_eq!(less, unsupported("z"));
    let wide = Array::decimals(&[1], 38, 0).unwrap();
    assert_eq!(wrapping_sum(&wide), unsupported("d:38,0"));
    let less = |left, right| compare(left, Comparison::Less, right);
    assert_eq!(less(&bytes, &bytes), unsupported("z"));
    let number = Array::numbers(&[1]);
    assert_eq!(less(&number, &bytes), unsupported("z"));
    assert_eq!(less(&bytes, &number), unsupported("z"));
}

#[test]
fn intervals_of_days_and_milliseconds_are_no_numbers() -> Result<(), Error> {
    let (day, second) = (1_i64, 1000_i64 << 32);
    let rows = Numbers::from(vec![day, second, day]).with_format(format::INTERVAL_DAY_TIME)?;
    assert_eq!(rows.min_max(), unsupported("tiD"));
    assert_eq!(rows.wrapping_sum(), unsupported("tiD"));
    assert_eq!(rows.reduce_bits(BitOperation::Or), unsupported("tiD"));
    assert_eq!(wrapping_add(&rows, &rows), unsupported("tiD"));
    assert_eq!(wrapping_add(&rows, 1), unsupported("tiD"));
    assert_eq!(wrapping_neg(&rows), unsupported("tiD"));
    assert_eq!(count_ones(&rows), unsupported("tiD"));
    let less = compare(&rows, Comparison::Less, &rows);
    assert_eq!(less, unsupported("tiD"));
    assert!(equal(&rows, &rows)?.all());
    assert!(rows.to_numbers::<i64>()?.iter().eq(rows.iter()));
    let mut seen = Unique::new(day..=day)?;
    let last = rows.slice(2, 1)?;
    seen.append(&last)?;
    assert_eq!(seen.values()?, [1]);
    Ok(())
}

#[test]
fn floats_are_refused_with_what_to_call() {
    let told = |array: &Array<'_>| {
        assert!(message(equal(array, array))
            .ends_with(": floats are compared by equal_with with floats_by_bits"));
    };
    let share = Array::numbers(&[0.5_f32]);
    let floats = || Err(Error::FloatsUnsupported { format: "f".into() });
    assert_eq!(equal(&share, &share), floats());
    let number = Array::numbers(&[1]);
    assert_eq!(equal(&number, &share), floats());
    assert_eq!(equal(&share, &number), floats());
    let counted = equal_counted(&share, &share, EqualOptions::new());
    assert_eq!(counted.map(|(same, _)| same), floats());
    // Other calls have no option for floats.
    assert_eq!(
        message(compare(&share, Comparison::Less, &share)),
        "the call does not support the type f (Float32)"
    );
    assert_eq!(
        message(wrapping_sum(&share)),
        "the call does not support the type f (Float32)"
    );
    told(&share);
    told(&Array::lists(&[0, 1], share.clone()).unwrap());
    let rows = [("id", Array::numbers(&[1])), ("share", share)];
    told(&Array::structs(1, rows).unwrap());
}

#[test]
fn precisions_of_decimals() {
    assert!(Array::decimals(&[1], 1, 0).is_ok() && Array::decimals(&[1], 38, -3).is_ok());
    for precision in [0, 39, u8::MAX] {
        assert_eq!(
            message(Array::decimals(&[1], precision, 2)),
            format!("decimals of 128 bits have a precision of 1 to 38, not {precision}")
        );
    }
}

#[test]
fn types_that_are_too_many() {
    let mut array = Array::numbers(&[1]);
    for _ in 1..64 {
        array = Array::lists(&[0, 1], array).unwrap();
    }
    assert!(equal(&array, &array).unwrap().all());
    assert_eq!(Array::lists(&[0, 1], array).map(drop), Err(Error::TooDeep));
    let mut array = Array::numbers(&[1]);
    for _ in 0..19 {
        array = Array::structs(1, [("a", array.clone()), ("b", array)]).unwrap();
    }
    let twice = [("a", array.clone()), ("b", array)];
    assert_eq!(Array::structs(1, twice).map(drop), Err(Error::TooManyTypes));
}

#[test]
fn rows_that_are_too_many() {
    let array = Array::nulls(usize::MAX);
    assert!(matches!(
        is_null(&array),
        Err(Error::NoMemory | Error::BadStructs)
    ));
    assert!(matches!(
        equal(&array, &array),
        Err(Error::NoMemory | Error::BadStructs)
    ));
    let array = Array::structs::<&str>(usize::MAX / 2, []).unwrap();
    assert!(equal(&array, &array).is_err());
    let last = array.slice(usize::MAX / 2 - 1, 1).unwrap();
    let validity = last.with_validity(Bitmap::new(&[1], 0, 1).unwrap());
    assert_eq!(validity.map(drop), Err(Error::NoMemory));
}

#[test]
fn each_error_has_a_message() {
    let text = String::from;
    let errors = [
        Error::LengthMismatch { left: 1, right: 2 },
        Error::TypeMismatch {
            left: text("i"),
            right: text("l"),
        },
        Error::RangeMismatch {
            left: 0..=1,
            right: 0..=2,
        },
        Error::NotRepresentable {
            number: 128,
            format: text("c"),
        },
        Error::OutOfUniqueRange { range: 0..=1 },
        Error::BadRange {
            least: 1,
            greatest: 0,
        },
        Error::WrongLength {
            what: text("bits"),
            has: 1,
            needs: 2,
        },
        Error::OffsetsPastEnd {
            end: 9,
            what: "bytes",
            has: 3,
        },
        Error::SliceOutOfBounds {
            first: 0,
            rows: 2,
            len: 1,
        },
        Error::BadOffsets,
        Error::TooLong,
        Error::BadFormat {
            format: text("tdm"),
            array: text("i"),
        },
        Error::BadPrecision { precision: 39 },
        Error::BadName { name: text("a\0b") },
        Error::TooDeep,
        Error::TooManyTypes,
        Error::Unsupported { format: text("g") },
        Error::FloatsUnsupported { format: text("g") },
        Error::ForeignValidity,
        Error::BadArray,
        Error::BadStructs,
        Error::BadArgument,
        Error::NoMemory,
        Error::Unknown(99),
    ];
    let mut messages: Vec<_> = errors.iter().map(ToString::to_string).collect();
    messages.sort();
    messages.dedup();
    assert_eq!(messages.len(), errors.len());
    assert_eq!(
        Error::Unknown(99).to_string(),
        "unknown status 99 of libdunkelva"
    );
    let _: Box<dyn std::error::Error + Send + Sync> = Error::NoMemory.into();
}
