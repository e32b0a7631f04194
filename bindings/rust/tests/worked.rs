//! Rows worked out by hand.

mod common;

use common::digits;
use dunkelva::{
    compare, compare_number, count_ones, equal, equal_counted, equal_with, format, is_null,
    leading_zeros, library_version, max, min, min_max, not_equal, reduce_bits, trailing_ones,
    wrapping_sum, Array, BitOperation, Bitmap, Comparison, EqualOptions, Error, Mask, Numbers,
};

const FLOATS: EqualOptions = EqualOptions::new().floats_by_bits(true);
const CHECKED: EqualOptions = EqualOptions::new().check_texts(true);

fn same(left: &Array<'_>, right: &Array<'_>) -> Result<String, Error> {
    equal(left, right).map(|it| digits(&it))
}

fn have_other_types(left: &Array<'_>, right: &Array<'_>) -> bool {
    matches!(equal(left, right), Err(Error::TypeMismatch { .. }))
}

#[test]
fn numbers_of_each_type() -> Result<(), Error> {
    macro_rules! each {
        ($($number:ty),*) => {
            $(
                let left = [0, 1, <$number>::MAX, <$number>::MIN, 7];
                let right = [0, 2, <$number>::MAX, <$number>::MIN, 8];
                assert_eq!(same(&Array::numbers(&left), &Array::numbers(&right))?, "10110");
                assert_eq!(same(&Array::from(&left[..]), &Array::from(right.to_vec()))?, "10110");
            )*
        };
    }
    each!(i8, i16, i32, i64, u8, u16, u32, u64);
    let decimals = [i128::MAX, i128::MIN, 1 << 64, 1];
    let others = [i128::MAX, i128::MIN, 0, 1];
    assert_eq!(
        same(
            &Array::decimals(&decimals, 38, 2)?,
            &Array::decimals(&others, 38, 2)?
        )?,
        "1101"
    );
    Ok(())
}

#[test]
fn null_is_equal_to_null_alone() -> Result<(), Error> {
    // 1 null 3 null and 1 null 0 4, with other numbers under the nulls
    let left = Array::numbers(&[1, 2, 3, 4]).with_validity(Bitmap::new(&[0b0101], 0, 4)?)?;
    let right = Array::numbers(&[1, 9, 0, 4]).with_validity(Bitmap::new(&[0b1101], 0, 4)?)?;
    assert_eq!(same(&left, &right)?, "1100");
    assert_eq!(digits(&not_equal(&left, &right)?), "0011");
    assert_eq!(digits(&is_null(&left)?), "0101");
    // no validity: all rows are present
    assert_eq!(same(&left, &Array::numbers(&[1, 2, 3, 4]))?, "1010");
    assert_eq!(same(&Array::nulls(3), &Array::nulls(3))?, "111");
    Ok(())
}

#[test]
fn validities_begin_at_any_bit() -> Result<(), Error> {
    for first in 0..20 {
        // the third of four rows is null; bits before and after are 1
        let bytes = (!(0b100_u32 << first)).to_le_bytes();
        let present = Bitmap::new(&bytes, first, 4)?;
        let array = Array::numbers(&[5_u8, 6, 7, 8]).with_validity(present)?;
        assert_eq!(digits(&is_null(&array)?), "0010", "{first}");
        let late = Array::numbers(&[0_u8, 0, 5, 6, 7, 8])
            .slice(2, 4)?
            .with_validity(present)?;
        assert_eq!(same(&array, &late)?, "1111", "{first}");
        let truths = Array::booleans(present).with_validity(Bitmap::new(&[0b10110], 1, 4)?)?;
        assert_eq!(digits(&is_null(&truths)?), "0010", "{first}");
        assert_eq!(
            same(&truths, &Array::booleans(Bitmap::new(&[0b1011], 0, 4)?))?,
            "1101"
        );
    }
    Ok(())
}

#[test]
fn texts_and_byte_strings() -> Result<(), Error> {
    let texts = Array::from_texts([Some(""), Some("ab"), None, Some("c")])?;
    // "xab" begins after a byte, and row 2 has a text under its null
    let lent = Array::texts(&[1, 1, 3, 4, 5], b"xab?d")?;
    let lent = lent.with_validity(Bitmap::new(&[0b1011], 0, 4)?)?;
    assert_eq!(same(&texts, &lent)?, "1110");
    let large = Array::texts(&[0_i64, 1, 3], b"abc")?;
    assert_eq!(same(&large, &Array::texts(&[0_i64, 2, 3], b"abc")?)?, "00");
    let small = Array::texts(&[0_i32, 1, 3], b"abc")?;
    assert!(have_other_types(&large, &small));
    let binary = Array::binary(&[0, 1, 3], &[0, 1, 2])?;
    assert_eq!(
        same(&binary, &Array::binary(&[0, 1, 3], &[0, 1, 3])?)?,
        "10"
    );
    let sized = Array::fixed_size_binary(2, 2, b"abcd")?;
    assert_eq!(
        same(&sized, &Array::fixed_size_binary(2, 2, b"abcx")?)?,
        "10"
    );
    assert_eq!(
        same(
            &Array::fixed_size_binary(2, 0, b"")?,
            &Array::fixed_size_binary(2, 0, b"")?
        )?,
        "11"
    );
    Ok(())
}

#[test]
fn views_of_texts_and_byte_strings() -> Result<(), Error> {
    let rows = [
        Some("short"),
        None,
        Some("twelve bytes"),
        Some("thirteen here"),
        Some(""),
    ];
    let made = Array::from_texts_as_views(rows)?;
    let number = |bytes| u128::from_le_bytes(bytes);
    let views = [
        number(*b"\x05\0\0\0short\0\0\0\0\0\0\0"),
        u128::MAX, // under a null
        number(*b"\x0c\0\0\0twelve bytes"),
        number(*b"\x0d\0\0\0thir\x01\0\0\0\x02\0\0\0"),
        0,
    ];
    let buffers: [&[u8]; 2] = [b"", b"??thirteen here"];
    let present = Bitmap::new(&[0b11101], 0, 5)?;
    let lent = Array::text_views(&views, &buffers).with_validity(present)?;
    assert_eq!(same(&made, &lent)?, "11111");
    assert_eq!(same(&made.slice(2, 3)?, &lent.slice(1, 3)?)?, "000");
    let bytes = Array::binary_views(&views, &buffers).with_validity(present)?;
    assert_eq!(same(&bytes, &bytes)?, "11111");
    assert!(have_other_types(&bytes, &lent));
    // a view that leads past the end of its buffer
    let mut others = views;
    others[3] = number(*b"\x0d\0\0\0thir\x01\0\0\0\x03\0\0\0");
    let bad = Array::text_views(&others, &buffers).with_validity(present)?;
    assert_eq!(same(&bad, &bad), Err(Error::BadArray));
    assert_eq!(same(&bad.slice(0, 3)?, &lent.slice(0, 3)?)?, "111");
    assert_eq!(
        same(&Array::text_views(&[], &[]), &Array::text_views(&[], &[]))?,
        ""
    );
    Ok(())
}

#[test]
fn texts_are_checked_if_asked() -> Result<(), Error> {
    let bad = Array::texts(&[0, 1, 2], b"a\xff")?;
    assert_eq!(same(&bad, &bad)?, "11");
    assert_eq!(equal_with(&bad, &bad, CHECKED), Err(Error::BadArray));
    assert_eq!(
        digits(&equal_with(&bad.slice(0, 1)?, &bad.slice(0, 1)?, CHECKED)?),
        "1"
    );
    Ok(())
}

#[test]
fn floats_are_compared_by_their_bits_if_asked() -> Result<(), Error> {
    let left = Array::numbers(&[1.5, f64::NAN, 0.0]);
    let right = Array::numbers(&[1.5, f64::NAN, -0.0]);
    let format = "g".into();
    assert_eq!(
        same(&left, &right),
        Err(Error::FloatsUnsupported { format })
    );
    assert_eq!(digits(&equal_with(&left, &right, FLOATS)?), "110");
    let halves = Array::numbers(&[0.5_f32]);
    assert_eq!(digits(&equal_with(&halves, &halves, FLOATS)?), "1");
    assert_eq!(digits(&is_null(&left)?), "000");
    Ok(())
}

#[test]
fn lists() -> Result<(), Error> {
    // [1, 2] [] null [3] and [1, 2] null null [4]
    let left = Array::lists(&[0, 2, 2, 2, 3], Array::numbers(&[1, 2, 3]))?
        .with_validity(Bitmap::new(&[0b1011], 0, 4)?)?;
    let right = Array::lists(&[1, 3, 3, 4, 5], Array::numbers(&[0, 1, 2, 9, 4]))?
        .with_validity(Bitmap::new(&[0b1001], 0, 4)?)?;
    assert_eq!(same(&left, &right)?, "1010");
    assert_eq!(same(&left.slice(1, 2)?, &right.slice(1, 2)?)?, "01");
    let large = Array::lists(&[0_i64, 1, 3], Array::numbers(&[1, 2, 3]))?;
    assert_eq!(same(&large, &large)?, "11");
    assert!(have_other_types(&large, &left.slice(0, 2)?));
    // [1, 2] [3, 4] and [1, 2] [3, null]
    let whole = Array::fixed_size_lists(2, 2, Array::numbers(&[1, 2, 3, 4]))?;
    let items: Array<'_> = [Some(1), Some(2), Some(3), None].into_iter().collect();
    let other = Array::fixed_size_lists(2, 2, items)?;
    assert_eq!(same(&whole, &other)?, "10");
    assert_eq!(same(&whole.slice(1, 1)?, &other.slice(0, 1)?)?, "0");
    Ok(())
}

#[test]
fn structs() -> Result<(), Error> {
    let row = |ids: &'static [i64], names| {
        Array::structs(3, [("id", Array::numbers(ids)), ("name", names)])
    };
    let left = row(&[1, 2, 3], Array::from_texts([Some("a"), Some("b"), None])?)?;
    let right = row(&[1, 0, 3], Array::from_texts([Some("x"), Some("b"), None])?)?;
    assert_eq!(same(&left, &right)?, "001");
    let left = left.with_validity(Bitmap::new(&[0b110], 0, 3)?)?;
    assert_eq!(same(&left, &right)?, "001");
    let right = right.with_validity(Bitmap::new(&[0b100], 0, 3)?)?;
    assert_eq!(same(&left, &right)?, "101");
    assert_eq!(same(&left.slice(2, 1)?, &right.slice(2, 1)?)?, "1");
    let named = |name: &str| Array::structs(1, [(name, Array::numbers(&[1]))]);
    assert!(have_other_types(&named("a")?, &named("b")?));
    let empty = Array::structs::<&str>(2, [])?;
    assert_eq!(same(&empty, &empty)?, "11");
    Ok(())
}

#[test]
fn dictionaries() -> Result<(), Error> {
    // b a null b, by other keys of other entries
    let left = Array::dictionary(
        &[1_u8, 0, 200, 1],
        Array::from_texts([Some("a"), Some("b")])?,
    )?
    .with_validity(Bitmap::new(&[0b1011], 0, 4)?)?;
    let entries = Array::from_texts([Some("b"), None, Some("a"), Some("c")])?;
    let right = Array::dictionary(&[0_u8, 2, 1, 3], entries)?;
    assert_eq!(same(&left, &right)?, "1110");
    assert_eq!(digits(&is_null(&left)?), "0010");
    assert_eq!(digits(&is_null(&right)?), "0010");
    let other = Array::dictionary(&[0_i8, 0, 0, 0], Array::from_texts([Some("a")])?)?;
    assert!(have_other_types(&left, &other));
    Ok(())
}

#[test]
fn comparisons_are_counted() -> Result<(), Error> {
    let left = Array::lists(&[0, 2, 3], Array::numbers(&[1, 2, 3]))?;
    let right = Array::lists(&[0, 2, 3], Array::numbers(&[1, 5, 3]))?;
    let (found, comparisons) = equal_counted(&left, &right, EqualOptions::default())?;
    assert_eq!((digits(&found).as_str(), comparisons), ("01", 3));
    Ok(())
}

#[test]
fn comparisons_of_numbers() -> Result<(), Error> {
    let left: Array<'_> = [Some(1), Some(2), Some(3), None, None]
        .into_iter()
        .collect();
    let right: Array<'_> = [Some(2), Some(2), Some(2), Some(2), None]
        .into_iter()
        .collect();
    let by_arrays = [
        (Comparison::Equal, "01001", "01000"),
        (Comparison::Unequal, "10110", "10111"),
        (Comparison::Less, "10000", "10000"),
        (Comparison::LessOrEqual, "11000", "11000"),
        (Comparison::Greater, "00100", "00100"),
        (Comparison::GreaterOrEqual, "01100", "01100"),
    ];
    for (test, with_array, with_number) in by_arrays {
        assert_eq!(
            digits(&compare(&left, test, &right)?),
            with_array,
            "{test:?}"
        );
        assert_eq!(
            digits(&compare_number(&left, test, 2)?),
            with_number,
            "{test:?}"
        );
    }
    let days = Array::numbers(&[19_000, 19_001]).with_format(format::DATE32)?;
    assert_eq!(
        digits(&compare_number(&days, Comparison::Less, 19_001)?),
        "10"
    );
    Ok(())
}

#[test]
fn reductions() -> Result<(), Error> {
    let rows: Array<'_> = [Some(100_i8), None, Some(100), Some(-3)]
        .into_iter()
        .collect();
    assert_eq!(wrapping_sum(&rows)?, Some(-59)); // 197 - 256
    assert_eq!(min_max(&rows)?, Some((-3, 100)));
    assert_eq!((min(&rows)?, max(&rows)?), (Some(-3), Some(100)));
    // 100 is 0b0110_0100, -3 is 0b1111_1101
    assert_eq!(reduce_bits(&rows, BitOperation::And)?, Some(100));
    assert_eq!(reduce_bits(&rows, BitOperation::Or)?, Some(-3));
    assert_eq!(reduce_bits(&rows, BitOperation::Xor)?, Some(-3));
    let greatest = Array::numbers(&[u64::MAX, 0]);
    assert_eq!(wrapping_sum(&greatest)?, Some(i128::from(u64::MAX)));
    assert_eq!(min_max(&greatest)?, Some((0, i128::from(u64::MAX))));
    let none: Array<'_> = [None::<i64>, None].into_iter().collect();
    assert_eq!(
        (
            wrapping_sum(&none)?,
            min_max(&none)?,
            reduce_bits(&none, BitOperation::Or)?
        ),
        (None, None, None)
    );
    assert_eq!((min(&none)?, max(&none)?), (None, None));
    Ok(())
}

#[test]
fn reductions_of_numbers_have_their_type() -> Result<(), Error> {
    let rows: Numbers<'_, i8> = [Some(100), None, Some(100), Some(-3)].into_iter().collect();
    assert_eq!(rows.wrapping_sum()?, Some(-59_i8));
    assert_eq!(rows.min_max()?, Some((-3_i8, 100)));
    assert_eq!((rows.min()?, rows.max()?), (Some(-3_i8), Some(100)));
    assert_eq!(rows.reduce_bits(BitOperation::And)?, Some(100_i8));
    let greatest = Numbers::from(&[u64::MAX, 0]);
    assert_eq!(greatest.wrapping_sum()?, Some(u64::MAX));
    assert_eq!(greatest.min_max()?, Some((0, u64::MAX)));
    let days = Numbers::from(&[19_001_i32, 19_000]).with_format(format::DATE32)?;
    assert_eq!(days.min()?, Some(19_000_i32));
    let none: Numbers<'_, i64> = [None, None].into_iter().collect();
    assert_eq!((none.min_max()?, none.wrapping_sum()?), (None, None));
    Ok(())
}

#[test]
fn numbers_beside_arrays_have_any_integer_type() -> Result<(), Error> {
    let rows = Array::numbers(&[1_u8, 2, 3]);
    let below = |test: Result<Mask, Error>| test.map(|it| digits(&it));
    assert_eq!(
        below(compare_number(&rows, Comparison::Less, 2_usize))?,
        "100"
    );
    assert_eq!(
        below(compare_number(&rows, Comparison::Less, 2_isize))?,
        "100"
    );
    assert_eq!(
        below(compare_number(&rows, Comparison::Less, 2_u64))?,
        "100"
    );
    assert_eq!(
        below(compare_number(&rows, Comparison::Less, 2_i128))?,
        "100"
    );
    let most = compare_number(&rows, Comparison::Less, usize::MAX).unwrap_err();
    assert_eq!(
        most.to_string(),
        "the type C (UInt8) has no number 18446744073709551615"
    );
    Ok(())
}

#[test]
fn counts_of_bits() -> Result<(), Error> {
    let rows: Array<'_> = [Some(0b0001_0111_u8), None, Some(0)].into_iter().collect();
    assert!(count_ones(&rows)?.iter().eq([Some(4), None, Some(0)]));
    assert!(leading_zeros(&rows)?.iter().eq([Some(3), None, Some(8)]));
    assert!(trailing_ones(&rows)?.iter().eq([Some(3), None, Some(0)]));
    Ok(())
}

#[test]
fn no_rows() -> Result<(), Error> {
    for array in [
        Array::numbers::<i32>(&[]),
        Array::texts::<i64>(&[], b"")?,
        Array::lists::<i32>(&[], Array::numbers(&[1]))?,
        Array::nulls(0),
        Array::booleans(Bitmap::new(&[], 0, 0)?),
        Array::dictionary::<u8>(&[], Array::numbers(&[1]))?,
    ] {
        assert!(array.is_empty());
        let found = equal(&array, &array)?;
        assert!(found.is_empty() && found.as_bytes().is_empty() && found.all() && !found.any());
    }
    Ok(())
}

#[test]
fn masks() -> Result<(), Error> {
    let numbers: Vec<u16> = (0..20).collect();
    let big = compare_number(&Array::numbers(&numbers), Comparison::GreaterOrEqual, 17)?;
    assert_eq!(
        (big.len(), big.count_set(), big.any(), big.all()),
        (20, 3, true, false)
    );
    assert_eq!(
        (big.get(16), big.get(17), big.get(20)),
        (Some(false), Some(true), None)
    );
    assert_eq!(big.as_bytes(), [0, 0, 0b1110]);
    assert_eq!(big.set_indices().collect::<Vec<_>>(), [17, 18, 19]);
    let truths = Array::booleans(big.bitmap());
    assert_eq!(same(&truths, &truths.clone())?, "1".repeat(20));
    let small = !big.clone();
    assert_eq!(small.clone().into_bytes(), [255, 255, 0b0001]);
    assert_eq!(!small, big);
    Ok(())
}

#[test]
fn the_version_is_that_of_the_package() {
    assert_eq!(library_version(), env!("CARGO_PKG_VERSION"));
}
