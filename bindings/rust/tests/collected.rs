//! Arrays and masks of iterators and vectors, and operators of masks.

mod common;

use common::chance::Chance;
use common::{digits, number_from};
use dunkelva::{equal, is_null, wrapping_sum, Array, Bitmap, Error, Mask, Numbers};

fn mask(digits: &str) -> Mask {
    digits.chars().map(|it| it == '1').collect()
}

#[test]
fn masks_of_truth_values() {
    for rows in ["", "1", "0110", "11110000", "000000001", "1010101010101010"] {
        let made = mask(rows);
        assert_eq!(digits(&made), rows);
        assert_eq!(made.len(), rows.len());
        assert_eq!(made.count_set(), rows.matches('1').count());
        assert_eq!(made.as_bytes().len(), (rows.len() + 7) / 8);
        assert!((&made).into_iter().eq(made.bitmap()));
        assert_eq!(Mask::from(made.bitmap()), made);
        let truths: Vec<_> = made.iter().collect();
        assert_eq!(Mask::from(truths), made);
    }
    assert_eq!(mask("1101").as_bytes(), [0b1011]);
    let mut longer = mask("1101");
    longer.extend([false, true]);
    assert_eq!(longer, mask("110101"));
    let mut ends = longer.iter();
    assert_eq!(
        (ends.next_back(), ends.nth(1), ends.len()),
        (Some(true), Some(true), 3)
    );
    assert!(ends.eq([false, true, false]));
}

#[test]
fn masks_are_joined() {
    let (left, right) = (mask("0011"), mask("0101"));
    assert_eq!(&left & &right, mask("0001"));
    assert_eq!(&left | &right, mask("0111"));
    assert_eq!(&left ^ &right, mask("0110"));
    assert_eq!(!&left, mask("1100"));
    assert_eq!(left.clone() & !right.clone(), mask("0010"));
    assert_eq!((left.clone() | &right) ^ left, mask("0100"));
    assert_eq!(right.set_indices().collect::<Vec<_>>(), [1, 3]);
}

#[test]
#[should_panic(expected = "the masks differ in length")]
fn masks_of_other_lengths_are_not_joined() {
    let _ = mask("0011") & mask("001");
}

#[test]
fn random_masks_are_joined_row_by_row() {
    let seed = number_from("SEED", 1);
    for case in 0..number_from("CASES", 200) {
        let chance = &mut Chance::new(seed, case);
        let count = *chance.one_of(&[0, 1, 7, 8, 9, 63, 64, 65, 200]);
        let mut some = || -> Vec<bool> { (0..count).map(|_| chance.percent(50)).collect() };
        let (left, right) = (some(), some());
        let made = |rows: &[bool]| rows.iter().copied().collect::<Mask>();
        let joined = |join: fn(bool, bool) -> bool| -> Mask {
            let pairs = left.iter().zip(&right);
            pairs.map(|(&l, &r)| join(l, r)).collect()
        };
        let (one, other) = (made(&left), made(&right));
        assert_eq!(&one & &other, joined(|l, r| l & r), "{case}");
        assert_eq!(&one | &other, joined(|l, r| l | r), "{case}");
        assert_eq!(&one ^ &other, joined(|l, r| l ^ r), "{case}");
        assert_eq!(!&one, joined(|l, _| !l), "{case}");
    }
}

#[test]
fn arrays_of_truth_values() -> Result<(), Error> {
    let nullable: Array<'_> = [Some(true), None, Some(false)].into_iter().collect();
    let plain: Array<'_> = vec![true, true, false].into_iter().collect();
    assert_eq!(digits(&equal(&nullable, &plain)?), "101");
    assert_eq!(digits(&is_null(&nullable)?), "010");
    let bits = Bitmap::new(&[0b0110], 1, 3)?; // true true false
    for array in [
        Array::booleans(bits),
        Array::booleans(mask("110")),
        Array::from(mask("110")),
    ] {
        assert!(equal(&array, &plain)?.all());
    }
    let lent = mask("110");
    assert!(equal(&Array::from(&lent), &plain)?.all());
    assert_eq!(plain.format(), "b");
    Ok(())
}

#[test]
fn arrays_of_numbers() -> Result<(), Error> {
    let values = vec![7_i16, 8];
    for array in [
        Array::from(&values),
        Array::from(&values[..]),
        Array::from(&[7_i16, 8]),
        Array::from(values.clone()),
        Array::numbers(&values[..]),
        Array::numbers(&[7_i16, 8]),
        Array::numbers(values.clone()),
        values.iter().copied().collect(),
        values.iter().copied().map(Some).collect(),
    ] {
        assert_eq!((array.format(), array.len()), ("s", 2));
        assert!(equal(&array, &Array::numbers(&values))?.all());
    }
    for numbers in [
        Numbers::from(&values),
        Numbers::from(&values[..]),
        Numbers::from(&[7_i16, 8]),
        Numbers::from(values.clone()),
        values.iter().copied().collect(),
        values.iter().copied().map(Some).collect(),
    ] {
        assert_eq!(numbers.values(), values);
        assert_eq!(wrapping_sum(&numbers)?, Some(15));
        assert!((&numbers).into_iter().eq([Some(7), Some(8)]));
        assert_eq!(numbers.iter().len(), 2);
        assert_eq!(format!("{numbers:?}"), "[Some(7), Some(8)]");
        let array: &Array<'_> = numbers.as_ref();
        assert_eq!(array.len(), 2);
        assert_eq!(numbers.clone().into_iter().len(), 2);
        assert!(numbers.into_iter().eq([Some(7), Some(8)]));
    }
    let rows: Numbers<'_, i64> = [Some(1), None, Some(3), None].into_iter().collect();
    assert!(rows.slice(1, 2)?.into_iter().eq([None, Some(3)]));
    Ok(())
}

#[test]
fn arrays_of_texts() -> Result<(), Error> {
    let plain: Array<'_> = vec!["a", "", "bc"].into_iter().collect();
    let nullable: Array<'_> = [Some("a"), None, Some("bc")].into_iter().collect();
    assert_eq!(digits(&equal(&plain, &nullable)?), "101");
    assert_eq!(digits(&is_null(&nullable)?), "010");
    assert!(equal(&plain, &Array::texts(&[0, 1, 1, 3], b"abc")?)?.all());
    let words = vec![String::from("a"), String::new(), String::from("bc")];
    for array in [
        words.iter().collect(),
        words.iter().map(Some).collect(),
        words.iter().map(String::as_str).collect(),
        words.iter().cloned().collect(),
        words.iter().cloned().map(Some).collect(),
        Array::from_texts(words.iter().map(Some))?,
        Array::from_texts(words.into_iter().map(Some))?,
    ] {
        assert_eq!(array.format(), "u");
        assert!(equal(&plain, &array)?.all());
    }
    let views = Array::from_texts_as_views([Some("a"), Some(""), Some("bc")])?;
    let owned = ["a", "", "bc"].map(|it| Some(String::from(it)));
    assert!(equal(&views, &Array::from_texts_as_views(owned)?)?.all());
    Ok(())
}

#[test]
fn arrays_of_byte_strings() -> Result<(), Error> {
    let lent = Array::binary(&[0, 1, 1, 3], &[0, 1, 255])?;
    let rows: Vec<Vec<u8>> = vec![vec![0], vec![], vec![1, 255]];
    for array in [
        rows.iter().collect(),
        rows.iter().map(Some).collect(),
        rows.iter().map(Vec::as_slice).collect(),
        rows.iter().map(|it| Some(it.as_slice())).collect(),
        rows.iter().cloned().collect(),
        rows.iter().cloned().map(Some).collect(),
        Array::from_binary(rows.iter().map(Some))?,
        Array::binary(vec![0, 1, 1, 3], vec![0, 1, 255])?,
    ] {
        assert_eq!(array.format(), "z");
        assert!(equal(&lent, &array)?.all());
    }
    let nullable = Array::from_binary([Some(&b"\0"[..]), None, Some(b"\x01")])?;
    assert_eq!(digits(&is_null(&nullable)?), "010");
    assert_eq!(digits(&equal(&nullable, &lent)?), "100");
    let long = vec![7; 20];
    let views = Array::from_binary_as_views([Some(&long), None, Some(&vec![1])])?;
    assert_eq!(views.format(), "vz");
    let short = 1 | 1 << 32; // one byte, which is 1
    let others = [0x0707_0707_0000_0014, 0, short];
    let lent = Array::binary_views(&others, &[&long]).with_validity(mask("101"))?;
    assert!(equal(&views, &lent)?.all());
    Ok(())
}

/// Makes arrays of all types that own what they are made of.
fn owned() -> Result<Vec<Array<'static>>, Error> {
    let words = || ["a", "bc"].into_iter().collect::<Array<'_>>();
    let present = || mask("101");
    let rows = [("word", Array::dictionary(vec![0_u8, 1, 0], words())?)];
    Ok(vec![
        Array::numbers(vec![1, 2, 3]).with_validity(present())?,
        Array::numbers(vec![0, 1, 2, 3])
            .slice(1, 3)?
            .with_validity(present())?,
        Array::decimals(vec![1, 2, 3], 9, 2)?,
        Array::booleans(mask("110")).with_validity(present())?,
        Array::texts(vec![0, 1, 1, 3], b"abc".to_vec())?,
        Array::binary(vec![0_i64, 1, 1, 3], b"abc".to_vec())?,
        Array::fixed_size_binary(3, 1, b"abc".to_vec())?,
        Array::lists(vec![0_i64, 1, 1, 2], words())?.with_validity(present())?,
        Array::fixed_size_lists(3, 0, words())?,
        Array::structs(3, rows)?.with_validity(present())?,
    ])
}

#[test]
fn arrays_that_own_all() -> Result<(), Error> {
    let arrays = owned()?;
    assert_eq!(digits(&is_null(&arrays[0])?), "010");
    assert!(equal(&arrays[0], &arrays[1])?.all());
    let lent = Array::lists(&[0_i64, 1, 1, 2], ["a", "bc"].into_iter().collect())?;
    assert_eq!(digits(&equal(&arrays[7], &lent)?), "101");
    for (array, other) in arrays.iter().zip(owned()?) {
        assert_eq!(array.len(), 3);
        assert!(equal(array, &other)?.all(), "{array:?}");
    }
    Ok(())
}

#[test]
fn validities_of_masks() -> Result<(), Error> {
    let present = mask("1011");
    let array = Array::numbers(&[1, 2, 3, 4]).with_validity(&present)?;
    assert_eq!(digits(&is_null(&array)?), "0100");
    let inner = Array::numbers(&[0, 1, 2, 3, 4]).slice(1, 4)?;
    assert!(equal(&array, &inner.with_validity(&present)?)?.get(0) == Some(true));
    let lists = Array::lists(&[0, 1, 2, 2, 4], array)?.with_validity(&present)?;
    assert_eq!(
        format!("{lists:?}"),
        "Array { type: \"+l<i>\", rows: 4, .. }"
    );
    Ok(())
}
