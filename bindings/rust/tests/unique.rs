//! States of distinct values: rows worked out by hand, and random ones beside Rust's own sets.

mod common;

use common::chance::Chance;
use common::column::Column;
use common::number_from;
use common::row::{Row, Type, INTS};
use dunkelva::{Array, Error, Unique};
use std::collections::BTreeSet;

#[test]
fn worked_rows() -> Result<(), Error> {
    let mut seen = Unique::new(-2..=3)?;
    assert_eq!(
        (seen.values()?, seen.count(), seen.has_null()),
        (vec![], 0, false)
    );
    seen.append(&Array::numbers(&[3, -2, 3, 0]))?;
    assert_eq!(
        (seen.values()?, seen.count(), seen.has_null()),
        (vec![-2, 0, 3], 3, false)
    );
    seen.append(&[None, Some(1_i8), None].into_iter().collect())?;
    assert_eq!(
        (seen.values()?, seen.count(), seen.has_null()),
        (vec![-2, 0, 1, 3], 5, true)
    );
    let mut other = Unique::new(-2..=3)?;
    other.append(&Array::numbers(&[2_i64, 0]))?;
    other.merge(&seen)?;
    assert_eq!(
        (other.values()?, other.count(), other.has_null()),
        (vec![-2, 0, 1, 2, 3], 6, true)
    );
    assert_eq!(other.range(), -2..=3);
    let mut high = Unique::new(u64::MAX - 1..=u64::MAX)?;
    high.append(&Array::numbers(&[u64::MAX]))?;
    assert_eq!(high.values()?, [i128::from(u64::MAX)]);
    Ok(())
}

#[test]
fn refused_rows_leave_a_state_as_it_was() -> Result<(), Error> {
    let mut seen = Unique::new(0..=9)?;
    seen.append(&Array::numbers(&[4]))?;
    let before = seen.clone();
    let outside = Error::OutOfUniqueRange { range: 0..=9 };
    assert_eq!(outside.to_string(), "a row lies outside of the range 0..=9");
    for row in [-1, 10, i32::MAX] {
        let rows: Array<'_> = [Some(5), None, Some(row)].into_iter().collect();
        assert_eq!(seen.append(&rows), Err(outside.clone()));
        assert_eq!(seen, before);
    }
    assert_eq!(
        seen.append(&Array::numbers(&[0.5])),
        Err(Error::Unsupported { format: "g".into() })
    );
    let others = Error::RangeMismatch {
        left: 0..=9,
        right: 0..=10,
    };
    assert_eq!(seen.merge(&Unique::new(0..=10)?), Err(others));
    let lacks = |number, format: &str| {
        let format = format.into();
        Err(Error::NotRepresentable { number, format })
    };
    let bytes = Array::numbers(&[1_i8]);
    let positive = Array::numbers(&[1_u16]);
    assert_eq!(Unique::new(0..=200)?.append(&bytes), lacks(200, "c"));
    assert_eq!(Unique::new(-200..=200)?.append(&bytes), lacks(-200, "c"));
    assert_eq!(Unique::new(150..=200)?.append(&bytes), lacks(200, "c"));
    assert_eq!(Unique::new(-1..=200)?.append(&positive), lacks(-1, "S"));
    assert_eq!(seen, before);
    Ok(())
}

#[test]
fn ranges_that_are_refused() {
    let bad = |least, greatest| Err(Error::BadRange { least, greatest });
    assert_eq!(Unique::new(std::ops::RangeInclusive::new(1, 0)), bad(1, 0));
    assert_eq!(Unique::new(0..=u64::MAX), bad(0, u64::MAX.into()));
    assert_eq!(
        Unique::new(i128::MIN..=i128::MAX),
        bad(i128::MIN, i128::MAX)
    );
    assert_eq!(Unique::new(0..=u64::MAX / 4), Err(Error::NoMemory));
    let empty = Error::BadRange {
        least: 5,
        greatest: 3,
    };
    assert_eq!(
        empty.to_string(),
        "the range 5..=3 is empty, or has 2^64 - 1 numbers or more"
    );
}

#[test]
fn random_rows() {
    let seed = number_from("SEED", 1);
    for case in 0..number_from("CASES", 200) {
        let chance = &mut Chance::new(seed, case);
        let int = *chance.one_of(&INTS);
        let least = int.least() + chance.below(100) as i128;
        let greatest = least + chance.below(27) as i128 * chance.below(27) as i128 / 6;
        let greatest = greatest.min(int.greatest());
        let mut states: Vec<_> = (0..2)
            .map(|_| Unique::new(least..=greatest).unwrap())
            .collect();
        let mut wanted = BTreeSet::new();
        for _ in 0..chance.below(5) {
            let count = chance.below(100);
            let nulls = *chance.one_of(&[0, 0, 20]);
            let width = (greatest - least + 1) as usize;
            let row = |_| {
                let number = least + chance.below(width) as i128;
                if chance.percent(nulls) {
                    Row::Null
                } else {
                    Row::Number(number)
                }
            };
            let rows: Vec<_> = (0..count).map(row).collect();
            wanted.extend(rows.iter().map(|it| match it {
                Row::Number(number) => Some(*number),
                _ => None,
            }));
            let column = Column::of(&Type::Int(int), &rows, chance);
            states[chance.below(2)].append(&column.array()).unwrap();
        }
        let other = states.pop().unwrap();
        let mut seen = states.pop().unwrap();
        seen.merge(&other).unwrap();
        assert_eq!(seen.count(), wanted.len() as u64, "{case}");
        assert_eq!(seen.has_null(), wanted.remove(&None), "{case}");
        let values: Vec<_> = wanted.into_iter().flatten().collect();
        assert_eq!(seen.values(), Ok(values), "{case}");
    }
}
