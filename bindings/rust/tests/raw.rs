//! Columns of other crates, by pointers to their structs.
#![cfg(feature = "ffi")]

mod common;

use common::digits;
use dunkelva::ffi::{ArrowArray, ArrowSchema};
use dunkelva::{
    compare_number, equal, equal_with, is_null, wrapping_neg, wrapping_sum, Array, Bitmap,
    Comparison, EqualOptions, Error, Numbers,
};
use std::os::raw::{c_char, c_void};
use std::ptr;

/// A struct as another crate declares it, with members that this crate does not see.
#[repr(C)]
struct OtherSchema {
    format: *const c_char,
    name: *const c_char,
    metadata: *const c_char,
    flags: i64,
    n_children: i64,
    children: *mut *mut OtherSchema,
    dictionary: *mut OtherSchema,
    release: Option<unsafe extern "C" fn(*mut OtherSchema)>,
    private_data: *mut c_void,
}

#[repr(C)]
struct OtherArray {
    length: i64,
    null_count: i64,
    offset: i64,
    n_buffers: i64,
    n_children: i64,
    buffers: *mut *const c_void,
    children: *mut *mut OtherArray,
    dictionary: *mut OtherArray,
    release: Option<unsafe extern "C" fn(*mut OtherArray)>,
    private_data: *mut c_void,
}

unsafe extern "C" fn never_schema(_: *mut OtherSchema) {
    panic!("a lent schema is not released");
}

unsafe extern "C" fn never_array(_: *mut OtherArray) {
    panic!("a lent array is not released");
}

/// An exported column of numbers, which keeps its buffers.
struct Exported {
    schema: OtherSchema,
    array: OtherArray,
    _buffers: Vec<*const c_void>,
}

impl Exported {
    /// Exports `rows` numbers of a slice, those after `offset` others.
    fn new(format: &'static [u8], values: &[i32], present: &[u8], offset: i64, rows: i64) -> Self {
        let mut buffers = vec![present.as_ptr().cast(), values.as_ptr().cast()];
        let schema = OtherSchema {
            format: format.as_ptr().cast(),
            name: ptr::null(),
            metadata: ptr::null(),
            flags: 0,
            n_children: 0,
            children: ptr::null_mut(),
            dictionary: ptr::null_mut(),
            release: Some(never_schema),
            private_data: ptr::null_mut(),
        };
        let array = OtherArray {
            length: rows,
            null_count: -1,
            offset,
            n_buffers: 2,
            n_children: 0,
            buffers: buffers.as_mut_ptr(),
            children: ptr::null_mut(),
            dictionary: ptr::null_mut(),
            release: Some(never_array),
            private_data: ptr::null_mut(),
        };
        Exported {
            schema,
            array,
            _buffers: buffers,
        }
    }

    fn array(&self) -> Result<Array<'_>, Error> {
        let schema: *const ArrowSchema = ptr::addr_of!(self.schema).cast();
        let array: *const ArrowArray = ptr::addr_of!(self.array).cast();
        // SAFETY: the structs are good, and are borrowed as long as the array lives.
        unsafe { Array::from_raw(array, schema) }
    }
}

/// An exported column with columns inside, to which its structs point.
struct Nested {
    outer: Exported,
    _inside: Vec<Exported>,
    _schemas: Vec<*mut OtherSchema>,
    _arrays: Vec<*mut OtherArray>,
}

impl Nested {
    /// Exports rows of structs whose fields have these names.
    fn structs(fields: Vec<(&'static [u8], Exported)>) -> Self {
        let named = |(name, mut field): (&'static [u8], Exported)| {
            field.schema.name = name.as_ptr().cast();
            field
        };
        Nested::new(b"+s\0", fields.into_iter().map(named).collect())
    }

    fn new(format: &'static [u8], mut inside: Vec<Exported>) -> Self {
        let mut outer = Exported::new(format, &VALUES, &[0xff], 0, 6);
        let (mut schemas, mut arrays): (Vec<_>, Vec<_>) = inside
            .iter_mut()
            .map(|it| (ptr::addr_of_mut!(it.schema), ptr::addr_of_mut!(it.array)))
            .unzip();
        let count = inside.len().try_into().unwrap();
        outer.schema.n_children = count;
        outer.schema.children = schemas.as_mut_ptr();
        outer.array.n_buffers = 1;
        outer.array.n_children = count;
        outer.array.children = arrays.as_mut_ptr();
        Nested {
            outer,
            _inside: inside,
            _schemas: schemas,
            _arrays: arrays,
        }
    }

    fn array(&self) -> Result<Array<'_>, Error> {
        self.outer.array()
    }
}

/// Exports a column of this format without a null, each of whose values has up to 32 bits.
fn flat(format: &'static [u8]) -> Exported {
    Exported::new(format, &VALUES, &[0xff], 0, 6)
}

const VALUES: [i32; 6] = [9, 1, 2, 3, 4, 9];

#[test]
fn a_column_of_another_crate() -> Result<(), Error> {
    let present = [0b11_0111];
    let exported = Exported::new(b"i\0", &VALUES, &present, 1, 4); // 1 2 null 4
    let array = exported.array()?;
    assert_eq!(array.len(), 4);
    let own: Array<'_> = [Some(1), Some(2), None, Some(4)].into_iter().collect();
    assert_eq!(digits(&equal(&array, &own)?), "1111");
    assert_eq!(digits(&is_null(&array)?), "0010");
    assert_eq!(wrapping_sum(&array)?, Some(7));
    let window = array.slice(1, 3)?; // 2 null 4
    assert_eq!(
        digits(&compare_number(&window, Comparison::Greater, 2)?),
        "001"
    );
    assert!(matches!(
        array.slice(1, 4),
        Err(Error::SliceOutOfBounds { .. })
    ));
    Ok(())
}

#[test]
fn numbers_of_a_column_of_another_crate() -> Result<(), Error> {
    let present = [0b11_0111];
    let values = VALUES;
    let exported = Exported::new(b"i\0", &values, &present, 1, 4); // 1 2 null 4
    let array = exported.array()?;
    assert_eq!(array.format(), "i");
    let numbers: Numbers<'_, i32> = array.to_numbers()?;
    assert!(numbers.iter().eq([Some(1), Some(2), None, Some(4)]));
    assert!(ptr::eq(numbers.values(), &values[1..5])); // nothing is copied
    let negative = wrapping_neg(&numbers)?;
    assert!(negative.iter().eq([Some(-1), Some(-2), None, Some(-4)]));
    let window: Numbers<'_, i32> = array.slice(1, 3)?.to_numbers()?;
    assert!(window.iter().eq([Some(2), None, Some(4)]));
    assert!(matches!(
        array.to_numbers::<i64>(),
        Err(Error::TypeMismatch { .. })
    ));
    let exported = Exported::new(b"tdD\0", &VALUES, &present, 0, 6);
    let days: Numbers<'_, i32> = exported.array()?.to_numbers()?;
    assert_eq!(days.format(), "tdD");
    assert_eq!(days.get(3), Some(None));
    assert_eq!(days.get(5), Some(Some(9)));
    Ok(())
}

#[test]
fn numbers_at_any_address_and_without_a_validity() -> Result<(), Error> {
    let present = [0b1011_u8];
    // the numbers 1 to 4 in 32 bits, from the second byte of a number on
    let bytes: Vec<u8> = (1..5_i32).flat_map(i32::to_le_bytes).collect();
    let mut words = [0_u32; 5];
    for (place, &byte) in bytes.iter().enumerate() {
        words[(place + 1) / 4] |= u32::from(byte) << ((place + 1) % 4 * 8);
    }
    let start: *const c_void = words.as_ptr().cast();
    let mut exported = Exported::new(b"i\0", &VALUES, &present, 1, 3);
    exported._buffers[1] = start.cast::<u8>().wrapping_add(1).cast();
    let copied: Numbers<'_, i32> = exported.array()?.to_numbers()?;
    assert!(copied.iter().eq([Some(2), None, Some(4)]));
    let mut exported = Exported::new(b"tiD\0", &VALUES, &present, 0, 2);
    exported._buffers[1] = start.cast::<u8>().wrapping_add(1).cast();
    let intervals: Numbers<'_, i64> = exported.array()?.to_numbers()?;
    assert_eq!(intervals.format(), "tiD");
    assert_eq!(intervals.values(), [2 << 32 | 1, 4 << 32 | 3]);
    let mut exported = Exported::new(b"i\0", &VALUES, &present, 1, 3);
    exported._buffers[0] = ptr::null();
    let plain: Numbers<'_, i32> = exported.array()?.to_numbers()?;
    assert!(plain.validity().is_none());
    assert_eq!(plain.values(), [1, 2, 3]);
    Ok(())
}

#[test]
fn a_column_of_another_crate_in_lists_and_structs() -> Result<(), Error> {
    let exported = Exported::new(b"i\0", &VALUES, &[0xff], 1, 4); // 1 2 3 4
    let lists = Array::lists(&[0, 1, 4], exported.array()?)?;
    let own = Array::lists(&[0, 1, 4], Array::numbers(&[1, 2, 0, 4]))?;
    assert_eq!(digits(&equal(&lists, &own)?), "10");
    let rows = Array::structs(3, [("a", exported.array()?.slice(1, 3)?)])?;
    let own = Array::structs(3, [("a", Array::numbers(&[2, 3, 0]))])?;
    assert_eq!(digits(&equal(&rows, &own)?), "110");
    let told = Array::lists(&[0, 5], exported.array()?)
        .unwrap_err()
        .to_string();
    assert_eq!(told, "the offsets end at 5, but there are 4 items");
    Ok(())
}

#[test]
fn structs_that_are_refused() -> Result<(), Error> {
    // SAFETY: null pointers are allowed.
    let nothing = unsafe { Array::from_raw(ptr::null(), ptr::null()) };
    assert_eq!(nothing.map(drop), Err(Error::BadStructs));
    for (offset, rows) in [(0, -1), (-1, 0)] {
        let exported = Exported::new(b"i\0", &VALUES, &[0xff], offset, rows);
        assert_eq!(exported.array().map(drop), Err(Error::BadStructs));
    }
    let mut exported = Exported::new(b"i\0", &VALUES, &[0xff], 0, 6);
    exported.schema.release = None;
    assert_eq!(exported.array().map(drop), Err(Error::BadStructs));
    let mut exported = Exported::new(b"i\0", &VALUES, &[0xff], 0, 6);
    exported.array.release = None;
    assert_eq!(exported.array().map(drop), Err(Error::BadStructs));
    let mut exported = Exported::new(b"i\0", &VALUES, &[0xff], 0, 6);
    exported.array.n_buffers = 1;
    let array = exported.array()?;
    assert_eq!(equal(&array, &array), Err(Error::BadStructs));
    assert_eq!(array.to_numbers::<i32>(), Err(Error::BadStructs));
    Ok(())
}

#[test]
fn types_that_are_refused() -> Result<(), Error> {
    let exported = Exported::new(b"+us:0\0", &VALUES, &[0xff], 0, 6);
    let array = exported.array()?;
    let unsupported = Error::Unsupported {
        format: "+us:0".into(),
    };
    assert_eq!(
        unsupported.to_string(),
        "the call does not support the type +us:0 (Union())"
    );
    assert_eq!(equal(&array, &array), Err(unsupported.clone()));
    let numbers = Array::numbers(&VALUES);
    assert_eq!(equal(&array, &numbers), Err(unsupported.clone()));
    assert_eq!(equal(&numbers, &array), Err(unsupported.clone()));
    assert_eq!(array.to_numbers::<i32>(), Err(unsupported));
    Ok(())
}

#[test]
fn floats_in_a_column_of_another_crate() -> Result<(), Error> {
    let rows = Nested::structs(vec![(b"id\0", flat(b"i\0")), (b"a, b\0", flat(b"f\0"))]);
    let array = rows.array()?;
    let format = String::from("+s<id: i, \"a, b\": f>");
    assert_eq!(
        equal(&array, &array),
        Err(Error::FloatsUnsupported { format })
    );
    let by_bits = EqualOptions::new().floats_by_bits(true);
    assert_eq!(digits(&equal_with(&array, &array, by_bits)?), "111111");
    // no hint, if the array has another type that is not supported
    let rows = Nested::structs(vec![(b"a\0", flat(b"f\0")), (b"b\0", flat(b"+us:0\0"))]);
    let array = rows.array()?;
    let format = String::from("+s<a: f, b: +us:0>");
    assert_eq!(equal(&array, &array), Err(Error::Unsupported { format }));
    // entries of a dictionary
    let mut entries = flat(b"f\0");
    let mut keys = flat(b"i\0");
    keys.schema.dictionary = ptr::addr_of_mut!(entries.schema);
    keys.array.dictionary = ptr::addr_of_mut!(entries.array);
    let array = keys.array()?;
    let format = String::from("i<f>");
    assert_eq!(
        equal(&array, &array),
        Err(Error::FloatsUnsupported { format })
    );
    Ok(())
}

#[test]
fn structs_that_differ_in_the_type_of_a_field() -> Result<(), Error> {
    let left = Nested::structs(vec![(b"id\0", flat(b"i\0")), (b"on\0", flat(b"i\0"))]);
    let right = Nested::structs(vec![(b"id\0", flat(b"i\0")), (b"on\0", flat(b"tdD\0"))]);
    let error = equal(&left.array()?, &right.array()?).unwrap_err();
    assert_eq!(
        error.to_string(),
        "the types differ: +s<id: i, on: i> (Struct(id: Int32, on: Int32)) and \
         +s<id: i, on: tdD> (Struct(id: Int32, on: Date32))"
    );
    Ok(())
}

#[test]
fn types_inside_that_are_not_looked_at() -> Result<(), Error> {
    let told = |it: &Nested| it.array().map(|it| format!("{it:?}"));
    let shown = |text| Ok(format!("Array {{ type: {text:?}, rows: 6, .. }}"));
    let mut rows = Nested::structs(vec![(b"a\0", flat(b"i\0"))]);
    assert_eq!(told(&rows), shown("+s<a: i>"));
    rows._inside[0].schema.name = ptr::null();
    assert_eq!(told(&rows), shown("+s<\"\": i>"));
    rows._inside[0].schema.name = b"\xff\0".as_ptr().cast();
    assert_eq!(told(&rows), shown("+s<\"\u{fffd}\": i>"));
    rows._inside[0].schema.format = b"\xff\0".as_ptr().cast();
    assert_eq!(told(&rows), shown("+s<\"\u{fffd}\": >"));
    rows._inside[0].schema.release = None;
    assert_eq!(told(&rows), shown("+s<..>"));
    rows._schemas[0] = ptr::null_mut();
    assert_eq!(told(&rows), shown("+s<..>"));
    rows.outer.schema.children = ptr::null_mut();
    assert_eq!(told(&rows), shown("+s<..>"));
    rows.outer.schema.n_children = -1;
    assert_eq!(told(&rows), shown("+s<..>"));
    let no_fields = Nested::structs(Vec::new());
    assert_eq!(told(&no_fields), shown("+s"));
    Ok(())
}

#[test]
fn a_validity_that_is_refused() -> Result<(), Error> {
    let exported = Exported::new(b"i\0", &VALUES, &[0xff], 0, 6);
    let present = Bitmap::new(&[0xff], 0, 6)?;
    let refused = exported.array()?.with_validity(present);
    assert_eq!(refused.map(drop), Err(Error::ForeignValidity));
    Ok(())
}

#[test]
fn a_column_can_be_sent() -> Result<(), Error> {
    let exported = Exported::new(b"i\0", &VALUES, &[0xff], 0, 6);
    let array = exported.array()?;
    let total = std::thread::scope(|scope| scope.spawn(|| wrapping_sum(&array)).join().unwrap());
    assert_eq!(total, Ok(Some(28)));
    Ok(())
}
