//! Columns that own the buffers of random rows, and lend them as arrays.
//!
//! There are other rows before and after those of a column, and something is stored under nulls.

use super::chance::Chance;
use super::row::{some_row, some_rows, Int, Row, Type};
use dunkelva::{Array, Bitmap};

/// Numbers of one type.
enum Numbers {
    I8(Vec<i8>),
    I16(Vec<i16>),
    I32(Vec<i32>),
    I64(Vec<i64>),
    U8(Vec<u8>),
    U16(Vec<u16>),
    U32(Vec<u32>),
    U64(Vec<u64>),
}

macro_rules! with_numbers {
    ($numbers:expr, $values:ident => $then:expr) => {
        match $numbers {
            Numbers::I8($values) => $then,
            Numbers::I16($values) => $then,
            Numbers::I32($values) => $then,
            Numbers::I64($values) => $then,
            Numbers::U8($values) => $then,
            Numbers::U16($values) => $then,
            Numbers::U32($values) => $then,
            Numbers::U64($values) => $then,
        }
    };
}

impl Numbers {
    fn of(int: Int, numbers: &[i128]) -> Numbers {
        macro_rules! cast {
            ($kind:ident) => {
                Numbers::$kind(numbers.iter().map(|&it| it as _).collect())
            };
        }
        match (int.bits, int.is_signed) {
            (8, true) => cast!(I8),
            (16, true) => cast!(I16),
            (32, true) => cast!(I32),
            (64, true) => cast!(I64),
            (8, false) => cast!(U8),
            (16, false) => cast!(U16),
            (32, false) => cast!(U32),
            _ => cast!(U64),
        }
    }
}

/// Offsets of one type.
enum Offsets {
    Small(Vec<i32>),
    Large(Vec<i64>),
}

macro_rules! with_offsets {
    ($offsets:expr, $places:ident => $then:expr) => {
        match $offsets {
            Offsets::Small($places) => $then,
            Offsets::Large($places) => $then,
        }
    };
}

impl Offsets {
    /// Makes the offsets of lists of these lengths, from `first` on.
    fn of(is_large: bool, first: usize, lengths: impl Iterator<Item = usize>) -> Offsets {
        let mut places = vec![first as i64];
        places.extend(lengths.scan(first as i64, |end, length| {
            *end += length as i64;
            Some(*end)
        }));
        if is_large {
            Offsets::Large(places)
        } else {
            Offsets::Small(places.into_iter().map(|it| it as i32).collect())
        }
    }
}

enum Store {
    Nulls,
    Truths(Vec<u8>, usize),
    Numbers(Numbers),
    Decimals(Vec<i128>),
    Texts(Offsets, Vec<u8>),
    Binary(Offsets, Vec<u8>),
    Sized(usize, Vec<u8>),
    Views(bool, Vec<u128>, Vec<Vec<u8>>),
    List(Offsets, Box<Column>),
    SizedList(usize, Box<Column>),
    Struct(Vec<(String, Column)>),
    Dictionary(Numbers, Box<Column>),
}

/// A column with its buffers.
pub struct Column {
    store: Store,
    /// All rows, those before and after the window too.
    all: usize,
    present: Option<(Vec<u8>, usize)>,
    first: usize,
    rows: usize,
}

impl Column {
    /// Makes a column of rows.
    pub fn of(kind: &Type, rows: &[Row], chance: &mut Chance) -> Column {
        let (before, after) = (*chance.one_of(&[0, 0, 1, 5, 9]), *chance.one_of(&[0, 0, 3]));
        let mut all = some_rows(kind, chance, before);
        all.extend_from_slice(rows);
        all.extend(some_rows(kind, chance, after));
        let bits: Vec<_> = all
            .iter()
            .map(|row| is_present(row, kind, chance))
            .collect();
        let filled: Vec<_> = all.iter().map(|row| under(row, kind, chance)).collect();
        let store = Store::of(kind, &filled, &bits, chance);
        let is_asked = bits.contains(&false) || chance.percent(50);
        let is_nullable = !matches!(kind, Type::Null);
        let present = (is_nullable && is_asked).then(|| packed(&bits, chance));
        Column {
            store,
            all: all.len(),
            present,
            first: before,
            rows: rows.len(),
        }
    }

    /// Lends the column.
    pub fn array(&self) -> Array<'_> {
        let whole = self.store.array(self.all);
        assert_eq!(whole.len(), self.all);
        let nullable = match &self.present {
            Some((bytes, first)) => whole
                .with_validity(Bitmap::new(bytes, *first, self.all).unwrap())
                .unwrap(),
            None => whole,
        };
        nullable.slice(self.first, self.rows).unwrap()
    }
}

/// Says what the validity has for a row. The key of a null row can be valid and name a null entry.
fn is_present(row: &Row, kind: &Type, chance: &mut Chance) -> bool {
    match kind {
        Type::Dictionary { pool, .. } if *row == Row::Null => {
            pool.contains(row) && chance.percent(50)
        }
        _ => *row != Row::Null,
    }
}

/// Returns a row as it is stored: under a null stands a row of the type.
fn under(row: &Row, kind: &Type, chance: &mut Chance) -> Row {
    let mut stored = row.clone();
    while stored == Row::Null && !matches!(kind, Type::Null | Type::Dictionary { .. }) {
        stored = some_row(kind, chance);
    }
    stored
}

/// Packs bits from a random place on, with other bits before and after.
fn packed(bits: &[bool], chance: &mut Chance) -> (Vec<u8>, usize) {
    let first = *chance.one_of(&[0, 0, 3, 7, 8, 13]);
    let mut bytes: Vec<u8> = (0..(first + bits.len()) / 8 + 1)
        .map(|_| chance.word().to_le_bytes()[0])
        .collect();
    for (row, &bit) in bits.iter().enumerate() {
        let place = first + row;
        bytes[place / 8] = bytes[place / 8] & !(1 << (place % 8)) | u8::from(bit) << (place % 8);
    }
    (bytes, first)
}

impl Store {
    fn of(kind: &Type, rows: &[Row], present: &[bool], chance: &mut Chance) -> Store {
        match kind {
            Type::Null => Store::Nulls,
            Type::Truth => {
                let bits: Vec<_> = rows.iter().map(|it| *it == Row::Truth(true)).collect();
                let (bytes, first) = packed(&bits, chance);
                Store::Truths(bytes, first)
            }
            Type::Int(int) => Store::Numbers(Numbers::of(*int, &numbers(rows))),
            Type::Decimal => Store::Decimals(numbers(rows)),
            Type::Texts { is_large } => {
                let (offsets, bytes) = strings(*is_large, chance.below(3), rows);
                Store::Texts(offsets, bytes)
            }
            Type::Binary { is_large } => {
                let (offsets, bytes) = strings(*is_large, chance.below(3), rows);
                Store::Binary(offsets, bytes)
            }
            Type::Sized(width) => {
                let (_, bytes) = strings(false, 0, rows);
                Store::Sized(*width, bytes)
            }
            Type::Views { is_text } => {
                let (views, buffers) = views(rows, present, chance);
                Store::Views(*is_text, views, buffers)
            }
            Type::List { is_large, items } => {
                let before = chance.below(3);
                let mut inside = some_rows(items, chance, before);
                let lengths = rows.iter().map(|it| items_of(it).len());
                let offsets = Offsets::of(*is_large, before, lengths);
                inside.extend(rows.iter().flat_map(items_of).cloned());
                Store::List(offsets, Box::new(Column::of(items, &inside, chance)))
            }
            Type::SizedList(width, items) => {
                let inside: Vec<_> = rows.iter().flat_map(items_of).cloned().collect();
                Store::SizedList(*width, Box::new(Column::of(items, &inside, chance)))
            }
            Type::Struct(fields) => {
                let column = |(place, (name, kind)): (usize, &(String, Type))| {
                    let rows: Vec<_> = rows.iter().map(|it| items_of(it)[place].clone()).collect();
                    (name.clone(), Column::of(kind, &rows, chance))
                };
                Store::Struct(fields.iter().enumerate().map(column).collect())
            }
            Type::Dictionary {
                keys,
                entries,
                pool,
            } => dictionary(*keys, (entries, pool), rows, present, chance),
        }
    }

    fn array(&self, rows: usize) -> Array<'_> {
        match self {
            Store::Nulls => Array::nulls(rows),
            Store::Truths(bytes, first) => {
                Array::booleans(Bitmap::new(bytes, *first, rows).unwrap())
            }
            Store::Numbers(numbers) => with_numbers!(numbers, it => Array::numbers(it)),
            Store::Decimals(numbers) => Array::decimals(numbers, 38, 2).unwrap(),
            Store::Texts(offsets, bytes) => {
                with_offsets!(offsets, it => Array::texts(it, bytes).unwrap())
            }
            Store::Binary(offsets, bytes) => {
                with_offsets!(offsets, it => Array::binary(it, bytes).unwrap())
            }
            Store::Sized(width, bytes) => Array::fixed_size_binary(rows, *width, bytes).unwrap(),
            Store::Views(is_text, views, buffers) => {
                let lent: Vec<_> = buffers.iter().map(Vec::as_slice).collect();
                if *is_text {
                    Array::text_views(views, &lent)
                } else {
                    Array::binary_views(views, &lent)
                }
            }
            Store::List(offsets, items) => {
                with_offsets!(offsets, it => Array::lists(it, items.array()).unwrap())
            }
            Store::SizedList(width, items) => {
                Array::fixed_size_lists(rows, *width, items.array()).unwrap()
            }
            Store::Struct(fields) => {
                let fields = fields.iter().map(|(name, it)| (name.as_str(), it.array()));
                Array::structs(rows, fields).unwrap()
            }
            Store::Dictionary(keys, entries) => {
                with_numbers!(keys, it => Array::dictionary(it, entries.array()).unwrap())
            }
        }
    }
}

fn numbers(rows: &[Row]) -> Vec<i128> {
    let number = |row: &Row| match row {
        Row::Number(number) => *number,
        other => panic!("{other:?} is no number"),
    };
    rows.iter().map(number).collect()
}

fn bytes_of(row: &Row) -> Vec<u8> {
    match row {
        Row::Bytes(bytes) => bytes.clone(),
        other => panic!("{other:?} is no byte string"),
    }
}

/// Returns views of byte strings, and three buffers of the long ones. One begins with other bytes.
/// A view under a null can be anything.
fn views(rows: &[Row], present: &[bool], chance: &mut Chance) -> (Vec<u128>, Vec<Vec<u8>>) {
    let mut buffers = vec![Vec::new(), vec![b'x'; 3], Vec::new()];
    let mut view = |(row, &is_valid): (&Row, &bool)| {
        if !is_valid && chance.percent(50) {
            return u128::from(chance.word()) << 64 | u128::from(chance.word());
        }
        let bytes = bytes_of(row);
        let mut view = [0; 16];
        view[..4].copy_from_slice(&(bytes.len() as u32).to_le_bytes());
        if bytes.len() <= 12 {
            view[4..4 + bytes.len()].copy_from_slice(&bytes);
        } else {
            let number = chance.below(buffers.len());
            view[4..8].copy_from_slice(&bytes[..4]);
            view[8..12].copy_from_slice(&(number as u32).to_le_bytes());
            view[12..].copy_from_slice(&(buffers[number].len() as u32).to_le_bytes());
            buffers[number].extend(bytes);
        }
        u128::from_le_bytes(view)
    };
    let views = rows.iter().zip(present).map(&mut view).collect();
    (views, buffers)
}

/// Returns the offsets and the bytes of byte strings, after `before` other bytes.
fn strings(is_large: bool, before: usize, rows: &[Row]) -> (Offsets, Vec<u8>) {
    let strings: Vec<_> = rows.iter().map(bytes_of).collect();
    let offsets = Offsets::of(is_large, before, strings.iter().map(Vec::len));
    let mut bytes = vec![b'x'; before];
    bytes.extend(strings.concat());
    (offsets, bytes)
}

fn items_of(row: &Row) -> &[Row] {
    match row {
        Row::Inside(items) => items,
        other => panic!("{other:?} has nothing inside"),
    }
}

/// Makes a dictionary whose entries are those of a pool, in another order, some twice. A key under
/// a null can be any number.
fn dictionary(
    keys: Int,
    (entries, pool): (&Type, &[Row]),
    rows: &[Row],
    present: &[bool],
    chance: &mut Chance,
) -> Store {
    let mut inside = pool.to_vec();
    let again = chance.below(4);
    inside.extend((0..again).map(|_| chance.one_of(pool).clone()));
    for place in (1..inside.len()).rev() {
        inside.swap(place, chance.below(place + 1));
    }
    let key = |(row, &is_valid): (&Row, &bool)| {
        let places: Vec<_> = (0..inside.len()).filter(|&it| inside[it] == *row).collect();
        if is_valid {
            *chance.one_of(&places) as i128
        } else {
            keys.some(chance)
        }
    };
    let numbers: Vec<_> = rows.iter().zip(present).map(key).collect();
    let entries = Column::of(entries, &inside, chance);
    Store::Dictionary(Numbers::of(keys, &numbers), Box::new(entries))
}
