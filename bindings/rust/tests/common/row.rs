//! Rows as plain values, which Rust's own `==` compares, and their types.

use super::chance::Chance;

#[derive(Clone, Debug, PartialEq)]
pub enum Row {
    Null,
    Truth(bool),
    Number(i128),
    Bytes(Vec<u8>),
    /// Items of a list, or fields of a struct.
    Inside(Vec<Row>),
}

/// A type of whole numbers.
#[derive(Clone, Copy, Debug, PartialEq)]
pub struct Int {
    pub bits: u32,
    pub is_signed: bool,
}

pub const INTS: [Int; 8] = [
    Int {
        bits: 8,
        is_signed: true,
    },
    Int {
        bits: 16,
        is_signed: true,
    },
    Int {
        bits: 32,
        is_signed: true,
    },
    Int {
        bits: 64,
        is_signed: true,
    },
    Int {
        bits: 8,
        is_signed: false,
    },
    Int {
        bits: 16,
        is_signed: false,
    },
    Int {
        bits: 32,
        is_signed: false,
    },
    Int {
        bits: 64,
        is_signed: false,
    },
];

impl Int {
    pub fn least(self) -> i128 {
        if self.is_signed {
            -(1 << (self.bits - 1))
        } else {
            0
        }
    }

    pub fn greatest(self) -> i128 {
        self.least() + (1 << self.bits) - 1
    }

    /// Wraps a number to the type.
    pub fn wrapped(self, number: i128) -> i128 {
        (number - self.least()).rem_euclid(1 << self.bits) + self.least()
    }

    /// Returns a number, often one that comes again or lies at an end.
    pub fn some(self, chance: &mut Chance) -> i128 {
        let random = self.wrapped(i128::from(chance.word()));
        *chance.one_of(&[self.least(), self.greatest(), 0, 1, 2, random])
    }
}

#[derive(Clone, Debug)]
pub enum Type {
    Null,
    Truth,
    Int(Int),
    Decimal,
    Texts {
        is_large: bool,
    },
    Binary {
        is_large: bool,
    },
    Sized(usize),
    Views {
        is_text: bool,
    },
    List {
        is_large: bool,
        items: Box<Type>,
    },
    SizedList(usize, Box<Type>),
    Struct(Vec<(String, Type)>),
    /// The rows of a dictionary are some of these entries.
    Dictionary {
        keys: Int,
        entries: Box<Type>,
        pool: Vec<Row>,
    },
}

/// Returns a random type of at most `levels` levels.
pub fn some_type(chance: &mut Chance, levels: usize) -> Type {
    let is_large = chance.percent(50);
    if levels <= 1 || chance.percent(40) {
        return match chance.below(10) {
            0 => Type::Null,
            1 => Type::Truth,
            2 | 3 => Type::Int(*chance.one_of(&INTS)),
            4 => Type::Decimal,
            5 => Type::Texts { is_large },
            6 => Type::Binary { is_large },
            7 | 8 => Type::Views { is_text: is_large },
            _ => Type::Sized(chance.below(4)),
        };
    }
    let inside = |chance: &mut Chance| Box::new(some_type(chance, levels - 1));
    match chance.below(6) {
        0 | 1 => Type::List {
            is_large,
            items: inside(chance),
        },
        2 => Type::SizedList(chance.below(3), inside(chance)),
        3 => {
            let entries = inside(chance);
            let pool = (0..1 + chance.below(9))
                .map(|_| some_row(&entries, chance))
                .collect();
            Type::Dictionary {
                keys: *chance.one_of(&INTS),
                entries,
                pool,
            }
        }
        _ => {
            let names = ["a", "b", "", "é"];
            let count = chance.below(names.len() + 1);
            let field = |name: &&str| (name.to_string(), some_type(chance, levels - 1));
            Type::Struct(names[..count].iter().map(field).collect())
        }
    }
}

/// Returns a random row, in one of six cases a null.
pub fn some_row(kind: &Type, chance: &mut Chance) -> Row {
    if chance.below(6) == 0 {
        return Row::Null;
    }
    match kind {
        Type::Null => Row::Null,
        Type::Truth => Row::Truth(chance.percent(50)),
        Type::Int(int) => Row::Number(int.some(chance)),
        Type::Decimal => Row::Number(*chance.one_of(&[0, 1, -1, i128::MIN, i128::MAX, 1 << 64])),
        Type::Texts { .. } | Type::Views { is_text: true } => {
            let texts = [
                "",
                "a",
                "b",
                "ab",
                "é",
                "twelve bytes",
                "a longer text",
                "a longer test",
            ];
            Row::Bytes(chance.one_of(&texts).as_bytes().to_vec())
        }
        Type::Views { is_text: false } => {
            let count = *chance.one_of(&[0, 1, 2, 4, 11, 12, 13, 14]);
            Row::Bytes(some_bytes(chance, count))
        }
        Type::Binary { .. } => {
            let count = chance.below(4);
            Row::Bytes(some_bytes(chance, count))
        }
        Type::Sized(width) => Row::Bytes(some_bytes(chance, *width)),
        Type::List { items, .. } => {
            let count = *chance.one_of(&[0, 0, 1, 2, 5]);
            Row::Inside(some_rows(items, chance, count))
        }
        Type::SizedList(width, items) => Row::Inside(some_rows(items, chance, *width)),
        Type::Struct(fields) => Row::Inside(
            fields
                .iter()
                .map(|(_, kind)| some_row(kind, chance))
                .collect(),
        ),
        Type::Dictionary { pool, .. } => chance.one_of(pool).clone(),
    }
}

pub fn some_rows(kind: &Type, chance: &mut Chance, count: usize) -> Vec<Row> {
    (0..count).map(|_| some_row(kind, chance)).collect()
}

fn some_bytes(chance: &mut Chance, count: usize) -> Vec<u8> {
    (0..count).map(|_| *chance.one_of(&[0, 1, 255])).collect()
}
