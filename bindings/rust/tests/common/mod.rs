//! Random columns, and plain accounts of them. Other tests share what is here.
#![allow(dead_code)] // no test uses all of it

pub mod chance;
pub mod column;
pub mod row;

use dunkelva::Mask;

/// Returns truth values as a text of digits.
pub fn digits(mask: &Mask) -> String {
    mask.iter().map(|it| if it { '1' } else { '0' }).collect()
}

/// Returns a number that an environment variable names, or another one.
pub fn number_from(name: &str, otherwise: u64) -> u64 {
    std::env::var(name)
        .ok()
        .and_then(|it| it.parse().ok())
        .unwrap_or(otherwise)
}
