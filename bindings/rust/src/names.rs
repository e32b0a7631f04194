//! Types as messages show them: their format, and the name that Arrow's libraries give them.
#![forbid(unsafe_code)]

use crate::make::MOST_LEVELS;
use std::fmt;

/// A type, by a text such as `+l<u>`, which is written with its name: `+l<u> (List(Utf8))`.
pub(crate) struct Shown<'t>(pub(crate) &'t str);

impl fmt::Display for Shown<'_> {
    fn fmt(&self, f: &mut fmt::Formatter<'_>) -> fmt::Result {
        match Reader::read(self.0) {
            Some((name, _)) => write!(f, "{} ({name})", self.0),
            None => write!(f, "{:?}", self.0),
        }
    }
}

impl Shown<'_> {
    /// Says whether the type is one of floats, or has one inside.
    pub(crate) fn has_floats(&self) -> bool {
        Reader::read(self.0).map_or(false, |(_, has_floats)| has_floats)
    }
}

/// Formats of types, and their names.
const NAMES: [(&str, &str); 31] = [
    ("n", "Null"),
    ("b", "Boolean"),
    ("c", "Int8"),
    ("s", "Int16"),
    ("i", "Int32"),
    ("l", "Int64"),
    ("C", "UInt8"),
    ("S", "UInt16"),
    ("I", "UInt32"),
    ("L", "UInt64"),
    ("e", "Float16"),
    ("f", "Float32"),
    ("g", "Float64"),
    ("z", "Binary"),
    ("Z", "LargeBinary"),
    ("vz", "BinaryView"),
    ("u", "Utf8"),
    ("U", "LargeUtf8"),
    ("vu", "Utf8View"),
    ("tdD", "Date32"),
    ("tdm", "Date64"),
    ("tiM", "Interval(YearMonth)"),
    ("tiD", "Interval(DayTime)"),
    ("tin", "Interval(MonthDayNano)"),
    ("+l", "List"),
    ("+L", "LargeList"),
    ("+vl", "ListView"),
    ("+vL", "LargeListView"),
    ("+s", "Struct"),
    ("+m", "Map"),
    ("+r", "RunEndEncoded"),
];

/// A reader of the text of a type.
struct Reader<'t> {
    rest: &'t str,
    has_floats: bool,
}

impl<'t> Reader<'t> {
    /// Returns the name of a type, and whether there are floats in it, if all of it is known.
    fn read(text: &'t str) -> Option<(String, bool)> {
        let mut reader = Reader {
            rest: text,
            has_floats: false,
        };
        let name = reader.name(MOST_LEVELS)?;
        reader.rest.is_empty().then_some((name, reader.has_floats))
    }

    /// Reads a type of at most so many levels, and returns its name.
    fn name(&mut self, levels: usize) -> Option<String> {
        if self.takes("..") {
            return Some("..".into());
        }
        let levels_inside = levels.checked_sub(1)?;
        let ends = ["<", ">", ", "].into_iter();
        let end = ends.filter_map(|it| self.rest.find(it)).min();
        let (format, rest) = self.rest.split_at(end.unwrap_or(self.rest.len()));
        self.rest = rest;
        self.has_floats |= matches!(format, "e" | "f" | "g");
        let mut inside = Vec::new();
        let mut has_more = self.takes("<");
        let is_nested = has_more;
        while has_more {
            let is_field = format == "+s" && !self.rest.starts_with("..");
            let label = if is_field { self.label()? } else { "" };
            inside.push(format!("{label}{}", self.name(levels_inside)?));
            has_more = self.takes(", ");
        }
        if is_nested && !self.takes(">") {
            return None;
        }
        whole_name(format, &inside.join(", "))
    }

    /// Reads the name of a field, and the `: ` after it.
    fn label(&mut self) -> Option<&'t str> {
        let quoted = match self.rest.strip_prefix('"') {
            Some(inside) => {
                let mut is_escaped = false;
                1 + inside.find(|it| {
                    let is_end = it == '"' && !is_escaped;
                    is_escaped = it == '\\' && !is_escaped;
                    is_end
                })?
            }
            None => 0,
        };
        let end = quoted + self.rest[quoted..].find(": ")? + ": ".len();
        let (label, rest) = self.rest.split_at(end);
        self.rest = rest;
        Some(label)
    }

    /// Passes over a text, if it comes next.
    fn takes(&mut self, text: &str) -> bool {
        let rest = self.rest.strip_prefix(text);
        self.rest = rest.unwrap_or(self.rest);
        rest.is_some()
    }
}

/// Returns the name of a type with these types inside.
fn whole_name(format: &str, inside: &str) -> Option<String> {
    if let Some(size) = format.strip_prefix("+w:") {
        return Some(format!("FixedSizeList({inside}, {size})"));
    }
    let name = flat_name(format)?;
    Some(match (format.starts_with('+'), inside) {
        (false, "") => name,
        (false, entries) => format!("Dictionary({name}, {entries})"),
        (true, inside) => format!("{name}({inside})"),
    })
}

/// Returns the name of a type, without those inside.
fn flat_name(format: &str) -> Option<String> {
    if let Some((_, name)) = NAMES.iter().find(|(it, _)| *it == format) {
        return Some((*name).into());
    }
    name_with_arguments(format)
}

/// Returns the name of a type whose format says more than its kind.
fn name_with_arguments(format: &str) -> Option<String> {
    if let Some(size) = format.strip_prefix("w:") {
        return Some(format!("FixedSizeBinary({size})"));
    }
    if let Some(numbers) = format.strip_prefix("d:") {
        return match numbers.split(',').collect::<Vec<_>>()[..] {
            [precision, scale] => Some(format!("Decimal128({precision}, {scale})")),
            [precision, scale, bits] => Some(format!("Decimal{bits}({precision}, {scale})")),
            _ => None,
        };
    }
    if format.starts_with("+us:") || format.starts_with("+ud:") {
        return Some("Union".into());
    }
    let (kind, zone) = match format.split_once(':') {
        Some((kind, zone)) => (kind, Some(zone)),
        None => (format, None),
    };
    let unit = match kind.get(2..)? {
        "s" => "Second",
        "m" => "Millisecond",
        "u" => "Microsecond",
        "n" => "Nanosecond",
        _ => return None,
    };
    match (&kind[..2], unit, zone) {
        ("tt", "Second" | "Millisecond", None) => Some(format!("Time32({unit})")),
        ("tt", _, None) => Some(format!("Time64({unit})")),
        ("tD", _, None) => Some(format!("Duration({unit})")),
        ("ts", _, Some("")) => Some(format!("Timestamp({unit})")),
        ("ts", _, Some(zone)) => Some(format!("Timestamp({unit}, {zone})")),
        _ => None,
    }
}

#[cfg(test)]
mod tests {
    use super::Shown;

    #[test]
    fn types_are_shown_with_their_names() {
        for (text, name) in [
            ("u", "Utf8"),
            ("U", "LargeUtf8"),
            ("C", "UInt8"),
            ("vz", "BinaryView"),
            ("w:16", "FixedSizeBinary(16)"),
            ("d:9,-2", "Decimal128(9, -2)"),
            ("d:9,2,32", "Decimal32(9, 2)"),
            ("d:50,2,256", "Decimal256(50, 2)"),
            ("tdm", "Date64"),
            ("tts", "Time32(Second)"),
            ("ttn", "Time64(Nanosecond)"),
            ("tDm", "Duration(Millisecond)"),
            ("tsu:", "Timestamp(Microsecond)"),
            ("tsu:Europe/Oslo", "Timestamp(Microsecond, Europe/Oslo)"),
            ("tss:+01:00", "Timestamp(Second, +01:00)"),
            ("tin", "Interval(MonthDayNano)"),
            ("+l<u>", "List(Utf8)"),
            ("+w:3<i>", "FixedSizeList(Int32, 3)"),
            ("+s", "Struct()"),
            ("+s<id: l, name: u>", "Struct(id: Int64, name: Utf8)"),
            (
                "+s<\"a, \\\"b: c>\": d:9,2, \"\": +l<L>>",
                "Struct(\"a, \\\"b: c>\": Decimal128(9, 2), \"\": List(UInt64))",
            ),
            ("C<u>", "Dictionary(UInt8, Utf8)"),
            (
                "+l<i<+s<a: f>>>",
                "List(Dictionary(Int32, Struct(a: Float32)))",
            ),
            ("+s<..>", "Struct(..)"),
            ("C<..>", "Dictionary(UInt8, ..)"),
            ("+ud:0,1<..>", "Union(..)"),
        ] {
            assert_eq!(Shown(text).to_string(), format!("{text} ({name})"));
        }
    }

    #[test]
    fn unknown_types_are_shown_in_quotes() {
        for text in [
            "",
            "x",
            "ii",
            "é",
            "tté",
            "ttx",
            "ts",
            "tss",
            "tts:",
            "d:9",
            "+x<i>",
            "+l<i",
            "i>",
            "+l<x>",
            "+s<a>",
            "+s<\"a: i>",
        ] {
            assert_eq!(Shown(text).to_string(), format!("{text:?}"));
            assert!(!Shown(text).has_floats());
        }
    }

    #[test]
    fn floats_are_found_at_any_level() {
        for text in ["e", "f", "g", "+l<g>", "+s<id: l, share: f>", "C<g>"] {
            assert!(Shown(text).has_floats(), "{text}");
        }
        for text in ["l", "+l<..>", "+s<f: l, g: u>", "+s<\"f, g\": l>"] {
            assert!(!Shown(text).has_floats(), "{text}");
        }
    }
}
