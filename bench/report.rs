//! The lines of the timed kernels: as they are printed, and as JSON.

use std::fmt;
use std::fs::File;
use std::io::Write;
use std::process::{Command, exit};

/// The most that is accepted at one number of rows.
#[derive(Clone, Copy)]
pub enum Limit {
    Nothing,
    /// A multiple of the time that the other side takes.
    Ratio(f64),
    /// A number of nanoseconds a row.
    Nanoseconds(f64),
}

/// The side that a kernel is timed beside.
#[derive(Clone, Copy)]
pub enum Peer {
    PlainRust,
    /// Another call of the library.
    Library,
}

/// The figures of a kernel, in nanoseconds a row.
pub struct Line<'a> {
    pub kernel: &'a str,
    /// The number of rows, unless two of them are compared.
    pub rows: Option<usize>,
    pub here: f64,
    pub beside: f64,
    pub asked: Limit,
    pub peer: Peer,
}

impl Line<'_> {
    fn ratio(&self) -> f64 {
        self.here / self.beside
    }

    /// Returns whether the kernel holds what is asked of it, if anything is.
    fn is_held(&self) -> Option<bool> {
        match self.asked {
            Limit::Nothing => None,
            Limit::Ratio(most) => Some(self.ratio() <= most),
            Limit::Nanoseconds(most) => Some(self.here <= most),
        }
    }

    /// Returns the line as an object of JSON.
    fn json(&self) -> String {
        let (asked, unit) = match self.asked {
            Limit::Nothing => (f64::NAN, "null"),
            Limit::Ratio(most) => (most, "\"ratio\""),
            Limit::Nanoseconds(most) => (most, "\"ns\""),
        };
        let peer = match self.peer {
            Peer::PlainRust => "plain Rust",
            Peer::Library => "library",
        };
        let parts = [
            ("kernel", quoted(self.kernel)),
            ("rows", or_null(self.rows)),
            ("ns_here", number(self.here)),
            ("ns_beside", number(self.beside)),
            ("ratio", number(self.ratio())),
            ("asked", number(asked)),
            ("asked_of", unit.to_string()),
            ("beside", quoted(peer)),
            ("held", or_null(self.is_held())),
        ];
        object(&parts)
    }
}

impl fmt::Display for Line<'_> {
    fn fmt(&self, to: &mut fmt::Formatter) -> fmt::Result {
        let rows = self.rows.map_or(String::new(), |rows| rows.to_string());
        let limit = match self.asked {
            Limit::Nothing => "-".to_string(),
            Limit::Ratio(most) => format!("{most:.2}"),
            Limit::Nanoseconds(most) => format!("{most:.2} ns"),
        };
        let state = if self.is_held() == Some(false) {
            "OVER"
        } else {
            "ok"
        };
        let Line {
            kernel,
            here,
            beside,
            ..
        } = self;
        write!(
            to,
            "{kernel:44} {rows:>9} {here:9.4} {beside:9.4} {:7.2} {limit:>8}  {state}",
            self.ratio()
        )
    }
}

/// Returns the names of the columns.
fn heading() -> String {
    format!(
        "{:44} {:>9} {:>9} {:>9} {:>7} {:>8}",
        "kernel", "rows", "ns here", "ns beside", "ratio", "asked"
    )
}

/// Returns an object of JSON.
fn object(parts: &[(&str, String)]) -> String {
    let members: Vec<String> = parts
        .iter()
        .map(|(name, value)| format!("\"{name}\": {value}"))
        .collect();
    format!("{{{}}}", members.join(", "))
}

/// Returns a text as JSON.
fn quoted(text: &str) -> String {
    let inner: String = text
        .chars()
        .flat_map(|letter| match letter {
            '"' | '\\' => vec!['\\', letter],
            _ if letter.is_control() => vec![' '],
            _ => vec![letter],
        })
        .collect();
    format!("\"{inner}\"")
}

/// Returns a number as JSON, which has none that is not finite.
fn number(value: f64) -> String {
    if value.is_finite() {
        let text = format!("{value:.6}");
        text.trim_end_matches('0').trim_end_matches('.').to_string()
    } else {
        "null".to_string()
    }
}

/// Returns a value as JSON, or null.
fn or_null(value: Option<impl ToString>) -> String {
    value.map_or("null".to_string(), |value| value.to_string())
}

/// Returns the name of the processor.
fn processor() -> String {
    let told = std::fs::read_to_string("/proc/cpuinfo").unwrap_or_default();
    let mut lines = told.lines().filter_map(|line| line.split_once(':'));
    lines
        .find(|(name, _)| name.trim() == "model name")
        .map_or("unknown".to_string(), |(_, value)| value.trim().to_string())
}

/// Returns how many tasks the machine had of late for its processors, if it says so.
fn load() -> Option<f64> {
    let told = std::fs::read_to_string("/proc/loadavg").ok()?;
    told.split(' ').next()?.parse().ok()
}

/// Returns the date and time of day, in UTC.
fn date() -> String {
    let ran = Command::new("date").args(["-u", "+%FT%TZ"]).output();
    ran.map_or(String::new(), |ran| {
        String::from_utf8_lossy(&ran.stdout).trim().to_string()
    })
}

/// Returns the level of processors that this program is compiled for.
fn level() -> &'static str {
    if cfg!(target_feature = "avx2") {
        "x86-64-v3"
    } else {
        "x86-64-v2"
    }
}

/// A file of JSON, and its name.
struct Json {
    file: File,
    name: String,
}

impl Json {
    /// Creates the file, or ends the program.
    fn create(name: String) -> Json {
        match File::create(&name) {
            Ok(file) => Json { file, name },
            Err(why) => fail(&name, &why),
        }
    }

    /// Writes an object, or ends the program.
    fn write(&mut self, object: &str) {
        if let Err(why) = writeln!(self.file, "{object}") {
            fail(&self.name, &why);
        }
    }
}

/// Ends the program, since a file cannot be written.
fn fail(name: &str, why: &std::io::Error) -> ! {
    eprintln!("bench: {name} cannot be written: {why}");
    exit(2);
}

/// The lines of a run. Those of a round that is not the last one go to standard error, and the
/// final ones to standard output and to the file of JSON.
pub struct Report {
    /// True if the figures are rough.
    quick: bool,
    json: Option<Json>,
    /// A title to print before the next line.
    title: Option<String>,
    lines: usize,
    over: usize,
}

impl Report {
    /// Creates the report of a run of `rounds` rounds, and begins the file of JSON, if there is to
    /// be one.
    pub fn new(json: Option<String>, rounds: usize, quick: bool) -> Report {
        let mut json = json.map(Json::create);
        if let Some(file) = &mut json {
            file.write(&object(&[
                ("date", quoted(&date())),
                ("processor", quoted(&processor())),
                ("level", quoted(level())),
                ("rounds", rounds.to_string()),
                ("quick", quick.to_string()),
                ("load", or_null(load())),
            ]));
        }
        Report {
            quick,
            json,
            title: None,
            lines: 0,
            over: 0,
        }
    }

    /// Begins a round, which is named once it has a line.
    pub fn begin_round(&mut self, round: usize, rounds: usize) {
        self.title = if round < rounds {
            Some(format!(
                "round {round} of {rounds}, the best so far:\n{}",
                heading()
            ))
        } else if rounds > 1 {
            Some(format!("round {round} of {rounds}, the final lines:"))
        } else {
            None
        };
    }

    /// Prints what a round begins with, before its first line.
    fn print_title(&mut self) {
        if let Some(title) = self.title.take() {
            eprintln!("{title}");
        }
    }

    /// Prints the figures of a kernel so far.
    pub fn show(&mut self, line: &Line) {
        self.print_title();
        eprintln!("{line}");
    }

    /// Prints the figures of a kernel that are final.
    pub fn finish(&mut self, line: &Line) {
        self.print_title();
        if self.lines == 0 {
            println!("{}", heading());
        }
        self.lines += 1;
        self.over += usize::from(line.is_held() == Some(false));
        println!("{line}{}", if self.quick { ", rough" } else { "" });
        if let Some(file) = &mut self.json {
            file.write(&line.json());
        }
    }

    /// Prints how many kernels miss what is asked for. Ends the program where there were none.
    pub fn end(&self) {
        if self.lines == 0 {
            eprintln!("bench: no kernel's name holds one of these words");
            exit(1);
        }
        println!("{} over what is asked for", self.over);
    }
}
