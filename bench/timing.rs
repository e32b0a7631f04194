//! Times the two sides of a kernel.

use crate::report::{Limit, Line, Peer, Report};
use std::collections::HashMap;
use std::hint::black_box;
use std::time::{Duration, Instant};

/// The value that a side returns for a bit past the end.
pub const NO_BIT: u64 = 2;

/// Returns bit `i` of the `len` bits that were made.
pub fn bit_of(made: Vec<u64>, len: usize, i: usize) -> u64 {
    let words = black_box(made);
    if i < len {
        (words[i / 64] >> (i % 64)) & 1
    } else {
        NO_BIT
    }
}

/// Runs a kernel `repeats` times. Returns the checksum that the library's entry points return.
pub fn repeat<X>(operands: &[X; 2], repeats: usize, run: impl Fn(&X, usize) -> u64) -> u64 {
    (0..repeats).fold(0, |checksum: u64, round| {
        let number = run(black_box(&operands[round % 2]), round / 2);
        checksum.wrapping_mul(31).wrapping_add(number)
    })
}

/// Runs a peer on its rows bit by bit, `repeats` times.
pub fn plain_rows(count: usize, repeats: usize, make: impl Fn() -> Vec<u64>) -> u64 {
    repeat(&[(); 2], repeats, |(), i| bit_of(make(), count, i))
}

/// A number of rows, how many times each side is measured there, and how long one measurement lasts
/// at least beside the making of the operands, so that the clock's own time is small in it.
#[derive(Clone, Copy)]
pub struct Run {
    pub count: usize,
    times: usize,
    least: Duration,
}

pub const RUNS: [Run; 2] = [
    Run {
        count: 16_384,
        times: 100,
        least: Duration::from_millis(1),
    },
    Run {
        count: 1_048_576,
        times: 16,
        least: Duration::from_millis(20),
    },
];

/// The runs of kernels that come in many forms.
pub const SHORT_RUNS: [Run; 2] = [
    Run {
        count: RUNS[0].count,
        times: 60,
        least: Duration::from_micros(500),
    },
    Run {
        count: RUNS[1].count,
        times: 12,
        least: Duration::from_millis(10),
    },
];

impl Run {
    /// Returns the run of a kernel that is timed at numbers of rows of its own.
    pub fn of(count: usize) -> Run {
        Run {
            count,
            times: 20,
            least: Duration::from_millis(5),
        }
    }

    /// Returns the run that gives rough figures in a small part of the time.
    fn quick(self) -> Run {
        Run {
            count: self.count,
            times: 3,
            least: self.least / 8,
        }
    }
}

/// The most that is accepted in each run, as the numbers of rows stand in `RUNS`.
#[derive(Clone, Copy)]
pub enum Asked {
    Nothing,
    /// A multiple of the time that the other side takes.
    Ratio([f64; 2]),
    /// A number of nanoseconds a row.
    Nanoseconds([f64; 2]),
}

impl Asked {
    /// Returns what is accepted in one run.
    fn at(self, run: usize) -> Limit {
        match self {
            Asked::Nothing => Limit::Nothing,
            Asked::Ratio(most) => Limit::Ratio(most[run]),
            Asked::Nanoseconds(most) => Limit::Nanoseconds(most[run]),
        }
    }
}

/// A side of a kernel: runs it a number of times, and returns the checksum.
pub type Side<'a> = &'a dyn Fn(usize) -> u64;

/// A kernel and its peers.
pub struct Kernel<'a> {
    pub name: &'a str,
    pub asked: Asked,
    pub ours: Side<'a>,
    /// Plain Rust that returns the same.
    pub plain: Side<'a>,
    /// The call of the library that is timed in place of the plain Rust.
    pub beside: Option<Side<'a>>,
}

/// Returns how many runs of a kernel a measurement needs to last long enough.
fn repeats_for(least: Duration, work: Side) -> usize {
    let least = least + measured(0, work);
    let mut repeats = 1;
    while measured(repeats, work) < least && repeats < 1 << 24 {
        repeats *= 2;
    }
    repeats
}

fn measured(repeats: usize, work: Side) -> Duration {
    let start = Instant::now();
    black_box(work(repeats));
    start.elapsed()
}

/// The least times in which a side makes its operands, and makes them and runs the kernel.
struct Best {
    made: Duration,
    all: Duration,
}

impl Best {
    fn new() -> Best {
        Best {
            made: Duration::MAX,
            all: Duration::MAX,
        }
    }

    fn measure(&mut self, repeats: usize, work: Side) {
        self.made = self.made.min(measured(0, work));
        self.all = self.all.min(measured(repeats, work));
    }

    /// Nanoseconds a row of the kernel alone.
    fn each(&self, rows: usize) -> f64 {
        self.all.saturating_sub(self.made).as_secs_f64() * 1e9 / rows as f64
    }
}

/// The arguments of a run.
pub struct Settings {
    /// Words of the names of the kernels to run. Without words all are.
    pub words: Vec<String>,
    /// The file that gets the final lines as JSON.
    pub json: Option<String>,
    pub rounds: usize,
    /// True if rough figures suffice.
    pub quick: bool,
}

impl Settings {
    /// Reads the arguments, which are words, and the variables JSON, QUICK and ROUNDS.
    pub fn read() -> Settings {
        let told = |name: &str| std::env::var(name).ok().filter(|value| !value.is_empty());
        let quick = told("QUICK").is_some_and(|value| value == "1");
        let rounds = told("ROUNDS").and_then(|rounds| rounds.parse().ok());
        Settings {
            words: std::env::args().skip(1).collect(),
            json: told("JSON"),
            rounds: rounds.unwrap_or(if quick { 1 } else { 4 }).max(1),
            quick,
        }
    }
}

pub struct Bench {
    words: Vec<String>,
    quick: bool,
    report: Report,
    rounds_left: usize,
    /// The best nanoseconds a row of both sides so far, by the kernel's name and the number of
    /// rows.
    best: HashMap<(String, usize), (f64, f64)>,
}

impl Bench {
    pub fn new(settings: Settings) -> Bench {
        let Settings {
            words,
            json,
            rounds,
            quick,
        } = settings;
        Bench {
            words,
            quick,
            report: Report::new(json, rounds, quick),
            rounds_left: 0,
            best: HashMap::new(),
        }
    }

    /// Times kernels in `rounds` rounds, one kernel after the other. The best times of all rounds
    /// count: other work on the machine lasts for seconds, and then all measurements of a kernel in
    /// one round are slow. The lines of the last round are final.
    pub fn in_rounds(&mut self, rounds: usize, mut each: impl FnMut(&mut Bench)) {
        for round in 1..=rounds {
            self.rounds_left = rounds - round;
            self.report.begin_round(round, rounds);
            each(self);
        }
    }

    /// Returns whether a kernel of that name is one of those to run.
    pub fn runs(&self, name: &str) -> bool {
        self.words.is_empty() || self.words.iter().any(|word| name.contains(word.as_str()))
    }

    /// Ends the report.
    pub fn end(&self) {
        self.report.end();
    }

    /// Times both sides in turn, and prints the line. `run` says which of `RUNS` it is.
    pub fn compare(&mut self, run: usize, kernel: &Kernel) {
        self.time(&RUNS[run], run, kernel);
    }

    /// Times a kernel at any number of rows, where `run` says which of the numbers that are asked
    /// counts. Returns the nanoseconds a row of the library, if the kernel is one of those to run.
    pub fn time(&mut self, rows: &Run, run: usize, kernel: &Kernel) -> Option<f64> {
        if !self.runs(kernel.name) {
            return None;
        }
        let (here, beside) = self.measure(rows, kernel);
        self.hand_in(&Line {
            kernel: kernel.name,
            rows: Some(rows.count),
            here,
            beside,
            asked: kernel.asked.at(run),
            peer: kernel.beside.map_or(Peer::PlainRust, |_| Peer::Library),
        });
        Some(here)
    }

    /// Measures both sides in turn. Returns the best nanoseconds a row of all rounds so far.
    fn measure(&mut self, rows: &Run, kernel: &Kernel) -> (f64, f64) {
        let Run {
            count,
            times,
            least,
        } = if self.quick { rows.quick() } else { *rows };
        let (name, ours) = (kernel.name, kernel.ours);
        assert_eq!(
            ours(9),
            (kernel.plain)(9),
            "{name}: the two sides answer differently"
        );
        let other = kernel.beside.unwrap_or(kernel.plain);
        // A kernel that stops early may take a thousandth of its peer's time, so each side has its
        // own number of runs.
        let (our_runs, other_runs) = (repeats_for(least, ours), repeats_for(least, other));
        let (mut our_best, mut other_best) = (Best::new(), Best::new());
        for _ in 0..times {
            our_best.measure(our_runs, ours);
            other_best.measure(other_runs, other);
        }
        let best = self.best.entry((name.to_string(), count));
        let best = best.or_insert((f64::MAX, f64::MAX));
        best.0 = best.0.min(our_best.each(our_runs * count));
        best.1 = best.1.min(other_best.each(other_runs * count));
        *best
    }

    /// Hands a line to the report: as a final one in the last round.
    fn hand_in(&mut self, line: &Line) {
        if self.rounds_left > 0 {
            self.report.show(line);
        } else {
            self.report.finish(line);
        }
    }

    /// Prints by how much the time of a row grows from the first number of rows to the last one.
    pub fn growth(&mut self, name: &str, times: &[f64], limit: f64) {
        let (Some(first), Some(last)) = (times.first(), times.last()) else {
            return;
        };
        self.hand_in(&Line {
            kernel: &format!("{name}, growth"),
            rows: None,
            here: *last,
            beside: *first,
            asked: Limit::Ratio(limit),
            peer: Peer::Library,
        });
    }
}
