//! Times the kernels of the library beside plain Rust, in one run and at one processor level, and
//! prints a line for each: nanoseconds a row (a bit, where the rows are bits) on either side, their
//! ratio, and what is asked for. Arguments: words of the names of the kernels to run. The variable
//! ROUNDS says in how many rounds all but arithmetic are timed, if not in four; with QUICK=1 it is
//! one, of rough figures. JSON names a file that gets the final lines too.
//!
//! To add a kernel: its entry and its arm in `crates/bench_kernels`, the same entry of the enum
//! here, its peer in the file `plain*.rs` of its shape, and a line where its group hands out its
//! kernels.

mod arithmetic;
mod arrays;
mod bitmaps;
mod nested;
mod nested_rows;
mod operands;
mod plain;
mod plain_arithmetic;
mod plain_nested;
mod plain_reductions;
mod plain_states;
mod plain_strings;
mod reductions;
mod report;
mod slices;
mod states;
mod string_rows;
mod strings;
mod timing;

use nested_rows::Nested;
use operands::Data;
use string_rows::Strings;
use timing::{Bench, Kernel, RUNS, Settings};

/// Hands each kernel on rows to `each`, on `count` of them.
fn for_each_on_rows(count: usize, each: &mut dyn FnMut(&Kernel)) {
    let data = &Data::new(count);
    slices::for_each(data, each);
    arrays::for_each(data, each);
    reductions::for_each(data, each);
    states::for_each(count, each);
    strings::for_each(&Strings::new(count), each);
    nested::for_each(&Nested::new(count), each);
}

/// Checks that both sides return the same bits for `count` rows, if the kernel is to be run.
fn agree(bench: &Bench, count: usize, kernel: &Kernel) {
    if !bench.runs(kernel.name) {
        return;
    }
    let repeats = 2 * count + 4;
    assert_eq!(
        (kernel.ours)(repeats),
        (kernel.plain)(repeats),
        "{} of {count} rows",
        kernel.name
    );
}

/// Checks that both sides return the same, at lengths up to some hundreds.
fn rows_agree(bench: &Bench) {
    for count in 0..300 {
        for_each_on_rows(count, &mut |kernel| agree(bench, count, kernel));
        nested::for_structs(count, &mut |kernel| agree(bench, count, kernel));
    }
    nested::for_deep_lists(&mut |kernel| agree(bench, 1, kernel));
}

fn main() {
    let settings = Settings::read();
    let rounds = settings.rounds;
    let mut bench = Bench::new(settings);
    eprintln!("comparing what both sides return, and then timing");
    rows_agree(&bench);
    bitmaps::agree(&bench);
    arithmetic::agree(&bench);
    bench.in_rounds(rounds, |bench| {
        for run in 0..RUNS.len() {
            for_each_on_rows(RUNS[run].count, &mut |kernel| {
                bench.compare(run, kernel);
            });
            bitmaps::compare(bench, run);
        }
        nested::compare(bench);
        states::compare(bench);
    });
    bench.in_rounds(1, |bench| {
        for run in 0..RUNS.len() {
            arithmetic::compare(bench, run);
        }
    });
    bench.end();
}
