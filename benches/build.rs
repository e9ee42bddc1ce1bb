//! The time and the memory that the runs of all sections over a year take, built from scratch by the
//! proved `Scratch::build` under a sheet of so many entries.
//!
//! It links the static library that `rt lib` makes of `crates/bench_calls`; `run.py` builds it and runs
//! it once for each number of entries, so that the peak of memory is that number's own. Its words are
//! the number of entries and the number of timed calls. It prints one line: the entries, the median
//! processor seconds of making network and sheet, the median and the least ones of one build, the peak
//! of resident memory in kilobytes, and the seconds without supply. It ends with status 1 where a plain
//! count of those differs.

mod breadth_first;
mod calls;
mod case;
mod measure;
mod numbers;

use case::{Case, seconds_without_supply, small_cases};
use measure::{ended, peak, timed, words};
use numbers::Numbers;
use std::hint::black_box;
use std::process::ExitCode;

/// The seconds without supply that the proved library answers, added up over the rounds.
fn proved(case: &Case, rounds: u32) -> u64 {
    case.call(|network, sheet| calls::build(network, sheet, rounds))
}

fn plain(case: &Case) -> u64 {
    seconds_without_supply(case, &case.whole_lives())
}

/// Measures one case and prints its line. It answers whether the plain count agrees.
fn measure(entries: usize, calls: usize, numbers: &mut Numbers) -> bool {
    let case = Case::of_year(entries, numbers);
    let call = |rounds| {
        black_box(proved(black_box(&case), rounds));
    };
    let (making, with_build) = (timed(calls, || call(0)), timed(calls, || call(1)));
    let peak = peak();
    let middle = making[calls / 2];
    let (median, least) = (with_build[calls / 2] - middle, with_build[0] - making[0]);
    let seconds = proved(&case, 1);
    println!("{entries}\t{middle}\t{median}\t{least}\t{peak}\t{seconds}");
    seconds == plain(&case)
}

fn main() -> ExitCode {
    let Some([entries, calls]) = words("the number of entries and the number of timed calls")
    else {
        return ExitCode::FAILURE;
    };
    let mut numbers = Numbers::begin();
    let is_right = measure(entries, calls, &mut numbers);
    let small = small_cases(&mut numbers);
    ended(
        is_right && small.iter().all(|case| proved(case, 1) == plain(case)),
        &format!("{entries} entries: the seconds without supply differ from the plain count"),
    )
}
