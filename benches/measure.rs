//! The words, the time and the memory of this process, and how it ends.
//!
//! A program uses some of this alone.
#![allow(dead_code)]

use std::ffi::c_long;
use std::process::ExitCode;

unsafe extern "C" {
    /// The C library's processor time of this process, in millionths of a second.
    fn clock() -> c_long;
}

/// The processor seconds of this process so far.
fn processor_seconds() -> f64 {
    unsafe { clock() as f64 / 1e6 }
}

/// The processor seconds that some calls took, each, rising.
pub fn timed(calls: usize, mut call: impl FnMut()) -> Vec<f64> {
    let mut seconds: Vec<f64> = (0..calls)
        .map(|_| {
            let start = processor_seconds();
            call();
            processor_seconds() - start
        })
        .collect();
    seconds.sort_by(f64::total_cmp);
    seconds
}

/// The peak of resident memory so far, in kilobytes.
pub fn peak() -> u64 {
    let status = std::fs::read_to_string("/proc/self/status").unwrap_or_default();
    let line = status.lines().find(|line| line.starts_with("VmHWM:"));
    let kilobytes = line.and_then(|line| line.split_whitespace().nth(1));
    kilobytes.and_then(|word| word.parse().ok()).unwrap_or(0)
}

/// The middle one of some numbers.
pub fn median(mut numbers: Vec<f64>) -> f64 {
    numbers.sort_by(f64::total_cmp);
    numbers[numbers.len() / 2]
}

/// The words of the command line as so many numbers; else it says what they are.
pub fn words<const N: usize>(what: &str) -> Option<[usize; N]> {
    let words = std::env::args().skip(1).map_while(|word| word.parse().ok());
    let numbers = words.collect::<Vec<usize>>().try_into().ok();
    if numbers.is_none() {
        eprintln!("the words are {what}");
    }
    numbers
}

/// Success where it is right; else it says what isn't.
pub fn ended(is_right: bool, wrong: &str) -> ExitCode {
    if is_right {
        return ExitCode::SUCCESS;
    }
    eprintln!("{wrong}");
    ExitCode::FAILURE
}
