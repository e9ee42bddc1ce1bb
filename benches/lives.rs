//! The time and the searches that it takes to give devices other lives, in the runs of a year that the proved `Windowed` keeps
//! under a sheet of so many entries.
//!
//! It links the static library that `rt lib` makes of `crates/bench_calls`; `run.py` builds it and runs it once for each number
//! of entries, so that the peak of memory is that number's own. Its words are the number of entries and the number of timed
//! calls. It prints one line: the entries, the median processor seconds of all lives and of one, the mean and the greatest number
//! of searches for a life that begins within the year, the same for one that ends there, the peak of resident memory in
//! kilobytes, and the seconds without supply. It ends with status 1 where a plain count of those differs.

mod breadth_first;
mod calls;
mod case;
mod measure;
mod numbers;

use case::{Case, DEVICES, Life, NO_END, YEAR, seconds_without_supply, small_cases};
use measure::{ended, median, peak, timed, words};
use numbers::Numbers;
use std::hint::black_box;
use std::process::ExitCode;

/// Devices that join in the course of the year.
const JOINING: usize = 50;
/// Devices that leave in its course.
const LEAVING: usize = 30;

/// A device and the life that it is given.
#[derive(Clone, Copy)]
struct Given {
    device: u16,
    life: Life,
}

/// The seconds without supply that the proved library answers once these lives are given one after the other, and how often the
/// network was searched for each.
fn proved(case: &Case, given: &[Given]) -> (u64, Vec<u64>) {
    let devices: Vec<u16> = given.iter().map(|given| given.device).collect();
    let since: Vec<u32> = given.iter().map(|given| given.life.since).collect();
    let until: Vec<u32> = given.iter().map(|given| given.life.until).collect();
    let mut searches = vec![0; given.len()];
    let lives = calls::Lives {
        devices: &devices,
        since: &since,
        until: &until,
    };
    let sum = case.call(|network, sheet| calls::lives(network, sheet, lives, &mut searches));
    (sum, searches)
}

/// The seconds without supply under these lives, by a plain count.
fn plain(case: &Case, given: &[Given]) -> u64 {
    let mut lives = case.whole_lives();
    for given in given {
        lives[usize::from(given.device)] = given.life;
    }
    seconds_without_supply(case, &lives)
}

/// Devices of which some join and the others leave at any second of the year. Those that join are given a life after the year
/// first of all, so that they are absent in it.
fn joining_and_leaving(numbers: &mut Numbers) -> Vec<Given> {
    let mut devices: Vec<u16> = Vec::new();
    while devices.len() < JOINING + LEAVING {
        let device = numbers.below(DEVICES) as u16;
        if !devices.contains(&device) {
            devices.push(device);
        }
    }
    let (joining, leaving) = devices.split_at(JOINING);
    let given = |device: &u16, since, until| Given {
        device: *device,
        life: Life { since, until },
    };
    let mut all: Vec<Given> = Vec::new();
    all.extend(
        joining
            .iter()
            .map(|device| given(device, YEAR as u32, NO_END)),
    );
    for device in joining {
        all.push(given(device, numbers.below(YEAR) as u32, NO_END));
    }
    for device in leaving {
        all.push(given(device, 0, 1 + numbers.below(YEAR - 1) as u32));
    }
    all
}

/// The mean and the greatest of some numbers.
fn mean_and_greatest(numbers: &[u64]) -> (u64, u64) {
    let greatest = numbers.iter().copied().max();
    (
        numbers.iter().sum::<u64>() / numbers.len() as u64,
        greatest.unwrap_or(0),
    )
}

/// Measures one case and prints its line. It answers whether the plain count agrees.
fn measure(entries: usize, calls: usize, numbers: &mut Numbers) -> bool {
    let case = Case::of_year(entries, numbers);
    let all = joining_and_leaving(numbers);
    let (mut seconds, mut searches) = (0, Vec::new());
    let mut spent: Vec<f64> = Vec::new();
    for _ in 0..calls {
        let before = timed(1, || {
            black_box(proved(black_box(&case), &all[..JOINING]));
        })[0];
        let after = timed(1, || {
            (seconds, searches) = proved(black_box(&case), &all);
        })[0];
        spent.push(after - before);
    }
    let (peak, all_lives) = (peak(), median(spent));
    let one = all_lives / (JOINING + LEAVING) as f64;
    let (joining, leaving) = searches[JOINING..].split_at(JOINING);
    let (joining, leaving) = (mean_and_greatest(joining), mean_and_greatest(leaving));
    println!(
        "{entries}\t{all_lives}\t{one}\t{}\t{}\t{}\t{}\t{peak}\t{seconds}",
        joining.0, joining.1, leaving.0, leaving.1
    );
    seconds == plain(&case, &all)
}

/// Whether the plain count agrees on a small case, whose lives begin and end close to its switchings, or outside the year.
fn agrees(case: &Case, numbers: &mut Numbers) -> bool {
    let seconds = case.sheet.iter().map(|switching| switching.second);
    let first = seconds.min().unwrap_or(0);
    let given: Vec<Given> = (0..numbers.below(8))
        .map(|_| {
            let since = match numbers.below(3) {
                0 => 0,
                _ => first + numbers.below(62) as u32,
            };
            let until = match numbers.below(3) {
                0 => NO_END,
                _ => since.max(first) + 1 + numbers.below(62) as u32,
            };
            Given {
                device: numbers.below(case.closed.len()) as u16,
                life: Life { since, until },
            }
        })
        .collect();
    proved(case, &given).0 == plain(case, &given)
}

fn main() -> ExitCode {
    let Some([entries, calls]) = words("the number of entries and the number of timed calls")
    else {
        return ExitCode::FAILURE;
    };
    let mut numbers = Numbers::begin();
    let is_right = measure(entries, calls, &mut numbers);
    let small = small_cases(&mut numbers);
    ended(
        is_right && small.iter().all(|case| agrees(case, &mut numbers)),
        &format!("{entries} entries: the seconds without supply differ from the plain count"),
    )
}
