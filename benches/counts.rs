//! The time and the memory that the counts of a year's interruptions and their indices take, of all of them
//! and of the unmarked ones, by the proved `counts` and `indices` over a roll of so many customers.
//!
//! It links the static library that `rt lib` makes of `crates/bench_calls`; `run.py` builds it and runs
//! it once for each size, so that the peak of memory is that size's own. Its words are the numbers of
//! entries, of customers and of timed calls. It prints one line: the runs of all sections, the customers,
//! the median processor seconds of making network, sheet, runs and roll, of counts and indices, and of a
//! plain count, the peak of resident memory in kilobytes before it, and what the counts and indices come
//! to. It ends with status 1 where the plain count differs.

mod breadth_first;
mod calls;
mod case;
mod measure;
mod numbers;

use case::{Case, YEAR, small_cases};
use measure::{ended, median, peak, timed, words};
use numbers::Numbers;
use std::hint::black_box;
use std::process::ExitCode;

/// Marked days, the first and the last one among them.
const MARKED: [u16; 6] = [0, 77, 78, 200, 301, 365];
/// A second after the year, at which a service ends that outlasts it.
const LATER: usize = YEAR + 1_000;

/// Customers, each with its section and with the seconds from the year's first one at which its service
/// begins and ends.
struct Roll {
    sections: Vec<u16>,
    begins: Vec<u32>,
    ends: Vec<u32>,
}

impl Roll {
    /// Customers of any sections, of whom one in ten begins and one in ten ends its service within `span`
    /// seconds from `first`; the others are in service all year.
    fn new(
        case: &Case,
        customers: usize,
        first: usize,
        span: usize,
        numbers: &mut Numbers,
    ) -> Roll {
        let mut roll = Roll {
            sections: Vec::new(),
            begins: Vec::new(),
            ends: Vec::new(),
        };
        for _ in 0..customers {
            let begin = match numbers.below(10) {
                0 => first + numbers.below(span),
                _ => 0,
            };
            let end = match numbers.below(10) {
                0 => begin + 1 + numbers.below(first + span - begin),
                _ => LATER,
            };
            roll.sections.push(1 + numbers.below(case.nodes - 1) as u16);
            roll.begins.push(begin as u32);
            roll.ends.push(end as u32);
        }
        roll
    }

    /// The customer-seconds of service in the year.
    fn seconds_in_service(&self) -> u64 {
        let services = self.begins.iter().zip(&self.ends);
        services
            .map(|(&begin, &end)| u64::from(end.min(YEAR as u32) - begin))
            .sum()
    }
}

/// What the proved library's counts and indices come to, added up over the rounds.
fn proved(case: &Case, roll: &Roll, rounds: u32) -> u64 {
    let Roll {
        sections,
        begins,
        ends,
    } = roll;
    let roll = calls::Roll {
        sections,
        begins,
        ends,
    };
    case.call(|network, sheet| calls::counts(network, sheet, roll, &MARKED, rounds))
}

/// Counts of interruptions over a roll.
#[derive(Default)]
struct Counts {
    ci: u128,
    csi: u128,
    mi: u128,
    interrupted: [u128; 10],
}

impl Counts {
    /// Adds a customer's interruptions, each by its first second and its end.
    fn add(&mut self, interruptions: &[(u32, u32)]) {
        let seconds = interruptions
            .iter()
            .map(|(since, until)| u128::from(until - since));
        let sustained: Vec<u128> = seconds.filter(|&seconds| seconds > 300).collect();
        self.ci += sustained.len() as u128;
        self.csi += sustained.iter().sum::<u128>();
        self.mi += (interruptions.len() - sustained.len()) as u128;
        for customers in self.interrupted.iter_mut().take(sustained.len()) {
            *customers += 1;
        }
    }

    /// What the counts and their indices come to.
    fn figures(&self, in_service: u128) -> u128 {
        let (s, p) = (in_service, YEAR as u128);
        let mut sum = self.csi + self.mi;
        sum += part(self.ci * p, s) + part(self.csi * p, 60 * s) + part(self.csi, 60 * self.ci);
        sum += part(self.ci, self.interrupted[0]) + part(s - self.csi, s);
        let shares = self
            .interrupted
            .iter()
            .map(|customers| part(customers * p, s));
        sum + shares.sum::<u128>()
    }
}

/// The last 32 binary digits of both numbers of a quotient in lowest terms, added up; 0 for a denominator of 0.
fn part(num: u128, den: u128) -> u128 {
    if den == 0 {
        return 0;
    }
    let (mut divisor, mut rest) = (num, den);
    while rest != 0 {
        (divisor, rest) = (rest, divisor % rest);
    }
    (num / divisor) % (1 << 32) + (den / divisor) % (1 << 32)
}

/// For each node, the stretches between switchings in which it isn't supplied, rising.
type Dark = Vec<Vec<(u32, u32)>>;

fn dark(case: &Case) -> Dark {
    let mut dark = vec![Vec::new(); case.nodes];
    case.stretches(&case.whole_lives(), |since, until, reached| {
        for (stretches, reached) in dark.iter_mut().zip(reached) {
            if !reached {
                stretches.push((since, until));
            }
        }
    });
    dark
}

/// The interruptions of a service: the parts of these stretches in it, those that touch as one.
fn interruptions(dark: &[(u32, u32)], begin: u32, end: u32) -> Vec<(u32, u32)> {
    let mut found: Vec<(u32, u32)> = Vec::new();
    for (since, until) in dark {
        let (since, until) = (begin.max(*since), end.min(*until));
        match found.last_mut() {
            _ if since >= until => {}
            Some(last) if last.1 == since => last.1 = until,
            _ => found.push((since, until)),
        }
    }
    found
}

/// What the counts and the indices come to, by lists of each customer's interruptions.
fn plain(dark: &Dark, roll: &Roll) -> u64 {
    let (mut all, mut unmarked) = (Counts::default(), Counts::default());
    for (place, &section) in roll.sections.iter().enumerate() {
        let stretches = &dark[usize::from(section)];
        let mut found = interruptions(stretches, roll.begins[place], roll.ends[place]);
        all.add(&found);
        found.retain(|(since, _)| !MARKED.contains(&((since / 86_400) as u16)));
        unmarked.add(&found);
    }
    let in_service = u128::from(roll.seconds_in_service());
    (all.figures(in_service) + unmarked.figures(in_service)) as u64
}

/// How many runs without supply the sections have.
fn runs(dark: &Dark) -> usize {
    let of = |stretches: &Vec<_>| interruptions(stretches, 0, YEAR as u32).len();
    dark.iter().map(of).sum()
}

/// Measures one size and prints its line. It answers whether the plain count agrees.
fn measure(entries: usize, customers: usize, calls: usize, numbers: &mut Numbers) -> bool {
    let case = Case::of_year(entries, numbers);
    let roll = Roll::new(&case, customers, 0, YEAR, numbers);
    let call = |rounds| {
        black_box(proved(black_box(&case), &roll, rounds));
    };
    let (mut making, mut counting) = (Vec::new(), Vec::new());
    for _ in 0..calls {
        let made = timed(1, || call(0))[0];
        making.push(made);
        counting.push(timed(1, || call(1))[0] - made);
    }
    let peak = peak();
    let dark = dark(&case);
    let plainly = timed(calls, || {
        black_box(plain(black_box(&dark), &roll));
    });
    let (runs, figures) = (runs(&dark), proved(&case, &roll, 1));
    let (making, counting, plainly) = (median(making), median(counting), median(plainly));
    println!("{runs}\t{customers}\t{making}\t{counting}\t{plainly}\t{peak}\t{figures}");
    figures == plain(&dark, &roll)
}

/// Whether the plain count agrees on a small case, whose services begin and end close to its switchings.
fn agrees(case: &Case, numbers: &mut Numbers) -> bool {
    let first = case
        .sheet
        .iter()
        .map(|switching| switching.second as usize)
        .min();
    let roll = Roll::new(case, 1 + numbers.below(20), first.unwrap_or(0), 60, numbers);
    proved(case, &roll, 1) == plain(&dark(case), &roll)
}

fn main() -> ExitCode {
    let Some([entries, customers, calls]) =
        words("the numbers of entries, of customers and of timed calls")
    else {
        return ExitCode::FAILURE;
    };
    let mut numbers = Numbers::begin();
    let is_right = measure(entries, customers, calls, &mut numbers);
    let small = small_cases(&mut numbers);
    ended(
        is_right && small.iter().all(|case| agrees(case, &mut numbers)),
        &format!(
            "{entries} entries, {customers} customers: the figures differ from the plain count"
        ),
    )
}
