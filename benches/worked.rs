//! Worked cases of the calls of `crates/bench_calls`, with sums found by hand, and lists that say no network, sheet or roll,
//! which each call answers with 0.
//!
//! It links the static library that `rt lib` makes of `crates/bench_calls`; `run.py` builds and runs it. It ends with status 1
//! where a call answers something else, and names the case.

mod calls;
mod measure;

use calls::{Lives, Network, Roll, Sheet};
use measure::ended;
use std::process::ExitCode;

/// GRID, 1, 2 and 3 in a ring with a chord from GRID to 2.
const FROM: [u16; 5] = [0, 1, 3, 3, 2];
const TO: [u16; 5] = [1, 2, 2, 0, 0];

/// GRID, 1, 2 and 3 in a chain; the other two devices are normally open.
const CHAIN: [u8; 5] = [1, 1, 1, 0, 0];
const NETWORK: Network = Network {
    nodes: 4,
    from: &FROM,
    to: &TO,
    closed: &CHAIN,
};

const LAST: u32 = 366 * 86_400 - 1;

/// The calls that answered something else than was wanted.
struct Cases {
    wrong: usize,
}

impl Cases {
    fn check(&mut self, name: &str, found: u64, wanted: u64) {
        if found != wanted {
            eprintln!("{name}: {found} in place of {wanted}");
            self.wrong += 1;
        }
    }
}

fn search(nodes: u16, from: &[u16], to: &[u16], closed: &[u8], rounds: u32) -> u64 {
    calls::search(
        Network {
            nodes,
            from,
            to,
            closed,
        },
        rounds,
    )
}

fn searches(cases: &mut Cases) {
    let table = [
        ([1, 1, 1, 1, 1], 4),
        ([0, 0, 0, 0, 0], 1),
        ([1, 0, 1, 0, 0], 2),
        ([0, 1, 1, 0, 0], 1),
        ([0, 1, 255, 1, 0], 4),
        ([0, 0, 1, 0, 1], 3),
    ];
    for (closed, nodes) in table {
        let sum = search(4, &FROM, &TO, &closed, 3);
        cases.check(&format!("nodes supplied where {closed:?}"), sum, 3 * nodes);
    }
    let closed = [1; 5];
    cases.check("no node", search(0, &FROM, &TO, &closed, 1), 0);
    cases.check(
        "an end that is no node",
        search(3, &FROM, &TO, &closed, 1),
        0,
    );
    cases.check("too many nodes", search(1025, &FROM, &TO, &closed, 1), 0);
    cases.check("an end too few", search(4, &FROM, &TO[..4], &closed, 1), 0);
    cases.check("a mark too few", search(4, &FROM, &TO, &closed[..4], 1), 0);
    cases.check("equal ends", search(4, &[2], &[2], &[1], 1), 0);
    cases.check("no round", search(4, &FROM, &TO, &closed, 0), 0);
}

fn build(devices: &[u16], closes: &[u8], seconds: &[u32], rounds: u32) -> u64 {
    calls::build(
        NETWORK,
        Sheet {
            devices,
            closes,
            seconds,
        },
        rounds,
    )
}

/// 2 and 3 are cut off at 100. Device 3 supplies 3 again at 160, and not 2, by the late entry that opens what joins them; 2 is
/// supplied again at 300. 1 is cut off from 200 to 230.
fn builds(cases: &mut Cases) {
    let seconds = [100, 160, 200, 230, 300, 150];
    let sum = build(&[1, 3, 0, 0, 1, 2], &[0, 1, 0, 1, 1, 0], &seconds, 3);
    cases.check("seconds without supply", sum, 3 * (200 + 60 + 30));
    cases.check(
        "opened at the last second",
        build(&[0], &[0], &[LAST], 1),
        3,
    );
    cases.check(
        "closed at the last second",
        build(&[0], &[1], &[LAST], 1),
        0,
    );
    cases.check(
        "opened after the year",
        build(&[0], &[0], &[LAST + 1], 1),
        0,
    );
    cases.check("another device", build(&[5], &[0], &[LAST], 1), 0);
}

/// What both sets of figures come to in the chain, where 3 is cut off from 100 to 500 and from 1,000 to 1,250.
fn figures(sections: &[u16], begins: &[u32], ends: &[u32], marked: &[u16]) -> u64 {
    let sheet = Sheet {
        devices: &[2; 4],
        closes: &[0, 1, 0, 1],
        seconds: &[100, 500, 1_000, 1_250],
    };
    calls::counts(
        NETWORK,
        sheet,
        Roll {
            sections,
            begins,
            ends,
        },
        marked,
        1,
    )
}

/// One customer of two has an interruption of 400 seconds and one of 250: SAIFI 1/2, SAIDI 10/3, CAIDI 20/3, CAIFI 1/1, ASAI
/// 158111/158112, CEMI-1 1/2 and nine of 0/1. Where the first day is marked, it has none: four indices of 0/1 or 1/1, two
/// undefined ones and nine of 0/1.
fn counts(cases: &mut Cases) {
    let all = 400 + 1 + 3 + 13 + 23 + 2 + 316_223 + 3 + 9;
    let none = 1 + 1 + 2 + 1 + 9;
    let ends = [LAST + 1, LAST + 1];
    let sum = figures(&[1, 3], &[0, 0], &ends, &[365]);
    cases.check("figures where the last day is marked", sum, all + all);
    let sum = figures(&[1, 3], &[0, 0], &ends, &[0]);
    cases.check("figures where the first day is marked", sum, all + none);
    cases.check("a customer of GRID", figures(&[0], &[0], &[1], &[]), 0);
    cases.check("a customer of no node", figures(&[4], &[0], &[1], &[]), 0);
    cases.check(
        "a service without a second",
        figures(&[1], &[1], &[1], &[]),
        0,
    );
    cases.check(
        "a mark after the year",
        figures(&[1], &[0], &[1], &[366]),
        0,
    );
    cases.check("a day marked twice", figures(&[1], &[0], &[1], &[2, 2]), 0);
    cases.check("a beginning too many", figures(&[1], &[0, 0], &[1], &[]), 0);
    cases.check("an end too few", figures(&[1], &[0], &[], &[]), 0);
}

/// The seconds without supply in the chain once devices have these lives, where 3 is cut off from 10 to 110 and device 3, which
/// supplies it too, is closed at 20.
fn lived(devices: &[u16], since: &[u32], until: &[u32], searches: &mut [u64]) -> u64 {
    let sheet = Sheet {
        devices: &[2, 3, 2],
        closes: &[0, 1, 1],
        seconds: &[10, 20, 110],
    };
    calls::lives(
        NETWORK,
        sheet,
        Lives {
            devices,
            since,
            until,
        },
        searches,
    )
}

/// Where devices are always there, 3 is without supply from 10 to 20.
fn lives(cases: &mut Cases) {
    let none = u32::MAX;
    cases.check("no other life", lived(&[], &[], &[], &mut []), 10);
    let sum = lived(&[3], &[40], &[60], &mut [0]);
    cases.check("closed within its life alone", sum, 30 + 50);
    let sum = lived(&[0], &[5], &[none], &mut [0]);
    cases.check("GRID is joined at 5", sum, 3 * 5 + 10);
    let sum = lived(&[3], &[0], &[LAST], &mut [0]);
    cases.check("a life ends at the last second", sum, 10);
    let mut searches = [0; 2];
    let sum = lived(&[3, 3], &[40, 0], &[60, none], &mut searches);
    cases.check("a life and the whole one again", sum, 10);
    cases.check("searches of a life", u64::from(searches[0] > 0), 1);
    let sum = lived(&[3], &[LAST + 1], &[none], &mut [0]);
    cases.check("a life after the year", sum, 100);
    let sum = lived(&[0], &[5], &[5], &mut [0]);
    cases.check("a life without a second", sum, 0);
    let sum = lived(&[5], &[0], &[none], &mut [0]);
    cases.check("a life of another device", sum, 0);
    let sum = lived(&[3], &[40], &[], &mut [0]);
    cases.check("a life's end too few", sum, 0);
    let sum = lived(&[3], &[40], &[60], &mut []);
    cases.check("a place for searches too few", sum, 0);
}

fn main() -> ExitCode {
    let mut cases = Cases { wrong: 0 };
    searches(&mut cases);
    builds(&mut cases);
    counts(&mut cases);
    lives(&mut cases);
    let wrong = cases.wrong;
    ended(
        wrong == 0,
        &format!("{wrong} calls answered something else"),
    )
}
