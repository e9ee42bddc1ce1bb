//! A network and a year of switchings, and what the proved library takes of them.
//!
//! A program uses some of this alone.
#![allow(dead_code)]

use crate::breadth_first::Lists;
use crate::calls::{Network, Sheet};
use crate::numbers::Numbers;

/// The seconds of 366 days.
pub const YEAR: usize = 366 * 86_400;
/// Nodes and devices of a large network, and the feeders that leave GRID.
const NODES: usize = 1_000;
pub const DEVICES: usize = 1_500;
const FEEDERS: usize = 20;
/// Small cases that are compared beside a large one.
const SMALL_CASES: usize = 300;
/// The end of a life that has none.
pub const NO_END: u32 = u32::MAX;

/// A network, its devices by their two ends and 1 for each that is normally closed, and a sheet of
/// switchings, in the order in which they are entered.
pub struct Case {
    pub nodes: usize,
    pub from: Vec<u16>,
    pub to: Vec<u16>,
    pub closed: Vec<u8>,
    pub sheet: Vec<Switching>,
}

/// A device is closed or opened at a second of the year.
#[derive(Clone, Copy)]
pub struct Switching {
    pub device: u16,
    pub closes: bool,
    pub second: u32,
}

/// The seconds of the year in which a device is there, up to `until`, or without end where that is `NO_END`.
#[derive(Clone, Copy)]
pub struct Life {
    pub since: u32,
    pub until: u32,
}

impl Life {
    fn holds(&self, second: u32) -> bool {
        self.since <= second && (second < self.until || self.until == NO_END)
    }
}

impl Case {
    /// Feeders as trees, and ties between any two nodes, of which one in fifty is normally closed.
    pub fn network(nodes: usize, devices: usize, feeders: usize, numbers: &mut Numbers) -> Case {
        let tree =
            (1..nodes).map(|node| (node.saturating_sub(feeders * (1 + numbers.below(3))), node));
        let mut ends: Vec<(usize, usize)> = tree.collect();
        let mut closed = vec![1; ends.len()];
        while ends.len() < devices {
            let tie = (numbers.below(nodes), numbers.below(nodes));
            if tie.0 != tie.1 {
                ends.push(tie);
                closed.push(u8::from(numbers.below(50) == 0));
            }
        }
        Case {
            nodes,
            from: ends.iter().map(|ends| ends.0 as u16).collect(),
            to: ends.iter().map(|ends| ends.1 as u16).collect(),
            closed,
            sheet: Vec::new(),
        }
    }

    /// A large network and so many switchings, each undone within four hours.
    pub fn of_year(entries: usize, numbers: &mut Numbers) -> Case {
        let mut case = Case::network(NODES, DEVICES, FEEDERS, numbers);
        case.switch(entries, 4 * 3_600, numbers);
        case
    }

    /// Enters so many switchings: a device leaves its normal position, and goes back after `longest`
    /// seconds at most. They are entered in the order of their seconds, but one in twenty is late.
    pub fn switch(&mut self, entries: usize, longest: usize, numbers: &mut Numbers) {
        for _ in 0..entries / 2 {
            let device = numbers.below(self.closed.len());
            let second = numbers.below(YEAR - longest);
            let closes = self.closed[device] == 0;
            self.sheet.push(switching(device, closes, second));
            let back = second + 1 + numbers.below(longest);
            self.sheet.push(switching(device, !closes, back));
        }
        self.sheet.sort_by_key(|switching| switching.second);
        let late = |place| place + (numbers.below(20) / 19) * numbers.below(50);
        let mut entered: Vec<(usize, Switching)> = (0..entries)
            .map(late)
            .zip(self.sheet.iter().copied())
            .collect();
        entered.sort_by_key(|entry| entry.0);
        self.sheet = entered.iter().map(|entry| entry.1).collect();
    }

    /// Has a call take the network and the sheet in lists.
    pub fn call<T>(&self, call: impl FnOnce(Network, Sheet) -> T) -> T {
        let devices: Vec<u16> = self.sheet.iter().map(|entry| entry.device).collect();
        let closes: Vec<u8> = self
            .sheet
            .iter()
            .map(|entry| u8::from(entry.closes))
            .collect();
        let seconds: Vec<u32> = self.sheet.iter().map(|entry| entry.second).collect();
        let network = Network {
            nodes: self.nodes as u16,
            from: &self.from,
            to: &self.to,
            closed: &self.closed,
        };
        call(
            network,
            Sheet {
                devices: &devices,
                closes: &closes,
                seconds: &seconds,
            },
        )
    }

    /// Devices that are always there.
    pub fn whole_lives(&self) -> Vec<Life> {
        vec![
            Life {
                since: 0,
                until: NO_END,
            };
            self.closed.len()
        ]
    }

    /// The stretches from one second to the next at which a device is switched or its life begins or ends, each with its
    /// first second, its end and the nodes that are supplied in it, by a breadth-first search each. A device is open outside
    /// its life.
    pub fn stretches(&self, lives: &[Life], mut each: impl FnMut(u32, u32, &[bool])) {
        let ends = self.from.iter().copied().zip(self.to.iter().copied());
        let lists = Lists::new(self.nodes, ends);
        let mut entered = self.closed.clone();
        let mut queue = Vec::new();
        let mut sheet = self.sheet.clone();
        sheet.sort_by_key(|switching| switching.second);
        let mut rest = sheet.iter().peekable();
        let mut since = 0;
        for cut in cuts(&sheet, lives) {
            if since < cut {
                let alive = lives.iter().map(|life| u8::from(life.holds(since)));
                let closed: Vec<u8> = entered.iter().zip(alive).map(|(a, b)| a & b).collect();
                each(since, cut, &lists.reached(&closed, &mut queue));
                since = cut;
            }
            while let Some(switching) = rest.next_if(|switching| switching.second == cut) {
                entered[usize::from(switching.device)] = u8::from(switching.closes);
            }
        }
    }
}

/// The seconds without supply under these lives, counted with no runs: from stretch to stretch, as many for each section that
/// isn't reached.
pub fn seconds_without_supply(case: &Case, lives: &[Life]) -> u64 {
    let mut sum = 0;
    case.stretches(lives, |since, until, reached| {
        let dark = reached.iter().filter(|&&is| !is).count() as u64;
        sum += dark * u64::from(until - since);
    });
    sum
}

/// The seconds of the year at which a device is switched or its life begins or ends, rising, and the year's end.
fn cuts(sheet: &[Switching], lives: &[Life]) -> Vec<u32> {
    let mut cuts: Vec<u32> = sheet.iter().map(|switching| switching.second).collect();
    cuts.extend(lives.iter().flat_map(|life| [life.since, life.until]));
    cuts.retain(|&cut| cut < YEAR as u32);
    cuts.push(YEAR as u32);
    cuts.sort_unstable();
    cuts.dedup();
    cuts
}

fn switching(device: usize, closes: bool, second: usize) -> Switching {
    Switching {
        device: device as u16,
        closes,
        second: second as u32,
    }
}

/// Small networks whose switchings lie close together, so that several share a second, in the first
/// and the last minute of the year.
pub fn small_cases(numbers: &mut Numbers) -> Vec<Case> {
    (0..SMALL_CASES)
        .map(|number| {
            let nodes = 2 + numbers.below(8);
            let mut case = Case::network(nodes, nodes + 2, 1 + numbers.below(3), numbers);
            case.switch(2 * numbers.below(20), 30, numbers);
            for switching in &mut case.sheet {
                switching.second %= 60;
                if number % 2 == 0 {
                    switching.second += YEAR as u32 - 60;
                }
            }
            case
        })
        .collect()
}
