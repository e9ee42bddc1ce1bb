//! The time of one search of a network: the proved one against a plain breadth-first search over kept
//! adjacency lists, in one process and by turns.
//!
//! It links the static library that `rt lib` makes of `crates/bench_calls`; `run.py` builds and runs
//! it. It prints a line for each network: its name, the nodes reached, and the nanoseconds of the
//! proved search and of the breadth-first one. It ends with status 1 where the two reach another
//! number of nodes.

mod breadth_first;
mod calls;
mod numbers;

use breadth_first::Lists;
use numbers::Numbers;
use std::hint::black_box;
use std::process::ExitCode;
use std::time::Instant;

const NODES: usize = 1_000;
const MESH_DEVICES: usize = 1_500;
/// Searches in one timed call.
const ROUNDS: u32 = 2_000;

/// A network, its devices by their two ends and 1 for each closed one.
struct Network {
    name: &'static str,
    from: Vec<u16>,
    to: Vec<u16>,
    closed: Vec<u8>,
}

impl Network {
    fn new(name: &'static str, devices: &[(u16, u16)]) -> Network {
        Network {
            name,
            from: devices.iter().map(|device| device.0).collect(),
            to: devices.iter().map(|device| device.1).collect(),
            closed: vec![1; devices.len()],
        }
    }

    /// The sum of the nodes that so many proved searches reach.
    fn proved(&self, rounds: u32) -> u64 {
        let Network {
            from, to, closed, ..
        } = self;
        calls::search(
            calls::Network {
                nodes: NODES as u16,
                from,
                to,
                closed,
            },
            rounds,
        )
    }
}

/// The sum of the nodes that so many breadth-first searches reach.
fn plain(lists: &Lists, closed: &[u8], queue: &mut Vec<u16>, rounds: u32) -> u64 {
    let mut sum = 0;
    for _ in 0..rounds {
        let reached = black_box(lists).reached(black_box(closed), queue);
        sum += reached.iter().map(|&is| u64::from(is)).sum::<u64>();
    }
    sum
}

fn shuffled<T: Copy>(items: &[T], numbers: &mut Numbers) -> Vec<T> {
    let mut items = items.to_vec();
    for place in (1..items.len()).rev() {
        items.swap(place, numbers.below(place + 1));
    }
    items
}

fn reversed<T: Copy>(items: &[T]) -> Vec<T> {
    items.iter().rev().copied().collect()
}

/// A feeder without branches: each node hangs on the one before it.
fn chain() -> Vec<(u16, u16)> {
    (1..NODES as u16).map(|node| (node - 1, node)).collect()
}

/// A tree in which each node hangs on any node before it, and further devices anywhere.
fn mesh(numbers: &mut Numbers) -> Vec<(u16, u16)> {
    let mut devices: Vec<(u16, u16)> = (1..NODES)
        .map(|node| (numbers.below(node) as u16, node as u16))
        .collect();
    while devices.len() < MESH_DEVICES {
        let ends = (numbers.below(NODES) as u16, numbers.below(NODES) as u16);
        if ends.0 != ends.1 {
            devices.push(ends);
        }
    }
    devices
}

fn networks() -> Vec<Network> {
    let mut numbers = Numbers::begin();
    let chain = chain();
    let mesh = mesh(&mut numbers);
    let mut open = Network::new("mesh, a quarter open", &shuffled(&mesh, &mut numbers));
    for mark in &mut open.closed {
        *mark = u8::from(numbers.below(4) != 0);
    }
    vec![
        Network::new("chain, from GRID on", &chain),
        Network::new("chain, from the far end", &reversed(&chain)),
        Network::new("chain, shuffled", &shuffled(&chain, &mut numbers)),
        Network::new("mesh, in order", &mesh),
        Network::new("mesh, backwards", &reversed(&mesh)),
        Network::new("mesh, shuffled", &shuffled(&mesh, &mut numbers)),
        open,
    ]
}

/// The least seconds that some work took, and what it answers.
struct Least {
    seconds: f64,
    answer: u64,
}

impl Least {
    fn none() -> Least {
        Least {
            seconds: f64::MAX,
            answer: 0,
        }
    }

    fn take(&mut self, work: impl FnOnce() -> u64) {
        let start = Instant::now();
        self.answer = black_box(work());
        self.seconds = self.seconds.min(start.elapsed().as_secs_f64());
    }
}

/// Measures the searches of a network so often by turns, and prints its line. It answers whether they
/// reach as many nodes each time.
fn measure(network: &Network, repeats: u32) -> bool {
    let ends = network.from.iter().copied().zip(network.to.iter().copied());
    let lists = Lists::new(NODES, ends);
    let mut queue = Vec::new();
    let nodes = plain(&lists, &network.closed, &mut queue, 1);
    let sum = nodes * u64::from(ROUNDS);
    let [mut building, mut proved, mut breadth_first] = [(); 3].map(|()| Least::none());
    for _ in 0..repeats {
        building.take(|| network.proved(0));
        proved.take(|| network.proved(ROUNDS));
        breadth_first.take(|| plain(&lists, &network.closed, &mut queue, ROUNDS));
        if proved.answer != sum || breadth_first.answer != sum {
            eprintln!("{}: the searches differ", network.name);
            return false;
        }
    }
    println!(
        "{}\t{nodes}\t{:.0}\t{:.0}",
        network.name,
        nanoseconds(proved.seconds - building.seconds),
        nanoseconds(breadth_first.seconds),
    );
    true
}

/// The nanoseconds of one of `ROUNDS` searches.
fn nanoseconds(seconds: f64) -> f64 {
    seconds * 1e9 / f64::from(ROUNDS)
}

fn main() -> ExitCode {
    let repeats = std::env::args().nth(1).and_then(|word| word.parse().ok());
    let repeats = repeats.unwrap_or(40);
    if networks().iter().all(|network| measure(network, repeats)) {
        ExitCode::SUCCESS
    } else {
        ExitCode::FAILURE
    }
}
