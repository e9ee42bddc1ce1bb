//! `outagebook total` as one would write it in plain Rust: for each second of the span one
//! breadth-first search, and one for each customer in service that it doesn't reach.
//!
//! It takes texts that `total` takes and no others, without quotes: it is there to be compared in
//! time, and it looks at no limit, name or bound.

mod breadth_first;

use breadth_first::Lists;
use std::collections::HashMap;
use std::io::{self, Read};

struct Customer {
    section: usize,
    since: u64,
    until: u64,
}

struct Entry {
    second: u64,
    device: usize,
    closed: u8,
}

#[derive(Default)]
struct Book {
    span: (u64, u64),
    nodes: HashMap<String, usize>,
    devices: HashMap<String, usize>,
    ends: Vec<(u16, u16)>,
    lives: Vec<(u64, u64)>,
    closed: Vec<u8>,
    customers: Vec<Customer>,
    entries: Vec<Entry>,
}

impl Book {
    fn read(text: &str) -> Book {
        let mut book = Book::default();
        book.nodes.insert("GRID".to_string(), 0);
        for line in text.lines().skip(1) {
            let fields: Vec<&str> = line.split(',').collect();
            book.take(fields[0], &fields[2..]);
        }
        book.entries.sort_by_key(|entry| entry.second);
        book
    }

    fn take(&mut self, kind: &str, f: &[&str]) {
        match kind {
            "span" => self.span = (second(f[0]), second(f[1])),
            "bus" | "section" => {
                self.nodes.insert(f[0].to_string(), self.nodes.len());
            }
            "device" => {
                self.devices.insert(f[0].to_string(), self.ends.len());
                self.ends
                    .push((self.nodes[f[1]] as u16, self.nodes[f[2]] as u16));
                self.closed.push(u8::from(f[3] == "closed"));
                self.lives.push(life(f[4], f[5]));
            }
            "life" => self.lives[self.devices[f[0]]] = life(f[1], f[2]),
            "connect" => self.customers.push(Customer {
                section: self.nodes[f[1]],
                since: second(f[2]),
                until: end(f[3]),
            }),
            "switch" => self.entries.push(Entry {
                second: second(f[2]),
                device: self.devices[f[0]],
                closed: u8::from(f[1] == "close"),
            }),
            _ => {}
        }
    }

    fn customer_seconds(mut self) -> u64 {
        let lists = Lists::new(self.nodes.len(), self.ends.iter().copied());
        let mut alive = self.closed.clone();
        let mut queue = Vec::new();
        let mut entries = self.entries.iter().peekable();
        let mut total = 0;
        for second in self.span.0..self.span.1 {
            while let Some(entry) = entries.next_if(|entry| entry.second <= second) {
                self.closed[entry.device] = entry.closed;
            }
            for (device, (since, until)) in self.lives.iter().enumerate() {
                let lives = *since <= second && second < *until;
                alive[device] = self.closed[device] & u8::from(lives);
            }
            let reached = lists.reached(&alive, &mut queue);
            let without = |customer: &&Customer| {
                customer.since <= second && second < customer.until && !reached[customer.section]
            };
            total += self.customers.iter().filter(without).count() as u64;
        }
        total
    }
}

fn second(text: &str) -> u64 {
    text.parse().unwrap()
}

fn end(text: &str) -> u64 {
    if text.is_empty() {
        u64::MAX
    } else {
        second(text)
    }
}

fn life(since: &str, until: &str) -> (u64, u64) {
    let since = if since.is_empty() { 0 } else { second(since) };
    (since, end(until))
}

fn main() -> io::Result<()> {
    let mut text = String::new();
    io::stdin().read_to_string(&mut text)?;
    println!("W {}", Book::read(&text).customer_seconds());
    Ok(())
}
