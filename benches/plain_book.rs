//! A year's book in plain Rust, standard library alone, to compare the proved book with. It shares no code with it.
//!
//! It keeps the runs of each section in step with the sheet and the devices' lives, and posts what each command moves. A
//! change of the sheet sweeps the window from its first second up to its device's next entry and no more; a life that is
//! set anew, from the first second that only one of the two lives holds up to the last one.

use std::collections::{BTreeMap, HashMap, HashSet};

const FIRST: u64 = 1_704_067_200;
const DAY: u64 = 86_400;
const DAYS: u64 = 366;
const END: u64 = FIRST + DAYS * DAY;

/// The services of a section's customers: their first seconds and their ends, sorted, with running sums.
#[derive(Default)]
struct Services {
    begins: Sorted,
    ends: Sorted,
}

impl Services {
    fn add(&mut self, service: Service) {
        self.begins.add(service.since);
        if let Some(until) = service.until {
            self.ends.add(until);
        }
    }

    fn remove(&mut self, service: Service) {
        self.begins.remove(service.since);
        if let Some(until) = service.until {
            self.ends.remove(until);
        }
    }

    /// The customer-seconds in service before a second.
    fn before(&mut self, second: u64) -> i64 {
        self.begins.seconds_after(second) - self.ends.seconds_after(second)
    }
}

/// Some seconds, rising, with their running sums.
#[derive(Default)]
struct Sorted {
    seconds: Vec<u64>,
    sums: Vec<i64>,
}

impl Sorted {
    fn add(&mut self, second: u64) {
        let place = self.seconds.partition_point(|&other| other < second);
        self.seconds.insert(place, second);
        self.sums.clear();
    }

    fn remove(&mut self, second: u64) {
        let place = self.seconds.partition_point(|&other| other < second);
        self.seconds.remove(place);
        self.sums.clear();
    }

    /// How many seconds lie from each of these up to a second, added up.
    fn seconds_after(&mut self, second: u64) -> i64 {
        if self.sums.is_empty() {
            let mut sum = 0;
            self.sums.push(0);
            for &other in &self.seconds {
                sum += other as i64;
                self.sums.push(sum);
            }
        }
        let place = self.seconds.partition_point(|&other| other < second);
        place as i64 * second as i64 - self.sums[place]
    }
}

/// A customer's service; without end where there is no `until`.
#[derive(Clone, Copy)]
struct Service {
    since: u64,
    until: Option<u64>,
}

impl Service {
    fn before(self, second: u64) -> i64 {
        let end = self.until.map_or(second, |until| until.min(second));
        end.saturating_sub(self.since) as i64
    }
}

/// A longest interval without supply, and the entry that cut it off.
#[derive(Clone, Copy, PartialEq)]
struct Run {
    since: u64,
    until: u64,
    cutter: Option<usize>,
}

/// The seconds in which a device stands in the network, the end excluded.
#[derive(Clone, Copy, PartialEq)]
struct Life {
    since: u64,
    until: u64,
}

impl Life {
    /// That of a device which isn't there.
    const NEVER: Life = Life { since: 0, until: 0 };

    fn holds(self, second: u64) -> bool {
        (self.since..self.until).contains(&second)
    }

    /// The first second of the year that exactly one of the two lives holds, and the one after the last.
    fn differing(self, other: Life) -> Option<(u64, u64)> {
        let bounds = [self.since, self.until, other.since, other.until, FIRST, END];
        let mut bounds = bounds.map(|second| second.clamp(FIRST, END));
        bounds.sort_unstable();
        let differs = |&second: &u64| self.holds(second) != other.holds(second);
        let first = bounds
            .iter()
            .copied()
            .find(|second| *second < END && differs(second))?;
        let pieces = bounds.windows(2).rev();
        let last = pieces
            .filter(|piece| piece[0] < piece[1])
            .find(|piece| differs(&piece[0]))?;
        Some((first, last[1]))
    }
}

struct Entry {
    device: usize,
    closes: bool,
    second: u64,
    cause: u8,
}

/// Customer-seconds by key.
type Amounts = BTreeMap<u64, i64>;

/// Counts over some interruptions.
#[derive(Default)]
struct Counts {
    sustained: u128,
    seconds: u128,
    momentary: u128,
    with: [u128; 10],
}

/// The book of the 366 days from 2024-01-01 in UTC. GRID is node 0, and entries are numbered from 1.
#[derive(Default)]
pub struct Book {
    node_of: HashMap<String, usize>,
    feeder_of: Vec<Option<u64>>,
    joined: Vec<Vec<(usize, usize)>>,
    device_of: HashMap<String, usize>,
    normal: Vec<bool>,
    lives: Vec<Life>,
    turns: Vec<(u64, usize)>,
    customers: BTreeMap<u32, (usize, Service)>,
    services: Vec<Services>,
    entries: Vec<Entry>,
    order: Vec<(u64, usize)>,
    order_of: Vec<Vec<(u64, usize)>>,
    runs: Vec<Vec<Run>>,
    marked: HashSet<u64>,
    by_cause: Amounts,
    by_feeder: Amounts,
    by_day: Amounts,
    searches: u64,
}

impl Book {
    /// The book after the commands of a text, one a line; None where it isn't one.
    pub fn read(text: &str) -> Option<Book> {
        let mut book = Book::default();
        book.add_node("GRID", None);
        for line in text.lines() {
            book.act(line)?;
        }
        Some(book)
    }

    fn act(&mut self, line: &str) -> Option<()> {
        let words: Vec<&str> = line.split(' ').collect();
        match *words.as_slice() {
            ["cause", ..] => {}
            ["bus", name] => self.add_node(name, None),
            ["section", name, feeder] => self.add_node(name, Some(feeder.parse().ok()?)),
            ["device", name, a, b, normal, since, until] => {
                self.add_device(name, a, b, normal == "closed", life(since, until)?)?;
            }
            ["life", name, since, until] => {
                let device = *self.device_of.get(name)?;
                self.live(device, life(since, until)?);
            }
            ["connect", number, section, since, until] => {
                let section = *self.node_of.get(section)?;
                self.connect(number.parse().ok()?, section, service(since, until)?);
            }
            ["revise", number, since, until] => {
                let number = number.parse().ok()?;
                let (section, old) = self.customers.remove(&number)?;
                self.post_service(section, old, -1);
                self.services[section].remove(old);
                self.connect(number, section, service(since, until)?);
            }
            ["switch", device, act, second, cause, _] => {
                let entry = Entry {
                    device: *self.device_of.get(device)?,
                    closes: act == "close",
                    second: second.parse().ok()?,
                    cause: cause.parse().ok()?,
                };
                let (device, second) = (entry.device, entry.second);
                self.entries.push(entry);
                let number = self.entries.len();
                self.keep(number);
                self.sweep_entry(device, number, second, second);
            }
            ["correct", number, _, act, second, cause, _] => {
                let second = second.parse().ok()?;
                self.correct(
                    number.parse().ok()?,
                    act == "close",
                    second,
                    cause.parse().ok()?,
                );
            }
            ["withdraw", number, _] => {
                let number: usize = number.parse().ok()?;
                self.forget(number);
                let Entry { device, second, .. } = self.entries[number - 1];
                self.sweep_entry(device, number, second, second);
            }
            ["mark", date, _] => {
                self.marked.insert(day_of_date(date)?);
            }
            ["unmark", date, _] => {
                self.marked.remove(&day_of_date(date)?);
            }
            _ => return None,
        }
        Some(())
    }

    fn add_node(&mut self, name: &str, feeder: Option<u64>) {
        self.node_of.insert(name.to_owned(), self.feeder_of.len());
        self.feeder_of.push(feeder);
        self.joined.push(Vec::new());
        self.services.push(Services::default());
        let all_year = Run {
            since: FIRST,
            until: END,
            cutter: None,
        };
        let is_grid = self.runs.is_empty();
        self.runs
            .push(if is_grid { vec![] } else { vec![all_year] });
    }

    fn add_device(&mut self, name: &str, a: &str, b: &str, closed: bool, life: Life) -> Option<()> {
        let device = self.normal.len();
        let (a, b) = (*self.node_of.get(a)?, *self.node_of.get(b)?);
        self.device_of.insert(name.to_owned(), device);
        self.joined[a].push((device, b));
        self.joined[b].push((device, a));
        self.normal.push(closed);
        self.order_of.push(Vec::new());
        self.lives.push(Life::NEVER);
        self.live(device, life);
        Some(())
    }

    /// Sets a device's life anew.
    fn live(&mut self, device: usize, life: Life) {
        let old = std::mem::replace(&mut self.lives[device], life);
        self.turns.retain(|&(_, other)| other != device);
        for turn in [(life.since, device), (life.until, device)] {
            let place = self.turns.partition_point(|&other| other < turn);
            self.turns.insert(place, turn);
        }
        let was_ever_closed = self.normal[device] || !self.order_of[device].is_empty();
        if let Some((first, last)) = old.differing(life)
            && was_ever_closed
        {
            self.sweep(first, END.min(last + 1));
        }
    }

    fn connect(&mut self, number: u32, section: usize, service: Service) {
        self.customers.insert(number, (section, service));
        self.post_service(section, service, 1);
        self.services[section].add(service);
    }

    fn correct(&mut self, number: usize, closes: bool, second: u64, cause: u8) {
        if cause != self.entries[number - 1].cause {
            self.post_cutter(number, -1);
            self.entries[number - 1].cause = cause;
            self.post_cutter(number, 1);
        }
        self.forget(number);
        let entry = &mut self.entries[number - 1];
        let (device, old) = (entry.device, entry.second);
        entry.closes = closes;
        entry.second = second;
        self.keep(number);
        self.sweep_entry(device, number, old.min(second), old.max(second));
    }

    fn keep(&mut self, number: usize) {
        let entry = &self.entries[number - 1];
        for order in [&mut self.order, &mut self.order_of[entry.device]] {
            let key = (entry.second, number);
            order.insert(order.partition_point(|&other| other < key), key);
        }
    }

    fn forget(&mut self, number: usize) {
        let entry = &self.entries[number - 1];
        for order in [&mut self.order, &mut self.order_of[entry.device]] {
            let key = (entry.second, number);
            order.remove(order.partition_point(|&other| other < key));
        }
    }

    /// Which nodes are supplied, by a search from GRID.
    fn supplied(&mut self, closed: &[bool]) -> Vec<bool> {
        self.searches += 1;
        let mut reached = vec![false; self.joined.len()];
        reached[0] = true;
        let mut found = vec![0];
        while let Some(node) = found.pop() {
            for &(device, other) in &self.joined[node] {
                if closed[device] && !reached[other] {
                    reached[other] = true;
                    found.push(other);
                }
            }
        }
        reached
    }

    /// The position of each device before a second: that of its last earlier entry, else its normal one.
    fn positions_before(&self, second: u64) -> Vec<bool> {
        let devices = self.normal.iter().zip(&self.order_of);
        devices
            .map(|(&normal, order)| {
                let place = order.partition_point(|&(other, _)| other < second);
                match order[..place].last() {
                    Some(&(_, number)) => self.entries[number - 1].closes,
                    None => normal,
                }
            })
            .collect()
    }

    /// Finds the runs anew from a first second on, up to the device's first entry after the last one.
    fn sweep_entry(&mut self, device: usize, number: usize, first: u64, last: u64) {
        let order = &self.order_of[device];
        let next = order.get(order.partition_point(|&other| other <= (last, number)));
        let end = next.map_or(END, |&(second, _)| second + 1);
        self.sweep(first, end);
    }

    /// What may change the supply, in order: a second with the number of an entry, or with 0 for the lives that begin or
    /// end then, which act before its entries.
    fn steps(&self, first: u64, end: u64) -> Vec<(u64, usize)> {
        let within = |list: &[(u64, usize)]| {
            let from = list.partition_point(|&(second, _)| second < first);
            let to = list.partition_point(|&(second, _)| second < end);
            from..to
        };
        let turns = self.turns[within(&self.turns)].iter();
        let mut steps: Vec<_> = turns.map(|&(second, _)| (second, 0)).collect();
        steps.extend_from_slice(&self.order[within(&self.order)]);
        steps.sort_unstable();
        steps.dedup();
        steps
    }

    /// Sets the devices that a step may move; whether one of them moved.
    fn step(&self, second: u64, step: usize, switched: &mut [bool], closed: &mut [bool]) -> bool {
        let mut moved = false;
        let mut set = |device: usize, switched: &[bool]| {
            let now = switched[device] && self.lives[device].holds(second);
            moved |= closed[device] != now;
            closed[device] = now;
        };
        if let Some(place) = step.checked_sub(1) {
            let entry = &self.entries[place];
            switched[entry.device] = entry.closes;
            set(entry.device, switched);
        } else {
            let from = self.turns.partition_point(|&(other, _)| other < second);
            let turns = self.turns[from..].iter();
            for &(_, device) in turns.take_while(|turn| turn.0 == second) {
                set(device, switched);
            }
        }
        moved
    }

    /// Finds the runs anew from a first second on, up to an end.
    fn sweep(&mut self, first: u64, end: u64) {
        let mut switched = self.positions_before(first);
        let before = FIRST.max(first - 1);
        let devices = self.lives.iter().zip(&switched);
        let mut closed: Vec<bool> = devices
            .map(|(life, &is_closed)| is_closed && life.holds(before))
            .collect();
        let mut was = self.supplied(&closed);
        let begun = |reached: &bool| (!reached).then_some((first, None));
        let mut since: Vec<Option<(u64, Option<usize>)>> = was.iter().map(begun).collect();
        let mut found: Vec<Vec<Run>> = vec![Vec::new(); was.len()];
        for (second, step) in self.steps(first, end) {
            if !self.step(second, step, &mut switched, &mut closed) {
                continue;
            }
            let reached = self.supplied(&closed);
            for node in 0..reached.len() {
                match (was[node], reached[node]) {
                    (true, false) => since[node] = Some(cut(&mut found[node], second, step)),
                    (false, true) => restore(&mut found[node], since[node].take(), second),
                    _ => {}
                }
            }
            was = reached;
        }
        for (node, runs) in found.iter_mut().enumerate() {
            restore(runs, since[node].take(), end);
        }
        for (node, runs) in found.iter().enumerate() {
            let reaches = self.runs[node].last().is_some_and(|run| run.until > first);
            if reaches || !runs.is_empty() {
                self.splice(node, runs, first, end);
            }
        }
    }

    /// Puts the runs found in a window in the place of those that the node had there.
    fn splice(&mut self, node: usize, inner: &[Run], first: u64, end: u64) {
        let runs = &self.runs[node];
        let low = runs.partition_point(|run| run.until < first);
        let high = runs.partition_point(|run| run.since <= end);
        let old = runs[low..high].to_vec();
        let mut new = Vec::new();
        if let Some(&run) = old.first()
            && run.since < first
        {
            let until = run.until.min(first);
            new.push(Run { until, ..run });
        }
        for &run in inner {
            join(&mut new, run);
        }
        if let Some(&run) = old.last()
            && run.until > end
        {
            let since = run.since.max(end);
            join(&mut new, Run { since, ..run });
        }
        if new == old {
            return;
        }
        self.runs[node].splice(low..high, new.iter().copied());
        if self.feeder_of[node].is_none() {
            return;
        }
        let mut services = std::mem::take(&mut self.services[node]);
        for run in old.iter().filter(|run| !new.contains(run)) {
            self.post(node, |second| services.before(second), *run, -1);
        }
        for run in new.iter().filter(|run| !old.contains(run)) {
            self.post(node, |second| services.before(second), *run, 1);
        }
        self.services[node] = services;
    }

    /// Posts the runs that an entry cut off by its cause alone.
    fn post_cutter(&mut self, number: usize, sign: i64) {
        let cause = u64::from(self.entries[number - 1].cause);
        for (node, runs) in self.runs.iter().enumerate() {
            if self.feeder_of[node].is_none() {
                continue;
            }
            for run in runs.iter().filter(|run| run.cutter == Some(number)) {
                let services = &mut self.services[node];
                let amount = services.before(run.until) - services.before(run.since);
                *self.by_cause.entry(cause).or_default() += sign * amount;
            }
        }
    }

    /// Posts what one service has in the runs of its section.
    fn post_service(&mut self, section: usize, service: Service, sign: i64) {
        for place in 0..self.runs[section].len() {
            let run = self.runs[section][place];
            self.post(section, |second| service.before(second), run, sign);
        }
    }

    /// Posts the customer-seconds of a run of a node, by those in service before each second.
    fn post(&mut self, node: usize, mut before: impl FnMut(u64) -> i64, run: Run, sign: i64) {
        let start = before(run.since);
        let mut last = start;
        for day in (run.since - FIRST) / DAY..=(run.until - 1 - FIRST) / DAY {
            let next = before(run.until.min(FIRST + (day + 1) * DAY));
            *self.by_day.entry(day).or_default() += sign * (next - last);
            last = next;
        }
        let cause = run
            .cutter
            .map_or(0, |number| self.entries[number - 1].cause);
        *self.by_cause.entry(u64::from(cause)).or_default() += sign * (last - start);
        if let Some(feeder) = self.feeder_of[node] {
            *self.by_feeder.entry(feeder).or_default() += sign * (last - start);
        }
    }

    /// All customer-seconds without supply.
    pub fn total(&self) -> i64 {
        self.by_cause.values().sum()
    }

    /// How often the network was searched.
    pub fn searches(&self) -> u64 {
        self.searches
    }

    /// The customer-seconds without supply, by cause, feeder and day too.
    pub fn amount_lines(&self) -> Vec<String> {
        let mut lines = vec![format!("W {}", self.total())];
        let dimensions = [
            ("cause", &self.by_cause),
            ("feeder", &self.by_feeder),
            ("day", &self.by_day),
        ];
        for (word, amounts) in dimensions {
            let some = amounts.iter().filter(|(_, amount)| **amount != 0);
            lines.extend(some.map(|(key, amount)| format!("{word} {key} {amount}")));
        }
        lines
    }

    /// The customer-seconds in service, and counts and indices over all interruptions and over the unmarked ones.
    pub fn index_lines(&self) -> Vec<String> {
        let seconds = |service: &Service| (service.before(END) - service.before(FIRST)) as u128;
        let s = self
            .customers
            .values()
            .map(|(_, service)| seconds(service))
            .sum();
        let mut lines = vec![format!("S {s}")];
        for (word, counts) in [("all", self.counts(false)), ("unmarked", self.counts(true))] {
            let p = u128::from(END - FIRST);
            let line = |name: &str, n, d| format!("{name} {word} {}", quotient(n, d));
            lines.push(line("SAIFI", counts.sustained * p, s));
            lines.push(line("SAIDI", counts.seconds * p, 60 * s));
            lines.push(line("CAIDI", counts.seconds, 60 * counts.sustained));
            lines.push(line("CAIFI", counts.sustained, counts.with[0]));
            lines.push(line("ASAI", s - counts.seconds, s));
            for (n, customers) in counts.with.iter().enumerate() {
                lines.push(line(&format!("CEMI-{}", n + 1), customers * p, s));
            }
            lines.push(format!("SUSTAINED {word} {}", counts.sustained));
            lines.push(format!("MOMENTARY {word} {}", counts.momentary));
        }
        lines
    }

    fn counts(&self, unmarked: bool) -> Counts {
        let mut counts = Counts::default();
        for (section, service) in self.customers.values() {
            let mut sustained = 0;
            for run in &self.runs[*section] {
                let since = run.since.max(service.since);
                let until = service
                    .until
                    .map_or(run.until, |until| until.min(run.until));
                if since >= until || unmarked && self.marked.contains(&((since - FIRST) / DAY)) {
                    continue;
                }
                if until - since > 300 {
                    sustained += 1;
                    counts.seconds += u128::from(until - since);
                } else {
                    counts.momentary += 1;
                }
            }
            counts.sustained += sustained as u128;
            for customers in counts.with.iter_mut().take(sustained) {
                *customers += 1;
            }
        }
        counts
    }
}

/// A node's supply ends: the run that ended in the same second goes on, or one begins.
fn cut(runs: &mut Vec<Run>, second: u64, step: usize) -> (u64, Option<usize>) {
    match runs.pop_if(|run| run.until == second) {
        Some(run) => (run.since, run.cutter),
        None => (second, (step > 0).then_some(step)),
    }
}

/// A node's supply comes back.
fn restore(runs: &mut Vec<Run>, begun: Option<(u64, Option<usize>)>, second: u64) {
    if let Some((since, cutter)) = begun
        && since < second
    {
        let until = second;
        runs.push(Run {
            since,
            until,
            cutter,
        });
    }
}

/// Appends a run; one that touches the last one lengthens it.
fn join(runs: &mut Vec<Run>, run: Run) {
    match runs.last_mut() {
        Some(last) if last.until == run.since => last.until = run.until,
        _ => runs.push(run),
    }
}

fn life(since: &str, until: &str) -> Option<Life> {
    let Service { since, until } = service(since, until)?;
    let until = until.unwrap_or(u64::MAX);
    Some(Life { since, until })
}

fn service(since: &str, until: &str) -> Option<Service> {
    let until = match until {
        "-" => None,
        text => Some(text.parse().ok()?),
    };
    let since = since.parse().ok()?;
    Some(Service { since, until })
}

/// The number of a date of 2024 among its days.
fn day_of_date(text: &str) -> Option<u64> {
    let (month, day) = text.strip_prefix("2024-")?.split_once('-')?;
    let month: usize = month.parse().ok()?;
    let day: u64 = day.parse().ok()?;
    let lengths = [31, 29, 31, 30, 31, 30, 31, 31, 30, 31, 30, 31];
    Some(lengths.get(..month - 1)?.iter().sum::<u64>() + day - 1)
}

/// A quotient in lowest terms.
fn quotient(n: u128, d: u128) -> String {
    if d == 0 {
        return "undefined".to_owned();
    }
    let (mut divisor, mut rest) = (n, d);
    while rest != 0 {
        (divisor, rest) = (rest, divisor % rest);
    }
    format!("{}/{}", n / divisor, d / divisor)
}
