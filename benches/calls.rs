//! The calls of the static library that `rt lib` makes of `crates/bench_calls`, over slices.
//!
//! Each answers 0 where its lists say no network, sheet, roll or lives. A program makes some of them alone.
#![allow(dead_code)]

/// Nodes, of which 0 is GRID, and devices: the two ends of each, and 1 for each that is closed.
#[derive(Clone, Copy)]
pub struct Network<'a> {
    pub nodes: u16,
    pub from: &'a [u16],
    pub to: &'a [u16],
    pub closed: &'a [u8],
}

/// Switchings in the order in which they are entered: the device, 1 where it is closed, the second of the year.
#[derive(Clone, Copy)]
pub struct Sheet<'a> {
    pub devices: &'a [u16],
    pub closes: &'a [u8],
    pub seconds: &'a [u32],
}

/// Customers: the section of each, and the seconds of the year at which its service begins and ends.
#[derive(Clone, Copy)]
pub struct Roll<'a> {
    pub sections: &'a [u16],
    pub begins: &'a [u32],
    pub ends: &'a [u32],
}

/// Lives that devices are given one after the other.
#[derive(Clone, Copy)]
pub struct Lives<'a> {
    pub devices: &'a [u16],
    pub since: &'a [u32],
    pub until: &'a [u32],
}

/// The nodes that are supplied, added up over so many searches.
pub fn search(network: Network, rounds: u32) -> u64 {
    let Network {
        nodes,
        from,
        to,
        closed,
    } = network;
    unsafe {
        bench_search(
            nodes,
            from.as_ptr(),
            from.len(),
            to.as_ptr(),
            to.len(),
            closed.as_ptr(),
            closed.len(),
            rounds,
        )
    }
}

/// The seconds without supply of all sections, added up over so many builds of their runs.
pub fn build(network: Network, sheet: Sheet, rounds: u32) -> u64 {
    let Network {
        nodes,
        from,
        to,
        closed,
    } = network;
    let Sheet {
        devices,
        closes,
        seconds,
    } = sheet;
    unsafe {
        bench_build(
            nodes,
            from.as_ptr(),
            from.len(),
            to.as_ptr(),
            to.len(),
            closed.as_ptr(),
            closed.len(),
            devices.as_ptr(),
            devices.len(),
            closes.as_ptr(),
            closes.len(),
            seconds.as_ptr(),
            seconds.len(),
            rounds,
        )
    }
}

/// What counts and indices come to, of all interruptions and of those of days that aren't marked, added up over the rounds.
pub fn counts(network: Network, sheet: Sheet, roll: Roll, marked: &[u16], rounds: u32) -> u64 {
    let Network {
        nodes,
        from,
        to,
        closed,
    } = network;
    let Sheet {
        devices,
        closes,
        seconds,
    } = sheet;
    let Roll {
        sections,
        begins,
        ends,
    } = roll;
    unsafe {
        bench_counts(
            nodes,
            from.as_ptr(),
            from.len(),
            to.as_ptr(),
            to.len(),
            closed.as_ptr(),
            closed.len(),
            devices.as_ptr(),
            devices.len(),
            closes.as_ptr(),
            closes.len(),
            seconds.as_ptr(),
            seconds.len(),
            sections.as_ptr(),
            sections.len(),
            begins.as_ptr(),
            begins.len(),
            ends.as_ptr(),
            ends.len(),
            marked.as_ptr(),
            marked.len(),
            rounds,
        )
    }
}

/// The seconds without supply once these lives are given; how often the network was searched for each goes to `searches`.
pub fn lives(network: Network, sheet: Sheet, lives: Lives, searches: &mut [u64]) -> u64 {
    let Network {
        nodes,
        from,
        to,
        closed,
    } = network;
    let Sheet {
        devices,
        closes,
        seconds,
    } = sheet;
    let Lives {
        devices: lived,
        since,
        until,
    } = lives;
    unsafe {
        bench_lives(
            nodes,
            from.as_ptr(),
            from.len(),
            to.as_ptr(),
            to.len(),
            closed.as_ptr(),
            closed.len(),
            devices.as_ptr(),
            devices.len(),
            closes.as_ptr(),
            closes.len(),
            seconds.as_ptr(),
            seconds.len(),
            lived.as_ptr(),
            lived.len(),
            since.as_ptr(),
            since.len(),
            until.as_ptr(),
            until.len(),
            searches.as_mut_ptr(),
            searches.len(),
        )
    }
}

unsafe extern "C" {
    fn bench_search(
        nodes: u16,
        from: *const u16,
        from_len: usize,
        to: *const u16,
        to_len: usize,
        closed: *const u8,
        closed_len: usize,
        rounds: u32,
    ) -> u64;

    fn bench_build(
        nodes: u16,
        from: *const u16,
        from_len: usize,
        to: *const u16,
        to_len: usize,
        closed: *const u8,
        closed_len: usize,
        devices: *const u16,
        devices_len: usize,
        closes: *const u8,
        closes_len: usize,
        seconds: *const u32,
        seconds_len: usize,
        rounds: u32,
    ) -> u64;

    fn bench_counts(
        nodes: u16,
        from: *const u16,
        from_len: usize,
        to: *const u16,
        to_len: usize,
        closed: *const u8,
        closed_len: usize,
        devices: *const u16,
        devices_len: usize,
        closes: *const u8,
        closes_len: usize,
        seconds: *const u32,
        seconds_len: usize,
        sections: *const u16,
        sections_len: usize,
        begins: *const u32,
        begins_len: usize,
        ends: *const u32,
        ends_len: usize,
        marked: *const u16,
        marked_len: usize,
        rounds: u32,
    ) -> u64;

    fn bench_lives(
        nodes: u16,
        from: *const u16,
        from_len: usize,
        to: *const u16,
        to_len: usize,
        closed: *const u8,
        closed_len: usize,
        devices: *const u16,
        devices_len: usize,
        closes: *const u8,
        closes_len: usize,
        seconds: *const u32,
        seconds_len: usize,
        lived: *const u16,
        lived_len: usize,
        since: *const u32,
        since_len: usize,
        until: *const u32,
        until_len: usize,
        searches: *mut u64,
        searches_len: usize,
    ) -> u64;
}
