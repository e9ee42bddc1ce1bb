//! The time and the memory that a made year takes, command by command, on the proved book or on the one in plain Rust.
//!
//! It links the static library that `rt lib` makes of `crates/bench_calls`; `run.py` builds it and runs it. Its words are
//! `proved` or `plain`, a made year, and the number of timed calls, in place of which `table` shows what the book comes to.
//! With a number it prints one line: the least processor seconds of a call, the peak of resident memory in kilobytes,
//! the searches of the network, and the customer-seconds without supply. With `table` the proved book shows its annual table,
//! and the plain one a line for each amount, count and index. It ends with status 1 where the text is no year.

mod measure;
mod plain_book;

use measure::{peak, timed};
use plain_book::Book;
use std::hint::black_box;
use std::process::ExitCode;

unsafe extern "C" {
    fn bench_year(text: *const u8, len: usize, searches: *mut u64) -> u64;
    fn bench_year_table(text: *const u8, len: usize, table: *mut u8, room: usize) -> usize;
}

/// The searches and the customer-seconds of a year on the proved book; None where it is none.
fn proved(text: &str) -> Option<(u64, u64)> {
    let mut searches = 0;
    let total = unsafe { bench_year(text.as_ptr(), text.len(), &raw mut searches) };
    (searches > 0).then_some((searches, total))
}

fn plain(text: &str) -> Option<(u64, u64)> {
    let book = Book::read(text)?;
    Some((book.searches(), book.total() as u64))
}

fn proved_table(text: &str) -> Option<String> {
    let mut table = vec![0; 1 << 16];
    let (room, start) = (table.len(), table.as_mut_ptr());
    let len = unsafe { bench_year_table(text.as_ptr(), text.len(), start, room) };
    table.truncate(len);
    String::from_utf8(table)
        .ok()
        .filter(|table| !table.is_empty())
}

fn plain_table(text: &str) -> Option<String> {
    let book = Book::read(text)?;
    let lines = book.amount_lines().into_iter().chain(book.index_lines());
    Some(lines.map(|line| line + "\n").collect())
}

/// Times some calls and says what they take; None where the text is no year.
fn measured(text: &str, year: fn(&str) -> Option<(u64, u64)>, calls: usize) -> Option<String> {
    let mut answer = None;
    let seconds = timed(calls, || answer = year(black_box(text)));
    let (searches, total) = answer?;
    let least = seconds.first()?;
    Some(format!("{least}\t{}\t{searches}\t{total}\n", peak()))
}

fn main() -> ExitCode {
    let words: Vec<String> = std::env::args().skip(1).collect();
    let words: Vec<&str> = words.iter().map(String::as_str).collect();
    let &[book, path, what] = words.as_slice() else {
        eprintln!("the words are the book, the text, and the number of calls or `table`");
        return ExitCode::FAILURE;
    };
    let Ok(text) = std::fs::read_to_string(path) else {
        eprintln!("{path} can't be read");
        return ExitCode::FAILURE;
    };
    let shown = match (book, what, what.parse()) {
        ("proved", "table", _) => proved_table(&text),
        ("plain", "table", _) => plain_table(&text),
        ("proved", _, Ok(calls)) => measured(&text, proved, calls),
        ("plain", _, Ok(calls)) => measured(&text, plain, calls),
        _ => None,
    };
    match shown {
        Some(shown) => {
            print!("{shown}");
            ExitCode::SUCCESS
        }
        None => {
            eprintln!("{path}: no year that a book accepts");
            ExitCode::FAILURE
        }
    }
}
