//! How fast the protocol reader is, beside the second program's plain reader,
//! on a text at all limits, and how much stack it takes.
//!
//!   host/build run read_benchmark
//!
//! Both read the same text in the same run, in turn, and both are optimised.
//! Figures are medians of several rounds, of the thread's own time. Under an
//! emulator only the ratio says something.

#![allow(dead_code)]

mod limits;
mod measure;
mod second;
mod zeveltoren_texts;

use measure::{kept, median, thread_time};

/// What we aim at: this many times the plain reader, and so many bytes.
const MOST_RATIO: f64 = 4.0;
const MOST_STACK: usize = 262_144;

const ROUNDS: usize = 15;
const TIMES: usize = 4;

/// Microseconds a reading. The sum keeps the compiler from leaving it out.
fn time(reader: fn(&[u8]) -> u64, text: &[u8]) -> f64 {
    let mut sum = 0_u64;
    let start = thread_time();
    for _ in 0..TIMES {
        sum = sum.wrapping_add(reader(text));
    }
    let taken = (thread_time() - start) as f64;
    assert_eq!(sum, 0, "the text is not accepted");
    taken / TIMES as f64 / 1000.0
}

fn library(text: &[u8]) -> u64 {
    zeveltoren_texts::check_protocol_packed(text)
}

fn plain(text: &[u8]) -> u64 {
    match second::read_protocol(text) {
        Ok(protocol) => protocol.message_names().len() as u64 - 64,
        Err(refusal) => refusal.number,
    }
}

fn print_stack(text: &[u8]) {
    let words = [text.as_ptr() as usize, text.len(), 0, 0, 0, 0];
    let used = measure::stack_used(zeveltoren_texts::check_address(), words);
    println!("stack of a reading: {} bytes", used);
    println!("at most {} bytes of stack: {}", MOST_STACK, kept(used <= MOST_STACK));
}

fn main() {
    let text = limits::full();
    let mut rounds: Vec<[f64; 3]> = Vec::new();
    for _ in 0..ROUNDS {
        let (ours, theirs) = (time(library, &text), time(plain, &text));
        rounds.push([ours, theirs, ours / theirs]);
    }
    let [ours, theirs, ratio] = [0, 1, 2].map(|i| median(rounds.iter().map(|r| r[i]).collect()));
    println!("a text of {} bytes at all limits, median of {} rounds", text.len(), ROUNDS);
    println!("library {:.0} microseconds, plain reader {:.0}: {:.2} times", ours, theirs, ratio);
    println!("at most {} times the plain reader: {}", MOST_RATIO, kept(ratio <= MOST_RATIO));
    print_stack(&text);
}
