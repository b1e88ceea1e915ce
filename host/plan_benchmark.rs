//! How fast vn_plan_text and vn_judge_texts are, beside the second program's
//! plan and judge, on texts at the limits, and how much stack they take.
//!
//!   host/build run plan_benchmark
//!
//! Both get the same texts in the same run, in turn, and both are optimised
//! code for x86-64. Figures are medians of several rounds, of the thread's own
//! time. Under an emulator only the ratios say something. host/vn_benchmark
//! measures the command.

#![allow(dead_code)]

mod limits;
mod measure;
mod second;
mod zeveltoren_texts;

use measure::{kept, median, thread_time};
use second::Network;

/// What we aim at: this many times the second program, and so many bytes.
const MOST_RATIO: f64 = 4.0;
const MOST_STACK: usize = 262_144;

const ROUNDS: usize = 15;
const TIMES: usize = 4;

/// What is measured: a plan, or with a mapping a judgement.
pub struct Task {
    name: &'static str,
    protocol: Vec<u8>,
    mapping: Option<Vec<u8>>,
}

fn tasks() -> Vec<Task> {
    let task = |name, protocol, mapping| Task { name, protocol, mapping };
    let each_its_own: Vec<Network> = (0..64).map(Network).collect();
    let two: Vec<Network> = (0..64).map(|message| Network(message / 32)).collect();
    let (unfit, hung) = limits::longest_unfit();
    vec![
        task("plan, all limits", limits::full(), None),
        task("judge, all limits, 64 networks", limits::full(), Some(limits::mapping_under(2, &each_its_own))),
        task("judge, all limits, 2 networks", limits::full(), Some(limits::mapping_under(2, &two))),
        task("plan, 64 networks", limits::longest_plan(), None),
        task("plan, cycle of 63", limits::longest_cycle(), None),
        // All 64 states are taken with each of them.
        task("plan, ring of 64 states", limits::ring_of_states(64, &limits::in_a_ring(64)), None),
        task("judge, fit", limits::longest_plan(), Some(limits::mapping_under(2, &each_its_own))),
        task("judge, 64 steps", unfit, Some(hung)),
        // The text of before request C-15.
        task("plan, all limits, 32 messages", limits::full_of(32), None),
        task("judge, all limits, 32 messages", limits::full_of(32), Some(limits::mapping_under(1, &each_its_own[..32]))),
    ]
}

type Variant = fn(&Task, &mut [u8]) -> u64;

fn library(task: &Task, out: &mut [u8]) -> u64 {
    match &task.mapping {
        None => zeveltoren_texts::plan_packed(&task.protocol, out),
        Some(mapping) => zeveltoren_texts::judge_packed(&task.protocol, mapping, out),
    }
}

fn plain(task: &Task, out: &mut [u8]) -> u64 {
    let answer = match &task.mapping {
        None => second::plan_with_room(&task.protocol, out.len()),
        Some(mapping) => second::judge_with_room(&task.protocol, mapping, out.len()),
    };
    out[..answer.bytes.len()].copy_from_slice(&answer.bytes);
    answer.packed()
}

/// Microseconds a call. The sum keeps the compiler from leaving it out.
fn time(variant: Variant, task: &Task) -> (f64, u64) {
    let mut out = [0; zeveltoren_texts::LONGEST_LISTING];
    let mut sum = 0_u64;
    let start = thread_time();
    for _ in 0..TIMES {
        sum = sum.wrapping_add(variant(task, &mut out)).wrapping_add(u64::from(out[0]));
    }
    ((thread_time() - start) as f64 / TIMES as f64 / 1000.0, sum)
}

/// Library, second program, and the ratio.
fn measured(task: &Task) -> [f64; 3] {
    let mut rounds: Vec<[f64; 3]> = Vec::new();
    for _ in 0..ROUNDS {
        let (ours, sum) = time(library, task);
        let (theirs, same_sum) = time(plain, task);
        assert_eq!(sum, same_sum, "both give the same answer");
        rounds.push([ours, theirs, ours / theirs]);
    }
    [0, 1, 2].map(|column| median(rounds.iter().map(|round| round[column]).collect()))
}

/// How many bytes of stack the call takes.
fn stack_used(task: &Task) -> usize {
    let mut out = [0; zeveltoren_texts::LONGEST_LISTING];
    let (text, length) = (task.protocol.as_ptr() as usize, task.protocol.len());
    let (lent, room) = (out.as_mut_ptr() as usize, out.len());
    match &task.mapping {
        None => measure::stack_used(zeveltoren_texts::plan_address(), [text, length, lent, room, 0, 0]),
        Some(mapping) => {
            let words = [text, length, mapping.as_ptr() as usize, mapping.len(), lent, room];
            measure::stack_used(zeveltoren_texts::judge_address(), words)
        }
    }
}

fn main() {
    println!("microseconds a call, median of {} rounds; bytes of stack", ROUNDS);
    println!("{:<32} {:>6} {:>8} {:>8} {:>6} {:>8}", "", "bytes", "library", "second", "ratio", "stack");
    let (mut highest, mut most_stack) = (0.0_f64, 0);
    for task in tasks() {
        let ([ours, theirs, ratio], stack) = (measured(&task), stack_used(&task));
        let (name, bytes) = (task.name, task.protocol.len());
        println!("{:<32} {:>6} {:>8.0} {:>8.0} {:>6.2} {:>8}", name, bytes, ours, theirs, ratio, stack);
        highest = highest.max(ratio);
        most_stack = most_stack.max(stack);
    }
    println!("at most {} times the second program: {} (highest {:.2})", MOST_RATIO, kept(highest <= MOST_RATIO), highest);
    println!("at most {} bytes of stack: {} (most {})", MOST_STACK, kept(most_stack <= MOST_STACK), most_stack);
}
