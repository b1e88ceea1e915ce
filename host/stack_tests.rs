//! How much stack the relations call takes: at most 1,280 bytes in the first
//! form and 2,048 in the second, because lab stations run the library in a host
//! with a small stack (requests C-13 and C-15).
//!
//! Each call runs on a painted stack of its own, and afterwards it is looked
//! how far down that was written to. Answers are compared with the second
//! program's, so that what is measured is a whole call.

mod measure;
mod random;
mod second;
mod zeveltoren;

use random::{Call, Random, Tables, DENSITIES};
use second::{Form, Message, COUNT, FIRST_FORM, ROOM, SECOND_FORM, STRAY};
use std::io::Write;
use zeveltoren::{MOST_STACK, MOST_STACK64};

/// A form with what is promised of its stack, and where it stands.
struct Measured {
    form: Form,
    name: &'static str,
    most_stack: usize,
    packed: fn(u64, &[u8], &[u8], &mut [u8]) -> u64,
    address: fn() -> usize,
}

const FIRST: Measured = Measured {
    form: FIRST_FORM,
    name: "first form",
    most_stack: MOST_STACK,
    packed: zeveltoren::relations_packed,
    address: zeveltoren::relations_address,
};

const SECOND: Measured = Measured {
    form: SECOND_FORM,
    name: "second form",
    most_stack: MOST_STACK64,
    packed: zeveltoren::relations64_packed,
    address: zeveltoren::relations64_address,
};

// ---------------------------------------------------------------------
// Inputs
// ---------------------------------------------------------------------

/// The table of all pairs for which `has` says yes.
fn table(form: Form, n: usize, has: fn(usize, usize, usize) -> bool) -> Vec<u8> {
    let mut table = vec![0; form.row_bytes * n];
    for from in 0..n {
        for to in 0..n {
            if has(n, from, to) {
                random::set_pair(form, &mut table, Message(from), Message(to));
            }
        }
    }
    table
}

fn none(_: usize, _: usize, _: usize) -> bool {
    false
}

fn all(_: usize, _: usize, _: usize) -> bool {
    true
}

fn own(_: usize, from: usize, to: usize) -> bool {
    from == to
}

fn next(_: usize, from: usize, to: usize) -> bool {
    to == from + 1
}

fn later(_: usize, from: usize, to: usize) -> bool {
    to > from
}

fn not_later(_: usize, from: usize, to: usize) -> bool {
    to <= from
}

fn ring(n: usize, from: usize, to: usize) -> bool {
    to == (from + 1) % n
}

fn ring_back(n: usize, from: usize, to: usize) -> bool {
    from == (to + 1) % n
}

/// Of both classes: without pairs and full, with one network and with n, sparse
/// and dense, with a cycle of one message and of n.
fn inputs(form: Form, n: usize) -> Vec<Tables> {
    let shapes: [[fn(usize, usize, usize) -> bool; 2]; 9] = [
        [none, none],
        [none, all],
        [all, none],
        [all, all],
        [all, own],
        [next, own],
        [later, not_later],
        [own, ring_back],
        [ring, own],
    ];
    let mut inputs: Vec<Tables> = shapes
        .iter()
        .map(|[causes, stalls]| {
            let (causes, stalls) = (table(form, n, *causes), table(form, n, *stalls));
            Tables { form, count: n, causes, stalls }
        })
        .collect();
    let mut random = Random::new(n as u64);
    for quarters in DENSITIES {
        inputs.push(random::loose_tables(form, &mut random, n, quarters, quarters));
        inputs.push(random::layered_tables(form, &mut random, n));
    }
    inputs
}

/// Calls that are refused, out of a right one with room for n. Each with the
/// number of its refusal.
fn refused(right: &Call) -> Vec<(Call, u64)> {
    let (form, n) = (right.form, right.n as usize);
    let most = form.most_messages;
    let mut calls = Vec::new();
    for wrong in [0, most as u64 + 1, right.n + 1, u64::MAX] {
        calls.push((Call { n: wrong, ..right.clone() }, COUNT));
    }
    let mut short = right.clone();
    short.causes.pop();
    calls.push((short, COUNT));
    let mut long = right.clone();
    long.stalls.push(0);
    calls.push((long, COUNT));
    if n < most {
        let mut early = right.clone();
        random::set_pair(form, &mut early.causes, Message(0), Message(n));
        let mut late = right.clone();
        random::set_pair(form, &mut late.stalls, Message(n - 1), Message(most - 1));
        calls.extend([(early, STRAY), (late, STRAY)]);
    }
    for room in [0, n - 1] {
        calls.push((Call { room, ..right.clone() }, ROOM));
    }
    calls
}

// ---------------------------------------------------------------------
// What the call takes
// ---------------------------------------------------------------------

/// The bytes that a call takes, which must not be too many.
fn taken(measured: &Measured, call: &Call, right: &second::Answer) -> usize {
    let Call { n, causes, stalls, room, .. } = call;
    let most = measured.most_stack;
    let mut out = vec![0xee; *room];
    // One call before, on the usual stack: whatever the host's loader does for
    // a first call is done by then.
    assert_eq!((measured.packed)(*n, causes, stalls, &mut out), right.packed(), "{:?}", call);
    out.fill(0xee);
    let words = zeveltoren::relations_words(*n, causes, stalls, &mut out);
    let (bytes, answer) = measure::stack_and_answer((measured.address)(), words);
    assert_eq!(answer, right.packed(), "{:?}", call);
    assert_eq!(&out[..right.bytes.len()], &right.bytes[..], "{:?}", call);
    assert!(bytes <= most, "{} bytes of stack, {} are allowed: {:?}", bytes, most, call);
    bytes
}

/// A line that is printed although the test passes.
fn say(line: &str) {
    writeln!(std::io::stderr(), "stack_tests: {}", line).unwrap();
}

fn accepted_calls(measured: &Measured) {
    let (mut class_3, mut class_2) = (0, 0);
    for n in 1..=measured.form.most_messages {
        for tables in inputs(measured.form, n) {
            let call = Call::of(tables, n);
            let right = second::relations_in(call.form, call.n, &call.causes, &call.stalls, call.room);
            assert_eq!(right.number, 0);
            let class = if right.networks == 0 { &mut class_2 } else { &mut class_3 };
            *class = taken(measured, &call, &right).max(*class);
        }
    }
    // Each has had its calls: no call takes less than its return address.
    assert!(class_3 >= 8 && class_2 >= 8);
    let Measured { name, most_stack, .. } = measured;
    say(&format!("{}: class 3 takes {} bytes, class 2 {}, of {}", name, class_3, class_2, most_stack));
}

fn refused_calls(measured: &Measured) {
    let (form, mut most) = (measured.form, 0);
    for n in 1..=form.most_messages {
        let full = Tables { form, count: n, causes: table(form, n, all), stalls: table(form, n, all) };
        for (call, number) in refused(&Call::of(full, n)) {
            let answer = second::relations_in(form, call.n, &call.causes, &call.stalls, call.room);
            assert_eq!(answer.number, number, "{:?}", call);
            most = taken(measured, &call, &answer).max(most);
        }
    }
    say(&format!("{}: a refused call takes {} bytes, of {}", measured.name, most, measured.most_stack));
}

#[test]
fn accepted_calls_of_the_first_form() {
    accepted_calls(&FIRST);
}

#[test]
fn accepted_calls_of_the_second_form() {
    accepted_calls(&SECOND);
}

#[test]
fn refused_calls_of_both_forms() {
    refused_calls(&FIRST);
    refused_calls(&SECOND);
}

// ---------------------------------------------------------------------
// Whether the measure measures
// ---------------------------------------------------------------------

/// Takes a little more than 2,500 bytes, and gives the sum of its arguments.
unsafe extern "C" fn too_much(a: usize, b: usize, c: usize, d: usize, e: usize, f: usize, g: usize) -> u64 {
    let mut frame = [0_u8; 2_500];
    for byte in frame.iter_mut() {
        std::ptr::write_volatile(byte, 1);
    }
    (a + b + c + d + e + f + g) as u64
}

/// Takes nothing but its return address, and perhaps a register or two.
unsafe extern "C" fn nothing(_: usize, _: usize, _: usize, _: usize, _: usize, _: usize, g: usize) -> u64 {
    g as u64
}

#[test]
fn the_measure() {
    let words = [1, 20, 300, 4_000, 50_000, 600_000, 7_000_000];
    let (bytes, answer) = measure::stack_and_answer(too_much as *const () as usize, words);
    assert_eq!(answer, 7_654_321);
    assert!((2_508..2_700).contains(&bytes), "{} bytes", bytes);
    let (bytes, answer) = measure::stack_and_answer(nothing as *const () as usize, words);
    assert_eq!(answer, 7_000_000);
    assert!((8..64).contains(&bytes), "{} bytes", bytes);
    assert_eq!((MOST_STACK, MOST_STACK64), (1_280, 2_048));
}
