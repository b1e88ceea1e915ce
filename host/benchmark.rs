//! How fast the relations call is in its two forms, beside the second program,
//! and how much stack each takes.
//!
//!   host/build run benchmark
//!
//! Library, fast variant and plain variant get the same inputs in the same
//! run, in turn, and all are optimised. All three count row joins: their answers
//! are compared before they are timed. Each figure is the median of several
//! rounds; so is a ratio, each of one round, because a busy machine slows both
//! sides of it. Times are those that the thread had a processor. Under an
//! emulator they are those of translated code: trust the ratios of x86-64.

mod measure;
mod random;
mod second;
mod zeveltoren;

use measure::{kept, median, thread_time};
use random::{Random, Tables};
use second::{Form, Message, FIRST_FORM, SECOND_FORM};

/// What we aim at: this many times the fast variant.
const MOST_RATIO: f64 = 1.0;

const ROUNDS: usize = 15;
/// How many relations a line of the table is measured with.
const INPUTS: usize = 32;
/// A round of one variant takes about this long.
const ROUND_NANOSECONDS: u128 = 4_000_000;

/// A form, what is measured of it, and what we aim at: so many bytes of stack.
struct Measured {
    form: Form,
    name: &'static str,
    counts: &'static [usize],
    /// Library, fast and plain.
    variants: [Variant; 3],
    /// Library and fast, for who measures their stack.
    addresses: [fn() -> usize; 2],
    most_stack: usize,
}

const FIRST: Measured = Measured {
    form: FIRST_FORM,
    name: "first",
    counts: &[8, 16, 32],
    variants: [library, fast, plain],
    addresses: [zeveltoren::relations_address, || exported_fast as *const () as usize],
    most_stack: zeveltoren::MOST_STACK,
};

const SECOND: Measured = Measured {
    form: SECOND_FORM,
    name: "second",
    counts: &[8, 16, 32, 47, 64],
    variants: [library64, fast64, plain],
    addresses: [zeveltoren::relations64_address, || exported_fast64 as *const () as usize],
    most_stack: zeveltoren::MOST_STACK64,
};

// ---------------------------------------------------------------------
// Inputs
// ---------------------------------------------------------------------

/// The lines of the table: density and class.
#[derive(Clone, Copy)]
struct Kind {
    name: &'static str,
    class: u64,
    quarters: usize,
    make: fn(Form, &mut Random, usize, usize) -> Tables,
}

const KINDS: [Kind; 6] = [
    Kind { name: "sparse, class 3", class: 3, quarters: 3, make: forward },
    Kind { name: "dense, class 3", class: 3, quarters: 64, make: forward },
    Kind { name: "chain, class 3", class: 3, quarters: 0, make: chain },
    Kind { name: "sparse, class 2", class: 2, quarters: 4, make: loose },
    Kind { name: "dense, class 2", class: 2, quarters: 64, make: loose },
    Kind { name: "ring, class 2", class: 2, quarters: 0, make: ring },
];

fn loose(form: Form, random: &mut Random, count: usize, quarters: usize) -> Tables {
    random::loose_tables(form, random, count, quarters, quarters)
}

/// Causes rise and stalls fall, so that the waits have no cycle.
fn forward(form: Form, random: &mut Random, count: usize, quarters: usize) -> Tables {
    let mut tables = Tables::empty(form, count);
    for low in 0..count {
        for high in low..count {
            if low < high && random.chance(2 * quarters, 4 * count) {
                tables.add_cause(Message(low), Message(high));
            }
            if random.chance(2 * quarters, 4 * count) {
                tables.add_stall(Message(high), Message(low));
            }
        }
    }
    tables
}

fn chain(form: Form, random: &mut Random, count: usize, _: usize) -> Tables {
    random::chain_tables(form, random, count)
}

/// One ring of all messages: the longest cycle.
fn ring(form: Form, _: &mut Random, count: usize, _: usize) -> Tables {
    let mut tables = Tables::empty(form, count);
    for message in 0..count {
        tables.add_cause(Message(message), Message(message));
        tables.add_stall(Message((message + 1) % count), Message(message));
    }
    tables
}

fn class_of(tables: &Tables) -> u64 {
    let Tables { form, count, causes, stalls } = tables;
    let answer = second::relations_in(*form, *count as u64, causes, stalls, *count);
    if answer.networks == 0 { 2 } else { 3 }
}

/// Relations of one kind that are of its class: the same pairs in both forms.
fn inputs(form: Form, kind: &Kind, count: usize) -> Vec<Tables> {
    let mut random = Random::new(count as u64);
    let mut inputs = Vec::new();
    while inputs.len() < INPUTS {
        let tables = (kind.make)(form, &mut random, count, kind.quarters);
        if class_of(&tables) == kind.class {
            inputs.push(tables);
        }
    }
    inputs
}

// ---------------------------------------------------------------------
// Times
// ---------------------------------------------------------------------

/// One call, of the library or of a variant. Gives the packed number.
type Variant = fn(&Tables, &mut [u8]) -> u64;

fn library(tables: &Tables, out: &mut [u8]) -> u64 {
    zeveltoren::relations_packed(tables.count as u64, &tables.causes, &tables.stalls, out)
}

fn library64(tables: &Tables, out: &mut [u8]) -> u64 {
    zeveltoren::relations64_packed(tables.count as u64, &tables.causes, &tables.stalls, out)
}

fn fast(tables: &Tables, out: &mut [u8]) -> u64 {
    second::relations_fast(tables.count as u64, &tables.causes, &tables.stalls, out).packed()
}

fn fast64(tables: &Tables, out: &mut [u8]) -> u64 {
    second::relations64_fast(tables.count as u64, &tables.causes, &tables.stalls, out).packed()
}

fn plain(tables: &Tables, out: &mut [u8]) -> u64 {
    let Tables { form, count, causes, stalls } = tables;
    let answer = second::relations_in(*form, *count as u64, causes, stalls, out.len());
    out[..answer.bytes.len()].copy_from_slice(&answer.bytes);
    answer.packed()
}

/// Nanoseconds a call, over all inputs `times` times. The sum keeps the
/// compiler from leaving calls out.
fn time(variant: Variant, inputs: &[Tables], times: usize) -> (f64, u64) {
    let mut out = [0; 64];
    let mut sum = 0_u64;
    let start = thread_time();
    for _ in 0..times {
        for tables in inputs {
            sum = sum.wrapping_add(variant(tables, &mut out)).wrapping_add(u64::from(out[0]));
        }
    }
    ((thread_time() - start) as f64 / (times * inputs.len()) as f64, sum)
}

/// How often the inputs are gone through in a round.
fn times_for(variant: Variant, inputs: &[Tables]) -> usize {
    let (once, _) = time(variant, inputs, 1);
    let whole = once as u128 * inputs.len() as u128;
    (ROUND_NANOSECONDS / whole.max(1)).clamp(1, 100_000) as usize
}

/// A line of the table: times of library, fast and plain variant, and the
/// library's ratios to the other two.
fn measured(variants: [Variant; 3], inputs: &[Tables]) -> [f64; 5] {
    let times = variants.map(|variant| times_for(variant, inputs));
    let mut rounds: Vec<[f64; 5]> = Vec::new();
    for _ in 0..ROUNDS {
        let library = time(variants[0], inputs, times[0]).0;
        let fast = time(variants[1], inputs, times[1]).0;
        let plain = time(variants[2], inputs, times[2]).0;
        rounds.push([library, fast, plain, library / fast, library / plain]);
    }
    [0, 1, 2, 3, 4].map(|column| median(rounds.iter().map(|round| round[column]).collect()))
}

/// All three give the same answers, or the times mean nothing.
fn compare(variants: [Variant; 3], inputs: &[Tables]) {
    for tables in inputs {
        let answers = variants.map(|variant| {
            let mut out = [0xee; 64];
            (variant(tables, &mut out), out)
        });
        assert!(answers[0] == answers[1] && answers[1] == answers[2], "{:?}", tables);
    }
}

/// Prints the lines of a form; gives the highest ratio to the fast variant.
fn print_times(of: &Measured) -> f64 {
    let mut highest = 0.0_f64;
    for count in of.counts {
        for kind in &KINDS {
            let inputs = inputs(of.form, kind, *count);
            compare(of.variants, &inputs);
            let [library, fast, plain, to_fast, to_plain] = measured(of.variants, &inputs);
            highest = highest.max(to_fast);
            println!(
                "{:<6} {:>3} {:<16} {:>9.0} {:>9.0} {:>9.0} {:>8.2} {:>8.3}",
                of.name, count, kind.name, library, fast, plain, to_fast, to_plain
            );
        }
    }
    highest
}

// ---------------------------------------------------------------------
// Stack
// ---------------------------------------------------------------------

/// The fast variant of the first form, as the call is exported.
unsafe extern "C" fn exported_fast(
    n: u64,
    causes: *const u8,
    causes_length: usize,
    stalls: *const u8,
    stalls_length: usize,
    out: *mut u8,
    out_length: usize,
) -> u64 {
    let causes = std::slice::from_raw_parts(causes, causes_length);
    let stalls = std::slice::from_raw_parts(stalls, stalls_length);
    let out = std::slice::from_raw_parts_mut(out, out_length);
    second::relations_fast(n, causes, stalls, out).packed()
}

/// That of the second form.
unsafe extern "C" fn exported_fast64(
    n: u64,
    causes: *const u8,
    causes_length: usize,
    stalls: *const u8,
    stalls_length: usize,
    out: *mut u8,
    out_length: usize,
) -> u64 {
    let causes = std::slice::from_raw_parts(causes, causes_length);
    let stalls = std::slice::from_raw_parts(stalls, stalls_length);
    let out = std::slice::from_raw_parts_mut(out, out_length);
    second::relations64_fast(n, causes, stalls, out).packed()
}

fn stack_used(function: usize, tables: &Tables) -> usize {
    let mut out = [0; 64];
    let words = zeveltoren::relations_words(tables.count as u64, &tables.causes, &tables.stalls, &mut out);
    measure::stack_and_answer(function, words).0
}

/// The most stack over all inputs of a form. host/stack_tests.rs has more, and
/// fails above the limit.
fn print_stack(of: &Measured) {
    let (mut library, mut fast) = (0, 0);
    for count in of.counts {
        for kind in &KINDS {
            for tables in &inputs(of.form, kind, *count) {
                library = library.max(stack_used((of.addresses[0])(), tables));
                fast = fast.max(stack_used((of.addresses[1])(), tables));
            }
        }
    }
    println!("stack of a call, {} form: library {} bytes, fast variant {} bytes", of.name, library, fast);
    println!("at most {} bytes of stack: {}", of.most_stack, kept(library <= of.most_stack));
}

fn main() {
    println!("nanoseconds a call, median of {} rounds", ROUNDS);
    println!(
        "{:<6} {:>3} {:<16} {:>9} {:>9} {:>9} {:>8} {:>8}",
        "form", "n", "relations", "library", "fast", "plain", "to fast", "to plain"
    );
    let highest = print_times(&FIRST).max(print_times(&SECOND));
    println!(
        "at most {} times the fast variant: {} (highest {:.2})",
        MOST_RATIO, kept(highest <= MOST_RATIO), highest
    );
    print_stack(&FIRST);
    print_stack(&SECOND);
}
