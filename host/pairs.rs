//! Random pairs of texts through vn_plan_text and vn_judge_texts and through
//! the second program, in one process. Every number and every byte of the
//! output is compared, also those that have to stay.
//!
//!   host/build run pairs COUNT SEED
//!
//! A pair that is answered in two ways is written to target/host/pair.SEED.*.
//! host/run_pairs runs two of these side by side.

mod lent;
mod limits;
mod measure;
mod pair_texts;
mod random;
mod second;
mod zeveltoren_texts;

use lent::Given;
use measure::thread_time;
use pair_texts::{Maker, Pair};
use random::Random;
use second::{Listing, Refusal};
use std::collections::BTreeMap;

/// So many pairs have every answer among them.
const ENOUGH: usize = 40_000;

/// How much is lent: mostly just enough or a bit more, else too little.
fn room(random: &mut Random, result: &Result<Listing, Refusal>) -> usize {
    let length = match result {
        Ok(listing) => listing.len(),
        Err(_) => return random.below(40),
    };
    match random.below(8) {
        0 => length - 1,
        1 => random.below(length),
        2..=4 => length,
        _ => length + random.below(20),
    }
}

/// One call: what the second program says, and what has to come out.
struct Wanted {
    result: Result<Listing, Refusal>,
    room: usize,
    given: Given,
}

impl Wanted {
    fn new(random: &mut Random, result: Result<Listing, Refusal>) -> Wanted {
        let room = room(random, &result);
        let given = lent::wanted_with(&result, room);
        Wanted { result, room, given }
    }

    /// The kind of answer, for the tally.
    fn kind(&self) -> String {
        match &self.result {
            _ if self.given.packed & 0xff == 16 => "16".to_string(),
            Err(refusal) => refusal_kind((refusal.paper, refusal.number, refusal.field)),
            Ok(listing) => second_line(listing),
        }
    }
}

/// Its number, and behind a dot the field that is told.
fn refusal_kind((paper, number, field): (u64, u64, u64)) -> String {
    let of_mapping = if paper == 1 { "mapping-" } else { "" };
    let of_field = if field == 0 { String::new() } else { format!(".{}", field) };
    format!("{}{}{}", of_mapping, number, of_field)
}

/// `class 3`, `class 2`, `fit` or `unfit`.
fn second_line(listing: &[u8]) -> String {
    let line = listing.split(|byte| *byte == 10).nth(1).expect("a second line");
    String::from_utf8_lossy(line).replace('\t', "-")
}

/// How often each answer was given.
#[derive(Default)]
struct Tally {
    plans: BTreeMap<String, usize>,
    judgements: BTreeMap<String, usize>,
}

impl Tally {
    fn add(&mut self, plan: &Wanted, judgement: &Wanted) {
        *self.plans.entry(plan.kind()).or_insert(0) += 1;
        *self.judgements.entry(judgement.kind()).or_insert(0) += 1;
    }

    /// Both classes, both verdicts and every row of the refusal table, with every
    /// field that it tells.
    fn check(&self) {
        for kind in ["16", "class-2", "class-3"] {
            assert!(self.plans.contains_key(kind), "no plan was {}", kind);
        }
        for refusal in limits::all_refusals() {
            let kind = refusal_kind(refusal);
            let kinds = if refusal.0 == 0 { &self.plans } else { &self.judgements };
            assert!(kinds.contains_key(&kind), "no answer was {}", kind);
        }
        for kind in ["16", "fit", "unfit"] {
            assert!(self.judgements.contains_key(kind), "no judgement was {}", kind);
        }
    }
}

/// Nanoseconds spent on making texts, in the second program, in the library.
#[derive(Default)]
struct Times {
    making: u128,
    second: u128,
    library: u128,
}

/// Writes the pair out and stops.
fn compare(pair: &Pair, place: &str, given: &Given, wanted: &Wanted) {
    if *given == wanted.given {
        return;
    }
    let stem = format!("target/host/pair.{}", place);
    std::fs::write(format!("{}.protocol.tsv", stem), &pair.protocol).expect("a place to write");
    std::fs::write(format!("{}.mapping.tsv", stem), &pair.mapping).expect("a place to write");
    eprintln!("seed and turn {}, room {}: the pair is in {}.*", place, wanted.room, stem);
    eprintln!(" got {:#x} {}", given.packed, String::from_utf8_lossy(&given.buffer));
    eprintln!("want {:#x} {}", wanted.given.packed, String::from_utf8_lossy(&wanted.given.buffer));
    std::process::exit(1);
}

fn one_pair(maker: &mut Maker, place: &str, tally: &mut Tally, times: &mut Times) {
    let began = thread_time();
    let pair = maker.pair();
    let made = thread_time();
    let plan = Wanted::new(maker.random(), second::plan(&pair.protocol));
    let judgement = Wanted::new(maker.random(), second::judge(&pair.protocol, &pair.mapping));
    let said = thread_time();
    let given = lent::given_plan(&pair.protocol, plan.room);
    let given_judgement = lent::given_judgement(&pair.protocol, &pair.mapping, judgement.room);
    let called = thread_time();
    compare(&pair, place, &given, &plan);
    compare(&pair, place, &given_judgement, &judgement);
    tally.add(&plan, &judgement);
    times.making += made - began;
    times.second += said - made;
    times.library += called - said;
}

fn say(count: usize, seed: u64, tally: &Tally, times: &Times) {
    let words = |kinds: &BTreeMap<String, usize>| {
        kinds.iter().map(|(kind, often)| format!(" {}:{}", kind, often)).collect::<String>()
    };
    println!("seed {}: {} pairs, the same", seed, count);
    println!(" plans{}", words(&tally.plans));
    println!(" judgements{}", words(&tally.judgements));
    let seconds = |time: u128| time as f64 / 1e9;
    println!(
        " making {:.1} s, second program {:.1} s, library {:.1} s",
        seconds(times.making), seconds(times.second), seconds(times.library)
    );
}

fn main() {
    let words: Vec<u64> =
        std::env::args().skip(1).map(|word| word.parse().expect("COUNT and SEED")).collect();
    let (count, seed) = (words[0] as usize, words[1]);
    let mut maker = Maker::new(seed);
    let (mut tally, mut times) = (Tally::default(), Times::default());
    for turn in 0..count {
        one_pair(&mut maker, &format!("{}.{}", seed, turn), &mut tally, &mut times);
    }
    say(count, seed, &tally, &times);
    if count >= ENOUGH {
        tally.check();
    }
}
