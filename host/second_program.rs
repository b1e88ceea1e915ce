//! The second program as a program, for comparing and for the documents.
//!
//!   host/build run second_program plan PROTOCOL
//!   host/build run second_program judge PROTOCOL MAPPING
//!   host/build run second_program facts PROTOCOL ..
//!   host/build run second_program relations PROTOCOL
//!   host/build run second_program full
//!
//! `facts` prints a line of figures for each protocol: how many messages there
//! are and of how many types, how many messages are on the longest causes
//! chain, how many stalls and waits pairs there are, and the plan. `relations`
//! prints the chain and the pairs themselves. `full` prints a protocol at all
//! limits.

mod limits;
mod second;

use second::{Message, Plan, Protocol, Relation};
use std::io::Write;

fn read(file: &str) -> Vec<u8> {
    std::fs::read(file).unwrap_or_else(|error| panic!("{}: {}", file, error))
}

fn print(bytes: &[u8]) {
    std::io::stdout().write_all(bytes).expect("a place to print");
}

/// The longest chain of causes steps that comes to no message twice, the first
/// in dictionary order, by trying all of them.
fn longest_chain(causes: &Relation, chain: &mut Vec<Message>) -> Vec<Message> {
    let mut longest = chain.clone();
    for next in causes.messages() {
        let on = chain.last().map_or(true, |last| causes.has(*last, next));
        if on && !chain.contains(&next) {
            chain.push(next);
            let longer = longest_chain(causes, chain);
            chain.pop();
            if longer.len() > longest.len() {
                longest = longer;
            }
        }
    }
    longest
}

/// How many of the four message types are used.
fn types(protocol: &Protocol) -> usize {
    let mut seen = Vec::new();
    for row in &protocol.messages {
        if !seen.contains(&row.message_type) {
            seen.push(row.message_type);
        }
    }
    seen.len()
}

fn names_of(protocol: &Protocol, messages: &[Message]) -> String {
    let names = protocol.message_names();
    let names = messages.iter().map(|message| String::from_utf8_lossy(&names[message.0]));
    names.collect::<Vec<_>>().join(" ")
}

fn plan_words(protocol: &Protocol, waits: &Relation) -> String {
    match second::plan_of(waits) {
        Plan::Class3 { networks, .. } => format!("class 3, {} networks", networks),
        Plan::Class2 { cycle } => format!("class 2, cycle {}", names_of(protocol, &cycle)),
    }
}

fn facts(file: &str) {
    let protocol = second::read_protocol(&read(file)).expect("the protocol is accepted");
    let (causes, stalls) = (second::causes_of(&protocol), second::stalls_of(&protocol));
    let waits = second::waits_of(&causes, &stalls);
    let name = file.rsplit('/').next().unwrap_or(file).trim_end_matches(".tsv");
    println!(
        "| `{}` | {} | {} | {} | {} | {} | {} |",
        name,
        protocol.messages.len(),
        types(&protocol),
        longest_chain(&causes, &mut Vec::new()).len(),
        stalls.pairs(),
        waits.pairs(),
        plan_words(&protocol, &waits)
    );
}

/// For each message that has some, those that it causes, stalls or waits for.
fn print_pairs(protocol: &Protocol, word: &str, relation: &Relation) {
    for from in relation.messages() {
        let to: Vec<Message> = relation.messages().filter(|to| relation.has(from, *to)).collect();
        if !to.is_empty() {
            println!("{} {}: {}", names_of(protocol, &[from]), word, names_of(protocol, &to));
        }
    }
}

fn relations(file: &str) {
    let protocol = second::read_protocol(&read(file)).expect("the protocol is accepted");
    let (causes, stalls) = (second::causes_of(&protocol), second::stalls_of(&protocol));
    let chain = longest_chain(&causes, &mut Vec::new());
    println!("longest causes chain: {}", names_of(&protocol, &chain));
    print_pairs(&protocol, "causes", &causes);
    print_pairs(&protocol, "stalls", &stalls);
    print_pairs(&protocol, "waits for", &second::waits_of(&causes, &stalls));
}

fn main() {
    let words: Vec<String> = std::env::args().skip(1).collect();
    let words: Vec<&str> = words.iter().map(|word| word.as_str()).collect();
    match words.as_slice() {
        ["plan", protocol] => print(&second::printed(&second::plan(&read(protocol)))),
        ["judge", protocol, mapping] => {
            print(&second::printed(&second::judge(&read(protocol), &read(mapping))))
        }
        ["facts", protocols @ ..] => protocols.iter().for_each(|file| facts(file)),
        ["relations", protocol] => relations(protocol),
        ["full"] => print(&limits::full()),
        _ => panic!("give plan, judge, facts, relations or full"),
    }
}
