//! Texts for the two readers, as the program crates/cases takes them, and the
//! lines that it has to print, as the second program gives them. The form of
//! both is described at the head of crates/cases/src/main.rt.
//!
//!   cases input                           writes chosen items
//!   cases output                          writes their lines
//!   cases random COUNT SEED INPUT OUTPUT  writes random items and their lines
//!                                         to two files

mod case_texts;
mod limits;
mod random;
mod second;

use random::Random;
use second::{Message, Network, Protocol, Refusal, Relation};
use std::collections::BTreeMap;
use std::fs::File;
use std::io::{BufWriter, Write};

/// "N and M are decimal numbers of at most 65536"
const MOST: usize = 65_536;

/// What is read in one turn of the program.
pub enum Item {
    Protocol(Vec<u8>),
    Judge(Vec<u8>, Vec<u8>),
}

impl Item {
    /// The program has room for its texts.
    fn fits(&self) -> bool {
        match self {
            Item::Protocol(text) => text.len() <= MOST,
            Item::Judge(text, mapping) => text.len() <= MOST && mapping.len() <= MOST,
        }
    }

    fn write(&self, out: &mut impl Write) -> std::io::Result<()> {
        assert!(self.fits(), "there is room for the texts");
        match self {
            Item::Protocol(text) => {
                writeln!(out, "protocol {}", text.len())?;
                out.write_all(text)
            }
            Item::Judge(text, mapping) => {
                writeln!(out, "judge {} {}", text.len(), mapping.len())?;
                out.write_all(text)?;
                out.write_all(mapping)
            }
        }
    }

    fn answer(&self) -> Answer {
        match self {
            Item::Protocol(text) => Answer { protocol: second::read_protocol(text), mapping: None },
            Item::Judge(text, mapping) => {
                let protocol = second::read_protocol(text);
                let names = protocol.as_ref().ok().map(|p| p.message_names());
                let mapping = names.map(|names| second::read_mapping(mapping, &names));
                Answer { protocol, mapping }
            }
        }
    }
}

/// What the second program says of an item. The mapping is read only where
/// the protocol is accepted.
struct Answer {
    protocol: Result<Protocol, Refusal>,
    mapping: Option<Result<Vec<Network>, Refusal>>,
}

impl Answer {
    fn refusals(&self) -> Vec<Refusal> {
        let of_mapping = self.mapping.iter().filter_map(|mapping| mapping.as_ref().err());
        self.protocol.as_ref().err().into_iter().chain(of_mapping).copied().collect()
    }

    fn line(&self) -> String {
        let mut line = match &self.protocol {
            Ok(protocol) => accepted_words(protocol),
            Err(refusal) => refused_words(refusal),
        };
        match &self.mapping {
            None => {}
            Some(Err(refusal)) => line.push_str(&format!(" {}", refused_words(refusal))),
            Some(Ok(mapping)) => {
                line.push_str(" networks");
                mapping.iter().for_each(|network| line.push_str(&format!(" {}", network.0)));
            }
        }
        line
    }
}

fn refused_words(refusal: &Refusal) -> String {
    format!("refused {} {} {} {}", refusal.number, refusal.paper, refusal.line, refusal.field)
}

fn accepted_words(protocol: &Protocol) -> String {
    let counts = [
        protocol.messages.len(),
        protocol.events.len(),
        protocol.states.len(),
        protocol.cells.len(),
    ];
    format!(
        "accepted {} {} {} {} causes{} stalls{}",
        counts[0],
        counts[1],
        counts[2],
        counts[3],
        rows(&second::causes_of(protocol)),
        rows(&second::stalls_of(protocol)),
    )
}

/// A row for each message, in hexadecimal: bit j is message j.
fn rows(relation: &Relation) -> String {
    let mut words = String::new();
    for from in relation.messages() {
        let row: u64 = (0..relation.count())
            .filter(|to| relation.has(from, Message(*to)))
            .map(|to| 1 << to)
            .sum();
        words.push_str(&format!(" {:x}", row));
    }
    words
}

/// How often each answer was given: a refusal by paper, number and field.
#[derive(Default)]
struct Tally {
    accepted: usize,
    mapped: usize,
    refused: BTreeMap<(u64, u64, u64), usize>,
}

impl Tally {
    fn add(&mut self, answer: &Answer) {
        self.accepted += usize::from(answer.protocol.is_ok());
        self.mapped += usize::from(matches!(answer.mapping, Some(Ok(_))));
        for refusal in answer.refusals() {
            *self.refused.entry((refusal.paper, refusal.number, refusal.field)).or_insert(0) += 1;
        }
    }

    /// Each row of the refusal table that a reader can give has to be there, with
    /// each field that it can tell.
    fn check(&self) {
        let refused: Vec<(u64, u64, u64)> = self.refused.keys().copied().collect();
        assert_eq!(refused, limits::all_refusals());
        assert!(self.accepted > 0 && self.mapped > 0, "something is accepted");
    }

    fn say(&self) {
        let mut words = format!("accepted {}, mapped {}, refused", self.accepted, self.mapped);
        for ((paper, number, field), times) in &self.refused {
            words.push_str(&format!(" {}/{}/{}:{}", number, paper, field, times));
        }
        eprintln!("{}", words);
    }
}

// ---------------------------------------------------------------------
// Random items
// ---------------------------------------------------------------------

/// Whole and damaged texts. Of the judge items some have a protocol or a
/// mapping that is damaged, and some the mapping of another protocol.
fn random_item(random: &mut Random, others_mapping: &mut Vec<u8>) -> Item {
    let whole = random::protocol_text(random);
    if random.chance(2, 3) {
        return Item::Protocol(match random.below(10) {
            0 => whole,
            1..=5 => random::damage(random, &whole),
            _ => random::damage_a_line(random, &whole),
        });
    }
    let mut mapping = random::mapping_text(random, &whole);
    let text = if random.chance(1, 6) { random::damage(random, &whole) } else { whole };
    match random.below(12) {
        0..=4 => mapping = random::damage(random, &mapping),
        5 | 6 => mapping = random::damage_a_line(random, &mapping),
        7 => std::mem::swap(&mut mapping, others_mapping),
        _ => {}
    }
    Item::Judge(text, mapping)
}

fn write_random(count: usize, seed: u64, input: &str, output: &str) -> std::io::Result<()> {
    let mut random = Random::new(seed);
    let mut others_mapping = Vec::new();
    let mut items = BufWriter::new(File::create(input)?);
    let mut lines = BufWriter::new(File::create(output)?);
    let mut tally = Tally::default();
    for _ in 0..count {
        let mut item = random_item(&mut random, &mut others_mapping);
        while !item.fits() {
            item = random_item(&mut random, &mut others_mapping);
        }
        let answer = item.answer();
        item.write(&mut items)?;
        writeln!(lines, "{}", answer.line())?;
        tally.add(&answer);
    }
    items.flush()?;
    lines.flush()?;
    tally.say();
    Ok(())
}

// ---------------------------------------------------------------------
// The program
// ---------------------------------------------------------------------

fn write_input() -> std::io::Result<()> {
    let mut out = BufWriter::new(std::io::stdout());
    for item in case_texts::all() {
        item.write(&mut out)?;
    }
    out.flush()
}

fn write_output() -> std::io::Result<()> {
    let mut out = BufWriter::new(std::io::stdout());
    let mut tally = Tally::default();
    for item in case_texts::all() {
        let answer = item.answer();
        tally.add(&answer);
        writeln!(out, "{}", answer.line())?;
    }
    tally.check();
    out.flush()
}

fn main() -> std::io::Result<()> {
    let words: Vec<String> = std::env::args().skip(1).collect();
    let words: Vec<&str> = words.iter().map(|word| word.as_str()).collect();
    match words.as_slice() {
        ["input"] => write_input(),
        ["output"] => write_output(),
        ["random", count, seed, input, output] => {
            let count = count.parse().expect("COUNT is a number");
            let seed = seed.parse().expect("SEED is a number");
            write_random(count, seed, input, output)
        }
        _ => panic!("give input, or output, or random COUNT SEED INPUT OUTPUT"),
    }
}
