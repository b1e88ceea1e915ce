//! Pairs of texts through the programs vn_plan and vn_judge themselves, each
//! pair in a folder of its own. Every byte that they print is compared with
//! the second program's.
//!
//!   host/build run programs COUNT SEED    chosen pairs, and COUNT random ones
//!
//! tools/program tells how the programs are run. A folder whose pair is
//! answered in two ways stays in target/host/program_runs.

mod limits;
mod pair_texts;
mod random;
mod second;

use pair_texts::{Maker, Pair};
use random::Random;
use second::Network;
use std::fs;
use std::io::{ErrorKind, Write};
use std::path::{Path, PathBuf};
use std::process::{Child, Command, Stdio};
use std::time::Duration;

const FOLDERS: &str = "target/host/program_runs";

/// One turn: the texts, of which a file may be missing, and how many pieces
/// the standard input comes in.
struct Turn {
    protocol: Option<Vec<u8>>,
    mapping: Option<Vec<u8>>,
    pieces: usize,
}

// ---------------------------------------------------------------------
// Turns
// ---------------------------------------------------------------------

fn turn(protocol: &[u8], mapping: &[u8], pieces: usize) -> Turn {
    Turn { protocol: Some(protocol.to_vec()), mapping: Some(mapping.to_vec()), pieces }
}

/// Missing and empty files, all limits, texts far over them, long listings.
fn chosen_turns() -> Vec<Turn> {
    let bell = fs::read("examples/bell.tsv").expect("Bell is among the examples");
    let fit = b"vn-mapping\t1\nmap\tAsk\t5\nmap\tPass\t9\nmap\tGive\t9\nmap\tDone\t9\n";
    let fit_2 = b"vn-mapping\t2\nmap\tAsk\t63\nmap\tPass\t9\nmap\tGive\t9\nmap\tDone\t9\n";
    let mut turns = vec![
        turn(&bell, fit, 1),
        turn(&bell, fit_2, 1),
        turn(&bell, fit, bell.len()),
        turn(&bell, b"", 3),
        turn(b"", fit, 1),
        Turn { protocol: Some(bell.clone()), mapping: None, pieces: 1 },
        Turn { protocol: None, mapping: Some(fit.to_vec()), pieces: 1 },
        Turn { protocol: None, mapping: None, pieces: 1 },
    ];
    let (unfit, hung) = limits::longest_unfit();
    turns.push(turn(&unfit, &hung, 7));
    turns.push(turn(&limits::longest_plan(), fit, 7));
    turns.push(turn(&limits::longest_cycle(), fit, 7));
    turns.push(turn(&limits::full(), fit, 9));
    // The most `map` lines of each header, one more, and too few.
    let networks: Vec<Network> = (0..65).map(|i| Network(i % 32)).collect();
    for (messages, header, lines) in [(32, 1, 32), (32, 1, 33), (40, 1, 33), (40, 1, 32), (64, 2, 64), (64, 2, 65)] {
        let mapping = limits::mapping_under(header, &networks[..lines]);
        turns.push(turn(&limits::full_of(messages), &mapping, 1));
    }
    for past in limits::one_more_of_each() {
        turns.push(turn(&past.text, fit, 5));
    }
    for bytes in [49_151, 49_152, 49_153, 49_154, 65_535, 65_536, 65_537, 200_000, 1_000_000] {
        turns.push(turn(&bell, &limits::long_mapping(1 + bytes % 2, bytes), 1));
        turns.push(turn(&limits::long_mapping(1, bytes), fit, 11));
    }
    turns
}

/// Some files are missing, some texts empty; the input comes whole or in up
/// to ten pieces.
fn random_turn(maker: &mut Maker) -> Turn {
    let Pair { protocol, mapping } = maker.pair();
    let random = maker.random();
    let there = |text: Vec<u8>, random: &mut Random| match random.below(30) {
        0 => None,
        1 => Some(Vec::new()),
        _ => Some(text),
    };
    let protocol = there(protocol, random);
    let mapping = there(mapping, random);
    let pieces = if random.chance(1, 3) { random.between(2, 10) } else { 1 };
    Turn { protocol, mapping, pieces }
}

// ---------------------------------------------------------------------
// Runs
// ---------------------------------------------------------------------

/// How a program is run: the words of the command.
fn words_of(program: &str) -> Vec<String> {
    let output = Command::new("tools/program").args(["--words", program]).output().expect("sh");
    assert!(output.status.success(), "{}", String::from_utf8_lossy(&output.stderr));
    String::from_utf8(output.stdout).expect("words").lines().map(|word| word.to_string()).collect()
}

fn start(words: &[String], folder: &Path, input: Stdio) -> Child {
    let mut command = Command::new(&words[0]);
    command.args(&words[1..]).current_dir(folder).stdin(input).stdout(Stdio::piped());
    command.spawn().expect("the program starts")
}

/// The bytes that a program printed. It ends with status 0 in any case.
fn printed(child: Child) -> Vec<u8> {
    let output = child.wait_with_output().expect("the program ends");
    assert_eq!(output.status.code(), Some(0), "the program's status");
    output.stdout
}

/// Feeds the text in pieces, with a moment between them, so that a reading
/// gets less than it has room for. A program may stop reading a text that is
/// too long.
fn feed(child: &mut Child, text: &[u8], pieces: usize) {
    let mut input = child.stdin.take().expect("a pipe");
    for piece in text.chunks((text.len() / pieces).max(1)) {
        match input.write_all(piece) {
            Err(error) if error.kind() == ErrorKind::BrokenPipe => return,
            result => result.expect("the pipe takes the piece"),
        }
        if pieces > 1 {
            std::thread::sleep(Duration::from_micros(300));
        }
    }
}

fn plan_printed(words: &[String], folder: &Path, turn: &Turn) -> Vec<u8> {
    let text = turn.protocol.as_deref().unwrap_or(b"");
    let mut child = start(words, folder, Stdio::piped());
    feed(&mut child, text, turn.pieces);
    printed(child)
}

fn judgement_printed(words: &[String], folder: &Path, turn: &Turn) -> Vec<u8> {
    for (name, text) in [("protocol.tsv", &turn.protocol), ("mapping.tsv", &turn.mapping)] {
        if let Some(text) = text {
            fs::write(folder.join(name), text).expect("a place to write");
        }
    }
    printed(start(words, folder, Stdio::null()))
}

/// Compares; on a difference the folder keeps all that belongs to it.
fn compare(folder: &Path, program: &str, printed: &[u8], wanted: &[u8]) -> bool {
    if printed == wanted {
        return true;
    }
    fs::write(folder.join(format!("{}.printed", program)), printed).expect("a place to write");
    fs::write(folder.join(format!("{}.wanted", program)), wanted).expect("a place to write");
    eprintln!("{}: {} printed something else", folder.display(), program);
    false
}

fn one_turn(number: usize, turn: &Turn, plan: &[String], judge: &[String]) -> bool {
    let folder = PathBuf::from(FOLDERS).join(number.to_string());
    fs::create_dir_all(&folder).expect("a folder");
    let protocol = turn.protocol.as_deref().unwrap_or(b"");
    let mapping = turn.mapping.as_deref().unwrap_or(b"");
    let planned = plan_printed(plan, &folder, turn);
    let judged = judgement_printed(judge, &folder, turn);
    let right = compare(&folder, "vn_plan", &planned, &second::printed(&second::plan(protocol)))
        & compare(&folder, "vn_judge", &judged, &second::printed(&second::judge(protocol, mapping)));
    if right {
        fs::remove_dir_all(&folder).expect("the folder goes");
    } else {
        fs::write(folder.join("stdin"), protocol).expect("a place to write");
    }
    right
}

/// Every second turn, so that two threads share the work.
fn every_second(turns: &[Turn], first: usize, plan: &[String], judge: &[String]) -> bool {
    let mut right = true;
    for number in (first..turns.len()).step_by(2) {
        right &= one_turn(number, &turns[number], plan, judge);
    }
    right
}

fn main() {
    let words: Vec<u64> =
        std::env::args().skip(1).map(|word| word.parse().expect("COUNT and SEED")).collect();
    let (count, seed) = (words[0] as usize, words[1]);
    let (plan, judge) = (words_of("vn_plan"), words_of("vn_judge"));
    let mut turns = chosen_turns();
    let chosen = turns.len();
    let mut maker = Maker::new(seed);
    turns.extend((0..count).map(|_| random_turn(&mut maker)));
    let right = std::thread::scope(|scope| {
        let other = scope.spawn(|| every_second(&turns, 1, &plan, &judge));
        every_second(&turns, 0, &plan, &judge) & other.join().expect("both threads end")
    });
    println!("seed {}: {} chosen and {} random pairs", seed, chosen, count);
    std::process::exit(if right { 0 } else { 1 });
}
