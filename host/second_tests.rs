//! Tests of the second program by itself.
//!
//! PROTOCOLS names the folder of real protocols with right answers; without
//! it this is `examples`.

mod limits;
mod random;
mod second;

#[path = "second_tests/fields.rs"]
mod fields;
#[path = "second_tests/forms.rs"]
mod forms;
#[path = "second_tests/joins.rs"]
mod joins;
#[path = "second_tests/mappings.rs"]
mod mappings;
#[path = "second_tests/refusals.rs"]
mod refusals;
#[path = "second_tests/stallers.rs"]
mod stallers;

use random::Random;
use second::*;
use std::fs;
use std::path::{Path, PathBuf};

// ---------------------------------------------------------------------
// Helpers
// ---------------------------------------------------------------------

/// A listing as the paper prints it: `>` stands for a tab.
fn tabbed(lines: &[&str]) -> Vec<u8> {
    lines.iter().map(|line| format!("{}\n", line)).collect::<String>().replace('>', "\t").into()
}

fn relation(count: usize, pairs: &[(usize, usize)]) -> Relation {
    let mut relation = Relation::empty(count);
    for (from, to) in pairs {
        relation.add(Message(*from), Message(*to));
    }
    relation
}

fn networks(numbers: &[usize]) -> Vec<Network> {
    numbers.iter().copied().map(Network).collect()
}

fn messages(numbers: &[usize]) -> Vec<Message> {
    numbers.iter().copied().map(Message).collect()
}

fn check_class_3(
    count: usize,
    causes: &[(usize, usize)],
    stalls: &[(usize, usize)],
    mapping: &[usize],
) {
    let stalls = relation(count, stalls);
    let waits = waits_of(&relation(count, causes), &stalls);
    let used = networks_used(&networks(mapping)).len();
    let right = Plan::Class3 { networks: used, mapping: networks(mapping) };
    assert_eq!(plan_of(&waits), right);
    assert_eq!(verdict_of(&waits, &stalls, &networks(mapping)), Verdict::Fit);
}

fn check_class_2(
    count: usize,
    causes: &[(usize, usize)],
    stalls: &[(usize, usize)],
    cycle: &[usize],
) {
    let waits = waits_of(&relation(count, causes), &relation(count, stalls));
    assert_eq!(plan_of(&waits), Plan::Class2 { cycle: messages(cycle) });
}

const BELL: [&str; 17] = [
    "vn-protocol>1",
    "message>Ask>req",
    "message>Pass>fwd",
    "message>Give>data",
    "message>Done>ctl",
    "event>load",
    "state>cache>I>stable",
    "state>cache>ID>transient",
    "state>cache>V>stable",
    "state>dir>Free>stable",
    "state>dir>Wait>transient",
    "cell>cache>I>load>go>ID>Ask",
    "cell>cache>ID>Give>go>V>Done",
    "cell>cache>V>Pass>go>I>Give",
    "cell>dir>Free>Ask>go>Wait>Pass",
    "cell>dir>Wait>Ask>stall",
    "cell>dir>Wait>Done>go>Free",
];

fn bell() -> Vec<u8> {
    tabbed(&BELL)
}

/// Bell with more lines at its end.
fn bell_and(lines: &[&str]) -> Vec<u8> {
    let mut text = bell();
    text.extend(tabbed(lines));
    text
}

fn bell_mapping(numbers: [usize; 4]) -> Vec<u8> {
    let names = ["Ask", "Pass", "Give", "Done"];
    let mut text = tabbed(&["vn-mapping>1"]);
    for (name, number) in names.iter().zip(numbers) {
        text.extend(format!("map\t{}\t{}\n", name, number).into_bytes());
    }
    text
}

fn judged(numbers: [usize; 4]) -> Vec<u8> {
    judge(&bell(), &bell_mapping(numbers)).unwrap()
}

/// Of a whole line or text.
fn refused(number: u64, paper: u64, line: u64) -> Result<Listing, Refusal> {
    refused_at(number, paper, line, 0)
}

fn refused_at(number: u64, paper: u64, line: u64, field: u64) -> Result<Listing, Refusal> {
    Err(Refusal { number, paper, line, field })
}

/// A protocol with long names and exactly these waits of different messages.
fn protocol_with_waits(count: usize, waits: &[(usize, usize)]) -> Vec<u8> {
    let waits: Vec<(Message, Message)> = waits.iter().map(|(b, c)| (Message(*b), Message(*c))).collect();
    limits::protocol_with_waits(count, &waits)
}

// ---------------------------------------------------------------------
// The fourteen cases and the listings of the paper
// ---------------------------------------------------------------------

#[test]
fn cases_1_to_4() {
    check_class_3(1, &[], &[], &[0]);
    check_class_3(1, &[], &[(0, 0)], &[0]);
    check_class_2(1, &[(0, 0)], &[(0, 0)], &[0]);
    check_class_3(4, &[(0, 1), (1, 2), (2, 3)], &[], &[0, 0, 0, 0]);
}

#[test]
fn cases_5_and_6() {
    let right = tabbed(&[
        "vn-plan>1", "class>3", "networks>2", "map>Ask>1", "map>Pass>0", "map>Give>0", "map>Done>0",
    ]);
    assert_eq!(plan(&bell()).unwrap(), right);
    let text = bell_and(&["cell>cache>ID>Pass>stall"]);
    assert_eq!(plan(&text).unwrap(), tabbed(&["vn-plan>1", "class>2", "cycle>Pass"]));
}

#[test]
fn cases_7_to_9() {
    check_class_3(4, &[(0, 1), (3, 2)], &[(0, 0), (3, 1)], &[2, 1, 0, 0]);
    check_class_2(4, &[(0, 1), (2, 3)], &[(0, 3), (2, 1)], &[1, 3]);
    // CleanUnique, Inv, Inv-Ack, Resp, Comp, ReadShared.
    let chain = [(0, 1), (1, 2), (2, 3), (3, 4)];
    check_class_3(6, &chain, &[(0, 5)], &[0, 0, 0, 0, 0, 1]);
}

/// "32 messages, i causes i+1, each stalls itself: 32, message i in 31-i", and
/// the same of 33 and 64 messages.
#[test]
fn case_10() {
    for count in [32, 33, 64] {
        let causes: Vec<(usize, usize)> = (1..count).map(|i| (i - 1, i)).collect();
        let stalls: Vec<(usize, usize)> = (0..count).map(|i| (i, i)).collect();
        let mapping: Vec<usize> = (0..count).rev().collect();
        check_class_3(count, &causes, &stalls, &mapping);
    }
}

#[test]
fn cases_11_to_14() {
    let fit = tabbed(&["vn-judge>1", "fit"]);
    let first = tabbed(&["vn-judge>1", "unfit", "step>Ask>waits>Pass", "step>Pass>queues>Ask"]);
    let second = tabbed(&["vn-judge>1", "unfit", "step>Ask>waits>Give", "step>Give>queues>Ask"]);
    assert_eq!(judged([0, 0, 0, 0]), first);
    assert_eq!(judged([0, 1, 0, 1]), second);
    assert_eq!(judged([5, 9, 9, 9]), fit);
    assert_eq!(judged([1, 0, 0, 0]), fit);
}

#[test]
fn refusals_as_printed() {
    let empty = plan(b"");
    assert_eq!(printed(&empty), b"refused\t3\t0\t1\t0\n");
    assert_eq!(printed(&judge(&bell(), b"")), b"refused\t3\t1\t1\t0\n");
    let unknown = bell_and(&["cell>cache>I>load>go>I>Ask>Ask>Ask>Ask>Ask>Ask>Ask>load"]);
    assert_eq!(printed(&plan(&unknown)), b"refused\t7\t0\t18\t14\n");
    assert_eq!(printed(&judge(&unknown, b"")), b"refused\t7\t0\t18\t14\n");
    let another = tabbed(&["vn-mapping>1", "map>Pass>0"]);
    assert_eq!(printed(&judge(&bell(), &another)), b"refused\t14\t1\t2\t2\n");
    assert_eq!(printed(&plan(&bell())), plan(&bell()).unwrap());
}

// ---------------------------------------------------------------------
// The real protocols
// ---------------------------------------------------------------------

fn protocols_folder() -> PathBuf {
    PathBuf::from(std::env::var("PROTOCOLS").unwrap_or("examples".to_string()))
}

/// Paths in the folder that end so, with the path before that ending.
fn files_ending(folder: &Path, ending: &str) -> Vec<(String, PathBuf)> {
    let mut found = Vec::new();
    for entry in fs::read_dir(folder).expect("the folder of protocols; set PROTOCOLS") {
        let path = entry.unwrap().path();
        let name = path.to_str().unwrap().to_string();
        if let Some(stem) = name.strip_suffix(ending) {
            found.push((stem.to_string(), path.clone()));
        }
    }
    assert!(!found.is_empty(), "no file ends in {}", ending);
    found
}

#[test]
fn real_plans() {
    for (stem, path) in files_ending(&protocols_folder(), ".plan") {
        let text = fs::read(format!("{}.tsv", stem)).unwrap();
        assert_eq!(printed(&plan(&text)), fs::read(&path).unwrap(), "{}", stem);
    }
}

#[test]
fn real_judgements() {
    for (stem, path) in files_ending(&protocols_folder(), ".judge") {
        let (protocol_stem, _) = stem.rsplit_once('.').unwrap();
        let protocol = fs::read(format!("{}.tsv", protocol_stem)).unwrap();
        let mapping = fs::read(format!("{}.mapping.tsv", stem)).unwrap();
        assert_eq!(printed(&judge(&protocol, &mapping)), fs::read(&path).unwrap(), "{}", stem);
    }
}

// ---------------------------------------------------------------------
// Random relations
// ---------------------------------------------------------------------

/// The fast variant, first form.
fn fast(n: u64, causes: &[u8], stalls: &[u8], room: usize) -> Answer {
    fast_by(relations_fast, n, causes, stalls, room)
}

/// The fast variant of a form.
type FastCall = fn(u64, &[u8], &[u8], &mut [u8]) -> Numbers;

/// A fast variant, with bytes around the answer that must stay.
fn fast_by(call: FastCall, n: u64, causes: &[u8], stalls: &[u8], room: usize) -> Answer {
    let mut out = vec![0xA5; room];
    let numbers = call(n, causes, stalls, &mut out);
    let length = numbers.length as usize;
    assert!(out[length..].iter().all(|byte| *byte == 0xA5), "bytes after the length stay");
    out.truncate(length);
    let Numbers { number, length, networks, needed, pairs, joins } = numbers;
    Answer { number, length, networks, needed, pairs, joins, bytes: out }
}

#[test]
fn plain_is_fast() {
    for seed in 0..20_000 {
        let mut random = Random::new(seed);
        let count = random.between(1, 32);
        let call = random::call(FIRST_FORM, &mut random, count);
        let plain = relations(call.n, &call.causes, &call.stalls, call.room);
        let quick = fast(call.n, &call.causes, &call.stalls, call.room);
        assert_eq!(plain, quick, "seed {}", seed);
        assert_eq!(plain.packed(), quick.packed());
    }
}

#[test]
fn every_small_relation() {
    // All pairs of tables of two messages, and all bits at the limit.
    for bits in 0..256u32 {
        let table = |low: u32| {
            let rows = [low & 3, low >> 2 & 3];
            rows.iter().flat_map(|row| row.to_le_bytes()).collect::<Vec<u8>>()
        };
        let (causes, stalls) = (table(bits & 15), table(bits >> 4));
        assert_eq!(relations(2, &causes, &stalls, 2), fast(2, &causes, &stalls, 2));
        let causes = read_table(2, &causes).unwrap();
        let stalls = read_table(2, &stalls).unwrap();
        check_counts(&causes, &stalls, u64::from(bits));
    }
}

/// Least count against brute force; class against the shown cycle.
fn check_counts(causes: &Relation, stalls: &Relation, seed: u64) {
    let waits = waits_of(causes, stalls);
    let least = least_count(&waits);
    assert_eq!(least, least_count_by_brute_force(&waits, stalls), "seed {}", seed);
    let no_queues = Relation::empty(waits.count());
    assert_eq!(least.is_none(), shown_cycle(&waits, &no_queues).is_some(), "seed {}", seed);
}

#[test]
fn brute_force_is_least_count() {
    for seed in 0..20_000 {
        let mut random = Random::new(seed);
        let count = random.between(1, 5);
        let tables = random::tables(FIRST_FORM, &mut random, count);
        let causes = read_table(count, &tables.causes).unwrap();
        let stalls = read_table(count, &tables.stalls).unwrap();
        check_counts(&causes, &stalls, seed);
    }
}

/// A closed walk as the paper wants it: real steps, right words, waits first.
fn check_walk(steps: &[Step], waits: &Relation, queues: &Relation) {
    assert_eq!(steps[0].word, Word::Waits);
    for (place, step) in steps.iter().enumerate() {
        assert_eq!(step.to, steps[(place + 1) % steps.len()].from);
        match step.word {
            Word::Waits => assert!(waits.has(step.from, step.to)),
            Word::Queues => {
                assert!(queues.has(step.from, step.to) && !waits.has(step.from, step.to))
            }
        }
    }
}

#[test]
fn rule_6_is_rule_7() {
    let (mut fit, mut unfit) = (0, 0);
    for seed in 0..10_000 {
        let mut random = Random::new(seed);
        let count = random.between(1, if seed % 8 == 0 { 64 } else { 32 });
        let (causes, stalls) = forms::random_relations(&mut random, count);
        let waits = waits_of(&causes, &stalls);
        let mapping = random::mapping(&mut random, count);
        let queues = queues_of(&stalls, &mapping);
        let by_walks = unfit_by_walks(&waits, &queues);
        assert_eq!(by_walks, unfit_by_networks(&waits, &mapping), "seed {}", seed);
        match verdict_of(&waits, &stalls, &mapping) {
            Verdict::Fit => fit += 1,
            Verdict::Unfit { steps } => {
                check_walk(&steps, &waits, &queues);
                unfit += 1;
            }
        }
    }
    assert!(fit > 500 && unfit > 500, "fit {} unfit {}", fit, unfit);
}

/// All closed walks of a length from a start, by trying every step.
fn all_closed_walks(steps: &Relation, walk: &mut Vec<Message>, length: usize) -> Vec<Vec<Message>> {
    let here = walk[walk.len() - 1];
    if walk.len() == length {
        let closed = steps.has(here, walk[0]);
        return if closed { vec![walk.clone()] } else { Vec::new() };
    }
    let mut found = Vec::new();
    for next in steps.messages() {
        if steps.has(here, next) {
            walk.push(next);
            found.extend(all_closed_walks(steps, walk, length));
            walk.pop();
        }
    }
    found
}

/// The shown cycle by the words of the paper: all walks, then the first.
fn shown_by_brute_force(waits: &Relation, queues: &Relation) -> Option<Vec<Message>> {
    let steps = waits.or(queues);
    for length in 1..=waits.count() {
        let mut walks = Vec::new();
        for start in waits.messages() {
            walks.extend(all_closed_walks(&steps, &mut vec![start], length));
        }
        walks.retain(|walk| waits.has(walk[0], walk[1 % length]));
        walks.sort();
        if let Some(first) = walks.first() {
            return Some(first.clone());
        }
    }
    None
}

#[test]
fn shown_cycles_by_brute_force() {
    for seed in 0..5_000 {
        let mut random = Random::new(seed);
        let count = random.between(1, 6);
        let tables = random::tables(FIRST_FORM, &mut random, count);
        let stalls = read_table(count, &tables.stalls).unwrap();
        let waits = waits_of(&read_table(count, &tables.causes).unwrap(), &stalls);
        let mapping = random::mapping(&mut random, count);
        for queues in [Relation::empty(count), queues_of(&stalls, &mapping)] {
            let right = shown_by_brute_force(&waits, &queues);
            assert_eq!(shown_cycle(&waits, &queues), right, "seed {}", seed);
        }
    }
}

#[test]
fn relations_refusals() {
    let table = |count: usize| vec![0u8; 4 * count];
    let numbers = |n: u64, causes: &[u8], stalls: &[u8], room: usize| {
        assert_eq!(relations(n, causes, stalls, room), fast(n, causes, stalls, room));
        let answer = relations(n, causes, stalls, room);
        assert!(answer.number == 0 || answer.joins == 0, "no joins with a refusal");
        (answer.number, answer.needed)
    };
    assert_eq!(numbers(0, &[], &[], 9), (COUNT, 0));
    assert_eq!(numbers(33, &table(33), &table(33), 99), (COUNT, 0));
    assert_eq!(numbers(32, &table(32), &table(32), 32), (0, 0));
    assert_eq!(numbers(32, &table(32), &table(32), 31), (ROOM, 32));
    assert_eq!(numbers(2, &table(3), &table(2), 9), (COUNT, 0));
    assert_eq!(numbers(2, &table(2), &table(1), 9), (COUNT, 0));
    assert_eq!(numbers(1 << 32, &[], &[], 9), (COUNT, 0));
    // Bit 1 of row 0 is right for 2 messages and stray for 1.
    assert_eq!(numbers(1, &[2, 0, 0, 0], &table(1), 0), (STRAY, 0));
    assert_eq!(numbers(1, &table(1), &[0, 0, 0, 128], 0), (STRAY, 0));
    assert_eq!(numbers(2, &[2, 0, 0, 0, 0, 0, 0, 0], &table(2), 2), (0, 0));
    // Class 2 with a cycle of 1 still needs room for n.
    assert_eq!(numbers(2, &[1, 0, 0, 0, 0, 0, 0, 0], &[1, 0, 0, 0, 0, 0, 0, 0], 1), (ROOM, 2));
}

#[test]
fn packed_numbers() {
    let full = vec![0xFF; 128];
    let answer = relations(32, &full, &full, 32);
    assert_eq!(answer.packed(), (1024 << 48) + (1024 << 32) + (1 << 8));
    let answer = relations(3, &[0; 12], &[0; 12], 3);
    assert_eq!(answer.packed(), (1 << 16) + (3 << 8));
    assert_eq!(relations(3, &[0; 12], &[0; 12], 2).packed(), (3 << 24) + 16);
    // Joins there would be, but for a refusal.
    assert_eq!(relations(32, &full, &full, 31).packed(), (32 << 24) + 16);
    let length = plan(&bell()).unwrap().len();
    assert_eq!(plan_with_room(&bell(), length).packed(), (length as u64) << 32);
    let short = plan_with_room(&bell(), length - 1);
    assert_eq!(short.packed(), ((length as u64) << 32) + 16);
    assert_eq!((short.length, short.needed, short.bytes.len()), (0, length as u64, 0));
    let refused = judge_with_room(&bell(), b"x", 0);
    assert_eq!(refused.packed(), (1 << 16) + (1 << 8) + 2);
    let refused = plan_with_room(&bell_and(&["cell>dir>Free>load>go>Free"]), 0);
    assert_eq!(refused.packed(), (4 << 48) + (18 << 16) + 7);
    let refused = judge_with_room(&bell(), b"vn-mapping\t1\nmap\tAsk\t32\n", 99);
    assert_eq!(refused.packed(), (3 << 48) + (2 << 16) + (1 << 8) + 15);
}

// ---------------------------------------------------------------------
// Random texts
// ---------------------------------------------------------------------

#[test]
fn random_texts_and_damage() {
    let mut seen = [0usize; 19];
    let mut judged_fit = [0usize; 2];
    for seed in 0..10_000 {
        let mut random = Random::new(seed);
        let mut protocol = random::protocol_text(&mut random);
        let mut mapping = random::mapping_text(&mut random, &protocol);
        if seed % 2 == 1 {
            protocol = random::damage(&mut random, &protocol);
        }
        if seed % 3 == 1 {
            mapping = random::damage(&mut random, &mapping);
        }
        match plan(&protocol) {
            Ok(_) => seen[0] += 1,
            Err(no) => seen[no.number as usize] += 1,
        }
        match judge(&protocol, &mapping) {
            Ok(listing) => judged_fit[usize::from(listing.ends_with(b"\nfit\n"))] += 1,
            Err(no) if no.paper == 1 => seen[no.number as usize] += 1,
            Err(_) => {}
        }
    }
    // Every answer and every refusal of texts turns up, none too rarely.
    assert!(seen[0] > 3_000, "{:?}", seen);
    assert!(seen[1..=15].iter().all(|times| *times >= 5), "{:?}", seen);
    assert!(judged_fit.iter().all(|times| *times > 100), "{:?}", judged_fit);
    println!("accepted and refused {:?}, unfit and fit {:?}", seen, judged_fit);
}
