//! Which field a refusal tells (C-14).

use super::*;
use std::collections::BTreeMap;

/// Number and field of a result; accepted is (0, 0).
fn told<T>(result: Result<T, Refusal>) -> (u64, u64) {
    result.map_or_else(|refused| (refused.number, refused.field), |_| (0, 0))
}

/// Of Bell and one line more.
fn after_bell(line: &str) -> (u64, u64) {
    told(plan(&bell_and(&[line])))
}

/// Of the first lines of Bell and one line more: 5 have the messages, 6 the event
/// too, 11 all that is declared.
fn after(first: usize, line: &str) -> (u64, u64) {
    told(plan(&tabbed(&[&BELL[..first], &[line]].concat())))
}

/// Of Bell and a mapping with these lines after its header.
fn of_mapping(header: usize, lines: &[&str]) -> (u64, u64) {
    let first = format!("vn-mapping>{}", header);
    told(judge(&bell(), &tabbed(&[&[first.as_str()], lines].concat())))
}

fn each(number: u64, field: u64, lines: &[&str]) {
    for line in lines {
        assert_eq!(after_bell(line), (number, field), "{}", line);
    }
}

// ---------------------------------------------------------------------
// SHAPE
// ---------------------------------------------------------------------

/// An unknown record is field 1, whatever follows it.
#[test]
fn unknown_records() {
    each(SHAPE, 1, &[
        "", ">", ">>>>", ">Ask>req", "x", "x>x", "Message>a>req", "MESSAGE>a>req", "messages>a>req", "messag>a>req",
        "message >a>req", " message>a>req", "message\r", "events>a", "State>dir>a>stable", "cells>cache>I>load>go>I",
        "cel>cache>I>load>stall", "map>Ask>0", "vn-protocol>1", "vn-mapping>1", "refused>4>0>2>1", "Cell>x>y>z>w",
        "stall", "go>I", "cache>I>load>go>I", "cell,cache,I,load,go,I", "cell cache I load go I", ">cell>cache>I>load>go>I",
    ]);
}

#[test]
fn shape_of_a_message() {
    each(SHAPE, 3, &[
        "message>a>Req", "message>a>", "message>a>reqs", "message>a>stall", "message>>", "message>?>fw",
        // The count is wrong too.
        "message>a>Req>", "message>a>>", "message>a>x>req", "message>a>x>x>x>x",
    ]);
    // The type is missing, or the words are right.
    each(SHAPE, 0, &["message", "message>", "message>a", "message>?", "message>a>req>", "message>?>req>x>y", "message>a>ctl>req"]);
}

#[test]
fn shape_of_an_event() {
    each(SHAPE, 0, &["event", "event>a>", "event>a>b", "event>?>?", "event>>>>>>"]);
}

#[test]
fn shape_of_a_state() {
    each(SHAPE, 2, &[
        "state>core>a>stable", "state>>a>stable", "state>Dir>?>stable", "state>core>a>steady", "state>>>", "state>stable>a>dir",
        // The count is wrong too.
        "state>core", "state>", "state>core>a", "state>core>a>stable>", "state>core>a>steady>>>",
    ]);
    each(SHAPE, 4, &[
        "state>dir>a>steady", "state>cache>a>", "state>cache>?>Stable", "state>dir>>dir",
        "state>dir>a>steady>", "state>cache>a>>stable", "state>dir>a>steady>>>>",
    ]);
    each(SHAPE, 0, &["state", "state>cache", "state>dir>a", "state>dir>", "state>dir>a>stable>", "state>cache>?>transient>x"]);
}

#[test]
fn shape_of_a_cell() {
    each(SHAPE, 2, &[
        "cell>cach>I>load>go>I", "cell>>I>load>stall", "cell>core>I>load>gone>I", "cell>Cache>X>Y>go>Z>W", "cell>>>>",
        // The count is wrong too.
        "cell>", "cell>x", "cell>x>I>load", "cell>x>I>load>go", "cell>x>I>load>stall>I", "cell>x>a>a>go>a>a>a>a>a>a>a>a>a>a",
    ]);
    each(SHAPE, 5, &[
        "cell>cache>I>load>Go>I", "cell>cache>I>load>", "cell>dir>Nowhere>Ask>stalls", "cell>dir>X>Y>>", "cell>cache>I>load>cache>I",
        "cell>cache>I>load>x", "cell>cache>I>load>x>I>a>a>a>a>a>a>a>a>a", "cell>cache>I>load>I>go",
    ]);
    // "only the count is wrong": short, a `stall` with more, a `go` alone, nine sent.
    each(SHAPE, 0, &[
        "cell", "cell>dir", "cell>cache>I", "cell>cache>X", "cell>cache>I>load", "cell>cache>>", "cell>cache>I>load>go",
        "cell>cache>ID>Ask>stall>", "cell>cache>ID>Ask>stall>ID", "cell>dir>X>Y>stall>go", "cell>cache>I>load>go>I>a>a>a>a>a>a>a>a>a",
        "cell>cache>I>load>go>I>Ask>Ask>Ask>Ask>Ask>Ask>Ask>Ask>", "cell>cache>I>load>go>X>>>>>>>>>>>>>>>>",
    ]);
}

/// A line that is right in shape, the places of its fixed words, and the counts of
/// fields that it may have.
const SHAPES: [(&str, &[usize], std::ops::RangeInclusive<usize>); 5] = [
    ("message>n>req", &[1, 3], 3..=3),
    ("event>n", &[1], 2..=2),
    ("state>dir>n>stable", &[1, 2, 4], 4..=4),
    ("cell>dir>s>t>stall", &[1, 2, 5], 5..=5),
    ("cell>cache>s>t>go>s", &[1, 2, 5], 6..=14),
];

/// Every choice of wrong words, with every count up to 16.
#[test]
fn every_wrong_word_and_count() {
    for (right, words, counts) in SHAPES {
        for choice in 0..1 << words.len() {
            let wrong: Vec<usize> = (0..words.len()).filter(|i| choice >> i & 1 == 1).map(|i| words[i]).collect();
            for count in 1..=16 {
                let mut fields: Vec<&str> = right.split('>').collect();
                fields.resize(16, "n");
                wrong.iter().for_each(|field| fields[field - 1] = "?");
                let line = fields[..count].join(">");
                let first = wrong.iter().find(|field| **field <= count);
                let (number, field) = after_bell(&line);
                if first.is_some() || !counts.contains(&count) {
                    assert_eq!((number, field), (SHAPE, first.map_or(0, |field| *field as u64)), "{}", line);
                } else {
                    assert_ne!(number, SHAPE, "{}", line);
                }
            }
        }
    }
}

// ---------------------------------------------------------------------
// NAME and TWICE
// ---------------------------------------------------------------------

#[test]
fn declared_names() {
    let long = "n".repeat(25);
    for name in ["", "?", "a b", "a\r", &long] {
        assert_eq!(after(5, &format!("message>{}>req", name)), (NAME, 2), "{}", name);
        assert_eq!(after(6, &format!("event>{}", name)), (NAME, 2), "{}", name);
        assert_eq!(after(11, &format!("state>cache>{}>stable", name)), (NAME, 3), "{}", name);
        assert_eq!(after(11, &format!("state>dir>{}>transient", name)), (NAME, 3), "{}", name);
        // SHAPE comes first, with its own field.
        assert_eq!(after(5, &format!("message>{}>ask", name)), (SHAPE, 3), "{}", name);
        assert_eq!(after(5, &format!("message>{}>req>", name)), (SHAPE, 0), "{}", name);
        assert_eq!(after(6, &format!("event>{}>", name)), (SHAPE, 0), "{}", name);
        assert_eq!(after(11, &format!("state>core>{}>stable", name)), (SHAPE, 2), "{}", name);
        assert_eq!(after(11, &format!("state>dir>{}>x", name)), (SHAPE, 4), "{}", name);
        // And so does ORDER.
        assert_eq!(after(11, &format!("message>{}>req", name)), (ORDER, 0), "{}", name);
        assert_eq!(after(17, &format!("state>dir>{}>stable", name)), (ORDER, 0), "{}", name);
    }
}

#[test]
fn names_declared_twice() {
    for name in ["Ask", "Pass", "Give", "Done"] {
        assert_eq!(after(5, &format!("message>{}>ctl", name)), (TWICE, 2), "{}", name);
        assert_eq!(after(5, &format!("event>{}", name)), (TWICE, 2), "{}", name);
        assert_eq!(after(11, &format!("state>dir>{}>stable", name)), (0, 0), "{}", name);
    }
    assert_eq!(after(6, "event>load"), (TWICE, 2));
    for name in ["I", "ID", "V"] {
        assert_eq!(after(11, &format!("state>cache>{}>stable", name)), (TWICE, 3), "{}", name);
        assert_eq!(after(11, &format!("state>dir>{}>stable", name)), (0, 0), "{}", name);
    }
    assert_eq!(after(11, "state>dir>Wait>stable"), (TWICE, 3));
}

// ---------------------------------------------------------------------
// UNKNOWN
// ---------------------------------------------------------------------

/// A `go` cell with eight messages sent, and the names in it: state, trigger, next,
/// sent.
const LONGEST: &str = "cell>cache>I>load>go>ID>Ask>Pass>Give>Done>Ask>Pass>Give>Done";
const LONGEST_OF_DIR: &str = "cell>dir>Free>Ask>go>Wait>Ask>Pass>Give>Done>Ask>Pass>Give>Done";
const NAMES: [usize; 11] = [3, 4, 6, 7, 8, 9, 10, 11, 12, 13, 14];

/// The line with another word at a field.
fn with_word(line: &str, field: usize, word: &str) -> String {
    let mut fields: Vec<&str> = line.split('>').collect();
    fields[field - 1] = word;
    fields.join(">")
}

/// Each name of a cell, alone: not declared, and a name of another kind.
#[test]
fn one_unknown_name() {
    for line in [LONGEST, LONGEST_OF_DIR] {
        assert_eq!(after_bell(line), (0, 0));
        for field in NAMES {
            for word in ["", "X", "asks", "ask", "?", "cache", "stall"] {
                let changed = with_word(line, field, word);
                assert_eq!(after_bell(&changed), (UNKNOWN, field as u64), "{}", changed);
            }
        }
        // A state as trigger and as sent, a message as state and as next.
        for (field, word) in [(3, "Ask"), (4, "ID"), (4, "Free"), (6, "Ask"), (6, "load"), (7, "I"), (14, "Free")] {
            let changed = with_word(line, field, word);
            assert_eq!(after_bell(&changed), (UNKNOWN, field as u64), "{}", changed);
        }
    }
    assert_eq!(after_bell("cell>cache>X>Ask>stall"), (UNKNOWN, 3));
    assert_eq!(after_bell("cell>cache>ID>X>stall"), (UNKNOWN, 4));
    assert_eq!(after_bell("cell>cache>X>Y>stall"), (UNKNOWN, 3));
}

/// "or not allowed there"
#[test]
fn names_not_allowed_there() {
    // An event triggers on `cache` alone, and is never sent.
    each(UNKNOWN, 4, &["cell>dir>Free>load>go>Free", "cell>dir>Wait>load>stall", "cell>dir>Free>load>go>X>load"]);
    for field in 7..=14 {
        for line in [LONGEST, LONGEST_OF_DIR] {
            assert_eq!(after_bell(&with_word(line, field, "load")), (UNKNOWN, field as u64));
        }
    }
    // A state of the other controller.
    each(UNKNOWN, 3, &["cell>dir>ID>Ask>go>Free", "cell>cache>Free>load>go>I", "cell>cache>Wait>Ask>stall", "cell>dir>ID>load>go>I"]);
    each(UNKNOWN, 6, &["cell>dir>Free>Ask>go>ID", "cell>cache>I>load>go>Free", "cell>cache>I>load>go>Wait>load"]);
}

/// Every choice of bad names: "the first is told".
#[test]
fn several_unknown_names() {
    for choice in 1..1 << NAMES.len() {
        let mut line = LONGEST.to_string();
        let bad = || NAMES.iter().enumerate().filter(|(place, _)| choice >> place & 1 == 1).map(|(_, field)| *field);
        for field in bad() {
            line = with_word(&line, field, "X");
        }
        assert_eq!(after_bell(&line), (UNKNOWN, bad().next().unwrap() as u64), "{}", line);
    }
}

/// SHAPE comes before UNKNOWN, FULL and the others after it.
#[test]
fn beside_an_unknown_name() {
    assert_eq!(after_bell("cell>core>X>load>go>I"), (SHAPE, 2));
    assert_eq!(after_bell("cell>cache>X>Y>gone>Z"), (SHAPE, 5));
    assert_eq!(after_bell("cell>cache>X>Y>go"), (SHAPE, 0));
    // Stable, and a conflict.
    assert_eq!(after_bell("cell>cache>V>X>stall"), (UNKNOWN, 4));
    assert_eq!(after_bell("cell>dir>Wait>Ask>go>X"), (UNKNOWN, 6));
    let full = limits::protocol_text(&limits::Counts { bytes: 45_000, ..limits::MOST });
    let one_more = |line: &str| told(plan(&[&full, &tabbed(&[line])[..]].concat()));
    let message = limits::message_name(Message(0));
    assert_eq!(one_more(&format!("cell>cache>s0>{}>go>s0>{}>X", message, message)), (UNKNOWN, 8));
    assert_eq!(one_more(&format!("cell>cache>s0>{}>go>s0>{}", message, message)), (FULL, 0));
}

// ---------------------------------------------------------------------
// Mappings
// ---------------------------------------------------------------------

const MAPPED: [&str; 4] = ["map>Ask>0", "map>Pass>0", "map>Give>0", "map>Done>0"];

/// The right lines, but for one.
fn with_map_line(header: usize, place: usize, line: &str) -> (u64, u64) {
    let mut lines = MAPPED;
    lines[place] = line;
    of_mapping(header, &lines)
}

#[test]
fn fields_of_mappings() {
    for header in [1, 2] {
        assert_eq!(of_mapping(header, &MAPPED), (0, 0));
        for place in 0..4 {
            let right = MAPPED[place].trim_end_matches('0');
            for line in ["", ">", "Map>Ask>0", "maps>Ask>0", ">Ask>0", "message>Ask>req", "Map", "Map>Ask", "Map>X>99>", "map\r>Ask>0"] {
                assert_eq!(with_map_line(header, place, line), (SHAPE, 1), "{}", line);
            }
            for line in ["map", "map>Ask", "map>", "map>X", "map>Ask>0>", "map>X>99>x", "map>>>>>>"] {
                assert_eq!(with_map_line(header, place, line), (SHAPE, 0), "{}", line);
            }
            for line in ["map>X>0", "map>>0", "map>X>99", "map>ask>0", "map>load>0", "map>Aske>", "map>As>x"] {
                assert_eq!(with_map_line(header, place, line), (UNMATCHED, 2), "{}", line);
            }
            // Another message of the protocol.
            assert_eq!(with_map_line(header, place, MAPPED[(place + 1) % 4]), (UNMATCHED, 2));
            for network in ["", "x", "00", "01", "+1", "64", "99", "0 ", "0\r"] {
                let line = format!("{}{}", right, network);
                assert_eq!(with_map_line(header, place, &line), (NETWORK, 3), "{}", line);
            }
        }
    }
    assert_eq!(with_map_line(1, 0, "map>Ask>32"), (NETWORK, 3));
    assert_eq!(with_map_line(2, 0, "map>Ask>32"), (0, 0));
}

/// "UNMATCHED by another name" alone tells its field.
#[test]
fn too_few_and_too_many_map_lines() {
    for header in [1, 2] {
        for lines in 0..4 {
            assert_eq!(of_mapping(header, &MAPPED[..lines]), (UNMATCHED, 0), "{}", lines);
        }
        for more in ["map>Done>0", "map>Ask>0", "map>X>0", "map>>", "map>X>99"] {
            assert_eq!(of_mapping(header, &[&MAPPED[..], &[more]].concat()), (UNMATCHED, 0), "{}", more);
        }
        // One too many, which has a wrong word, or another count.
        assert_eq!(of_mapping(header, &[&MAPPED[..], &["Map>Done>0"]].concat()), (SHAPE, 1));
        assert_eq!(of_mapping(header, &[&MAPPED[..], &[""]].concat()), (SHAPE, 1));
        assert_eq!(of_mapping(header, &[&MAPPED[..], &["map>Done"]].concat()), (SHAPE, 0));
        // The first bad line is told.
        assert_eq!(of_mapping(header, &["map>Ask>99", "Map>Pass>0"]), (NETWORK, 3));
        assert_eq!(of_mapping(header, &["map>Ask>0", "map>Give>0", "map>Pass>99"]), (UNMATCHED, 2));
    }
    // A line too many for its header.
    for (header, most) in [(1, 32), (2, 64)] {
        let long = |count| limits::mapping_under(header, &networks(&vec![0; count]));
        assert_eq!(told(judge(&limits::full(), &long(most))), if most == 64 { (0, 0) } else { (UNMATCHED, 0) });
        assert_eq!(told(judge(&limits::full(), &long(most + 1))), (FULL, 0));
    }
}

// ---------------------------------------------------------------------
// All others
// ---------------------------------------------------------------------

/// "every other refusal tells 0"
#[test]
fn whole_lines_and_texts() {
    assert_eq!(told(plan(&[10; 49_153])), (TOO_BIG, 0));
    assert_eq!(told(plan(b"vn-protocol\t1\nmessage\tA\tx")), (NO_END, 0));
    for text in ["", "\n", "x\n", "vn-protocol\t2\n", "vn-protocols\t1\n", "vn-protocol\t1\t\n"] {
        assert_eq!(told(plan(text.as_bytes())), (HEADER, 0), "{}", text);
    }
    each(ORDER, 0, &["message>New>req", "message>?>req", "event>load", "state>dir>Wait>stable", "state>dir>>stable"]);
    for past in limits::one_more_of_each() {
        assert_eq!(told(plan(&past.text)), (past.number, 0), "{}", past.limit);
    }
    each(STALL_STABLE, 0, &["cell>cache>V>Give>stall", "cell>dir>Free>Ask>stall"]);
    each(CONFLICT, 0, &["cell>dir>Wait>Ask>stall", "cell>dir>Wait>Ask>go>Free"]);
    assert_eq!(told(plan(b"vn-protocol\t1\n")), (NO_MESSAGE, 0));
    let entered = ["vn-protocol>1", "message>a>req", "state>dir>T>transient", "cell>dir>T>a>stall"];
    assert_eq!(told(plan(&tabbed(&entered))), (NO_ENTRY, 0));
    for mapping in [&b""[..], b"vn-mapping\t3\n", b"vn-mapping\t1\tx\n"] {
        assert_eq!(told(judge(&bell(), mapping)), (HEADER, 0));
    }
    assert_eq!(told(judge(&bell(), b"vn-mapping\t1\nMap")), (NO_END, 0));
    assert_eq!(told(judge(&bell(), &[10; 49_153])), (TOO_BIG, 0));
    let short = plan_with_room(&bell(), 0);
    assert_eq!((short.number, short.field), (ROOM, 0));
}

// ---------------------------------------------------------------------
// Random texts
// ---------------------------------------------------------------------

/// Lines with several bad fields: each field is told often enough to be tried, and
/// is one of its line. Numbers and lines are those of the text cut behind that line.
#[test]
fn damaged_lines() {
    let mut seen = BTreeMap::new();
    for seed in 0..20_000 {
        let mut random = Random::new(seed);
        let mut protocol = random::small_protocol_text(&mut random);
        let mut mapping = random::mapping_text(&mut random, &protocol);
        if seed % 4 == 0 {
            mapping = random::damage_a_line(&mut random, &mapping);
        } else {
            protocol = random::damage_a_line(&mut random, &protocol);
        }
        let refused = match judge(&protocol, &mapping) {
            Ok(_) => continue,
            Err(refused) => refused,
        };
        *seen.entry((refused.paper, refused.number, refused.field)).or_insert(0) += 1;
        if refused.field == 0 {
            continue;
        }
        let text = if refused.paper == 0 { &protocol } else { &mapping };
        let lines: Vec<&[u8]> = text.split_inclusive(|byte| *byte == 10).take(refused.line as usize).collect();
        let fields = lines[lines.len() - 1].split(|byte| *byte == 9).count() as u64;
        assert!(refused.field <= fields, "seed {}", seed);
        let cut = lines.concat();
        let again = if refused.paper == 0 { plan(&cut) } else { judge(&protocol, &cut) };
        assert_eq!(again, Err(refused), "seed {}", seed);
    }
    for (paper, number, field) in limits::all_refusals() {
        if field > 0 {
            let times = seen.get(&(paper, number, field)).copied().unwrap_or(0);
            assert!(times >= 20, "{} {} {}: {} times", number, paper, field, times);
        }
    }
}
