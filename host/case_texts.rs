//! The chosen items of host/cases.rs: each refusal on both sides of its limit,
//! and what stands close to it. Refusal numbers in the comments are those of
//! the paper.
//!
//! The items of this file are those from before request C-15, when there were at
//! most 32 messages. They stay as they are, so that their lines show what that
//! request changed. host/case_texts/sixty_four.rs has those of the new limits,
//! host/case_texts/taken_states.rs those of the mended rule 3 (C-12), and
//! host/case_texts/told_fields.rs those of bad fields (C-14). New items stand at
//! the end.

mod sixty_four;
mod taken_states;
mod told_fields;

use crate::limits;
use crate::random::{self, Random};
use crate::second::{Message, Network};
use crate::Item;

pub fn all() -> Vec<Item> {
    let mut items = Vec::new();
    items.extend(protocols(openings()));
    items.extend(protocols(long_texts()));
    items.extend(protocols(changed_lines()));
    items.extend(protocols(names()));
    items.extend(protocols(counts()));
    items.extend(protocols(two_faults()));
    items.extend(protocols(cells()));
    items.extend(protocols(entries()));
    items.extend(mappings());
    items.extend(networks());
    items.extend(examples());
    items.extend(a_few_random());
    items.extend(sixty_four::all());
    items.extend(taken_states::all());
    items.extend(told_fields::all());
    items
}

fn protocols(texts: Vec<Vec<u8>>) -> Vec<Item> {
    texts.into_iter().map(Item::Protocol).collect()
}

// ---------------------------------------------------------------------
// Building texts
// ---------------------------------------------------------------------

const HEADER: &str = "vn-protocol\t1";

/// A small protocol with all that a line can be. It is accepted.
const SMALL: [&str; 12] = [
    HEADER,
    "message\tA\treq",
    "message\tB\tfwd",
    "event\te",
    "state\tcache\tI\tstable",
    "state\tcache\tT\ttransient",
    "state\tdir\tI\tstable",
    "state\tdir\tW\ttransient",
    "cell\tcache\tI\te\tgo\tT\tA",
    "cell\tcache\tT\tB\tgo\tI",
    "cell\tdir\tI\tA\tgo\tW\tB\tB",
    "cell\tdir\tW\tA\tstall",
];

fn text_of(lines: &[String]) -> Vec<u8> {
    lines.iter().flat_map(|line| [line.as_bytes(), b"\n"].concat()).collect()
}

fn small() -> Vec<String> {
    SMALL.iter().map(|line| line.to_string()).collect()
}

/// The first lines of the small protocol, and more.
fn small_and(first: usize, more: &[&str]) -> Vec<u8> {
    let lines = SMALL[..first].iter().chain(more);
    text_of(&lines.map(|line| line.to_string()).collect::<Vec<_>>())
}

/// The declarations of the small protocol, and these cells.
fn with_cells(cells: &[&str]) -> Vec<u8> {
    small_and(8, cells)
}

/// The header and these lines.
fn after_header(lines: &[&str]) -> Vec<u8> {
    small_and(1, lines)
}

// ---------------------------------------------------------------------
// Refusals 1 to 3
// ---------------------------------------------------------------------

fn openings() -> Vec<Vec<u8>> {
    let whole = text_of(&small());
    let mut texts: Vec<Vec<u8>> = [
        "", "\n", "\n\n", "x", "x\n", "x\ny", "vn-protocol\t1", "vn-protocol\t1\n", "\nvn-protocol\t1\n",
        "vn-protocol\t1\r\n", "vn-protocol\t1\t\n", "vn-protocol\t1 \n", "vn-protocol 1\n",
        "vn-protocol\t\t1\n", "vn-protocol\n", "vn-protocol\t\n", "vn-protocol\t2\n",
        "vn-protocol\t10\n", "vn-protocol\t01\n", "VN-protocol\t1\n", "vn-mapping\t1\n",
        "vn-protoco\t1\n", "vn-protocols\t1\n", "\u{feff}vn-protocol\t1\n", "\0", "\0\n",
        "vn-protocol\t1\nmessage\tA\treq", "vn-protocol\t1\nmessage\tA\treq\n\n",
        "vn-protocol\t1\nmessage\tA\treq\n", "vn-protocol\t1\nmessage\tA\treq\n\nx", "x\n\n\ny\r",
    ]
    .iter()
    .map(|text| text.as_bytes().to_vec())
    .collect();
    texts.push(whole.clone());
    // Cut after each byte of the first two lines, and before the last.
    for end in 1..32 {
        texts.push(whole[..end].to_vec());
    }
    texts.push(whole[..whole.len() - 1].to_vec());
    texts.push([whole.as_slice(), b"cell"].concat());
    texts.push([whole.as_slice(), b"\n"].concat());
    texts.push([whole.as_slice(), b"\r"].concat());
    texts
}

/// 49,152 bytes, accepted and not ended; 49,153 bytes, ended and not.
fn long_texts() -> Vec<Vec<u8>> {
    let full = limits::full_of(32);
    let mut not_ended = full.clone();
    not_ended.pop();
    not_ended.push(b'x');
    let longer = [full.as_slice(), b"\n"].concat();
    let longer_not_ended = vec![b'x'; longer.len()];
    vec![full, not_ended, longer, longer_not_ended]
}

// ---------------------------------------------------------------------
// Refusals 4 and 5
// ---------------------------------------------------------------------

/// Each field and each line of the small protocol changed.
fn changed_lines() -> Vec<Vec<u8>> {
    let lines = small();
    let mut texts = Vec::new();
    for place in 1..lines.len() {
        for changed in changed_line(&lines[place]) {
            let mut more = lines.clone();
            more[place] = changed;
            texts.push(text_of(&more));
        }
        // Dropped, doubled, before each other line, and in its stead.
        let mut fewer = lines.clone();
        fewer.remove(place);
        texts.push(text_of(&fewer));
        for other in 1..=lines.len() {
            let mut more = lines.clone();
            more.insert(other, lines[place].clone());
            texts.push(text_of(&more));
        }
        for other in place + 1..lines.len() {
            let mut swapped = lines.clone();
            swapped.swap(place, other);
            texts.push(text_of(&swapped));
        }
    }
    texts
}

/// One field shorter, longer, in capitals, empty, dropped, doubled, or made
/// another word.
fn changed_line(line: &str) -> Vec<String> {
    let fields: Vec<&str> = line.split('\t').collect();
    let mut lines = vec![String::new(), format!("{}\t", line), format!("\t{}", line), format!("{}\r", line)];
    for place in 0..fields.len() {
        let field = fields[place];
        let longer = format!("{}x", field);
        let blank = format!("{} ", field);
        let turned = field.to_uppercase();
        let words = [
            &field[..field.len() - 1], &longer, &blank, &turned, "", "stall", "go", "cache", "dir",
            "stable", "transient", "data", "A", "I", "e",
        ];
        for word in words.into_iter().filter(|word| *word != field) {
            let mut changed = fields.clone();
            changed[place] = word;
            lines.push(changed.join("\t"));
        }
        let mut fewer = fields.clone();
        fewer.remove(place);
        lines.push(fewer.join("\t"));
        let mut more = fields.clone();
        more.insert(place, field);
        lines.push(more.join("\t"));
    }
    lines
}

// ---------------------------------------------------------------------
// Refusals 6 and 8
// ---------------------------------------------------------------------

fn names() -> Vec<Vec<u8>> {
    let mut texts = Vec::new();
    // Every byte as a name, and as the last byte of one.
    for byte in 0..=255u8 {
        texts.push([b"vn-protocol\t1\nmessage\t".as_slice(), &[byte], b"\treq\n"].concat());
        texts.push([b"vn-protocol\t1\nmessage\tA\tctl\nevent\tB".as_slice(), &[byte], b"\n"].concat());
        texts.push([b"vn-protocol\t1\nmessage\tA\tfwd\nstate\tdir\t".as_slice(), &[byte], b"B\tstable\n"].concat());
    }
    for length in [0, 1, 2, 23, 24, 25, 26, 48, 255, 256, 257, 1000] {
        let name = "n".repeat(length);
        texts.push(after_header(&[&format!("message\t{}\tdata", name)]));
        texts.push(after_header(&["message\tA\treq", &format!("event\t{}", name)]));
        texts.push(after_header(&["message\tA\treq", &format!("state\tcache\t{}\tstable", name)]));
        // A long name that is only looked up is not declared.
        texts.push(with_cells(&[&format!("cell\tcache\t{}\tA\tgo\tI", name)]));
        texts.push(with_cells(&[&format!("cell\tcache\tI\t{}\tgo\tI", name)]));
        texts.push(with_cells(&[&format!("cell\tcache\tI\tA\tgo\t{}", name)]));
        texts.push(with_cells(&[&format!("cell\tcache\tI\tA\tgo\tI\t{}", name)]));
    }
    // Names that share a start of 24 bytes less one, and one that is a part.
    let (one, other) = (format!("{}a", "n".repeat(23)), format!("{}b", "n".repeat(23)));
    let message = |name: &str| format!("message\t{}\treq", name);
    texts.push(after_header(&[&message(&one), &message(&other)]));
    texts.push(after_header(&[&message(&one), &message(&one)]));
    texts.push(after_header(&[&message(&one), &message(&one[..23])]));
    texts.push(after_header(&[&message(&one[..23]), &message(&one)]));
    texts.push(after_header(&[&message("AB"), &message("A"), &message("ab"), &message("B")]));
    // Two name spaces of states, one of messages and events.
    texts.push(after_header(&[&message("A"), "event\tA"]));
    texts.push(after_header(&[&message("A"), "event\tB", "event\tB"]));
    texts.push(after_header(&[&message("A"), "event\tB", "state\tdir\tA\tstable", "state\tdir\tB\tstable"]));
    texts.push(after_header(&[&message("A"), "state\tdir\tA\tstable", "state\tcache\tA\ttransient"]));
    texts.push(after_header(&[&message("A"), "state\tdir\tA\tstable", "state\tdir\tA\ttransient"]));
    texts.push(after_header(&[&message("A"), "state\tcache\tA\tstable", "state\tcache\tA\tstable"]));
    texts.push(after_header(&[&message("message"), "event\tevent", "state\tdir\tdir\tstable", "cell\tdir\tdir\tmessage\tgo\tdir\tmessage"]));
    texts
}

// ---------------------------------------------------------------------
// Refusal 9
// ---------------------------------------------------------------------

/// Short lines: so many of each, and one line more.
fn counted(messages: usize, events: usize, states: usize, cells: usize, more: &[&str]) -> Vec<u8> {
    let mut lines = vec![HEADER.to_string()];
    lines.extend((0..messages).map(|i| format!("message\tm{}\treq", i)));
    lines.extend((0..events).map(|i| format!("event\te{}", i)));
    lines.extend((0..states).map(|i| format!("state\t{}\ts{}\ttransient", ["cache", "dir"][i % 2], i)));
    lines.extend((0..cells).map(|i| format!("cell\tcache\ts0\tm{}\tgo\ts0", i % messages)));
    lines.extend(more.iter().map(|line| line.to_string()));
    text_of(&lines)
}

fn counts() -> Vec<Vec<u8>> {
    let mut texts = Vec::new();
    for messages in [1, 31, 32, 33, 34] {
        texts.push(counted(messages, 0, 0, 0, &[]));
    }
    for events in [0, 7, 8, 9] {
        texts.push(counted(1, events, 0, 0, &[]));
    }
    for states in [0, 63, 64, 65] {
        texts.push(counted(1, 0, states, 0, &[]));
    }
    for cells in [512, 513] {
        texts.push(counted(1, 0, 1, cells, &[]));
    }
    texts.push(counted(32, 8, 64, 512, &[]));
    // One too many, which has another fault too: 4, 5, 6, 7, 8, 10, 11.
    for line in ["message\tm0\treq", "message\t\treq", "message\tx", "message\tm1\treq", "event\tm0"] {
        texts.push(counted(32, 0, 0, 0, &[line]));
    }
    for line in ["event\te0", "event\tm0", "event\t", "event\tx", "event\tx\tx", "message\tx\treq"] {
        texts.push(counted(1, 8, 0, 0, &[line]));
    }
    for line in ["state\tcache\ts0\tstable", "state\tdir\ts0\tstable", "state\tdir\t\tstable", "event\tx"] {
        texts.push(counted(1, 0, 64, 0, &[line]));
    }
    let last = ["cell\tcache\ts0\tm9\tgo\ts0", "cell\tcache\ts0\tm0\tstall", "cell\tcache\ts1\tm0\tgo\ts0", "state\tdir\tx\tstable"];
    for line in last {
        texts.push(counted(1, 0, 2, 512, &[line]));
    }
    // All 64 states and 32 messages in rows of bits.
    let mut far = vec!["cell\tdir\ts63\tm31\tstall", "cell\tdir\ts1\tm31\tgo\ts63\tm0\tm31\tm30"];
    texts.push(counted(32, 8, 64, 0, &far));
    far.swap(0, 1);
    texts.push(counted(32, 8, 64, 100, &far));
    // 0 to 10 messages sent.
    for sent in 0..=10 {
        texts.push(counted(32, 1, 1, 0, &[&format!("cell\tcache\ts0\te0\tgo\ts0{}", "\tm1".repeat(sent))]));
        let names: Vec<String> = (0..sent).map(|i| format!("\tm{}", 3 * i)).collect();
        texts.push(counted(32, 0, 1, 0, &[&format!("cell\tcache\ts0\tm7\tgo\ts0{}", names.concat())]));
    }
    texts
}

// ---------------------------------------------------------------------
// Two faults: the first bad line, and within it the smallest number
// ---------------------------------------------------------------------

/// Lines that are refused behind the small protocol's declarations, one for
/// each number from 4 to 11 that stands there.
const BAD: [&str; 11] = [
    "cell\tcache\tI\tA\tgone\tI",
    "",
    "state\tdir\tX\tstable",
    "message\tX\treq",
    "event\tX",
    "cell\tcache\tX\tA\tgo\tI",
    "cell\tcache\tI\tA\tgo\tX",
    "cell\tcache\tI\tA\tstall",
    "cell\tdir\tW\tA\tgo\tI",
    "cell\tdir\tW\tA\tstall",
    "cell\tdir\tI\te\tgo\tI",
];

fn two_faults() -> Vec<Vec<u8>> {
    let mut texts = Vec::new();
    for first in BAD {
        for second in BAD {
            texts.push(small_and(12, &[first, second]));
        }
        texts.push(small_and(12, &["cell\tcache\tI\tA\tgo\tI", first]));
    }
    // Two bad fields on a line.
    let lines = [
        "message\t!\tnone", "message\tA", "message\tA\treq\treq", "message\t?\treq", "event\t!\t!", "event\tA",
        "state\tcash\t!\tstable", "state\tcache\t!\tstabel", "state\tcache\t!\tstable", "state\tcache\tI\tfirm",
        "state\tdir\tI\ttransient", "cell\tcash\tX\tX\tgo\tX", "cell\tcache\tX\tX\tgone\tX", "cell\tcache\tX\tX\tstall\tX",
        "cell\tcache\tX\tX\tstall", "cell\tcache\tI\tX\tstall", "cell\tcache\tX\tA\tstall", "cell\tcache\tI\te\tgo\tI\te",
        "cell\tcache\tI\te\tgo\tX\te", "cell\tcache\tI", "cell\tcache", "cell", "cell\tcache\tI\tA", "cell\tcache\tI\tA\tgo",
        "cell\tcache\tI\tA\t", "cell\tcache\tI\tA\t\tI", "cell\tcache\tI\tA\tgo\t", "cell\tcache\tI\tA\tgo\tI\t",
        "cell\tcache\tI\tA\tgo\tI\tA\t", "cell\t\t\t\t", "\t\t\t\t\t", "cell\tdir\tI\te\tstall", "state\t\t\t", "message\t\t", "event\t",
    ];
    for line in lines {
        for first in [1, 3, 4, 8, 12] {
            texts.push(small_and(first, &[line]));
        }
    }
    texts
}

// ---------------------------------------------------------------------
// Refusals 7, 10 and 11
// ---------------------------------------------------------------------

fn cells() -> Vec<Vec<u8>> {
    let mut texts = Vec::new();
    let go = "cell\tcache\tT\tA\tgo\tI";
    let stay = "cell\tcache\tT\tA\tgo\tT\tB";
    let stall = "cell\tcache\tT\tA\tstall";
    let enter = "cell\tcache\tI\tB\tgo\tT";
    // Each pair at one place, and with one line between.
    for first in [go, stay, stall] {
        for second in [go, stay, stall] {
            texts.push(with_cells(&[enter, first, second]));
            texts.push(with_cells(&[first, enter, second]));
        }
    }
    // The same names at another state, trigger or controller.
    texts.push(with_cells(&[enter, stall, "cell\tcache\tT\tB\tgo\tI", "cell\tcache\tT\te\tgo\tI"]));
    texts.push(with_cells(&["cell\tcache\tI\tA\tgo\tT", "cell\tcache\tT\tA\tstall", "cell\tdir\tI\tA\tgo\tI"]));
    texts.push(small_and(7, &["state\tdir\tT\ttransient", enter, stall, "cell\tdir\tT\tA\tgo\tI", "cell\tdir\tI\tB\tgo\tT"]));
    texts.push(small_and(7, &["state\tdir\tT\ttransient", enter, stall, "cell\tdir\tT\tA\tstall", "cell\tdir\tI\tB\tgo\tT"]));
    // An event and a message of one number are two triggers.
    texts.push(with_cells(&[enter, "cell\tcache\tT\te\tstall", go]));
    texts.push(with_cells(&[enter, "cell\tcache\tT\te\tgo\tI", stall]));
    texts.push(with_cells(&[enter, "cell\tcache\tT\te\tstall", "cell\tcache\tT\te\tgo\tI"]));
    texts.push(with_cells(&[enter, "cell\tcache\tT\te\tgo\tI", "cell\tcache\tT\te\tstall"]));
    texts.push(with_cells(&[enter, "cell\tcache\tT\te\tstall", "cell\tcache\tT\te\tstall"]));
    // A stall in a stable state, also where there is a clash.
    texts.push(with_cells(&["cell\tcache\tI\tA\tstall"]));
    texts.push(with_cells(&["cell\tcache\tI\te\tstall"]));
    texts.push(with_cells(&["cell\tdir\tI\tA\tstall"]));
    texts.push(with_cells(&["cell\tcache\tI\tA\tgo\tI", "cell\tcache\tI\tA\tstall"]));
    // What may stand where: an event on `dir`, an event sent, a state of the
    // other controller, a state for a message and the other way round.
    let lines = [
        "cell\tdir\tI\te\tgo\tI", "cell\tdir\tW\te\tstall", "cell\tcache\tI\tA\tgo\tI\te", "cell\tcache\tI\te\tgo\tI\te",
        "cell\tcache\tW\tA\tgo\tI", "cell\tdir\tT\tA\tgo\tI", "cell\tcache\tI\tA\tgo\tW", "cell\tdir\tI\tA\tgo\tT",
        "cell\tcache\tW\tA\tstall", "cell\tdir\tT\tA\tstall", "cell\tcache\tA\tA\tgo\tI", "cell\tcache\tI\tI\tgo\tI",
        "cell\tcache\tI\tA\tgo\tA", "cell\tcache\tI\tA\tgo\tI\tI", "cell\tcache\tI\tA\tgo\tI\tA\tA\tA\tA\tA\tA\tA\tX",
        "cell\tcache\tI\tA\tgo\tI\tX\tA\tA\tA\tA\tA\tA\tA", "cell\tcache\tI\tA\tgo\tI\tA\tB\tA\tB\tA\tB\tA\tB",
        "cell\tcache\tI\tA\tgo\tI\tA\tB\tA\tB\tA\tB\tA\tB\tA", "cell\tcache\te\tA\tgo\tI", "cell\tcache\tI\ta\tgo\tI",
    ];
    for line in lines {
        texts.push(with_cells(&[line]));
    }
    // Declared later is not declared yet.
    texts.push(small_and(3, &["state\tcache\tI\tstable", "cell\tcache\tI\te\tgo\tI", "event\te"]));
    texts.push(small_and(5, &["cell\tcache\tI\tA\tgo\tT", "state\tcache\tT\tstable"]));
    texts
}

// ---------------------------------------------------------------------
// Refusals 12 and 13
// ---------------------------------------------------------------------

fn entries() -> Vec<Vec<u8>> {
    let mut texts = vec![
        // No message at all, alone and with what else could be refused.
        after_header(&[]),
        after_header(&["event\te"]),
        after_header(&["state\tcache\tI\tstable"]),
        after_header(&["event\te", "state\tcache\tT\ttransient", "cell\tcache\tT\te\tstall"]),
        after_header(&["event\te", "state\tcache\tT\ttransient", "cell\tcache\tT\tA\tstall"]),
        after_header(&["event\te", "state\tcache\tT\tstable", "cell\tcache\tT\te\tgo\tT"]),
    ];
    // The cells before and after a stalled message in state T of `cache`.
    let stall = "cell\tcache\tT\tB\tstall";
    let other = "cell\tdir\tW\tA\tstall";
    let entries: [&[&str]; 12] = [
        &[],
        &["cell\tcache\tT\tA\tgo\tT\tB"],
        &["cell\tcache\tT\te\tgo\tT\tB"],
        &["cell\tcache\tI\te\tgo\tT"],
        &["cell\tcache\tI\te\tgo\tT", "cell\tcache\tT\tA\tgo\tT"],
        &["cell\tcache\tI\te\tgo\tT\tA"],
        &["cell\tcache\tI\te\tgo\tT\tA\tB\tA"],
        &["cell\tcache\tI\tA\tgo\tT"],
        &["cell\tcache\tI\tA\tgo\tT\tB", "cell\tcache\tI\tB\tgo\tT"],
        &["cell\tcache\tI\te\tgo\tT", "cell\tcache\tI\tB\tgo\tT\tA"],
        &["cell\tcache\tI\tB\tgo\tI\tA", "cell\tcache\tT\tA\tgo\tI"],
        &["cell\tdir\tI\tA\tgo\tW", "cell\tdir\tI\tB\tgo\tW"],
    ];
    for entry in entries {
        let join = |parts: &[&[&str]]| with_cells(&parts.concat());
        texts.push(join(&[entry]));
        texts.push(join(&[entry, &[stall]]));
        texts.push(join(&[&[stall], entry]));
        texts.push(join(&[&[stall, other], entry]));
        texts.push(join(&[&[other, stall], entry]));
        texts.push(join(&[entry, &["cell\tcache\tT\te\tstall"]]));
        texts.push(join(&[entry, &[stall, "cell\tcache\tT\te\tstall", "cell\tcache\tI\tA\tgo\tI\tB"]]));
    }
    texts
}

// ---------------------------------------------------------------------
// Mappings
// ---------------------------------------------------------------------

fn judged(protocol: &[u8], lines: &[&str]) -> Item {
    let lines: Vec<String> = lines.iter().map(|line| line.to_string()).collect();
    Item::Judge(protocol.to_vec(), text_of(&lines))
}

fn mappings() -> Vec<Item> {
    let whole = text_of(&small());
    let bare = |mapping: &[u8]| Item::Judge(whole.clone(), mapping.to_vec());
    let head = "vn-mapping\t1";
    let (a, b) = ("map\tA\t0", "map\tB\t31");
    let mut items = vec![
        judged(&whole, &[head, a, b]),
        judged(&whole, &[]),
        judged(&whole, &[head]),
        judged(&whole, &[head, a]),
        judged(&whole, &[head, b]),
        judged(&whole, &[head, b, a]),
        judged(&whole, &[head, a, a]),
        judged(&whole, &[head, a, b, a]),
        judged(&whole, &[head, a, b, "map\tC\t1"]),
        judged(&whole, &[head, a, b, "map\tC\t99"]),
        judged(&whole, &[head, a, b, ""]),
        judged(&whole, &[head, a, b, "map\tC"]),
        judged(&whole, &[head, "", a, b]),
        judged(&whole, &["", head, a, b]),
        judged(&whole, &["vn-mapping\t2", a, b]),
        judged(&whole, &["vn-mapping", a, b]),
        judged(&whole, &["vn-protocol\t1", a, b]),
        judged(&whole, &["vn-mapping\t1\t", a, b]),
        judged(&whole, &["vn-mapping\t1\r", a, b]),
        bare(b"vn-mapping\t1"),
        bare(b"x"),
        bare(b"x\ny"),
        bare(b"\n"),
        bare(b"vn-mapping\t1\nmap\tA\t0\nmap\tB\t1"),
        bare(b"vn-mapping\t1\nmap\tA\t0\nmap\tB\t1\n\n"),
        bare(&limits::long_mapping(1, 49_152)),
        bare(&limits::long_mapping(1, 49_153)),
    ];
    // Each wrong line at the place of the first, the second and a third.
    let wrong = [
        "map\tA\t32", "map\tB\t32", "map\tA\t", "map\t\t0", "map\t\t", "map\tA", "map", "map\tA\t0\t", "map\tA\t0\t0", "Map\tA\t0",
        "mapp\tA\t0", "ma\tA\t0", "\tA\t0", " map\tA\t0", "map\ta\t0", "map\tAA\t0", "map\tA \t0", "map\tB\t00", "maps\tX\t99", "map\tX\t99",
        "message\tA\treq", "vn-mapping\t1", "map\tA\t0\r", "map A 0", "map\tAnnnnnnnnnnnnnnnnnnnnnnnnnn\t0",
    ];
    for line in wrong {
        items.push(judged(&whole, &[head, line, b]));
        items.push(judged(&whole, &[head, a, line]));
        items.push(judged(&whole, &[head, a, b, line]));
        items.push(judged(&whole, &[head, line, "map"]));
        items.push(judged(&whole, &[head, "map\tA\t32", line]));
    }
    // The protocol is refused: its refusal is told, whatever the mapping is.
    for mapping in [&[][..], &[head, a, b], &[head, "map"], &["x"]] {
        items.push(judged(b"", mapping));
        items.push(judged(&after_header(&[]), mapping));
        items.push(judged(&with_cells(&["cell\tdir\tW\tA\tstall"]), mapping));
    }
    // 32 messages, with the longest names; one line less and one more.
    let full = chain_of_32();
    let networks: Vec<Network> = (0..33).map(|i| Network(i % 32)).collect();
    for count in [31, 32, 33] {
        items.push(Item::Judge(full.clone(), limits::mapping_under(1, &networks[..count])));
    }
    // Messages whose names share a start.
    let alike = after_header(&["message\tAB\treq", "message\tA\treq", "message\tABC\tctl"]);
    items.push(judged(&alike, &[head, "map\tAB\t1", "map\tA\t2", "map\tABC\t3"]));
    items.push(judged(&alike, &[head, "map\tA\t1", "map\tAB\t2", "map\tABC\t3"]));
    items.push(judged(&alike, &[head, "map\tAB\t1", "map\tAB\t2", "map\tABC\t3"]));
    items.push(judged(&alike, &[head, "map\tAB\t1", "map\tA\t2", "map\tAB\t3"]));
    items
}

/// Message i waits for i + 1. All names are long, and each message has a state
/// that it enters from one more.
fn chain_of_32() -> Vec<u8> {
    let name = |number: usize| limits::message_name(Message(number));
    let state = |number: usize| limits::long_name('S', number);
    let base = limits::long_name('B', 0);
    let mut lines = vec![HEADER.to_string()];
    lines.extend((0..32).map(|i| format!("message\t{}\treq", name(i))));
    lines.push(format!("state\tcache\t{}\tstable", base));
    lines.extend((0..32).map(|i| format!("state\tcache\t{}\ttransient", state(i))));
    lines.extend((0..32).map(|i| format!("cell\tcache\t{}\t{}\tgo\t{}\t{}", base, name(i), state(i), name(i))));
    lines.extend((0..31).map(|i| format!("cell\tcache\t{}\t{}\tstall", state(i + 1), name(i))));
    text_of(&lines)
}

/// The protocol of one message A, which a mapping under a header sends to this
/// network.
fn mapped(header: usize, protocol: &[u8], network: &[u8]) -> Item {
    let first = format!("vn-mapping\t{}\nmap\tA\t", header);
    Item::Judge(protocol.to_vec(), [first.as_bytes(), network, b"\n"].concat())
}

/// Network fields, with a protocol of one message.
fn networks() -> Vec<Item> {
    let protocol = after_header(&["message\tA\treq"]);
    let with = |field: &[u8]| mapped(1, &protocol, field);
    let mut items: Vec<Item> = (0..=255u8).map(|byte| with(&[byte])).collect();
    for first in b"/0123456789:+- " {
        for second in b"/0123456789:+- " {
            items.push(with(&[*first, *second]));
        }
    }
    let words = [
        "", "000", "001", "010", "031", "032", "100", "310", "311", "1.0", "0x1", "1e1", " 31", "31 ", "+31", "-31", "255", "256",
        "257", "287", "4294967296", "18446744073709551616", "\u{0661}", "3\u{0661}",
    ];
    items.extend(words.iter().map(|word| with(word.as_bytes())));
    items
}

// ---------------------------------------------------------------------
// Real protocols, and a few random texts
// ---------------------------------------------------------------------

/// The first protocols of examples/, and the mappings of two of them. The others
/// are judged in host/plan_tests.rs.
fn examples() -> Vec<Item> {
    let names = [
        "bell",
        "chi_fig5",
        "mosi_nonblocking",
        "msi_blocking_cache.four",
        "msi_blocking_cache.one",
        "msi_blocking_cache.three",
        "msi_blocking_cache",
        "msi_blocking_cache.two",
        "msi_nonblocking_cache.four",
        "msi_nonblocking_cache.one",
        "msi_nonblocking_cache.three",
        "msi_nonblocking_cache",
        "msi_nonblocking_cache.two",
        "msi_only_inv_stalls",
        "protogen_msi_nonstalling",
    ];
    names.into_iter().map(example).collect()
}

/// A protocol of examples/, or with a dot in its name a mapping of one.
fn example(name: &str) -> Item {
    let read = |file: String| std::fs::read(format!("examples/{}", file)).expect(&file);
    match name.split_once('.') {
        None => Item::Protocol(read(format!("{}.tsv", name))),
        Some((protocol, _)) => {
            Item::Judge(read(format!("{}.tsv", protocol)), read(format!("{}.mapping.tsv", name)))
        }
    }
}

/// Short ones, whole and damaged.
fn a_few_random() -> Vec<Item> {
    let mut random = Random::new(1);
    let mut items = Vec::new();
    while items.len() < 100 {
        let whole = random::older_protocol_text(&mut random, 32);
        let text = if random.chance(1, 2) { random::damage_around(32, &mut random, &whole) } else { whole };
        if text.len() < 800 {
            let mapping = random::mapping_text_under(1, &mut random, &text);
            items.push(Item::Judge(text, mapping));
        }
    }
    items
}
