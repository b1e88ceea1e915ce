//! Texts at the limits of the paper, and one past each of them.

#![allow(dead_code)]

use crate::second::{Message, Network, State};
use std::collections::BTreeSet;

/// What a built protocol has of everything.
#[derive(Clone, Copy, Debug)]
pub struct Counts {
    pub messages: usize,
    pub events: usize,
    pub states: usize,
    pub cells: usize,
    pub bytes: usize,
}

/// "Most allowed: 49,152 bytes, [..] 8 events, 64 states over both controllers,
/// 512 cells", and by request C-15 64 messages.
pub const MOST: Counts = Counts { messages: 64, events: 8, states: 64, cells: 512, bytes: 49_152 };

/// All limits at once; accepted.
pub fn full() -> Vec<u8> {
    protocol_text(&MOST)
}

/// All limits at once, but for the messages.
pub fn full_of(messages: usize) -> Vec<u8> {
    protocol_text(&Counts { messages, ..MOST })
}

/// A text one past a limit, and the refusal that it gets.
pub struct Past {
    pub limit: &'static str,
    pub text: Vec<u8>,
    pub number: u64,
    pub line: u64,
}

/// One more of each, everything else as in `full`. The line is that of the
/// first record too many: the header, and the records before it.
pub fn one_more_of_each() -> Vec<Past> {
    let past = |limit, counts: Counts, number, line| Past {
        limit,
        text: protocol_text(&counts),
        number,
        line,
    };
    vec![
        past("bytes", Counts { bytes: MOST.bytes + 1, ..MOST }, 1, 0),
        past("messages", Counts { messages: MOST.messages + 1, ..MOST }, 9, 1 + 65),
        past("events", Counts { events: MOST.events + 1, ..MOST }, 9, 1 + 64 + 9),
        past("states", Counts { states: MOST.states + 1, ..MOST }, 9, 1 + 64 + 8 + 65),
        past("cells", Counts { cells: MOST.cells + 1, ..MOST }, 9, 1 + 64 + 8 + 64 + 513),
    ]
}

/// A protocol text with exactly these counts, for counts near the limits.
/// Bytes are filled up with sent messages, 25 bytes each, and what is left
/// with longer names of two events that no cell uses.
pub fn protocol_text(counts: &Counts) -> Vec<u8> {
    let bare = text_with(counts, 0, 0).len();
    let extra = counts.bytes - bare;
    let text = text_with(counts, extra / 25, extra % 25);
    assert_eq!(text.len(), counts.bytes, "the text has the wanted length");
    text
}

/// A name of 24 bytes, the most.
pub fn long_name(letter: char, number: usize) -> String {
    format!("{}{:02}-{}", letter, number, "x".repeat(20))
}

pub fn message_name(message: Message) -> String {
    long_name('M', message.0)
}

/// The two last events take the padding.
fn event_name(counts: &Counts, number: usize, padding: usize) -> String {
    let first_half = padding / 2;
    let long = match counts.events - number {
        2 => first_half,
        1 => padding - first_half,
        _ => 0,
    };
    format!("e{}{}", number, "y".repeat(long))
}

/// The states of the two controllers stand in turn; the first of each is
/// stable, the others are transient.
fn controller_of(state: State) -> &'static str {
    if state.0 % 2 == 0 { "cache" } else { "dir" }
}

fn stable_beside(state: State) -> State {
    State(state.0 % 2)
}

/// The first four fields of a cell.
fn place_of(state: State, trigger: &str) -> String {
    format!("cell\t{}\ts{}\t{}", controller_of(state), state.0, trigger)
}

fn text_with(counts: &Counts, extra_sent: usize, padding: usize) -> Vec<u8> {
    let mut text = String::from("vn-protocol\t1\n");
    for message in (0..counts.messages).map(Message) {
        text.push_str(&format!("message\t{}\tdata\n", message_name(message)));
    }
    for number in 0..counts.events {
        text.push_str(&format!("event\t{}\n", event_name(counts, number, padding)));
    }
    for state in (0..counts.states).map(State) {
        let kind = if state == stable_beside(state) { "stable" } else { "transient" };
        text.push_str(&format!("state\t{}\ts{}\t{}\n", controller_of(state), state.0, kind));
    }
    let mut extra_left = extra_sent;
    for number in 0..counts.cells {
        let line = if number < counts.states {
            entering_cell(counts, State(number), &mut extra_left)
        } else {
            later_cell(counts, number - counts.states, &mut extra_left)
        };
        text.push_str(&line);
    }
    assert_eq!(extra_left, 0, "there is room for the sent messages");
    text.into_bytes()
}

/// One cell that goes to each state: by an event that sends a message for the
/// first six of `cache`, by a message for the others.
fn entering_cell(counts: &Counts, state: State, extra_left: &mut usize) -> String {
    let from = stable_beside(state);
    let message = message_name(Message(state.0 % counts.messages));
    let by_event = controller_of(state) == "cache" && state.0 < 12;
    let trigger = if by_event { event_name(counts, state.0 / 2, 0) } else { message.clone() };
    let sent = if by_event { format!("\t{}", message) } else { String::new() };
    let more = sent_list(counts, state.0, 7, extra_left);
    format!("{}\tgo\ts{}{}{}\n", place_of(from, &trigger), state.0, sent, more)
}

/// The other cells leave their transient state or, every third, stall there.
fn later_cell(counts: &Counts, number: usize, extra_left: &mut usize) -> String {
    let transients = counts.states - 2;
    let state = State(2 + number % transients);
    let message = Message((number / transients + state.0) % counts.messages);
    let place = place_of(state, &message_name(message));
    if number % 3 == 0 {
        return format!("{}\tstall\n", place);
    }
    let more = sent_list(counts, number, 8, extra_left);
    format!("{}\tgo\ts{}{}\n", place, stable_beside(state).0, more)
}

/// Up to `most` more sent messages, as long as some are left to place.
fn sent_list(counts: &Counts, cell: usize, most: usize, extra_left: &mut usize) -> String {
    let mut list = String::new();
    for place in 0..most {
        if *extra_left == 0 {
            break;
        }
        *extra_left -= 1;
        let message = Message((cell * 7 + place) % counts.messages);
        list.push_str(&format!("\t{}", message_name(message)));
    }
    list
}

// ---------------------------------------------------------------------
// Refusals
// ---------------------------------------------------------------------

/// Paper, number and field of every refusal that a text can get, for tests that
/// ask for each of them.
pub fn all_refusals() -> Vec<(u64, u64, u64)> {
    let of_protocol = (1..=13).map(|number| (0, number));
    let of_mapping = [1, 2, 3, 4, 9, 14, 15].into_iter().map(|number| (1, number));
    let mut all = Vec::new();
    for (paper, number) in of_protocol.chain(of_mapping) {
        let fields: &[u64] = match (number, paper) {
            (4, 0) => &[0, 1, 2, 3, 4, 5],
            (4, _) => &[0, 1],
            (6 | 8, _) => &[2, 3],
            (7, _) => &[3, 4, 6, 7, 8, 9, 10, 11, 12, 13, 14],
            (14, _) => &[0, 2],
            (15, _) => &[3],
            _ => &[0],
        };
        all.extend(fields.iter().map(|field| (paper, number, *field)));
    }
    all
}

// ---------------------------------------------------------------------
// Long answers
// ---------------------------------------------------------------------

/// A protocol with exactly the given waits: a pair (b, c) of different messages
/// says that b waits for c. All names but the event's are long. Each message
/// causes itself alone. One that is waited for has a state, which it enters from
/// the stable one by being sent; whoever waits for it stalls there. So at most 63
/// messages are waited for.
pub fn protocol_with_waits(count: usize, waits: &[(Message, Message)]) -> Vec<u8> {
    let waited_for: BTreeSet<Message> = waits.iter().map(|(_, c)| *c).collect();
    assert!(waited_for.len() < MOST.states, "there is room for the states");
    let stable = long_name('B', 0);
    let mut text = declared(count);
    text.push_str(&format!("state\tcache\t{}\tstable\n", stable));
    for message in &waited_for {
        text.push_str(&format!("state\tcache\t{}\ttransient\n", state_of(*message)));
    }
    for message in &waited_for {
        let (state, name) = (state_of(*message), message_name(*message));
        text.push_str(&format!("cell\tcache\t{}\te\tgo\t{}\t{}\n", stable, state, name));
    }
    for name in (0..count).map(|number| message_name(Message(number))) {
        text.push_str(&format!("cell\tcache\t{}\t{}\tgo\t{}\t{}\n", stable, name, stable, name));
    }
    push_stalls(&mut text, waits);
    text.into_bytes()
}

/// Each message has a transient state, which it enters from that of the message
/// after it by being sent, round in a ring, and causes itself alone. A pair (b, c)
/// of different messages says that b is stalled in the state of c. Before request
/// C-12 b waited for c alone; now all states of the ring are taken with that of c,
/// and b waits for every message.
pub fn ring_of_states(count: usize, stalled: &[(Message, Message)]) -> Vec<u8> {
    let mut text = declared(count);
    for message in (0..count).map(Message) {
        text.push_str(&format!("state\tcache\t{}\ttransient\n", state_of(message)));
    }
    for message in (0..count).map(Message) {
        let (state, name) = (state_of(message), message_name(message));
        let before = state_of(Message((message.0 + 1) % count));
        text.push_str(&format!("cell\tcache\t{}\te\tgo\t{}\t{}\n", before, state, name));
        text.push_str(&format!("cell\tcache\t{}\t{}\tgo\t{}\t{}\n", state, name, state, name));
    }
    push_stalls(&mut text, stalled);
    text.into_bytes()
}

/// The header, so many messages, and the event e.
fn declared(count: usize) -> String {
    let mut text = String::from("vn-protocol\t1\n");
    for message in (0..count).map(Message) {
        text.push_str(&format!("message\t{}\treq\n", message_name(message)));
    }
    text.push_str("event\te\n");
    text
}

/// The first of each pair is stalled in the state of the second.
fn push_stalls(text: &mut String, stalled: &[(Message, Message)]) {
    for (b, c) in stalled {
        text.push_str(&format!("cell\tcache\t{}\t{}\tstall\n", state_of(*c), message_name(*b)));
    }
}

/// The state that a message enters.
fn state_of(message: Message) -> String {
    long_name('S', message.0)
}

/// The mapping text under header 1 or 2, with the long names of messages.
pub fn mapping_under(header: usize, mapping: &[Network]) -> Vec<u8> {
    let mut text = format!("vn-mapping\t{}\n", header);
    for (place, network) in mapping.iter().enumerate() {
        let name = message_name(Message(place));
        text.push_str(&format!("map\t{}\t{}\n", name, network.0));
    }
    text.into_bytes()
}

/// Each message below a count and the one after it.
pub fn in_a_row(count: usize) -> Vec<(Message, Message)> {
    (1..count).map(|i| (Message(i - 1), Message(i))).collect()
}

/// The same, and the last one and the first.
pub fn in_a_ring(count: usize) -> Vec<(Message, Message)> {
    (0..count).map(|i| (Message(i), Message((i + 1) % count))).collect()
}

/// Class 3 with 64 networks and long names: message i waits for i + 1.
pub fn longest_plan() -> Vec<u8> {
    protocol_with_waits(64, &in_a_row(64))
}

/// Class 2 with a shown cycle of 63 messages, the longest since request C-12. In
/// a cycle of 64 as many messages would wait for one each, and for no other. Each
/// would be stalled in a state of its own, so that all 64 states were transient;
/// and a state entered from a transient one has all the stallers of that one.
pub fn longest_cycle() -> Vec<u8> {
    protocol_with_waits(64, &in_a_ring(63))
}

/// i and 32 + i, for i below 32; and a mapping under header 2 in which 32 + i
/// shares a network with i + 1.
pub fn across() -> (Vec<(Message, Message)>, Vec<u8>) {
    let pairs = (0..32).map(|i| (Message(i), Message(32 + i))).collect();
    let mut mapping: Vec<Network> = (0..32).map(Network).collect();
    mapping.extend((0..32).map(|i| Network((i + 1) % 32)));
    (pairs, mapping_under(2, &mapping))
}

/// A protocol and a mapping under header 2, unfit with 64 steps, waits and
/// queues in turn: i waits for 32 + i, which shares a network with i + 1 and
/// queues behind it.
pub fn longest_unfit() -> (Vec<u8>, Vec<u8>) {
    let (pairs, mapping) = across();
    (protocol_with_waits(64, &pairs), mapping)
}

/// A text of exactly this many bytes that starts as a mapping text. Only its
/// length is of interest: no accepted mapping is so long.
pub fn long_mapping(header: usize, bytes: usize) -> Vec<u8> {
    let mut text = format!("vn-mapping\t{}\n", header).into_bytes();
    text.resize(bytes, 10);
    text
}
