//! Random input, the same for the same seed.
//!
//! The generator is xorshift64*: a state of 64 bits, never 0, goes through
//!   x ^= x >> 12;  x ^= x << 25;  x ^= x >> 27;
//! and gives x * 0x2545F4914F6CDD1D, of which the high bits are used. A seed
//! is multiplied by 0x9E3779B97F4A7C15 before, so that small seeds in a row
//! start far apart; seed 0 starts as that number itself. A test prints the
//! seed of what it did not like.

#![allow(dead_code, unused_imports)]

mod bad_fields;
mod chains;
mod damage;

pub use bad_fields::*;
pub use damage::*;

use crate::second::{Form, Message, Network, State, MOST_MESSAGES, MOST_STATES, SECOND_FORM};
use chains::{Entry, Link};
use std::collections::{BTreeMap, BTreeSet};

pub struct Random {
    state: u64,
}

impl Random {
    pub fn new(seed: u64) -> Random {
        let spread = seed.wrapping_mul(0x9E37_79B9_7F4A_7C15);
        let state = if spread == 0 { 0x9E37_79B9_7F4A_7C15 } else { spread };
        let mut random = Random { state };
        for _ in 0..4 {
            random.next();
        }
        random
    }

    pub fn next(&mut self) -> u64 {
        self.state ^= self.state >> 12;
        self.state ^= self.state << 25;
        self.state ^= self.state >> 27;
        self.state.wrapping_mul(0x2545_F491_4F6C_DD1D)
    }

    /// A number from 0 to `bound` - 1.
    pub fn below(&mut self, bound: usize) -> usize {
        assert!(bound > 0);
        ((self.next() >> 33) % bound as u64) as usize
    }

    /// A number from `low` to `high`, both included.
    pub fn between(&mut self, low: usize, high: usize) -> usize {
        low + self.below(high - low + 1)
    }

    /// True `times` out of `out_of` times.
    pub fn chance(&mut self, times: usize, out_of: usize) -> bool {
        self.below(out_of) < times
    }

    pub fn pick<'a, T>(&mut self, list: &'a [T]) -> &'a T {
        &list[self.below(list.len())]
    }

    pub fn shuffle<T>(&mut self, list: &mut [T]) {
        for last in (1..list.len()).rev() {
            let other = self.below(last + 1);
            list.swap(last, other);
        }
    }
}

// ---------------------------------------------------------------------
// Bare relations
// ---------------------------------------------------------------------

/// Densities, as pairs in a row in quarters: from none, over one pair in
/// every fourth row, to all pairs.
pub const DENSITIES: [usize; 12] = [0, 1, 2, 3, 4, 6, 8, 14, 30, 64, 128, 256];

/// The two tables of the relations call, in a form of it.
#[derive(Clone, Debug)]
pub struct Tables {
    pub form: Form,
    pub count: usize,
    pub causes: Vec<u8>,
    pub stalls: Vec<u8>,
}

/// "Row i is 4 bytes, lowest byte first; bit j says that i causes (stalls) j." In
/// the second form 8 bytes.
pub fn set_pair(form: Form, table: &mut [u8], from: Message, to: Message) {
    table[form.row_bytes * from.0 + to.0 / 8] |= 1 << (to.0 % 8);
}

impl Tables {
    pub fn empty(form: Form, count: usize) -> Tables {
        let empty = vec![0; form.row_bytes * count];
        Tables { form, count, causes: empty.clone(), stalls: empty }
    }

    pub fn add_cause(&mut self, from: Message, to: Message) {
        set_pair(self.form, &mut self.causes, from, to);
    }

    pub fn add_stall(&mut self, from: Message, to: Message) {
        set_pair(self.form, &mut self.stalls, from, to);
    }
}

fn random_message(random: &mut Random, count: usize) -> Message {
    Message(random.below(count))
}

fn random_table(form: Form, random: &mut Random, count: usize, quarters: usize) -> Vec<u8> {
    let mut table = vec![0; form.row_bytes * count];
    for from in (0..count).map(Message) {
        for to in (0..count).map(Message) {
            if random.chance(quarters, 4 * count) {
                set_pair(form, &mut table, from, to);
            }
        }
    }
    table
}

/// Both tables without any plan, at the given densities.
pub fn loose_tables(
    form: Form,
    random: &mut Random,
    count: usize,
    causes_quarters: usize,
    stalls_quarters: usize,
) -> Tables {
    let causes = random_table(form, random, count, causes_quarters);
    let stalls = random_table(form, random, count, stalls_quarters);
    Tables { form, count, causes, stalls }
}

fn random_order(random: &mut Random, count: usize) -> Vec<Message> {
    let mut order: Vec<Message> = (0..count).map(Message).collect();
    random.shuffle(&mut order);
    order
}

/// Causes go forward in some order and stalls go back or stay. This is always
/// class 3, often with many networks.
pub fn layered_tables(form: Form, random: &mut Random, count: usize) -> Tables {
    let order = random_order(random, count);
    let mut tables = Tables::empty(form, count);
    let causes_quarters = *random.pick(&DENSITIES);
    let stalls_quarters = *random.pick(&DENSITIES);
    for early in 0..count {
        for late in early..count {
            if early != late && random.chance(causes_quarters, 4 * count) {
                tables.add_cause(order[early], order[late]);
            }
            if random.chance(stalls_quarters, 4 * count) {
                tables.add_stall(order[late], order[early]);
            }
        }
    }
    tables
}

/// A chain in some order, each stalling itself: as many networks as messages.
pub fn chain_tables(form: Form, random: &mut Random, count: usize) -> Tables {
    let order = random_order(random, count);
    let mut tables = Tables::empty(form, count);
    for place in 0..count {
        if place + 1 < count {
            tables.add_cause(order[place], order[place + 1]);
        }
        tables.add_stall(order[place], order[place]);
    }
    tables
}

/// One or several rings of waits, and some more pairs: long shown cycles,
/// often several of one length. Every message causes itself alone.
pub fn ring_tables(form: Form, random: &mut Random, count: usize) -> Tables {
    let mut tables = Tables::empty(form, count);
    for message in (0..count).map(Message) {
        tables.add_cause(message, message);
    }
    for _ in 0..random.between(1, 3) {
        let order = random_order(random, count);
        let length = random.between(1, count);
        for place in 0..length {
            let next = (place + 1) % length;
            tables.add_stall(order[next], order[place]);
        }
    }
    tables
}

fn add_pairs(random: &mut Random, tables: &mut Tables, most: usize) {
    for _ in 0..random.below(most + 1) {
        let from = random_message(random, tables.count);
        let to = random_message(random, tables.count);
        if random.chance(1, 2) {
            tables.add_cause(from, to);
        } else {
            tables.add_stall(from, to);
        }
    }
}

/// Tables of some kind and density, right in form.
pub fn tables(form: Form, random: &mut Random, count: usize) -> Tables {
    match random.below(8) {
        0..=3 => {
            let causes_quarters = *random.pick(&DENSITIES);
            let stalls_quarters = *random.pick(&DENSITIES);
            loose_tables(form, random, count, causes_quarters, stalls_quarters)
        }
        4 | 5 => {
            let mut tables = layered_tables(form, random, count);
            add_pairs(random, &mut tables, 2);
            tables
        }
        6 => {
            let mut tables = chain_tables(form, random, count);
            add_pairs(random, &mut tables, 3);
            tables
        }
        _ => {
            let mut tables = ring_tables(form, random, count);
            add_pairs(random, &mut tables, 2);
            tables
        }
    }
}

/// A call of the relations call, sometimes wrong: count, table length, stray
/// bit or room.
#[derive(Clone, Debug)]
pub struct Call {
    pub form: Form,
    pub n: u64,
    pub causes: Vec<u8>,
    pub stalls: Vec<u8>,
    pub room: usize,
}

impl Call {
    pub fn of(tables: Tables, room: usize) -> Call {
        let Tables { form, count, causes, stalls } = tables;
        Call { form, n: count as u64, causes, stalls, room }
    }

    /// The call of the second form with each row made longer by four bytes 0.
    pub fn widened(&self) -> Call {
        let (causes, stalls) = (widened(&self.causes), widened(&self.stalls));
        Call { form: SECOND_FORM, n: self.n, causes, stalls, room: self.room }
    }
}

/// Each row of 4 bytes made longer by four bytes 0; a part of a row stays as it is.
fn widened(table: &[u8]) -> Vec<u8> {
    let rows = table.chunks_exact(4);
    let part = rows.remainder().to_vec();
    rows.flat_map(|row| [row, &[0; 4]].concat()).chain(part).collect()
}

pub fn call(form: Form, random: &mut Random, count: usize) -> Call {
    let tables = tables(form, random, count);
    let room = count + random.below(4);
    let mut call = Call::of(tables, room);
    while random.chance(1, 6) {
        damage_call(random, &mut call);
    }
    call
}

fn damage_call(random: &mut Random, call: &mut Call) {
    let most = call.form.most_messages as u64;
    let pick_causes = random.chance(1, 2);
    let table = if pick_causes { &mut call.causes } else { &mut call.stalls };
    match random.below(8) {
        0 => call.n = *random.pick(&[0, 1, most - 1, most, most + 1, 2 * most, 255, 256, 257, u64::MAX]),
        1 => call.n = call.n.wrapping_add(1),
        2 => call.n = call.n.wrapping_sub(1),
        3 => table.push(0),
        4 => {
            table.pop();
        }
        5 if !table.is_empty() => {
            let place = random.below(table.len());
            table[place] |= 1 << random.below(8);
        }
        6 => call.room = call.room.saturating_sub(random.between(1, 5)),
        _ => call.room = random.below(most as usize + 8),
    }
}

// ---------------------------------------------------------------------
// Protocol texts
// ---------------------------------------------------------------------

const NAME_BYTES: &[u8] = b"abcdefghijklmnopqrstuvwxyzABCDEFGHIJKLMNOPQRSTUVWXYZ0123456789-+_.";

fn random_name(random: &mut Random) -> String {
    let length = match random.below(20) {
        0 => 24,
        1 => random.between(1, 24),
        _ => random.between(1, 4),
    };
    (0..length).map(|_| *random.pick(NAME_BYTES) as char).collect()
}

/// Names that differ from each other and from those in `taken`.
fn fresh_names(random: &mut Random, count: usize, taken: &mut BTreeSet<String>) -> Vec<String> {
    let mut names = Vec::new();
    while names.len() < count {
        let name = random_name(random);
        if taken.insert(name.clone()) {
            names.push(name);
        }
    }
    names
}

struct DraftState {
    controller: &'static str,
    name: String,
    transient: bool,
}

/// Messages send only later ones and are stalled only by later ones or
/// themselves: then the waits have no cycle.
#[derive(Clone, Copy, PartialEq, Eq)]
enum Layered {
    No,
    /// By rule 3 as it was before request C-12.
    ByEntries,
    /// By the mended rule.
    ByTaken,
}

/// A protocol on its way.
struct Draft {
    messages: Vec<String>,
    events: Vec<String>,
    states: Vec<DraftState>,
    cells: Vec<String>,
    /// Is there a stall at this state and trigger (else only `go`)?
    places: BTreeMap<(State, String), bool>,
    /// The cells so far that enter a state.
    entries: Vec<Entry>,
    layered: Layered,
    /// None but in a draft with chains.
    links: Vec<Link>,
    /// Stallers are those of before request C-12, so that a text of then is drawn
    /// once more.
    older: bool,
}

impl Draft {
    fn state(&self, state: State) -> &DraftState {
        &self.states[state.0]
    }

    fn states_of(&self, controller: &str) -> Vec<State> {
        (0..self.states.len())
            .map(State)
            .filter(|state| self.state(*state).controller == controller)
            .collect()
    }
}

fn draft_names(random: &mut Random, most_messages: usize) -> Draft {
    if random.chance(1, 10) {
        draft_up_to(random, most_messages, 8, 64)
    } else {
        draft_up_to(random, 8, 3, 10)
    }
}

/// Names of at least one message and state, up to the given numbers of each.
fn draft_up_to(random: &mut Random, most_messages: usize, most_events: usize, most_states: usize) -> Draft {
    let mut taken = BTreeSet::new();
    let message_count = random.between(1, most_messages);
    let event_count = random.below(most_events + 1);
    let messages = fresh_names(random, message_count, &mut taken);
    let events = fresh_names(random, event_count, &mut taken);
    let state_count = random.between(1, most_states);
    let states = draft_states(random, state_count, (1, 2), (2, 3));
    let layered = if random.chance(1, 2) { Layered::ByTaken } else { Layered::No };
    Draft {
        messages,
        events,
        states,
        cells: Vec::new(),
        places: BTreeMap::new(),
        entries: Vec::new(),
        layered,
        links: Vec::new(),
        older: false,
    }
}

/// States on `cache` and transient ones, each so many times out of so many.
fn draft_states(
    random: &mut Random,
    count: usize,
    on_cache: (usize, usize),
    transient: (usize, usize),
) -> Vec<DraftState> {
    let (mut cache_names, mut dir_names) = (BTreeSet::new(), BTreeSet::new());
    let mut states = Vec::new();
    for _ in 0..count {
        let on_cache = random.chance(on_cache.0, on_cache.1);
        let taken = if on_cache { &mut cache_names } else { &mut dir_names };
        let name = fresh_names(random, 1, taken).remove(0);
        let controller = if on_cache { "cache" } else { "dir" };
        states.push(DraftState { controller, name, transient: random.chance(transient.0, transient.1) });
    }
    states
}

/// A trigger for the state: its name, and its number if it is a message.
fn draft_trigger(random: &mut Random, draft: &Draft, state: State) -> (String, Option<Message>) {
    let on_cache = draft.state(state).controller == "cache";
    if on_cache && !draft.events.is_empty() && random.chance(1, 3) {
        return (random.pick(&draft.events).clone(), None);
    }
    let message = random_message(random, draft.messages.len());
    (draft.messages[message.0].clone(), Some(message))
}

fn draft_sent(random: &mut Random, draft: &Draft, trigger: Option<Message>) -> Vec<Message> {
    let count = draft.messages.len();
    let first = match trigger {
        Some(message) if draft.layered != Layered::No => message.0 + 1,
        _ => 0,
    };
    if first == count {
        return Vec::new();
    }
    let sent_count = if random.chance(1, 30) { 8 } else { random.below(3) };
    (0..sent_count).map(|_| Message(random.between(first, count - 1))).collect()
}

/// A state and its next, without any plan.
fn draft_link(random: &mut Random, draft: &Draft) -> Link {
    let state = State(random.below(draft.states.len()));
    let next = *random.pick(&draft.states_of(draft.state(state).controller));
    Link { state, next, quiet: false }
}

fn draft_go(random: &mut Random, draft: &mut Draft) {
    let Link { state, next, quiet } = match draft.pick_link(random) {
        Some(link) => link,
        None => draft_link(random, draft),
    };
    let (trigger, message) = match quiet {
        true => (random.pick(&draft.events).clone(), None),
        false => draft_trigger(random, draft, state),
    };
    let place = (state, trigger.clone());
    if draft.places.get(&place) == Some(&true) && !random.chance(1, 200) {
        return;
    }
    let sent = if quiet { Vec::new() } else { draft_sent(random, draft, message) };
    if next != state {
        let lowest = message.or_else(|| sent.iter().min().copied());
        draft.entries.push(Entry { state, next, lowest });
    }
    let DraftState { controller, name, .. } = draft.state(state);
    let mut line = format!("cell\t{}\t{}\t{}", controller, name, trigger);
    line.push_str(&format!("\tgo\t{}", draft.state(next).name));
    for message in sent {
        line.push_str(&format!("\t{}", draft.messages[message.0]));
    }
    draft.places.entry(place).or_insert(false);
    draft.cells.push(line);
}

/// A stall where one is right; rarely anywhere, and in a draft with chains less
/// rarely in a state where nothing stalls it.
fn draft_stall(random: &mut Random, draft: &mut Draft) {
    let state = State(random.below(draft.states.len()));
    let (trigger, message) = draft_trigger(random, draft, state);
    let place = (state, trigger.clone());
    let staller = draft.lowest_staller(state);
    let lowest = match draft.layered {
        Layered::No => None,
        Layered::ByEntries => draft.lowest_carrier(state),
        Layered::ByTaken => staller,
    };
    let stalled = match message {
        None => true,
        Some(message) => staller.is_some() && lowest.map_or(true, |lowest| message <= lowest),
    };
    let right = draft.state(state).transient && !draft.places.contains_key(&place) && stalled;
    let rarely = if draft.links.is_empty() || staller.is_some() { 200 } else { 40 };
    if !right && !random.chance(1, rarely) {
        return;
    }
    let DraftState { controller, name, .. } = draft.state(state);
    let line = format!("cell\t{}\t{}\t{}\tstall", controller, name, trigger);
    draft.cells.push(line);
    draft.places.insert(place, true);
}

/// A protocol text that is accepted most of the time.
pub fn protocol_text(random: &mut Random) -> Vec<u8> {
    let draft = draft_names(random, MOST_MESSAGES);
    loose_or_chained(random, draft)
}

/// The same, with at most so many messages, as it was drawn before request C-12.
pub fn older_protocol_text(random: &mut Random, most_messages: usize) -> Vec<u8> {
    let draft = Draft { older: true, ..draft_names(random, most_messages) };
    loose_text(random, draft)
}

fn loose_or_chained(random: &mut Random, draft: Draft) -> Vec<u8> {
    if random.chance(1, 2) {
        return loose_text(random, draft);
    }
    let draft = chains::with_chains(random, draft);
    let goes = draft.links.len() + random.below(2 * draft.links.len() + 10);
    let stalls = random.below(60);
    drafted_text(random, draft, goes, stalls)
}

fn loose_text(random: &mut Random, draft: Draft) -> Vec<u8> {
    let most_goes = if random.chance(1, 20) { 300 } else { 30 };
    let goes = random.below(most_goes);
    let stalls = random.below(60);
    drafted_text(random, draft, goes, stalls)
}

/// A protocol text with few messages, states and cells, for tests that read very
/// many texts.
pub fn small_protocol_text(random: &mut Random) -> Vec<u8> {
    let most = if random.chance(1, 8) { 12 } else { 5 };
    if random.chance(2, 3) {
        let draft = draft_up_to(random, most + 3, 3, most);
        let draft = chains::with_chains(random, draft);
        let goes = random.between(draft.links.len(), 3 * draft.links.len() + 2);
        let stalls = random.below(6 * most);
        return drafted_text(random, draft, goes, stalls);
    }
    let draft = draft_up_to(random, most, 3, most);
    let goes = random.between(most / 2, 2 * most);
    let stalls = random.below(3 * most);
    drafted_text(random, draft, goes, stalls)
}

/// The same with up to 64 messages, for mappings of many lines.
pub fn wide_protocol_text(random: &mut Random) -> Vec<u8> {
    let draft = draft_up_to(random, MOST_MESSAGES, 2, 8);
    loose_or_chained(random, draft)
}

fn drafted_text(random: &mut Random, mut draft: Draft, goes: usize, stalls: usize) -> Vec<u8> {
    for _ in 0..goes {
        draft_go(random, &mut draft);
    }
    for _ in 0..stalls {
        draft_stall(random, &mut draft);
    }
    random.shuffle(&mut draft.cells);
    let mut text = String::from("vn-protocol\t1\n");
    for name in &draft.messages {
        let message_type = *random.pick(&["req", "fwd", "data", "ctl"]);
        text.push_str(&format!("message\t{}\t{}\n", name, message_type));
    }
    for name in &draft.events {
        text.push_str(&format!("event\t{}\n", name));
    }
    for state in &draft.states {
        let kind = if state.transient { "transient" } else { "stable" };
        text.push_str(&format!("state\t{}\t{}\t{}\n", state.controller, state.name, kind));
    }
    for cell in &draft.cells {
        text.push_str(&format!("{}\n", cell));
    }
    text.into_bytes()
}

// ---------------------------------------------------------------------
// Mapping texts
// ---------------------------------------------------------------------

/// The second field of each line that starts with `message`.
pub fn message_names(protocol_text: &[u8]) -> Vec<Vec<u8>> {
    split_all(protocol_text)
        .into_iter()
        .filter(|fields| fields.len() >= 2 && fields[0] == b"message")
        .map(|mut fields| fields.remove(1))
        .collect()
}

/// A mapping text for a protocol, with few or many networks, under either
/// header. It is right but where header 1 has too many messages.
pub fn mapping_text(random: &mut Random, protocol_text: &[u8]) -> Vec<u8> {
    let header = if random.chance(1, 3) { 1 } else { 2 };
    mapping_text_under(header, random, protocol_text)
}

/// The same under header 1 or 2.
pub fn mapping_text_under(header: usize, random: &mut Random, protocol_text: &[u8]) -> Vec<u8> {
    let networks = *random.pick(&[1, 2, 3, 4, 6, 12, 32 * header]);
    let mut text = format!("vn-mapping\t{}\n", header).into_bytes();
    for name in message_names(protocol_text) {
        text.extend(b"map\t");
        text.extend(name);
        text.extend(format!("\t{}\n", random.below(networks)).as_bytes());
    }
    text
}

/// A network for each of `count` messages.
pub fn mapping(random: &mut Random, count: usize) -> Vec<Network> {
    let networks = random.between(1, count.max(1));
    (0..count).map(|_| Network(random.below(networks))).collect()
}
