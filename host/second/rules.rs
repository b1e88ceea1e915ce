//! Relations between messages, and the rules 1 to 7.

use std::collections::BTreeSet;

use super::*;

// ---------------------------------------------------------------------
// Relations between messages
// ---------------------------------------------------------------------

/// A set of pairs of messages, as a square of yes and no.
#[derive(Clone, Debug, PartialEq, Eq)]
pub struct Relation {
    square: Vec<Vec<bool>>,
}

impl Relation {
    pub fn empty(count: usize) -> Relation {
        Relation { square: vec![vec![false; count]; count] }
    }

    /// Every message with itself: what zero steps reach.
    pub fn same(count: usize) -> Relation {
        let mut relation = Relation::empty(count);
        for message in messages_below(count) {
            relation.add(message, message);
        }
        relation
    }

    /// The number of messages, and not of pairs.
    pub fn count(&self) -> usize {
        self.square.len()
    }

    pub fn messages(&self) -> impl Iterator<Item = Message> {
        messages_below(self.count())
    }

    pub fn add(&mut self, from: Message, to: Message) {
        self.square[from.0][to.0] = true;
    }

    pub fn has(&self, from: Message, to: Message) -> bool {
        self.square[from.0][to.0]
    }

    pub fn pairs(&self) -> usize {
        let mut count = 0;
        for row in &self.square {
            count += row.iter().filter(|yes| **yes).count();
        }
        count
    }

    pub fn or(&self, other: &Relation) -> Relation {
        let mut both = self.clone();
        for from in self.messages() {
            for to in self.messages() {
                if other.has(from, to) {
                    both.add(from, to);
                }
            }
        }
        both
    }

    /// One step here, then one step of `second`.
    pub fn then(&self, second: &Relation) -> Relation {
        let mut result = Relation::empty(self.count());
        for from in self.messages() {
            for middle in self.messages().filter(|middle| self.has(from, *middle)) {
                for to in self.messages().filter(|to| second.has(middle, *to)) {
                    result.add(from, to);
                }
            }
        }
        result
    }

    /// What is reached by one or more steps.
    pub fn one_or_more_steps(&self) -> Relation {
        let mut reached = Relation::empty(self.count());
        for start in self.messages() {
            // Messages whose steps have still to be taken.
            let mut open = vec![start];
            while let Some(here) = open.pop() {
                for next in self.messages() {
                    if self.has(here, next) && !reached.has(start, next) {
                        reached.add(start, next);
                        open.push(next);
                    }
                }
            }
        }
        reached
    }

    /// Request C-23: "going through middle messages in order, a join is counted
    /// each time a row, as it stands at that moment, holds the middle one." In a
    /// join the row takes in the row of the middle message. Gives the rows as
    /// they stand at the end, and the number of joins.
    pub fn joined(&self) -> (Relation, usize) {
        let mut rows = self.clone();
        let mut joins = 0;
        for middle in self.messages() {
            for from in self.messages() {
                if rows.has(from, middle) {
                    joins += 1;
                    rows.take_in(from, middle);
                }
            }
        }
        (rows, joins)
    }

    /// The row of `from` gets all that the row of `middle` holds.
    fn take_in(&mut self, from: Message, middle: Message) {
        for to in self.messages() {
            if self.has(middle, to) {
                self.add(from, to);
            }
        }
    }

    /// Some message comes back to itself in one or more steps.
    pub fn has_cycle(&self) -> bool {
        let reached = self.one_or_more_steps();
        self.messages().any(|message| reached.has(message, message))
    }
}

// ---------------------------------------------------------------------
// Rules 1 to 5
// ---------------------------------------------------------------------

/// Rule 1: "a causes b when some `go` cell triggered by a sends b. Events
/// cause nothing."
pub fn causes_of(protocol: &Protocol) -> Relation {
    let mut causes = Relation::empty(protocol.messages.len());
    for cell in &protocol.cells {
        if let (Trigger::Message(a), Outcome::Go { sent, .. }) = (cell.trigger, &cell.outcome) {
            for b in sent {
                causes.add(a, *b);
            }
        }
    }
    causes
}

/// Rule 2: "a `go` cell enters state s when its next is s and its own state
/// is another one."
pub(super) fn enters(cell: &Cell, s: State) -> bool {
    match &cell.outcome {
        Outcome::Stall => false,
        Outcome::Go { next, .. } => *next == s && cell.state != s,
    }
}

/// Rule 2: "Its carriers are its trigger if that is a message, else the
/// messages it sends."
pub(super) fn carriers(cell: &Cell) -> BTreeSet<Message> {
    let mut found = BTreeSet::new();
    match (cell.trigger, &cell.outcome) {
        (_, Outcome::Stall) => {}
        (Trigger::Message(message), Outcome::Go { .. }) => {
            found.insert(message);
        }
        (Trigger::Event(_), Outcome::Go { sent, .. }) => {
            found.extend(sent.iter().copied());
        }
    }
    found
}

/// The carriers of all cells that enter s.
pub fn carriers_into(protocol: &Protocol, s: State) -> BTreeSet<Message> {
    let mut found = BTreeSet::new();
    for cell in &protocol.cells {
        if enters(cell, s) {
            found.extend(carriers(cell));
        }
    }
    found
}

/// The message that a `stall` cell stalls. "A stalled event gives no pair."
pub fn stalled_message(cell: &Cell) -> Option<Message> {
    match (cell.trigger, &cell.outcome) {
        (Trigger::Message(message), Outcome::Stall) => Some(message),
        _ => None,
    }
}

/// Request C-12: "take s, and with each state taken also every transient state
/// of that controller having a `go` cell into it." Goes through all cells again
/// and again, until a round takes no state more. A cell's next is a state of its
/// own controller, so no state of the other one is ever taken.
pub fn taken_states(protocol: &Protocol, s: State) -> BTreeSet<State> {
    let mut taken = BTreeSet::new();
    taken.insert(s);
    loop {
        let before = taken.len();
        for cell in &protocol.cells {
            if let Outcome::Go { next, .. } = &cell.outcome {
                if taken.contains(next) && protocol.kind_of(cell.state) == Kind::Transient {
                    taken.insert(cell.state);
                }
            }
        }
        if taken.len() == before {
            return taken;
        }
    }
}

/// "The stallers are the carriers of all cells that enter a taken state."
pub fn stallers_in(protocol: &Protocol, s: State) -> BTreeSet<Message> {
    let mut found = BTreeSet::new();
    for taken in taken_states(protocol, s) {
        found.extend(carriers_into(protocol, taken));
    }
    found
}

/// Rule 3, as request C-12 mends it: a stalls b when b has a `stall` cell in s
/// and a is among the stallers there.
pub fn stalls_of(protocol: &Protocol) -> Relation {
    stalls_by(protocol, stallers_in)
}

/// Rule 3 as it was before request C-12: "a stalls b when b has a `stall` cell in
/// s and a is a carrier of some cell that enters s." For tests.
pub fn stalls_directly_of(protocol: &Protocol) -> Relation {
    stalls_by(protocol, carriers_into)
}

/// Each stalled message, by all that are given for the state it is stalled in.
fn stalls_by(protocol: &Protocol, given: fn(&Protocol, State) -> BTreeSet<Message>) -> Relation {
    let mut stalls = Relation::empty(protocol.messages.len());
    for cell in &protocol.cells {
        if let Some(b) = stalled_message(cell) {
            for a in given(protocol, cell.state) {
                stalls.add(a, b);
            }
        }
    }
    stalls
}

/// Rule 4: "b waits for c when some a stalls b, and c is reached from a by
/// one or more causes steps."
pub fn waits_of(causes: &Relation, stalls: &Relation) -> Relation {
    let reached = causes.one_or_more_steps();
    let mut waits = Relation::empty(causes.count());
    for a in causes.messages() {
        for b in causes.messages().filter(|b| stalls.has(a, *b)) {
            for c in causes.messages().filter(|c| reached.has(a, *c)) {
                waits.add(b, c);
            }
        }
    }
    waits
}

pub(super) fn is_stalled(stalls: &Relation, k: Message) -> bool {
    stalls.messages().any(|a| stalls.has(a, k))
}

/// Rule 5: "m queues behind k when m and k differ, share a network, and k is
/// stalled by something."
pub fn queues_of(stalls: &Relation, mapping: &[Network]) -> Relation {
    let mut queues = Relation::empty(stalls.count());
    for k in stalls.messages().filter(|k| is_stalled(stalls, *k)) {
        for m in stalls.messages() {
            if m != k && mapping[m.0] == mapping[k.0] {
                queues.add(m, k);
            }
        }
    }
    queues
}

// ---------------------------------------------------------------------
// Rules 6 and 7: the verdict, in two ways
// ---------------------------------------------------------------------

/// Rule 6: "a closed walk of waits and queues steps has at least one waits
/// step." So: after some waits step, steps of any kind lead back.
pub fn unfit_by_walks(waits: &Relation, queues: &Relation) -> bool {
    let walks = waits.or(queues).one_or_more_steps();
    for b in waits.messages() {
        for c in waits.messages() {
            if waits.has(b, c) && (b == c || walks.has(c, b)) {
                return true;
            }
        }
    }
    false
}

/// Rule 7: "network A leads to B when a message in A waits for one in B; A
/// and B may be the same." Unfit "when some network leads back to itself in
/// one or more steps."
pub fn unfit_by_networks(waits: &Relation, mapping: &[Network]) -> bool {
    let mut leads: BTreeSet<(Network, Network)> = BTreeSet::new();
    for a in waits.messages() {
        for b in waits.messages() {
            if waits.has(a, b) {
                leads.insert((mapping[a.0], mapping[b.0]));
            }
        }
    }
    networks_used(mapping).iter().any(|network| leads_back(&leads, *network))
}

pub(super) fn leads_back(leads: &BTreeSet<(Network, Network)>, start: Network) -> bool {
    let mut reached: BTreeSet<Network> = BTreeSet::new();
    let mut open = vec![start];
    while let Some(here) = open.pop() {
        for (from, to) in leads {
            if *from == here && reached.insert(*to) {
                open.push(*to);
            }
        }
    }
    reached.contains(&start)
}

/// "A mapping's networks are the different numbers it uses."
pub fn networks_used(mapping: &[Network]) -> BTreeSet<Network> {
    mapping.iter().copied().collect()
}
