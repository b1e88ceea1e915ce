//! The least count, the printed mapping, the shown cycle, plans and judgements.

use super::*;

// ---------------------------------------------------------------------
// The least count and the printed mapping
// ---------------------------------------------------------------------

/// "A message's network is the number of waits steps on the longest waits
/// chain that starts at it". Only for waits without a cycle.
pub fn printed_mapping(waits: &Relation) -> Vec<Network> {
    let mut known: Vec<Option<usize>> = vec![None; waits.count()];
    let mut mapping = Vec::new();
    for message in waits.messages() {
        mapping.push(Network(longest_chain(waits, message, &mut known)));
    }
    mapping
}

/// Waits steps on the longest chain from a message; `known` keeps answers.
pub(super) fn longest_chain(waits: &Relation, from: Message, known: &mut Vec<Option<usize>>) -> usize {
    if let Some(steps) = known[from.0] {
        return steps;
    }
    let mut longest = 0;
    for to in waits.messages().filter(|to| waits.has(from, *to)) {
        let steps = 1 + longest_chain(waits, to, known);
        longest = longest.max(steps);
    }
    known[from.0] = Some(longest);
    longest
}

/// The fewest networks of any fit mapping; nothing in class 2. A chain of k
/// messages needs k networks, and the printed mapping uses no more.
pub fn least_count(waits: &Relation) -> Option<usize> {
    if waits.has_cycle() {
        return None;
    }
    Some(networks_used(&printed_mapping(waits)).len())
}

/// The same by brute force, for up to 5 messages: all ways to part the
/// messages into networks, each judged by rule 6.
pub fn least_count_by_brute_force(waits: &Relation, stalls: &Relation) -> Option<usize> {
    let count = waits.count();
    assert!(count <= 5, "brute force is for small cases");
    let mut least: Option<usize> = None;
    for mapping in all_mappings(count) {
        if !unfit_by_walks(waits, &queues_of(stalls, &mapping)) {
            let networks = networks_used(&mapping).len();
            least = Some(least.map_or(networks, |found| found.min(networks)));
        }
    }
    least
}

/// Every way to part the messages, once each: a message joins a network in
/// use before it, or opens the next one.
pub fn all_mappings(count: usize) -> Vec<Vec<Network>> {
    let mut mappings: Vec<Vec<Network>> = vec![Vec::new()];
    for _ in 0..count {
        let mut longer = Vec::new();
        for mapping in &mappings {
            let in_use = networks_used(mapping).len();
            for number in 0..=in_use {
                let mut extended = mapping.clone();
                extended.push(Network(number));
                longer.push(extended);
            }
        }
        mappings = longer;
    }
    mappings
}

// ---------------------------------------------------------------------
// The shown cycle
// ---------------------------------------------------------------------

#[derive(Clone, Copy, Debug, PartialEq, Eq)]
pub enum Word {
    Waits,
    Queues,
}

#[derive(Clone, Copy, Debug, PartialEq, Eq)]
pub struct Step {
    pub from: Message,
    pub word: Word,
    pub to: Message,
}

/// "Of all closed walks, written so that the first step is a waits step,
/// take the shortest; among those, the one whose list of message numbers is
/// first in dictionary order." Without queues this is the cycle of a plan.
///
/// A walk that comes twice to one message can be cut there into two closed
/// walks, and the one with the waits step is shorter. So no shortest walk is
/// longer than the number of messages.
pub fn shown_cycle(waits: &Relation, queues: &Relation) -> Option<Vec<Message>> {
    let count = waits.count();
    let any_step = waits.or(queues);
    // exactly[k] has (m, t) when t is reached from m in exactly k steps.
    let mut exactly = vec![Relation::same(count)];
    for length in 1..=count {
        for start in messages_below(count) {
            if closes(waits, &exactly[length - 1], start) {
                return Some(first_walk(waits, &any_step, &exactly, start, length));
            }
        }
        let one_more = any_step.then(&exactly[length - 1]);
        exactly.push(one_more);
    }
    None
}

/// A waits step from `start`, and then the rest of the walk back to it.
pub(super) fn closes(waits: &Relation, rest: &Relation, start: Message) -> bool {
    waits.messages().any(|next| waits.has(start, next) && rest.has(next, start))
}

/// The first closed walk of this start and length in dictionary order: at
/// each place the first message from which the rest can be walked.
pub(super) fn first_walk(
    waits: &Relation,
    any_step: &Relation,
    exactly: &[Relation],
    start: Message,
    length: usize,
) -> Vec<Message> {
    let mut walk = vec![start];
    for place in 1..length {
        let here = walk[place - 1];
        let steps = if place == 1 { waits } else { any_step };
        let rest = &exactly[length - place];
        let next = waits
            .messages()
            .find(|next| steps.has(here, *next) && rest.has(*next, start))
            .expect("the walk exists");
        walk.push(next);
    }
    walk
}

/// The steps of a closed walk. "A step that is both waits and queues is shown
/// as waits."
pub fn steps_of(cycle: &[Message], waits: &Relation) -> Vec<Step> {
    let mut steps = Vec::new();
    for place in 0..cycle.len() {
        let from = cycle[place];
        let to = cycle[(place + 1) % cycle.len()];
        let word = if waits.has(from, to) { Word::Waits } else { Word::Queues };
        steps.push(Step { from, word, to });
    }
    steps
}

// ---------------------------------------------------------------------
// Plans and judgements
// ---------------------------------------------------------------------

#[derive(Clone, Debug, PartialEq, Eq)]
pub enum Plan {
    Class2 { cycle: Vec<Message> },
    Class3 { networks: usize, mapping: Vec<Network> },
}

#[derive(Clone, Debug, PartialEq, Eq)]
pub enum Verdict {
    Fit,
    Unfit { steps: Vec<Step> },
}

/// "class 2" means that the waits have a cycle, class 3 that they have none.
pub fn plan_of(waits: &Relation) -> Plan {
    match least_count(waits) {
        Some(networks) => Plan::Class3 { networks, mapping: printed_mapping(waits) },
        None => {
            let no_queues = Relation::empty(waits.count());
            let cycle = shown_cycle(waits, &no_queues).expect("class 2 has a cycle");
            Plan::Class2 { cycle }
        }
    }
}

pub fn verdict_of(waits: &Relation, stalls: &Relation, mapping: &[Network]) -> Verdict {
    let queues = queues_of(stalls, mapping);
    if !unfit_by_walks(waits, &queues) {
        return Verdict::Fit;
    }
    let cycle = shown_cycle(waits, &queues).expect("an unfit mapping has a cycle");
    Verdict::Unfit { steps: steps_of(&cycle, waits) }
}
