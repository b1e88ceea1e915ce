//! Chains and rings of transient states, for request C-12: which states are taken with a state of a draft, and links
//! between states, along which most `go` cells of a draft with chains lead.

use super::*;

/// A `go` cell that enters a state: the state it stands in, its next, and the
/// lowest of its carriers.
pub(super) struct Entry {
    pub state: State,
    pub next: State,
    pub lowest: Option<Message>,
}

/// A state and its next. A quiet one is gone along by an event that sends
/// nothing, so that it has no carrier.
#[derive(Clone, Copy)]
pub(super) struct Link {
    pub state: State,
    pub next: State,
    pub quiet: bool,
}

impl Draft {
    /// The state, and by request C-12 all that are taken with it.
    fn taken(&self, state: State) -> BTreeSet<State> {
        let mut taken = BTreeSet::new();
        let mut open = vec![state];
        while let Some(here) = open.pop() {
            if taken.insert(here) {
                let before = self.entries.iter().filter(|entry| entry.next == here).map(|entry| entry.state);
                open.extend(before.filter(|state| self.state(*state).transient));
            }
        }
        taken
    }

    /// The lowest carrier of the cells that enter the state.
    pub(super) fn lowest_carrier(&self, state: State) -> Option<Message> {
        self.entries.iter().filter(|entry| entry.next == state).filter_map(|entry| entry.lowest).min()
    }

    /// The lowest message that stalls whatever is stalled in the state.
    pub(super) fn lowest_staller(&self, state: State) -> Option<Message> {
        if self.older {
            return self.lowest_carrier(state);
        }
        self.taken(state).into_iter().filter_map(|state| self.lowest_carrier(state)).min()
    }

    /// Most of the time a link, if there are any.
    pub(super) fn pick_link(&self, random: &mut Random) -> Option<Link> {
        if self.links.is_empty() || random.chance(1, 6) {
            return None;
        }
        Some(*random.pick(&self.links))
    }
}

/// The draft with other states, some more of them, most of them transient and in
/// chains. Some chains are rings, some are entered from another one, and some from
/// no state at all.
pub(super) fn with_chains(random: &mut Random, mut draft: Draft) -> Draft {
    let count = (draft.states.len() + random.between(1, 4)).min(MOST_STATES);
    let on_cache = *random.pick(&[1, 3, 5]);
    draft.states = draft_states(random, count, (on_cache, 6), (5, 6));
    // Then the old rule gives class 3, and the mended one may give class 2.
    if draft.layered == Layered::ByTaken && random.chance(1, 2) {
        draft.layered = Layered::ByEntries;
    }
    for controller in ["cache", "dir"] {
        let states = draft.states_of(controller);
        let (mut transient, stable): (Vec<State>, Vec<State>) =
            states.into_iter().partition(|state| draft.state(*state).transient);
        random.shuffle(&mut transient);
        let quiet = if controller == "cache" && !draft.events.is_empty() { *random.pick(&[0, 1, 3]) } else { 0 };
        let mut rest = transient.as_slice();
        while !rest.is_empty() {
            let (chain, later) = rest.split_at(random.between(1, 5).min(rest.len()));
            for (state, next) in links_of(random, chain, &stable, &transient) {
                draft.links.push(Link { state, next, quiet: random.chance(quiet, 4) });
            }
            rest = later;
        }
    }
    draft
}

/// Into a chain, along it, and out of it.
fn links_of(random: &mut Random, chain: &[State], stable: &[State], transient: &[State]) -> Vec<(State, State)> {
    let (first, last) = (chain[0], chain[chain.len() - 1]);
    let mut links: Vec<(State, State)> = chain.windows(2).map(|two| (two[0], two[1])).collect();
    if !stable.is_empty() && random.chance(5, 6) {
        links.push((*random.pick(stable), first));
    }
    if random.chance(1, 4) {
        links.push((*random.pick(transient), first));
    }
    match random.below(4) {
        0 => links.push((last, *random.pick(chain))),
        1 | 2 if !stable.is_empty() => links.push((last, *random.pick(stable))),
        _ => {}
    }
    links
}
