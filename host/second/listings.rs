//! Listings, and the two text calls.

use super::*;

// ---------------------------------------------------------------------
// Listings
// ---------------------------------------------------------------------

/// "Numbers are printed in decimal, highest digit first."
pub fn decimal(number: usize) -> Vec<u8> {
    number.to_string().into_bytes()
}

/// "The fields of these lines are parted by tabs."
pub(super) fn push_line(listing: &mut Vec<u8>, fields: &[&[u8]]) {
    listing.extend(fields.join(&TAB));
    listing.push(LINE_END);
}

pub fn plan_listing(names: &[Vec<u8>], plan: &Plan) -> Vec<u8> {
    let mut listing = Vec::new();
    push_line(&mut listing, &[b"vn-plan", b"1"]);
    match plan {
        Plan::Class2 { cycle } => {
            push_line(&mut listing, &[b"class", b"2"]);
            let mut fields: Vec<&[u8]> = vec![b"cycle"];
            fields.extend(cycle.iter().map(|message| names[message.0].as_slice()));
            push_line(&mut listing, &fields);
        }
        Plan::Class3 { networks, mapping } => {
            push_line(&mut listing, &[b"class", b"3"]);
            push_line(&mut listing, &[b"networks", &decimal(*networks)]);
            for (name, network) in names.iter().zip(mapping) {
                push_line(&mut listing, &[b"map", name, &decimal(network.0)]);
            }
        }
    }
    listing
}

pub fn judge_listing(names: &[Vec<u8>], verdict: &Verdict) -> Vec<u8> {
    let mut listing = Vec::new();
    push_line(&mut listing, &[b"vn-judge", b"1"]);
    match verdict {
        Verdict::Fit => push_line(&mut listing, &[b"fit"]),
        Verdict::Unfit { steps } => {
            push_line(&mut listing, &[b"unfit"]);
            for step in steps {
                let word: &[u8] = match step.word {
                    Word::Waits => b"waits",
                    Word::Queues => b"queues",
                };
                let (from, to) = (&names[step.from.0], &names[step.to.0]);
                push_line(&mut listing, &[b"step", from, word, to]);
            }
        }
    }
    listing
}

// ---------------------------------------------------------------------
// The two text calls
// ---------------------------------------------------------------------

/// A finished listing.
pub type Listing = Vec<u8>;

pub fn plan(text: &[u8]) -> Result<Listing, Refusal> {
    let protocol = read_protocol(text)?;
    let waits = waits_of(&causes_of(&protocol), &stalls_of(&protocol));
    Ok(plan_listing(&protocol.message_names(), &plan_of(&waits)))
}

/// "A judgement checks the protocol (paper 0), then the mapping (paper 1)".
pub fn judge(protocol_text: &[u8], mapping_text: &[u8]) -> Result<Listing, Refusal> {
    let protocol = read_protocol(protocol_text)?;
    let names = protocol.message_names();
    let mapping = read_mapping(mapping_text, &names)?;
    let stalls = stalls_of(&protocol);
    let waits = waits_of(&causes_of(&protocol), &stalls);
    Ok(judge_listing(&names, &verdict_of(&waits, &stalls, &mapping)))
}

/// What a program prints: the listing, or `refused` number paper line field.
pub fn printed(result: &Result<Listing, Refusal>) -> Vec<u8> {
    match result {
        Ok(listing) => listing.clone(),
        Err(refused) => {
            let mut line = Vec::new();
            let number = decimal(refused.number as usize);
            let paper = decimal(refused.paper as usize);
            let place = decimal(refused.line as usize);
            let field = decimal(refused.field as usize);
            push_line(&mut line, &[b"refused", &number, &paper, &place, &field]);
            line
        }
    }
}

/// The answer of a text call with lent room. `bytes` are those written.
#[derive(Clone, Debug, PartialEq, Eq)]
pub struct TextAnswer {
    pub number: u64,
    pub paper: u64,
    pub line: u64,
    pub field: u64,
    pub length: u64,
    pub needed: u64,
    pub bytes: Vec<u8>,
}

impl TextAnswer {
    /// Bits 0 to 7 the refusal number, 8 to 15 the paper, 16 to 31 the line,
    /// 32 to 47 the length (with 16: the length needed), 48 to 55 the field, the
    /// rest 0.
    pub fn packed(&self) -> u64 {
        let length = if self.number == ROOM { self.needed } else { self.length };
        self.number + (self.paper << 8) + (self.line << 16) + (length << 32) + (self.field << 48)
    }
}

pub fn plan_with_room(text: &[u8], room: usize) -> TextAnswer {
    with_room(plan(text), room)
}

pub fn judge_with_room(protocol_text: &[u8], mapping_text: &[u8], room: usize) -> TextAnswer {
    with_room(judge(protocol_text, mapping_text), room)
}

/// Refusal 16 comes last: "the finished text or list is longer than the lent
/// output". "ROOM also returns the length needed".
pub fn with_room(result: Result<Listing, Refusal>, room: usize) -> TextAnswer {
    let mut answer =
        TextAnswer { number: 0, paper: 0, line: 0, field: 0, length: 0, needed: 0, bytes: Vec::new() };
    match result {
        Err(refused) => {
            answer.number = refused.number;
            answer.paper = refused.paper;
            answer.line = refused.line;
            answer.field = refused.field;
        }
        Ok(listing) if listing.len() > room => {
            answer.number = ROOM;
            answer.needed = listing.len() as u64;
        }
        Ok(listing) => {
            answer.length = listing.len() as u64;
            answer.bytes = listing;
        }
    }
    answer
}
