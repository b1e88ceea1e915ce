//! The relations call, the plain variant.

use super::*;

/// The numbers that the relations call returns.
#[derive(Clone, Copy, Debug, PartialEq, Eq)]
pub struct Numbers {
    pub number: u64,
    pub length: u64,
    pub networks: u64,
    pub needed: u64,
    pub pairs: u64,
    pub joins: u64,
}

impl Numbers {
    pub(super) fn refused(number: u64, needed: u64) -> Numbers {
        Numbers { number, length: 0, networks: 0, needed, pairs: 0, joins: 0 }
    }

    /// "bits 0 to 7 the refusal number (0 on success), 8 to 15 the length, 16
    /// to 23 the least count, 24 to 31 the length needed, 32 to 47 the waits
    /// pairs, the rest 0." By request C-23 the rest is the number of row joins:
    /// "bits 48 to 63 for the C host; 0 with a refusal".
    pub fn packed(&self) -> u64 {
        self.number
            + (self.length << 8)
            + (self.networks << 16)
            + (self.needed << 24)
            + (self.pairs << 32)
            + (self.joins << 48)
    }
}

/// The answer of the relations call. `bytes` are those written.
#[derive(Clone, Debug, PartialEq, Eq)]
pub struct Answer {
    pub number: u64,
    pub length: u64,
    pub networks: u64,
    pub needed: u64,
    pub pairs: u64,
    pub joins: u64,
    pub bytes: Vec<u8>,
}

impl Answer {
    fn new(numbers: Numbers, bytes: Vec<u8>) -> Answer {
        let Numbers { number, length, networks, needed, pairs, joins } = numbers;
        Answer { number, length, networks, needed, pairs, joins, bytes }
    }

    pub fn numbers(&self) -> Numbers {
        let Answer { number, length, networks, needed, pairs, joins, .. } = *self;
        Numbers { number, length, networks, needed, pairs, joins }
    }

    pub fn packed(&self) -> u64 {
        self.numbers().packed()
    }
}

/// A form of the relations call: how many bytes a row has, and how many
/// messages there may be.
#[derive(Clone, Copy, Debug, PartialEq, Eq)]
pub struct Form {
    pub row_bytes: usize,
    pub most_messages: usize,
}

/// "message count 0 or above 32, or a table not exactly 4 bytes a message"
pub const FIRST_FORM: Form = Form { row_bytes: 4, most_messages: 32 };

/// Request C-15: "The relations call gets a second form with 8-byte rows."
pub const SECOND_FORM: Form = Form { row_bytes: 8, most_messages: MOST_MESSAGES };

/// The relations call, first form.
pub fn relations(n: u64, causes: &[u8], stalls: &[u8], room: usize) -> Answer {
    relations_in(FIRST_FORM, n, causes, stalls, room)
}

/// The relations call, second form.
pub fn relations64(n: u64, causes: &[u8], stalls: &[u8], room: usize) -> Answer {
    relations_in(SECOND_FORM, n, causes, stalls, room)
}

/// "It checks 17, 18, then 16 (length needed: n)."
pub fn relations_in(form: Form, n: u64, causes: &[u8], stalls: &[u8], room: usize) -> Answer {
    if n == 0 || n > form.most_messages as u64 {
        return Answer::new(Numbers::refused(COUNT, 0), Vec::new());
    }
    let count = n as usize;
    let bytes = form.row_bytes * count;
    if causes.len() != bytes || stalls.len() != bytes {
        return Answer::new(Numbers::refused(COUNT, 0), Vec::new());
    }
    let (causes, stalls) = match (read_rows(form, count, causes), read_rows(form, count, stalls)) {
        (Some(causes), Some(stalls)) => (causes, stalls),
        _ => return Answer::new(Numbers::refused(STRAY, 0), Vec::new()),
    };
    if room < count {
        return Answer::new(Numbers::refused(ROOM, n), Vec::new());
    }
    let (_, joins) = causes.joined();
    relations_answer(&waits_of(&causes, &stalls), joins)
}

/// A table of the first form.
pub fn read_table(count: usize, table: &[u8]) -> Option<Relation> {
    read_rows(FIRST_FORM, count, table)
}

/// A table of the second form.
pub fn read_table64(count: usize, table: &[u8]) -> Option<Relation> {
    read_rows(SECOND_FORM, count, table)
}

/// "Row i is 4 bytes, lowest byte first; bit j says that i causes (stalls)
/// j." In the second form 8 bytes. Nothing when a bit stands at or above the
/// count.
pub(super) fn read_rows(form: Form, count: usize, table: &[u8]) -> Option<Relation> {
    let mut relation = Relation::empty(count);
    for from in messages_below(count) {
        for bit in 0..8 * form.row_bytes {
            let byte = table[form.row_bytes * from.0 + bit / 8];
            if byte >> (bit % 8) & 1 == 1 {
                if bit >= count {
                    return None;
                }
                relation.add(from, Message(bit));
            }
        }
    }
    Some(relation)
}

/// Class 3: the least count, length n, n network bytes. Class 2: count 0, the
/// cycle's length and its message numbers. Both: the number of waits pairs,
/// and of row joins in closing causes.
pub(super) fn relations_answer(waits: &Relation, joins: usize) -> Answer {
    let (networks, bytes): (usize, Vec<u8>) = match plan_of(waits) {
        Plan::Class3 { networks, mapping } => {
            (networks, mapping.iter().map(|network| network.0 as u8).collect())
        }
        Plan::Class2 { cycle } => (0, cycle.iter().map(|message| message.0 as u8).collect()),
    };
    let numbers = Numbers {
        number: 0,
        length: bytes.len() as u64,
        networks: networks as u64,
        needed: 0,
        pairs: waits.pairs() as u64,
        joins: joins as u64,
    };
    Answer::new(numbers, bytes)
}
