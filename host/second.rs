//! The second program.
//!
//! Written from the paper "The work to build and its rules" and the requests
//! C-12, C-14, C-15 and C-23 alone, in plain loops, to be compared with the proved
//! program.
//! Rule numbers and refusal numbers in the comments are those of the paper.
//!
//! Everything here is plain, but for `fast`, a variant of the relations call
//! that serves the benchmark.

#![allow(dead_code, unused_imports)]

mod tables;
mod reading;
mod rules;
mod plans;
mod listings;
mod relations_call;
mod fast;

pub use tables::*;
pub use reading::*;
pub use rules::*;
pub use plans::*;
pub use listings::*;
pub use relations_call::*;
pub use fast::*;

// ---------------------------------------------------------------------
// Numbers
// ---------------------------------------------------------------------

/// A message number: messages count from 0 in file order.
#[derive(Clone, Copy, Debug, PartialEq, Eq, PartialOrd, Ord)]
pub struct Message(pub usize);

/// A network number.
#[derive(Clone, Copy, Debug, PartialEq, Eq, PartialOrd, Ord)]
pub struct Network(pub usize);

/// A state number: states of both controllers count from 0 in file order.
#[derive(Clone, Copy, Debug, PartialEq, Eq, PartialOrd, Ord)]
pub struct State(pub usize);

/// An event number.
#[derive(Clone, Copy, Debug, PartialEq, Eq, PartialOrd, Ord)]
pub struct Event(pub usize);

// "Most allowed: 49,152 bytes, 32 messages, 8 events, 64 states over both
// controllers, 512 cells." Request C-15: "Raise messages to 64".
pub const MOST_BYTES: usize = 49_152;
pub const MOST_MESSAGES: usize = 64;
pub const MOST_EVENTS: usize = 8;
pub const MOST_STATES: usize = 64;
pub const MOST_CELLS: usize = 512;

/// "followed by 0 to 8 messages sent"
pub const MOST_SENT: usize = 8;
/// "A name has 1 to 24 bytes"
pub const LONGEST_NAME: usize = 24;
/// Request C-15: "Raise [..] network numbers to 63." A mapping's header may
/// allow less.
pub const HIGHEST_NETWORK: usize = 63;

const TAB: u8 = 9;
const LINE_END: u8 = 10;

/// All messages below a count, in order.
pub fn messages_below(count: usize) -> impl Iterator<Item = Message> {
    (0..count).map(Message)
}

// ---------------------------------------------------------------------
// Refusals
// ---------------------------------------------------------------------

pub const TOO_BIG: u64 = 1;
pub const NO_END: u64 = 2;
pub const HEADER: u64 = 3;
pub const SHAPE: u64 = 4;
pub const ORDER: u64 = 5;
pub const NAME: u64 = 6;
pub const UNKNOWN: u64 = 7;
pub const TWICE: u64 = 8;
pub const FULL: u64 = 9;
pub const STALL_STABLE: u64 = 10;
pub const CONFLICT: u64 = 11;
pub const NO_MESSAGE: u64 = 12;
pub const NO_ENTRY: u64 = 13;
pub const UNMATCHED: u64 = 14;
pub const NETWORK: u64 = 15;
pub const ROOM: u64 = 16;
pub const COUNT: u64 = 17;
pub const STRAY: u64 = 18;

/// Paper 0 is the protocol, paper 1 the mapping.
pub const PROTOCOL_PAPER: u64 = 0;
pub const MAPPING_PAPER: u64 = 1;

/// "A refusal returns number, paper, line", and by request C-14 the field. Lines
/// and fields count from 1.
#[derive(Clone, Copy, Debug, PartialEq, Eq)]
pub struct Refusal {
    pub number: u64,
    pub paper: u64,
    pub line: u64,
    pub field: u64,
}

/// "0 where the whole line or text is meant"
const WHOLE_LINE: usize = 0;

/// Of a whole line or text.
fn refusal(number: u64, paper: u64, line: usize) -> Refusal {
    Fault::of_line(number).refusal(paper, line)
}

/// What a line is refused for: the number and the field.
#[derive(Clone, Copy, Debug, PartialEq, Eq)]
pub(crate) struct Fault {
    number: u64,
    field: usize,
}

impl Fault {
    fn of_field(number: u64, field: usize) -> Fault {
        Fault { number, field }
    }

    fn of_line(number: u64) -> Fault {
        Fault { number, field: WHOLE_LINE }
    }

    fn refusal(self, paper: u64, line: usize) -> Refusal {
        Refusal { number: self.number, paper, line: line as u64, field: self.field as u64 }
    }
}
