//! A safe wrapper around the relations call in its two forms. It names the
//! library: a program with it is built by `rustc -L target/staticlib`.
//!
//! `relations` has rows of 4 bytes and at most 32 messages, `relations64` rows
//! of 8 bytes and at most 64. Slices are all that the library asks for, so
//! nothing is left to the caller: both take any count, any tables and any
//! output.

#![allow(dead_code)]

#[link(name = "zeveltoren", kind = "static")]
extern "C" {
    // The library takes `causes: &[u8], stalls: &[u8], out: &mut [u8]`. Each
    // goes as a pointer and then a length.
    fn vn_relations(
        n: u64,
        causes: *const u8,
        causes_length: usize,
        stalls: *const u8,
        stalls_length: usize,
        out: *mut u8,
        out_length: usize,
    ) -> u64;

    fn vn_relations64(
        n: u64,
        causes: *const u8,
        causes_length: usize,
        stalls: *const u8,
        stalls_length: usize,
        out: *mut u8,
        out_length: usize,
    ) -> u64;
}

/// Either form as the library exports it.
type Exported = unsafe extern "C" fn(u64, *const u8, usize, *const u8, usize, *mut u8, usize) -> u64;

/// The most messages of `relations`, and the bytes of its rows.
pub const MOST_MESSAGES: usize = 32;
pub const ROW_BYTES: usize = 4;

/// The same of `relations64`.
pub const MOST_MESSAGES64: usize = 64;
pub const ROW_BYTES64: usize = 8;

/// Why a call was refused. The numbers are those of the paper.
#[derive(Clone, Copy, Debug, PartialEq, Eq)]
pub enum Refusal {
    /// 17: of `relations`, the count is 0 or above 32, or a table is not 4 bytes
    /// a message; of `relations64`, 0 or above 64, or not 8 bytes a message.
    Count,
    /// 18: a row has a bit at or above the count.
    Stray,
    /// 16: the output has fewer bytes than there are messages.
    Room { needed: usize },
    /// A number that this call never gives.
    Other(u8),
}

impl Refusal {
    /// The refusal of a packed answer, if it is one.
    fn of(packed: u64) -> Option<Refusal> {
        match field(packed, 0, 8) as u8 {
            0 => None,
            16 => Some(Refusal::Room { needed: field(packed, 24, 8) as usize }),
            17 => Some(Refusal::Count),
            18 => Some(Refusal::Stray),
            other => Some(Refusal::Other(other)),
        }
    }

    pub fn number(self) -> u8 {
        match self {
            Refusal::Room { .. } => 16,
            Refusal::Count => 17,
            Refusal::Stray => 18,
            Refusal::Other(number) => number,
        }
    }
}

/// What the relations call returns. On a refusal all numbers are 0.
#[derive(Clone, Copy, Debug, PartialEq, Eq)]
pub struct Answer {
    pub refusal: Option<Refusal>,
    /// How many bytes of the output were written.
    pub length: usize,
    /// The least count of networks; 0 for class 2.
    pub networks: usize,
    /// The number of waits pairs.
    pub pairs: usize,
    /// The number of row joins in closing the causes: for a scheduler that
    /// wants to know how much work that was. At most n times n.
    pub joins: usize,
}

impl Answer {
    /// Bits 0 to 7 are the refusal number, 8 to 15 the length, 16 to 23 the
    /// least count, 24 to 31 the length needed, 32 to 47 the waits pairs, 48 to
    /// 63 the joins.
    pub fn of(packed: u64) -> Answer {
        Answer {
            refusal: Refusal::of(packed),
            length: field(packed, 8, 8) as usize,
            networks: field(packed, 16, 8) as usize,
            pairs: field(packed, 32, 16) as usize,
            joins: field(packed, 48, 16) as usize,
        }
    }

    /// 3 or 2; nothing when the call was refused.
    pub fn class(&self) -> Option<usize> {
        match (self.refusal, self.networks) {
            (Some(_), _) => None,
            (None, 0) => Some(2),
            (None, _) => Some(3),
        }
    }
}

/// `width` bits of a packed answer, from bit `low` on.
fn field(packed: u64, low: u32, width: u32) -> u64 {
    packed >> low & ((1 << width) - 1)
}

/// The relations call, first form. Row i of a table is 4 bytes, lowest byte
/// first; bit j says that i causes (stalls) j. Class 3 writes the network of
/// each message, class 2 the message numbers of the shown cycle. Bytes of `out`
/// after the answer's length stay, and on a refusal all of them.
pub fn relations(n: u64, causes: &[u8], stalls: &[u8], out: &mut [u8]) -> Answer {
    Answer::of(relations_packed(n, causes, stalls, out))
}

/// The second form: row i of a table is 8 bytes. All else is the same.
pub fn relations64(n: u64, causes: &[u8], stalls: &[u8], out: &mut [u8]) -> Answer {
    Answer::of(relations64_packed(n, causes, stalls, out))
}

/// The first form, with the numbers as they come: packed into one.
pub fn relations_packed(n: u64, causes: &[u8], stalls: &[u8], out: &mut [u8]) -> u64 {
    packed(vn_relations, n, causes, stalls, out)
}

/// The second form, in the same way.
pub fn relations64_packed(n: u64, causes: &[u8], stalls: &[u8], out: &mut [u8]) -> u64 {
    packed(vn_relations64, n, causes, stalls, out)
}

fn packed(form: Exported, n: u64, causes: &[u8], stalls: &[u8], out: &mut [u8]) -> u64 {
    // The pointers of slices are good for their lengths, and no `&mut [u8]`
    // shares a byte with another slice. That is all that the library asks.
    // An empty slice has some pointer that is not null, and the library does
    // not follow it.
    unsafe {
        form(
            n,
            causes.as_ptr(),
            causes.len(),
            stalls.as_ptr(),
            stalls.len(),
            out.as_mut_ptr(),
            out.len(),
        )
    }
}

/// The most bytes of stack that a call takes, its return address counted.
pub const MOST_STACK: usize = 1_280;
pub const MOST_STACK64: usize = 2_048;

/// Where the calls stand, for who measures their stack.
pub fn relations_address() -> usize {
    vn_relations as *const () as usize
}

pub fn relations64_address() -> usize {
    vn_relations64 as *const () as usize
}

/// The words of a call of either form, as they go over to the library.
pub fn relations_words(n: u64, causes: &[u8], stalls: &[u8], out: &mut [u8]) -> [usize; 7] {
    [
        n as usize,
        causes.as_ptr() as usize,
        causes.len(),
        stalls.as_ptr() as usize,
        stalls.len(),
        out.as_mut_ptr() as usize,
        out.len(),
    ]
}

/// Sets the pair (from, to) in a table of `relations`.
pub fn set_pair(table: &mut [u8], from: usize, to: usize) {
    set_bit(table, ROW_BYTES, from, to);
}

/// Sets the pair (from, to) in a table of `relations64`.
pub fn set_pair64(table: &mut [u8], from: usize, to: usize) {
    set_bit(table, ROW_BYTES64, from, to);
}

fn set_bit(table: &mut [u8], row_bytes: usize, from: usize, to: usize) {
    table[row_bytes * from + to / 8] |= 1 << (to % 8);
}
