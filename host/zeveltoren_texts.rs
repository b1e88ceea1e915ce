//! A safe wrapper around the calls on texts. It names the library: a program
//! with it is built by `rustc -L target/staticlib`.
//!
//! Slices are all that the calls ask for: any texts and any output are
//! answered or refused. A mapping's first line is `vn-mapping` 1, with at most
//! 32 `map` lines and networks up to 31, or `vn-mapping` 2, with 64 and 63.

#![allow(dead_code)]

#[link(name = "zeveltoren", kind = "static")]
extern "C" {
    // The library takes slices. Each goes as a pointer and then a length.
    fn vn_check_protocol(text: *const u8, text_length: usize) -> u64;

    fn vn_plan_text(text: *const u8, text_length: usize, out: *mut u8, out_length: usize) -> u64;

    fn vn_judge_texts(
        protocol: *const u8,
        protocol_length: usize,
        mapping: *const u8,
        mapping_length: usize,
        out: *mut u8,
        out_length: usize,
    ) -> u64;
}

/// The most messages of a protocol text.
pub const MOST_MESSAGES: usize = 64;

/// No plan is longer: 64 `map` lines with names of 24 bytes.
pub const LONGEST_PLAN: usize = 2_078;

/// No judgement is longer, and so no listing: 64 steps with names of 24 bytes.
pub const LONGEST_LISTING: usize = 3_985;

/// Which of the two texts a refusal speaks of.
#[derive(Clone, Copy, Debug, PartialEq, Eq)]
pub enum Paper {
    Protocol,
    Mapping,
}

/// Why there is no listing.
#[derive(Clone, Copy, Debug, PartialEq, Eq)]
pub enum Refusal {
    /// 1 to 15 of the paper; 9 and 15 of a mapping by the limits of its header.
    /// Lines count from 1; 0 is the whole text. So do the fields of a line, of which
    /// the first bad one is told; 0 is the whole line or text.
    Text { number: u8, paper: Paper, line: usize, field: usize },
    /// 16: the listing is longer than the output.
    Room { needed: usize },
}

/// The listing of a plan. On success the listing stands at the start of `out`
/// and its length is returned; the bytes after it stay. On a refusal all bytes
/// of `out` stay.
pub fn plan(text: &[u8], out: &mut [u8]) -> Result<usize, Refusal> {
    taken_apart(plan_packed(text, out))
}

/// The listing of a judgement, in the same way.
pub fn judge(protocol: &[u8], mapping: &[u8], out: &mut [u8]) -> Result<usize, Refusal> {
    taken_apart(judge_packed(protocol, mapping, out))
}

/// Bits 0 to 7 are the refusal number, 8 to 15 the paper, 16 to 31 the line,
/// 32 to 47 the length, or with 16 the length needed, 48 to 55 the field.
pub fn taken_apart(packed: u64) -> Result<usize, Refusal> {
    let length = (packed >> 32 & 0xffff) as usize;
    match (packed & 0xff) as u8 {
        0 => Ok(length),
        16 => Err(Refusal::Room { needed: length }),
        number => {
            let paper = if packed >> 8 & 0xff == 0 { Paper::Protocol } else { Paper::Mapping };
            let (line, field) = (packed >> 16 & 0xffff, packed >> 48 & 0xff);
            Err(Refusal::Text { number, paper, line: line as usize, field: field as usize })
        }
    }
}

/// The plan's numbers as they come: packed into one.
pub fn plan_packed(text: &[u8], out: &mut [u8]) -> u64 {
    // The pointers of slices are good for their lengths, and no `&mut [u8]`
    // shares a byte with another slice. That is all that the library asks.
    unsafe { vn_plan_text(text.as_ptr(), text.len(), out.as_mut_ptr(), out.len()) }
}

/// The judgement's numbers as they come.
pub fn judge_packed(protocol: &[u8], mapping: &[u8], out: &mut [u8]) -> u64 {
    // As above.
    unsafe {
        vn_judge_texts(
            protocol.as_ptr(),
            protocol.len(),
            mapping.as_ptr(),
            mapping.len(),
            out.as_mut_ptr(),
            out.len(),
        )
    }
}

/// Whether a protocol text is accepted, and if not why and where.
pub fn check_protocol(text: &[u8]) -> Result<(), Refusal> {
    taken_apart(check_protocol_packed(text)).map(|_| ())
}

/// The same, as it comes, in the places that `taken_apart` reads: the paper
/// and the length are 0.
pub fn check_protocol_packed(text: &[u8]) -> u64 {
    // A slice's pointer is good for its length. That is all that is asked.
    unsafe { vn_check_protocol(text.as_ptr(), text.len()) }
}

/// Where the calls stand, for who measures their stack.
pub fn check_address() -> usize {
    vn_check_protocol as *const () as usize
}

pub fn plan_address() -> usize {
    vn_plan_text as *const () as usize
}

pub fn judge_address() -> usize {
    vn_judge_texts as *const () as usize
}
