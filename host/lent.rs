//! The calls on texts in lent bytes that are watched: what stands around the
//! texts and the output, and every byte of the output, is compared.

#![allow(dead_code)]

use crate::second::{self, Listing, Refusal, TextAnswer};
use crate::zeveltoren_texts;

/// Bytes around everything that is lent.
const MARGIN: usize = 16;

/// What stands at a place before a call; no listing has such a byte.
fn filling(place: usize) -> u8 {
    128 + (place * 37 % 128) as u8
}

/// A text among bytes that would be read as more of it: line ends before it,
/// a record after it. It begins at odd places too.
struct Framed {
    bytes: Vec<u8>,
    start: usize,
    length: usize,
}

impl Framed {
    fn new(text: &[u8]) -> Framed {
        let start = MARGIN + text.len() % 4;
        let mut bytes = vec![10; start];
        bytes.extend_from_slice(text);
        bytes.extend_from_slice(b"event\tpast-the-end\n");
        Framed { bytes, start, length: text.len() }
    }

    fn text(&self) -> &[u8] {
        &self.bytes[self.start..self.start + self.length]
    }
}

/// What a call gave: the packed number, and the output with its margins.
#[derive(Clone, Debug, PartialEq, Eq)]
pub struct Given {
    pub packed: u64,
    pub buffer: Vec<u8>,
}

/// Makes a call in the middle of filled bytes.
fn given(room: usize, call: impl FnOnce(&mut [u8]) -> u64) -> Given {
    let mut buffer: Vec<u8> = (0..room + 2 * MARGIN).map(filling).collect();
    let packed = call(&mut buffer[MARGIN..MARGIN + room]);
    Given { packed, buffer }
}

pub fn given_plan(text: &[u8], room: usize) -> Given {
    let framed = Framed::new(text);
    let given = given(room, |out| zeveltoren_texts::plan_packed(framed.text(), out));
    assert!(framed.text() == text, "the text was changed");
    given
}

pub fn given_judgement(protocol: &[u8], mapping: &[u8], room: usize) -> Given {
    let (framed, framed_mapping) = (Framed::new(protocol), Framed::new(mapping));
    let given = given(room, |out| {
        zeveltoren_texts::judge_packed(framed.text(), framed_mapping.text(), out)
    });
    assert!(framed.text() == protocol && framed_mapping.text() == mapping, "a text was changed");
    given
}

/// What has to come out: the listing's bytes at the start of the output, and
/// all else as it was.
pub fn wanted(answer: &TextAnswer, room: usize) -> Given {
    let mut buffer: Vec<u8> = (0..room + 2 * MARGIN).map(filling).collect();
    buffer[MARGIN..MARGIN + answer.bytes.len()].copy_from_slice(&answer.bytes);
    Given { packed: answer.packed(), buffer }
}

/// Both as one value: what the second program says, with this much room.
pub fn wanted_with(result: &Result<Listing, Refusal>, room: usize) -> Given {
    wanted(&second::with_room(result.clone(), room), room)
}
