//! The protocol reader of the library against the second program's, through
//! the exported call: refusal numbers, lines and fields, each in its place.

#![allow(dead_code)]

mod limits;
mod random;
mod second;
mod zeveltoren_texts;

use random::Random;
use std::collections::BTreeSet;
use zeveltoren_texts::{Paper, Refusal};

/// What the second program says of a text.
fn wanted(text: &[u8]) -> Result<(), second::Refusal> {
    second::read_protocol(text).map(|_| ())
}

fn refused(number: u64, line: u64, field: u64) -> Result<(), Refusal> {
    let (line, field) = (line as usize, field as usize);
    Err(Refusal::Text { number: number as u8, paper: Paper::Protocol, line, field })
}

/// All 64 bits, which are those of a plan of the same text that is refused.
fn compare(text: &[u8]) {
    let shown = String::from_utf8_lossy(text);
    let packed = zeveltoren_texts::check_protocol_packed(text);
    let checked = zeveltoren_texts::check_protocol(text);
    match wanted(text) {
        Ok(()) => assert_eq!((packed, checked), (0, Ok(())), "{}", shown),
        Err(second::Refusal { number, line, field, .. }) => {
            assert_eq!(packed, number | line << 16 | field << 48, "{}", shown);
            assert_eq!(checked, refused(number, line, field), "{}", shown);
            assert_eq!(packed, zeveltoren_texts::plan_packed(text, &mut []), "{}", shown);
        }
    }
}

fn seed() -> u64 {
    let seed = std::env::var("SEED").ok().and_then(|text| text.parse().ok()).unwrap_or(20_261_115);
    println!("seed {}", seed);
    seed
}

/// A protocol of so many messages, and nothing else.
fn messages_alone(count: usize) -> Vec<u8> {
    let lines = (0..count).map(|number| format!("message\tm{}\treq\n", number));
    format!("vn-protocol\t1\n{}", lines.collect::<String>()).into_bytes()
}

#[test]
fn texts_at_the_limits() {
    for messages in [32, 33, 47, 63, 64] {
        let full = limits::full_of(messages);
        assert_eq!(full.len(), 49_152);
        assert_eq!(zeveltoren_texts::check_protocol(&full), Ok(()));
    }
    assert_eq!(zeveltoren_texts::check_protocol(&messages_alone(64)), Ok(()));
    assert_eq!(zeveltoren_texts::check_protocol(&messages_alone(65)), refused(9, 66, 0));
    for past in limits::one_more_of_each() {
        compare(&past.text);
    }
}

#[test]
fn short_texts() {
    for text in [&b""[..], b"\n", b"\n\n", b"vn-protocol\t1", b"vn-protocol\t1\n", b"vn-protocol\t1\n\n"] {
        compare(text);
    }
}

/// A line with one to three bad fields. Each field that can be told is.
#[test]
fn bad_fields() {
    let mut random = Random::new(seed());
    let mut seen = BTreeSet::new();
    for _ in 0..20_000 {
        let text = random::small_protocol_text(&mut random);
        let text = random::damage_a_line(&mut random, &text);
        compare(&text);
        seen.extend(wanted(&text).err().map(|refusal| (0, refusal.number, refusal.field)));
    }
    for refusal in limits::all_refusals() {
        assert!(refusal.0 == 1 || refusal.2 == 0 || seen.contains(&refusal), "no refusal {:?}", refusal);
    }
}

/// Whole and damaged: bytes, fields and lines changed, dropped, doubled,
/// swapped, cut.
#[test]
fn random_texts() {
    let mut random = Random::new(seed());
    let (mut accepted, mut many) = (0, 0);
    for _ in 0..600 {
        let mut text = random::protocol_text(&mut random);
        for _ in 0..random.below(3) {
            text = random::damage(&mut random, &text);
        }
        compare(&text);
        accepted += usize::from(wanted(&text).is_ok());
        many += usize::from(random::message_names(&text).len() > 32);
    }
    println!("{} of 600 accepted, {} with more than 32 messages", accepted, many);
    assert!(accepted > 60 && accepted < 540 && many > 5);
}
