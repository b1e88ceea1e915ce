//! Random pairs of a protocol text and a mapping text, whole and damaged.
//! Most are small, so that very many can be read; some stand at the limits.

#![allow(dead_code)]

use crate::limits;
use crate::random::{self, Random};
use crate::second::Network;

#[derive(Clone)]
pub struct Pair {
    pub protocol: Vec<u8>,
    pub mapping: Vec<u8>,
}

/// Makes pairs. A whole pair is taken a few times, damaged in other ways.
pub struct Maker {
    random: Random,
    whole: Pair,
    /// How often the whole pair is taken still.
    left: usize,
    others_mapping: Vec<u8>,
}

impl Maker {
    pub fn new(seed: u64) -> Maker {
        let whole = Pair { protocol: Vec::new(), mapping: Vec::new() };
        Maker { random: Random::new(seed), whole, left: 0, others_mapping: Vec::new() }
    }

    /// Bytes, fields and lines are changed, dropped, doubled, swapped and cut,
    /// or several fields of one line are bad, in the protocol, in the mapping, in
    /// both or in none. Some mappings are new, and some those of another protocol.
    pub fn pair(&mut self) -> Pair {
        if self.left == 0 {
            self.others_mapping = std::mem::take(&mut self.whole.mapping);
            self.whole = whole_pair(&mut self.random);
            self.left = 4;
        }
        self.left -= 1;
        let random = &mut self.random;
        let mut pair = self.whole.clone();
        match random.below(20) {
            0..=4 => pair.protocol = random::damage(random, &pair.protocol),
            5..=7 => pair.mapping = random::damage(random, &pair.mapping),
            8 => {
                pair.protocol = random::damage(random, &pair.protocol);
                pair.mapping = random::damage(random, &pair.mapping);
            }
            9 => pair.mapping = self.others_mapping.clone(),
            10..=12 => pair.protocol = random::damage_a_line(random, &pair.protocol),
            13 => pair.mapping = random::damage_a_line(random, &pair.mapping),
            _ => pair.mapping = random::mapping_text(random, &pair.protocol),
        }
        pair
    }

    /// For what belongs to a pair, such as the room that is lent.
    pub fn random(&mut self) -> &mut Random {
        &mut self.random
    }
}

fn whole_pair(random: &mut Random) -> Pair {
    if random.chance(1, 1_000) {
        return pair_at_the_limits(random);
    }
    let protocol = match random.below(100) {
        0 => random::protocol_text(random),
        1..=3 => random::wide_protocol_text(random),
        _ => random::small_protocol_text(random),
    };
    let mapping = random::mapping_text(random, &protocol);
    Pair { protocol, mapping }
}

/// All limits at once, the longest listings, a byte past the most, and `map`
/// lines around the most of each header.
fn pair_at_the_limits(random: &mut Random) -> Pair {
    let header = random.between(1, 2);
    let networks: Vec<Network> = (0..64).map(|_| Network(random.below(32 * header))).collect();
    let mapping = limits::mapping_under(header, &networks);
    let (protocol, mapping) = match random.below(6) {
        0 => (limits::full(), mapping),
        1 => (limits::longest_plan(), mapping),
        2 => (limits::longest_cycle(), mapping),
        3 => limits::longest_unfit(),
        4 => {
            let bytes = random.between(49_152, 49_153);
            (limits::longest_plan(), limits::long_mapping(header, bytes))
        }
        _ => {
            let messages = *random.pick(&[31, 32, 33, 40, 63, 64]);
            let lines = random.between(messages - 1, 64);
            (limits::full_of(messages), limits::mapping_under(header, &networks[..lines]))
        }
    };
    Pair { protocol, mapping }
}
