//! The relations call in two forms: 4-byte rows, and 8-byte rows (C-15).

use super::*;

/// A table of a relation, so many bytes a row, lowest byte first.
pub fn table(row_bytes: usize, relation: &Relation) -> Vec<u8> {
    let mut table = vec![0; row_bytes * relation.count()];
    for from in relation.messages() {
        for to in relation.messages().filter(|to| relation.has(from, *to)) {
            table[row_bytes * from.0 + to.0 / 8] |= 1 << (to.0 % 8);
        }
    }
    table
}

/// The second form, plain and fast, which have to agree.
fn second_form(n: u64, causes: &[u8], stalls: &[u8], room: usize) -> Answer {
    let plain = relations64(n, causes, stalls, room);
    let quick = fast_by(relations64_fast, n, causes, stalls, room);
    assert_eq!(plain, quick, "{} messages, {:?} {:?}", n, causes, stalls);
    plain
}

// ---------------------------------------------------------------------
// Random relations of up to 64 messages
// ---------------------------------------------------------------------

fn random_message(random: &mut Random, count: usize) -> Message {
    Message(random.below(count))
}

/// Pairs without any plan, so many quarters of a pair in a row.
fn loose(random: &mut Random, count: usize) -> Relation {
    let quarters = *random.pick(&random::DENSITIES);
    let mut relation = Relation::empty(count);
    for from in messages_below(count) {
        for to in messages_below(count) {
            if random.chance(quarters, 4 * count) {
                relation.add(from, to);
            }
        }
    }
    relation
}

/// Only the pairs that go forward in the order; or back or stay.
fn layered(random: &mut Random, order: &[Message], forward: bool) -> Relation {
    let place = |message: Message| order.iter().position(|other| *other == message);
    let all = loose(random, order.len());
    let mut kept = Relation::empty(order.len());
    for from in all.messages() {
        for to in all.messages().filter(|to| all.has(from, *to)) {
            if (place(from) < place(to)) == forward {
                kept.add(from, to);
            }
        }
    }
    kept
}

/// Causes and stalls: loose; layered, which is class 3; a chain, each stalling
/// itself; or a ring of waits. Then rarely some more pairs.
pub fn random_relations(random: &mut Random, count: usize) -> (Relation, Relation) {
    let mut order: Vec<Message> = messages_below(count).collect();
    random.shuffle(&mut order);
    let mut causes = Relation::empty(count);
    let mut stalls = Relation::empty(count);
    match random.below(4) {
        0 => (causes, stalls) = (loose(random, count), loose(random, count)),
        1 => (causes, stalls) = (layered(random, &order, true), layered(random, &order, false)),
        2 => {
            order.windows(2).for_each(|two| causes.add(two[0], two[1]));
            order.iter().for_each(|message| stalls.add(*message, *message));
        }
        _ => {
            let ring = random.between(1, count);
            (0..ring).for_each(|place| stalls.add(order[(place + 1) % ring], order[place]));
            order.iter().for_each(|message| causes.add(*message, *message));
        }
    }
    while random.chance(1, 3) {
        let (from, to) = (random_message(random, count), random_message(random, count));
        if random.chance(1, 2) { causes.add(from, to) } else { stalls.add(from, to) }
    }
    (causes, stalls)
}

/// A call of the second form, sometimes wrong: count, table length, stray bit
/// or room.
fn random_call(random: &mut Random, count: usize) -> random::Call {
    let (causes, stalls) = random_relations(random, count);
    let (causes, stalls) = (table(8, &causes), table(8, &stalls));
    let room = count + random.below(3);
    let mut call = random::Call { form: SECOND_FORM, n: count as u64, causes, stalls, room };
    let table = if random.chance(1, 2) { &mut call.causes } else { &mut call.stalls };
    match random.below(20) {
        0 => call.n = *random.pick(&[0, 1, 32, 33, 63, 64, 65, 256, u64::MAX]),
        1 => table.push(0),
        2 => table.truncate(8 * count - random.between(1, 8)),
        3 => {
            let place = random.below(8 * count);
            table[place] |= 1 << random.below(8);
        }
        4 => call.room = random.below(count),
        _ => {}
    }
    call
}

#[test]
fn plain_is_fast_in_the_second_form() {
    let mut seen = [0usize; 19];
    let mut classes = [0usize; 2];
    for seed in 0..64 * 60 {
        let mut random = Random::new(seed);
        let call = random_call(&mut random, seed as usize % 64 + 1);
        let answer = second_form(call.n, &call.causes, &call.stalls, call.room);
        seen[answer.number as usize] += 1;
        if answer.number == 0 {
            classes[usize::from(answer.networks > 0)] += 1;
        }
    }
    for number in [0, ROOM, COUNT, STRAY] {
        assert!(seen[number as usize] > 50, "{:?}", seen);
    }
    assert!(classes.iter().all(|times| *times > 500), "{:?}", classes);
}

/// "for n up to 32, a call of the first form and the call of the second with
/// each row widened by four zero bytes give the same answer and the same bytes"
#[test]
fn forms_agree() {
    let mut seen = [0usize; 19];
    for seed in 0..20_000 {
        let mut random = Random::new(seed);
        let count = random.between(1, 32);
        let call = random::call(FIRST_FORM, &mut random, count);
        let first = relations(call.n, &call.causes, &call.stalls, call.room);
        if call.n <= 32 {
            let wide = call.widened();
            assert_eq!(second_form(wide.n, &wide.causes, &wide.stalls, wide.room), first, "seed {}", seed);
        } else {
            assert_eq!(first.number, COUNT, "seed {}", seed);
        }
        seen[first.number as usize] += 1;
    }
    for number in [0, ROOM, COUNT, STRAY] {
        assert!(seen[number as usize] > 50, "{:?}", seen);
    }
}

// ---------------------------------------------------------------------
// Refusals of the second form
// ---------------------------------------------------------------------

/// Refusal number and length needed.
fn refusal_of(n: u64, causes: &[u8], stalls: &[u8], room: usize) -> (u64, u64) {
    let answer = second_form(n, causes, stalls, room);
    assert!(answer.number == 0 || (answer.joins, answer.pairs, answer.length) == (0, 0, 0));
    (answer.number, answer.needed)
}

/// "17 COUNT: 0 or above 64 messages, or a table that is not exactly 8 bytes a
/// message."
#[test]
fn counts_of_both_forms() {
    let zeros = |bytes: usize| vec![0; bytes];
    assert_eq!(refusal_of(0, &[], &[], 99), (COUNT, 0));
    assert_eq!(refusal_of(64, &zeros(512), &zeros(512), 64), (0, 0));
    assert_eq!(refusal_of(65, &zeros(520), &zeros(520), 99), (COUNT, 0));
    for n in [1 << 8, 1 << 32, (1 << 32) + 1, 1 << 61, u64::MAX] {
        assert_eq!(refusal_of(n, &[], &[], 99), (COUNT, 0));
        assert_eq!(refusal_of(n, &zeros(8), &zeros(8), 99), (COUNT, 0));
    }
    for n in 1..=64 {
        let right = zeros(8 * n);
        assert_eq!(refusal_of(n as u64, &right, &right, n), (0, 0));
        for bytes in [0, 4 * n, 8 * n - 8, 8 * n - 1, 8 * n + 1, 8 * n + 8] {
            assert_eq!(refusal_of(n as u64, &zeros(bytes), &right, n), (COUNT, 0));
            assert_eq!(refusal_of(n as u64, &right, &zeros(bytes), n), (COUNT, 0));
        }
    }
    // The first form keeps 32 and 4 bytes.
    let calls = [(32, 4, 0), (33, 4, COUNT), (33, 8, COUNT), (64, 8, COUNT), (8, 8, COUNT)];
    for (n, row_bytes, right) in calls {
        let table = zeros(row_bytes * n);
        assert_eq!(relations(n as u64, &table, &table, 99).number, right);
        assert_eq!(fast(n as u64, &table, &table, 99).number, right);
    }
}

/// "a bit at or above the count", in any byte of the first and the last row.
#[test]
fn stray_bits_of_the_second_form() {
    for n in 1..=64 {
        let empty = vec![0; 8 * n];
        for row in [0, n - 1] {
            for bit in 0..64 {
                let mut table = empty.clone();
                table[8 * row + bit / 8] |= 1 << (bit % 8);
                let right = if bit < n { 0 } else { STRAY };
                assert_eq!(refusal_of(n as u64, &table, &empty, n), (right, 0));
                assert_eq!(refusal_of(n as u64, &empty, &table, n), (right, 0));
            }
        }
    }
}

/// "It checks 17, 18, then 16 (length needed: n)."
#[test]
fn order_in_the_second_form() {
    // Byte 4 of a row has bits 32 to 39.
    let mut stray = vec![0; 8 * 33];
    stray[4] = 2;
    let empty = vec![0; 8 * 33];
    assert_eq!(refusal_of(33, &stray, &empty[1..], 0), (COUNT, 0));
    assert_eq!(refusal_of(33, &stray, &empty, 0), (STRAY, 0));
    assert_eq!(refusal_of(33, &empty, &stray, 32), (STRAY, 0));
    assert_eq!(refusal_of(33, &empty, &empty, 32), (ROOM, 33));
    stray[4] = 1;
    assert_eq!(refusal_of(33, &stray, &stray, 33), (0, 0));
    // Class 2 with a cycle of 1 still needs room for n.
    let all = vec![0xFF; 512];
    assert_eq!(refusal_of(64, &all, &all, 63), (ROOM, 64));
}

// ---------------------------------------------------------------------
// Answers of the second form
// ---------------------------------------------------------------------

/// The second form of these pairs: packed number and bytes.
fn answer_of(n: usize, causes: &[(usize, usize)], stalls: &[(usize, usize)]) -> (u64, Vec<u8>) {
    let (causes, stalls) = (table(8, &relation(n, causes)), table(8, &relation(n, stalls)));
    let answer = second_form(n as u64, &causes, &stalls, n);
    (answer.packed(), answer.bytes)
}

/// Case 10 with 64 messages: 64 networks, message i in 63 - i; it waits for
/// all that come after it. 0 + 1 + .. + 63 is 2016.
#[test]
fn chain_of_64() {
    let causes: Vec<(usize, usize)> = (0..63).map(|i| (i, i + 1)).collect();
    let stalls: Vec<(usize, usize)> = (0..64).map(|i| (i, i)).collect();
    let packed = (2_016 << 48) + (2_016 << 32) + (64 << 16) + (64 << 8);
    assert_eq!(answer_of(64, &causes, &stalls), (packed, (0..64).rev().collect()));
}

/// A ring of waits through all 64 messages, from 0 by 63, 62 and so on.
#[test]
fn ring_of_64() {
    let causes: Vec<(usize, usize)> = (0..64).map(|i| (i, i)).collect();
    let stalls: Vec<(usize, usize)> = (0..64).map(|i| (i, (i + 1) % 64)).collect();
    let cycle: Vec<u8> = (0..64).map(|place| (64 - place) % 64).collect();
    assert_eq!(answer_of(64, &causes, &stalls), ((64 << 48) + (64 << 32) + (64 << 8), cycle));
}

#[test]
fn answers_in_the_high_half() {
    // 40 causes 63 and stalls 33, so 33 waits for 63.
    let mut mapping = vec![0; 64];
    mapping[33] = 1;
    let packed = (1 << 48) + (1 << 32) + (2 << 16) + (64 << 8);
    assert_eq!(answer_of(64, &[(40, 63)], &[(40, 33)]), (packed, mapping));
    // From a low row to a high one and back: 1 waits for 32, 32 for 1.
    let packed = (2 << 48) + (2 << 32) + (2 << 8);
    assert_eq!(answer_of(33, &[(0, 32), (31, 1)], &[(0, 1), (31, 32)]), (packed, vec![1, 32]));
    // The last message alone.
    let packed = (1 << 48) + (1 << 32) + (1 << 8);
    assert_eq!(answer_of(64, &[(63, 63)], &[(63, 63)]), (packed, vec![63]));
    // Two cycles of two: the one of lower numbers, and not that of later ones.
    let pairs = [(50, 50), (60, 60), (40, 40), (62, 62)];
    let stalls = [(50, 60), (60, 50), (40, 62), (62, 40)];
    assert_eq!(answer_of(64, &pairs, &stalls), ((4 << 48) + (4 << 32) + (2 << 8), vec![40, 62]));
    // All pairs: "at most n times n for n messages".
    let all: Vec<(usize, usize)> = (0..4_096).map(|i| (i / 64, i % 64)).collect();
    assert_eq!(answer_of(64, &all, &all), ((4_096 << 48) + (4_096 << 32) + (1 << 8), vec![0]));
}

/// A row is read lowest byte first: bit j stands in byte j / 8.
#[test]
fn rows_of_8_bytes() {
    for n in 1..=64 {
        for to in 0..n {
            let mut bytes = vec![0; 8 * n];
            bytes[8 * (n - 1) + to / 8] = 1 << (to % 8);
            assert_eq!(read_table64(n, &bytes), Some(relation(n, &[(n - 1, to)])));
            if n <= 32 {
                let bytes: Vec<u8> = bytes.chunks(8).flat_map(|row| row[..4].to_vec()).collect();
                assert_eq!(read_table(n, &bytes), Some(relation(n, &[(n - 1, to)])));
            }
        }
    }
}
