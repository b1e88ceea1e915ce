//! Tests of the exported relations call, in both forms, against the second
//! program.
//!
//! Every answer is compared as a packed number and byte by byte, with what
//! stands before, after and behind it. Each call of the first form is made once
//! more in the second, with rows made longer by four bytes 0: answer and bytes
//! have to be the same. SEED chooses other random relations; the seed is
//! printed. RELATIONS says how many random relations of the first form there
//! are, and of the second there are a third as many; the gate tries 20,000, and
//! RELATIONS=200000 tries more.

mod random;
mod second;
mod zeveltoren;

use random::{Call, Random, Tables, DENSITIES};
use second::{Form, Message, COUNT, FIRST_FORM, ROOM, SECOND_FORM, STRAY};
use std::io::Write;

const FORMS: [Form; 2] = [FIRST_FORM, SECOND_FORM];

// ---------------------------------------------------------------------
// One call
// ---------------------------------------------------------------------

/// Bytes around everything that is lent.
const MARGIN: usize = 16;

/// A table within bytes whose bits are all set, so that reading past it shows
/// as stray bits. It begins at odd places too.
struct Framed {
    bytes: Vec<u8>,
    start: usize,
    length: usize,
}

impl Framed {
    fn new(table: &[u8], shift: usize) -> Framed {
        let start = MARGIN + shift;
        let mut bytes = vec![0xff; start];
        bytes.extend_from_slice(table);
        bytes.resize(start + table.len() + MARGIN, 0xff);
        Framed { bytes, start, length: table.len() }
    }

    fn table(&self) -> &[u8] {
        &self.bytes[self.start..self.start + self.length]
    }
}

/// What stands at a place before the call. No number of an answer is so high.
fn filling(place: usize, shift: usize) -> u8 {
    64 + ((place * 37 + shift * 101) % 192) as u8
}

/// The exported call of a form.
fn packed_by(form: Form, n: u64, causes: &[u8], stalls: &[u8], out: &mut [u8]) -> u64 {
    if form == FIRST_FORM {
        zeveltoren::relations_packed(n, causes, stalls, out)
    } else {
        zeveltoren::relations64_packed(n, causes, stalls, out)
    }
}

/// Makes the call in the middle of a filled buffer. Gives the packed number
/// and the whole buffer.
fn called(call: &Call, shift: usize) -> (u64, Vec<u8>) {
    let (causes, stalls) = (Framed::new(&call.causes, shift), Framed::new(&call.stalls, 2 * shift));
    let mut buffer: Vec<u8> =
        (0..call.room + 2 * MARGIN).map(|place| filling(place, shift)).collect();
    let out = &mut buffer[MARGIN..MARGIN + call.room];
    let packed = packed_by(call.form, call.n, causes.table(), stalls.table(), out);
    assert_eq!(causes.table(), &call.causes[..], "the causes were changed");
    assert_eq!(stalls.table(), &call.stalls[..], "the stalls were changed");
    (packed, buffer)
}

/// The buffer as it has to be: `bytes` at the start of the output, and all
/// else as it was.
fn expected_buffer(room: usize, bytes: &[u8], shift: usize) -> Vec<u8> {
    let mut buffer: Vec<u8> = (0..room + 2 * MARGIN).map(|place| filling(place, shift)).collect();
    buffer[MARGIN..MARGIN + bytes.len()].copy_from_slice(bytes);
    buffer
}

/// Compares a call with the plain variant of the second program; `label` says
/// where the call comes from. Gives the right answer.
fn check(call: &Call, label: &dyn Fn() -> String) -> second::Answer {
    let right = second::relations_in(call.form, call.n, &call.causes, &call.stalls, call.room);
    check_against(call, &right, label);
    // "for n up to 32, a call of the first form and the call of the second with
    // each row widened by four zero bytes give the same answer and the same bytes"
    if call.form == FIRST_FORM && call.n <= 32 {
        check_against(&call.widened(), &right, label);
    }
    right
}

fn check_against(call: &Call, right: &second::Answer, label: &dyn Fn() -> String) {
    let shift = call.causes.iter().map(|byte| usize::from(*byte)).sum::<usize>() % 4;
    let (packed, buffer) = called(call, shift);
    if packed != right.packed() || buffer != expected_buffer(call.room, &right.bytes, shift) {
        panic!(
            "{}: {:?}\n got {:#x} {:?}\nright {:#x} {:?}",
            label(), call, packed, buffer, right.packed(), right
        );
    }
    check_wrapped(packed, right);
    check_joins(call, packed);
}

/// "at most n times n for n messages", and "0 with a refusal", whatever the
/// second program says.
fn check_joins(call: &Call, packed: u64) {
    let answer = zeveltoren::Answer::of(packed);
    let most = if answer.refusal.is_none() { call.n * call.n } else { 0 };
    assert!(answer.joins as u64 <= most, "{:?} {:?}", call, answer);
}

/// The wrapper takes the packed number apart as the paper packs it.
fn check_wrapped(packed: u64, right: &second::Answer) {
    let answer = zeveltoren::Answer::of(packed);
    assert_eq!(answer.refusal.map_or(0, |refusal| u64::from(refusal.number())), right.number);
    assert_eq!(answer.length as u64, right.length);
    assert_eq!(answer.networks as u64, right.networks);
    assert_eq!(answer.pairs as u64, right.pairs);
    assert_eq!(answer.joins as u64, right.joins);
    if let Some(zeveltoren::Refusal::Room { needed }) = answer.refusal {
        assert_eq!(needed as u64, right.needed);
    }
}

/// The call is refused with just this number, whatever the second program
/// says, and that says the same.
fn refused(call: &Call, number: u64, label: &str) {
    let needed = if number == ROOM { call.n } else { 0 };
    let right = check(call, &|| label.to_string());
    let numbers = second::Numbers { number, length: 0, networks: 0, needed, pairs: 0, joins: 0 };
    assert_eq!(right.numbers(), numbers, "{}", label);
    assert_eq!(right.packed(), number + (needed << 24), "{}", label);
}

fn accepted(call: &Call, label: &str) {
    let right = check(call, &|| label.to_string());
    assert_eq!(right.number, 0, "{}", label);
}

/// A line that is printed although the test passes.
fn say(line: &str) {
    writeln!(std::io::stderr(), "relations_tests: {}", line).unwrap();
}

// ---------------------------------------------------------------------
// The cases of the paper
// ---------------------------------------------------------------------

fn tables_of(form: Form, count: usize, causes: &[(usize, usize)], stalls: &[(usize, usize)]) -> Tables {
    let set_pair = if form == FIRST_FORM { zeveltoren::set_pair } else { zeveltoren::set_pair64 };
    let mut tables = Tables::empty(form, count);
    causes.iter().for_each(|(from, to)| set_pair(&mut tables.causes, *from, *to));
    stalls.iter().for_each(|(from, to)| set_pair(&mut tables.stalls, *from, *to));
    tables
}

/// The right answer of a case: the numbers and bytes as the paper prints them,
/// and the pairs and joins as worked out by hand.
struct Right<'a> {
    networks: usize,
    pairs: usize,
    joins: usize,
    bytes: &'a [u8],
}

/// A case in each form that has room for its messages.
fn case(count: usize, causes: &[(usize, usize)], stalls: &[(usize, usize)], right: Right) {
    for form in FORMS.into_iter().filter(|form| count <= form.most_messages) {
        let tables = tables_of(form, count, causes, stalls);
        let mut out = [0xee; 65];
        let relations = if form == FIRST_FORM { zeveltoren::relations } else { zeveltoren::relations64 };
        let answer = relations(count as u64, &tables.causes, &tables.stalls, &mut out);
        let Right { networks, pairs, joins, bytes } = right;
        let wanted = zeveltoren::Answer { refusal: None, length: bytes.len(), networks, pairs, joins };
        assert_eq!(answer, wanted);
        assert_eq!(answer.class(), Some(if networks == 0 { 2 } else { 3 }));
        assert_eq!(&out[..bytes.len()], bytes);
        assert!(out[bytes.len()..].iter().all(|byte| *byte == 0xee));
    }
}

#[test]
fn cases_of_the_paper() {
    let chain_of_4 = [(0, 1), (1, 2), (2, 3)];
    case(1, &[], &[], Right { networks: 1, pairs: 0, joins: 0, bytes: &[0] });
    case(1, &[], &[(0, 0)], Right { networks: 1, pairs: 0, joins: 0, bytes: &[0] });
    case(1, &[(0, 0)], &[(0, 0)], Right { networks: 0, pairs: 1, joins: 1, bytes: &[0] });
    case(4, &chain_of_4, &[], Right { networks: 1, pairs: 0, joins: 6, bytes: &[0, 0, 0, 0] });
    case(4, &chain_of_4, &[(0, 0)], Right { networks: 2, pairs: 3, joins: 6, bytes: &[1, 0, 0, 0] });
    let case_7 = Right { networks: 3, pairs: 2, joins: 2, bytes: &[2, 1, 0, 0] };
    case(4, &[(0, 1), (3, 2)], &[(0, 0), (3, 1)], case_7);
    let case_8 = Right { networks: 0, pairs: 2, joins: 2, bytes: &[1, 3] };
    case(4, &[(0, 1), (2, 3)], &[(0, 3), (2, 1)], case_8);
    let chain_of_5 = [(0, 1), (1, 2), (2, 3), (3, 4)];
    let case_9 = Right { networks: 2, pairs: 4, joins: 10, bytes: &[0, 0, 0, 0, 0, 1] };
    case(6, &chain_of_5, &[(0, 5)], case_9);
}

/// Case 6: Bell, and Pass is stalled in ID. The event load enters ID and sends
/// Ask, so Ask stalls Pass too.
#[test]
fn case_6_of_the_paper() {
    let causes = [(0, 1), (1, 2), (2, 3)];
    case(4, &causes, &[(0, 0), (0, 1)], Right { networks: 0, pairs: 6, joins: 6, bytes: &[1] });
}

/// "32 messages, i causes i+1, each stalls itself: 32, message i in 31-i", and
/// the same with 33, 47 and 64 messages.
#[test]
fn case_10_of_the_paper() {
    for (n, pairs) in [(32, 496), (33, 528), (47, 1_081), (64, 2_016)] {
        let causes: Vec<(usize, usize)> = (1..n).map(|i| (i - 1, i)).collect();
        let stalls: Vec<(usize, usize)> = (0..n).map(|i| (i, i)).collect();
        let bytes: Vec<u8> = (0..n as u8).rev().collect();
        case(n, &causes, &stalls, Right { networks: n, pairs, joins: pairs, bytes: &bytes });
    }
}

/// The longest cycle, and the most pairs and joins, of each form.
#[test]
fn widest_answers() {
    for n in [32, 64] {
        let own: Vec<(usize, usize)> = (0..n).map(|i| (i, i)).collect();
        let ring: Vec<(usize, usize)> = (0..n).map(|i| ((i + 1) % n, i)).collect();
        let numbers: Vec<u8> = (0..n as u8).collect();
        case(n, &own, &ring, Right { networks: 0, pairs: n, joins: n, bytes: &numbers });
        let all = all_pairs(n);
        case(n, &all, &all, Right { networks: 0, pairs: n * n, joins: n * n, bytes: &[0] });
    }
}

fn all_pairs(n: usize) -> Vec<(usize, usize)> {
    (0..n * n).map(|i| (i / n, i % n)).collect()
}

/// Rows and bits from 32 on.
#[test]
fn answers_in_the_high_half() {
    // 40 causes 63 and stalls 33, so 33 waits for 63.
    let mut bytes = [0; 64];
    bytes[33] = 1;
    case(64, &[(40, 63)], &[(40, 33)], Right { networks: 2, pairs: 1, joins: 1, bytes: &bytes });
    // From a low row to a high one and back: 1 waits for 32, 32 for 1.
    let both = Right { networks: 0, pairs: 2, joins: 2, bytes: &[1, 32] };
    case(33, &[(0, 32), (31, 1)], &[(0, 1), (31, 32)], both);
    // The last message alone.
    case(64, &[(63, 63)], &[(63, 63)], Right { networks: 0, pairs: 1, joins: 1, bytes: &[63] });
    // Two cycles of two: that of lower numbers is shown.
    let own = [(50, 50), (60, 60), (40, 40), (62, 62)];
    let stalls = [(50, 60), (60, 50), (40, 62), (62, 40)];
    case(64, &own, &stalls, Right { networks: 0, pairs: 4, joins: 4, bytes: &[40, 62] });
}

// ---------------------------------------------------------------------
// Row joins
// ---------------------------------------------------------------------

/// The joins of some causes, whatever the stalls are: none, all, or each
/// message its own. In each form that has room for the messages.
fn joins_are(count: usize, causes: &[(usize, usize)], joins: usize) {
    let own: Vec<(usize, usize)> = (0..count).map(|i| (i, i)).collect();
    let all = all_pairs(count);
    for form in FORMS.into_iter().filter(|form| count <= form.most_messages) {
        for stalls in [&[][..], &own, &all] {
            let call = Call::of(tables_of(form, count, causes, stalls), count);
            let right = check(&call, &|| "joins".to_string());
            assert_eq!((right.number, right.joins as usize), (0, joins), "{:?}", causes);
        }
    }
}

/// Whoever counts the pairs of causes, or of causes closed, or leaves a
/// message's own row out, or goes through the middle messages from the highest,
/// comes to another number in one of these.
#[test]
fn joins_by_hand() {
    joins_are(1, &[], 0);
    joins_are(1, &[(0, 0)], 1);
    // Row 0 takes in row 1, rows 0 and 1 row 2, rows 0 to 2 row 3.
    joins_are(4, &[(0, 1), (1, 2), (2, 3)], 6);
    // When it is the turn of row k, only row k + 1 holds k.
    joins_are(4, &[(1, 0), (2, 1), (3, 2)], 3);
    // Row 1 takes in row 0 and with it holds 1; both rows take in row 1.
    joins_are(2, &[(0, 1), (1, 0)], 3);
    // Row 2 takes in row 0 and by it holds 1; so rows 0 and 2 take in row 1.
    joins_are(3, &[(2, 0), (0, 1)], 3);
    // Row 2 takes in row 1; it holds 0 by that, but 0 has had its turn.
    joins_are(3, &[(2, 1), (1, 0)], 2);
}

/// For every n: no causes, each its own, a chain, a chain backwards, a ring,
/// every pair.
#[test]
fn joins_of_every_n() {
    for n in 1..=SECOND_FORM.most_messages {
        let pairs = |from: &dyn Fn(usize) -> (usize, usize), many| (0..many).map(from).collect();
        let own: Vec<(usize, usize)> = pairs(&|i| (i, i), n);
        let chain: Vec<(usize, usize)> = pairs(&|i| (i, i + 1), n - 1);
        let back: Vec<(usize, usize)> = pairs(&|i| (i + 1, i), n - 1);
        let ring: Vec<(usize, usize)> = pairs(&|i| (i, (i + 1) % n), n);
        let all = all_pairs(n);
        joins_are(n, &[], 0);
        joins_are(n, &own, n);
        joins_are(n, &chain, n * (n - 1) / 2);
        joins_are(n, &back, n - 1);
        joins_are(n, &ring, n * (n + 1) / 2);
        joins_are(n, &all, n * n);
    }
}

/// Each form with each n that it allows.
fn every_n() -> impl Iterator<Item = (Form, usize)> {
    FORMS.into_iter().flat_map(|form| (1..=form.most_messages).map(move |n| (form, n)))
}

/// With a refusal there are none, though the tables are full.
#[test]
fn no_joins_with_a_refusal() {
    for (form, n) in every_n() {
        let all = all_pairs(n);
        let call = Call::of(tables_of(form, n, &all, &all), n);
        refused(&Call { room: n - 1, ..call.clone() }, ROOM, "no joins with 16");
        refused(&Call { n: n as u64 + 1, ..call.clone() }, COUNT, "no joins with 17");
        if n < form.most_messages {
            let mut stray = call.clone();
            random::set_pair(form, &mut stray.stalls, Message(n - 1), Message(n));
            refused(&stray, STRAY, "no joins with 18");
        }
    }
}

// ---------------------------------------------------------------------
// All relations of few messages
// ---------------------------------------------------------------------

/// The table of the first form whose pairs are the bits of `number`, `count`
/// bits a row.
fn table_of_bits(count: usize, number: usize) -> Vec<u8> {
    let mut table = vec![0; 4 * count];
    for place in 0..count * count {
        if number >> place & 1 == 1 {
            random::set_pair(FIRST_FORM, &mut table, Message(place / count), Message(place % count));
        }
    }
    table
}

/// The least count once more, by all mappings, for up to 5 messages.
fn check_least_count(call: &Call, right: &second::Answer) {
    let count = call.n as usize;
    let read = if call.form == FIRST_FORM { second::read_table } else { second::read_table64 };
    let (causes, stalls) = (read(count, &call.causes).unwrap(), read(count, &call.stalls).unwrap());
    let waits = second::waits_of(&causes, &stalls);
    let least = second::least_count_by_brute_force(&waits, &stalls);
    assert_eq!(least.unwrap_or(0) as u64, right.networks, "{:?}", call);
}

/// Every causes table with every stalls table, with room to spare, in both
/// forms: `check` widens the first. Of the causes tables those from `first` on by
/// steps of `step`.
fn check_all(count: usize, first: usize, step: usize, every: usize) {
    let tables: Vec<Vec<u8>> =
        (0..1 << (count * count)).map(|number| table_of_bits(count, number)).collect();
    let mut done = 0;
    for causes in tables.iter().skip(first).step_by(step) {
        for stalls in &tables {
            let (causes, stalls) = (causes.clone(), stalls.clone());
            let call = Call { form: FIRST_FORM, n: count as u64, causes, stalls, room: count + 3 };
            let right = check(&call, &|| format!("all of {}", count));
            if done % every == 0 {
                check_least_count(&call, &right);
            }
            done += 1;
        }
    }
}

#[test]
fn all_relations_of_1_and_2() {
    check_all(1, 0, 1, 1);
    check_all(2, 0, 1, 1);
}

// In two tests, so that two cores share the work.

#[test]
fn all_relations_of_3_with_even_causes() {
    check_all(3, 0, 2, 61);
}

#[test]
fn all_relations_of_3_with_odd_causes() {
    check_all(3, 1, 2, 61);
}

// ---------------------------------------------------------------------
// Random relations
// ---------------------------------------------------------------------

fn seed() -> u64 {
    std::env::var("SEED").map_or(1, |seed| seed.parse().expect("SEED is a number"))
}

/// How many random relations there are in all, about.
fn relations_wanted() -> usize {
    std::env::var("RELATIONS").map_or(20_000, |many| many.parse().expect("RELATIONS is a number"))
}

/// How many of n messages. Large ones take the second program long, so there
/// are fewer of them. Out of 200 there are 14, 8, 2 and 1 of each n of the first
/// form, and in the second form 1 of each n.
fn how_many(form: Form, n: usize) -> usize {
    let share = match n {
        1..=8 if form == FIRST_FORM => 14,
        9..=16 if form == FIRST_FORM => 8,
        17..=24 if form == FIRST_FORM => 2,
        _ => 1,
    };
    share * relations_wanted() / 200
}

/// Half of them loose, through all pairs of densities; the others layered,
/// chains and rings too.
fn random_tables(form: Form, random: &mut Random, count: usize, turn: usize) -> Tables {
    if turn % 2 == 1 {
        return random::tables(form, random, count);
    }
    let (causes, stalls) = (turn / 2 % DENSITIES.len(), turn / 2 / DENSITIES.len());
    let stalls = stalls % DENSITIES.len();
    random::loose_tables(form, random, count, DENSITIES[causes], DENSITIES[stalls])
}

fn check_random(form: Form, count: usize) -> usize {
    let seed = seed();
    let mut random = Random::new(seed * 10_000 + (100 * form.row_bytes + count) as u64);
    let (many, mut class_2) = (how_many(form, count), 0);
    for turn in 0..many {
        let room = count + random.below(4);
        let call = Call::of(random_tables(form, &mut random, count, turn), room);
        let right = check(&call, &|| format!("seed {}, {:?}, n {}, turn {}", seed, form, count, turn));
        assert_eq!(right.number, 0);
        class_2 += usize::from(right.networks == 0);
        if count <= 5 && turn % 8 == 0 {
            check_least_count(&call, &right);
        }
    }
    assert!(class_2 > many / 20 && class_2 < many - many / 20, "{:?} n {}: {}", form, count, class_2);
    class_2
}

/// Every n of every form is in one of the two tests below, so that two cores
/// share the work.
fn check_random_among(odd: usize, name: &str) {
    let (mut done, mut class_2) = (0, 0);
    for (form, count) in every_n().filter(|(_, n)| n % 2 == odd) {
        class_2 += check_random(form, count);
        done += how_many(form, count);
    }
    say(&format!("seed {}: {} random relations of {} n, {} class 2", seed(), done, name, class_2));
}

#[test]
fn random_relations_of_odd_n() {
    check_random_among(1, "odd");
}

#[test]
fn random_relations_of_even_n() {
    check_random_among(0, "even");
}

/// Right and wrong calls mixed, wrong in one way or in several.
fn check_calls(form: Form) {
    let seed = seed();
    let mut random = Random::new(seed * 10_000 + 5_000 + form.row_bytes as u64);
    let mut seen = [0; 32];
    let many = relations_wanted() * 4 / form.row_bytes;
    for turn in 0..many {
        let count = random.between(1, if turn % 8 == 0 { form.most_messages } else { 8 });
        let call = random::call(form, &mut random, count);
        let right = check(&call, &|| format!("seed {}, {:?}, call {}", seed, form, turn));
        seen[right.number as usize] += 1;
    }
    for number in [0, ROOM, COUNT, STRAY] {
        let times = seen[number as usize];
        assert!(times > many / 200, "refusal {} came {} times", number, times);
    }
    say(&format!("seed {}: {} random calls, right and wrong, {:?}", seed, many, form));
}

#[test]
fn random_calls() {
    check_calls(FIRST_FORM);
}

#[test]
fn random_calls_of_the_second_form() {
    check_calls(SECOND_FORM);
}

// ---------------------------------------------------------------------
// Refusals on both sides of their limits
// ---------------------------------------------------------------------

/// A table of some length; right in form when that is the row's bytes for each
/// message.
fn zeros(length: usize) -> Vec<u8> {
    vec![0; length]
}

fn blank(form: Form, n: u64, causes: usize, stalls: usize, room: usize) -> Call {
    Call { form, n, causes: zeros(causes), stalls: zeros(stalls), room }
}

/// Counts that are small again when bits are lost: in 8, 16 or 32 bits, or
/// when multiplied by the bytes of a row in 64.
fn counts_too_high(form: Form) -> Vec<u64> {
    let most = form.most_messages as u64;
    let mut counts =
        vec![most + 1, most + 2, 2 * most - 1, 2 * most, 255, u64::MAX, u64::MAX - most + 1, i64::MAX as u64];
    for shift in [8, 16, 31, 32, 33, 60, 61, 62, 63] {
        for more in [0, 1, 2, most - 1, most] {
            counts.push((1 << shift) + more);
        }
    }
    counts
}

#[test]
fn count_of_messages() {
    for form in FORMS {
        let Form { row_bytes, most_messages: most } = form;
        let whole = |n: usize| blank(form, n as u64, row_bytes * n, row_bytes * n, n);
        accepted(&whole(1), "n 1");
        accepted(&whole(most), "the most messages");
        refused(&whole(most + 1), COUNT, "one more");
        for length in [0, row_bytes, 2 * row_bytes, row_bytes * most] {
            refused(&blank(form, 0, length, length, 128), COUNT, "n 0");
        }
        for n in counts_too_high(form) {
            let bytes = n.wrapping_mul(row_bytes as u64);
            let low_byte = row_bytes * (n as u8 as usize);
            let near = [0, 1, 2, most - 1, most, most + 1].map(|rows| row_bytes * rows);
            for length in near.into_iter().chain([low_byte, (bytes % 4_096) as usize]) {
                refused(&blank(form, n, length, length, 128), COUNT, &format!("n {}", n));
            }
        }
    }
    // 33 to 64 messages are too many for the first form and right in the second.
    for n in 33..=64 {
        for bytes in [4, 8] {
            refused(&blank(FIRST_FORM, n, bytes * n as usize, bytes * n as usize, 64), COUNT, "above 32");
        }
        accepted(&blank(SECOND_FORM, n, 8 * n as usize, 8 * n as usize, 64), "above 32");
    }
}

#[test]
fn length_of_tables() {
    for (form, n) in every_n() {
        let row = form.row_bytes;
        let (right, n) = (row * n, n as u64);
        accepted(&blank(form, n, right, right, n as usize), "right lengths");
        // Also those of the other form, which has rows of half or twice the bytes.
        for wrong in [right - 1, right + 1, right - row, right + row, 0, right / 2, 2 * right, right + 256] {
            refused(&blank(form, n, wrong, right, 128), COUNT, "causes");
            refused(&blank(form, n, right, wrong, 128), COUNT, "stalls");
            refused(&blank(form, n, wrong, wrong, 128), COUNT, "both");
            refused(&blank(form, n, wrong, (2 * right).saturating_sub(wrong), 128), COUNT, "in all");
        }
    }
}

/// One pair in one of the two tables, which may be stray.
fn with_one_pair(form: Form, n: usize, in_causes: bool, from: usize, to: usize, room: usize) -> Call {
    let mut tables = Tables::empty(form, n);
    let table = if in_causes { &mut tables.causes } else { &mut tables.stalls };
    random::set_pair(form, table, Message(from), Message(to));
    Call::of(tables, room)
}

/// Each stray bit; of those below n the last one.
#[test]
fn stray_bits() {
    for (form, n) in every_n() {
        for from in 0..n {
            for in_causes in [true, false] {
                accepted(&with_one_pair(form, n, in_causes, from, n - 1, n), "a bit below n");
                for to in n..8 * form.row_bytes {
                    let call = with_one_pair(form, n, in_causes, from, to, n);
                    refused(&call, STRAY, "a bit at n or above");
                }
            }
        }
    }
}

/// A call of class 2 and one of class 3, of n messages.
fn both_classes(form: Form, n: usize) -> [Tables; 2] {
    let own: Vec<(usize, usize)> = (0..n).map(|i| (i, i)).collect();
    let chain: Vec<(usize, usize)> = (1..n).map(|i| (i - 1, i)).collect();
    let last = [(n - 1, n - 1)];
    [tables_of(form, n, &last, &last), tables_of(form, n, &chain, &own)]
}

#[test]
fn rooms() {
    for (form, n) in every_n() {
        for tables in both_classes(form, n) {
            for room in 0..n {
                refused(&Call::of(tables.clone(), room), ROOM, "too little room");
            }
            for room in [n, n + 1, n + 2, 128, 300] {
                accepted(&Call::of(tables.clone(), room), "enough room");
            }
        }
    }
}

/// 17 before 18 before 16.
#[test]
fn order_of_the_checks() {
    for (form, n) in every_n().filter(|(form, n)| *n < form.most_messages) {
        let Form { row_bytes, most_messages: most } = form;
        for in_causes in [true, false] {
            for stray in [n, most - 1] {
                let call = with_one_pair(form, n, in_causes, n - 1, stray, n - 1);
                refused(&call, STRAY, "18 before 16");
                let mut longer = call.clone();
                longer.stalls.push(0);
                refused(&longer, COUNT, "17 before 18 and 16, by stalls");
                longer = call.clone();
                longer.causes.extend(zeros(row_bytes));
                refused(&longer, COUNT, "17 before 18 and 16, by causes");
                for n in [0, most as u64 + 1, u64::MAX] {
                    refused(&Call { n, ..call.clone() }, COUNT, "17 before 18 and 16, by n");
                }
            }
        }
        refused(&blank(form, n as u64, row_bytes * n, row_bytes * n + 1, n - 1), COUNT, "17 before 16");
    }
}

/// Slices of no bytes, with the pointers that they happen to have.
#[test]
fn empty_slices() {
    let refusal = |n, causes: &[u8], stalls: &[u8]| {
        zeveltoren::relations(n, causes, stalls, &mut []).refusal.unwrap()
    };
    assert_eq!(refusal(0, &[], &[]), zeveltoren::Refusal::Count);
    assert_eq!(refusal(1, &[], &[]), zeveltoren::Refusal::Count);
    assert_eq!(refusal(1, &[0; 4], &[]), zeveltoren::Refusal::Count);
    assert_eq!(refusal(1, &[2, 0, 0, 0], &[0; 4]), zeveltoren::Refusal::Stray);
    assert_eq!(refusal(1, &[0; 4], &[0; 4]), zeveltoren::Refusal::Room { needed: 1 });
    assert_eq!(refusal(32, &[0; 128], &[0; 128]), zeveltoren::Refusal::Room { needed: 32 });
    let refusal = |n, causes: &[u8], stalls: &[u8]| {
        zeveltoren::relations64(n, causes, stalls, &mut []).refusal.unwrap()
    };
    assert_eq!(refusal(0, &[], &[]), zeveltoren::Refusal::Count);
    assert_eq!(refusal(1, &[], &[]), zeveltoren::Refusal::Count);
    assert_eq!(refusal(1, &[0; 4], &[0; 4]), zeveltoren::Refusal::Count);
    assert_eq!(refusal(1, &[0; 8], &[]), zeveltoren::Refusal::Count);
    assert_eq!(refusal(1, &[0, 0, 0, 0, 0, 0, 0, 1], &[0; 8]), zeveltoren::Refusal::Stray);
    assert_eq!(refusal(1, &[0; 8], &[0; 8]), zeveltoren::Refusal::Room { needed: 1 });
    assert_eq!(refusal(64, &[0; 512], &[0; 512]), zeveltoren::Refusal::Room { needed: 64 });
}

/// causes and stalls may be one table.
#[test]
fn one_table_for_both() {
    let mut random = Random::new(7);
    for (form, count) in every_n() {
        for quarters in DENSITIES {
            let table = random::loose_tables(form, &mut random, count, quarters, 0).causes;
            let right = second::relations_in(form, count as u64, &table, &table, count);
            let mut out = vec![0xee; count];
            let packed = packed_by(form, count as u64, &table, &table, &mut out);
            assert_eq!(packed, right.packed());
            assert_eq!(&out[..right.bytes.len()], &right.bytes[..]);
        }
    }
}
