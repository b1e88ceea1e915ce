//! The relations call, the fast variant: for the benchmark.

use super::*;

//
// For the benchmark: the same answers on rows of 64 bits, without the heap.
// Bit j of row i stands for the pair (i, j); a set of messages is one row. A
// slice of rows has one for each message and no more.

/// One row of a relation, or a set of messages: bit j is message j.
pub(super) type Row = u64;

/// As `relations`, writing into the lent `out`. On a refusal no byte of it
/// changes; on success the bytes after the returned length stay.
pub fn relations_fast(n: u64, causes: &[u8], stalls: &[u8], out: &mut [u8]) -> Numbers {
    fast_in::<{ FIRST_FORM.row_bytes }, { FIRST_FORM.most_messages }>(n, causes, stalls, out)
}

/// As `relations64`, in the same way.
pub fn relations64_fast(n: u64, causes: &[u8], stalls: &[u8], out: &mut [u8]) -> Numbers {
    fast_in::<{ SECOND_FORM.row_bytes }, { SECOND_FORM.most_messages }>(n, causes, stalls, out)
}

/// The form's row bytes and most messages are known when this is compiled.
fn fast_in<const ROW_BYTES: usize, const MOST: usize>(
    n: u64,
    causes: &[u8],
    stalls: &[u8],
    out: &mut [u8],
) -> Numbers {
    if n == 0 || n > MOST as u64 {
        return Numbers::refused(COUNT, 0);
    }
    let count = n as usize;
    if causes.len() != ROW_BYTES * count || stalls.len() != ROW_BYTES * count {
        return Numbers::refused(COUNT, 0);
    }
    let all = Row::MAX >> (64 - count);
    let (mut reached, mut stalled) = ([0; MOST], [0; MOST]);
    let (reached, stalled) = (&mut reached[..count], &mut stalled[..count]);
    let used = load_rows::<ROW_BYTES>(causes, reached) | load_rows::<ROW_BYTES>(stalls, stalled);
    if used & !all != 0 {
        return Numbers::refused(STRAY, 0);
    }
    if out.len() < count {
        return Numbers::refused(ROOM, n);
    }
    let joins = close_rows(reached);
    let mut waits = [0; MOST];
    let waits = &mut waits[..count];
    let pairs = fill_waits(reached, stalled, waits);
    let (length, networks) = match write_networks::<MOST>(waits, all, out) {
        Some(networks) => (count, networks),
        None => (write_cycle::<MOST>(waits, out), 0),
    };
    Numbers {
        number: 0,
        length: length as u64,
        networks: networks as u64,
        needed: 0,
        pairs,
        joins,
    }
}

/// Fills the rows, lowest byte first. Gives the union of them.
fn load_rows<const ROW_BYTES: usize>(table: &[u8], rows: &mut [Row]) -> Row {
    let mut union = 0;
    for (row, bytes) in rows.iter_mut().zip(table.chunks_exact(ROW_BYTES)) {
        let mut all_bytes = [0; 8];
        all_bytes[..ROW_BYTES].copy_from_slice(bytes);
        *row = Row::from_le_bytes(all_bytes);
        union |= *row;
    }
    union
}

/// One or more steps, in place (Warshall). Gives the number of row joins.
fn close_rows(rows: &mut [Row]) -> u64 {
    let mut joins = 0;
    for middle in 0..rows.len() {
        let through = rows[middle];
        for row in rows.iter_mut() {
            if *row >> middle & 1 == 1 {
                *row |= through;
                joins += 1;
            }
        }
    }
    joins
}

/// Rule 4: whoever a stalls waits for all that a reaches. Gives the number of
/// waits pairs.
fn fill_waits(reached: &[Row], stalls: &[Row], waits: &mut [Row]) -> u64 {
    for (through, stalls) in reached.iter().zip(stalls) {
        let mut stalled = *stalls;
        while stalled != 0 {
            waits[stalled.trailing_zeros() as usize] |= through;
            stalled &= stalled - 1;
        }
    }
    waits.iter().map(|row| u64::from(row.count_ones())).sum()
}

/// The messages with a step into the set.
fn one_step_into(rows: &[Row], set: Row) -> Row {
    let mut found = 0;
    for (message, row) in rows.iter().enumerate() {
        found |= Row::from(row & set != 0) << message;
    }
    found
}

/// Rounds: all messages are there in round 0; later rounds keep those with a
/// waits step into the set before. Whoever is there in round k has a chain of
/// k steps. Empty at round k: k networks. Not empty at round n: class 2.
fn write_networks<const MOST: usize>(waits: &[Row], all: Row, out: &mut [u8]) -> Option<usize> {
    let count = waits.len();
    let mut networks = [0; MOST];
    let mut there = all;
    for round in 1..=count {
        there = one_step_into(waits, there);
        if there == 0 {
            out[..count].copy_from_slice(&networks[..count]);
            return Some(round);
        }
        for (message, network) in networks[..count].iter_mut().enumerate() {
            if there >> message & 1 == 1 {
                *network = round as u8;
            }
        }
    }
    None
}

/// The shown cycle of a class 2 relation; gives its length. Only a strictly
/// shorter walk of a later start replaces the one found before.
fn write_cycle<const MOST: usize>(waits: &[Row], out: &mut [u8]) -> usize {
    let (mut first, mut shortest) = (Message(0), waits.len() + 1);
    let mut kept = [0; MOST];
    for start in (0..waits.len()).map(Message) {
        let mut sets = [0; MOST];
        if let Some(length) = closed_length(waits, start, shortest - 1, &mut sets) {
            (first, shortest, kept) = (start, length, sets);
        }
    }
    write_walk(waits, first, shortest, &kept, out);
    shortest
}

/// The length of the shortest closed walk from `start`, if at most `most`.
/// Leaves in sets[k] the messages from which it is reached in exactly k
/// steps, for each k below that length.
fn closed_length(waits: &[Row], start: Message, most: usize, sets: &mut [Row]) -> Option<usize> {
    let mut set = 1 << start.0;
    for length in 1..=most {
        sets[length - 1] = set;
        if waits[start.0] & set != 0 {
            return Some(length);
        }
        set = one_step_into(waits, set);
    }
    None
}

/// At each place the lowest message from which the rest can be walked.
fn write_walk(waits: &[Row], start: Message, length: usize, sets: &[Row], out: &mut [u8]) {
    let mut here = start;
    out[0] = start.0 as u8;
    for place in 1..length {
        let next = waits[here.0] & sets[length - place];
        here = Message(next.trailing_zeros() as usize);
        out[place] = here.0 as u8;
    }
}
