//! Row joins in closing causes, by hand and in a second way.

use super::*;

fn joins(count: usize, causes: &[(usize, usize)]) -> usize {
    relation(count, causes).joined().1
}

/// Worked out by hand; a b c are 0 1 2.
#[test]
fn joins_by_hand() {
    // No row holds anything.
    assert_eq!(joins(1, &[]), 0);
    assert_eq!(joins(32, &[]), 0);
    // A row that holds its own message is joined to itself.
    assert_eq!(joins(1, &[(0, 0)]), 1);
    // b: the row of a. c: those of a, by then, and b. d: those of a, b and c.
    assert_eq!(joins(4, &[(0, 1), (1, 2), (2, 3)]), 6);
    // The other way round. a: the row of b alone; it is only for b that the
    // row of c gets a, and then a has had its turn.
    assert_eq!(joins(4, &[(3, 2), (2, 1), (1, 0)]), 3);
    // a: the row of b, which gets b by it. b: the rows of a and b.
    assert_eq!(joins(2, &[(0, 1), (1, 0)]), 3);
    // Case 7 and case 8: two steps that do not meet.
    assert_eq!(joins(4, &[(0, 1), (3, 2)]), 2);
    assert_eq!(joins(4, &[(0, 1), (2, 3)]), 2);
    // Case 9: a chain of five of six messages, 1 + 2 + 3 + 4.
    assert_eq!(joins(6, &[(0, 1), (1, 2), (2, 3), (3, 4)]), 10);
}

/// The joins of a chain, of the chain the other way round, of a ring, of each
/// message with itself, and of all pairs.
fn joins_of_shapes(n: usize) -> [usize; 5] {
    let chain: Vec<(usize, usize)> = (1..n).map(|i| (i - 1, i)).collect();
    let back: Vec<(usize, usize)> = (1..n).map(|i| (i, i - 1)).collect();
    let ring: Vec<(usize, usize)> = (0..n).map(|i| (i, (i + 1) % n)).collect();
    let own: Vec<(usize, usize)> = (0..n).map(|i| (i, i)).collect();
    let all: Vec<(usize, usize)> = (0..n * n).map(|i| (i / n, i % n)).collect();
    [chain, back, ring, own, all].map(|causes| joins(n, &causes))
}

/// Case 10 has 0 + 1 + .. + 31 joins. The other way round each row is joined
/// once. In a ring the last row holds every message when its turn comes, so
/// there are 1 + 2 + .. + 31 and then 32. At most there are n times n.
#[test]
fn joins_of_32_and_64_messages() {
    assert_eq!(joins_of_shapes(32), [496, 31, 528, 32, 1_024]);
    assert_eq!(joins_of_shapes(64), [2_016, 63, 2_080, 64, 4_096]);
}

/// Whether one or more causes steps lead from a message to another, all those
/// between the two being below the second.
fn led_through_lower(causes: &Relation, from: Message, to: Message) -> bool {
    let mut seen = vec![false; causes.count()];
    let mut open = vec![from];
    while let Some(here) = open.pop() {
        if causes.has(here, to) {
            return true;
        }
        for next in messages_below(to.0).filter(|next| causes.has(here, *next)) {
            if !seen[next.0] {
                seen[next.0] = true;
                open.push(next);
            }
        }
    }
    false
}

/// When the turn of a middle message comes, a row holds what it is led to
/// through lower messages alone. So the joins can be counted without any join.
#[test]
fn joins_by_steps() {
    for seed in 0..20_000 {
        let mut random = Random::new(seed);
        let count = random.between(1, if seed % 32 == 0 { 64 } else { 8 });
        let (causes, stalls) = forms::random_relations(&mut random, count);
        let mut led = 0;
        for middle in causes.messages() {
            led += causes.messages().filter(|from| led_through_lower(&causes, *from, middle)).count();
        }
        let (rows, joins) = causes.joined();
        assert_eq!(rows, causes.one_or_more_steps(), "seed {}", seed);
        assert_eq!(joins, led, "seed {}", seed);
        assert!(joins <= count * count, "seed {}", seed);
        let (causes, stalls) = (forms::table(8, &causes), forms::table(8, &stalls));
        let answer = relations64(count as u64, &causes, &stalls, count);
        assert_eq!(answer.joins, joins as u64, "seed {}", seed);
    }
}
