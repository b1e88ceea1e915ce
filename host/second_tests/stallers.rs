//! The staller two steps back (C-12): by hand, and the mended rule 3 against the
//! old one on random texts.

use super::*;
use std::collections::BTreeSet;

// ---------------------------------------------------------------------
// By hand
// ---------------------------------------------------------------------

/// The tables of a listing, refused by 13 or not.
fn tables(lines: &[&str]) -> Protocol {
    read_tables(&tabbed(lines)).unwrap()
}

/// Both controllers have states of the same names.
const DECLARED: [&str; 17] = [
    "vn-protocol>1",
    "message>a>req",
    "message>b>req",
    "message>c>req",
    "message>d>req",
    "message>x>fwd",
    "event>e",
    "state>cache>I>stable",
    "state>cache>J>stable",
    "state>cache>P>transient",
    "state>cache>Q>transient",
    "state>cache>R>transient",
    "state>dir>I>stable",
    "state>dir>J>stable",
    "state>dir>P>transient",
    "state>dir>Q>transient",
    "state>dir>R>transient",
];

fn with_cells(cells: &[&str]) -> Protocol {
    tables(&[&DECLARED[..], cells].concat())
}

/// Names of all that stall x, by a rule 3.
fn stallers_of_x(protocol: &Protocol, rule: fn(&Protocol) -> Relation) -> String {
    let (stalls, x) = (rule(protocol), Message(4));
    let names = ["a", "b", "c", "d", "x"];
    stalls.messages().filter(|a| stalls.has(*a, x)).map(|a| names[a.0]).collect()
}

/// x is stalled in R of `cache`; by whom, by the old rule and the mended one.
fn check(cells: &[&str], old: &str, mended: &str) {
    let protocol = with_cells(&[cells, &["cell>cache>R>x>stall"]].concat());
    assert_eq!(stallers_of_x(&protocol, stalls_directly_of), old, "{:?}", cells);
    assert_eq!(stallers_of_x(&protocol, stalls_of), mended, "{:?}", cells);
}

/// "A customer's cache goes from a stable state to P1 sending Get, then to P2 on
/// Data, and stalls Fwd in P2." The directory sends a Get on, or sends the data
/// and has the sharers send acks, which the cache in P2 still waits for.
const CUSTOMER: [&str; 20] = [
    "vn-protocol>1",
    "message>Get>req",
    "message>Fwd>fwd",
    "message>Inv>fwd",
    "message>Data>data",
    "message>Ack>ctl",
    "event>store",
    "state>cache>I>stable",
    "state>cache>P1>transient",
    "state>cache>P2>transient",
    "state>cache>M>stable",
    "state>dir>D>stable",
    "cell>cache>I>store>go>P1>Get",
    "cell>cache>P1>Data>go>P2",
    "cell>cache>P2>Fwd>stall",
    "cell>cache>P2>Ack>go>M",
    "cell>cache>M>Fwd>go>I>Data",
    "cell>cache>I>Inv>go>I>Ack",
    "cell>dir>D>Get>go>D>Fwd",
    "cell>dir>D>Get>go>D>Data>Inv",
];

/// "Rule 3 names Data alone, though what is missing belongs to Get's transaction,
/// so the acks are lost from the waits." "some class 3 protocols become class 2"
#[test]
fn the_customers_cache() {
    let protocol = tables(&CUSTOMER);
    let causes = causes_of(&protocol);
    // Get Fwd Inv Data Ack are 0 1 2 3 4.
    let old = stalls_directly_of(&protocol);
    assert_eq!(old, relation(5, &[(3, 1)]));
    let class_3 = Plan::Class3 { networks: 1, mapping: networks(&[0; 5]) };
    assert_eq!(plan_of(&waits_of(&causes, &old)), class_3);
    let mended = stalls_of(&protocol);
    assert_eq!(mended, relation(5, &[(0, 1), (3, 1)]));
    let waits = waits_of(&causes, &mended);
    assert_eq!(waits, relation(5, &[(1, 1), (1, 2), (1, 3), (1, 4)]));
    let right = tabbed(&["vn-plan>1", "class>2", "cycle>Fwd"]);
    assert_eq!(plan(&tabbed(&CUSTOMER)).unwrap(), right);
}

/// The same cache, where the directory never sends a Get on: class 3 in both
/// readings, and Fwd now waits for the acks.
#[test]
fn the_customers_cache_without_a_cycle() {
    let lines: Vec<&str> = CUSTOMER.into_iter().filter(|line| !line.ends_with("D>Fwd")).collect();
    let protocol = tables(&lines);
    let causes = causes_of(&protocol);
    assert_eq!(least_count(&waits_of(&causes, &stalls_directly_of(&protocol))), Some(1));
    let waits = waits_of(&causes, &stalls_of(&protocol));
    assert_eq!(waits, relation(5, &[(1, 2), (1, 3), (1, 4)]));
    assert_eq!(least_count(&waits), Some(2));
}

/// One, two and three states back.
#[test]
fn chains() {
    let (in_p, p_to_q, q_to_r) = ("cell>cache>I>a>go>P", "cell>cache>P>b>go>Q", "cell>cache>Q>c>go>R");
    check(&["cell>cache>I>a>go>R"], "a", "a");
    check(&["cell>cache>I>a>go>Q", q_to_r], "c", "ac");
    // P is reached only through the two transient states Q and R.
    check(&[in_p, p_to_q, q_to_r], "c", "abc");
    // In whichever order the cells stand.
    check(&[q_to_r, p_to_q, in_p], "c", "abc");
    check(&[p_to_q, in_p, q_to_r], "c", "abc");
    // A part of the chain is missing.
    check(&[in_p, q_to_r], "c", "c");
    check(&[in_p, p_to_q, "cell>cache>I>d>go>R"], "d", "d");
    // Two ways into R.
    check(&[in_p, "cell>cache>P>b>go>R", "cell>cache>I>d>go>Q", q_to_r], "bc", "abcd");
    // What is stalled in Q or P gets no staller from further on.
    let protocol = with_cells(&[in_p, p_to_q, q_to_r, "cell>cache>Q>x>stall"]);
    assert_eq!(stallers_of_x(&protocol, stalls_of), "ab");
    let protocol = with_cells(&[in_p, p_to_q, q_to_r, "cell>cache>P>x>stall"]);
    assert_eq!(stallers_of_x(&protocol, stalls_of), "a");
}

/// With each state of a ring all others are taken.
#[test]
fn rings() {
    let (p_to_q, q_to_r, r_to_p) = ("cell>cache>P>a>go>Q", "cell>cache>Q>b>go>R", "cell>cache>R>c>go>P");
    check(&[p_to_q, q_to_r, r_to_p], "b", "abc");
    check(&[r_to_p, q_to_r, p_to_q, "cell>cache>J>d>go>P"], "b", "abcd");
    check(&[q_to_r, "cell>cache>R>a>go>Q"], "b", "ab");
    // A ring that R is not in, but follows.
    check(&[p_to_q, "cell>cache>Q>d>go>P", q_to_r], "b", "abd");
    // A ring that comes after R only.
    check(&["cell>cache>I>d>go>R", r_to_p, p_to_q, "cell>cache>Q>b>go>P"], "d", "d");
}

/// "every transient state": a stable one is not taken on the way. "the carriers
/// of all cells that enter a taken state": its own cells count like any other's.
#[test]
fn stable_states() {
    check(&["cell>cache>I>a>go>P", "cell>cache>P>b>go>J", "cell>cache>J>c>go>R"], "c", "c");
    check(&["cell>cache>P>a>go>I", "cell>cache>I>b>go>Q", "cell>cache>Q>c>go>R"], "c", "bc");
    check(&["cell>cache>I>a>go>Q", "cell>cache>J>b>go>Q", "cell>cache>Q>c>go>R", "cell>cache>J>d>go>R"], "cd", "abcd");
    // Round through a stable state is no ring.
    check(&["cell>cache>R>a>go>I", "cell>cache>P>b>go>I", "cell>cache>I>c>go>R"], "c", "c");
    check(&["cell>cache>R>a>go>P", "cell>cache>P>b>go>I", "cell>cache>I>c>go>R"], "c", "c");
}

/// "Its carriers are its trigger if that is a message, else the messages it
/// sends." An event that sends nothing has none, but its state is taken.
#[test]
fn events() {
    check(&["cell>cache>I>a>go>Q", "cell>cache>Q>e>go>R"], "", "a");
    check(&["cell>cache>I>e>go>Q>a>b", "cell>cache>Q>e>go>R>c"], "c", "abc");
    check(&["cell>cache>I>e>go>P>a", "cell>cache>P>e>go>Q", "cell>cache>Q>e>go>R"], "", "a");
    check(&["cell>cache>I>e>go>Q", "cell>cache>Q>b>go>R"], "b", "b");
    check(&["cell>cache>I>e>go>Q", "cell>cache>Q>e>go>R"], "", "");
    // What a message's cell sends carries nothing.
    check(&["cell>cache>I>a>go>Q>d", "cell>cache>Q>b>go>R>d"], "b", "ab");
}

/// A cell whose next is its own state enters nothing. It leads to a state that is
/// taken already.
#[test]
fn self_loops() {
    check(&["cell>cache>R>a>go>R"], "", "");
    check(&["cell>cache>I>a>go>Q", "cell>cache>Q>b>go>Q", "cell>cache>Q>c>go>R", "cell>cache>R>d>go>R"], "c", "ac");
    check(&["cell>cache>Q>b>go>Q", "cell>cache>Q>e>go>R"], "", "");
    let chain = ["cell>cache>I>a>go>Q", "cell>cache>Q>c>go>R"];
    let loops = ["cell>cache>Q>b>go>Q", "cell>cache>R>d>go>R"];
    let (q, r) = (State(3), State(4));
    for cells in [&chain[..], &[&chain[..], &loops[..]].concat()] {
        assert_eq!(taken_states(&with_cells(cells), r), BTreeSet::from([q, r]));
    }
}

/// A `stall` cell leads nowhere, and a taken state is followed back only.
#[test]
fn no_other_cells() {
    check(&["cell>cache>I>a>go>R", "cell>cache>Q>b>stall", "cell>cache>I>b>go>Q"], "a", "a");
    check(&["cell>cache>I>a>go>R", "cell>cache>R>b>go>P", "cell>cache>I>c>go>P"], "a", "a");
}

/// "every transient state of that controller"
#[test]
fn two_controllers() {
    check(&["cell>cache>I>a>go>R", "cell>dir>I>b>go>Q", "cell>dir>Q>c>go>R"], "a", "a");
    check(&["cell>cache>I>a>go>Q", "cell>dir>Q>b>go>R", "cell>cache>Q>c>go>R", "cell>dir>I>d>go>Q"], "c", "ac");
    let chain = ["cell>dir>I>a>go>Q", "cell>dir>Q>b>go>R", "cell>cache>P>c>go>Q", "cell>cache>Q>d>go>R", "cell>dir>R>x>stall"];
    assert_eq!(stallers_of_x(&with_cells(&chain), stalls_of), "ab");
}

// ---------------------------------------------------------------------
// Refusal 13
// ---------------------------------------------------------------------

/// Whether 13 is given by the old rule, and the line of it by the mended one; 0
/// where it is not given. The declared lines are 17.
fn check_13(cells: &[&str], old: bool, line: u64) {
    let text = tabbed(&[&DECLARED[..], cells].concat());
    assert_eq!(refused_directly(&read_tables(&text).unwrap()), old, "{:?}", cells);
    let found = plan(&text).map(|_| ()).map_err(|no| (no.number, no.paper, no.line));
    assert_eq!(found, if line == 0 { Ok(()) } else { Err((NO_ENTRY, 0, line)) }, "{:?}", cells);
}

/// 13 by the old rule: "a stalled message in a state whose entries have no
/// carrier".
fn refused_directly(protocol: &Protocol) -> bool {
    let mut stalled = protocol.cells.iter().filter(|cell| stalled_message(cell).is_some());
    stalled.any(|cell| carriers_into(protocol, cell.state).is_empty())
}

/// "13 is now given when no taken state has a carrier; its place is unchanged."
#[test]
fn no_entry() {
    let (stall, quiet) = ("cell>cache>R>x>stall", "cell>cache>Q>e>go>R");
    check_13(&[stall], true, 18);
    check_13(&[quiet, stall], true, 19);
    check_13(&[quiet, stall, "cell>cache>I>a>go>Q"], true, 0);
    check_13(&[quiet, stall, "cell>cache>I>e>go>Q>a"], true, 0);
    check_13(&[quiet, stall, "cell>cache>I>e>go>Q"], true, 19);
    check_13(&[quiet, stall, "cell>cache>Q>a>go>Q"], true, 19);
    check_13(&[quiet, stall, "cell>cache>P>e>go>Q", "cell>cache>J>a>go>P"], true, 0);
    check_13(&[quiet, stall, "cell>cache>R>e>go>Q"], true, 19);
    // R's own way out goes round and back.
    check_13(&[quiet, stall, "cell>cache>R>a>go>Q"], true, 0);
    // No way on from a stable state, nor into one.
    check_13(&["cell>cache>I>e>go>R", stall, "cell>cache>P>a>go>I"], true, 19);
    check_13(&[quiet, stall, "cell>dir>I>a>go>Q"], true, 19);
    check_13(&["cell>cache>I>a>go>R", stall], false, 0);
    // A stalled event needs no entry.
    check_13(&["cell>cache>R>e>stall"], false, 0);
    // "that cell's line, the first such": one that the old rule would have told
    // comes before it.
    let entered = ["cell>cache>I>a>go>Q", quiet, stall];
    check_13(&[&entered[..], &["cell>dir>P>x>stall", "cell>dir>Q>x>stall"]].concat(), true, 21);
    check_13(&[&["cell>dir>P>x>stall"], &entered[..]].concat(), true, 18);
}

/// "then 12, 13; then 16", and the mapping after the protocol.
#[test]
fn place_of_no_entry() {
    let cells = ["cell>cache>Q>e>go>R", "cell>cache>R>x>stall"];
    let text = tabbed(&[&DECLARED[..], &cells].concat());
    assert_eq!(plan(&text), refused(NO_ENTRY, 0, 19));
    assert_eq!(plan_with_room(&text, 0).packed(), NO_ENTRY | 19 << 16);
    assert_eq!(judge(&text, b""), refused(NO_ENTRY, 0, 19));
    let bad = [text, tabbed(&["cell>cache>I>a>go>X"])].concat();
    assert_eq!(plan(&bad), refused_at(UNKNOWN, 0, 20, 6));
}

// ---------------------------------------------------------------------
// The listings of the paper, and the real protocols
// ---------------------------------------------------------------------

/// No transient state of Bell leads into another: the cases with tables have the
/// same relations as before. The other cases are bare relations.
#[test]
fn bell_has_no_chain() {
    for text in [bell(), bell_and(&["cell>cache>ID>Pass>stall"])] {
        let protocol = read_protocol(&text).unwrap();
        assert_eq!(stalls_of(&protocol), stalls_directly_of(&protocol));
    }
}

/// Class and count of a protocol by a rule 3; 0 networks is class 2.
fn networks_by(protocol: &Protocol, rule: fn(&Protocol) -> Relation) -> usize {
    least_count(&waits_of(&causes_of(protocol), &rule(protocol))).unwrap_or(0)
}

/// The counts by the old rule and by the mended one.
#[test]
fn real_protocols_by_both_rules() {
    let right = [
        ("bell", 2, 2),
        ("chi_47", 4, 0),
        ("chi_fig5", 2, 2),
        ("mosi_nonblocking", 1, 1),
        ("msi_blocking_cache", 0, 0),
        ("msi_nonblocking_cache", 2, 2),
        ("msi_only_inv_stalls", 2, 2),
        ("msi_stall_in_A_only", 3, 0),
        ("protogen_msi_nonstalling", 2, 2),
    ];
    for (name, old, mended) in right {
        let text = fs::read(format!("examples/{}.tsv", name)).unwrap();
        let protocol = read_protocol(&text).unwrap();
        let found = (networks_by(&protocol, stalls_directly_of), networks_by(&protocol, stalls_of));
        assert_eq!(found, (old, mended), "{}", name);
    }
}

/// Two mappings of examples/ are those that the plan printed by the old rule. By
/// the mended rule they are unfit.
#[test]
fn mappings_of_the_old_rule() {
    for (name, word) in [("msi_stall_in_A_only", "old"), ("chi_47", "four")] {
        let protocol = read_protocol(&fs::read(format!("examples/{}.tsv", name)).unwrap()).unwrap();
        let text = fs::read(format!("examples/{}.{}.mapping.tsv", name, word)).unwrap();
        let mapping = read_mapping(&text, &protocol.message_names()).unwrap();
        let (causes, old, mended) = (causes_of(&protocol), stalls_directly_of(&protocol), stalls_of(&protocol));
        assert_eq!(printed_mapping(&waits_of(&causes, &old)), mapping, "{}", name);
        assert_eq!(verdict_of(&waits_of(&causes, &old), &old, &mapping), Verdict::Fit, "{}", name);
        assert_ne!(verdict_of(&waits_of(&causes, &mended), &mended, &mapping), Verdict::Fit, "{}", name);
    }
}

// ---------------------------------------------------------------------
// Random texts
// ---------------------------------------------------------------------

/// Tables of random texts, refused by 13 or not; every fourth text is damaged.
fn random_tables(seeds: std::ops::Range<u64>) -> impl Iterator<Item = (u64, Protocol)> {
    seeds.filter_map(|seed| {
        let mut random = Random::new(seed);
        let whole = match seed % 8 {
            0 => random::protocol_text(&mut random),
            1 => random::wide_protocol_text(&mut random),
            _ => random::small_protocol_text(&mut random),
        };
        let text = if seed % 4 == 3 { random::damage(&mut random, &whole) } else { whole };
        read_tables(&text).ok().map(|protocol| (seed, protocol))
    })
}

/// Taken states in another way: t is taken with s when it is s, or when one or
/// more `go` cells lead from t to s, each of them standing in a transient state.
fn taken_by_steps(protocol: &Protocol) -> Vec<Vec<bool>> {
    let count = protocol.states.len();
    let mut leads = vec![vec![false; count]; count];
    for state in 0..count {
        leads[state][state] = true;
    }
    for cell in &protocol.cells {
        if let Outcome::Go { next, .. } = &cell.outcome {
            leads[cell.state.0][next.0] |= protocol.states[cell.state.0].kind == Kind::Transient;
        }
    }
    for middle in 0..count {
        for from in 0..count {
            for to in 0..count {
                leads[from][to] |= leads[from][middle] && leads[middle][to];
            }
        }
    }
    leads
}

#[test]
fn taken_states_by_steps() {
    let mut far = 0;
    for (seed, protocol) in random_tables(0..6_000) {
        let leads = taken_by_steps(&protocol);
        for s in (0..protocol.states.len()).map(State) {
            let right = (0..protocol.states.len()).map(State).filter(|t| leads[t.0][s.0]).collect();
            let taken = taken_states(&protocol, s);
            assert_eq!(taken, right, "seed {}", seed);
            far += usize::from(taken.len() > 3);
        }
    }
    assert!(far > 1_000, "{} states with three others", far);
}

/// "Every old pair remains".
#[test]
fn every_old_pair_remains() {
    let (mut same, mut more) = (0, 0);
    for (seed, protocol) in random_tables(0..10_000) {
        let (old, mended) = (stalls_directly_of(&protocol), stalls_of(&protocol));
        assert_eq!(old.or(&mended), mended, "seed {}", seed);
        if old == mended { same += 1 } else { more += 1 }
    }
    assert!(same > 2_000 && more > 1_500, "same {} more {}", same, more);
}

/// What 13 did not refuse it does not refuse now. Both answers turn up where it
/// did refuse.
#[test]
fn no_new_text_is_refused() {
    let (mut still, mut no_more, mut never) = (0, 0, 0);
    for (seed, protocol) in random_tables(0..10_000) {
        let mut stalled = protocol.cells.iter().filter(|cell| stalled_message(cell).is_some());
        let now = stalled.any(|cell| stallers_in(&protocol, cell.state).is_empty());
        match (refused_directly(&protocol), now) {
            (true, true) => still += 1,
            (true, false) => no_more += 1,
            (false, now) => {
                assert!(!now, "seed {}", seed);
                never += 1;
            }
        }
    }
    assert!(still > 200 && no_more > 200 && never > 2_000, "{} {} {}", still, no_more, never);
}

/// "some class 3 protocols become class 2": no other way, and the least count
/// never falls.
#[test]
fn the_count_never_falls() {
    let (mut class_2, mut becomes_2, mut rises, mut stays) = (0, 0, 0, 0);
    for (seed, protocol) in random_tables(0..10_000) {
        match (networks_by(&protocol, stalls_directly_of), networks_by(&protocol, stalls_of)) {
            (0, mended) => {
                assert_eq!(mended, 0, "seed {}", seed);
                class_2 += 1;
            }
            (_, 0) => becomes_2 += 1,
            (old, mended) => {
                assert!(old <= mended, "seed {}", seed);
                if old < mended { rises += 1 } else { stays += 1 }
            }
        }
    }
    let seen = [class_2, becomes_2, rises, stays];
    assert!(seen.iter().all(|times| *times > 50), "{:?}", seen);
}

/// The same of bare relations: more stalls pairs with the same causes.
#[test]
fn more_stalls_never_need_fewer() {
    let (mut class_2, mut becomes_2, mut rises, mut stays) = (0, 0, 0, 0);
    for seed in 0..4_000 {
        let mut random = Random::new(seed);
        let count = random.between(1, 16);
        let (causes, stalls) = forms::random_relations(&mut random, count);
        let mut more = stalls.clone();
        for _ in 0..random.between(1, 4) {
            more.add(Message(random.below(count)), Message(random.below(count)));
        }
        match (least_count(&waits_of(&causes, &stalls)), least_count(&waits_of(&causes, &more))) {
            (None, then) => {
                assert_eq!(then, None, "seed {}", seed);
                class_2 += 1;
            }
            (Some(_), None) => becomes_2 += 1,
            (Some(few), Some(then)) => {
                assert!(few <= then, "seed {}", seed);
                if few < then { rises += 1 } else { stays += 1 }
            }
        }
    }
    let seen = [class_2, becomes_2, rises, stays];
    assert!(seen.iter().all(|times| *times > 100), "{:?}", seen);
}

/// Of a hundred whole texts, in how many the stalls pairs are others than by the
/// old rule, and in how many refusal 13 is.
fn percent_that_differ(text: fn(&mut Random) -> Vec<u8>) -> [usize; 2] {
    let (mut read, mut stalls, mut refused) = (0, 0, 0);
    for seed in 0..3_000 {
        if let Ok(protocol) = read_tables(&text(&mut Random::new(seed))) {
            read += 1;
            let accepted = first_line_without_entry(&protocol).is_none();
            stalls += usize::from(accepted && stalls_of(&protocol) != stalls_directly_of(&protocol));
            refused += usize::from(accepted && refused_directly(&protocol));
        }
    }
    [100 * stalls / read, 100 * refused / read]
}

/// Both rules differ often enough that a comparison by these texts says something.
#[test]
fn both_rules_differ() {
    let kinds: [fn(&mut Random) -> Vec<u8>; 3] =
        [random::protocol_text, random::wide_protocol_text, random::small_protocol_text];
    let percent = kinds.map(percent_that_differ);
    println!("stalls pairs and refusal 13 differ, of a hundred texts: {:?}", percent);
    assert!(percent.iter().all(|[stalls, refused]| *stalls >= 20 && *refused >= 2), "{:?}", percent);
}
