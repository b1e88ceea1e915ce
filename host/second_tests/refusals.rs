//! Refusals of texts, on both sides of each limit.

use super::*;
use limits::Counts;

/// Line 18 of Bell with one line more; 0 means accepted.
fn number_after_bell(line: &str) -> u64 {
    match plan(&bell_and(&[line])) {
        Ok(_) => 0,
        Err(refused) => {
            assert_eq!((refused.paper, refused.line), (0, 18), "{}", line);
            refused.number
        }
    }
}

#[test]
fn heads_and_ends() {
    let header = tabbed(&["vn-protocol>1"]);
    assert_eq!(plan(b""), refused(HEADER, 0, 1));
    assert_eq!(plan(b"\n"), refused(HEADER, 0, 1));
    assert_eq!(plan(b"x"), refused(NO_END, 0, 1));
    assert_eq!(plan(b"vn-protocol\t1"), refused(NO_END, 0, 1));
    assert_eq!(plan(b"vn-protocol\t1\nmessage"), refused(NO_END, 0, 2));
    assert_eq!(plan(b"vn-protocol\t1\r\n"), refused(HEADER, 0, 1));
    assert_eq!(plan(b"vn-protocol\t1\t\n"), refused(HEADER, 0, 1));
    assert_eq!(plan(b"\nvn-protocol\t1\n"), refused(HEADER, 0, 1));
    assert_eq!(plan(&header), refused(NO_MESSAGE, 0, 0));
    assert_eq!(plan(&vec![10; 49_152]), refused(HEADER, 0, 1));
    assert_eq!(plan(&vec![10; 49_153]), refused(TOO_BIG, 0, 0));
    assert_eq!(plan(&vec![b'x'; 49_153]), refused(TOO_BIG, 0, 0));
    assert_eq!(plan(&vec![b'x'; 49_152]), refused(NO_END, 0, 1));
}

#[test]
fn shapes() {
    let wrong = [
        "", "cell", "map>Ask>0", "vn-protocol>1", "Message>a>req", "message>a", "message>a>req>",
        "message>a>Req", "event", "event>a>b", "state>cache>a", "state>cache>a>stable>",
        "state>core>a>stable", "state>cache>a>steady", "cell>cache>I>load", "cell>cache>I>load>Go>I",
        "cell>cache>I>load>go", "cell>cach>I>load>go>I", "cell>cache>ID>Ask>stall>",
        "cell>cache>ID>Ask>stall>ID", "cell>cache>I>load>go>I>a>a>a>a>a>a>a>a>a", " event>a",
        "cell>dir>Nowhere>Ask>", "cell>cache>I>load>go>I\r>>>>>>>>>",
    ];
    for line in wrong {
        assert_eq!(number_after_bell(line), SHAPE, "{}", line);
    }
    let right = [
        "cell>cache>I>load>go>I",
        "cell>cache>I>load>go>I>Ask>Ask>Ask>Ask>Ask>Ask>Ask>Ask",
        "cell>cache>ID>load>stall",
        "cell>dir>Wait>Pass>stall",
    ];
    for line in right {
        assert_eq!(number_after_bell(line), 0, "{}", line);
    }
}

#[test]
fn order_before_the_rest() {
    assert_eq!(number_after_bell("message>New>req"), ORDER);
    assert_eq!(number_after_bell("message>?>req"), ORDER);
    assert_eq!(number_after_bell("event>load"), ORDER);
    assert_eq!(number_after_bell("state>cache>I>stable"), ORDER);
    let late = tabbed(&["vn-protocol>1", "event>e", "message>m>req"]);
    assert_eq!(plan(&late), refused(ORDER, 0, 3));
}

#[test]
fn names() {
    let with_name = |name: &str| plan(&tabbed(&["vn-protocol>1", &format!("message>{}>req", name)]));
    for name in ["a", "Z9-+_.", "0", ".", &"n".repeat(24)] {
        assert!(with_name(name).is_ok(), "{}", name);
    }
    for name in ["", "a b", "a\r", "a/", "\u{e9}", "@", "[", "`", "{", ",", ":", &"n".repeat(25)] {
        assert_eq!(with_name(name), refused_at(NAME, 0, 2, 2), "{}", name);
    }
    let event = tabbed(&["vn-protocol>1", "message>a>req", "event>!"]);
    assert_eq!(plan(&event), refused_at(NAME, 0, 3, 2));
    let state = tabbed(&["vn-protocol>1", "message>a>req", "state>dir>>stable"]);
    assert_eq!(plan(&state), refused_at(NAME, 0, 3, 3));
}

#[test]
fn unknown_names() {
    let wrong = [
        "cell>cache>Free>load>go>I", "cell>cache>X>load>go>I", "cell>dir>Free>load>go>Free",
        "cell>dir>Free>X>go>Free", "cell>cache>I>load>go>Free", "cell>cache>I>load>go>X",
        "cell>cache>I>load>go>I>load", "cell>cache>I>load>go>I>Ask>X", "cell>cache>I>I>go>I",
        "cell>cache>>load>stall", "cell>dir>Wait>load>stall", "cell>cache>I>load>go>I>",
        "cell>cache>I>X>stall",
    ];
    for line in wrong {
        assert_eq!(number_after_bell(line), UNKNOWN, "{}", line);
    }
}

#[test]
fn declared_twice() {
    let head = ["vn-protocol>1", "message>a>req", "event>e"];
    let check = |more: &[&str], right: Result<(), (u64, u64)>| {
        let lines: Vec<&str> = head.iter().chain(more).copied().collect();
        let result = plan(&tabbed(&lines)).map(|_| ()).map_err(|no| (no.number, no.line));
        assert_eq!(result, right, "{:?}", more);
    };
    check(&["event>a"], Err((TWICE, 4)));
    check(&["event>e"], Err((TWICE, 4)));
    check(&["event>A"], Ok(()));
    check(&["state>cache>a>stable", "state>dir>a>stable", "state>cache>e>stable"], Ok(()));
    check(&["state>cache>s>stable", "state>cache>s>transient"], Err((TWICE, 5)));
    let messages = tabbed(&["vn-protocol>1", "message>a>req", "message>a>ctl"]);
    assert_eq!(plan(&messages), refused_at(TWICE, 0, 3, 2));
}

#[test]
fn stalls_in_stable_states_and_conflicts() {
    assert_eq!(number_after_bell("cell>cache>V>Pass>stall"), STALL_STABLE);
    assert_eq!(number_after_bell("cell>cache>I>load>stall"), STALL_STABLE);
    assert_eq!(number_after_bell("cell>dir>Wait>Ask>stall"), CONFLICT);
    assert_eq!(number_after_bell("cell>dir>Wait>Ask>go>Free"), CONFLICT);
    assert_eq!(number_after_bell("cell>dir>Wait>Done>stall"), CONFLICT);
    assert_eq!(number_after_bell("cell>dir>Wait>Done>go>Free"), 0);
}

#[test]
fn entries() {
    let head = [
        "vn-protocol>1", "message>a>req", "event>e", "state>cache>S>stable", "state>cache>T>transient",
        "state>dir>T>transient",
    ];
    let check = |more: &[&str], line: u64| {
        let lines: Vec<&str> = head.iter().chain(more).copied().collect();
        let found = plan(&tabbed(&lines)).map(|_| ()).map_err(|no| (no.number, no.line));
        let right = if line == 0 { Ok(()) } else { Err((NO_ENTRY, line)) };
        assert_eq!(found, right, "{:?}", more);
    };
    // A stalled event needs no entry.
    check(&["cell>cache>T>e>stall"], 0);
    check(&["cell>cache>T>a>stall"], 7);
    // An entry by a message, also when it stands later; not one of the other controller.
    check(&["cell>cache>T>a>stall", "cell>cache>S>a>go>T"], 0);
    check(&["cell>dir>T>a>stall", "cell>cache>S>a>go>T"], 7);
    // An event entry counts by what it sends.
    check(&["cell>cache>S>e>go>T", "cell>cache>T>a>stall"], 8);
    check(&["cell>cache>S>e>go>T>a", "cell>cache>T>a>stall"], 0);
    // A cell that stays in its state enters nothing.
    check(&["cell>cache>T>e>go>T>a", "cell>cache>T>a>stall"], 8);
    // The first such line.
    check(&["cell>dir>T>a>stall", "cell>cache>T>a>stall"], 7);
}

/// "Messages go up to 64, [..] 8 events, 64 states over both controllers, 512
/// cells and 49,152 bytes stay."
const MOST: Counts = Counts { messages: 64, events: 8, states: 64, cells: 512, bytes: 49_152 };

#[test]
fn one_more_than_a_limit() {
    let full = limits::protocol_text(&MOST);
    assert_eq!(full.len(), 49_152);
    let protocol = read_protocol(&full).unwrap();
    assert_eq!(protocol.messages.len(), 64);
    assert_eq!(protocol.events.len(), 8);
    assert_eq!(protocol.states.len(), 64);
    assert_eq!(protocol.cells.len(), 512);
    assert!(plan(&full).is_ok());
    // The line is that of the first record too many.
    let past = [
        (Counts { bytes: 49_153, ..MOST }, TOO_BIG, 0),
        (Counts { messages: 65, ..MOST }, FULL, 1 + 65),
        (Counts { events: 9, ..MOST }, FULL, 1 + 64 + 9),
        (Counts { states: 65, ..MOST }, FULL, 1 + 64 + 8 + 65),
        (Counts { cells: 513, ..MOST }, FULL, 1 + 64 + 8 + 64 + 513),
    ];
    for (counts, number, line) in past {
        let text = limits::protocol_text(&counts);
        assert_eq!(plan(&text), refused(number, 0, line), "{:?}", counts);
    }
}

/// The refusal number of a text with one more line, on that line.
fn number_with(text: &[u8], line: &str) -> u64 {
    let lines = text.iter().filter(|byte| **byte == 10).count() as u64;
    let longer = [text, &tabbed(&[line])].concat();
    let refused = plan(&longer).unwrap_err();
    assert_eq!((refused.paper, refused.line), (0, lines + 1), "{}", line);
    refused.number
}

#[test]
fn smallest_number_of_a_line() {
    // All tables are full, but there are bytes left.
    let cells = limits::protocol_text(&Counts { bytes: 45_000, ..MOST });
    let message = limits::message_name(Message(0));
    let stall = format!("cell>cache>s0>{}>stall", message);
    let conflict = cells.split(|byte| *byte == 10).find(|line| line.ends_with(b"stall")).unwrap();
    let conflict = String::from_utf8(conflict.to_vec()).unwrap().replace('\t', ">");
    assert_eq!(number_with(&cells, &stall), FULL);
    assert_eq!(number_with(&cells, &conflict), FULL);
    assert_eq!(number_with(&cells, "cell>cache>s0>Nothing>stall"), UNKNOWN);
    assert_eq!(number_with(&cells, "state>cache>s0>stable"), ORDER);
    assert_eq!(number_with(&cells, "state>cache>s0>steady"), SHAPE);
    let mut messages = tabbed(&["vn-protocol>1"]);
    for number in 0..64 {
        messages.extend(format!("message\tm{}\treq\n", number).into_bytes());
    }
    assert!(plan(&messages).is_ok());
    assert_eq!(number_with(&messages, "message>m64>req"), FULL);
    assert_eq!(number_with(&messages, "message>m63>req"), TWICE);
    assert_eq!(number_with(&messages, "message>m?>req"), NAME);
    assert_eq!(number_with(&messages, "message>m?>ask"), SHAPE);
    // Stable comes before conflict.
    assert_eq!(number_after_bell("cell>dir>Free>Ask>stall"), STALL_STABLE);
}

#[test]
fn longest_answers() {
    // Message i waits for i + 1.
    let chain: Vec<(usize, usize)> = (0..63).map(|i| (i, i + 1)).collect();
    let listing = plan(&protocol_with_waits(64, &chain)).unwrap();
    assert!(listing.starts_with(&tabbed(&["vn-plan>1", "class>3", "networks>64"])));
    // 54 of the 64 networks have two digits.
    assert_eq!(listing.len(), 30 + 64 * 31 + 54);
    // No cycle is longer than 63: see `limits::longest_cycle`.
    let ring: Vec<(usize, usize)> = (0..63).map(|i| (i, (i + 1) % 63)).collect();
    let listing = plan(&protocol_with_waits(64, &ring)).unwrap();
    assert_eq!(listing.len(), 18 + 5 + 63 * 25 + 1);
    // Waits and queues in turn: i waits for 32 + i, which shares a network with
    // i + 1 and queues behind it.
    let across: Vec<(usize, usize)> = (0..32).map(|i| (i, 32 + i)).collect();
    let mapping: Vec<usize> = (0..32).chain((1..33).map(|i| i % 32)).collect();
    let mapping = mappings::long_names_under(2, &mapping);
    let listing = judge(&protocol_with_waits(64, &across), &mapping).unwrap();
    assert_eq!(listing.len(), 17 + 32 * 61 + 32 * 62);
}

#[test]
fn mapping_refusals() {
    let check_at = |mapping: &[u8], number: u64, line: u64, field: u64| {
        assert_eq!(judge(&bell(), mapping), refused_at(number, 1, line, field));
    };
    let check = |mapping: &[u8], number: u64, line: u64| check_at(mapping, number, line, 0);
    let lines = ["vn-mapping>1", "map>Ask>31", "map>Pass>0", "map>Give>9", "map>Done>10"];
    assert!(judge(&bell(), &tabbed(&lines)).is_ok());
    check(b"", HEADER, 1);
    check(&bell(), HEADER, 1);
    check(b"vn-mapping\t1", NO_END, 1);
    for header in [1, 2] {
        check(&limits::long_mapping(header, 49_153), TOO_BIG, 0);
        check_at(&limits::long_mapping(header, 49_152), SHAPE, 2, 1);
    }
    check(&tabbed(&lines[..1]), UNMATCHED, 2);
    check(&tabbed(&lines[..4]), UNMATCHED, 5);
    let one_line = |line: &str| tabbed(&["vn-mapping>1", line]);
    for line in ["map>Ask", "map>Ask>0>", "map>X"] {
        check(&one_line(line), SHAPE, 2);
    }
    for line in ["", "Map>Ask>0"] {
        check_at(&one_line(line), SHAPE, 2, 1);
    }
    for line in ["map>Pass>0", "map>X>99", "map>>0", "map>ask>0"] {
        check_at(&one_line(line), UNMATCHED, 2, 2);
    }
    for field in ["", "32", "00", "01", "+1", "-1", "1 ", "0x1", "100", "4294967296", "\u{661}"] {
        check_at(&one_line(&format!("map>Ask>{}", field)), NETWORK, 2, 3);
    }
    let mut too_many = tabbed(&lines);
    too_many.extend(b"map\tDone\t0\n");
    check(&too_many, UNMATCHED, 6);
    // The protocol comes first.
    assert_eq!(judge(b"", b""), refused(HEADER, 0, 1));
}
