//! Mappings under two headers (C-15).

use super::*;

/// A protocol of so many messages, m0 and so on, and nothing else.
fn protocol_of(count: usize) -> Vec<u8> {
    let lines = (0..count).map(|number| format!("message\tm{}\treq\n", number));
    format!("vn-protocol\t1\n{}", lines.collect::<String>()).into()
}

/// The header, and right `map` lines for so many messages, all in network 0.
fn mapping_of(header: usize, count: usize) -> Vec<u8> {
    let lines = (0..count).map(|number| format!("map\tm{}\t0\n", number));
    format!("vn-mapping\t{}\n{}", header, lines.collect::<String>()).into()
}

/// A mapping with the long names of limits.rs.
pub fn long_names_under(header: usize, numbers: &[usize]) -> Vec<u8> {
    limits::mapping_under(header, &networks(numbers))
}

/// Number and line of the refusal of a protocol with so many messages and a
/// mapping of a header: so many right `map` lines, and then these. Accepted is
/// (0, 0).
fn refusal_of(messages: usize, header: usize, right: usize, more: &[&str]) -> (u64, u64) {
    let mapping = [mapping_of(header, right), tabbed(more)].concat();
    match judge(&protocol_of(messages), &mapping) {
        Ok(_) => (0, 0),
        Err(refused) => {
            assert_eq!(refused.paper, 1);
            (refused.number, refused.line)
        }
    }
}

#[test]
fn headers() {
    let lines = tabbed(&["map>Ask>1", "map>Pass>0", "map>Give>0", "map>Done>0"]);
    let judge_under = |first: &str| judge(&bell(), &[tabbed(&[first]), lines.clone()].concat());
    for first in ["vn-mapping>1", "vn-mapping>2"] {
        assert_eq!(judge_under(first).unwrap(), tabbed(&["vn-judge>1", "fit"]), "{}", first);
    }
    let wrong = [
        "vn-mapping>3", "vn-mapping>0", "vn-mapping>01", "vn-mapping>02", "vn-mapping>12",
        "vn-mapping>2>", "vn-mapping>1>2", "vn-mapping>", "vn-mapping", "vn-mapping>2 ",
        "vn-mapping>2\r", "vn-mapping 2", "vn-mappings>2", "Vn-mapping>2", "vn-protocol>2",
        "vn-plan>2", "map>Ask>1", "",
    ];
    for first in wrong {
        assert_eq!(judge_under(first), refused(HEADER, 1, 1), "{}", first);
    }
    // Missing, or before any line is looked at.
    assert_eq!(judge(&bell(), b""), refused(HEADER, 1, 1));
    assert_eq!(judge(&bell(), b"vn-mapping\t3\n\n"), refused(HEADER, 1, 1));
    assert_eq!(judge(&bell(), b"vn-mapping\t3"), refused(NO_END, 1, 1));
    assert_eq!(judge(&bell(), b"vn-mapping\t2"), refused(NO_END, 1, 1));
    assert_eq!(judge(&bell(), b"vn-mapping\t2\n"), refused(UNMATCHED, 1, 2));
    // "The protocol header stays".
    assert_eq!(plan(b"vn-protocol\t2\nmessage\ta\treq\n"), refused(HEADER, 0, 1));
}

/// "under header 1 its 33rd `map` line is FULL"
#[test]
fn map_lines_under_header_1() {
    assert_eq!(refusal_of(32, 1, 32, &[]), (0, 0));
    // "before the line is matched": whether its name is the next message's or not.
    for messages in [32, 33, 40, 64] {
        for line in ["map>m32>0", "map>m0>0", "map>>", "map>m32>99", "map>x>32"] {
            assert_eq!(refusal_of(messages, 1, 32, &[line]), (FULL, 34), "{} {}", messages, line);
        }
        assert_eq!(refusal_of(messages, 1, 32, &["map>m32>0", "map"]), (FULL, 34));
        // "A malformed 33rd line is SHAPE."
        for line in ["map>m32", "map>m32>0>", "Map>m32>0", "map", ""] {
            assert_eq!(refusal_of(messages, 1, 32, &[line]), (SHAPE, 34), "{} {}", messages, line);
        }
    }
    // "with a protocol of 10, the 11th `map` line is UNMATCHED, as ever"
    assert_eq!(refusal_of(10, 1, 10, &["map>m10>0"]), (UNMATCHED, 12));
    assert_eq!(refusal_of(10, 1, 40, &[]), (UNMATCHED, 12));
    assert_eq!(refusal_of(31, 1, 31, &["map>m31>0"]), (UNMATCHED, 33));
    assert_eq!(refusal_of(31, 1, 40, &[]), (UNMATCHED, 33));
    // The 32nd line is the last that is matched.
    assert_eq!(refusal_of(40, 1, 31, &["map>m32>0"]), (UNMATCHED, 33));
    assert_eq!(refusal_of(40, 1, 31, &["map>m31>32"]), (NETWORK, 33));
    // "A mapping under header 1 that ends after its 32nd line for a protocol
    // with more messages is UNMATCHED at the last line + 1."
    for messages in [33, 40, 64] {
        assert_eq!(refusal_of(messages, 1, 32, &[]), (UNMATCHED, 34));
        assert_eq!(refusal_of(messages, 1, messages, &[]), (FULL, 34));
    }
    assert_eq!(refusal_of(32, 1, 31, &[]), (UNMATCHED, 33));
}

/// "Header 2's 65th `map` line is FULL"
#[test]
fn map_lines_under_header_2() {
    for messages in [1, 10, 31, 32, 33, 47, 63, 64] {
        let line = messages as u64 + 2;
        assert_eq!(refusal_of(messages, 2, messages, &[]), (0, 0));
        assert_eq!(refusal_of(messages, 2, messages - 1, &[]), (UNMATCHED, line - 1));
        let one_more = if messages == 64 { FULL } else { UNMATCHED };
        for name in ["m0".to_string(), format!("m{}", messages)] {
            let more = format!("map>{}>0", name);
            assert_eq!(refusal_of(messages, 2, messages, &[&more]), (one_more, line));
        }
        assert_eq!(refusal_of(messages, 2, messages, &["map>x>99"]), (one_more, line));
        assert_eq!(refusal_of(messages, 2, messages, &["map>x"]), (SHAPE, line));
        assert_eq!(refusal_of(messages, 2, messages, &[""]), (SHAPE, line));
    }
    assert_eq!(refusal_of(64, 2, 32, &[]), (UNMATCHED, 34));
    assert_eq!(refusal_of(64, 2, 32, &["map>m33>0"]), (UNMATCHED, 34));
    assert_eq!(refusal_of(64, 2, 63, &["map>m63>64"]), (NETWORK, 65));
}

/// "under header 1 [..] a number above 31 is NETWORK", under header 2 one above
/// 63.
#[test]
fn networks_by_header() {
    for (header, highest) in [(1, 31), (2, 63)] {
        for number in 0..=300 {
            let right = if number <= highest { (0, 0) } else { (NETWORK, 2) };
            let line = format!("map>m0>{}", number);
            assert_eq!(refusal_of(1, header, 0, &[&line]), right, "{} {}", header, number);
        }
        let wrong = ["", "00", "01", "031", "063", "+1", "-1", "-0", " 1", "1 ", "1\r", "0x1", "1.0"];
        for field in wrong.into_iter().chain(["256", "4294967296", "18446744073709551616"]) {
            let line = format!("map>m0>{}", field);
            assert_eq!(refusal_of(1, header, 0, &[&line]), (NETWORK, 2), "{} {}", header, field);
        }
        assert_eq!(refusal_of(1, header, 0, &["map>m1>64"]), (UNMATCHED, 2));
        assert_eq!(refusal_of(1, header, 0, &["map>m1>64>"]), (SHAPE, 2));
    }
}

/// "old texts remain readable": what is accepted under header 1 is judged alike
/// under header 2. What is refused there for another reason than a limit of the
/// header is refused alike.
#[test]
fn header_2_allows_all_of_header_1() {
    let (mut accepted, mut alike) = (0, 0);
    for seed in 0..4_000 {
        let mut random = Random::new(seed);
        let protocol = random::protocol_text(&mut random);
        let mut mapping = random::mapping_text(&mut random, &protocol);
        if seed % 2 == 1 {
            mapping = random::damage(&mut random, &mapping);
        }
        let lines = match mapping.strip_prefix(b"vn-mapping\t1\n") {
            Some(lines) => lines,
            None => continue,
        };
        let under_2 = [b"vn-mapping\t2\n".as_slice(), lines].concat();
        match judge(&protocol, &mapping) {
            Err(refused) if refused.number == FULL || refused.number == NETWORK => {}
            result => {
                if result.is_ok() { accepted += 1 } else { alike += 1 }
                assert_eq!(judge(&protocol, &under_2), result, "seed {}", seed);
            }
        }
    }
    assert!(accepted > 400 && alike > 200, "{} {}", accepted, alike);
}

/// The plan's `map` lines under a header.
fn printed_under(header: usize, listing: &[u8]) -> Vec<u8> {
    let text = std::str::from_utf8(listing).unwrap();
    let lines = text.split_inclusive('\n').filter(|line| line.starts_with("map\t"));
    format!("vn-mapping\t{}\n{}", header, lines.collect::<String>()).into()
}

/// "the printed mapping is judged fit as a text under header 2, and under header
/// 1 too where there are at most 32 messages and networks"
#[test]
fn printed_mappings_are_fit() {
    let fit = tabbed(&["vn-judge>1", "fit"]);
    for count in 2..=64 {
        let chain: Vec<(usize, usize)> = (1..count).map(|i| (i - 1, i)).collect();
        // All in a row: the first message has the highest network. All wait for
        // the last: two networks.
        let star: Vec<(usize, usize)> = (1..count).map(|i| (i - 1, count - 1)).collect();
        for (waits, number) in [(chain, NETWORK), (star, FULL)] {
            let protocol = protocol_with_waits(count, &waits);
            let listing = plan(&protocol).unwrap();
            assert_eq!(judge(&protocol, &printed_under(2, &listing)).unwrap(), fit);
            let under_1 = judge(&protocol, &printed_under(1, &listing));
            let (line, field) = if number == FULL { (34, 0) } else { (2, 3) };
            let right = if count <= 32 { Ok(fit.clone()) } else { refused_at(number, 1, line, field) };
            assert_eq!(under_1, right, "{}", count);
        }
    }
}

/// Texts of up to 64 messages under header 2 against the rules on bare relations.
#[test]
fn judged_as_by_the_rules() {
    let (mut fit, mut unfit) = (0, 0);
    for seed in 0..1_000 {
        let mut random = Random::new(seed);
        let count = random.between(33, 64);
        let mut waits = Relation::empty(count);
        let mut stalls = Relation::empty(count);
        let mut pairs = Vec::new();
        for _ in 0..random.below(3 * count) {
            // Nothing waits for the first message: there are at most 63 states
            // beside the stable one.
            let (b, c) = (random.below(count), random.between(1, count - 1));
            // Forward only, half the time: then the waits have no cycle.
            if b != c && (seed % 2 == 0 || b < c) && !waits.has(Message(b), Message(c)) {
                waits.add(Message(b), Message(c));
                stalls.add(Message(c), Message(b));
                pairs.push((b, c));
            }
        }
        let protocol = protocol_with_waits(count, &pairs);
        let names = read_protocol(&protocol).unwrap().message_names();
        let mapping: Vec<usize> = if random.chance(1, 2) {
            (0..count).map(|number| 63 - number / random.between(1, 2)).collect()
        } else {
            random::mapping(&mut random, count).iter().map(|network| network.0).collect()
        };
        let verdict = verdict_of(&waits, &stalls, &networks(&mapping));
        if verdict == Verdict::Fit { fit += 1 } else { unfit += 1 }
        let listing = judge(&protocol, &long_names_under(2, &mapping)).unwrap();
        assert_eq!(listing, judge_listing(&names, &verdict), "seed {}", seed);
        assert_eq!(plan(&protocol).unwrap(), plan_listing(&names, &plan_of(&waits)), "seed {}", seed);
    }
    assert!(fit > 100 && unfit > 100, "fit {} unfit {}", fit, unfit);
}
