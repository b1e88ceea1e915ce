//! Items of request C-15: up to 64 messages, and mappings under two headers.

use super::*;

pub fn all() -> Vec<Item> {
    let mut items = protocols(messages());
    items.extend(protocols(far_pairs()));
    items.extend(long_texts());
    items.extend(headers());
    items.extend(map_lines());
    items.extend(lines_past_the_most());
    items.extend(networks());
    items.extend(["chi_47.four", "chi_47.header_1"].map(example));
    items.extend(a_few_random());
    items
}

// ---------------------------------------------------------------------
// Messages
// ---------------------------------------------------------------------

fn messages() -> Vec<Vec<u8>> {
    let mut texts: Vec<Vec<u8>> = [33, 34, 47, 63, 64, 65, 66].map(|count| counted(count, 0, 0, 0, &[])).into();
    texts.push(counted(64, 8, 64, 512, &[]));
    // One too many, which has another fault too: 4, 6, 8.
    for line in ["message\tm0\treq", "message\tm63\treq", "message\t\treq", "message\tx", "message\tx\tnone"] {
        texts.push(counted(64, 0, 0, 0, &[line]));
    }
    texts.push(counted(64, 8, 0, 0, &["event\tx"]));
    texts.push(counted(64, 0, 0, 0, &["event\tm63"]));
    texts.push(counted(64, 1, 0, 0, &["message\tx\treq"]));
    texts.push(counted(64, 0, 1, 0, &["cell\tcache\ts0\tm64\tgo\ts0"]));
    texts.push(counted(64, 0, 1, 0, &["cell\tcache\ts0\tm0\tgo\ts0\tm64"]));
    texts.push(counted(64, 0, 65, 0, &[]));
    texts.push(counted(64, 0, 1, 513, &[]));
    texts
}

/// A cause and a stall from the first message to the last, and back; of each
/// message to itself, and to what is 32 further.
fn far_pairs() -> Vec<Vec<u8>> {
    let mut texts = Vec::new();
    for count in [31, 32, 33, 34, 47, 63, 64] {
        let last = count - 1;
        for (from, to) in [(0, last), (last, 0), (last, last), (last / 2, last)] {
            let enter = format!("cell\tcache\ts0\tm{}\tgo\ts2\tm{}", from, to);
            let stall = format!("cell\tcache\ts2\tm{}\tstall", to);
            texts.push(counted(count, 0, 3, 0, &[&enter, &stall]));
        }
    }
    for step in [0, 1, 31, 32, 33, 63] {
        let cells: Vec<String> =
            (0..64).map(|i| format!("cell\tdir\ts1\tm{}\tgo\ts3\tm{}\tm{}", i, (i + step) % 64, i)).collect();
        let cells: Vec<&str> = cells.iter().map(|cell| cell.as_str()).collect();
        texts.push(counted(64, 0, 4, 0, &cells));
    }
    texts
}

/// All limits at once, a message more, and what were the longest listings before
/// request C-12.
fn long_texts() -> Vec<Item> {
    let more = limits::one_more_of_each().into_iter().find(|past| past.limit == "messages");
    let (across, hung) = limits::across();
    let each_its_own: Vec<Network> = (0..64).map(Network).collect();
    let row = limits::ring_of_states(64, &limits::in_a_row(64));
    let ring = limits::ring_of_states(64, &limits::in_a_ring(64));
    vec![
        Item::Protocol(limits::full()),
        Item::Protocol(more.expect("one more message").text),
        Item::Judge(row, limits::mapping_under(2, &each_its_own)),
        Item::Judge(ring, limits::mapping_under(2, &each_its_own)),
        Item::Judge(limits::ring_of_states(64, &across), hung),
        Item::Judge(text_of(&small()), limits::long_mapping(2, 49_152)),
        Item::Judge(text_of(&small()), limits::long_mapping(2, 49_153)),
    ]
}

// ---------------------------------------------------------------------
// Mappings
// ---------------------------------------------------------------------

/// First lines like those of a mapping.
fn headers() -> Vec<Item> {
    let protocol = text_of(&small());
    let firsts = [
        "vn-mapping\t2", "vn-mapping\t3", "vn-mapping\t0", "vn-mapping\t02", "vn-mapping\t01", "vn-mapping\t 2",
        "vn-mapping\t2 ", "vn-mapping\t2\t", "vn-mapping\t2\r", "vn-mapping\t\t2", "vn-mapping\t12", "vn-mapping\t21",
        "vn-mapping\t+2", "vn-mapping\t2.0", "vn-mapping\t", "vn-mapping\t1\t2", "vn-mapping 2", "VN-mapping\t2",
        "vn-mappin\t2", "vn-mappings\t2", " vn-mapping\t2", "vn-protocol\t2", "vn-plan\t2", "\t2", "2",
    ];
    let mut items: Vec<Item> =
        firsts.iter().map(|first| judged(&protocol, &[first, "map\tA\t0", "map\tB\t63"])).collect();
    // The header alone, cut, and after a line.
    for mapping in ["vn-mapping\t2\n", "vn-mapping\t2", "vn-mapping\t3", "vn-mapping\t3\n\n", "\nvn-mapping\t2\n"] {
        items.push(Item::Judge(protocol.clone(), mapping.as_bytes().to_vec()));
    }
    items
}

/// Messages m0 and so on, and a mapping of the first so many of them, with more
/// lines after that.
fn mapping_of(messages: usize, header: usize, right: usize, more: &[&str]) -> Item {
    let mut lines = vec![format!("vn-mapping\t{}", header)];
    lines.extend((0..right).map(|i| format!("map\tm{}\t{}", i, i % 32)));
    lines.extend(more.iter().map(|line| line.to_string()));
    Item::Judge(counted(messages, 0, 0, 0, &[]), text_of(&lines))
}

/// Fewer `map` lines than messages, as many and more, around the most of each
/// header.
fn map_lines() -> Vec<Item> {
    let mut items = Vec::new();
    for messages in [1, 10, 31, 32, 33, 40, 47, 63, 64] {
        for header in [1, 2] {
            let mut counts = vec![0, messages - 1, messages, messages + 1, 31, 32, 33, 34, 63, 64, 65, 66];
            counts.sort_unstable();
            counts.dedup();
            items.extend(counts.into_iter().map(|right| mapping_of(messages, header, right, &[])));
        }
    }
    items
}

/// The last `map` line of each header, the line after it, and what else could be
/// wrong there: 4 before 9, and 9 before 14 and 15.
fn lines_past_the_most() -> Vec<Item> {
    let mut items = Vec::new();
    for (header, most) in [(1, 32), (2, 64)] {
        let name = format!("m{}", most);
        let next = [
            format!("map\t{}\t0", name), format!("map\t{}\t99", name), "map\tm0\t0".into(), "map\tx\t0".into(), "map\tx\t99".into(),
            "map\t\t".into(), format!("map\t{}", name), format!("map\t{}\t0\t", name), format!("Map\t{}\t0", name), "map".into(), "".into(),
        ];
        for messages in [most - 1, most, 40] {
            items.extend(next.iter().map(|line| mapping_of(messages, header, most, &[line])));
            items.push(mapping_of(messages, header, most, &[&next[0], "map"]));
        }
        items.extend(next.iter().map(|line| mapping_of(most, header, most - 1, &[line])));
        let last = format!("map\tm{}", most - 1);
        for network in ["0", "31", "32", "63", "64", "", "07"] {
            items.push(mapping_of(most, header, most - 1, &[&format!("{}\t{}", last, network)]));
        }
    }
    items
}

/// Network fields under header 2, with a protocol of one message.
fn networks() -> Vec<Item> {
    let protocol = after_header(&["message\tA\treq"]);
    let mut items: Vec<Item> = (0..=255u8).map(|byte| mapped(2, &protocol, &[byte])).collect();
    for first in b"/0123456789:+- " {
        for second in b"/0123456789:+- " {
            items.push(mapped(2, &protocol, &[*first, *second]));
        }
    }
    let words = [
        "", "000", "001", "010", "063", "064", "100", "163", "630", "631", "6.3", "0x3", "6e1", " 63", "63 ", "+63", "-63", "63\r",
        "255", "256", "257", "319", "4294967296", "4294967359", "18446744073709551616", "18446744073709551679", "\u{0661}", "6\u{0661}",
    ];
    items.extend(words.iter().map(|word| mapped(2, &protocol, word.as_bytes())));
    items
}

// ---------------------------------------------------------------------
// A few random texts
// ---------------------------------------------------------------------

/// Texts with more than 32 messages and short ones in turn, some damaged, under
/// either header.
fn a_few_random() -> Vec<Item> {
    let mut random = Random::new(15);
    let mut items = Vec::new();
    while items.len() < 100 {
        let many = items.len() % 2 == 0;
        let whole = random::older_protocol_text(&mut random, 64);
        if (random::message_names(&whole).len() > 32) != many || whole.len() > 3_000 {
            continue;
        }
        let text = if random.chance(1, 3) { random::damage(&mut random, &whole) } else { whole };
        if text.len() > 4_000 {
            continue;
        }
        let mapping = random::mapping_text(&mut random, &text);
        let damaged = random.chance(1, 3);
        items.push(Item::Judge(text, if damaged { random::damage(&mut random, &mapping) } else { mapping }));
    }
    items
}
