//! Items of request C-14: which field a refusal tells. Most are one bad line.

use super::*;

pub fn all() -> Vec<Item> {
    let mut items = protocols(words_and_counts());
    items.extend(protocols(declared_names()));
    items.extend(protocols(one_unknown_name()));
    items.extend(protocols(several_unknown_names()));
    items.extend(protocols(unknown_and_more()));
    items.extend(map_lines());
    items.extend(a_few_random());
    items
}

/// The small protocol and one line more.
fn with_line(line: &str) -> Vec<u8> {
    small_and(12, &[line])
}

/// The line with other words at fields, which count from 1.
fn with_words(line: &str, fields: &[usize], word: &str) -> String {
    let mut words: Vec<&str> = line.split('\t').collect();
    fields.iter().for_each(|field| words[field - 1] = word);
    words.join("\t")
}

// ---------------------------------------------------------------------
// SHAPE
// ---------------------------------------------------------------------

/// Each choice of wrong words of each record, with the right count, with one field
/// more, and cut behind each of the first fields.
fn words_and_counts() -> Vec<Vec<u8>> {
    let lines: [(&str, &[usize]); 5] = [
        ("message\tC\treq", &[1, 3]),
        ("event\tf", &[1]),
        ("state\tdir\tX\tstable", &[1, 2, 4]),
        ("cell\tdir\tW\tA\tstall", &[1, 2, 5]),
        ("cell\tcache\tI\tA\tgo\tT\tA\tA\tA\tA\tA\tA\tA\tA", &[1, 2, 5]),
    ];
    let mut texts = Vec::new();
    for (line, words) in lines {
        for choice in 0..1 << words.len() {
            let wrong: Vec<usize> = (0..words.len()).filter(|i| choice >> i & 1 == 1).map(|i| words[i]).collect();
            let changed = with_words(line, &wrong, "word");
            texts.push(with_line(&changed));
            texts.push(with_line(&format!("{}\tword", changed)));
            let fields: Vec<&str> = changed.split('\t').collect();
            // A wrong record word is told whatever follows.
            let cuts = if wrong.contains(&1) { 1..2 } else { 1..fields.len().min(7) };
            texts.extend(cuts.map(|end| with_line(&fields[..end].join("\t"))));
        }
        // A word that is there and empty is wrong.
        texts.extend(words.iter().map(|field| with_line(&with_words(line, &[*field], ""))));
    }
    texts
}

// ---------------------------------------------------------------------
// NAME and TWICE
// ---------------------------------------------------------------------

fn declared_names() -> Vec<Vec<u8>> {
    let mut texts = Vec::new();
    for name in ["", "?", "A", "e", "I", "W", "nnnnnnnnnnnnnnnnnnnnnnnnn"] {
        texts.push(small_and(3, &[&format!("message\t{}\tctl", name)]));
        texts.push(small_and(4, &[&format!("event\t{}", name)]));
        texts.push(small_and(8, &[&format!("state\tcache\t{}\tstable", name)]));
        texts.push(small_and(8, &[&format!("state\tdir\t{}\ttransient", name)]));
    }
    texts
}

// ---------------------------------------------------------------------
// UNKNOWN
// ---------------------------------------------------------------------

const CACHE: &str = "cell\tcache\tI\te\tgo\tT\tA\tB\tA\tB\tA\tB\tA\tB";
const DIR: &str = "cell\tdir\tI\tA\tgo\tW\tA\tB\tA\tB\tA\tB\tA\tB";
const NAMES: [usize; 11] = [3, 4, 6, 7, 8, 9, 10, 11, 12, 13, 14];

/// Not declared, an event, a state of one controller.
fn one_unknown_name() -> Vec<Vec<u8>> {
    let mut texts = Vec::new();
    for field in NAMES {
        for word in ["X", "e", "W"] {
            texts.push(with_line(&with_words(CACHE, &[field], word)));
            texts.push(with_line(&with_words(DIR, &[field], word)));
        }
    }
    texts
}

/// Two names, and each name with all behind it.
fn several_unknown_names() -> Vec<Vec<u8>> {
    let mut texts = Vec::new();
    for (place, field) in NAMES.iter().enumerate() {
        for other in &NAMES[place + 1..] {
            texts.push(with_line(&with_words(CACHE, &[*field, *other], "X")));
        }
        texts.push(with_line(&with_words(DIR, &NAMES[place..], "e")));
    }
    texts
}

/// A smaller number comes first, and so does an unknown name before the others.
fn unknown_and_more() -> Vec<Vec<u8>> {
    let lines = [
        "cell\tcore\tX\tX\tgo\tX", "cell\tcache\tX\tX\tgone\tX", "cell\tcache\tX\tX\tgo", "cell\tcache\tX\tX\tstall\tX",
        "cell\tcache\tX\tA\tstall", "cell\tcache\tT\tX\tstall", "cell\tdir\tX\te\tstall", "cell\tdir\tW\te\tstall",
        "cell\tcache\tI\tX\tstall", "cell\tdir\tW\tA\tgo\tX", "cell\tdir\tW\tA\tgo\tI\tX", "cell\tdir\tW\tA\tgo\tI\tA\te",
    ];
    let mut texts: Vec<Vec<u8>> = lines.iter().map(|line| with_line(line)).collect();
    for line in ["cell\tcache\ts0\tm0\tgo\ts9", "cell\tcache\ts0\tm0\tgo\ts0\tm0\tm9", "cell\tcache\ts0\tm0\tgo\ts0\tm0"] {
        texts.push(counted(1, 0, 1, 512, &[line]));
    }
    texts
}

// ---------------------------------------------------------------------
// Mappings
// ---------------------------------------------------------------------

fn map_lines() -> Vec<Item> {
    let whole = text_of(&small());
    let (a, b) = ("map\tA\t0", "map\tB\t0");
    let wrong = [
        "", "\t", "Map\tA\t0", "Map\tX\t99", "Map\tX\t99\t", "Map", "map", "map\tX", "map\tX\t99\t", "map\tX\t0", "map\tX\t99",
        "map\t\t0", "map\te\t0", "map\tA\t", "map\tA\t99", "map\tB\t00", "map\tB\t64",
    ];
    let mut items = Vec::new();
    for (header, line) in wrong.iter().enumerate() {
        let head = format!("vn-mapping\t{}", header % 2 + 1);
        items.push(judged(&whole, &[&head, line, b]));
        items.push(judged(&whole, &[&head, a, line]));
        items.push(judged(&whole, &[&head, a, b, line]));
    }
    items
}

// ---------------------------------------------------------------------
// A few random texts
// ---------------------------------------------------------------------

/// One line has one to three bad fields, in the protocol or in the mapping.
fn a_few_random() -> Vec<Item> {
    let mut random = Random::new(14);
    let mut items = Vec::new();
    while items.len() < 120 {
        let whole = random::small_protocol_text(&mut random);
        if whole.len() > 800 {
            continue;
        }
        let mapping = random::mapping_text(&mut random, &whole);
        items.push(match items.len() % 4 {
            0 => Item::Judge(whole, random::damage_a_line(&mut random, &mapping)),
            _ => Item::Protocol(random::damage_a_line(&mut random, &whole)),
        });
    }
    items
}
