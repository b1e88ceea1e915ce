//! One line of a text with one to three bad fields, so that it shows which of them
//! a refusal tells (request C-14). `damage` draws what it drew before, and rarely
//! leaves two bad fields in one line.

use super::*;

/// The fields of a record that are names or a network: all but its fixed words.
fn free_places(fields: &[Vec<u8>]) -> Vec<usize> {
    let is_free = |place: &usize| match fields[0].as_slice() {
        b"message" => *place == 1,
        b"state" => *place == 2,
        b"cell" => *place >= 2 && *place != 4,
        _ => *place >= 1,
    };
    (0..fields.len()).filter(is_free).collect()
}

/// Some line after the first, changed. Mostly its shape stays right, so that the
/// checks of names are reached.
pub fn damage_a_line(random: &mut Random, text: &[u8]) -> Vec<u8> {
    let mut lines = split_all(text);
    if lines.len() < 2 {
        return text.to_vec();
    }
    let line = random.between(1, lines.len() - 1);
    if random.chance(1, 3) {
        fill_sent(random, &mut lines, line);
    }
    let mut free = free_places(&lines[line]);
    // The first bad field is told, so the last ones need a turn of their own.
    if free.len() > 4 && random.chance(1, 2) {
        free.drain(..free.len() - 4);
    }
    let names_alone = !free.is_empty() && random.chance(3, 5);
    for _ in 0..random.between(1, 3) {
        let place = if names_alone { *random.pick(&free) } else { random.below(lines[line].len()) };
        lines[line][place] = bad_field(random, &lines, line, place);
    }
    if !names_alone && random.chance(1, 2) {
        other_count(random, &mut lines, line);
    }
    join_all(&lines)
}

/// A `go` cell gets more messages sent, up to eight.
fn fill_sent(random: &mut Random, lines: &mut [Vec<Vec<u8>>], line: usize) {
    let names: Vec<Vec<u8>> =
        lines.iter().filter(|fields| fields[0] == b"message").filter_map(|fields| fields.get(1)).cloned().collect();
    let is_go = lines[line][0] == b"cell" && lines[line].get(4).map_or(false, |word| word == b"go");
    if names.is_empty() || !is_go || lines[line].len() < 6 {
        return;
    }
    let wanted = *random.pick(&[9, 10, 11, 12, 13, 14, 14, 14]);
    while lines[line].len() < wanted {
        let name = random.pick(&names).clone();
        lines[line].push(name);
    }
}

/// Another field of the text, a like one, a fixed word, no name, or one that is
/// not declared.
fn bad_field(random: &mut Random, lines: &[Vec<Vec<u8>>], line: usize, place: usize) -> Vec<u8> {
    let field = &lines[line][place];
    match random.below(8) {
        0 | 1 => random_field(random, lines),
        2 => field_of_a_like_line(random, lines, line, place),
        3 => word(*random.pick(&[32, 64]), random),
        4 => Vec::new(),
        5 => field.to_ascii_uppercase(),
        6 => [field.as_slice(), random.pick(&["x", " ", "?", "\r", "0"]).as_bytes()].concat(),
        _ => random.pick(&["X", "not.there", "nnnnnnnnnnnnnnnnnnnnnnnnn", "?"]).as_bytes().to_vec(),
    }
}

/// Fields are missing at the end, or there are more.
fn other_count(random: &mut Random, lines: &mut [Vec<Vec<u8>>], line: usize) {
    if random.chance(1, 2) {
        let count = random.between(1, lines[line].len());
        lines[line].truncate(count);
    } else {
        let count = *random.pick(&[1, 1, 2, 9]);
        let field = bad_field(random, lines, line, 0);
        lines[line].extend(vec![field; count]);
    }
}
