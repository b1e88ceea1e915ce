//! Texts damaged: bytes, fields and lines changed, dropped, doubled, swapped, cut, and texts grown past a limit.

use super::*;

/// The text as lines of fields. A last line without its end is a line too.
pub(super) fn split_all(text: &[u8]) -> Vec<Vec<Vec<u8>>> {
    let mut lines: Vec<&[u8]> = text.split(|byte| *byte == 10).collect();
    if lines.last().map_or(false, |line| line.is_empty()) {
        lines.pop();
    }
    lines
        .iter()
        .map(|line| line.split(|byte| *byte == 9).map(|field| field.to_vec()).collect())
        .collect()
}

pub(super) fn join_all(lines: &[Vec<Vec<u8>>]) -> Vec<u8> {
    let mut text = Vec::new();
    for line in lines {
        text.extend(line.join(&9u8));
        text.push(10);
    }
    text
}

/// One to three changes: bytes, fields and lines changed, dropped, doubled,
/// swapped or cut; rarely the text is grown past a limit, which for messages and
/// networks is that of either mapping header.
pub fn damage(random: &mut Random, text: &[u8]) -> Vec<u8> {
    let most = *random.pick(&[32, 64]);
    damage_around(most, random, text)
}

/// The same around so many messages and networks.
pub fn damage_around(most: usize, random: &mut Random, text: &[u8]) -> Vec<u8> {
    let mut damaged = text.to_vec();
    for _ in 0..random.between(1, 3) {
        damaged = match random.below(16) {
            0..=4 => damage_bytes(random, damaged),
            5..=9 => damage_fields(most, random, &damaged),
            10..=13 => damage_lines(random, &damaged),
            14 => cut(random, damaged),
            _ => grow(most, random, &damaged),
        };
    }
    damaged
}

fn random_byte(random: &mut Random) -> u8 {
    match random.below(4) {
        0 => *random.pick(b"\t\n\r \0"),
        1 => *random.pick(NAME_BYTES),
        2 => *random.pick(b"0123456789"),
        _ => random.below(256) as u8,
    }
}

fn damage_bytes(random: &mut Random, mut text: Vec<u8>) -> Vec<u8> {
    if text.is_empty() {
        return vec![random_byte(random)];
    }
    let place = random.below(text.len());
    match random.below(4) {
        0 => text[place] = random_byte(random),
        1 => {
            text.remove(place);
        }
        2 => text.insert(place, random_byte(random)),
        _ => {
            let other = random.below(text.len());
            text.swap(place, other);
        }
    }
    text
}

pub(super) fn random_field(random: &mut Random, lines: &[Vec<Vec<u8>>]) -> Vec<u8> {
    let line = random.pick(lines);
    random.pick(line).clone()
}

/// Words of texts, and fields that are or could be network numbers.
pub(super) fn word(most: usize, random: &mut Random) -> Vec<u8> {
    let (last, past) = ((most - 1).to_string(), most.to_string());
    let words = [
        "message", "event", "state", "cell", "map", "cache", "dir", "stall", "go", "stable",
        "transient", "req", "ctl", "", "0", "00", "01", &last, &past, "+1", "vn-protocol",
    ];
    random.pick(&words).as_bytes().to_vec()
}

fn damage_fields(most: usize, random: &mut Random, text: &[u8]) -> Vec<u8> {
    let mut lines = split_all(text);
    if lines.is_empty() {
        return text.to_vec();
    }
    let line = random.below(lines.len());
    let place = random.below(lines[line].len());
    match random.below(9) {
        0 => {
            lines[line].remove(place);
        }
        1 => {
            let field = lines[line][place].clone();
            lines[line].insert(place, field);
        }
        2 => {
            let other = random.below(lines[line].len());
            lines[line].swap(place, other);
        }
        3 => {
            let field = random_field(random, &lines);
            lines[line].push(field);
        }
        4 => lines[line][place] = random_field(random, &lines),
        5 => lines[line][place] = word(most, random),
        _ => lines[line][place] = field_of_a_like_line(random, &lines, line, place),
    }
    join_all(&lines)
}

/// The field at the same place of some line with the same first word: the
/// shape stays right, so later checks are reached.
pub(super) fn field_of_a_like_line(
    random: &mut Random,
    lines: &[Vec<Vec<u8>>],
    line: usize,
    place: usize,
) -> Vec<u8> {
    let like: Vec<&Vec<Vec<u8>>> = lines
        .iter()
        .filter(|other| other[0] == lines[line][0] && other.len() > place)
        .collect();
    random.pick(&like)[place].clone()
}

fn damage_lines(random: &mut Random, text: &[u8]) -> Vec<u8> {
    let mut lines = split_all(text);
    if lines.is_empty() {
        return text.to_vec();
    }
    let line = random.below(lines.len());
    let other = random.below(lines.len());
    match random.below(6) {
        0 => {
            lines.remove(line);
        }
        1 => {
            let double = lines[line].clone();
            lines.insert(line, double);
        }
        2 => lines.swap(line, other),
        3 => {
            let moved = lines.remove(line);
            lines.insert(other, moved);
        }
        4 => drop_sections(random, &mut lines),
        _ => lines.insert(line, vec![Vec::new()]),
    }
    join_all(&lines)
}

/// Drops all lines of one section, and with the messages often all cells.
fn drop_sections(random: &mut Random, lines: &mut Vec<Vec<Vec<u8>>>) {
    let record: &[u8] = *random.pick(&[b"message".as_slice(), b"event", b"state", b"cell"]);
    let cells_too = random.chance(2, 3);
    lines.retain(|fields| fields[0] != record && !(cells_too && fields[0] == b"cell"));
}

fn cut(random: &mut Random, mut text: Vec<u8>) -> Vec<u8> {
    match random.below(3) {
        0 => {
            text.pop();
        }
        1 => text.truncate(random.below(text.len() + 1)),
        _ => {
            let line = random.below(split_all(&text).len() + 1);
            text = join_all(&split_all(&text)[..line]);
        }
    }
    text
}

/// Past a limit: names, messages or `map` lines, events, states, cells, sent
/// messages, networks, bytes.
fn grow(most: usize, random: &mut Random, text: &[u8]) -> Vec<u8> {
    let mut lines = split_all(text);
    if lines.is_empty() {
        return text.to_vec();
    }
    let line = random.below(lines.len());
    let place = random.below(lines[line].len());
    match random.below(8) {
        0 => lines[line][place] = vec![b'n'; random.between(24, 25)],
        1 if lines[0][0] == b"vn-mapping" => repeat_last(random, &mut lines),
        1 => repeat_record(random, &mut lines, b"message", most + 2),
        2 => repeat_record(random, &mut lines, b"event", 10),
        3 => repeat_record(random, &mut lines, b"state", 66),
        4 => repeat_record(random, &mut lines, b"cell", 514),
        5 => {
            let field = lines[line][place].clone();
            lines[line].extend(vec![field; random.between(6, 9)]);
        }
        6 => lines[line][place] = random.between(most - 2, most + 1).to_string().into_bytes(),
        _ => return lengthen(random, text),
    }
    join_all(&lines)
}

/// Copies of the first record of a section, with fresh names, up to `most` of
/// them or a few less. Cells are copied as they are.
fn repeat_record(random: &mut Random, lines: &mut Vec<Vec<Vec<u8>>>, record: &[u8], most: usize) {
    let first = match lines.iter().position(|fields| fields[0] == record) {
        Some(first) => first,
        None => return,
    };
    let name_place = if record == b"state" { 2 } else { 1 };
    let present = lines.iter().filter(|fields| fields[0] == record).count();
    let wanted = most - random.below(4);
    for number in present..wanted {
        let mut copy = lines[first].clone();
        if record != b"cell" && copy.len() > name_place {
            copy[name_place] = format!("new.{}", number).into_bytes();
        }
        lines.insert(first + 1, copy);
    }
}

/// One to three more of the last line.
fn repeat_last(random: &mut Random, lines: &mut Vec<Vec<Vec<u8>>>) {
    let last = lines[lines.len() - 1].clone();
    lines.extend(vec![last; random.between(1, 3)]);
}

/// Fills up to about the most bytes, with ended lines.
fn lengthen(random: &mut Random, text: &[u8]) -> Vec<u8> {
    let mut longer = text.to_vec();
    let size = random.between(49_150, 49_154);
    while longer.len() < size {
        longer.push(if longer.len() % 50 == 0 { 10 } else { b'x' });
    }
    longer[size - 1] = 10;
    longer
}
