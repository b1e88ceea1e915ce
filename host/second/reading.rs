//! The two readers.

use super::*;

// ---------------------------------------------------------------------
// The protocol reader (refusals 1 to 13)
// ---------------------------------------------------------------------

pub fn read_protocol(text: &[u8]) -> Result<Protocol, Refusal> {
    let protocol = read_tables(text)?;
    match first_line_without_entry(&protocol) {
        Some(line) => Err(refusal(NO_ENTRY, PROTOCOL_PAPER, line)),
        None => Ok(protocol),
    }
}

/// All but the last refusal, 13.
pub fn read_tables(text: &[u8]) -> Result<Protocol, Refusal> {
    let (_, lines) = lines_after_header(text, &[b"vn-protocol\t1"], PROTOCOL_PAPER)?;
    let mut protocol = Protocol::empty();
    for (place, content) in lines.iter().enumerate() {
        // The header is line 1.
        let line = place + 2;
        if let Err(fault) = read_line(&mut protocol, content, line) {
            return Err(fault.refusal(PROTOCOL_PAPER, line));
        }
    }
    if protocol.messages.is_empty() {
        return Err(refusal(NO_MESSAGE, PROTOCOL_PAPER, 0));
    }
    Ok(protocol)
}

/// Reads one line, or gives the smallest refusal number that applies to it:
/// the checks below and in the four functions stand in rising order. "With several
/// bad fields of the same refusal, the first is told."
pub(super) fn read_line(protocol: &mut Protocol, content: &[u8], line: usize) -> Result<(), Fault> {
    let fields = split_fields(content);
    let record = match read_record(&fields) {
        Some(record) => record,
        None => return Err(shape_fault(&fields)),
    };
    let section = section_of(&record);
    if section < protocol.section {
        return Err(Fault::of_line(ORDER));
    }
    protocol.section = section;
    match record {
        Record::Message { name, message_type } => add_message(protocol, name, message_type),
        Record::Event { name } => add_event(protocol, name),
        Record::State { controller, name, kind } => add_state(protocol, controller, name, kind),
        Record::Cell(raw) => add_cell(protocol, &raw, line),
    }
}

pub(super) fn section_of(record: &Record) -> Section {
    match record {
        Record::Message { .. } => Section::Messages,
        Record::Event { .. } => Section::Events,
        Record::State { .. } => Section::States,
        Record::Cell(_) => Section::Cells,
    }
}

/// "Messages and events share one name space"
pub(super) fn is_message_or_event(protocol: &Protocol, name: &[u8]) -> bool {
    protocol.find_message(name).is_some() || protocol.find_event(name).is_some()
}

/// `message` name type
pub(super) fn add_message(protocol: &mut Protocol, name: &[u8], message_type: MessageType) -> Result<(), Fault> {
    if !is_name(name) {
        return Err(Fault::of_field(NAME, 2));
    }
    if is_message_or_event(protocol, name) {
        return Err(Fault::of_field(TWICE, 2));
    }
    if protocol.messages.len() == MOST_MESSAGES {
        return Err(Fault::of_line(FULL));
    }
    protocol.messages.push(MessageRow { name: name.to_vec(), message_type });
    Ok(())
}

/// `event` name
pub(super) fn add_event(protocol: &mut Protocol, name: &[u8]) -> Result<(), Fault> {
    if !is_name(name) {
        return Err(Fault::of_field(NAME, 2));
    }
    if is_message_or_event(protocol, name) {
        return Err(Fault::of_field(TWICE, 2));
    }
    if protocol.events.len() == MOST_EVENTS {
        return Err(Fault::of_line(FULL));
    }
    protocol.events.push(name.to_vec());
    Ok(())
}

/// `state` controller name kind
pub(super) fn add_state(
    protocol: &mut Protocol,
    controller: Controller,
    name: &[u8],
    kind: Kind,
) -> Result<(), Fault> {
    if !is_name(name) {
        return Err(Fault::of_field(NAME, 3));
    }
    if protocol.find_state(controller, name).is_some() {
        return Err(Fault::of_field(TWICE, 3));
    }
    if protocol.states.len() == MOST_STATES {
        return Err(Fault::of_line(FULL));
    }
    protocol.states.push(StateRow { controller, name: name.to_vec(), kind });
    Ok(())
}

pub(super) fn add_cell(protocol: &mut Protocol, raw: &RawCell, line: usize) -> Result<(), Fault> {
    let cell = look_up_cell(protocol, raw, line)?;
    if protocol.cells.len() == MOST_CELLS {
        return Err(Fault::of_line(FULL));
    }
    if cell.outcome == Outcome::Stall && protocol.kind_of(cell.state) == Kind::Stable {
        return Err(Fault::of_line(STALL_STABLE));
    }
    if protocol.cells.iter().any(|earlier| conflict(earlier, &cell)) {
        return Err(Fault::of_line(CONFLICT));
    }
    protocol.cells.push(cell);
    Ok(())
}

/// The first name, in the order of the fields, that is "not declared, or not
/// allowed there" (refusal 7): `cell` controller state trigger `go` next sent ..
pub(super) fn look_up_cell(protocol: &Protocol, raw: &RawCell, line: usize) -> Result<Cell, Fault> {
    let unknown = |field: usize| Fault::of_field(UNKNOWN, field);
    let controller = raw.controller;
    let state = protocol.find_state(controller, raw.state).ok_or(unknown(3))?;
    let trigger = protocol.find_trigger(controller, raw.trigger).ok_or(unknown(4))?;
    let outcome = match &raw.outcome {
        RawOutcome::Stall => Outcome::Stall,
        RawOutcome::Go { next, sent } => {
            let next = protocol.find_state(controller, next).ok_or(unknown(6))?;
            let mut sent_messages = Vec::new();
            for (place, name) in sent.iter().enumerate() {
                sent_messages.push(protocol.find_message(name).ok_or(unknown(7 + place))?);
            }
            Outcome::Go { next, sent: sent_messages }
        }
    };
    Ok(Cell { line, controller, state, trigger, outcome })
}

/// "the same controller, state and trigger, and at least one of the two is
/// `stall`" (refusal 11)
pub(super) fn conflict(earlier: &Cell, later: &Cell) -> bool {
    let same_place = earlier.controller == later.controller
        && earlier.state == later.state
        && earlier.trigger == later.trigger;
    same_place && (earlier.outcome == Outcome::Stall || later.outcome == Outcome::Stall)
}

/// "a stalled message in a state whose entries have no carrier; that cell's
/// line, the first such" (refusal 13). Request C-12: "13 is now given when no
/// taken state has a carrier; its place is unchanged." Without entries there is
/// no carrier.
pub fn first_line_without_entry(protocol: &Protocol) -> Option<usize> {
    for cell in &protocol.cells {
        if stalled_message(cell).is_some() && stallers_in(protocol, cell.state).is_empty() {
            return Some(cell.line);
        }
    }
    None
}

// ---------------------------------------------------------------------
// The mapping reader (refusals 1 to 4, 9, 14, 15)
// ---------------------------------------------------------------------

/// The first line of a mapping, and what may stand under it.
pub struct MappingHeader {
    pub first_line: &'static [u8],
    pub most_map_lines: usize,
    pub highest_network: usize,
}

/// "A mapping under the new header `vn-mapping` 2 may use the new limits; under
/// header 1 its 33rd `map` line is FULL and a number above 31 is NETWORK. Header
/// 2's 65th `map` line is FULL".
pub const MAPPING_HEADERS: [MappingHeader; 2] = [
    MappingHeader { first_line: b"vn-mapping\t1", most_map_lines: 32, highest_network: 31 },
    MappingHeader {
        first_line: b"vn-mapping\t2",
        most_map_lines: MOST_MESSAGES,
        highest_network: HIGHEST_NETWORK,
    },
];

/// The network of each message, in message order.
pub fn read_mapping(text: &[u8], names: &[Vec<u8>]) -> Result<Vec<Network>, Refusal> {
    let first_lines: Vec<&[u8]> = MAPPING_HEADERS.iter().map(|header| header.first_line).collect();
    let (place, lines) = lines_after_header(text, &first_lines, MAPPING_PAPER)?;
    let header = &MAPPING_HEADERS[place];
    let mut mapping = Vec::new();
    for (place, content) in lines.iter().enumerate() {
        match read_map_line(header, content, mapping.len(), names) {
            Ok(network) => mapping.push(network),
            Err(fault) => return Err(fault.refusal(MAPPING_PAPER, place + 2)),
        }
    }
    if mapping.len() < names.len() {
        // "or the text ends early: last line + 1"
        let last_line = lines.len() + 1;
        return Err(refusal(UNMATCHED, MAPPING_PAPER, last_line + 1));
    }
    Ok(mapping)
}

/// One line `map` name network, after `before` such lines, or the smallest
/// refusal number: "in a mapping 9 stands between 4 and 14". So a `map` line too
/// many for its header is FULL, whatever its name and network.
pub(super) fn read_map_line(
    header: &MappingHeader,
    content: &[u8],
    before: usize,
    names: &[Vec<u8>],
) -> Result<Network, Fault> {
    let fields = split_fields(content);
    if fields[0] != b"map" {
        return Err(Fault::of_field(SHAPE, 1));
    }
    if fields.len() != 3 {
        return Err(Fault::of_line(SHAPE));
    }
    if before == header.most_map_lines {
        return Err(Fault::of_line(FULL));
    }
    match names.get(before) {
        Some(name) if name.as_slice() == fields[1] => {}
        // "UNMATCHED by another name" tells its field, a line too many does not.
        Some(_) => return Err(Fault::of_field(UNMATCHED, 2)),
        None => return Err(Fault::of_line(UNMATCHED)),
    }
    read_network(header, fields[2]).ok_or(Fault::of_field(NETWORK, 3))
}

/// "Network is decimal, 0 to 31, no leading zero." Under header 2 to 63.
pub(super) fn read_network(header: &MappingHeader, field: &[u8]) -> Option<Network> {
    (0..=header.highest_network).find(|number| decimal(*number) == field).map(Network)
}
