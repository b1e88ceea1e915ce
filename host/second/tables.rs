//! What a protocol text holds, and how its lines are parted and shaped.

use super::*;

// ---------------------------------------------------------------------
// The tables
// ---------------------------------------------------------------------

/// "Types are stored and have no effect on the relations."
#[derive(Clone, Copy, Debug, PartialEq, Eq)]
pub enum MessageType {
    Req,
    Fwd,
    Data,
    Ctl,
}

#[derive(Clone, Copy, Debug, PartialEq, Eq)]
pub enum Controller {
    Cache,
    Dir,
}

#[derive(Clone, Copy, Debug, PartialEq, Eq)]
pub enum Kind {
    Stable,
    Transient,
}

/// "A trigger is a message, or on `cache` also an event."
#[derive(Clone, Copy, Debug, PartialEq, Eq)]
pub enum Trigger {
    Message(Message),
    Event(Event),
}

#[derive(Clone, Debug, PartialEq, Eq)]
pub enum Outcome {
    Stall,
    Go { next: State, sent: Vec<Message> },
}

#[derive(Clone, Debug)]
pub struct MessageRow {
    pub name: Vec<u8>,
    pub message_type: MessageType,
}

#[derive(Clone, Debug)]
pub struct StateRow {
    pub controller: Controller,
    pub name: Vec<u8>,
    pub kind: Kind,
}

/// One cell, and the line that it stands on.
#[derive(Clone, Debug)]
pub struct Cell {
    pub line: usize,
    pub controller: Controller,
    pub state: State,
    pub trigger: Trigger,
    pub outcome: Outcome,
}

/// The four sections, in the order of the paper.
#[derive(Clone, Copy, Debug, PartialEq, Eq, PartialOrd, Ord)]
pub enum Section {
    Messages,
    Events,
    States,
    Cells,
}

#[derive(Clone, Debug)]
pub struct Protocol {
    pub messages: Vec<MessageRow>,
    pub events: Vec<Vec<u8>>,
    pub states: Vec<StateRow>,
    pub cells: Vec<Cell>,
    /// The latest section of which a record has been read.
    pub(super) section: Section,
}

impl Protocol {
    pub(super) fn empty() -> Protocol {
        Protocol {
            messages: Vec::new(),
            events: Vec::new(),
            states: Vec::new(),
            cells: Vec::new(),
            section: Section::Messages,
        }
    }

    pub fn message_names(&self) -> Vec<Vec<u8>> {
        self.messages.iter().map(|row| row.name.clone()).collect()
    }

    pub(super) fn find_message(&self, name: &[u8]) -> Option<Message> {
        self.messages.iter().position(|row| row.name == name).map(Message)
    }

    pub(super) fn find_event(&self, name: &[u8]) -> Option<Event> {
        self.events.iter().position(|event| event == name).map(Event)
    }

    /// "states have one [name space] for each controller"
    pub(super) fn find_state(&self, controller: Controller, name: &[u8]) -> Option<State> {
        self.states
            .iter()
            .position(|row| row.controller == controller && row.name == name)
            .map(State)
    }

    pub(super) fn find_trigger(&self, controller: Controller, name: &[u8]) -> Option<Trigger> {
        if let Some(message) = self.find_message(name) {
            return Some(Trigger::Message(message));
        }
        if controller != Controller::Cache {
            return None;
        }
        self.find_event(name).map(Trigger::Event)
    }

    pub(super) fn kind_of(&self, state: State) -> Kind {
        self.states[state.0].kind
    }
}

// ---------------------------------------------------------------------
// Lines and fields
// ---------------------------------------------------------------------

/// The lines of a text whose last byte is 10, each without its byte 10.
pub(super) fn split_lines(text: &[u8]) -> Vec<&[u8]> {
    let mut lines: Vec<&[u8]> = text.split(|byte| *byte == LINE_END).collect();
    // What follows the last byte 10 is empty and is no line.
    lines.pop();
    lines
}

/// "fields are parted by byte 9"; an empty line has one empty field.
pub(super) fn split_fields(line: &[u8]) -> Vec<&[u8]> {
    line.split(|byte| *byte == TAB).collect()
}

/// Refusals 1 and 2, in this order. Gives all lines.
pub(super) fn ended_lines(text: &[u8], paper: u64) -> Result<Vec<&[u8]>, Refusal> {
    if text.len() > MOST_BYTES {
        return Err(refusal(TOO_BIG, paper, 0));
    }
    if !text.is_empty() && text[text.len() - 1] != LINE_END {
        let line_ends = text.iter().filter(|byte| **byte == LINE_END).count();
        return Err(refusal(NO_END, paper, line_ends + 1));
    }
    Ok(split_lines(text))
}

/// Refusals 1, 2 and 3, in this order. Gives the place of the first line among
/// the headers, and the lines after it.
pub(super) fn lines_after_header<'a>(
    text: &'a [u8],
    headers: &[&[u8]],
    paper: u64,
) -> Result<(usize, Vec<&'a [u8]>), Refusal> {
    let lines = ended_lines(text, paper)?;
    let place = lines.first().and_then(|first| headers.iter().position(|header| header == first));
    match place {
        Some(place) => Ok((place, lines[1..].to_vec())),
        None => Err(refusal(HEADER, paper, 1)),
    }
}

/// "A name has 1 to 24 bytes out of letters, digits, `-`, `+`, `_`, `.`."
pub(super) fn is_name(name: &[u8]) -> bool {
    let length_is_right = name.len() >= 1 && name.len() <= LONGEST_NAME;
    length_is_right && name.iter().all(|byte| is_name_byte(*byte))
}

pub(super) fn is_name_byte(byte: u8) -> bool {
    byte.is_ascii_alphabetic() || byte.is_ascii_digit() || b"-+_.".contains(&byte)
}

// ---------------------------------------------------------------------
// The shape of a protocol line (refusal 4)
// ---------------------------------------------------------------------

/// A cell whose names have not been looked up yet.
pub(super) struct RawCell<'a> {
    pub(super) controller: Controller,
    pub(super) state: &'a [u8],
    pub(super) trigger: &'a [u8],
    pub(super) outcome: RawOutcome<'a>,
}

pub(super) enum RawOutcome<'a> {
    Stall,
    Go { next: &'a [u8], sent: Vec<&'a [u8]> },
}

pub(super) enum Record<'a> {
    Message { name: &'a [u8], message_type: MessageType },
    Event { name: &'a [u8] },
    State { controller: Controller, name: &'a [u8], kind: Kind },
    Cell(RawCell<'a>),
}

pub(super) fn read_message_type(word: &[u8]) -> Option<MessageType> {
    match word {
        b"req" => Some(MessageType::Req),
        b"fwd" => Some(MessageType::Fwd),
        b"data" => Some(MessageType::Data),
        b"ctl" => Some(MessageType::Ctl),
        _ => None,
    }
}

pub(super) fn read_controller(word: &[u8]) -> Option<Controller> {
    match word {
        b"cache" => Some(Controller::Cache),
        b"dir" => Some(Controller::Dir),
        _ => None,
    }
}

pub(super) fn read_kind(word: &[u8]) -> Option<Kind> {
    match word {
        b"stable" => Some(Kind::Stable),
        b"transient" => Some(Kind::Transient),
        _ => None,
    }
}

/// "unknown record, field count, or fixed word": nothing is SHAPE.
pub(super) fn read_record<'a>(fields: &[&'a [u8]]) -> Option<Record<'a>> {
    match fields[0] {
        b"message" if fields.len() == 3 => {
            let message_type = read_message_type(fields[2])?;
            Some(Record::Message { name: fields[1], message_type })
        }
        b"event" if fields.len() == 2 => Some(Record::Event { name: fields[1] }),
        b"state" if fields.len() == 4 => {
            let controller = read_controller(fields[1])?;
            let kind = read_kind(fields[3])?;
            Some(Record::State { controller, name: fields[2], kind })
        }
        b"cell" if fields.len() >= 5 => {
            let controller = read_controller(fields[1])?;
            let outcome = read_outcome(&fields[4..])?;
            let (state, trigger) = (fields[2], fields[3]);
            Some(Record::Cell(RawCell { controller, state, trigger, outcome }))
        }
        _ => None,
    }
}

/// "SHAPE tells the first unknown or wrong fixed word, and 0 if only the count is
/// wrong". A word that is missing because the line is short is not wrong.
pub(super) fn shape_fault(fields: &[&[u8]]) -> Fault {
    let wrong = |field: usize, words: &[&[u8]]| {
        fields.get(field - 1).map_or(false, |word| !words.contains(word))
    };
    let field = match fields[0] {
        b"message" if wrong(3, &[b"req", b"fwd", b"data", b"ctl"]) => 3,
        b"state" | b"cell" if wrong(2, &[b"cache", b"dir"]) => 2,
        b"state" if wrong(4, &[b"stable", b"transient"]) => 4,
        b"cell" if wrong(5, &[b"stall", b"go"]) => 5,
        b"message" | b"event" | b"state" | b"cell" => WHOLE_LINE,
        _ => 1,
    };
    Fault::of_field(SHAPE, field)
}

/// `stall` alone; or `go`, next, and 0 to 8 messages.
pub(super) fn read_outcome<'a>(fields: &[&'a [u8]]) -> Option<RawOutcome<'a>> {
    if fields[0] == b"stall" && fields.len() == 1 {
        return Some(RawOutcome::Stall);
    }
    if fields[0] == b"go" && fields.len() >= 2 && fields.len() <= 2 + MOST_SENT {
        return Some(RawOutcome::Go { next: fields[1], sent: fields[2..].to_vec() });
    }
    None
}
