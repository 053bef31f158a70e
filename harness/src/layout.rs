//! The sizes of docs/CALLS.md: what each call carries, and what it answers.

use crate::call::{Call, Field, Place, Request, View};

pub const MACHINE: usize = 555;
/// The most bytes that a list has.
pub const LIST: usize = 16_777_216;
/// The most bytes lent for a text.
pub const ROOM: u64 = 65_535;
/// Before the first answer.
pub const HEAD: usize = 17;

/// What an answer is, after its first byte.
#[derive(Clone, Copy, Debug, PartialEq)]
pub enum Answer {
    Done,
    Offer,
    Address,
    Status,
    Counters,
    Flag,
    Number,
    Edges,
    Stages,
    Stage,
    Kind,
    Wait,
    Row,
    Station,
    Claim,
    Slot,
    Cell,
    Text,
}

pub struct Row {
    pub name: &'static str,
    /// Bytes in all.
    pub size: usize,
    pub answer: Answer,
    /// Bytes of the answer; a text has its room besides.
    pub answered: usize,
    /// The numbers that it can be refused with, in order; 11 is out of reach.
    pub refusals: &'static [u64],
}

const fn row(
    name: &'static str,
    size: usize,
    answer: Answer,
    answered: usize,
    refusals: &'static [u64],
) -> Row {
    Row {
        name,
        size,
        answer,
        answered,
        refusals,
    }
}

/// By the byte that says which.
pub const CALLS: [Row; 49] = [
    row("start", 1, Answer::Offer, 45, &[4]),
    row("retire", 1, Answer::Done, 1, &[5, 6]),
    row("retry", 66, Answer::Done, 1, &[5, 6, 2]),
    row("resolve", 9, Answer::Address, 10, &[5, 6]),
    row("advance", 18, Answer::Address, 10, &[5, 7, 13]),
    row("fetch", 391, Answer::Done, 1, &[4, 8, 2, 9, 10, 13]),
    row("capacity", 17, Answer::Done, 1, &[4, 12, 1]),
    row("overlap", 2, Answer::Done, 1, &[]),
    row("halt", 1, Answer::Done, 1, &[]),
    row("fault", 66, Answer::Done, 1, &[2]),
    row("reset", 17, Answer::Done, 1, &[13]),
    row("redirect", 9, Answer::Done, 1, &[]),
    row("status", 1, Answer::Status, 5, &[]),
    row("stats", 1, Answer::Counters, 97, &[]),
    row("enabled", 1, Answer::Flag, 2, &[]),
    row("fetch_pc", 1, Answer::Number, 9, &[]),
    row("resume_pc", 1, Answer::Number, 9, &[]),
    row("stage_count", 1, Answer::Number, 9, &[]),
    row("edges", 1, Answer::Edges, 16, &[]),
    row("entry_stages", 1, Answer::Stages, 2, &[]),
    row("stage_order", 1, Answer::Stages, 6, &[]),
    row("unit_count", 1, Answer::Number, 9, &[]),
    row("trace_count", 1, Answer::Number, 9, &[]),
    row("timeline_len", 1, Answer::Number, 9, &[]),
    row("station_count", 1, Answer::Number, 9, &[]),
    row("rename_count", 1, Answer::Number, 9, &[]),
    row("queue_count", 1, Answer::Number, 9, &[]),
    row("buffer_count", 1, Answer::Number, 9, &[]),
    row("buffer_capacity", 1, Answer::Number, 9, &[]),
    row("in_flight_before", 9, Answer::Flag, 2, &[]),
    row("stage", 9, Answer::Stage, 20, &[]),
    row("unit", 9, Answer::Kind, 37, &[]),
    row("trace", 9, Answer::Wait, 5, &[]),
    row("timeline_row", 9, Answer::Row, 29, &[]),
    row("station", 9, Answer::Station, 31, &[]),
    row("rename", 9, Answer::Claim, 4, &[]),
    row("queued", 9, Answer::Slot, 18, &[]),
    row("buffer_entry", 9, Answer::Slot, 18, &[]),
    row("timeline_cell", 25, Answer::Cell, 5, &[13]),
    row("text: status message", 9, Answer::Text, 10, &[13]),
    row("text of an operation", 27, Answer::Text, 10, &[13]),
    row("text: wait", 17, Answer::Text, 10, &[13]),
    row("text: row", 17, Answer::Text, 10, &[13]),
    row("text: stage's name", 17, Answer::Text, 10, &[13]),
    row("text: kind's name", 17, Answer::Text, 10, &[13]),
    row("text: station's label", 17, Answer::Text, 10, &[13]),
    row("text: claim's register", 17, Answer::Text, 10, &[13]),
    row("text: cell's label", 17, Answer::Text, 10, &[13]),
    row("text: operand's register", 25, Answer::Text, 10, &[13]),
];

/// The byte that says which call it is.
pub fn byte_of(call: &Call) -> u8 {
    match call {
        Call::Start => 0,
        Call::Retire => 1,
        Call::Retry(_) => 2,
        Call::Resolve(_) => 3,
        Call::Advance(..) => 4,
        Call::Fetch(..) => 5,
        Call::Capacity(..) => 6,
        Call::Overlap(_) => 7,
        Call::Halt => 8,
        Call::Fault(_) => 9,
        Call::Reset(..) => 10,
        Call::Redirect(_) => 11,
        Call::View(view) => byte_of_view(*view),
        Call::Cell(..) => 38,
        Call::Text(request, _) => byte_of_request(request),
    }
}

fn byte_of_view(view: View) -> u8 {
    match view {
        View::Status => 12,
        View::Stats => 13,
        View::Enabled => 14,
        View::FetchPc => 15,
        View::ResumePc => 16,
        View::StageCount => 17,
        View::Edges => 18,
        View::EntryStages => 19,
        View::StageOrder => 20,
        View::UnitCount => 21,
        View::TraceCount => 22,
        View::TimelineLen => 23,
        View::StationCount => 24,
        View::RenameCount => 25,
        View::QueueCount => 26,
        View::BufferCount => 27,
        View::BufferCapacity => 28,
        View::InFlightBefore(_) => 29,
        View::Stage(_) => 30,
        View::Unit(_) => 31,
        View::Trace(_) => 32,
        View::TimelineRow(_) => 33,
        View::Station(_) => 34,
        View::Rename(_) => 35,
        View::Queued(_) => 36,
        View::BufferEntry(_) => 37,
    }
}

fn byte_of_request(request: &Request) -> u8 {
    match request {
        Request::StatusMessage => 39,
        Request::Slot(..) => 40,
        Request::TraceDetail(_) => 41,
        Request::RowDisassembly(_) => 42,
        Request::StageName(_) => 43,
        Request::UnitName(_) => 44,
        Request::StationLabel(_) => 45,
        Request::RenameRegister(_) => 46,
        Request::CellLabel(_) => 47,
        Request::OperandRegister(..) => 48,
    }
}

/// A place as a byte and an index.
pub fn of_place(place: Place) -> (u8, u64) {
    match place {
        Place::Queue(at) => (0, at),
        Place::Station(at) => (1, at),
        Place::Stage(at) => (2, at),
        Place::Unit(at) => (3, at),
        Place::Offer => (4, 0),
    }
}

/// A field as a byte and an index.
pub fn of_field(field: Field) -> (u8, u64) {
    match field {
        Field::Disassembly => (0, 0),
        Field::Destination => (1, 0),
        Field::Fault => (2, 0),
        Field::Source(at) => (3, at),
        Field::Write(at) => (4, at),
    }
}

/// The bytes of a call's answer.
pub fn answer_size(call: &Call) -> usize {
    let room = match call {
        Call::Text(_, room) => *room as usize,
        _ => 0,
    };
    CALLS[byte_of(call) as usize].answered + room
}

/// The cell memory that a call is lent.
pub fn lent(call: &Call) -> Option<u64> {
    match call {
        Call::Advance(_, lent)
        | Call::Fetch(_, lent)
        | Call::Reset(_, lent)
        | Call::Cell(_, _, lent) => Some(*lent),
        _ => None,
    }
}
