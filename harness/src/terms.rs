//! Machines, calls and steps as terms of the model.

use std::fmt::Write as _;

use crate::call::{Call, Field, Given, Kind, Machine, Place, Request, Step, Text, View};

pub fn shape(machine: &Machine) -> String {
    let stages: Vec<String> = machine
        .stages
        .iter()
        .map(|r| format!("role.{r:?}"))
        .collect();
    let [a, m, d, l, s, y, f] = machine.extras;
    let kinds: Vec<String> = machine.kinds.iter().map(kind).collect();
    format!(
        "pipeline_shape {} {} (timing {a} {m} {d} {l} {s} {y} {f}) {} {}",
        term_list(&stages),
        maybe(machine.instruction_bytes.map(|n| n.to_string())),
        term_list(&kinds),
        machine.history
    )
}

fn kind(kind: &Kind) -> String {
    let classes: Vec<String> = kind.classes.iter().map(|c| format!("{c:?}")).collect();
    format!(
        "unit_spec {} {} {:?} {}",
        text(&kind.name),
        term_list(&classes),
        kind.latency_class,
        kind.capacity
    )
}

/// A list as one argument.
fn term_list(terms: &[String]) -> String {
    if terms.is_empty() {
        return "[]".to_string();
    }
    format!("({} ∷ [])", terms.join(" ∷ "))
}

fn maybe(term: Option<String>) -> String {
    term.map_or("None".to_string(), |term| format!("(Some {term})"))
}

/// A text as one argument: quoted, or its bytes.
fn text(text: &Text) -> String {
    let plain = |byte: &u8| (0x20..0x7F).contains(byte) && *byte != b'"' && *byte != b'\\';
    if text.is_empty() {
        "[]".to_string()
    } else if text.iter().all(plain) {
        format!("(bytes \"{}\")", String::from_utf8_lossy(text))
    } else {
        let bytes: Vec<String> = text.iter().map(u8::to_string).collect();
        term_list(&bytes)
    }
}

fn maybe_text(note: &Option<Text>) -> String {
    maybe(note.as_ref().map(text))
}

fn texts(list: &[Text]) -> String {
    let terms: Vec<String> = list.iter().map(text).collect();
    let terms: Vec<String> = terms
        .iter()
        .map(|term| match term.strip_prefix("(bytes ") {
            Some(rest) => format!("bytes {}", rest.strip_suffix(')').expect("closed")),
            None => term.clone(),
        })
        .collect();
    term_list(&terms)
}

fn operation(given: &Given) -> String {
    format!(
        "(op {} {} {:?} {} {} {} {} {} {} {} {})",
        given.address,
        given.size,
        given.class,
        given.branch,
        given.atomic,
        text(&given.text),
        maybe_text(&given.fault),
        maybe_text(&given.destination),
        texts(&given.sources),
        texts(&given.writes),
        given.payload
    )
}

pub fn call_term(call: &Call) -> String {
    match call {
        Call::Start => "start".to_string(),
        Call::Retire => "retire".to_string(),
        Call::Retry(reason) => format!("retry {}", text(reason)),
        Call::Resolve(actual) => format!("resolve {actual}"),
        Call::Advance(redirect, lent) => {
            format!("advance {} {lent}", maybe(redirect.map(|a| a.to_string())))
        }
        Call::Fetch(given, lent) => format!("fetch {} {lent}", operation(given)),
        Call::Capacity(kind, instances) => format!("capacity {kind} {instances}"),
        Call::Overlap(on) => format!("overlap {on}"),
        Call::Halt => "halt".to_string(),
        Call::Fault(note) => format!("fault {}", text(note)),
        Call::Reset(address, lent) => format!("reset {address} {lent}"),
        Call::Redirect(address) => format!("redirect {address}"),
        Call::View(asked) => format!("view {}", view(*asked)),
        Call::Cell(row, cell, lent) => format!("cell {row} {cell} {lent}"),
        Call::Text(asked, room) => format!("text {} {room}", request(*asked)),
    }
}

fn view(view: View) -> String {
    let (name, at) = match view {
        View::Status => ("status", None),
        View::Stats => ("stats", None),
        View::Enabled => ("enabled", None),
        View::FetchPc => ("fetch_pc", None),
        View::ResumePc => ("resume_pc", None),
        View::StageCount => ("stage_count", None),
        View::Edges => ("edges", None),
        View::EntryStages => ("entry_stages", None),
        View::StageOrder => ("stage_order", None),
        View::UnitCount => ("unit_count", None),
        View::TraceCount => ("trace_count", None),
        View::TimelineLen => ("timeline_len", None),
        View::StationCount => ("station_count", None),
        View::RenameCount => ("rename_count", None),
        View::QueueCount => ("queue_count", None),
        View::BufferCount => ("buffer_count", None),
        View::BufferCapacity => ("buffer_capacity", None),
        View::InFlightBefore(number) => ("in_flight_before", Some(number)),
        View::Stage(at) => ("stage", Some(at)),
        View::Unit(at) => ("unit", Some(at)),
        View::Trace(at) => ("trace", Some(at)),
        View::TimelineRow(at) => ("timeline_row", Some(at)),
        View::Station(at) => ("station", Some(at)),
        View::Rename(at) => ("rename", Some(at)),
        View::Queued(at) => ("queued", Some(at)),
        View::BufferEntry(at) => ("buffer_entry", Some(at)),
    };
    at.map_or(name.to_string(), |at| format!("({name} {at})"))
}

fn request(request: Request) -> String {
    match request {
        Request::StatusMessage => "status_message".to_string(),
        Request::Slot(at, of) => format!("(slot_text {} {})", place(at), field(of)),
        Request::TraceDetail(at) => format!("(trace_detail {at})"),
        Request::RowDisassembly(at) => format!("(row_disassembly {at})"),
        Request::StageName(at) => format!("(stage_name {at})"),
        Request::UnitName(at) => format!("(unit_name {at})"),
        Request::StationLabel(at) => format!("(station_label {at})"),
        Request::RenameRegister(at) => format!("(rename_register {at})"),
        Request::CellLabel(label) => format!("(cell_label {label})"),
        Request::OperandRegister(at, operand) => format!("(operand_register {at} {operand})"),
    }
}

fn place(place: Place) -> String {
    match place {
        Place::Queue(at) => format!("(in_queue {at})"),
        Place::Station(at) => format!("(in_station {at})"),
        Place::Stage(at) => format!("(in_stage {at})"),
        Place::Unit(at) => format!("(in_unit {at})"),
        Place::Offer => "on_offer".to_string(),
    }
}

fn field(field: Field) -> String {
    match field {
        Field::Disassembly => "disassembly".to_string(),
        Field::Destination => "destination".to_string(),
        Field::Fault => "fault_note".to_string(),
        Field::Source(at) => format!("(source {at})"),
        Field::Write(at) => format!("(write {at})"),
    }
}

/// A call as one argument.
fn argument(term: &str) -> String {
    if term.contains(' ') {
        format!("({term})")
    } else {
        term.to_string()
    }
}

/// The steps of a list: a line for each cycle, and for each fetch.
pub fn steps(steps: &[Step]) -> String {
    let mut out = String::new();
    let mut line = String::new();
    for step in steps {
        let term = match step {
            Step::Shown(made) => format!("shown {}", argument(&call_term(made))),
            Step::Quiet(made) => format!("quiet {}", argument(&call_term(made))),
            Step::Idle(cycles, lent) => format!("idle {cycles} {lent}"),
            Step::Rest => "rest".to_string(),
        };
        let begins = match step {
            Step::Shown(made) | Step::Quiet(made) => {
                matches!(made, Call::Start | Call::Fetch(..))
            }
            Step::Idle(..) | Step::Rest => true,
        };
        if begins {
            wrap(&mut out, &mut line);
        }
        line.push_str(if out.is_empty() && line.is_empty() {
            ""
        } else {
            " ∷ "
        });
        line.push_str(&term);
    }
    line.push_str(if steps.is_empty() { "[]" } else { " ∷ []" });
    wrap(&mut out, &mut line);
    out.trim_end().to_string()
}

const WIDTH: usize = 130;

/// Puts out a line, broken at spaces outside quotes where it is long.
pub fn wrap(out: &mut String, line: &mut String) {
    let mut rest = line.trim();
    while !rest.is_empty() {
        let (mut at, mut quoted) = (None, false);
        for (width, (byte, c)) in rest.char_indices().enumerate() {
            if width >= WIDTH && at.is_some() {
                break;
            }
            quoted ^= c == '"';
            if c == ' ' && !quoted && !rest[byte + 1..].starts_with('"') {
                at = Some(byte);
            }
        }
        let whole = rest.chars().count() <= WIDTH;
        let end = if whole {
            rest.len()
        } else {
            at.unwrap_or(rest.len())
        };
        let _ = writeln!(out, "    {}", &rest[..end]);
        rest = rest[end..].trim_start();
    }
    line.clear();
}

pub fn number_list(numbers: &[u64]) -> String {
    let terms: Vec<String> = numbers.iter().map(u64::to_string).collect();
    joined(&terms)
}

/// Terms of a list, several to a line.
pub fn joined(terms: &[String]) -> String {
    let mut out = String::new();
    let mut line = "   ".to_string();
    for (index, term) in terms.iter().enumerate() {
        let joint = if index == 0 { "" } else { " ∷" };
        if line.chars().count() + term.len() > 126 {
            out.push_str(&line);
            out.push_str("\n   ");
            line.clear();
        }
        line.push_str(joint);
        line.push(' ');
        line.push_str(term);
    }
    out.push_str(&line);
    out.push_str(if terms.is_empty() { " []" } else { " ∷ []" });
    out
}
