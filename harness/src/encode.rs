//! Machines and calls as bytes, by docs/CALLS.md.

use crate::call::{Call, Given, Kind, Machine, Request, Text, View};
use crate::capability::PipelineInstructionClass as Class;
use crate::layout::{byte_of, of_field, of_place};
use crate::refuse::{KIND_NAME, KINDS, NAME, SOURCES, STAGES, TEXT, WRITES};

/// A list: a machine and its calls.
pub fn list(machine: &Machine, calls: &[Call]) -> Vec<u8> {
    let mut bytes = Bytes::default();
    bytes.machine(machine);
    for call in calls {
        bytes.call(call);
    }
    bytes.list
}

/// A call alone.
pub fn call(call: &Call) -> Vec<u8> {
    let mut bytes = Bytes::default();
    bytes.call(call);
    bytes.list
}

#[derive(Default)]
pub struct Bytes {
    pub list: Vec<u8>,
}

impl Bytes {
    fn byte(&mut self, byte: u8) {
        self.list.push(byte);
    }

    fn flag(&mut self, flag: bool) {
        self.byte(u8::from(flag));
    }

    fn number(&mut self, number: u64) {
        self.list.extend(number.to_le_bytes());
    }

    fn count(&mut self, count: usize) {
        self.byte(u8::try_from(count).unwrap_or(255));
    }

    /// A length, and `most` bytes, of which the first so many count.
    fn text(&mut self, text: &[u8], most: usize) {
        self.count(text.len());
        let from = self.list.len();
        self.list.extend(text.iter().take(most));
        self.list.resize(from + most, 0);
    }

    fn optional_text(&mut self, text: &Option<Text>, most: usize) {
        self.flag(text.is_some());
        self.text(text.as_deref().unwrap_or_default(), most);
    }

    fn optional_number(&mut self, number: Option<u64>) {
        self.flag(number.is_some());
        self.number(number.unwrap_or(0));
    }

    /// How many, and `most` names.
    fn names(&mut self, names: &[Text], most: usize) {
        self.count(names.len());
        for at in 0..most {
            self.text(names.get(at).map_or(&[], Vec::as_slice), NAME);
        }
    }

    pub fn machine(&mut self, machine: &Machine) {
        for extra in machine.extras {
            self.number(extra);
        }
        self.optional_number(machine.instruction_bytes);
        self.number(machine.entry);
        self.number(machine.history);
        self.number(machine.lent);
        self.count(machine.stages.len());
        for at in 0..STAGES {
            self.byte(machine.stages.get(at).map_or(0, |role| *role as u8));
        }
        self.count(machine.kinds.len());
        let none = Kind {
            name: Vec::new(),
            classes: Vec::new(),
            latency_class: Class::Alu,
            capacity: 0,
        };
        for at in 0..KINDS {
            self.kind(machine.kinds.get(at).unwrap_or(&none));
        }
    }

    fn kind(&mut self, kind: &Kind) {
        self.text(&kind.name, KIND_NAME);
        for class in Class::ALL {
            self.flag(kind.classes.contains(&class));
        }
        self.byte(kind.latency_class as u8);
        self.number(kind.capacity);
    }

    pub fn call(&mut self, call: &Call) {
        self.byte(byte_of(call));
        match call {
            Call::Start | Call::Retire | Call::Halt => {}
            Call::Retry(text) | Call::Fault(text) => self.text(text, TEXT),
            Call::Resolve(number) | Call::Redirect(number) => self.number(*number),
            Call::Advance(redirect, lent) => {
                self.optional_number(*redirect);
                self.number(*lent);
            }
            Call::Fetch(given, lent) => {
                self.operation(given);
                self.number(*lent);
            }
            Call::Capacity(first, second) | Call::Reset(first, second) => {
                self.number(*first);
                self.number(*second);
            }
            Call::Overlap(on) => self.flag(*on),
            Call::View(view) => self.view(*view),
            Call::Cell(row, cell, lent) => {
                self.number(*row);
                self.number(*cell);
                self.number(*lent);
            }
            Call::Text(request, room) => {
                self.request(request);
                self.number(*room);
            }
        }
    }

    fn view(&mut self, view: View) {
        match view {
            View::InFlightBefore(number)
            | View::Stage(number)
            | View::Unit(number)
            | View::Trace(number)
            | View::TimelineRow(number)
            | View::Station(number)
            | View::Rename(number)
            | View::Queued(number)
            | View::BufferEntry(number) => self.number(number),
            _ => {}
        }
    }

    fn request(&mut self, request: &Request) {
        match *request {
            Request::StatusMessage => {}
            Request::Slot(place, field) => {
                let (place, at) = of_place(place);
                self.byte(place);
                self.number(at);
                let (field, at) = of_field(field);
                self.byte(field);
                self.number(at);
            }
            Request::TraceDetail(at)
            | Request::RowDisassembly(at)
            | Request::StageName(at)
            | Request::UnitName(at)
            | Request::StationLabel(at)
            | Request::RenameRegister(at)
            | Request::CellLabel(at) => self.number(at),
            Request::OperandRegister(station, operand) => {
                self.number(station);
                self.number(operand);
            }
        }
    }

    fn operation(&mut self, given: &Given) {
        self.number(given.address);
        self.number(given.size);
        self.byte(given.class as u8);
        self.flag(given.branch);
        self.flag(given.atomic);
        self.number(given.payload);
        self.text(&given.text, TEXT);
        self.optional_text(&given.fault, TEXT);
        self.optional_text(&given.destination, NAME);
        self.names(&given.sources, SOURCES);
        self.names(&given.writes, WRITES);
    }
}
