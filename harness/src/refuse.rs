//! What document 01 refuses: for each call the numbers that stand against it, in the order of its table.

use crate::call::{Call, Given, Machine, Text};
use crate::driver::Driver;

// ── Limits ──────────────────────────────────────────────────────────────────

pub const KINDS: usize = 16;
pub const UNITS: u128 = 64;
pub const STAGES: usize = 16;
pub const HISTORY: u64 = 256;
pub const TEXT: usize = 64;
pub const NAME: usize = 16;
pub const KIND_NAME: usize = 8;
pub const SOURCES: usize = 8;
pub const WRITES: usize = 4;
pub const NAMES: usize = 256;

/// Longer than `most`, or a byte outside 0x20 to 0x7E.
pub fn bad_text(text: &[u8], most: usize) -> bool {
    text.len() > most || text.iter().any(|byte| !(0x20..=0x7E).contains(byte))
}

fn bad_note(note: &Option<Text>, most: usize) -> bool {
    note.as_ref().is_some_and(|text| bad_text(text, most))
}

/// The numbers whose tests hold, in the order of the table.
fn those(tests: &[(u64, bool)]) -> Vec<u64> {
    let held = tests.iter().filter(|(_, holds)| *holds);
    held.map(|(number, _)| *number).collect()
}

/// Units in all: a capacity of 0 reads as 1, and no kinds at all are one of capacity 1.
pub fn units_in_all(capacities: impl Iterator<Item = u64>) -> u128 {
    capacities
        .map(|capacity| u128::from(capacity.max(1)))
        .sum::<u128>()
        .max(1)
}

/// Making: 1, 2, 3, 13. The first number is the one that refuses.
pub fn make_refusals(machine: &Machine) -> Vec<u64> {
    let too_big = machine.kinds.len() > KINDS
        || units_in_all(machine.kinds.iter().map(|kind| kind.capacity)) > UNITS
        || machine.stages.len() > STAGES
        || machine.history > HISTORY;
    let bad_name = machine
        .kinds
        .iter()
        .any(|kind| kind.name.is_empty() || bad_text(&kind.name, KIND_NAME));
    those(&[
        (1, too_big),
        (2, bad_name),
        (3, machine.extras.contains(&u64::MAX)),
        (13, machine.lent < machine.memory()),
    ])
}

/// Text, note, shown destination, the first 8 and the first 4 names.
fn bad_given(given: &Given) -> bool {
    bad_text(&given.text, TEXT)
        || bad_note(&given.fault, TEXT)
        || bad_note(&given.destination, NAME)
        || given
            .sources
            .iter()
            .take(SOURCES)
            .any(|name| bad_text(name, NAME))
        || given
            .writes
            .iter()
            .take(WRITES)
            .any(|name| bad_text(name, NAME))
}

impl Driver {
    /// The numbers that stand against a call; the first is the one that refuses.
    pub fn refusals(&self, call: &Call) -> Vec<u64> {
        let open = (4, self.in_cycle);
        let closed = (5, !self.in_cycle);
        let no_offer = self.offer.is_none();
        let unsettled = self.offer.is_some() && !self.retired;
        let short = |lent: u64| lent < self.machine.memory();
        match call {
            Call::Start => those(&[open]),
            Call::Retire => those(&[closed, (6, no_offer || self.retired)]),
            Call::Retry(reason) => those(&[
                closed,
                (6, no_offer || self.retired),
                (2, bad_text(reason, TEXT)),
            ]),
            Call::Resolve(_) => those(&[closed, (6, no_offer)]),
            Call::Advance(_, lent) => those(&[closed, (7, unsettled), (13, short(*lent))]),
            Call::Fetch(given, lent) => self.fetch_refusals(given, short(*lent)),
            Call::Capacity(kind, instances) => those(&[
                open,
                (12, *kind >= self.kinds.len() as u64),
                (1, self.units_with(*kind, *instances) > UNITS),
            ]),
            Call::Fault(note) => those(&[(2, bad_text(note, TEXT))]),
            Call::Reset(_, lent) => those(&[(13, short(*lent))]),
            Call::Cell(row, cell, lent) => {
                let there = self.cell_number(*row, *cell).is_some();
                those(&[(13, there && short(*lent))])
            }
            Call::Text(request, room) => {
                let text = self.text(request);
                those(&[(13, text.is_some_and(|text| *room < text.len() as u64))])
            }
            Call::Overlap(_) | Call::Halt | Call::Redirect(_) | Call::View(_) => Vec::new(),
        }
    }

    /// Is what is lent one byte too short?
    pub fn one_short(&self, call: &Call) -> bool {
        match call {
            Call::Advance(_, lent)
            | Call::Fetch(_, lent)
            | Call::Reset(_, lent)
            | Call::Cell(_, _, lent) => lent + 1 == self.machine.memory(),
            Call::Text(request, room) => {
                let text = self.text(request);
                text.is_some_and(|text| *room + 1 == text.len() as u64)
            }
            _ => false,
        }
    }

    fn fetch_refusals(&self, given: &Given, short: bool) -> Vec<u64> {
        let many = given.sources.len() > SOURCES || given.writes.len() > WRITES;
        those(&[
            (4, self.in_cycle),
            (8, !self.invited),
            (2, bad_given(given)),
            (9, many),
            (11, self.fetches == u64::MAX),
            (10, self.names_with(given) > NAMES),
            (13, short),
        ])
    }

    /// Units in all with that capacity noted.
    pub fn units_with(&self, kind: u64, instances: u64) -> u128 {
        let noted = self.kinds.iter().enumerate();
        units_in_all(noted.map(|(index, spec)| {
            if index as u64 == kind {
                instances
            } else {
                spec.capacity
            }
        }))
    }

    /// Names known, queued and new, each once.
    pub fn names_with(&self, given: &Given) -> usize {
        let mut all: Vec<&Text> = self.names.iter().collect();
        let queued = self.queue.iter().map(|(_, given)| given);
        for given in queued.chain([given]) {
            for name in given.sources.iter().chain(&given.writes) {
                if !all.contains(&name) {
                    all.push(name);
                }
            }
        }
        all.len()
    }
}
