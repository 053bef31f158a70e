//! What compared lists reached: each call by its byte, taken and refused, in each state of the engine.

use std::collections::BTreeMap;
use std::fmt;

use crate::call::{Call, Machine};
use crate::capability::{PipelineDynamicInspect, PipelineInspect};
use crate::coverage::Coverage;
use crate::driver::Driver;
use crate::layout::{Answer, CALLS, byte_of};
use crate::refuse::{NAMES, units_in_all};
use crate::wanted::wanted;

const STATES: [&str; 13] = [
    "idle, no cycle open",
    "busy, no cycle open",
    "in a cycle, no offer",
    "an offer",
    "an offer retired",
    "invited",
    "halted",
    "faulted",
    "rows evicted",
    "rows past 200 cells",
    "a capacity noted",
    "64 units and 16 kinds",
    "256 names",
];

pub struct Tally {
    /// What the driver saw.
    pub all: Coverage,
    /// Calls by byte: how often refused with each number, taken under 0.
    answers: [[u64; 16]; 49],
    /// Calls by byte: answers that hold nothing.
    nothing: [u64; 49],
    /// Calls by byte and state.
    states: [[u64; STATES.len()]; 49],
    now: [bool; STATES.len()],
    whole: BTreeMap<String, u64>,
}

impl Default for Tally {
    fn default() -> Self {
        Self {
            all: Coverage::default(),
            answers: [[0; 16]; 49],
            nothing: [0; 49],
            states: [[0; STATES.len()]; 49],
            now: [false; STATES.len()],
            whole: BTreeMap::new(),
        }
    }
}

/// Does the answer have a flag first, 0 where there is nothing?
fn may_be_nothing(answer: Answer) -> bool {
    !matches!(
        answer,
        Answer::Done
            | Answer::Status
            | Answer::Counters
            | Answer::Flag
            | Answer::Number
            | Answer::Edges
            | Answer::Stages
    )
}

impl Tally {
    /// All calls that were answered.
    pub fn calls(&self) -> u64 {
        let sums = self.answers.iter().map(|row| row.iter().sum::<u64>());
        sums.sum()
    }

    /// Calls that may change the engine.
    pub fn driver_calls(&self) -> u64 {
        let sums = self.answers[..12].iter().map(|row| row.iter().sum::<u64>());
        sums.sum()
    }

    pub fn whole(&mut self, what: impl Into<String>) {
        *self.whole.entry(what.into()).or_default() += 1;
    }

    pub fn made(&mut self, machine: &Machine, against: &[u64]) {
        self.all.made(machine, against);
        let units = units_in_all(machine.kinds.iter().map(|kind| kind.capacity));
        if against.is_empty() && machine.kinds.len() == 16 && units == 64 {
            self.whole("made with 16 kinds and 64 units");
        }
        if against.is_empty() {
            match machine.history {
                0 | 1 | 256 => self.whole(format!("made with history {}", machine.history)),
                _ => {}
            }
            if machine.lent == machine.memory() {
                self.whole("made with memory exactly enough");
            }
        }
        if against == [13] && machine.lent + 1 == machine.memory() {
            self.whole("refused with memory one byte short");
        }
    }

    /// A call after making was refused.
    pub fn unmade(&mut self, call: &Call) {
        let name = CALLS[byte_of(call) as usize].name;
        self.whole(format!("after refused making: {name}"));
    }

    /// The states that the engine is in.
    pub fn look(&mut self, driver: &Driver) {
        let engine = &driver.engine;
        let status = engine.status();
        let busy = driver.units.iter().any(Option::is_some) || !driver.queue.is_empty();
        let rows = engine.timeline_len() as u64;
        let noted = driver.kinds.iter().map(|kind| kind.capacity);
        self.now = [
            !busy && !driver.in_cycle,
            busy && !driver.in_cycle,
            driver.in_cycle && driver.offer.is_none(),
            driver.offer.is_some() && !driver.retired,
            driver.offer.is_some() && driver.retired,
            driver.invited,
            status.halted,
            status.faulted,
            driver.fetches > rows,
            driver.most_cells() > 200,
            units_in_all(noted) != engine.station_count() as u128,
            engine.station_count() == 64 && engine.unit_count() == 16,
            driver.names.len() == NAMES,
        ];
        if driver.most_cells() > 200 {
            self.all.rows_shown(driver);
        }
    }

    /// A call and its answer, in the state before it.
    pub fn count(&mut self, call: &Call, answer: &[u8]) {
        let byte = byte_of(call) as usize;
        self.answers[byte][answer[0] as usize] += 1;
        if answer[0] == 0 && may_be_nothing(CALLS[byte].answer) && answer[1] == 0 {
            self.nothing[byte] += 1;
        }
        for (count, now) in self.states[byte].iter_mut().zip(self.now) {
            *count += u64::from(now);
        }
    }

    /// What was reached, with a weight: to choose lists that reach much.
    pub fn reached(&self) -> Vec<(String, u64)> {
        let mut list: Vec<String> = self.whole.keys().cloned().collect();
        for (byte, row) in CALLS.iter().enumerate() {
            let answers = self.answers[byte].iter().enumerate();
            let answers = answers.filter(|(_, count)| **count > 0);
            list.extend(answers.map(|(number, _)| format!("{}: {number}", row.name)));
            if self.nothing[byte] > 0 {
                list.push(format!("{}: nothing", row.name));
            }
            let states = STATES.iter().zip(self.states[byte]);
            let states = states.filter(|(_, count)| *count > 0);
            list.extend(states.map(|(state, _)| format!("{}, {state}", row.name)));
        }
        let mut list: Vec<(String, u64)> = list.into_iter().map(|what| (what, 5)).collect();
        list.extend(self.all.reached());
        list
    }

    /// What should have been reached, and was not.
    pub fn missing(&self) -> Vec<String> {
        let mut missing = Vec::new();
        for (row, counts) in CALLS.iter().zip(&self.answers) {
            for number in [0].iter().chain(row.refusals) {
                if counts[*number as usize] == 0 {
                    missing.push(format!("{} answered {number}", row.name));
                }
            }
        }
        let mut list = wanted();
        // A list of bytes has no names past the limit.
        list.retain(|what| !what.starts_with("operands refused"));
        missing.extend(list.into_iter().filter(|what| !self.all.has(what)));
        for what in WHOLE {
            if !self.whole.contains_key(what) {
                missing.push(what.to_string());
            }
        }
        for (at, state) in STATES.iter().enumerate() {
            if self.states.iter().all(|counts| counts[at] == 0) {
                missing.push(format!("state: {state}"));
            }
        }
        missing
    }
}

const WHOLE: [&str; 10] = [
    "list refused 14",
    "list refused 13, cells too short",
    "list refused 13, answers too long",
    "made with 16 kinds and 64 units",
    "made with history 0",
    "made with history 1",
    "made with history 256",
    "made with memory exactly enough",
    "refused with memory one byte short",
    "a list of 16777216 bytes",
];

impl fmt::Display for Tally {
    fn fmt(&self, f: &mut fmt::Formatter<'_>) -> fmt::Result {
        writeln!(f, "{}", self.all)?;
        for (what, count) in &self.whole {
            writeln!(f, "{count:9} {what}")?;
        }
        writeln!(
            f,
            "\ncalls by answer: taken (of these with nothing), refused"
        )?;
        for (at, row) in CALLS.iter().enumerate() {
            let counts = &self.answers[at];
            write!(f, "{:>26} {:9}", row.name, counts[0])?;
            if may_be_nothing(row.answer) {
                write!(f, " ({})", self.nothing[at])?;
            }
            for number in row.refusals {
                write!(f, ", {number}: {}", counts[*number as usize])?;
            }
            writeln!(f)?;
        }
        writeln!(f, "\ncalls by state")?;
        for (at, state) in STATES.iter().enumerate() {
            let sum: u64 = self.states.iter().map(|counts| counts[at]).sum();
            let never = CALLS.iter().zip(&self.states);
            let never = never.filter(|(_, counts)| counts[at] == 0);
            let never: Vec<&str> = never.map(|(row, _)| row.name).collect();
            write!(f, "{sum:9} {state}")?;
            if !never.is_empty() {
                write!(f, "; never: {}", never.join(", "))?;
            }
            writeln!(f)?;
        }
        Ok(())
    }
}
