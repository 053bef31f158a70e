//! What the lists of calls reached.

use std::collections::BTreeMap;
use std::fmt;

use crate::call::{Call, Given, Machine, Text};
use crate::capability::{PipelineDynamicInspect, PipelineInspect};
use crate::driver::Driver;
use crate::refuse::{NAME, SOURCES, TEXT, WRITES, bad_text, units_in_all};
use crate::wanted::wanted;

#[derive(Clone, Debug, Default)]
pub struct Coverage {
    pub lists: u64,
    /// Those after which all that is shown was compared.
    pub shown: u64,
    pub calls: u64,
    /// By name, and by what happened.
    counts: BTreeMap<String, u64>,
    most: BTreeMap<&'static str, u64>,
}

impl Coverage {
    pub fn count(&mut self, what: impl Into<String>) {
        *self.counts.entry(what.into()).or_default() += 1;
    }

    pub fn has(&self, what: &str) -> bool {
        self.counts.contains_key(what)
    }

    pub fn most(&mut self, what: &'static str, number: u64) {
        let most = self.most.entry(what).or_default();
        *most = (*most).max(number);
    }

    pub fn add(&mut self, other: &Self) {
        self.lists += other.lists;
        self.shown += other.shown;
        self.calls += other.calls;
        for (what, count) in &other.counts {
            *self.counts.entry(what.clone()).or_default() += count;
        }
        for (what, number) in &other.most {
            self.most(what, *number);
        }
    }

    /// What was reached, and roughly how often, with a weight: to choose lists that reach much.
    pub fn reached(&self) -> Vec<(String, u64)> {
        let wanted = wanted();
        let mut list = Vec::new();
        for (what, count) in &self.counts {
            let weights = if wanted.contains(what) {
                [30, 10, 2, 1]
            } else {
                [2, 0, 0, 0]
            };
            let steps = [1, 3, 10, 30].into_iter().zip(weights);
            for (step, weight) in steps.filter(|(step, _)| *count >= *step) {
                list.push((format!("{what}: {step}"), weight));
            }
        }
        for (what, number) in &self.most {
            let steps = (0..9).map(|power| 1 << power);
            for step in steps.filter(|step| number >= step) {
                list.push((format!("most {what}: {step}"), 4));
            }
        }
        list
    }

    /// How much happened: calls that were shown, results retired, waits.
    pub fn depth(&self) -> u64 {
        let counted = |what: &str| self.counts.get(what).copied().unwrap_or(0);
        let waits = ["ReadAfterWrite", "WriteAfterRead", "WriteAfterWrite"];
        let waits = waits.map(|kind| counted(&format!("wait of kind Hazard({kind})")));
        let waits: u64 = waits.iter().map(|count| (*count).min(10)).sum();
        self.shown / 2 + 4 * counted("taken retire") + 4 * waits
    }

    /// The most names that were known.
    pub fn names(&self) -> u64 {
        self.most.get("names known").copied().unwrap_or(0)
    }

    /// More than one number stood against a call: the first one refused it.
    fn order(&mut self, name: &str, against: &[u64]) {
        let Some((first, others)) = against.split_first() else {
            return;
        };
        for other in others {
            self.count(format!("order: {first:2} before {other:2} by {name}"));
        }
    }

    pub fn made(&mut self, machine: &Machine, against: &[u64]) {
        self.lists += 1;
        match against.first() {
            None => self.count("taken making"),
            Some(number) => self.count(format!("refused {number:2} by making")),
        }
        self.order("making", against);
        self.most("kinds of a machine", machine.kinds.len() as u64);
        let units = units_in_all(machine.kinds.iter().map(|kind| kind.capacity));
        self.limit("kinds", machine.kinds.len() as u64, 16);
        self.limit("units", units.min(1000) as u64, 64);
        self.limit("stages", machine.stages.len() as u64, 16);
        self.limit("history", machine.history, 256);
        for kind in &machine.kinds {
            self.limit("bytes of a kind's name", kind.name.len() as u64, 8);
        }
        if against.first() == Some(&1) {
            let over = [
                machine.kinds.len() > 16,
                units > 64,
                machine.stages.len() > 16,
                machine.history > 256,
            ];
            if over.iter().filter(|over| **over).count() == 1 {
                let which = over.iter().position(|over| *over).expect("counted");
                let which = ["kinds", "units", "stages", "history"][which];
                self.count(format!("only too many: {which}"));
            }
        }
    }

    /// A number at its limit, or one past it.
    fn limit(&mut self, what: &str, number: u64, most: u64) {
        if number == most {
            self.count(format!("at the limit: {what}"));
        } else if number == most + 1 {
            self.count(format!("one past the limit: {what}"));
        }
    }

    /// Before a call.
    pub fn before(&mut self, driver: &Driver, call: &Call, against: &[u64]) {
        self.calls += 1;
        let name = call.name();
        if let Call::Fetch(given, _) = call {
            self.fetch_limits(driver, given, against);
        }
        if let Some(number) = against.first() {
            self.count(format!("refused {number:2} by {name}"));
            self.order(name, against);
            if *number == 13 && driver.one_short(call) {
                self.count(format!("refused 13 by {name}, one byte short"));
            }
            if *number == 10 && !driver.queue.is_empty() {
                self.count("names full with some queued");
            }
            if let (6, true) = (*number, driver.retired) {
                self.count(format!("refused  6 by {name} after retire"));
            }
            if driver.stopped() {
                self.count(format!("refused {number:2} by {name} on a stopped engine"));
            }
            return;
        }
        self.count(format!("taken {name}"));
        self.taken(driver, call);
    }

    fn fetch_limits(&mut self, driver: &Driver, given: &Given, against: &[u64]) {
        let refused = against.first().copied();
        if refused.is_none() || refused == Some(9) {
            self.limit("sources", given.sources.len() as u64, SOURCES as u64);
            self.limit("writes", given.writes.len() as u64, WRITES as u64);
        }
        let bad = |names: &[Text]| names.iter().any(|name| bad_text(name, NAME));
        if refused == Some(9) && bad(&given.sources) {
            self.count("operands refused, a source past the limit bad");
        }
        if refused == Some(9) && bad(&given.writes) {
            self.count("operands refused, a write past the limit bad");
        }
        if refused.is_none() || refused == Some(10) {
            match driver.names_with(given) {
                255 => self.count("names with the fetch: 255"),
                256 => self.count("names with the fetch: 256"),
                257 => self.count("names with the fetch: 257, refused"),
                _ => {}
            }
        }
        if refused.is_none() || refused == Some(2) {
            self.limit("bytes of a text", given.text.len() as u64, TEXT as u64);
            for name in given.sources.iter().chain(&given.writes) {
                self.limit("bytes of a name", name.len() as u64, NAME as u64);
            }
        }
        if refused == Some(2) {
            let bad = |texts: &[Text], most| texts.iter().any(|text| bad_text(text, most));
            let notes = [&given.fault, &given.destination];
            let notes = notes.map(|note| note.clone().into_iter().collect::<Vec<_>>());
            let where_bad = [
                ("text", bad(&[given.text.clone()], TEXT)),
                ("fault note", bad(&notes[0], TEXT)),
                ("destination", bad(&notes[1], NAME)),
                ("source", bad(&given.sources, NAME)),
                ("write", bad(&given.writes, NAME)),
            ];
            let all: Vec<_> = where_bad.iter().filter(|(_, bad)| *bad).collect();
            if let [(only, _)] = all.as_slice() {
                self.count(format!("only bad: {only}"));
            }
        }
    }

    fn taken(&mut self, driver: &Driver, call: &Call) {
        let busy = driver.units.iter().any(Option::is_some);
        let history = driver.machine.history.max(1);
        match call {
            Call::Capacity(kind, instances) => {
                let change = if busy { "noted while busy" } else { "built" };
                self.count(format!("capacity {change}"));
                let units = driver.units_with(*kind, *instances).min(1000) as u64;
                self.limit("units by a capacity", units, 64);
            }
            Call::Fetch(..) if driver.engine.timeline_len() as u64 == history => {
                self.count("rows evicted");
            }
            Call::Halt if driver.offer.is_some() => self.count("halt during an offer"),
            Call::Fault(_) if driver.offer.is_some() => self.count("fault during an offer"),
            Call::Halt | Call::Fault(_) if driver.stopped() => self.count("stopped again"),
            Call::Reset(..) | Call::Redirect(_) => {
                let name = call.name();
                if driver.in_cycle {
                    self.count(format!("{name} inside a cycle"));
                }
                if driver.stopped() {
                    self.count(format!("{name} on a stopped engine"));
                }
                if driver.offer.is_some() {
                    self.count(format!("{name} during an offer"));
                }
            }
            Call::Advance(Some(_), _) if driver.stopped() => {
                self.count("advance with an address on a stopped engine");
            }
            Call::Advance(Some(_), _) => {
                let queued = driver.queue.len();
                self.count(format!("advance with an address, {queued} queued"));
                if !driver.offer.as_ref().is_some_and(|op| op.branch) {
                    self.count("advance with an address, no branch on offer");
                }
            }
            Call::Overlap(on) if *on != driver.engine.enabled() && busy => {
                self.count("overlap switched while busy");
            }
            _ => {}
        }
    }

    /// After a call that was taken.
    pub fn after(&mut self, driver: &Driver, call: &Call) {
        let engine = &driver.engine;
        if matches!(call, Call::Start | Call::Advance(..)) {
            self.waits(driver, call);
        }
        if matches!(call, Call::Start) {
            self.choices(driver);
        }
        let busy = driver.units.iter().flatten().count() as u64;
        self.most("operations queued", engine.queue_count() as u64);
        self.most("units busy", busy);
        self.most("operations in flight", busy + engine.queue_count() as u64);
        self.most("units", engine.station_count() as u64);
        self.most("names known", driver.names.len() as u64);
        self.most("claims", engine.rename_count() as u64);
        self.most("rows held", engine.timeline_len() as u64);
        self.most("cycles", engine.stats().cycles);
        self.most("cells of a row", driver.most_cells());
        let lost = (0..engine.timeline_len()).map(|at| driver.lost_cells(at));
        for lost in lost.filter(|_| matches!(call, Call::Advance(..))) {
            if lost > 0 {
                self.count("rows past 200 cells, after an advance");
            }
            if lost >= 200 {
                self.count("rows past 400 cells, after an advance");
            }
        }
    }

    /// After a call whose rows are compared: a row that lost cells, and whose cells are not all alike.
    pub fn rows_shown(&mut self, driver: &Driver) {
        for at in 0..driver.engine.timeline_len() {
            let cells = driver.engine.timeline_row(at).expect("counted").cells;
            let mut cells = (0..cells).map(|cell| driver.cell_number(at as u64, cell as u64));
            let first = cells.next();
            if driver.lost_cells(at) > 0 && cells.any(|cell| Some(cell) != first) {
                self.count("unlike cells in a row that lost some");
            }
        }
    }
}

impl fmt::Display for Coverage {
    fn fmt(&self, f: &mut fmt::Formatter<'_>) -> fmt::Result {
        let answers = self.calls - self.shown;
        writeln!(f, "lists {}, calls {}", self.lists, self.calls)?;
        writeln!(f, "{:9} calls with all that is shown", self.shown)?;
        writeln!(f, "{answers:9} calls with their answers alone")?;
        for (what, count) in &self.counts {
            writeln!(f, "{count:9} {what}")?;
        }
        for (what, number) in &self.most {
            writeln!(f, "{number:9} at most: {what}")?;
        }
        for what in wanted() {
            if !self.counts.contains_key(&what) {
                writeln!(f, "not reached: {what}")?;
            }
        }
        Ok(())
    }
}
