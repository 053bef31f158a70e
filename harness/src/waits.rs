//! What the waits of the lists reached.

use crate::call::{Call, Given, Text};
use crate::capability::{
    PipelineDynamicInspect, PipelineEntryPhase, PipelineHazardKind, PipelineInspect,
    PipelineInstructionClass as Class,
};
use crate::coverage::Coverage;
use crate::driver::Driver;

impl Coverage {
    /// The waits that a start or an advance listed. Those of a start are still listed after the
    /// advance: each is counted once.
    pub fn waits(&mut self, driver: &Driver, call: &Call) {
        let engine = &driver.engine;
        for at in 0..engine.trace_count() {
            let trace = engine.trace(at).expect("counted");
            let by_start = (trace.from_stage, trace.to_stage) == (2, 4);
            if by_start == matches!(call, Call::Start) && !driver.stopped() {
                self.count(format!("wait of kind {:?}", trace.kind));
                self.count(format!("wait text: {}", form(trace.detail)));
                self.most("bytes of a wait text", trace.detail.len() as u64);
            }
        }
        self.most("waits listed", engine.trace_count() as u64);
    }

    /// After a start: where a wait had more than one cause to name.
    pub fn choices(&mut self, driver: &Driver) {
        if driver.offer.is_some() {
            self.count("offers");
        }
        let mut blocked = 0;
        for (at, held) in driver.units.iter().enumerate() {
            let (Some((number, given)), Some(hazard)) = (held, hazard_at(driver, at)) else {
                continue;
            };
            blocked += 1;
            if hazard == PipelineHazardKind::WriteAfterRead {
                self.readers(driver, at, given);
            } else if is_memory(given) {
                self.accesses(driver, *number);
            }
        }
        if blocked > 1 {
            self.count("two units blocked at one start");
        }
        if blocked > 0 && driver.offer.is_some() {
            self.count("one unit blocked, and another offered");
        }
    }

    fn readers(&mut self, driver: &Driver, at: usize, given: &Given) {
        let mut registers = given.writes.clone();
        registers.sort();
        registers.dedup();
        let counts = registers.iter().map(|name| {
            let others = (0..driver.units.len()).filter(|other| *other != at);
            others
                .filter(|other| has_read(driver, *other, name))
                .count()
        });
        let counts: Vec<usize> = counts.filter(|count| *count > 0).collect();
        if counts.len() > 1 {
            self.count("WAR on two registers of one unit");
        }
        if counts.iter().any(|count| *count > 1) {
            self.count("WAR with two readers of one register");
        }
    }

    fn accesses(&mut self, driver: &Driver, number: u64) {
        let older = driver.units.iter().flatten();
        let older = older.filter(|(other, given)| *other < number && is_memory(given));
        let numbers: Vec<u64> = older.map(|(other, _)| *other).collect();
        if numbers.iter().min() != numbers.first() {
            self.count("memory order behind two, the older in the higher unit");
        }
    }
}

fn is_memory(given: &Given) -> bool {
    matches!(given.class, Class::Load | Class::Store)
}

/// The hazard that a finished unit shows.
fn hazard_at(driver: &Driver, at: usize) -> Option<PipelineHazardKind> {
    let station = driver.engine.station(at).expect("counted");
    let slot = station.slot?;
    slot.hazard
        .filter(|_| station.phase == PipelineEntryPhase::Finished)
}

/// A unit that reads a register and waits for nothing.
fn has_read(driver: &Driver, at: usize, name: &Text) -> bool {
    let station = driver.engine.station(at).expect("counted");
    let held = driver.units[at].as_ref();
    station.phase != PipelineEntryPhase::Waiting
        && held.is_some_and(|(_, given)| given.sources.contains(name))
}

fn form(detail: &str) -> &'static str {
    let forms = [
        (" may not overwrite ", "may not overwrite"),
        (" memory keeps program order", "memory keeps program order"),
        (
            " waits for the machine to drain",
            "waits for the machine to drain",
        ),
        (
            " cannot issue behind",
            "cannot issue behind an unresolved branch",
        ),
        (" a system instruction", "a system instruction serializes"),
        (" still writes ", "an older instruction still writes"),
        ("redirect to 0x", "redirect to"),
        (
            " from an older instruction",
            "waits for .. from an older instruction",
        ),
        (" units are busy", "all units are busy"),
        (" from ", "waits for .. from"),
    ];
    let found = forms.iter().find(|(part, _)| detail.contains(part));
    found.map_or("another", |(_, form)| form)
}
