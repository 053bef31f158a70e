//! The Rust engine under document 01's discipline: what each call answers. What document 01 refuses
//! (refuse.rs) is not called on the Rust engine at all, but for a capacity of a kind not there.
//!
//! Beside the engine it keeps what document 01 adds (an open cycle, the offer, the invitation, the
//! names looked at) and which operation stands where, so that a name has its number and every text of
//! an operation can be given. Both are followed from what the Rust shows, and held against it.

use std::collections::VecDeque;

use crate::call::{Call, Given, Kind, Machine, Text};
use crate::capability::{
    PipelineControl, PipelineDynamicInspect, PipelineHazardKind, PipelineInspect,
    PipelineInstructionClass as Class, PipelineSlotView, PipelineTraceKind,
};
use crate::coverage::Coverage;
use crate::numbers::Numbers;
use crate::pipeline::{PipelineOp, ooo::ScoreboardPipeline};
use crate::refuse::TEXT;
use crate::shape::{shape, string};
use crate::views::number_of_class;

/// What a call answered: the numbers of the answer, and the looks it made.
pub struct Answered {
    pub numbers: Vec<u64>,
    pub refused: Option<u64>,
    pub looks: Vec<(u64, Vec<u64>)>,
}

pub struct Driver {
    pub engine: ScoreboardPipeline<u64>,
    pub machine: Machine,
    /// The kinds, or the one that stands in for none; capacities as noted.
    pub kinds: Vec<Kind>,
    pub in_cycle: bool,
    pub offer: Option<PipelineOp<u64>>,
    pub retired: bool,
    pub invited: bool,
    /// Fetches accepted since making or the last clearing reset.
    pub fetches: u64,
    /// Names in order of first look.
    pub names: Vec<Text>,
    /// Queued operations, by number.
    pub queue: VecDeque<(u64, Given)>,
    /// The operation in each unit; one on offer is still here.
    pub units: Vec<Option<(u64, Given)>>,
    /// The unit whose operation is on offer.
    pub offered_at: Option<usize>,
    /// The cycle of each fetch, by number.
    pub opened: Vec<u64>,
    pub coverage: Coverage,
}

impl Driver {
    /// Only for a machine that is not refused.
    pub fn new(machine: &Machine) -> Self {
        let engine = ScoreboardPipeline::new(shape(machine), machine.entry);
        let kinds = if machine.kinds.is_empty() {
            vec![Kind {
                name: b"EX".to_vec(),
                classes: Vec::new(),
                latency_class: Class::Alu,
                capacity: 1,
            }]
        } else {
            machine.kinds.clone()
        };
        let units = vec![None; engine.station_count()];
        Self {
            engine,
            machine: machine.clone(),
            kinds,
            in_cycle: false,
            offer: None,
            retired: false,
            invited: false,
            fetches: 0,
            names: Vec::new(),
            queue: VecDeque::new(),
            units,
            offered_at: None,
            opened: Vec::new(),
            coverage: Coverage::default(),
        }
    }

    pub fn stopped(&self) -> bool {
        let status = self.engine.status();
        status.halted || status.faulted
    }

    /// The kind that takes a class: the first that lists it, an empty list takes all, or else kind 0.
    pub fn kind_of(&self, class: Class) -> usize {
        self.kinds
            .iter()
            .position(|kind| kind.classes.is_empty() || kind.classes.contains(&class))
            .unwrap_or(0)
    }

    /// The number of a name.
    pub fn register(&self, name: &str) -> u64 {
        let known = self.names.iter().position(|n| n == name.as_bytes());
        known.expect("the Rust shows a name that no look met") as u64
    }

    // ── Calls ───────────────────────────────────────────────────────────────

    pub fn call(&mut self, call: &Call) -> Answered {
        let against = self.refusals(call);
        let refused = against.first().copied();
        let mut coverage = std::mem::take(&mut self.coverage);
        coverage.before(self, call, &against);
        let mut numbers = Numbers::default();
        let mut looks = Vec::new();
        if let Some(number) = refused {
            self.refuse(number, call);
            numbers.all(&[0, number]);
        } else {
            looks = self.take(call, &mut numbers);
            if call.changes() {
                self.agrees();
                coverage.after(self, call);
            }
        }
        self.coverage = coverage;
        Answered {
            numbers: numbers.list,
            refused,
            looks,
        }
    }

    /// The one refusal of the Rust's own.
    fn refuse(&mut self, number: u64, call: &Call) {
        if let (12, Call::Capacity(kind, instances)) = (number, call) {
            let (kind, instances) = (*kind as usize, *instances as usize);
            assert!(!self.engine.set_capacity(kind, instances));
        }
    }

    /// A call that is not refused, and the looks it made.
    fn take(&mut self, call: &Call, numbers: &mut Numbers) -> Vec<(u64, Vec<u64>)> {
        match call {
            Call::Advance(redirect, _) => return self.advance(*redirect, numbers),
            Call::Start => self.start(numbers),
            Call::Resolve(actual) => {
                let op = self.offer.as_ref().expect("checked");
                let redirect = self.engine.resolve(op, *actual);
                numbers.put(3);
                numbers.maybe(redirect, Numbers::put);
            }
            Call::View(view) => self.view(*view, numbers),
            Call::Cell(row, cell, _) => {
                numbers.put(15);
                numbers.maybe(self.cell_number(*row, *cell), Numbers::put);
            }
            Call::Text(request, _) => {
                numbers.put(19);
                numbers.maybe_text(self.text(request).as_deref());
            }
            other => {
                self.command(other);
                numbers.put(1);
            }
        }
        Vec::new()
    }

    /// A call that answers nothing but that it was done.
    fn command(&mut self, call: &Call) {
        match call {
            Call::Retire => {
                let op = self.offer.as_ref().expect("checked");
                self.engine.retire(op);
                self.retired = true;
            }
            Call::Retry(reason) => {
                let op = self.offer.take().expect("checked");
                self.engine.retry(op, string(reason));
                self.offered_at = None;
            }
            Call::Fetch(given, _) => self.fetch(given),
            Call::Capacity(kind, instances) => self.capacity(*kind as usize, *instances),
            Call::Overlap(on) => self.engine.set_enabled(*on),
            Call::Halt => {
                self.engine.halt();
                self.abandon();
            }
            Call::Fault(note) => {
                self.engine.fault(string(note));
                self.abandon();
            }
            Call::Reset(address, _) => {
                self.engine.reset(*address);
                self.reset();
                self.fetches = 0;
                self.opened.clear();
            }
            Call::Redirect(address) => {
                self.engine.redirect(*address);
                self.reset();
            }
            other => panic!("{} answers more", other.name()),
        }
    }

    fn capacity(&mut self, kind: usize, instances: u64) {
        assert!(self.engine.set_capacity(kind, instances as usize));
        self.kinds[kind].capacity = instances;
        if self.units.iter().all(Option::is_none) {
            self.units = vec![None; self.engine.station_count()];
        }
    }

    fn start(&mut self, numbers: &mut Numbers) {
        let before = self.busy();
        let offer = self.engine.start_cycle();
        self.in_cycle = true;
        self.invited = false;
        self.retired = false;
        self.offered_at = None;
        numbers.put(2);
        numbers.maybe(offer.as_ref(), |numbers, op| {
            numbers.all(&[
                op.seq(),
                op.address,
                op.length,
                number_of_class(op.class),
                u64::from(op.branch),
                u64::from(op.atomic),
                op.predicted_next(),
                op.payload,
            ]);
        });
        if let Some(op) = &offer {
            // The unit that shows as free now, and did not before.
            let now = self.busy();
            let at = (0..now.len()).find(|at| before[*at] && !now[*at]);
            let at = at.expect("an offer comes from a unit");
            let (number, given) = self.units[at].as_ref().expect("followed");
            assert_eq!(*number, op.seq());
            assert!(!op.was_predicted_taken());
            assert_eq!(given.text, op.disassembly.as_bytes());
            assert_eq!(given.payload, op.payload);
            self.offered_at = Some(at);
        }
        self.offer = offer;
    }

    fn advance(&mut self, redirect: Option<u64>, numbers: &mut Numbers) -> Vec<(u64, Vec<u64>)> {
        let stopped = self.stopped();
        if let Some(at) = self.offered_at {
            self.units[at] = None;
        }
        self.offer = None;
        self.offered_at = None;
        self.retired = false;
        let before = self.busy();
        let front = self.queue.front().cloned();
        let invitation = self.engine.advance(redirect);
        self.in_cycle = false;
        self.invited = invitation.is_some();
        numbers.put(4);
        numbers.maybe(invitation, Numbers::put);
        if stopped {
            return Vec::new();
        }
        if redirect.is_some() {
            self.queue.clear();
            return Vec::new();
        }
        let Some((number, given)) = front else {
            return Vec::new();
        };
        let looks = if self.unlooked() {
            Vec::new()
        } else {
            vec![(number, self.look(&given))]
        };
        // Issued: it went from the queue to the unit that was free and is not now.
        if self.engine.queue_count() < self.queue.len() {
            let now = self.busy();
            let at = (0..now.len()).find(|at| !before[*at] && now[*at]);
            self.units[at.expect("an issue takes a unit")] = self.queue.pop_front();
        }
        looks
    }

    /// Issue's wait is the last one, from 1 to 0. Behind a branch or a system operation nothing is
    /// looked at.
    fn unlooked(&self) -> bool {
        let last = self.engine.trace_count().checked_sub(1);
        let last = last.and_then(|last| self.engine.trace(last));
        last.is_some_and(|trace| {
            (trace.from_stage, trace.to_stage) == (1, 0)
                && (trace.kind == PipelineTraceKind::Hazard(PipelineHazardKind::BranchFlush)
                    || trace.detail.ends_with("a system instruction serializes"))
        })
    }

    /// The numbers of an operation's names, reads before writes; a new name goes to the end.
    fn look(&mut self, given: &Given) -> Vec<u64> {
        let names = given.sources.iter().chain(&given.writes);
        let numbers = names.map(|name| {
            let known = self.names.iter().position(|n| n == name);
            known.unwrap_or_else(|| {
                self.names.push(name.clone());
                self.names.len() - 1
            }) as u64
        });
        numbers.collect()
    }

    fn fetch(&mut self, given: &Given) {
        // With room of its own, an empty text too: texts.rs tells operations by it.
        let mut text = String::with_capacity(TEXT);
        text.push_str(&string(&given.text));
        let mut op = PipelineOp::new(given.address, text, given.class, given.payload)
            .with_length(given.size)
            .reading(given.sources.iter().map(|name| string(name)));
        op.writes = given.writes.iter().map(|name| string(name)).collect();
        op.destination = given.destination.as_deref().map(string);
        op.fault = given.fault.as_deref().map(string);
        op.branch = given.branch;
        op.atomic = given.atomic;
        // Not read by the scoreboard.
        op.branch_target = Some(given.payload);
        self.engine.fetched(op);
        self.queue.push_back((self.fetches, given.clone()));
        self.opened.push(self.engine.stats().cycles);
        self.fetches += 1;
        self.invited = false;
    }

    fn abandon(&mut self) {
        self.queue.clear();
        self.units.fill(None);
        self.offer = None;
        self.offered_at = None;
        self.retired = false;
        self.invited = false;
    }

    fn reset(&mut self) {
        self.abandon();
        self.in_cycle = false;
        self.names.clear();
        self.units = vec![None; self.engine.station_count()];
    }

    /// Which stations are busy.
    pub fn busy(&self) -> Vec<bool> {
        (0..self.engine.station_count())
            .map(|at| self.engine.station(at).expect("counted").tag.is_some())
            .collect()
    }

    /// What is followed here is what the Rust shows.
    fn agrees(&self) {
        assert_eq!(self.engine.queue_count(), self.queue.len());
        for (at, (_, held)) in self.queue.iter().enumerate() {
            same_slot(self.engine.queued(at), Some(held));
        }
        assert_eq!(self.engine.station_count(), self.units.len());
        for (at, held) in self.units.iter().enumerate() {
            let held = held.as_ref().filter(|_| self.offered_at != Some(at));
            let shown = self.engine.station(at).expect("counted");
            same_slot(shown.slot, held.map(|(_, given)| given));
        }
        let renames = (0..self.engine.rename_count()).map(|at| {
            let rename = self.engine.rename(at).expect("counted");
            self.register(rename.register)
        });
        assert!(renames.is_sorted());
    }

    /// The cells that the row at a place has lost.
    pub fn lost_cells(&self, at: usize) -> u64 {
        let row = self.engine.timeline_row(at).expect("counted");
        row.first_cycle - self.opened[self.first_row() as usize + at]
    }

    /// The most cells that a row had so far, lost ones too.
    pub fn most_cells(&self) -> u64 {
        let rows = 0..self.engine.timeline_len();
        let cells = rows.map(|at| {
            let row = self.engine.timeline_row(at).expect("counted");
            row.cells as u64 + self.lost_cells(at)
        });
        cells.max().unwrap_or(0)
    }

    /// The id of the oldest row that is held.
    pub fn first_row(&self) -> u64 {
        self.fetches - self.engine.timeline_len() as u64
    }
}

fn same_slot(slot: Option<PipelineSlotView>, held: Option<&Given>) {
    assert_eq!(slot.is_some(), held.is_some());
    let (Some(slot), Some(held)) = (slot, held) else {
        return;
    };
    assert_eq!(slot.address, held.address);
    assert_eq!(slot.disassembly.as_bytes(), held.text);
    assert_eq!(slot.class, held.class);
    let destination = slot.destination.map(str::as_bytes);
    assert_eq!(destination, held.destination.as_deref());
    for (at, source) in slot.sources.iter().enumerate() {
        let own = held.sources.get(at).map(Vec::as_slice);
        assert_eq!(source.map(str::as_bytes), own);
    }
}
