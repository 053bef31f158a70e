//! Makes a list of bytes: the generator's calls, with views and texts asked for after them. The calls
//! that change the engine are played on the Rust meanwhile, so that indexes and lengths are known.

use crate::call::{Call, Field, Machine, Place, Request, View};
use crate::capability::{PipelineDynamicInspect, PipelineInspect};
use crate::driver::{Answered, Driver};
use crate::play::Plays;
use crate::refuse::{SOURCES, WRITES};
use crate::rng::Rng;

pub struct Maker {
    driver: Driver,
    rng: Rng,
    /// Of a thousand views and texts so many are asked for, after a call that is shown.
    density: u64,
    pub calls: Vec<Call>,
    /// No more is asked for past so many calls.
    most: usize,
}

/// So many cells are asked for at once, at most.
const CELLS: usize = 600;

impl Maker {
    /// Only for a machine that is not refused.
    pub fn new(machine: &Machine, rng: Rng, density: u64, most: usize) -> Self {
        Self {
            driver: Driver::new(machine),
            rng,
            density,
            calls: Vec::new(),
            most,
        }
    }

    fn play(&mut self, call: Call) -> Answered {
        let answered = self.driver.call(&call);
        self.calls.push(call);
        answered
    }

    fn wants(&mut self) -> bool {
        self.calls.len() < self.most && self.rng.below(1000) < self.density
    }

    fn view(&mut self, view: View) {
        if self.wants() {
            self.calls.push(Call::View(view));
        }
    }

    /// A text: mostly with a buffer of its length, else shorter or longer.
    fn text(&mut self, request: Request) {
        if !self.wants() {
            return;
        }
        let text = self.driver.text(&request);
        let length = text.map_or(0, |text| text.len() as u64);
        let room = match self.rng.below(40) {
            0 | 1 => length.saturating_sub(1),
            2 => 0,
            3 | 4 => length + 1,
            5 => self.rng.below(100),
            6 if self.rng.below(200) == 0 => 65_535,
            _ => length,
        };
        self.calls.push(Call::Text(request, room));
    }

    fn cell(&mut self, row: u64, cell: u64) {
        if !self.wants() {
            return;
        }
        let memory = self.driver.machine.memory();
        let lent = match self.rng.below(60) {
            0 => memory - 1,
            1 => self.rng.below(memory),
            2 => memory + self.rng.below(20),
            3 => 0,
            _ => memory,
        };
        self.calls.push(Call::Cell(row, cell, lent));
    }

    /// Far past the end.
    fn far(&mut self, count: usize) -> u64 {
        let edges = [1 << 8, 1 << 16, 1 << 32, 1 << 63, u64::MAX];
        let edge = *self.rng.pick(&edges);
        edge.saturating_add(self.within(2 * count))
    }

    fn within(&mut self, count: usize) -> u64 {
        if count == 0 {
            0
        } else {
            self.rng.below(count as u64)
        }
    }

    /// Each index of a list, one past its end, and one far past it.
    fn indexes(&mut self, count: usize) -> impl Iterator<Item = u64> + use<> {
        let far = self.far(count).max(count as u64 + 1);
        (0..=count as u64).chain([far])
    }

    /// The texts of an operation; where a place shows none, only a few are asked for.
    fn slot_texts(&mut self, place: Place) {
        if self.driver.slot_text(place, Field::Disassembly).is_none() && self.rng.below(10) > 0 {
            let fields = [Field::Disassembly, Field::Fault, Field::Source(0)];
            let field = *self.rng.pick(&fields);
            return self.text(Request::Slot(place, field));
        }
        for field in [Field::Disassembly, Field::Destination, Field::Fault] {
            self.text(Request::Slot(place, field));
        }
        for at in self.indexes(SOURCES) {
            self.text(Request::Slot(place, Field::Source(at)));
        }
        for at in self.indexes(WRITES) {
            self.text(Request::Slot(place, Field::Write(at)));
        }
    }

    /// Every view and every text.
    fn ask(&mut self) {
        if self.calls.len() >= self.most {
            return;
        }
        for view in [
            View::Status,
            View::Stats,
            View::Enabled,
            View::FetchPc,
            View::ResumePc,
            View::UnitCount,
            View::TraceCount,
            View::TimelineLen,
            View::StationCount,
            View::RenameCount,
            View::QueueCount,
        ] {
            self.view(view);
        }
        self.text(Request::StatusMessage);
        self.slot_texts(Place::Offer);
        for at in self.indexes(self.driver.engine.stage_count()) {
            self.view(View::Stage(at));
            self.slot_texts(Place::Stage(at));
        }
        self.ask_units();
        self.ask_lists();
        self.ask_rows();
        self.ask_in_flight();
    }

    fn ask_units(&mut self) {
        for at in self.indexes(self.driver.engine.unit_count()) {
            self.view(View::Unit(at));
            self.text(Request::UnitName(at));
            self.slot_texts(Place::Unit(at));
        }
        for at in self.indexes(self.driver.engine.station_count()) {
            self.view(View::Station(at));
            self.text(Request::StationLabel(at));
            for operand in self.indexes(2) {
                self.text(Request::OperandRegister(at, operand));
            }
            self.slot_texts(Place::Station(at));
        }
    }

    /// Waits, claims and the queue.
    fn ask_lists(&mut self) {
        for at in self.indexes(self.driver.engine.trace_count()) {
            self.view(View::Trace(at));
            self.text(Request::TraceDetail(at));
        }
        for at in self.indexes(self.driver.engine.rename_count()) {
            self.view(View::Rename(at));
            self.text(Request::RenameRegister(at));
        }
        for at in self.indexes(self.driver.engine.queue_count()) {
            self.view(View::Queued(at));
            self.slot_texts(Place::Queue(at));
        }
    }

    /// Rows and cells; of many cells only some.
    fn ask_rows(&mut self) {
        let rows = self.driver.engine.timeline_len();
        let cells: Vec<usize> = (0..rows)
            .map(|at| self.driver.engine.timeline_row(at).expect("counted").cells)
            .collect();
        let all = cells.iter().sum::<usize>() <= CELLS;
        for at in self.indexes(rows) {
            self.view(View::TimelineRow(at));
            self.text(Request::RowDisassembly(at));
            let count = cells.get(at as usize).copied().unwrap_or(0);
            if all || count == 0 {
                for cell in self.indexes(count) {
                    self.cell(at, cell);
                }
            } else {
                for cell in [0, count as u64 - 1, count as u64, self.within(count)] {
                    self.cell(at, cell);
                }
            }
        }
    }

    fn ask_in_flight(&mut self) {
        let units = self.driver.units.iter().flatten();
        let held = units.chain(&self.driver.queue).map(|(number, _)| *number);
        let mut numbers: Vec<u64> = held.flat_map(|number| [number, number + 1]).collect();
        numbers.extend([0, self.driver.fetches, self.far(1)]);
        for number in numbers {
            self.view(View::InFlightBefore(number));
        }
    }

    /// What no call changes.
    fn ask_fixed(&mut self) {
        for view in [
            View::StageCount,
            View::Edges,
            View::EntryStages,
            View::StageOrder,
            View::BufferCount,
            View::BufferCapacity,
            View::BufferEntry(0),
            View::BufferEntry(u64::MAX),
        ] {
            self.view(view);
        }
        for at in self.indexes(self.driver.engine.stage_count()) {
            self.text(Request::StageName(at));
        }
        for label in self.indexes(8 + self.driver.engine.unit_count()) {
            self.text(Request::CellLabel(label));
        }
    }

    /// A few views and texts.
    fn ask_little(&mut self) {
        let density = std::mem::replace(&mut self.density, 20);
        if self.rng.below(20) == 0 {
            self.ask();
        }
        self.density = density;
    }
}

impl Plays for Maker {
    fn driver(&self) -> &Driver {
        &self.driver
    }

    fn shown(&mut self, call: Call) -> Answered {
        let answered = self.play(call);
        self.ask();
        if self.rng.below(30) == 0 {
            self.ask_fixed();
        }
        answered
    }

    fn quiet(&mut self, call: Call) -> Answered {
        let answered = self.play(call);
        self.ask_little();
        answered
    }

    fn idle(&mut self, most: u64) {
        let lent = self.driver.machine.memory();
        let mut cycles = 0;
        while cycles < most && !self.driver.in_cycle {
            self.play(Call::Start);
            self.play(Call::Advance(None, lent));
            cycles += 1;
        }
        self.ask();
    }

    fn rest(&mut self) {
        let density = std::mem::replace(&mut self.density, 1000);
        self.ask();
        self.ask_fixed();
        self.density = density;
    }
}
