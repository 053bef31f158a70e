//! All that the Rust shows, as one list of numbers. The model's is made by everything-shown and
//! fixed-shown in crates/samples/specs/Digest.antt.

use crate::call::{Field, Place, Request, View};
use crate::capability::{PipelineDynamicInspect, PipelineInspect, PipelineTimelineState};
use crate::driver::Driver;
use crate::numbers::Numbers;
use crate::play::FILLER;
use crate::refuse::{SOURCES, WRITES};

impl Driver {
    fn asked(&self, view: View, numbers: &mut Numbers) {
        numbers.part(format!("{view:?}"));
        self.view(view, numbers);
    }

    fn read(&self, request: Request, numbers: &mut Numbers) {
        numbers.part(format!("{request:?}"));
        numbers.maybe_text(self.text(&request).as_deref());
    }

    fn slot_texts(&self, place: Place, numbers: &mut Numbers) {
        numbers.part(format!("texts {place:?}"));
        let fields = [
            Field::Disassembly,
            Field::Destination,
            Field::Source(0),
            Field::Source(1),
        ];
        if self.slot_text(place, Field::Disassembly).is_none() {
            numbers.put(0);
        } else {
            numbers.put(1);
            for field in fields {
                numbers.maybe_text(self.slot_text(place, field).as_deref());
            }
        }
    }

    /// What a call may change, after it: each list with its count before it, and one past its end.
    pub fn everything(&self, numbers: &mut Numbers) {
        for view in [
            View::Status,
            View::Enabled,
            View::Stats,
            View::FetchPc,
            View::ResumePc,
        ] {
            self.asked(view, numbers);
        }
        self.read(Request::StatusMessage, numbers);
        for stage in 0..=self.engine.stage_count() as u64 {
            self.asked(View::Stage(stage), numbers);
            self.slot_texts(Place::Stage(stage), numbers);
        }
        self.units_and_stations(numbers);
        self.lists(numbers);
        self.offered_texts(numbers);
        self.timeline(numbers);
        self.numbers_in_flight(numbers);
    }

    fn units_and_stations(&self, numbers: &mut Numbers) {
        self.asked(View::UnitCount, numbers);
        for unit in 0..=self.engine.unit_count() as u64 {
            self.asked(View::Unit(unit), numbers);
            self.read(Request::UnitName(unit), numbers);
            self.slot_texts(Place::Unit(unit), numbers);
        }
        self.asked(View::StationCount, numbers);
        for station in 0..=self.engine.station_count() as u64 {
            self.asked(View::Station(station), numbers);
            self.read(Request::StationLabel(station), numbers);
            self.read(Request::OperandRegister(station, 0), numbers);
            self.read(Request::OperandRegister(station, 1), numbers);
            self.slot_texts(Place::Station(station), numbers);
        }
    }

    /// Waits, claims and the queue.
    fn lists(&self, numbers: &mut Numbers) {
        self.asked(View::TraceCount, numbers);
        for trace in 0..=self.engine.trace_count() as u64 {
            self.asked(View::Trace(trace), numbers);
            self.read(Request::TraceDetail(trace), numbers);
        }
        self.asked(View::RenameCount, numbers);
        for rename in 0..=self.engine.rename_count() as u64 {
            self.asked(View::Rename(rename), numbers);
            self.read(Request::RenameRegister(rename), numbers);
        }
        self.asked(View::QueueCount, numbers);
        for queued in 0..=self.engine.queue_count() as u64 {
            self.asked(View::Queued(queued), numbers);
            self.slot_texts(Place::Queue(queued), numbers);
        }
    }

    /// The rows with all their cells.
    fn timeline(&self, numbers: &mut Numbers) {
        self.asked(View::TimelineLen, numbers);
        for at in 0..=self.engine.timeline_len() as u64 {
            self.asked(View::TimelineRow(at), numbers);
            self.read(Request::RowDisassembly(at), numbers);
            let row = self.engine.timeline_row(at as usize);
            for cell in 0..row.map_or(0, |row| row.cells as u64) {
                numbers.part(format!("cell {at} {cell}"));
                numbers.maybe(self.cell_number(at, cell), Numbers::put);
            }
        }
    }

    /// in_flight_before at 0, at the next number, and at each number in flight and one past it.
    fn numbers_in_flight(&self, numbers: &mut Numbers) {
        self.asked(View::InFlightBefore(0), numbers);
        self.asked(View::InFlightBefore(self.fetches), numbers);
        let units = self.units.iter().enumerate();
        let units = units.filter(|(at, _)| self.offered_at != Some(*at));
        let units = units.filter_map(|(_, held)| held.as_ref());
        for (number, _) in units.chain(&self.queue) {
            self.asked(View::InFlightBefore(*number), numbers);
            self.asked(View::InFlightBefore(*number + 1), numbers);
        }
    }

    /// The texts of the operation on offer, all of its names too.
    fn offered_texts(&self, numbers: &mut Numbers) {
        numbers.part("offer's texts");
        if self.offer.is_none() {
            numbers.put(0);
            return;
        }
        numbers.put(1);
        let read = |field: Field, numbers: &mut Numbers| {
            numbers.maybe_text(self.slot_text(Place::Offer, field).as_deref());
        };
        read(Field::Disassembly, numbers);
        read(Field::Destination, numbers);
        read(Field::Fault, numbers);
        for source in 0..=SOURCES as u64 {
            read(Field::Source(source), numbers);
        }
        for write in 0..=WRITES as u64 {
            read(Field::Write(write), numbers);
        }
    }

    /// What no call changes.
    pub fn fixed(&self, numbers: &mut Numbers) {
        self.asked(View::StageCount, numbers);
        self.asked(View::Edges, numbers);
        self.asked(View::EntryStages, numbers);
        self.asked(View::StageOrder, numbers);
        self.asked(View::BufferCount, numbers);
        self.asked(View::BufferCapacity, numbers);
        self.asked(View::BufferEntry(0), numbers);
        for stage in 0..=self.engine.stage_count() as u64 {
            self.read(Request::StageName(stage), numbers);
        }
        for label in 0..=8 + self.engine.unit_count() as u64 {
            self.read(Request::CellLabel(label), numbers);
        }
    }

    /// Every byte of the lent cell memory.
    pub fn memory(&self, numbers: &mut Numbers) {
        let mut bytes = vec![FILLER as u8; self.machine.lent as usize];
        self.lay_cells(&mut bytes);
        numbers.part("the lent cell memory");
        numbers.text(&bytes);
    }

    /// The lent cell memory, by document 01's layout, from the cells that the Rust shows.
    pub fn lay_cells(&self, bytes: &mut [u8]) {
        let history = self.machine.history.max(1);
        bytes[..self.machine.memory() as usize].fill(255);
        for at in 0..self.engine.timeline_len() as u64 {
            let row = self.engine.timeline_row(at as usize).expect("counted");
            let id = self.first_row() + at;
            let dropped = self.lost_cells(at as usize);
            for cell in 0..row.cells as u64 {
                let place = id % history * 200 + (dropped + cell) % 200;
                bytes[place as usize] = self.cell_byte(at, cell);
            }
        }
    }

    fn cell_byte(&self, row: u64, cell: u64) -> u8 {
        let shown = self.engine.timeline_cell(row as usize, cell as usize);
        let shown = shown.expect("counted");
        let state = match shown.state {
            PipelineTimelineState::Active => 0,
            PipelineTimelineState::Stalled => 32,
            PipelineTimelineState::Flushed => 64,
            state => panic!("a cell in state {state:?}"),
        };
        self.label(row, shown.role) as u8 + state
    }
}
