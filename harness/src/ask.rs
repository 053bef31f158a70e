//! Any call at all, taken or refused, at any time.

use crate::call::{Call, Field, Place, Request, View};
use crate::capability::{PipelineDynamicInspect, PipelineInspect};
use crate::driver::Driver;
use crate::generate::{EDGE, Generator, Style};

impl Generator {
    /// Any call at all.
    pub fn any_call(&mut self, driver: &Driver) -> Call {
        let lent = self.lent(driver);
        let stops = !matches!(self.style, Style::Rows | Style::History);
        match self.rng.below(64) {
            0..3 => Call::Start,
            3..6 => Call::Retire,
            6..9 if self.rng.percent(30) => Call::Retry(self.bad_text(64)),
            6..9 => Call::Retry(self.reason()),
            9..12 => Call::Resolve(self.address()),
            12..15 => {
                let redirect = self.rng.percent(50).then(|| self.address());
                Call::Advance(redirect, if self.rng.percent(30) { 0 } else { lent })
            }
            15..21 => {
                let mut given = self.given(driver);
                self.spoil(&mut given);
                Call::Fetch(given, if self.rng.percent(30) { 0 } else { lent })
            }
            21..27 => self.capacity(driver),
            27..30 => Call::Overlap(self.rng.percent(60)),
            30 if stops => Call::Halt,
            31 if stops => Call::Fault(self.reason()),
            32 if stops => Call::Reset(self.address(), lent),
            33 if stops => Call::Redirect(self.address()),
            34..44 => Call::View(self.view(driver)),
            44..50 => self.cell(driver, lent),
            _ => self.text_request(driver),
        }
    }

    fn capacity(&mut self, driver: &Driver) -> Call {
        let kinds = driver.kinds.len();
        let kind = self.index(kinds);
        let instances = match self.rng.below(8) {
            0 => 64,
            1 => 65,
            2 => *self.rng.pick(&EDGE),
            3 => 64 - kinds as u64 + 1,
            _ => self.rng.below(5),
        };
        // Wide banks are slow to look through.
        let small = matches!(
            self.style,
            Style::Small | Style::Busy | Style::Odd | Style::Long
        );
        let wide = small && instances > 5 && instances <= 64;
        Call::Capacity(kind, if wide { 3 } else { instances })
    }

    fn cell(&mut self, driver: &Driver, lent: u64) -> Call {
        let engine = &driver.engine;
        let row = self.index(engine.timeline_len());
        let cells = engine.timeline_row(row as usize);
        let cell = self.index(cells.map_or(0, |row| row.cells));
        let lent = if self.rng.percent(15) {
            self.rng.below(driver.machine.memory())
        } else {
            lent
        };
        Call::Cell(row, cell, lent)
    }

    fn text_request(&mut self, driver: &Driver) -> Call {
        let request = self.request(driver);
        let text = driver.text(&request);
        let length = text.map_or(0, |text| text.len() as u64);
        let room = match self.rng.below(8) {
            0 => length.saturating_sub(1),
            1 => 0,
            2 => length + 1,
            3 => 200,
            _ => length,
        };
        Call::Text(request, room)
    }

    fn view(&mut self, driver: &Driver) -> View {
        let engine = &driver.engine;
        match self.rng.below(30) {
            0 => View::Status,
            1 => View::Stats,
            2 => View::Enabled,
            3 => View::FetchPc,
            4 => View::ResumePc,
            5 => View::StageCount,
            6 => View::Edges,
            7 => View::EntryStages,
            8 => View::StageOrder,
            9 => View::UnitCount,
            10 => View::TraceCount,
            11 => View::TimelineLen,
            12 => View::StationCount,
            13 => View::RenameCount,
            14 => View::QueueCount,
            15 => View::BufferCount,
            16 => View::BufferCapacity,
            17 | 18 => View::InFlightBefore(self.index(driver.fetches as usize)),
            19 | 20 => View::Stage(self.index(engine.stage_count())),
            21 | 22 => View::Unit(self.index(engine.unit_count())),
            23 => View::Trace(self.index(engine.trace_count())),
            24 => View::TimelineRow(self.index(engine.timeline_len())),
            25 | 26 => View::Station(self.index(engine.station_count())),
            27 => View::Rename(self.index(engine.rename_count())),
            28 => View::Queued(self.index(engine.queue_count())),
            _ => View::BufferEntry(self.index(1)),
        }
    }

    fn request(&mut self, driver: &Driver) -> Request {
        let engine = &driver.engine;
        match self.rng.below(14) {
            0 => Request::StatusMessage,
            1 | 2 => Request::TraceDetail(self.index(engine.trace_count())),
            3 => Request::RowDisassembly(self.index(engine.timeline_len())),
            4 => Request::StageName(self.index(engine.stage_count())),
            5 => Request::UnitName(self.index(engine.unit_count())),
            6 => Request::StationLabel(self.index(engine.station_count())),
            7 => Request::RenameRegister(self.index(engine.rename_count())),
            8 => Request::CellLabel(match self.rng.below(3) {
                0 => self.index(8),
                1 => 8 + self.rng.below(engine.unit_count() as u64 + 1),
                _ => *self.rng.pick(&[24, 31, 32, 255, u64::MAX]),
            }),
            9 => {
                let station = self.index(engine.station_count());
                Request::OperandRegister(station, self.rng.below(4))
            }
            _ => self.slot_request(driver),
        }
    }

    fn slot_request(&mut self, driver: &Driver) -> Request {
        let engine = &driver.engine;
        let place = match self.rng.below(5) {
            0 => Place::Queue(self.index(engine.queue_count())),
            1 => Place::Station(self.index(engine.station_count())),
            2 => Place::Stage(self.index(engine.stage_count())),
            3 => Place::Unit(self.index(engine.unit_count())),
            _ => Place::Offer,
        };
        // Stages 1 and 2 do not tell which operation they show.
        let any = !matches!(place, Place::Stage(1 | 2));
        let field = match self.rng.below(if any { 8 } else { 4 }) {
            0 => Field::Disassembly,
            1 => Field::Destination,
            2 => Field::Source(0),
            3 => Field::Source(1),
            4 => Field::Fault,
            5 => Field::Source(self.rng.below(10)),
            6 => Field::Write(self.rng.below(6)),
            _ => Field::Write(0),
        };
        Request::Slot(place, field)
    }
}
