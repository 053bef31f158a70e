//! The texts that the Rust's views show.

use crate::call::{Field, Given, Place, Request, Text};
use crate::capability::{PipelineDynamicInspect, PipelineInspect, PipelineSlotView};
use crate::driver::Driver;

impl Driver {
    /// The text asked for, or none where the index is past the end or there is none.
    pub fn text(&self, request: &Request) -> Option<Text> {
        let engine = &self.engine;
        let bytes = |text: &str| text.as_bytes().to_vec();
        match *request {
            Request::StatusMessage => engine.status_message().map(bytes),
            Request::Slot(place, field) => self.slot_text(place, field),
            Request::TraceDetail(at) => engine.trace(at as usize).map(|t| bytes(t.detail)),
            Request::RowDisassembly(at) => engine
                .timeline_row(at as usize)
                .map(|row| bytes(row.disassembly)),
            Request::StageName(at) => engine.stage(at as usize).map(|stage| bytes(stage.name)),
            Request::UnitName(at) => engine.unit(at as usize).map(|unit| bytes(unit.name)),
            Request::StationLabel(at) => engine
                .station(at as usize)
                .map(|station| bytes(station.name)),
            Request::RenameRegister(at) => engine
                .rename(at as usize)
                .map(|rename| bytes(rename.register)),
            Request::CellLabel(label) => match label {
                0..5 => Some(bytes(["IF", "IS", "RO", "WR", "FL"][label as usize])),
                5..8 => None,
                _ => engine.unit(label as usize - 8).map(|unit| bytes(unit.name)),
            },
            Request::OperandRegister(at, operand) => {
                let station = engine.station(at as usize)?;
                let operand = station.operands.get(operand as usize).copied().flatten()?;
                Some(bytes(operand.register))
            }
        }
    }

    /// A text of an operation. The Rust's slot views show the text, the shown destination and two
    /// sources; the others are the operation's own, which is known where it stands.
    pub fn slot_text(&self, place: Place, field: Field) -> Option<Text> {
        let slot = match place {
            Place::Queue(at) => self.engine.queued(at as usize)?,
            Place::Station(at) => self.engine.station(at as usize)?.slot?,
            Place::Stage(at) => self.engine.stage(at as usize)?.slot?,
            Place::Unit(at) => self.engine.unit(at as usize)?.first?,
            Place::Offer => {
                let op = self.offer.as_ref()?;
                let text = match field {
                    Field::Disassembly => Some(&op.disassembly),
                    Field::Destination => op.destination.as_ref(),
                    Field::Fault => op.fault.as_ref(),
                    Field::Source(at) => op.sources.get(at as usize),
                    Field::Write(at) => op.writes.get(at as usize),
                };
                return text.map(|text| text.as_bytes().to_vec());
            }
        };
        let bytes = |text: &str| text.as_bytes().to_vec();
        match field {
            Field::Disassembly => Some(bytes(slot.disassembly)),
            Field::Destination => slot.destination.map(bytes),
            Field::Source(at) if at < 2 => slot.sources[at as usize].map(bytes),
            Field::Fault => self.held(slot).fault.clone(),
            Field::Source(at) => self.held(slot).sources.get(at as usize).cloned(),
            Field::Write(at) => self.held(slot).writes.get(at as usize).cloned(),
        }
    }

    /// The operation that is shown: the queued one, or the one in a unit, whose text stands in memory
    /// where the shown one stands.
    fn held(&self, slot: PipelineSlotView) -> &Given {
        let text = slot.disassembly.as_ptr();
        let same = |other: Option<PipelineSlotView>| {
            other.is_some_and(|other| other.disassembly.as_ptr() == text)
        };
        let mut queued = (0..self.queue.len()).filter(|at| same(self.engine.queued(*at)));
        if let Some(at) = queued.next() {
            return &self.queue[at].1;
        }
        let station = |at: usize| self.engine.station(at).expect("counted");
        let mut units = (0..self.units.len()).filter(|at| same(station(*at).slot));
        let at = units.next().expect("shown");
        &self.units[at].as_ref().expect("followed").1
    }
}
