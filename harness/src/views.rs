//! What the Rust's views show, as numbers.

use crate::call::{Request, View};
use crate::capability::{
    PipelineDynamicInspect, PipelineEdgeKind, PipelineEntryPhase, PipelineHazardKind,
    PipelineInspect, PipelineInstructionClass as Class, PipelineSlotView,
    PipelineStageRole as Role, PipelineStationView, PipelineTraceKind,
};
use crate::driver::Driver;
use crate::numbers::Numbers;

pub fn number_of_class(class: Class) -> u64 {
    class.as_usize() as u64
}

fn number_of_hazard(kind: PipelineHazardKind) -> u64 {
    kind as u64
}

fn number_of_role(role: Role) -> u64 {
    role as u64
}

fn number_of_phase(phase: PipelineEntryPhase) -> u64 {
    match phase {
        PipelineEntryPhase::Free => 0,
        PipelineEntryPhase::Waiting => 1,
        PipelineEntryPhase::Armed => 2,
        PipelineEntryPhase::Executing => 3,
        PipelineEntryPhase::Finished => 4,
        PipelineEntryPhase::Committing => 5,
    }
}

fn slot(slot: Option<PipelineSlotView>, numbers: &mut Numbers) {
    numbers.maybe(slot, |numbers, slot| {
        numbers.put(slot.address);
        numbers.put(number_of_class(slot.class));
        numbers.put(
            u64::from(slot.bubble)
                + 2 * u64::from(slot.speculative)
                + 4 * u64::from(slot.predicted_taken)
                + 8 * u64::from(slot.atomic),
        );
        numbers.put(u64::from(slot.cycles_remaining));
        numbers.maybe(slot.hazard, |numbers, kind| {
            numbers.put(number_of_hazard(kind));
        });
    });
}

impl Driver {
    pub fn view(&self, view: View, numbers: &mut Numbers) {
        let engine = &self.engine;
        let count = |n: usize, numbers: &mut Numbers| numbers.all(&[8, n as u64]);
        match view {
            View::Status => self.status(numbers),
            View::Stats => self.counters(numbers),
            View::Enabled => numbers.all(&[7, u64::from(engine.enabled())]),
            View::FetchPc => numbers.all(&[8, engine.fetch_pc()]),
            View::ResumePc => numbers.all(&[8, engine.resume_pc()]),
            View::StageCount => count(engine.stage_count(), numbers),
            View::Edges => self.edges(numbers),
            View::EntryStages => stage_list(&engine.entry_stages(), numbers),
            View::StageOrder => stage_list(&engine.stage_order(), numbers),
            View::UnitCount => count(engine.unit_count(), numbers),
            View::TraceCount => count(engine.trace_count(), numbers),
            View::TimelineLen => count(engine.timeline_len(), numbers),
            View::StationCount => count(engine.station_count(), numbers),
            View::RenameCount => count(engine.rename_count(), numbers),
            View::QueueCount => count(engine.queue_count(), numbers),
            View::BufferCount => count(engine.buffer_count(), numbers),
            View::BufferCapacity => count(engine.buffer_capacity(), numbers),
            View::InFlightBefore(number) => {
                numbers.all(&[7, u64::from(engine.in_flight_before(number))]);
            }
            View::Stage(at) => self.stage(at, numbers),
            View::Unit(at) => self.unit(at, numbers),
            View::Trace(at) => self.trace(at, numbers),
            View::TimelineRow(at) => self.row(at, numbers),
            View::Station(at) => {
                numbers.put(16);
                numbers.maybe(engine.station(at as usize), |numbers, station| {
                    self.station(station, numbers);
                });
            }
            View::Rename(at) => {
                numbers.put(17);
                numbers.maybe(engine.rename(at as usize), |numbers, rename| {
                    numbers.all(&[self.register(rename.register), rename.producer]);
                });
            }
            View::Queued(at) => {
                numbers.put(18);
                slot(engine.queued(at as usize), numbers);
            }
            View::BufferEntry(at) => {
                numbers.put(18);
                let entry = engine.buffer_entry(at as usize);
                slot(entry.map(|entry| entry.slot), numbers);
            }
        }
    }

    fn status(&self, numbers: &mut Numbers) {
        let status = self.engine.status();
        numbers.put(5);
        numbers.bit(status.enabled);
        numbers.bit(status.sequential);
        numbers.bit(status.halted);
        numbers.bit(status.faulted);
    }

    fn counters(&self, numbers: &mut Numbers) {
        let stats = self.engine.stats();
        numbers.all(&[
            6,
            stats.cycles,
            stats.committed,
            stats.stalls,
            stats.raw_stalls,
            stats.load_use_stalls,
            stats.branch_stalls,
            stats.functional_unit_stalls,
            stats.memory_stalls,
            stats.waw_stalls,
            stats.war_stalls,
            stats.flushes,
            stats.branches,
        ]);
    }

    fn edges(&self, numbers: &mut Numbers) {
        let edges = self.engine.edges();
        numbers.all(&[10, edges.len() as u64]);
        for edge in edges {
            let kind = match edge.kind {
                PipelineEdgeKind::Sequential => 0,
                PipelineEdgeKind::Forward => 1,
                PipelineEdgeKind::Feedback => 2,
            };
            numbers.all(&[edge.from as u64, edge.to as u64, kind]);
        }
    }

    fn stage(&self, at: u64, numbers: &mut Numbers) {
        numbers.put(11);
        numbers.maybe(self.engine.stage(at as usize), |numbers, stage| {
            numbers.put(number_of_role(stage.role));
            slot(stage.slot, numbers);
        });
    }

    fn unit(&self, at: u64, numbers: &mut Numbers) {
        numbers.put(12);
        numbers.maybe(self.engine.unit(at as usize), |numbers, unit| {
            numbers.all(&[
                unit.capacity as u64,
                unit.active as u64,
                number_of_class(unit.latency_class),
                u64::from(unit.latency.expect("this model owns its timing")),
            ]);
            slot(unit.first, numbers);
        });
    }

    fn trace(&self, at: u64, numbers: &mut Numbers) {
        numbers.put(13);
        numbers.maybe(self.engine.trace(at as usize), |numbers, trace| {
            let kind = match trace.kind {
                PipelineTraceKind::Hazard(kind) => number_of_hazard(kind),
                PipelineTraceKind::Forward => 7,
            };
            numbers.all(&[kind, trace.from_stage as u64, trace.to_stage as u64]);
        });
    }

    fn row(&self, at: u64, numbers: &mut Numbers) {
        numbers.put(14);
        numbers.maybe(self.engine.timeline_row(at as usize), |numbers, row| {
            numbers.all(&[
                self.first_row() + at,
                row.address,
                number_of_class(row.class),
                row.first_cycle,
                row.cells as u64,
                u64::from(row.atomic),
            ]);
        });
    }

    fn station(&self, station: PipelineStationView, numbers: &mut Numbers) {
        numbers.put(station.unit as u64);
        numbers.put(number_of_phase(station.phase));
        numbers.maybe(station.tag, Numbers::put);
        slot(station.slot, numbers);
        for operand in station.operands {
            numbers.maybe(operand, |numbers, operand| {
                numbers.put(self.register(operand.register));
                numbers.maybe(operand.producer, Numbers::put);
            });
        }
    }

    /// A cell: label + 32 * state + 256 * role. The Rust's label must be the text of the number.
    pub fn cell_number(&self, row: u64, cell: u64) -> Option<u64> {
        let shown = self.engine.timeline_cell(row as usize, cell as usize)?;
        let label = self.label(row, shown.role);
        let text = self.text(&Request::CellLabel(label));
        assert_eq!(text.as_deref(), Some(shown.label.as_bytes()));
        Some(label + 32 * (shown.state as u64) + 256 * number_of_role(shown.role))
    }

    /// The number that document 01 gives to a cell's label.
    pub fn label(&self, row: u64, role: Role) -> u64 {
        match role {
            Role::Fetch => 0,
            Role::Issue => 1,
            Role::Decode => 2,
            Role::Writeback => 3,
            Role::Other => 4,
            Role::Execute => {
                let row = self.engine.timeline_row(row as usize);
                8 + self.kind_of(row.expect("it has a cell").class) as u64
            }
            role => panic!("a cell of role {role:?}"),
        }
    }
}

fn stage_list(stages: &[usize], numbers: &mut Numbers) {
    numbers.all(&[9, stages.len() as u64]);
    for stage in stages {
        numbers.put(*stage as u64);
    }
}
