//! The Rust's machine.

use crate::call::{Kind, Machine};
use crate::capability::PipelineStageRole as Role;
use crate::pipeline::{PipelineShape, PipelineTiming, StageSpec, UnitSpec};

fn leak<T>(list: Vec<T>) -> &'static [T] {
    Vec::leak(list)
}

fn leak_text(text: &[u8]) -> &'static str {
    String::leak(string(text))
}

pub fn string(text: &[u8]) -> String {
    String::from_utf8(text.to_vec()).expect("texts that are not refused are ASCII")
}

fn unit(kind: &Kind) -> UnitSpec {
    let name = leak_text(&kind.name);
    let classes = leak(kind.classes.clone());
    UnitSpec::new(name, classes, kind.latency_class)
        .with_capacity(kind.capacity as usize)
        // Not read by the scoreboard.
        .in_stage(Role::Memory)
}

pub fn shape(machine: &Machine) -> PipelineShape {
    let stages = machine.stages.iter();
    let stages = leak(stages.map(|role| StageSpec::new("stage", *role)).collect());
    let units = leak(machine.kinds.iter().map(unit).collect());
    let [alu, mul, div, load, store, system, fp] = machine.extras;
    PipelineShape::scalar(stages, machine.instruction_bytes)
        .with_units(units)
        .with_timing(PipelineTiming {
            alu,
            mul,
            div,
            load,
            store,
            system,
            fp,
            // No latency reads these.
            branch_taken: u64::MAX,
            branch_not_taken: 7,
            jump: u64::MAX - 1,
            stage_overhead: 3,
        })
        .with_history(machine.history as usize)
}
