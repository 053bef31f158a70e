//! Every view of the Rust engine, in a line each, as it passes through five states.
//!
//! crates/view_cases/stdout is its output, by the calls and in the order of that crate's `main`:
//! cargo run --release --manifest-path harness/Cargo.toml --bin view_cases >crates/view_cases/stdout

include!(concat!(env!("OUT_DIR"), "/raven.rs"));

use std::fmt::Display;

use capability::{
    PipelineControl, PipelineDynamicInspect, PipelineInspect, PipelineInstructionClass as Class,
    PipelineOperandView, PipelineSlotView, PipelineStageRole as Role, PipelineTraceKind,
};
use pipeline::{
    PipelineOp, PipelineShape, PipelineTiming, StageSpec, UnitSpec, ooo::ScoreboardPipeline,
};

type Engine = ScoreboardPipeline<()>;
type Op = PipelineOp<()>;

fn say(word: impl Display) {
    print!(" {word}");
}

fn flag(is: bool) {
    say(if is { "yes" } else { "no" });
}

fn maybe(word: Option<impl Display>) {
    match word {
        Some(word) => say(word),
        None => say("-"),
    }
}

fn slot(shown: Option<PipelineSlotView>) {
    if let Some(slot) = shown {
        say(slot.address);
        say(slot.class as u8);
        flag(slot.bubble);
        flag(slot.speculative);
        flag(slot.predicted_taken);
        maybe(slot.hazard.map(|hazard| hazard as u8));
        flag(slot.atomic);
        say(slot.cycles_remaining);
        say(slot.disassembly);
        maybe(slot.destination);
        maybe(slot.sources[0]);
        maybe(slot.sources[1]);
    } else {
        say("-");
    }
    println!();
}

fn stage(engine: &Engine, index: usize) {
    let Some(stage) = engine.stage(index) else {
        return;
    };
    print!("stage");
    say(stage.name);
    say(stage.role as u8);
    slot(stage.slot);
}

fn unit(engine: &Engine, index: usize) {
    let Some(unit) = engine.unit(index) else {
        return;
    };
    print!("unit");
    say(unit.name);
    say(unit.capacity);
    say(unit.active);
    say(unit.latency_class as u8);
    maybe(unit.latency);
    slot(unit.first);
}

fn operand(shown: Option<PipelineOperandView>) {
    if let Some(operand) = shown {
        say(operand.register);
        maybe(operand.producer);
    } else {
        say("-");
    }
}

fn station(engine: &Engine, index: usize) {
    let Some(station) = engine.station(index) else {
        return;
    };
    print!("station");
    say(station.name);
    say(station.unit);
    say(station.phase as u8);
    maybe(station.tag);
    operand(station.operands[0]);
    operand(station.operands[1]);
    slot(station.slot);
}

fn trace(engine: &Engine, index: usize) {
    let Some(trace) = engine.trace(index) else {
        return;
    };
    print!("trace");
    say(match trace.kind {
        PipelineTraceKind::Hazard(hazard) => hazard as u8,
        PipelineTraceKind::Forward => 7,
    });
    say(trace.from_stage);
    say(trace.to_stage);
    say(trace.detail);
    println!();
}

fn rename(engine: &Engine, index: usize) {
    let Some(rename) = engine.rename(index) else {
        return;
    };
    print!("rename");
    say(rename.register);
    say(rename.producer);
    println!();
}

fn queued(engine: &Engine, index: usize) {
    let shown = engine.queued(index);
    if shown.is_some() {
        print!("queued");
        slot(shown);
    }
}

fn row(engine: &Engine, index: usize) {
    let Some(row) = engine.timeline_row(index) else {
        return;
    };
    print!("row");
    say(row.address);
    say(row.class as u8);
    say(row.first_cycle);
    say(row.cells);
    flag(row.atomic);
    say(row.disassembly);
    for at in 0..row.cells {
        let cell = engine.timeline_cell(index, at).expect("counted");
        say(cell.label);
        say(cell.state as u8);
        say(cell.role as u8);
    }
    println!();
}

fn whole(engine: &Engine) {
    let status = engine.status();
    print!("status");
    flag(status.enabled);
    flag(status.sequential);
    flag(status.halted);
    flag(status.faulted);
    maybe(engine.status_message());
    let stats = engine.stats();
    print!("\nstats");
    say(stats.cycles);
    say(stats.committed);
    say(stats.stalls);
    say(stats.raw_stalls);
    say(stats.load_use_stalls);
    say(stats.branch_stalls);
    say(stats.functional_unit_stalls);
    say(stats.memory_stalls);
    say(stats.waw_stalls);
    say(stats.war_stalls);
    say(stats.flushes);
    say(stats.branches);
    print!("\ncounts");
    say(engine.unit_count());
    say(engine.trace_count());
    say(engine.timeline_len());
    say(engine.station_count());
    say(engine.rename_count());
    say(engine.queue_count());
    print!("\nnext");
    flag(engine.enabled());
    say(engine.fetch_pc());
    say(engine.resume_pc());
    flag(engine.in_flight_before(1));
    flag(engine.in_flight_before(2));
    println!();
}

fn show(state: &str, engine: &Engine) {
    println!("{state}");
    whole(engine);
    for index in 0..6 {
        stage(engine, index);
        unit(engine, index);
        station(engine, index);
        trace(engine, index);
        rename(engine, index);
        queued(engine, index);
        row(engine, index);
    }
}

/// What no engine changes.
fn fixed(engine: &Engine) {
    print!("edges");
    for edge in engine.edges() {
        say(edge.from);
        say(edge.to);
        say(edge.kind as u8);
    }
    print!("\nstages");
    say(engine.stage_count());
    engine.entry_stages().into_iter().for_each(say);
    engine.stage_order().into_iter().for_each(say);
    say(engine.buffer_count());
    say(engine.buffer_capacity());
    maybe(engine.buffer_entry(0).map(|entry| entry.tag));
    println!();
}

/// MUL takes multiplications alone; two of EX take every class.
fn machine() -> PipelineShape {
    let stages = vec![
        StageSpec::new("IF", Role::Fetch),
        StageSpec::new("ID", Role::Decode),
        StageSpec::new("EX", Role::Execute),
    ];
    let units = vec![
        UnitSpec::new("MUL", &[Class::Multiply], Class::Multiply),
        UnitSpec::new("EX", &[], Class::Alu).with_capacity(2),
    ];
    let mut timing = PipelineTiming::single_cycle();
    timing.mul = 2;
    PipelineShape::scalar(stages.leak(), None)
        .with_units(units.leak())
        .with_timing(timing)
        .with_history(2)
}

/// A slow one that writes x2; one that reads x2 and x1; two that write x1.
fn operation_at(number: u64, address: u64) -> Op {
    let op = |text, class| Op::new(address, text, class, ()).with_length(4);
    match number {
        0 => op("mul x2", Class::Multiply).writing("x2"),
        1 => op("use x2, x1", Class::Store)
            .reading(["x2", "x1"].map(String::from))
            .atomic(),
        _ => op("set x1", Class::Alu).writing("x1"),
    }
}

/// The engine, and how many operations it was given.
struct Run {
    engine: Engine,
    fetched: u64,
}

impl Run {
    fn advance(&mut self) {
        let invited = self.engine.advance(None);
        if let Some(address) = invited
            && self.fetched < 4
        {
            self.engine.fetched(operation_at(self.fetched, address));
            self.fetched += 1;
        }
    }

    fn run(&mut self, cycles: usize) {
        for _ in 0..cycles {
            if let Some(op) = self.engine.start_cycle() {
                self.engine.retire(&op);
            }
            self.advance();
        }
    }
}

fn main() {
    let engine = Engine::new(machine(), 0);
    let mut all = Run { engine, fetched: 0 };
    fixed(&all.engine);
    all.engine.set_enabled(true);
    show("idle", &all.engine);
    all.run(5);
    show("evicted", &all.engine);
    all.run(1);
    all.engine.set_capacity(0, 2);
    show("noted", &all.engine);
    all.run(1);
    let offer = all.engine.start_cycle().expect("the offer");
    show("offer", &all.engine);
    all.engine.retire(&offer);
    all.advance();
    all.run(2);
    all.engine.halt();
    show("halted", &all.engine);
    all.engine.redirect(64);
    show("built", &all.engine);
}
