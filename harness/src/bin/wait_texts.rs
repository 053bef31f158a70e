//! The texts that the Rust shows: each wait, the stations' labels, an operation's own text.
//!
//! crates/wait_texts/stdout is its output, a line for each text, in the order of that crate's `main`:
//! cargo run --release --manifest-path harness/Cargo.toml --bin wait_texts >crates/wait_texts/stdout

include!(concat!(env!("OUT_DIR"), "/raven.rs"));

use capability::{
    PipelineControl, PipelineDynamicInspect, PipelineHazardKind as Hazard, PipelineInspect,
    PipelineInstructionClass as Class, PipelineStageRole as Role, PipelineTraceKind,
};
use pipeline::{
    PipelineOp, PipelineShape, PipelineTiming, StageSpec, UnitSpec, ooo::ScoreboardPipeline,
};

type Engine = ScoreboardPipeline<()>;
type Op = PipelineOp<()>;

/// A wait's kind and its two stages.
type Wait = (Hazard, usize, usize);

const OVERWRITES: Wait = (Hazard::WriteAfterRead, 2, 4);
const WRITE_ORDER: Wait = (Hazard::FunctionalUnitBusy, 2, 4);
const WAITS_FOR: Wait = (Hazard::ReadAfterWrite, 3, 1);
const BEHIND_BRANCH: Wait = (Hazard::BranchFlush, 1, 0);
const ISSUE_BUSY: Wait = (Hazard::FunctionalUnitBusy, 1, 0);
const STILL_WRITES: Wait = (Hazard::WriteAfterWrite, 1, 0);
const REDIRECT_TO: Wait = (Hazard::BranchFlush, 4, 0);

/// A queue two deep; multiply and store are slow, all else takes one cycle.
fn engine(kinds: Vec<UnitSpec>) -> Engine {
    let stages = vec![
        StageSpec::new("IF", Role::Fetch),
        StageSpec::new("ID", Role::Decode),
        StageSpec::new("EX", Role::Execute),
    ];
    let mut timing = PipelineTiming::single_cycle();
    timing.mul = 9;
    timing.store = 9;
    let shape = PipelineShape::scalar(stages.leak(), Some(4))
        .with_units(kinds.leak())
        .with_timing(timing);
    let mut engine = Engine::new(shape, 0);
    engine.set_enabled(true);
    engine
}

/// Four units that take every class.
fn wide() -> Engine {
    engine(vec![UnitSpec::new("EX", &[], Class::Alu).with_capacity(4)])
}

fn op(text: &str, class: Class) -> Op {
    Op::new(0, text, class, ())
}

/// The text of the first entry of the wait list with this kind and these stages.
fn listed(engine: &Engine, wait: Wait) -> Option<String> {
    let (kind, from, to) = wait;
    (0..engine.trace_count())
        .filter_map(|index| engine.trace(index))
        .find(|trace| {
            trace.kind == PipelineTraceKind::Hazard(kind)
                && (trace.from_stage, trace.to_stage) == (from, to)
        })
        .map(|trace| trace.detail.to_string())
}

/// Plays the operations in order, each as soon as it is invited, until the wait is listed.
fn first(mut engine: Engine, ops: Vec<Op>, wait: Wait) -> String {
    let mut ops = ops.into_iter();
    for _ in 0..40 {
        if let Some(done) = engine.start_cycle() {
            engine.retire(&done);
        }
        let invited = engine.advance(None);
        if let Some(text) = listed(&engine, wait) {
            return text;
        }
        if invited.is_some()
            && let Some(op) = ops.next()
        {
            engine.fetched(op);
        }
    }
    panic!("the wait did not come");
}

/// The producer is gone only where the capacity changed during its offer: the Rust then keeps its claim.
fn older(mine: &str, register: &str) -> String {
    let mut engine = engine(vec![
        UnitSpec::new("ALU", &[Class::Alu], Class::Alu),
        UnitSpec::new("EX", &[], Class::Multiply),
    ]);
    engine.fetched(op("set", Class::Alu).writing(register));
    loop {
        if let Some(done) = engine.start_cycle() {
            engine.set_capacity(0, 1);
            engine.retire(&done);
            engine.advance(None);
            break;
        }
        engine.advance(None);
    }
    let reader = op(mine, Class::Multiply).reading([register.to_string()]);
    first(engine, vec![reader], WAITS_FOR)
}

/// The waits whose texts have words of operations.
fn words(mine: &str, register: &str, other: &str) {
    let spare = "a spare register";
    assert_ne!(register, spare);
    let lines = [
        first(
            wide(),
            vec![
                op("slow", Class::Multiply).writing(spare),
                op(other, Class::Alu).reading([spare, register].map(String::from)),
                op(mine, Class::Alu).writing(register),
            ],
            OVERWRITES,
        ),
        first(
            wide(),
            vec![op(other, Class::Store), op(mine, Class::Load)],
            WRITE_ORDER,
        ),
        first(
            wide(),
            vec![op("slow", Class::Multiply), op(mine, Class::System)],
            WRITE_ORDER,
        ),
        first(
            wide(),
            vec![
                op(other, Class::Multiply).writing(register),
                op(mine, Class::Alu).reading([register.to_string()]),
            ],
            WAITS_FOR,
        ),
        older(mine, register),
        first(
            wide(),
            vec![op("jump", Class::Branch).branching(), op(mine, Class::Alu)],
            BEHIND_BRANCH,
        ),
        first(
            wide(),
            vec![op("call", Class::System), op(mine, Class::Alu)],
            ISSUE_BUSY,
        ),
        first(
            wide(),
            vec![
                op("slow", Class::Multiply).writing(register),
                op(mine, Class::Alu).writing(register),
            ],
            STILL_WRITES,
        ),
    ];
    for line in lines {
        println!("{line}");
    }
}

fn all_busy(kind: &'static str) {
    let machine = engine(vec![UnitSpec::new(kind, &[], Class::Alu)]);
    let ops = vec![op("slow", Class::Multiply), op("add", Class::Alu)];
    println!("{}", first(machine, ops, ISSUE_BUSY));
}

fn redirect(target: u64) {
    let mut engine = wide();
    engine.start_cycle();
    engine.advance(Some(target));
    println!("{}", listed(&engine, REDIRECT_TO).expect("the redirect"));
}

/// The label of a kind's unit, counted from 0.
fn label(kind: &'static str, number: usize) {
    let kinds = vec![UnitSpec::new(kind, &[], Class::Alu).with_capacity(number + 1)];
    let engine = engine(kinds);
    println!("{}", engine.station(number).expect("the unit").name);
}

/// An operation's text, as its row of the timeline shows it.
fn text(text: &str) {
    let mut engine = wide();
    engine.fetched(op(text, Class::Alu));
    println!("{}", engine.timeline_row(0).expect("the row").disassembly);
}

const LONG: &str = "abcdefghijklmnopqrstuvwxyzABCDEFGHIJKLMNOPQRSTUVWXYZ0123456789_-";
const LONG_NAME: &str = "sixteen_letters_";

fn main() {
    words("mul x5, x6", "x1", "add x1, x2");
    words("  sub  x9", "r", "   ");
    words("", LONG_NAME, "div");
    words("?", "", "   st 0(x2)   ");
    words("~!", "x 1", "");
    words(LONG, LONG_NAME, LONG);
    for kind in ["M", "EX", "LOAD/ST8"] {
        all_busy(kind);
    }
    for target in [0, 9, 10, 15, 16, 255, 0x1234_5678_9ABC_DEF0, u64::MAX] {
        redirect(target);
    }
    for number in [0, 9, 10, 63] {
        label("EX", number);
    }
    label("LOAD/ST8", 63);
    label("M", 100_000);
    for line in ["", "  add  x1, x2 ", LONG] {
        text(line);
    }
}
