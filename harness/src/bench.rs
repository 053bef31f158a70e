//! Nanoseconds for each simulated cycle: `calls_play` and the Rust (bare.rs), from one list.

use std::process::ExitCode;

use crate::bare;
use crate::call::{Call, Given, Kind, Machine};
use crate::capability::{PipelineControl, PipelineInstructionClass as Class};
use crate::capability::{PipelineInspect, PipelineStageRole as Role};
use crate::decode::totals;
use crate::encode;
use crate::ours::Ours;
use crate::pipeline::PipelineOp;
use crate::shape::string;

/// The thread's own processor time, in nanoseconds: the machine may be shared.
fn now() -> u64 {
    #[repr(C)]
    struct Time(i64, i64);
    unsafe extern "C" {
        fn clock_gettime(clock: i32, time: *mut Time) -> i32;
    }
    let mut time = Time(0, 0);
    // SAFETY: it writes the two numbers; 3 is CLOCK_THREAD_CPUTIME_ID.
    unsafe { clock_gettime(3, &mut time) };
    time.0 as u64 * 1_000_000_000 + time.1 as u64
}

/// The machine of `forecast`, with so many units and rows.
pub fn machine(units: u64, history: u64) -> Machine {
    Machine {
        stages: vec![Role::Fetch, Role::Decode, Role::Execute],
        instruction_bytes: None,
        extras: [0, 2, 19, 0, 0, 9, 4],
        kinds: vec![kind("EX", &[], units)],
        history,
        entry: 0,
        lent: 200 * history,
    }
}

fn kind(name: &str, classes: &[Class], capacity: u64) -> Kind {
    Kind {
        name: name.as_bytes().to_vec(),
        classes: classes.to_vec(),
        latency_class: Class::Alu,
        capacity,
    }
}

/// 16 kinds of 4 units; each class has its own first kind.
fn mixed_machine() -> Machine {
    let kinds = (0..16).map(|at| {
        let class = Class::ALL.get(at).copied();
        kind(&format!("K{at}"), class.as_slice(), 4)
    });
    Machine {
        kinds: kinds.collect(),
        ..machine(1, 256)
    }
}

fn operation(class: Class, reads: &[u64], writes: &[u64]) -> Given {
    let name = |at: &u64| format!("x{at}").into_bytes();
    Given {
        address: 0,
        size: 4,
        class,
        branch: false,
        atomic: false,
        text: b"add x1, x2, x3".to_vec(),
        fault: None,
        destination: writes.first().map(name),
        sources: reads.iter().map(name).collect(),
        writes: writes.iter().map(name).collect(),
        payload: 0,
    }
}

/// Each reads what the one before writes.
fn dependent(class: Class, names: u64) -> Vec<Given> {
    let each = (0..names).map(|at| operation(class, &[at], &[(at + 1) % names]));
    each.collect()
}

/// None waits for another: the lower half of the names is written, the upper half read.
pub fn independent(names: u64) -> Vec<Given> {
    let half = names / 2;
    let each = (0..half).map(|at| operation(Class::Alu, &[half + at], &[at]));
    each.collect()
}

/// Classes and registers of a program that fills the units, without branches.
fn mixed() -> Vec<Given> {
    let classes = [
        Class::Divide,
        Class::FloatingPoint,
        Class::Multiply,
        Class::Alu,
        Class::Load,
        Class::Store,
        Class::Unknown,
        Class::Divide,
    ];
    let each = (0..64u64).map(|at| {
        let class = classes[at as usize % 8];
        operation(class, &[at * 5 % 32], &[(at + 7) % 32])
    });
    each.collect()
}

/// 8 reads and 4 writes, through so many names.
fn broad(names: u64) -> Vec<Given> {
    let each = (0..names / 4).map(|at| {
        let reads: Vec<u64> = (0..8).map(|read| (at * 4 + 16 + read) % names).collect();
        let writes: Vec<u64> = (0..4).map(|write| (at * 4 + write) % names).collect();
        operation(Class::Alu, &reads, &writes)
    });
    each.collect()
}

struct Case {
    name: &'static str,
    machine: Machine,
    program: Vec<Given>,
    /// Is there a call of another kind in each cycle?
    other: bool,
}

fn cases() -> Vec<Case> {
    let case = |name, machine, program| Case {
        name,
        machine,
        program,
        other: false,
    };
    let alu = Class::Alu;
    let mut cases = vec![
        case("2 units, dependent", machine(2, 256), dependent(alu, 8)),
        case("2 units, independent", machine(2, 256), independent(16)),
        case("16 kinds, 64 units, mixed", mixed_machine(), mixed()),
        case(
            "64 units, dependent divides",
            machine(64, 256),
            dependent(Class::Divide, 8),
        ),
        case("256 names, 8 reads, 4 writes", machine(2, 256), broad(256)),
        case("history 1, independent", machine(2, 1), independent(16)),
        case("64 units, independent", machine(64, 256), independent(16)),
        case("8 names, dependent", machine(2, 256), dependent(alu, 8)),
        case("256 names, dependent", machine(2, 256), dependent(alu, 256)),
    ];
    cases.push(Case {
        name: "2 units, dependent, overlap set in each cycle",
        machine: machine(2, 256),
        program: dependent(alu, 8),
        other: true,
    });
    cases
}

/// So many cycles: start, retire what is offered, advance, fetch when invited; where asked for, overlap set again before each.
pub fn run(machine: &Machine, program: &[Given], other: bool, cycles: u64) -> Vec<Call> {
    let lent = machine.lent;
    let mut engine = bare::engine(machine);
    engine.set_enabled(true);
    let mut calls = vec![Call::Overlap(true)];
    let mut program = program.iter().cycle();
    for _ in 0..cycles {
        if other {
            calls.push(Call::Overlap(true));
        }
        calls.push(Call::Start);
        if let Some(op) = engine.start_cycle() {
            engine.retire(&op);
            calls.push(Call::Retire);
        }
        calls.push(Call::Advance(None, lent));
        if let Some(address) = engine.advance(None) {
            let mut given = program.next().expect("it goes on").clone();
            given.address = address;
            engine.fetched(op_of(&given));
            calls.push(Call::Fetch(given, lent));
        }
    }
    assert_eq!(engine.stats().cycles, cycles);
    calls
}

fn op_of(given: &Given) -> PipelineOp<u64> {
    let mut op = PipelineOp::new(given.address, string(&given.text), given.class, 0);
    op.length = given.size;
    op.sources = given.sources.iter().map(|name| string(name)).collect();
    op.writes = given.writes.iter().map(|name| string(name)).collect();
    op
}

/// The least and the middle one, for a cycle.
fn figures(times: &mut [u64], cycles: u64) -> (f64, f64) {
    times.sort_unstable();
    let each = |time: u64| time as f64 / cycles as f64;
    (each(times[0]), each(times[times.len() / 2]))
}

/// Prints a table of so many cycles and rounds.
pub fn bench(ours: Ours, cycles: u64, rounds: u64) -> ExitCode {
    if cfg!(debug_assertions) {
        eprintln!("measure what is built without checks: cargo run --profile speed");
        return ExitCode::from(2);
    }
    println!("{cycles} cycles, {rounds} rounds, ns a cycle of the thread's processor time\n");
    println!(
        "| machine and program | ours, best | median | of it form | Rust, best | median | ratio of best | of median |"
    );
    println!("|---|---|---|---|---|---|---|---|");
    for case in cases() {
        measure(ours, &case, cycles, rounds);
    }
    ExitCode::SUCCESS
}

fn measure(ours: Ours, case: &Case, cycles: u64, rounds: u64) {
    let calls = run(&case.machine, &case.program, case.other, cycles);
    let list = encode::list(&case.machine, &calls);
    let totals = totals(&list).expect("of its form");
    let mut cells = vec![0; totals.lent as usize];
    let mut own = vec![0; totals.size];
    let mut rust = vec![0; totals.size];
    let (mut times, mut forms, mut rusts) = (Vec::new(), Vec::new(), Vec::new());
    for _ in 0..rounds {
        let since = now();
        let answer = ours.play(&list, &mut cells, &mut own);
        times.push(now() - since);
        let since = now();
        let size = totals.size - 1;
        assert_eq!(ours.play(&list, &mut cells, &mut own[..size]), 13);
        forms.push(now() - since);
        rust.fill(0);
        let since = now();
        let expected = bare::play(&list, &mut rust);
        rusts.push(now() - since);
        assert_eq!(answer, expected);
        assert!(own == rust, "{}: the answers differ", case.name);
    }
    let (best, middle) = figures(&mut times, cycles);
    let (form, _) = figures(&mut forms, cycles);
    let (rust_best, rust_middle) = figures(&mut rusts, cycles);
    println!(
        "| {} | {best:.0} | {middle:.0} | {form:.0} | {rust_best:.0} | {rust_middle:.0} | {:.2} | {:.2} |",
        case.name,
        best / rust_best,
        middle / rust_middle
    );
}
