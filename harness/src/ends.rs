//! Lists at the ends of the form: one of each call, cut at every byte and with every byte changed;
//! machines at each limit and past it; the longest room for a text, the longest list, and one more.

use crate::call::{Call, Field, Given, Kind, Machine, Place, Request, View};
use crate::capability::{PipelineInstructionClass as Class, PipelineStageRole as Role};
use crate::encode;
use crate::layout::{CALLS, LIST, MACHINE};
use crate::rng::Rng;
use crate::trial::Trial;

/// Two kinds, three units, a queue of 2, two rows.
pub fn machine() -> Machine {
    let kind = |name: &[u8], classes: &[Class], capacity| Kind {
        name: name.to_vec(),
        classes: classes.to_vec(),
        latency_class: Class::Alu,
        capacity,
    };
    Machine {
        stages: vec![Role::Fetch, Role::Decode, Role::Execute],
        instruction_bytes: None,
        extras: [0, 2, 19, 0, 0, 9, 4],
        kinds: vec![kind(b"MUL", &[Class::Multiply], 1), kind(b"EX", &[], 2)],
        history: 2,
        entry: 0,
        lent: 400,
    }
}

/// An operation that reads x1 and writes x2.
pub fn operation() -> Given {
    Given {
        address: 16,
        size: 4,
        class: Class::Multiply,
        branch: false,
        atomic: false,
        text: b"mul x2, x1".to_vec(),
        fault: Some(b"note".to_vec()),
        destination: Some(b"x2".to_vec()),
        sources: vec![b"x1".to_vec()],
        writes: vec![b"x2".to_vec()],
        payload: 5,
    }
}

/// A call for each byte, in an order in which most are taken.
pub fn one_of_each() -> Vec<Call> {
    let mut calls = vec![
        Call::Overlap(true),
        Call::Capacity(1, 3),
        Call::Start,
        Call::Advance(None, 400),
        Call::Fetch(operation(), 400),
        Call::Start,
        Call::Retire,
        Call::Retry(b"later".to_vec()),
        Call::Resolve(20),
        Call::Advance(Some(64), 400),
        Call::Text(Request::StatusMessage, 6),
    ];
    calls.extend(views().map(Call::View));
    calls.push(Call::Cell(0, 0, 400));
    calls.extend(requests().map(|request| Call::Text(request, 12)));
    calls.extend([
        Call::Halt,
        Call::Fault(b"broken".to_vec()),
        Call::Redirect(8),
        Call::Reset(0, 400),
    ]);
    calls
}

/// Case W of document 01: a multiply that writes x2, one that reads x2 and x1, one that writes x1.
pub fn case_w() -> (Machine, Vec<Call>) {
    let mut machine = machine();
    machine.extras = [0, 2, 0, 0, 0, 0, 0];
    machine.kinds = vec![Kind {
        name: b"EX".to_vec(),
        classes: Vec::new(),
        latency_class: Class::Alu,
        capacity: 3,
    }];
    machine.history = 3;
    machine.lent = 600;
    let op = |at: u64, class, text: &[u8], reads: &[&[u8]], writes: &[&[u8]]| Given {
        address: 4 * at,
        class,
        text: text.to_vec(),
        fault: None,
        destination: None,
        sources: reads.iter().map(|name| name.to_vec()).collect(),
        writes: writes.iter().map(|name| name.to_vec()).collect(),
        payload: at,
        ..operation()
    };
    let mut operations = [
        op(0, Class::Multiply, b"a", &[], &[b"x2"]),
        op(1, Class::Alu, b"b", &[b"x2", b"x1"], &[]),
        op(2, Class::Alu, b"c", &[], &[b"x1"]),
    ]
    .into_iter();
    let mut calls = vec![Call::Overlap(true)];
    for cycle in 1..=13 {
        calls.push(Call::Start);
        if [8, 11, 12].contains(&cycle) {
            calls.push(Call::Retire);
        }
        calls.push(Call::Advance(None, 600));
        calls.extend(operations.next().map(|given| Call::Fetch(given, 600)));
    }
    (machine, calls)
}

fn views() -> [View; 26] {
    [
        View::Status,
        View::Stats,
        View::Enabled,
        View::FetchPc,
        View::ResumePc,
        View::StageCount,
        View::Edges,
        View::EntryStages,
        View::StageOrder,
        View::UnitCount,
        View::TraceCount,
        View::TimelineLen,
        View::StationCount,
        View::RenameCount,
        View::QueueCount,
        View::BufferCount,
        View::BufferCapacity,
        View::InFlightBefore(1),
        View::Stage(1),
        View::Unit(0),
        View::Trace(0),
        View::TimelineRow(0),
        View::Station(0),
        View::Rename(0),
        View::Queued(0),
        View::BufferEntry(0),
    ]
}

fn requests() -> [Request; 9] {
    [
        Request::Slot(Place::Station(0), Field::Write(0)),
        Request::TraceDetail(0),
        Request::RowDisassembly(0),
        Request::StageName(2),
        Request::UnitName(0),
        Request::StationLabel(1),
        Request::RenameRegister(0),
        Request::CellLabel(8),
        Request::OperandRegister(0, 0),
    ]
}

/// All of them, some 18,000.
pub fn trials(seed: u64) -> impl Iterator<Item = (String, Trial)> {
    let list = encode::list(&machine(), &one_of_each());
    let trial = |name: String, list: Vec<u8>| {
        let trial = Trial {
            list,
            cells: 400,
            spare: 0,
        };
        (name, trial)
    };
    let whole = list.clone();
    let cuts = (0..=list.len()).map(move |at| (format!("cut at {at}"), whole[..at].to_vec()));
    let mut rng = Rng::new(seed);
    let changes = (0..list.len()).flat_map(move |at| {
        let other = rng.below(256) as u8;
        let list = list.clone();
        [0, 1, 2, 8, 10, 17, 49, 65, 255, other].map(move |byte| {
            let mut changed = list.clone();
            changed[at] = byte;
            (format!("byte {at} changed to {byte}"), changed)
        })
    });
    let longest = [
        ("the longest list", LIST),
        ("a byte more", LIST + 1),
        ("a byte less", LIST - 1),
    ];
    let longest = longest.map(|(name, size)| (name.to_string(), long(size)));
    let empty = [("nothing at all".to_string(), Vec::new())];
    let all = empty.into_iter().chain(cuts).chain(changes).chain(longest);
    let all = all.chain(rooms()).chain(machines());
    all.map(move |(name, list)| trial(name, list))
}

/// The longest room for each text, and one more.
fn rooms() -> impl Iterator<Item = (String, Vec<u8>)> {
    let texts = requests().into_iter().chain([Request::StatusMessage]);
    texts.flat_map(|request| {
        [65_535, 65_536, 1 << 32, u64::MAX].map(|room| {
            let call = Call::Text(request, room);
            let list = encode::list(&machine(), &[Call::Halt, call]);
            (format!("{request:?} with room {room}"), list)
        })
    })
}

/// Machines at each limit and past it, alone and two at a time.
fn machines() -> impl Iterator<Item = (String, Vec<u8>)> {
    let limits = limits();
    let pairs = (0..limits.len()).flat_map(|a| (a..limits.len()).map(move |b| (a, b)));
    let pairs: Vec<_> = pairs.collect();
    pairs.into_iter().map(move |(a, b)| {
        let mut machine = machine();
        limits[a](&mut machine);
        limits[b](&mut machine);
        let list = encode::list(&machine, &one_of_each());
        (format!("limits {a} and {b}"), list)
    })
}

type Limit = Box<dyn Fn(&mut Machine)>;

fn limits() -> Vec<Limit> {
    let mut list: Vec<Limit> = Vec::new();
    for history in [0, 1, 2, 3, 255, 256, 257, 1 << 32, u64::MAX] {
        list.push(Box::new(move |machine| machine.history = history));
    }
    for lent in [0, 199, 200, 399, 400] {
        list.push(Box::new(move |machine| machine.lent = lent));
    }
    for count in [0, 1, 15, 16, 17, 255] {
        list.push(Box::new(move |machine| {
            machine.stages.resize(count, Role::Other);
        }));
        list.push(Box::new(move |machine| {
            let kind = machine.kinds.last().cloned();
            let kind = kind.unwrap_or_else(|| crate::ends::machine().kinds[0].clone());
            machine.kinds.resize(count, kind);
        }));
    }
    for capacity in [0, 48, 62, 63, 64, 65, 1 << 63, u64::MAX] {
        list.push(Box::new(move |machine| {
            if let Some(kind) = machine.kinds.first_mut() {
                kind.capacity = capacity;
            }
        }));
    }
    for name in [
        &b""[..],
        b"12345678",
        b"123456789",
        b" ",
        b"\x1f",
        b"~",
        b"\x7f",
        b"a\0",
    ] {
        list.push(Box::new(move |machine| {
            if let Some(kind) = machine.kinds.last_mut() {
                kind.name = name.to_vec();
            }
        }));
    }
    for at in 0..7 {
        list.push(Box::new(move |machine| machine.extras[at] = u64::MAX));
        list.push(Box::new(move |machine| machine.extras[at] = u64::MAX - 1));
    }
    list
}

/// A list of so many bytes: fetches that are refused, and starts.
fn long(size: usize) -> Vec<u8> {
    let mut list = encode::list(&machine(), &[]);
    let fetch = encode::call(&Call::Fetch(operation(), 400));
    while list.len() + fetch.len() <= size {
        list.extend(&fetch);
    }
    list.resize(size, 0);
    assert!(list.len() >= MACHINE && CALLS[0].size == 1);
    list
}
