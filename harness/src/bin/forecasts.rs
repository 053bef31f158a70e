//! The forecast of each file of a folder, by the Rust engine: the file's name, then what is printed; refused input last.
//!
//! Lines are read and refused as document 01 says; the engine that runs them is the Rust.
//! crates/sequences/stdout is its output over that crate's data/:
//! cargo run --release --manifest-path harness/Cargo.toml --bin forecasts crates/sequences/data >crates/sequences/stdout

include!(concat!(env!("OUT_DIR"), "/raven.rs"));

use std::{
    collections::HashSet,
    env,
    ffi::OsStr,
    fs,
    io::{self, Write},
};

use capability::{
    PipelineControl, PipelineInspect, PipelineInstructionClass as Class, PipelineStageRole as Role,
    PipelineTimelineState as State,
};
use pipeline::{
    PipelineOp, PipelineShape, PipelineTiming, StageSpec, UnitSpec, ooo::ScoreboardPipeline,
};

type Engine = ScoreboardPipeline<()>;
type Bytes = Vec<u8>;

const BAD_TEXT: u8 = 2;
const OPERANDS: u8 = 9;
const NAMES_FULL: u8 = 10;
const UNREADABLE: u8 = 14;

/// EX of capacity 2, depth 2, history 256, default timing, no fixed length.
fn machine() -> PipelineShape {
    let stages = vec![
        StageSpec::new("IF", Role::Fetch),
        StageSpec::new("ID", Role::Decode),
        StageSpec::new("EX", Role::Execute),
    ];
    let units = vec![UnitSpec::new("EX", &[], Class::Alu).with_capacity(2)];
    PipelineShape::scalar(stages.leak(), None)
        .with_units(units.leak())
        .with_timing(PipelineTiming::default())
        .with_history(256)
}

struct Line {
    class: Class,
    length: u64,
    reads: Vec<Bytes>,
    writes: Vec<Bytes>,
    text: Bytes,
}

fn class(word: &[u8]) -> Option<Class> {
    Some(match word {
        b"A" => Class::Alu,
        b"M" => Class::Multiply,
        b"D" => Class::Divide,
        b"L" => Class::Load,
        b"S" => Class::Store,
        b"B" => Class::Branch,
        b"J" => Class::Jump,
        b"Y" => Class::System,
        b"F" => Class::FloatingPoint,
        b"U" => Class::Unknown,
        _ => return None,
    })
}

fn length(word: &[u8]) -> Option<u64> {
    (1..=15).find(|number: &u64| number.to_string().as_bytes() == word)
}

/// Nonempty names with commas, or `-`.
fn list(word: &[u8]) -> Option<Vec<Bytes>> {
    if word == b"-" {
        return Some(Vec::new());
    }
    word.split(|byte| *byte == b',')
        .map(|name| (!name.is_empty()).then(|| name.to_vec()))
        .collect()
}

/// Four words, each followed by a space; the rest is text.
fn parse(line: &[u8]) -> Option<Line> {
    let parts: Vec<&[u8]> = line.splitn(5, |byte| *byte == b' ').collect();
    let [first, second, third, fourth, text] = parts[..] else {
        return None;
    };
    Some(Line {
        class: class(first)?,
        length: length(second)?,
        reads: list(third)?,
        writes: list(fourth)?,
        text: text.to_vec(),
    })
}

fn readable(bytes: &[u8], most: usize) -> bool {
    bytes.len() <= most && bytes.iter().all(|byte| (0x20..=0x7E).contains(byte))
}

/// A fetch's own checks, in document 01's order. No name is ever forgotten here, as nothing is dropped from the queue.
fn refusal(line: &Line, held: &HashSet<Bytes>) -> Option<u8> {
    let names = || line.reads.iter().chain(&line.writes);
    let first = || line.reads.iter().take(8).chain(line.writes.iter().take(4));
    if !readable(&line.text, 64) || !first().all(|name| readable(name, 16)) {
        Some(BAD_TEXT)
    } else if line.reads.len() > 8 || line.writes.len() > 4 {
        Some(OPERANDS)
    } else if held.iter().chain(names()).collect::<HashSet<_>>().len() > 256 {
        Some(NAMES_FULL)
    } else {
        None
    }
}

fn said(bytes: Bytes) -> String {
    String::from_utf8(bytes).expect("checked")
}

fn operation(line: Line, address: u64) -> PipelineOp<()> {
    let branches = matches!(line.class, Class::Branch | Class::Jump);
    let mut op = PipelineOp::new(address, said(line.text), line.class, ())
        .with_length(line.length)
        .reading(line.reads.into_iter().map(said));
    for name in line.writes {
        op = op.also_writes(said(name));
    }
    if branches { op.branching() } else { op }
}

/// An engine, the input that is left, and what was taken of it.
struct Run<'a> {
    engine: Engine,
    left: &'a [u8],
    lines: usize,
    retired: usize,
    held: HashSet<Bytes>,
}

impl<'a> Run<'a> {
    fn next_line(&mut self) -> &'a [u8] {
        let end = self.left.iter().position(|byte| *byte == b'\n');
        let line = &self.left[..end.unwrap_or(self.left.len())];
        self.left = end.map_or(&[], |end| &self.left[end + 1..]);
        self.lines += 1;
        line
    }

    fn take(&mut self, address: u64) -> Result<(), u8> {
        let line = parse(self.next_line()).ok_or(UNREADABLE)?;
        if let Some(number) = refusal(&line, &self.held) {
            return Err(number);
        }
        self.held
            .extend(line.reads.iter().chain(&line.writes).cloned());
        self.engine.fetched(operation(line, address));
        Ok(())
    }

    fn cycle(&mut self) -> Result<(), u8> {
        if let Some(op) = self.engine.start_cycle() {
            self.engine.retire(&op);
            self.retired += 1;
        }
        match self.engine.advance(None) {
            Some(address) if !self.left.is_empty() => self.take(address),
            _ => Ok(()),
        }
    }

    /// Until the lines are used up and nothing is in flight.
    fn to_the_end(&mut self) -> Result<(), u8> {
        while !(self.left.is_empty() && self.retired == self.lines) {
            self.cycle()?;
        }
        Ok(())
    }

    /// Row ids count the fetches; the rows held are the last ones.
    fn print(&self, out: &mut impl Write) -> io::Result<()> {
        let rows = self.engine.timeline_len();
        for index in 0..rows {
            let row = self.engine.timeline_row(index).expect("counted");
            write!(out, "{} {}", self.lines - rows + index, row.first_cycle)?;
            for at in 0..row.cells {
                let cell = self.engine.timeline_cell(index, at).expect("counted");
                let stalled = if cell.state == State::Stalled {
                    "*"
                } else {
                    ""
                };
                write!(out, " {}{stalled}", cell.label)?;
            }
            writeln!(out)?;
        }
        let stats = self.engine.stats();
        let (cycles, committed, stalls) = (stats.cycles, stats.committed, stats.stalls);
        writeln!(out, "cycles {cycles} committed {committed} stalls {stalls}")
    }
}

fn forecast(input: &[u8], out: &mut impl Write) -> io::Result<()> {
    if input.len() > 65_536 {
        return writeln!(out, "line 0 refused {UNREADABLE}");
    }
    let mut engine = Engine::new(machine(), 0);
    engine.set_enabled(true);
    let mut run = Run {
        engine,
        left: input,
        lines: 0,
        retired: 0,
        held: HashSet::new(),
    };
    match run.to_the_end() {
        Ok(()) => run.print(out),
        Err(number) => writeln!(out, "line {} refused {number}", run.lines),
    }
}

/// Files whose input is refused come last.
fn is_refused(name: &OsStr) -> bool {
    name.as_encoded_bytes().starts_with(b"refused")
}

fn main() -> io::Result<()> {
    let folder = env::args().nth(1).expect("usage: forecasts FOLDER");
    let mut files: Vec<_> = fs::read_dir(folder)?.collect::<Result<_, _>>()?;
    files.sort_by_key(|file| (is_refused(&file.file_name()), file.file_name()));
    let mut out = io::BufWriter::new(io::stdout().lock());
    for file in files {
        writeln!(out, "{}", file.file_name().display())?;
        forecast(&fs::read(file.path())?, &mut out)?;
    }
    out.flush()
}
