//! The Rust behind a list of bytes with as little around it as can be, to measure it: each record is
//! read once, nothing is checked or followed, and answers go to a buffer that is there. It plays
//! start, retire, advance, fetch and overlap.

use crate::call::Machine;
use crate::capability::{PipelineControl, PipelineInstructionClass as Class};
use crate::decode::Reader;
use crate::layout::{CALLS, HEAD, MACHINE};
use crate::pipeline::{PipelineOp, ooo::ScoreboardPipeline};
use crate::refuse::{NAME, SOURCES, TEXT, WRITES};
use crate::shape::shape;

pub type Engine = ScoreboardPipeline<u64>;

pub fn engine(machine: &Machine) -> Engine {
    ScoreboardPipeline::new(shape(machine), machine.entry)
}

/// Only for a list of those calls in which none is refused. `out` is all 0.
pub fn play(list: &[u8], out: &mut [u8]) -> u64 {
    let machine = Reader::new(list).machine().expect("of its form");
    let mut engine = engine(&machine);
    let mut offer: Option<PipelineOp<u64>> = None;
    let mut at = MACHINE;
    let mut end = HEAD;
    let mut calls: u64 = 0;
    while at < list.len() {
        let row = &CALLS[list[at] as usize];
        let record = &list[at + 1..at + row.size];
        let answer = &mut out[end..end + row.answered];
        match list[at] {
            0 => {
                offer = engine.start_cycle();
                if let Some(op) = &offer {
                    lay_offer(op, answer);
                }
            }
            1 => engine.retire(offer.as_ref().expect("an offer")),
            4 => {
                let redirect = (record[0] == 1).then(|| number(&record[1..]));
                if let Some(address) = engine.advance(redirect) {
                    answer[1] = 1;
                    answer[2..10].copy_from_slice(&address.to_le_bytes());
                }
            }
            5 => engine.fetched(operation(record)),
            7 => engine.set_enabled(record[0] == 1),
            byte => panic!("{byte} is not for measuring"),
        }
        calls += 1;
        at += row.size;
        end += row.answered;
    }
    out[1..9].copy_from_slice(&calls.to_le_bytes());
    out[9..17].copy_from_slice(&(end as u64).to_le_bytes());
    end as u64
}

fn number(bytes: &[u8]) -> u64 {
    u64::from_le_bytes(bytes[..8].try_into().expect("eight"))
}

fn lay_offer(op: &PipelineOp<u64>, answer: &mut [u8]) {
    answer[1] = 1;
    answer[2..10].copy_from_slice(&op.seq().to_le_bytes());
    answer[10..18].copy_from_slice(&op.address.to_le_bytes());
    answer[18..26].copy_from_slice(&op.length.to_le_bytes());
    answer[26] = op.class as u8;
    answer[27] = u8::from(op.branch);
    answer[28] = u8::from(op.atomic);
    answer[29..37].copy_from_slice(&op.predicted_next().to_le_bytes());
    answer[37..45].copy_from_slice(&op.payload.to_le_bytes());
}

/// A text of at most `most` bytes, and what stands after it.
fn text(record: &[u8], most: usize) -> (String, &[u8]) {
    let length = record[0] as usize;
    let text = str::from_utf8(&record[1..1 + length]).expect("printable");
    (text.to_owned(), &record[1 + most..])
}

fn optional(record: &[u8], most: usize) -> (Option<String>, &[u8]) {
    if record[0] == 1 {
        let (value, rest) = text(&record[1..], most);
        (Some(value), rest)
    } else {
        (None, &record[2 + most..])
    }
}

fn names(record: &[u8], most: usize) -> (Vec<String>, &[u8]) {
    let each = record[1..].chunks_exact(1 + NAME);
    let names = each.take(record[0] as usize);
    let names = names.map(|name| text(name, NAME).0).collect();
    (names, &record[1 + most * (1 + NAME)..])
}

fn operation(record: &[u8]) -> PipelineOp<u64> {
    let class = Class::ALL[record[16] as usize];
    let (disassembly, rest) = text(&record[27..], TEXT);
    let mut op = PipelineOp::new(number(record), disassembly, class, number(&record[19..]));
    op.length = number(&record[8..]);
    op.branch = record[17] == 1;
    op.atomic = record[18] == 1;
    let (fault, rest) = optional(rest, TEXT);
    let (destination, rest) = optional(rest, NAME);
    let (sources, rest) = names(rest, SOURCES);
    let (writes, _) = names(rest, WRITES);
    op.fault = fault;
    op.destination = destination;
    op.sources = sources;
    op.writes = writes;
    op
}
