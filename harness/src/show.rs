//! Answers as text, for a reader.

use std::fmt::Write as _;

use crate::call::Call;
use crate::layout::{Answer, CALLS, byte_of};

const SLOT: &[(&str, usize)] = &[
    ("slot", 1),
    ("address", 8),
    ("class", 1),
    ("bubble", 1),
    ("speculative", 1),
    ("predicted taken", 1),
    ("hazard there", 1),
    ("hazard", 1),
    ("atomic", 1),
    ("cycles", 1),
];

/// The parts of an answer after its first byte, and their sizes.
fn parts(answer: Answer) -> Vec<(&'static str, usize)> {
    let with_slot = |before: &[(&'static str, usize)], after: &[(&'static str, usize)]| {
        [before, SLOT, after].concat()
    };
    let operand = [("operand", 1), ("register", 1), ("owed", 1), ("by unit", 1)];
    match answer {
        Answer::Done => vec![],
        Answer::Offer => vec![
            ("offer", 1),
            ("number", 8),
            ("address", 8),
            ("length", 8),
            ("class", 1),
            ("branch", 1),
            ("atomic", 1),
            ("predicted next", 8),
            ("payload", 8),
        ],
        Answer::Address => vec![("there", 1), ("address", 8)],
        Answer::Status => vec![
            ("enabled", 1),
            ("sequential", 1),
            ("halted", 1),
            ("faulted", 1),
        ],
        Answer::Counters => [
            "cycles",
            "committed",
            "stalls",
            "RAW",
            "load-use",
            "branch",
            "unit busy",
            "memory",
            "WAW",
            "WAR",
            "flushes",
            "branches",
        ]
        .map(|name| (name, 8))
        .to_vec(),
        Answer::Flag => vec![("flag", 1)],
        Answer::Number => vec![("number", 8)],
        Answer::Edges | Answer::Stages => vec![],
        Answer::Stage => with_slot(&[("there", 1), ("role", 1)], &[]),
        Answer::Kind => with_slot(
            &[("there", 1), ("capacity", 8), ("active", 8)],
            &[("latency class", 1), ("latency", 1)],
        ),
        Answer::Wait => vec![("there", 1), ("kind", 1), ("from", 1), ("to", 1)],
        Answer::Row => vec![
            ("there", 1),
            ("id", 8),
            ("address", 8),
            ("class", 1),
            ("first cycle", 8),
            ("cells", 1),
            ("atomic", 1),
        ],
        Answer::Station => with_slot(
            &[("there", 1), ("kind", 1), ("tag there", 1), ("tag", 1)],
            &[&[("phase", 1)], &operand[..], &operand[..]].concat(),
        ),
        Answer::Claim => vec![("there", 1), ("register", 1), ("by unit", 1)],
        Answer::Slot => SLOT.to_vec(),
        Answer::Cell => vec![("there", 1), ("label", 1), ("state", 1), ("role", 1)],
        Answer::Text => vec![("there", 1), ("length", 8)],
    }
}

/// An answer's bytes in words.
pub fn answer(call: &Call, bytes: &[u8]) -> String {
    let mut text = match bytes[0] {
        0 => String::from("taken"),
        number => format!("refused {number}"),
    };
    let mut at = 1;
    for (name, size) in parts(CALLS[byte_of(call) as usize].answer) {
        let mut number = [0; 8];
        number[..size].copy_from_slice(&bytes[at..at + size]);
        let _ = write!(text, ", {name} {}", u64::from_le_bytes(number));
        at += size;
    }
    if at < bytes.len() {
        let _ = write!(text, ", bytes \"{}\"", bytes[at..].escape_ascii());
    }
    text
}
