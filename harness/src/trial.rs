//! One list given to both players, and where they part.

use crate::decode::Reader;
use crate::layout::{CALLS, HEAD, MACHINE, answer_size};
use crate::ours::Ours;
use crate::reference;
use crate::show;
use crate::tally::Tally;

/// A list, and what is lent with it.
#[derive(Clone)]
pub struct Trial {
    pub list: Vec<u8>,
    pub cells: usize,
    /// Bytes of `out` past those that the answers need; fewer where it is negative.
    pub spare: i64,
}

/// The answers, and the memory after them.
#[derive(PartialEq)]
pub struct After {
    pub answer: u64,
    pub out: Vec<u8>,
    pub cells: Vec<u8>,
}

/// Bytes of memory before a call: not all alike.
fn before(count: usize, from: u8) -> Vec<u8> {
    let bytes = (0..count).map(|at| from.wrapping_add((at % 251) as u8));
    bytes.collect()
}

impl Trial {
    fn room(&self) -> usize {
        let size = crate::decode::totals(&self.list).map_or(HEAD, |totals| totals.size);
        (size as i64 + self.spare).max(0) as usize
    }

    fn play(&self, play: impl FnOnce(&[u8], &mut [u8], &mut [u8]) -> u64) -> After {
        let mut out = before(self.room(), 7);
        let mut cells = before(self.cells, 19);
        let answer = play(&self.list, &mut cells, &mut out);
        After { answer, out, cells }
    }

    /// What the Rust answers, and what ours does.
    pub fn both(&self, ours: Ours, tally: &mut Tally) -> (After, After) {
        let theirs = self.play(|list, cells, out| reference::play(list, cells, out, tally));
        let ours = self.play(|list, cells, out| ours.play(list, cells, out));
        (theirs, ours)
    }

    fn differs(&self, ours: Ours) -> bool {
        let (theirs, ours) = self.both(ours, &mut Tally::default());
        theirs != ours
    }

    /// The machine's bytes and each call's; the last piece may be cut.
    fn pieces(&self) -> Vec<&[u8]> {
        let (machine, mut rest) = self.list.split_at(MACHINE.min(self.list.len()));
        let mut pieces = vec![machine];
        while let Some(first) = rest.first() {
            let size = size_of_call(*first).min(rest.len());
            let (piece, more) = rest.split_at(size);
            pieces.push(piece);
            rest = more;
        }
        pieces
    }

    /// The bytes of the calls that are whole, and of the machine.
    pub fn whole_calls(&self) -> usize {
        let pieces = self.pieces();
        let last = pieces.last().map_or(0, |piece| piece.len());
        let cut = pieces.len() > 1 && last < size_of_call(pieces[pieces.len() - 1][0]);
        self.list.len() - if cut { last } else { 0 }
    }

    fn with(&self, pieces: &[&[u8]]) -> Self {
        Self {
            list: pieces.concat(),
            ..*self
        }
    }

    /// The same difference, or another, with as few calls as leaving some out gives.
    pub fn shrunk(&self, ours: Ours) -> Self {
        let mut best = self.clone();
        let mut part = best.pieces().len().max(2) / 2;
        loop {
            let mut at = 1;
            let mut less = false;
            while at < best.pieces().len() {
                let mut pieces = best.pieces();
                let end = (at + part).min(pieces.len());
                pieces.drain(at..end);
                let smaller = best.with(&pieces);
                if smaller.differs(ours) {
                    best = smaller;
                    less = true;
                } else {
                    at += part;
                }
            }
            if part == 1 && !less {
                return best;
            }
            part = (part / 2).max(1);
        }
    }

    /// The list and where the two part, in words.
    pub fn report(&self, ours: Ours) -> String {
        let (theirs, ours) = self.both(ours, &mut Tally::default());
        let mut lines = vec![format!(
            "list of {} bytes, cells {}, out {}",
            self.list.len(),
            self.cells,
            theirs.out.len()
        )];
        let mut reader = Reader::new(&self.list);
        match reader.machine() {
            Some(machine) => lines.push(format!("{machine:?}")),
            None => lines.push(format!("machine not of its form: {:?}", &self.list)),
        }
        if theirs.answer != ours.answer {
            let both = (theirs.answer, ours.answer);
            lines.push(format!("the Rust answers {}, ours {}", both.0, both.1));
        }
        lines.push(format!("the Rust's head {:?}", head(&theirs)));
        lines.push(format!("ours            {:?}", head(&ours)));
        let mut at = HEAD;
        while !reader.at_end() {
            let from = reader.at;
            let Some(call) = reader.call() else {
                lines.push(format!("not of its form: {:?}", &self.list[from..]));
                break;
            };
            let end = at + answer_size(&call);
            lines.push(format!("    {call:?}"));
            let (a, b) = (theirs.out.get(at..end), ours.out.get(at..end));
            if let (Some(a), Some(b)) = (a, b)
                && a != b
            {
                lines.push(format!("        the Rust: {}", show::answer(&call, a)));
                lines.push(format!("        ours:     {}", show::answer(&call, b)));
            }
            at = end;
        }
        lines.extend(first_difference("out", &theirs.out, &ours.out));
        lines.extend(first_difference("cells", &theirs.cells, &ours.cells));
        lines.join("\n")
    }
}

fn size_of_call(byte: u8) -> usize {
    CALLS.get(byte as usize).map_or(1, |row| row.size)
}

fn head(after: &After) -> &[u8] {
    &after.out[..HEAD.min(after.out.len())]
}

fn first_difference(what: &str, theirs: &[u8], ours: &[u8]) -> Option<String> {
    let at = theirs.iter().zip(ours).position(|(a, b)| a != b)?;
    let both = (theirs[at], ours[at]);
    Some(format!(
        "{what} at {at}: the Rust {}, ours {}",
        both.0, both.1
    ))
}
