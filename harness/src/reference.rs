//! What `calls_play` must answer and leave: a list of bytes played on the Rust under document 01's
//! discipline.

use crate::decode::{Reader, totals};
use crate::driver::{Answered, Driver};
use crate::lay::lay;
use crate::layout::{HEAD, LIST, answer_size};
use crate::refuse::make_refusals;
use crate::tally::Tally;

/// Answers 14, 13, or how many bytes of `out` were written.
pub fn play(list: &[u8], cells: &mut [u8], out: &mut [u8], tally: &mut Tally) -> u64 {
    let Some(totals) = totals(list) else {
        tally.whole("list refused 14");
        return 14;
    };
    if (cells.len() as u64) < totals.lent {
        tally.whole("list refused 13, cells too short");
        return 13;
    }
    if out.len() < totals.size {
        tally.whole("list refused 13, answers too long");
        return 13;
    }
    if list.len() == LIST {
        tally.whole("a list of 16777216 bytes");
    }
    let out = &mut out[..totals.size];
    out.fill(0);
    let machine = Reader::new(list).machine().expect("of its form");
    let against = make_refusals(&machine);
    tally.made(&machine, &against);
    out[1..9].copy_from_slice(&totals.calls.to_le_bytes());
    out[9..17].copy_from_slice(&(totals.size as u64).to_le_bytes());
    if let Some(number) = against.first() {
        out[0] = *number as u8;
        refuse_all(list, *number, out, tally);
    } else {
        let mut driver = Driver::new(&machine);
        play_all(list, &mut driver, out, tally);
        driver.lay_cells(cells);
        tally.all.add(&driver.coverage);
    }
    totals.size as u64
}

/// Making was refused: each call answers its number.
fn refuse_all(list: &[u8], number: u64, out: &mut [u8], tally: &mut Tally) {
    let mut reader = Reader::calls(list);
    let mut at = HEAD;
    while !reader.at_end() {
        let call = reader.call().expect("of its form");
        out[at] = number as u8;
        at += answer_size(&call);
        tally.unmade(&call);
    }
}

fn play_all(list: &[u8], driver: &mut Driver, out: &mut [u8], tally: &mut Tally) {
    let mut reader = Reader::calls(list);
    let mut at = HEAD;
    tally.look(driver);
    while !reader.at_end() {
        let call = reader.call().expect("of its form");
        let answered: Answered = driver.call(&call);
        let size = answer_size(&call);
        lay(&call, &answered, &mut out[at..at + size]);
        tally.count(&call, &out[at..at + size]);
        if call.changes() {
            tally.look(driver);
        }
        at += size;
    }
}
