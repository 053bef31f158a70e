//! The call from C: the archive's, where one is linked, or the reference with a fault put in, to see
//! that differences are found.

use crate::decode::Reader;
use crate::layout::{HEAD, answer_size, byte_of};
use crate::reference;
use crate::tally::Tally;

#[cfg(calls)]
mod linked {
    unsafe extern "C" {
        fn calls_play(
            list: *const u8,
            list_len: usize,
            cells: *mut u8,
            cells_len: usize,
            out: *mut u8,
            out_len: usize,
        ) -> u64;
    }

    pub fn play(list: &[u8], cells: &mut [u8], out: &mut [u8]) -> u64 {
        // SAFETY: three slices that do not overlap, each with its own length.
        unsafe {
            calls_play(
                list.as_ptr(),
                list.len(),
                cells.as_mut_ptr(),
                cells.len(),
                out.as_mut_ptr(),
                out.len(),
            )
        }
    }
}

/// What is compared with the reference.
#[derive(Clone, Copy)]
pub enum Ours {
    #[cfg(calls)]
    Linked,
    /// The reference with a fault.
    Fault(u64),
}

impl Ours {
    /// The archive's, where one is linked.
    pub fn linked() -> Option<Self> {
        #[cfg(calls)]
        return Some(Self::Linked);
        #[cfg(not(calls))]
        return None;
    }

    pub fn play(self, list: &[u8], cells: &mut [u8], out: &mut [u8]) -> u64 {
        match self {
            #[cfg(calls)]
            Self::Linked => linked::play(list, cells, out),
            Self::Fault(fault) => faulty(fault, list, cells, out),
        }
    }
}

/// The reference, and then: 0 nothing; 1 to 49 the answer to the call of byte one less has its last
/// byte changed, the second time that it is taken; 50 the last cell of the memory is touched; 51 a byte
/// past the answers is; 52 the number is one more; 53 a list not of its form answers 13.
fn faulty(fault: u64, list: &[u8], cells: &mut [u8], out: &mut [u8]) -> u64 {
    let answer = reference::play(list, cells, out, &mut Tally::default());
    if answer < HEAD as u64 {
        return if fault == 53 { 13 } else { answer };
    }
    match fault {
        1..50 => change(fault as u8 - 1, list, out),
        50 => cells.last_mut().into_iter().for_each(|cell| *cell ^= 1),
        51 => out[answer as usize..]
            .iter_mut()
            .take(1)
            .for_each(|b| *b ^= 1),
        52 => return answer + 1,
        _ => {}
    }
    answer
}

fn change(byte: u8, list: &[u8], out: &mut [u8]) {
    let mut reader = Reader::calls(list);
    let mut at = HEAD;
    let mut taken = 0;
    while !reader.at_end() {
        let call = reader.call().expect("of its form");
        let size = answer_size(&call);
        if byte_of(&call) == byte && out[at] == 0 {
            taken += 1;
            if taken == 2 {
                out[at + size - 1] ^= 1;
            }
        }
        at += size;
    }
}
