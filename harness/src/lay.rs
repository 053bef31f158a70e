//! An answer's numbers (driver.rs, views.rs) laid down as the bytes of docs/CALLS.md.

use crate::call::Call;
use crate::driver::Answered;
use crate::layout::{Answer, CALLS, byte_of};

/// Lays an answer down in `out`, which has its size and is all 0.
pub fn lay(call: &Call, answered: &Answered, out: &mut [u8]) {
    if let Some(number) = answered.refused {
        out[0] = number as u8;
        return;
    }
    let mut numbers = answered.numbers.iter().copied();
    numbers.next().expect("which answer it is");
    let mut page = Page {
        numbers,
        out,
        at: 1,
    };
    page.answer(CALLS[byte_of(call) as usize].answer);
    assert!(page.numbers.next().is_none(), "all is laid down");
}

struct Page<'a, I> {
    numbers: I,
    out: &'a mut [u8],
    at: usize,
}

impl<I: Iterator<Item = u64>> Page<'_, I> {
    fn next(&mut self) -> u64 {
        self.numbers.next().expect("a number")
    }

    fn put(&mut self, byte: u64) {
        self.out[self.at] = u8::try_from(byte).expect("a byte");
        self.at += 1;
    }

    /// The next number as a byte.
    fn byte(&mut self) {
        let byte = self.next();
        self.put(byte);
    }

    fn bytes(&mut self, count: usize) {
        for _ in 0..count {
            self.byte();
        }
    }

    /// The next number in eight bytes.
    fn number(&mut self) {
        let number = self.next();
        self.put_number(number);
    }

    fn put_number(&mut self, number: u64) {
        self.out[self.at..self.at + 8].copy_from_slice(&number.to_le_bytes());
        self.at += 8;
    }

    fn numbers(&mut self, count: usize) {
        for _ in 0..count {
            self.number();
        }
    }

    /// A flag, and what stands there where it is 1; where it is 0, as many bytes of 0.
    fn part(&mut self, size: usize, lay: impl FnOnce(&mut Self)) {
        let end = self.at + size;
        let there = self.next();
        self.put(there);
        if there == 1 {
            lay(self);
            assert_eq!(self.at, end, "the size of a part");
        }
        self.at = end;
    }

    fn answer(&mut self, answer: Answer) {
        match answer {
            Answer::Done => {}
            Answer::Offer => self.part(44, |page| {
                page.numbers(3);
                page.bytes(3);
                page.numbers(2);
            }),
            Answer::Address => self.part(9, Self::number),
            Answer::Status => self.bytes(4),
            Answer::Counters => self.numbers(12),
            Answer::Flag => self.byte(),
            Answer::Number => self.number(),
            Answer::Edges => {
                let edges = self.next() as usize;
                self.bytes(3 * edges);
            }
            Answer::Stages => {
                let stages = self.next() as usize;
                self.bytes(stages);
            }
            Answer::Stage => self.part(19, |page| {
                page.byte();
                page.slot();
            }),
            Answer::Kind => self.part(36, Self::kind),
            Answer::Wait => self.part(4, |page| page.bytes(3)),
            Answer::Row => self.part(28, |page| {
                page.numbers(2);
                page.byte();
                page.number();
                page.bytes(2);
            }),
            Answer::Station => self.part(30, Self::station),
            Answer::Claim => self.part(3, |page| page.bytes(2)),
            Answer::Slot => self.slot(),
            Answer::Cell => self.part(4, |page| {
                let cell = page.next();
                page.put(cell % 32);
                page.put(cell / 32 % 8);
                page.put(cell / 256);
            }),
            Answer::Text => {
                let size = self.out.len() - 1;
                self.part(size, |page| {
                    let length = page.next();
                    page.put_number(length);
                    page.bytes(length as usize);
                    page.at = size + 1;
                });
            }
        }
    }

    fn slot(&mut self) {
        self.part(17, |page| {
            page.number();
            page.byte();
            let flags = page.next();
            let cycles = page.next();
            page.put(flags & 1);
            page.put(flags >> 1 & 1);
            page.put(flags >> 2 & 1);
            page.part(2, Self::byte);
            page.put(flags >> 3);
            page.put(cycles);
        });
    }

    fn kind(&mut self) {
        self.numbers(2);
        let class = self.next();
        let latency = self.next();
        self.slot();
        self.put(class);
        self.put(latency);
    }

    fn station(&mut self) {
        self.byte();
        let phase = self.next();
        self.part(2, Self::byte);
        self.slot();
        self.put(phase);
        for _ in 0..2 {
            self.part(4, |page| {
                page.byte();
                page.part(2, Self::byte);
            });
        }
    }
}
