//! Random texts and operations.

use crate::call::{Given, Text};
use crate::capability::PipelineInstructionClass as Class;
use crate::driver::Driver;
use crate::generate::{EDGE, Generator, Style};

impl Generator {
    fn text(&mut self) -> Text {
        const WORDS: [&str; 14] = [
            "add", "mul", "div", "lw", "sw", "beq", "jal", "ecall", "fadd", "nop", "sub", "xor",
            "?", "\"q\"",
        ];
        let choice = if self.lengthy && self.rng.percent(80) {
            3
        } else {
            self.rng.below(24)
        };
        match choice {
            0 => Vec::new(),
            1 => b"   ".to_vec(),
            2 => {
                let mut text = b"  ".to_vec();
                text.extend(self.rng.pick(&WORDS).as_bytes());
                text.extend(b"  x1 ");
                text
            }
            3 => vec![*self.rng.pick(b"abc~"); 64],
            4 => {
                let mut text = self.rng.pick(&WORDS).as_bytes().to_vec();
                text.resize(64, b' ');
                text
            }
            5 => vec![0x20, 0x7E, 0x5C, 0x22],
            _ => {
                let word = *self.rng.pick(&WORDS);
                let register = self.rng.below(10);
                format!("{word} x{register}").into_bytes()
            }
        }
    }

    pub fn bad_text(&mut self, most: usize) -> Text {
        match self.rng.below(4) {
            0 => vec![b'z'; most + 1],
            1 => vec![0x1F],
            2 => b"ab\x7F".to_vec(),
            _ => vec![*self.rng.pick(&[0, 9, 10, 128, 255])],
        }
    }

    pub fn reason(&mut self) -> Text {
        match self.rng.below(10) {
            0 => self.bad_text(64),
            1 => Vec::new(),
            2 => vec![b'w'; 64],
            _ => b"waiting".to_vec(),
        }
    }

    fn name(&mut self) -> Text {
        if self.lengthy && self.rng.percent(80) {
            return format!("sixteen-bytes-{:02}", self.rng.below(self.pool)).into_bytes();
        }
        match self.rng.below(40) {
            0 => Vec::new(),
            1 => b"sixteen-bytes-ok".to_vec(),
            2 => b" x 1".to_vec(),
            3 => b"rflags".to_vec(),
            4 => self.fresh_name(),
            _ => format!("x{}", self.rng.below(self.pool)).into_bytes(),
        }
    }

    /// A name not given before. The first byte changes fastest, so that names are soon told apart.
    pub fn fresh_name(&mut self) -> Text {
        const LETTERS: &[u8; 26] = b"abcdefghijklmnopqrstuvwxyz";
        let (first, rest) = (self.fresh % 26, self.fresh / 26);
        self.fresh += 1;
        format!("{}.{rest}", char::from(LETTERS[first as usize])).into_bytes()
    }

    pub fn names(&mut self, count: u64) -> Vec<Text> {
        (0..count).map(|_| self.name()).collect()
    }

    fn class(&mut self) -> Class {
        if self.rng.percent(self.branches) {
            return *self.rng.pick(&[Class::Branch, Class::Jump]);
        }
        if self.rng.percent(self.memory) {
            return *self.rng.pick(&[Class::Load, Class::Store]);
        }
        if self.rng.percent(self.system) {
            return Class::System;
        }
        *self.rng.pick(&[
            Class::Alu,
            Class::Alu,
            Class::Alu,
            Class::Multiply,
            Class::Divide,
            Class::FloatingPoint,
            Class::Unknown,
        ])
    }

    pub fn given(&mut self, driver: &Driver) -> Given {
        let class = self.class();
        let redirects = matches!(class, Class::Branch | Class::Jump);
        let (reads, writes) = match self.rng.below(20) {
            0 => (8, 4),
            1 => (self.rng.below(9), self.rng.below(5)),
            2 => (0, 0),
            _ if self.rng.percent(self.several) => (self.rng.range(2, 4), self.rng.range(2, 3)),
            _ => (self.rng.range(0, 3), self.rng.range(0, 2).min(1)),
        };
        let mut given = Given {
            address: self.own_address(driver),
            size: match self.rng.below(12) {
                0 => *self.rng.pick(&EDGE),
                1 => 0,
                _ => self.rng.range(1, 15),
            },
            class,
            branch: if redirects {
                self.rng.percent(92)
            } else {
                self.branches > 0 && self.rng.percent(2)
            },
            atomic: self.rng.percent(10),
            text: self.text(),
            fault: match self.rng.below(12) {
                0 => Some(b"page fault".to_vec()),
                1 => Some(Vec::new()),
                2 => Some(vec![b'f'; 64]),
                _ => None,
            },
            destination: None,
            sources: self.names(reads),
            writes: self.names(writes),
            payload: if self.rng.percent(10) {
                *self.rng.pick(&EDGE)
            } else {
                self.rng.below(1000)
            },
        };
        if self.claiming && self.rng.percent(95) {
            self.with_claims(&mut given);
        } else if self.style == Style::Wide && self.rng.percent(80) {
            self.without_waits(driver, &mut given);
        }
        given.destination = match self.rng.below(8) {
            0 => None,
            1 => Some(Vec::new()),
            2 => Some(b"sixteen-bytes-ok".to_vec()),
            3 => Some(b"shown".to_vec()),
            _ => given.writes.first().cloned(),
        };
        given
    }

    fn own_address(&mut self, driver: &Driver) -> u64 {
        match self.rng.below(100) {
            0..92 => driver.engine.fetch_pc(),
            92..96 => self.rng.below(64),
            _ => *self.rng.pick(&EDGE),
        }
    }

    /// Writes the next four of 256 names, and reads none or some of the others; slow mostly.
    fn with_claims(&mut self, given: &mut Given) {
        let name = |at: u64| format!("c{}", at % 256).into_bytes();
        let next = 4 * self.fresh;
        self.fresh += 1;
        given.writes = (next..next + 4).map(name).collect();
        let reads = *self.rng.pick(&[0, 0, 0, 1, 8]);
        given.sources = (0..reads).map(|_| name(self.rng.below(256))).collect();
        if self.rng.percent(80) {
            given.class = *self
                .rng
                .pick(&[Class::Divide, Class::Multiply, Class::FloatingPoint]);
            given.branch = false;
        }
    }

    /// Nothing to wait for, so that the units fill up; or all wait for the first.
    fn without_waits(&mut self, driver: &Driver, given: &mut Given) {
        given.sources.clear();
        given.writes.clear();
        if self.queueing && driver.fetches == 0 {
            given.class = Class::Divide;
            given.writes.push(b"x0".to_vec());
        } else if self.queueing {
            given.sources.push(b"x0".to_vec());
        }
    }

    /// Some things that fetch refuses, or nearly does.
    pub fn spoil(&mut self, given: &mut Given) {
        for _ in 0..*self.rng.pick(&[1, 1, 1, 2, 3]) {
            self.spoil_once(given);
        }
    }

    fn spoil_once(&mut self, given: &mut Given) {
        match self.rng.below(9) {
            0 => given.text = self.bad_text(64),
            1 => given.fault = Some(self.bad_text(64)),
            2 => given.destination = Some(self.bad_text(16)),
            3 => {
                let at = self.rng.below(9) as usize;
                given
                    .sources
                    .resize(given.sources.len().max(at), b"x1".to_vec());
                let bad = self.bad_text(16);
                given.sources.insert(at, bad);
            }
            4 => {
                let at = self.rng.below(5) as usize;
                given
                    .writes
                    .resize(given.writes.len().max(at), b"x2".to_vec());
                let bad = self.bad_text(16);
                given.writes.insert(at, bad);
            }
            5 => given.sources = self.names(9),
            6 => given.writes = self.names(5),
            7 => given.sources = self.names(8),
            _ => given.writes = self.names(4),
        }
    }
}
