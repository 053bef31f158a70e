//! Random machines.

use crate::call::{Kind, Machine};
use crate::capability::{PipelineInstructionClass as Class, PipelineStageRole as Role};
use crate::generate::{EDGE, Generator, Style};

const CLASSES: [Class; 10] = Class::ALL;

pub const ROLES: [Role; 8] = [
    Role::Fetch,
    Role::Decode,
    Role::Issue,
    Role::Execute,
    Role::Memory,
    Role::Writeback,
    Role::Commit,
    Role::Other,
];

impl Generator {
    pub fn machine(&mut self) -> Machine {
        let mut machine = self.legal_machine();
        if self.style == Style::Limits {
            for _ in 0..self.rng.range(1, 2) {
                self.to_a_limit(&mut machine);
            }
            if self.rng.percent(15) && machine.history <= 256 {
                machine.lent = machine.memory() - self.rng.range(1, machine.memory().min(9));
            }
        }
        machine
    }

    fn legal_machine(&mut self) -> Machine {
        let kinds = self.kinds();
        let stages = self.stages();
        let history = match self.style {
            Style::Rows => self.rng.range(12, 20),
            Style::History => *self.rng.pick(&[255, 256, 256, 256]),
            Style::Long => self.rng.range(0, 2),
            Style::Wide => *self.rng.pick(&[1, 2, 4]),
            _ => *self.rng.pick(&[0, 1, 1, 1, 2, 2, 2, 2, 3, 3, 3, 4, 4, 7]),
        };
        let mut machine = Machine {
            stages,
            instruction_bytes: match self.rng.below(6) {
                0..3 => None,
                3 => Some(4),
                4 => Some(0),
                _ => Some(*self.rng.pick(&EDGE)),
            },
            extras: self.extras(),
            kinds,
            history,
            entry: match self.rng.below(5) {
                0..3 => 0,
                3 => self.rng.below(1 << 32),
                _ => *self.rng.pick(&EDGE),
            },
            lent: 0,
        };
        let more = if self.rng.percent(30) {
            self.rng.range(1, 9)
        } else {
            0
        };
        machine.lent = machine.memory() + more;
        machine
    }

    fn kinds(&mut self) -> Vec<Kind> {
        let kinds = match self.style {
            Style::Small | Style::Odd => *self.rng.pick(&[0, 1, 1, 1, 1, 1, 1, 2, 2, 2, 3]),
            Style::Long | Style::Limits => self.rng.below(4),
            Style::Medium => self.rng.range(2, 5),
            Style::Wide => *self.rng.pick(&[1, 1, 2, 3, 7, 16]),
            Style::Busy | Style::Names | Style::Rows | Style::History => 1,
        };
        let mut left = match self.style {
            Style::Wide => 64,
            Style::Medium => 14,
            _ => 8,
        };
        let mut list = Vec::new();
        for index in 0..kinds {
            let others = kinds - index - 1;
            let most = left - others;
            let capacity = match self.style {
                Style::Wide if others == 0 => most,
                Style::Wide => self.rng.range(0, (2 * most / (others + 1)).min(most)),
                Style::Rows | Style::Names | Style::History => self.rng.range(3, 5).min(most),
                Style::Small if kinds == 1 => self.rng.range(2, 6),
                Style::Busy => self.rng.range(5, 7),
                _ => self.rng.range(0, 4).min(most),
            };
            left -= capacity.max(1);
            list.push(self.kind(capacity));
        }
        list
    }

    fn stages(&mut self) -> Vec<Role> {
        let stages = match self.rng.below(10) {
            0 => 0,
            1..7 => self.rng.range(1, 5),
            7 => 16,
            _ => self.rng.range(4, 16),
        };
        let mut stages: Vec<Role> = (0..stages).map(|_| *self.rng.pick(&ROLES)).collect();
        let room = matches!(self.style, Style::Busy | Style::Names);
        if room || self.rng.percent(60) {
            // Room in the queue.
            let depth = match self.style {
                Style::Wide => *self.rng.pick(&[1, 4, 15]),
                Style::Names => 3,
                _ => self.rng.range(1, 4) as usize,
            };
            stages.truncate(15);
            stages.retain(|role| *role != Role::Execute);
            stages.resize(stages.len().max(depth), Role::Decode);
            stages.insert(depth, Role::Execute);
        }
        stages
    }

    fn extras(&mut self) -> [u64; 7] {
        let mut extras = std::array::from_fn(|_| match self.style {
            Style::Long => *self
                .rng
                .pick(&[0, 1, 120, 190, 253, 254, 255, u64::MAX - 1]),
            Style::Wide if self.queueing => *self.rng.pick(&[0, 0, 1, 200]),
            Style::Wide => *self.rng.pick(&[20, 90, 120, 200]),
            Style::Rows | Style::Names | Style::History => 0,
            Style::Busy => *self.rng.pick(&[0, 0, 1, 4, 9, 14]),
            _ => *self.rng.pick(&[0, 0, 0, 1, 2, 3, 5, 8]),
        });
        if self.style == Style::Wide && self.queueing {
            extras[2] = 200;
        }
        extras
    }

    fn kind(&mut self, capacity: u64) -> Kind {
        const NAMES: [&[u8]; 14] = [
            b"EX",
            b"ALU",
            b"MUL",
            b"DIV",
            b"LSU",
            b"FPU",
            b"BR",
            b"SYS",
            b"A",
            b"12345678",
            b" ",
            b"IF",
            b"WR",
            b"~\"\\x",
        ];
        let one_for_all = matches!(
            self.style,
            Style::Busy | Style::Rows | Style::Names | Style::History
        ) || self.style == Style::Small && self.rng.percent(50);
        let classes = match self.rng.below(8) {
            _ if one_for_all => 0,
            0..3 => 0,
            3 => 1,
            4 | 5 => self.rng.range(2, 4),
            _ => self.rng.range(4, 10),
        };
        Kind {
            name: self.rng.pick(&NAMES).to_vec(),
            classes: (0..classes).map(|_| *self.rng.pick(&CLASSES)).collect(),
            latency_class: *self.rng.pick(&CLASSES),
            capacity,
        }
    }

    /// One thing at a limit, or past it.
    fn to_a_limit(&mut self, machine: &mut Machine) {
        match self.rng.below(8) {
            0 => {
                let count = self.rng.range(16, 17);
                machine.kinds = (0..count).map(|_| self.kind(1)).collect();
            }
            1 => {
                let count = self.rng.range(1, 4);
                let total = self.rng.range(64, 65);
                machine.kinds = (1..count).map(|_| self.kind(0)).collect();
                let last = self.kind(total - count + 1);
                machine.kinds.push(last);
            }
            2 => {
                let capacity = *self.rng.pick(&[63, 64, 65, u64::MAX, 1 << 63]);
                machine.kinds.push(self.kind(capacity));
            }
            3 => {
                let count = self.rng.range(16, 17) as usize;
                machine.stages.resize(count, Role::Other);
            }
            4 => {
                machine.history = *self.rng.pick(&[255, 256, 257, 257, 1 << 32]);
                machine.lent = if machine.history < 257 {
                    machine.memory()
                } else {
                    200
                };
            }
            5 | 6 => self.odd_kind_name(machine),
            _ => {
                let at = self.rng.below(7) as usize;
                machine.extras[at] = *self.rng.pick(&[u64::MAX, u64::MAX, u64::MAX - 1]);
            }
        }
    }

    fn odd_kind_name(&mut self, machine: &mut Machine) {
        const NAMES: [&[u8]; 7] = [
            b"",
            b"123456789",
            b"\x1f",
            b"a\x7f",
            b"\x80",
            b"12345678",
            b"\x20\x7e",
        ];
        if machine.kinds.is_empty() {
            let kind = self.kind(1);
            machine.kinds.push(kind);
        }
        let name = self.rng.pick(&NAMES);
        let at = self.rng.below(machine.kinds.len() as u64) as usize;
        machine.kinds[at].name = name.to_vec();
    }
}
