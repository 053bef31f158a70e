//! A list of calls played on the Rust, and what it answered and showed.

use crate::call::{Call, Machine, Step};
use crate::coverage::Coverage;
use crate::driver::{Answered, Driver};
use crate::numbers::{Numbers, hash};
use crate::refuse::make_refusals;

/// What stands in the lent cell memory before making.
pub const FILLER: u64 = 7;

pub struct Case {
    pub seed: u64,
    pub machine: Machine,
    pub steps: Vec<Step>,
    /// What the Rust answered and showed: at making, and at each step.
    pub lists: Vec<Numbers>,
    pub coverage: Coverage,
}

impl Case {
    /// One number for each list.
    pub fn numbers(&self) -> Vec<u64> {
        self.lists.iter().map(|list| hash(7, &list.list)).collect()
    }

    /// Roughly the milliseconds that it takes to compute the model over the list.
    pub fn cost(&self) -> u64 {
        let kinds = self.machine.kinds.iter();
        let units: u64 = kinds.map(|kind| kind.capacity.clamp(1, 64)).sum();
        let sizes = self.lists.iter().map(|list| list.list.len() as u64);
        let steps = self.steps.iter().map(|step| match step {
            Step::Idle(cycles, _) => 2 * cycles,
            Step::Shown(_) | Step::Quiet(_) => 1,
            Step::Rest => 0,
        });
        let calls: u64 = steps.sum();
        let each = 1 + units / 6 + self.machine.lent / 170 + self.coverage.names() / 6;
        50 + self.machine.lent / 50 + calls * each + sizes.sum::<u64>() / 45
    }
}

/// What a list is played on while it is made.
pub trait Plays {
    fn driver(&self) -> &Driver;
    /// A call, and then all that the engine shows.
    fn shown(&mut self, call: Call) -> Answered;
    /// A call, and its answer alone.
    fn quiet(&mut self, call: Call) -> Answered;
    /// At most so many times start and advance, until the advance is refused because of an offer; then
    /// all that the engine shows.
    fn idle(&mut self, most: u64);
    /// All that the engine shows, what no call changes, and every byte of the cell memory.
    fn rest(&mut self);
}

/// A machine that was made, and what was played on it so far.
pub struct Player {
    seed: u64,
    pub driver: Driver,
    steps: Vec<Step>,
    /// The lists behind the expected numbers.
    lists: Vec<Numbers>,
}

/// Making: the number that refuses it, or the engine, and the lent cell memory after it.
pub fn make(seed: u64, machine: &Machine) -> Result<Player, Case> {
    let lent = machine.lent as usize;
    let mut numbers = Numbers::default();
    let mut coverage = Coverage::default();
    let against = make_refusals(machine);
    coverage.made(machine, &against);
    if let Some(number) = against.first() {
        numbers.all(&[0, *number]);
        numbers.put(machine.lent);
        numbers.all(&vec![FILLER; lent]);
        return Err(Case {
            seed,
            machine: machine.clone(),
            steps: Vec::new(),
            lists: vec![numbers],
            coverage,
        });
    }
    let mut driver = Driver::new(machine);
    driver.coverage = coverage;
    let mut player = Player {
        seed,
        driver,
        steps: Vec::new(),
        lists: Vec::new(),
    };
    player.made();
    Ok(player)
}

impl Player {
    fn made(&mut self) {
        let mut numbers = Numbers::default();
        numbers.put(1);
        self.all_shown(&mut numbers);
        self.lists.push(numbers);
    }

    fn all_shown(&self, numbers: &mut Numbers) {
        self.driver.everything(numbers);
        self.driver.fixed(numbers);
        self.driver.memory(numbers);
    }

    fn everything(&mut self, numbers: &mut Numbers) {
        self.driver.everything(numbers);
        let mut coverage = std::mem::take(&mut self.driver.coverage);
        coverage.rows_shown(&self.driver);
        self.driver.coverage = coverage;
    }

    /// A call, its answer and its looks.
    fn call(&mut self, call: &Call, numbers: &mut Numbers) -> Answered {
        let answered = self.driver.call(call);
        numbers.part(format!("answer to {}", call.name()));
        numbers.all(&answered.numbers);
        numbers.part("looks");
        numbers.put(answered.looks.len() as u64);
        for (number, registers) in &answered.looks {
            numbers.put(*number);
            numbers.put(registers.len() as u64);
            numbers.all(registers);
        }
        answered
    }

    fn step(&mut self, step: Step, numbers: Numbers) {
        self.lists.push(numbers);
        self.steps.push(step);
    }

    pub fn end(self) -> Case {
        Case {
            seed: self.seed,
            machine: self.driver.machine,
            steps: self.steps,
            lists: self.lists,
            coverage: self.driver.coverage,
        }
    }
}

impl Plays for Player {
    fn driver(&self) -> &Driver {
        &self.driver
    }

    fn shown(&mut self, call: Call) -> Answered {
        let mut numbers = Numbers::default();
        let answered = self.call(&call, &mut numbers);
        self.everything(&mut numbers);
        self.driver.coverage.shown += 1;
        self.step(Step::Shown(call), numbers);
        answered
    }

    fn quiet(&mut self, call: Call) -> Answered {
        let mut numbers = Numbers::default();
        let answered = self.call(&call, &mut numbers);
        self.step(Step::Quiet(call), numbers);
        answered
    }

    fn idle(&mut self, most: u64) {
        let lent = self.driver.machine.memory();
        let mut numbers = Numbers::default();
        let mut cycles = 0;
        while cycles < most && !self.driver.in_cycle {
            self.call(&Call::Start, &mut numbers);
            self.call(&Call::Advance(None, lent), &mut numbers);
            cycles += 1;
        }
        self.everything(&mut numbers);
        self.step(Step::Idle(cycles, lent), numbers);
    }

    fn rest(&mut self) {
        let mut numbers = Numbers::default();
        self.all_shown(&mut numbers);
        self.step(Step::Rest, numbers);
    }
}
