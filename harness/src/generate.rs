//! Random lists of calls. A list is played while it is made, as a driver would play it (start, retire
//! or retry, advance, fetch when invited), with calls of every kind thrown in, taken and refused ones.

use crate::call::{Call, Machine};
use crate::driver::Driver;
use crate::play::{Case, Plays, make};
use crate::rng::Rng;

/// What a list is after.
#[derive(Clone, Copy, Debug, PartialEq)]
pub enum Style {
    /// A few units, a short history: deep runs with many hazards.
    Small,
    /// The same, with half of the calls thrown in.
    Odd,
    /// One kind of five to seven units, latencies far apart: results overtake each other.
    Busy,
    /// More kinds and units.
    Medium,
    /// Up to 64 units and 16 kinds.
    Wide,
    /// Long latencies and waits, so that rows pass 200 cells.
    Long,
    /// So many names that the table fills up.
    Names,
    /// A longer history, and more fetches than it holds.
    Rows,
    /// A history of 256 rows or near it, and more fetches than it holds.
    History,
    /// A machine around the limits, mostly refused.
    Limits,
}

pub struct Generator {
    pub rng: Rng,
    pub style: Style,
    /// Calls thrown in, of a hundred.
    disturbance: u64,
    /// Registers that operations mostly use.
    pub pool: u64,
    pub branches: u64,
    pub memory: u64,
    pub system: u64,
    /// Operations with several reads and writes, of a hundred.
    pub several: u64,
    /// Texts and names mostly as long as they may be.
    pub lengthy: bool,
    /// One slow operation that the others wait for.
    pub queueing: bool,
    /// Operations that write four names each, through 256 names: units claim all of them.
    pub claiming: bool,
    pub fresh: u64,
    /// Where the retired branch went, if elsewhere.
    redirect: Option<u64>,
    /// How many times as long as a list for the model; 0 is for the model.
    pub scale: u64,
}

/// What comes next: a call, or at most so many times start and advance.
enum Next {
    Call(Call),
    Idle(u64),
}

pub const EDGE: [u64; 5] = [0, 1, u64::MAX, u64::MAX - 1, 1 << 63];

/// A list from a seed.
pub fn generate(seed: u64) -> Case {
    let mut rng = Rng::new(seed);
    let style = match rng.below(100) {
        0..25 => Style::Small,
        25..40 => Style::Busy,
        40..50 => Style::Odd,
        50..67 => Style::Medium,
        67..75 => Style::Wide,
        75..81 => Style::Long,
        81..83 => Style::Names,
        83..86 => Style::Rows,
        _ => Style::Limits,
    };
    let mut generator = Generator::new(rng, style);
    let machine = generator.machine();
    match make(seed, &machine) {
        Err(case) => case,
        Ok(mut player) => {
            generator.play_on(&mut player);
            player.end()
        }
    }
}

/// A machine and what plays on it, from a seed, for a list of bytes: nothing is left out for its cost.
pub fn for_bytes(seed: u64, scale: u64) -> (Machine, Generator) {
    let mut rng = Rng::new(seed);
    let style = match rng.below(100) {
        0..20 => Style::Small,
        20..32 => Style::Busy,
        32..42 => Style::Odd,
        42..58 => Style::Medium,
        58..68 => Style::Wide,
        68..78 => Style::Long,
        78..82 => Style::Names,
        82..86 => Style::Rows,
        86..90 => Style::History,
        _ => Style::Limits,
    };
    let mut generator = Generator::new(rng, style);
    let machine = generator.machine();
    generator.scale = scale;
    if style == Style::Wide {
        generator.disturbance = *generator.rng.pick(&[2, 6, 12, 25]);
        generator.claiming = generator.rng.percent(40);
    }
    (machine, generator)
}

impl Generator {
    fn new(mut rng: Rng, style: Style) -> Self {
        let mut generator = Self {
            disturbance: *rng.pick(&[2, 6, 12, 12, 25]),
            pool: *rng.pick(&[3, 4, 6, 8, 8, 12]),
            branches: *rng.pick(&[0, 5, 12, 25]),
            memory: *rng.pick(&[0, 10, 30, 60]),
            system: *rng.pick(&[0, 0, 3, 15]),
            several: *rng.pick(&[5, 20, 60]),
            lengthy: rng.percent(8),
            queueing: rng.percent(40),
            claiming: false,
            rng,
            style,
            fresh: 0,
            redirect: None,
            scale: 0,
        };
        match style {
            Style::Wide | Style::Rows | Style::History => {
                generator.pool = 40;
                generator.disturbance = 2;
                generator.branches = generator.rng.below(2);
                generator.memory = 0;
                generator.system = 0;
            }
            Style::Odd => generator.disturbance = 50,
            Style::Busy => {
                generator.disturbance = 3;
                generator.pool = generator.rng.range(6, 12);
                generator.branches = generator.rng.below(4);
                generator.system = 2;
                generator.several = 40;
            }
            _ => {}
        }
        if style == Style::Wide {
            generator.memory = *generator.rng.pick(&[0, 0, 70]);
        }
        if matches!(style, Style::Long | Style::Names) {
            generator.lengthy = false;
        }
        generator
    }

    /// A list, played while it is made.
    pub fn play_on(self, player: &mut impl Plays) {
        if self.style == Style::Names {
            self.names_list(player);
        } else {
            self.list(player);
        }
    }

    fn list(mut self, player: &mut impl Plays) {
        let calls = match self.style {
            Style::Small => self.rng.range(50, 150),
            Style::Odd => self.rng.range(60, 120),
            Style::Medium => self.rng.range(40, 110),
            Style::Busy => self.rng.range(90, 150),
            Style::Wide => self.rng.range(150, 320),
            Style::Long => self.rng.range(20, 45),
            Style::Names => 0,
            Style::Rows => self.rng.range(120, 180),
            Style::History => self.rng.range(300, 1800),
            Style::Limits => self.rng.range(5, 30),
        };
        let overlaps = matches!(self.style, Style::Busy | Style::Rows | Style::History);
        if self.rng.percent(88) || overlaps {
            player.shown(Call::Overlap(true));
        }
        for _ in 0..calls * self.scale.max(1) {
            let next = if self.rng.percent(self.disturbance) {
                Next::Call(self.any_call(player.driver()))
            } else {
                self.drivers_call(player.driver())
            };
            match next {
                Next::Call(call) => self.play(player, call),
                Next::Idle(most) => player.idle(most),
            }
        }
        player.rest();
    }

    /// In wide and in long lists most calls are compared by their answers alone.
    fn play(&mut self, player: &mut impl Plays, call: Call) {
        let quiet = match self.style {
            Style::Wide => 90,
            Style::Rows => 92,
            Style::History => 98,
            _ => 0,
        };
        let answered = if self.rng.percent(quiet) {
            player.quiet(call.clone())
        } else {
            player.shown(call.clone())
        };
        match call {
            // 3, 1, target
            Call::Resolve(_) if answered.numbers.len() == 3 => {
                self.redirect = Some(answered.numbers[2]);
            }
            Call::Advance(..) if answered.refused.is_none() => self.redirect = None,
            _ => {}
        }
    }

    /// What a driver would do next.
    fn drivers_call(&mut self, driver: &Driver) -> Next {
        let lent = self.lent(driver);
        if driver.stopped() && self.rng.percent(25) {
            let address = self.address();
            return Next::Call(if self.rng.percent(50) {
                Call::Reset(address, lent)
            } else {
                Call::Redirect(address)
            });
        }
        if !driver.in_cycle {
            return self.between_cycles(driver, lent);
        }
        if let Some(call) = self.with_the_offer(driver) {
            return Next::Call(call);
        }
        let redirect = if self.rng.percent(3) {
            Some(self.address())
        } else {
            self.redirect
        };
        Next::Call(Call::Advance(redirect, lent))
    }

    fn between_cycles(&mut self, driver: &Driver, lent: u64) -> Next {
        if driver.invited && self.rng.percent(92) {
            let mut given = self.given(driver);
            if self.rng.percent(4) {
                self.spoil(&mut given);
            }
            return Next::Call(Call::Fetch(given, lent));
        }
        let busy = driver.busy().contains(&true);
        let cells = driver.most_cells();
        // Around 200 cells each call is shown, while a row loses cells unlike its newest.
        let here = (195..206).contains(&cells);
        if self.style == Style::Long && busy && !here && self.rng.percent(30) {
            let most = if cells < 195 && self.rng.percent(70) {
                197 - cells
            } else {
                self.rng.range(40, 260)
            };
            return Next::Idle(most);
        }
        Next::Call(Call::Start)
    }

    /// Resolve, retire or retry, if there is an offer that is not settled.
    fn with_the_offer(&mut self, driver: &Driver) -> Option<Call> {
        let op = driver.offer.as_ref()?;
        let resolves = if op.branch { 60 } else { 4 };
        if self.redirect.is_none() && self.rng.percent(resolves) {
            let actual = if self.rng.percent(35) {
                op.predicted_next()
            } else {
                self.address()
            };
            return Some(Call::Resolve(actual));
        }
        if driver.retired {
            return None;
        }
        Some(if self.rng.percent(8) {
            Call::Retry(self.reason())
        } else {
            Call::Retire
        })
    }

    pub fn address(&mut self) -> u64 {
        match self.rng.below(6) {
            0 => *self.rng.pick(&EDGE),
            1 => self.rng.next(),
            _ => self.rng.below(64) * 4,
        }
    }

    /// The length of the cell memory lent: now and then too short.
    pub fn lent(&mut self, driver: &Driver) -> u64 {
        let memory = driver.machine.memory();
        match self.rng.below(60) {
            0 => memory - 1,
            1 => self.rng.below(memory),
            2 => memory + self.rng.below(9),
            _ => memory,
        }
    }

    /// An index around the end of a list.
    pub fn index(&mut self, count: usize) -> u64 {
        match self.rng.below(10) {
            0 => count as u64,
            1 => count as u64 + 1,
            2 => u64::MAX,
            _ => self.rng.below(count.max(1) as u64),
        }
    }
}
