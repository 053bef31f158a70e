//! Random lists of bytes played on the Rust and by `calls_play`: every byte that either answers or
//! leaves is compared.

use std::process::ExitCode;
use std::time::Instant;

use crate::call::Machine;
use crate::decode::totals;
use crate::encode;
use crate::ends;
use crate::generate::for_bytes;
use crate::maker::Maker;
use crate::ours::Ours;
use crate::refuse::make_refusals;
use crate::rng::Rng;
use crate::tally::Tally;
use crate::trial::Trial;

/// So many differences are shown before it stops.
const SHOWN: u64 = 3;

struct Comparison {
    ours: Ours,
    tally: Tally,
    trials: u64,
    differences: u64,
}

impl Comparison {
    fn try_list(&mut self, name: &str, trial: &Trial) {
        self.trials += 1;
        let (theirs, ours) = trial.both(self.ours, &mut self.tally);
        if theirs == ours {
            return;
        }
        self.differences += 1;
        println!("DIFFERENCE in {name}");
        let shrunk = trial.shrunk(self.ours);
        println!("{}\n", shrunk.report(self.ours));
    }

    fn progress(&self, lists: u64, seed: u64, since: Instant) {
        eprintln!(
            "{lists} seeds, up to {seed}: {} lists, {} calls ({} by a driver), {} differences, {} s",
            self.trials,
            self.tally.calls(),
            self.tally.driver_calls(),
            self.differences,
            since.elapsed().as_secs()
        );
    }
}

/// Compares over `count` seeds from `seed` on, and says what was reached.
pub fn compare(ours: Ours, seed: u64, count: u64) -> ExitCode {
    let since = Instant::now();
    let mut all = Comparison {
        ours,
        tally: Tally::default(),
        trials: 0,
        differences: 0,
    };
    for (name, trial) in ends::trials(seed) {
        all.try_list(&name, &trial);
        if all.differences >= SHOWN {
            return ExitCode::FAILURE;
        }
    }
    all.progress(0, seed, since);
    let mut told = Instant::now();
    for index in 0..count {
        let seed = seed.wrapping_add(index);
        for (name, trial) in trials(seed) {
            all.try_list(&format!("seed {seed}, {name}"), &trial);
        }
        if all.differences >= SHOWN {
            return ExitCode::FAILURE;
        }
        if told.elapsed().as_secs() >= 20 {
            told = Instant::now();
            all.progress(index + 1, seed, since);
        }
    }
    all.progress(count, seed.wrapping_add(count).wrapping_sub(1), since);
    print!("{}", all.tally);
    let missing = all.tally.missing();
    for what in &missing {
        println!("NOT REACHED: {what}");
    }
    println!(
        "{} lists, {} calls, {} by a driver: {} differences",
        all.trials,
        all.tally.calls(),
        all.tally.driver_calls(),
        all.differences
    );
    ExitCode::from(u8::from(all.differences > 0 || !missing.is_empty()))
}

/// The list of a seed, with its room and memory exact or short, and copies with something wrong.
pub fn trials(seed: u64) -> Vec<(String, Trial)> {
    let mut rng = Rng::new(seed ^ 0x5EED);
    let list = list(seed, &mut rng);
    let totals = totals(&list).expect("of its form");
    let lent = totals.lent as usize;
    let whole = Trial {
        list,
        cells: lent + *rng.pick(&[0, 0, 1, 17]),
        spare: *rng.pick(&[0, 0, 1, 100]),
    };
    let mut trials = Vec::new();
    let shorts = [
        ("out one short", whole.cells, -1),
        ("cells one short", lent.saturating_sub(1), 0),
        ("both short", lent.saturating_sub(1), -1),
        ("no out", whole.cells, i64::MIN / 2),
    ];
    let (name, cells, spare) = *rng.pick(&shorts);
    trials.push((
        name.to_string(),
        Trial {
            list: whole.list.clone(),
            cells,
            spare,
        },
    ));
    for at in 0..rng.below(3) {
        let list = wrong(&whole.list, &mut rng);
        trials.push((format!("copy {at}"), Trial { list, ..whole }));
    }
    trials.push(("whole".into(), whole));
    trials
}

/// The list that a seed makes.
pub fn list(seed: u64, rng: &mut Rng) -> Vec<u8> {
    // Every view and text after each call; some; or few, and more calls.
    let (density, scale) = match rng.below(100) {
        0..25 => (1000, 1),
        25..55 => (100, 2),
        _ => (8, 6),
    };
    let (machine, generator) = for_bytes(seed, scale);
    if !make_refusals(&machine).is_empty() {
        return refused(&machine, rng);
    }
    let mut maker = Maker::new(&machine, Rng::new(rng.next()), density, 60_000);
    generator.play_on(&mut maker);
    encode::list(&machine, &maker.calls)
}

/// A shorter one, with some views and texts.
pub fn small_list(seed: u64) -> Vec<u8> {
    let mut rng = Rng::new(seed ^ 0x5EED);
    let (machine, generator) = for_bytes(seed, 0);
    if !make_refusals(&machine).is_empty() {
        return refused(&machine, &mut rng);
    }
    let density = *rng.pick(&[5, 20, 60]);
    let mut maker = Maker::new(&machine, Rng::new(rng.next()), density, 1500);
    generator.play_on(&mut maker);
    encode::list(&machine, &maker.calls)
}

/// A machine that is refused, and any calls.
fn refused(machine: &Machine, rng: &mut Rng) -> Vec<u8> {
    let each = ends::one_of_each();
    let calls: Vec<_> = (0..rng.below(30))
        .map(|_| rng.pick(&each).clone())
        .collect();
    encode::list(machine, &calls)
}

/// A copy with bytes changed, cut, or with more at its end; of a long list only the first part.
fn wrong(list: &[u8], rng: &mut Rng) -> Vec<u8> {
    let mut list = list[..list.len().min(20_000)].to_vec();
    let whole = Trial {
        list: list.clone(),
        cells: 0,
        spare: 0,
    };
    list.truncate(whole.whole_calls());
    match rng.below(6) {
        0 => list.truncate(rng.below(list.len() as u64 + 1) as usize),
        1 => {
            for _ in 0..rng.range(1, 20) {
                list.push(rng.below(256) as u8);
            }
        }
        2 => {
            let call = encode::call(rng.pick(&ends::one_of_each()));
            list.extend(&call[..rng.range(1, call.len() as u64) as usize]);
        }
        _ => {
            // Of the machine, or anywhere.
            for _ in 0..*rng.pick(&[1, 1, 1, 2, 5]) {
                let most = if rng.percent(30) { 555 } else { list.len() };
                let at = rng.below(most.max(1) as u64) as usize;
                if let Some(byte) = list.get_mut(at) {
                    *byte = match rng.below(5) {
                        0 => rng.below(256) as u8,
                        1 => byte.wrapping_add(1),
                        2 => *byte ^ 1 << rng.below(8),
                        3 => *rng.pick(&[0, 1, 2, 8, 9, 16, 17, 64, 65, 255]),
                        _ => rng.below(50) as u8,
                    };
                }
            }
        }
    }
    list
}
