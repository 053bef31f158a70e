//! Lists of calls played on the Rust engine, and what it answered and showed, for the model to be
//! held against. docs/SAMPLES.md says what is compared and how to make more.

mod ask;
mod bare;
mod bench;
mod call;
mod compare;
mod coverage;
mod decode;
mod driver;
mod encode;
mod ends;
mod everything;
mod find;
mod generate;
mod lay;
mod layout;
mod machines;
mod maker;
mod names;
mod numbers;
mod operations;
mod ours;
mod play;
mod reference;
mod refuse;
mod rng;
mod shape;
mod show;
mod tally;
mod terms;
mod texts;
mod trial;
mod vectors;
mod views;
mod waits;
mod wanted;
mod write;

include!(concat!(env!("OUT_DIR"), "/raven.rs"));

use std::process::ExitCode;

use ours::Ours;

/// The work runs on a thread with a large stack.
fn main() -> ExitCode {
    let thread = std::thread::Builder::new().stack_size(256 << 20);
    let thread = thread.spawn(run).expect("a thread");
    thread.join().unwrap_or(ExitCode::FAILURE)
}

fn run() -> ExitCode {
    let words: Vec<String> = std::env::args().skip(1).collect();
    let words: Vec<&str> = words.iter().map(String::as_str).collect();
    let number = |word: &str| word.parse::<u64>().ok();
    match words.as_slice() {
        ["coverage", seed, count] => {
            if let (Some(seed), Some(count)) = (number(seed), number(count)) {
                return coverage(seed, count);
            }
        }
        ["sample", seed, count, folder] => {
            if let (Some(seed), Some(count)) = (number(seed), number(count)) {
                return write::sample(seed, count, folder);
            }
        }
        ["choose", seed, pool, count, folder] => {
            if let (Some(seed), Some(pool), Some(count)) =
                (number(seed), number(pool), number(count))
            {
                return write::choose(seed, pool, count, folder);
            }
        }
        ["compare", seed, count] => {
            if let (Some(seed), Some(count)) = (number(seed), number(count)) {
                return with_archive(|ours| compare::compare(ours, seed, count));
            }
        }
        ["bench"] => return with_archive(|ours| bench::bench(ours, 20_000, 9)),
        ["bench", cycles, rounds] => {
            if let (Some(cycles), Some(rounds)) = (number(cycles), number(rounds)) {
                return with_archive(|ours| bench::bench(ours, cycles, rounds));
            }
        }
        ["vectors", folder] => return vectors::vectors(folder),
        ["fault", fault, seed, count] => {
            if let (Some(fault), Some(seed), Some(count)) =
                (number(fault), number(seed), number(count))
            {
                return compare::compare(Ours::Fault(fault), seed, count);
            }
        }
        ["find", seed, folder] => {
            if let Some(seed) = number(seed) {
                return find::find(seed, folder, None);
            }
        }
        ["find", seed, folder, at] => {
            if let (Some(seed), Some(at)) = (number(seed), number(at)) {
                return find::find(seed, folder, Some(at as usize));
            }
        }
        ["at", seed, at, place] => {
            if let (Some(seed), Some(at), Some(place)) = (number(seed), number(at), number(place)) {
                return find::at(seed, at as usize, place as usize);
            }
        }
        _ => {}
    }
    eprintln!(
        "harness sample SEED COUNT FOLDER         writes COUNT lists into the crate at FOLDER"
    );
    eprintln!(
        "harness choose SEED POOL COUNT FOLDER    the same, with COUNT of POOL that reach much"
    );
    eprintln!(
        "harness coverage SEED COUNT              plays COUNT lists and says what they reached"
    );
    eprintln!("harness compare SEED COUNT               compares calls_play with the Rust");
    eprintln!("harness bench [CYCLES ROUNDS]            measures calls_play and the Rust");
    eprintln!("harness vectors FOLDER                   writes the lists of the crate vectors");
    eprintln!("harness fault FAULT SEED COUNT           the same with a fault put in (ours.rs)");
    eprintln!("harness find SEED FOLDER [NUMBER]        for find.sh");
    eprintln!("harness at SEED NUMBER PLACE             for find.sh");
    ExitCode::from(2)
}

fn with_archive(work: impl FnOnce(Ours) -> ExitCode) -> ExitCode {
    let Some(ours) = Ours::linked() else {
        eprintln!("no archive was linked: see build.rs");
        return ExitCode::from(2);
    };
    work(ours)
}

fn coverage(seed: u64, count: u64) -> ExitCode {
    let mut all = coverage::Coverage::default();
    for index in 0..count {
        all.add(&generate::generate(seed.wrapping_add(index)).coverage);
    }
    print!("{all}");
    ExitCode::SUCCESS
}
