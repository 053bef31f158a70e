//! Where the model and the Rust part, for a list on which they disagree: claims on the bits of the
//! place of the first difference, of which antt refuses those that are 0. harness/find.sh asks them.

use std::fmt::Write as _;
use std::path::Path;
use std::process::ExitCode;
use std::{fs, io};

use crate::call::Step;
use crate::generate::generate;
use crate::play::Case;
use crate::terms::{call_term, joined};
use crate::write::file_of;

/// Writes claims into the crate at `folder`: on which number of the list is the first that differs, or,
/// given that, on which place of the list of numbers behind it.
pub fn find(seed: u64, folder: &str, number: Option<usize>) -> ExitCode {
    let case = generate(seed);
    if number.is_some_and(|number| number >= case.lists.len()) {
        println!("seed {seed}: the model and the Rust agree");
        return ExitCode::FAILURE;
    }
    match claims(&case, Path::new(folder), number) {
        Ok(()) => ExitCode::SUCCESS,
        Err(error) => {
            eprintln!("{folder}: {error}");
            ExitCode::FAILURE
        }
    }
}

/// Says what stands at a place of the list behind a number.
pub fn at(seed: u64, number: usize, place: usize) -> ExitCode {
    let case = generate(seed);
    let list = &case.lists[number];
    println!("seed {seed}, step {number} of {}:", case.steps.len());
    match number.checked_sub(1).map(|at| &case.steps[at]) {
        None => println!("    making"),
        Some(Step::Shown(call) | Step::Quiet(call)) => println!("    {}", call_term(call)),
        Some(other) => println!("    {other:?}"),
    }
    let parts = list.parts.iter().rev();
    let part = parts.clone().find(|(start, _)| *start <= place);
    let (start, name) = part.map_or((0, "making"), |(start, name)| (*start, name));
    println!(
        "the first difference is in: {name}, number {}",
        place - start
    );
    let end = parts
        .map(|(start, _)| *start)
        .filter(|end| *end > place)
        .min();
    let end = end.unwrap_or(list.list.len());
    println!("the Rust gives there: {:?}", &list.list[start..end]);
    ExitCode::SUCCESS
}

fn claims(case: &Case, folder: &Path, number: Option<usize>) -> io::Result<()> {
    let lists = folder.join("specs/Sample");
    if lists.exists() {
        fs::remove_dir_all(&lists)?;
    }
    fs::create_dir_all(&lists)?;
    let (place, before, own) = match number {
        None => (
            "place (numbers_of case_1) (case_1.numbers)",
            case.steps.len(),
            0..0,
        ),
        Some(0) => ("place (making case_1) expected", 0, 0..0),
        Some(n) => ("place (behind case_1 case_2) expected", n - 1, n - 1..n),
    };
    let first = file_of(1, case, &case.steps[..before]);
    fs::write(lists.join("List1.antt"), first)?;
    fs::write(lists.join("List2.antt"), file_of(2, case, &case.steps[own]))?;
    let sample = "pub mod List1\npub mod List2\n";
    fs::write(folder.join("specs/Sample.antt"), sample)?;
    let expected = number.map_or(&[][..], |number| &case.lists[number].list);
    fs::write(folder.join("proofs/Sampled.antt"), bits(place, expected))
}

/// Claims that each bit of the place is 1.
fn bits(place: &str, expected: &[u64]) -> String {
    let mut file = PLACE.to_string();
    let expected: Vec<String> = expected.iter().map(u64::to_string).collect();
    let expected = joined(&expected);
    let _ = write!(file, "\nexpected : List ℕ\nexpected =\n{expected}\n");
    for bit in 0..14 {
        let _ = write!(
            file,
            "
bit-{bit} : eqb ({place} / {} % 2) 1 ≡ true
unfolding everything digest lists_of_calls place cycles calls_of answers played step behind making expected
bit-{bit} = refl
",
            1 << bit
        );
    }
    file
}

const PLACE: &str = "-- On the bits of the place of the first difference.
use Prim.Native.Nat.{ℕ, zero, suc, ◌/◌, ◌%◌}
use mathlib.Core.Path.{◌≡◌, refl}
use mathlib.Core.Bool.{true, cond}
use Rattle.std.specs.Prelude.{None}
use mathlib.Core.List.{List, [], ◌∷◌, ◌++◌}
use lib.Dec.{eqb}
use lib.ListN.{replicate}
use Rattle.model.specs.State.{State, new}
use Rattle.model.specs.Calls.{Call, start, advance, after, memory_after, make_memory, runs, memories}
use Rattle.model.specs.Everything.{everything}
use Rattle.samples.specs.Digest.{digest, call_numbers, everything_shown}
use Rattle.samples.specs.Lists.{Step, shown, quiet, idle, rest, Case, all_shown, numbers_of, lists_of_calls}
use Rattle.samples.specs.Sample.List1.{case_1}
use Rattle.samples.specs.Sample.List2.{case_2}

place : List ℕ → List ℕ → ℕ
place [] ys = 0
place (x ∷ xs) [] = 0
place (x ∷ xs) (y ∷ ys) = cond (eqb x y) (suc (place xs ys)) 0

cycles : ℕ → ℕ → List Call
cycles zero lent = []
cycles (suc n) lent = start ∷ advance None lent ∷ cycles n lent

calls_of : List Step → List Call
calls_of [] = []
calls_of (shown c ∷ cs) = c ∷ calls_of cs
calls_of (quiet c ∷ cs) = c ∷ calls_of cs
calls_of (idle n lent ∷ cs) = cycles n lent ++ calls_of cs
calls_of (rest ∷ cs) = calls_of cs

answers : State → List ℕ → List Call → List ℕ → List ℕ
answers s m [] l = l
answers s m (c ∷ cs) l = call_numbers s m c (answers (after s c) (memory_after s c m) cs l)

played : State → List ℕ → List Call → List ℕ
played s m cs = answers s m cs (everything_shown (runs s cs) (memories s m cs) [])

step : State → List ℕ → List Step → List ℕ
step s m [] = []
step s m (shown c ∷ cs) = played s m (c ∷ [])
step s m (quiet c ∷ cs) = call_numbers s m c []
step s m (idle n lent ∷ cs) = played s m (cycles n lent)
step s m (rest ∷ cs) = all_shown s m []

made : Case → State
made c = new c.shape c.entry

lent_memory : Case → List ℕ
lent_memory c = make_memory c.shape (replicate c.lent 7)

-- The list behind a number: the steps before it, and its own.
behind : Case → Case → List ℕ
unfolding made lent_memory
behind b c = step (runs (made b) (calls_of b.steps)) (memories (made b) (lent_memory b) (calls_of b.steps)) c.steps

making : Case → List ℕ
unfolding made lent_memory
making c = 1 ∷ all_shown (made c) (lent_memory c) []
";
