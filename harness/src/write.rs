//! Lists of calls, with the Rust's numbers, as files of a crate: specs/Sample.antt, a file of
//! specs/Sample/ for each list, and proofs/Sampled.antt.

use std::collections::BTreeSet;
use std::fmt::Write as _;
use std::path::Path;
use std::process::ExitCode;
use std::{fs, io};

use crate::call::Step;
use crate::coverage::Coverage;
use crate::generate::generate;
use crate::play::Case;
use crate::terms::{joined, number_list, shape, steps, wrap};

/// Writes `count` lists from a seed into the crate at `folder`, and says what they reached.
pub fn sample(seed: u64, count: u64, folder: &str) -> ExitCode {
    let cases: Vec<Case> = (0..count).map(|i| generate(seed.wrapping_add(i))).collect();
    put(&cases, folder)
}

/// The same with the `count` lists, of `pool` from a seed, that together reach most for what they
/// cost to compute.
pub fn choose(seed: u64, pool: u64, count: u64, folder: &str) -> ExitCode {
    let mut rest: Vec<(Case, Vec<(String, u64)>)> = (0..pool)
        .map(|i| generate(seed.wrapping_add(i)))
        .map(|case| {
            let reached = case.coverage.reached();
            (case, reached)
        })
        .filter(|(case, _)| case.cost() < MOST)
        .collect();
    let mut seen: BTreeSet<String> = BTreeSet::new();
    let mut cases = Vec::new();
    for _ in 0..count {
        let worth = |(case, reached): &(Case, Vec<(String, u64)>)| {
            let new = reached.iter().filter(|(what, _)| !seen.contains(what));
            let new: u64 = new.map(|(_, weight)| weight).sum();
            (10 * new + case.coverage.depth()) * 100_000 / (1000 + case.cost())
        };
        let Some(best) = (0..rest.len()).max_by_key(|at| (worth(&rest[*at]), usize::MAX - at))
        else {
            break;
        };
        let (case, reached) = rest.remove(best);
        seen.extend(reached.into_iter().map(|(what, _)| what));
        cases.push(case);
    }
    put(&cases, folder)
}

/// The most that a chosen list may cost.
const MOST: u64 = 9000;

fn put(cases: &[Case], folder: &str) -> ExitCode {
    if let Err(error) = files(cases, Path::new(folder)) {
        eprintln!("{folder}: {error}");
        return ExitCode::FAILURE;
    }
    let mut all = Coverage::default();
    for case in cases {
        all.add(&case.coverage);
    }
    print!("{all}");
    ExitCode::SUCCESS
}

fn files(cases: &[Case], folder: &Path) -> io::Result<()> {
    let lists = folder.join("specs/Sample");
    if lists.exists() {
        fs::remove_dir_all(&lists)?;
    }
    fs::create_dir_all(&lists)?;
    for (index, case) in cases.iter().enumerate() {
        let number = index + 1;
        let file = file_of(number, case, &case.steps);
        fs::write(lists.join(format!("List{number}.antt")), file)?;
    }
    fs::write(folder.join("specs/Sample.antt"), collection(cases.len()))?;
    fs::write(folder.join("proofs/Sampled.antt"), proof(cases.len()))
}

// ── Files ───────────────────────────────────────────────────────────────────

const MADE: &str = "Made by the harness: see docs/SAMPLES.md.";

/// Names that a list's file may use, by module.
const NAMES: [(&str, &[&str]); 7] = [
    (
        "Rattle.std.specs.Prelude",
        &["ℕ", "true", "false", "List", "[]", "◌∷◌", "None", "Some"],
    ),
    ("Rattle.laws.specs.Texts", &["bytes"]),
    (
        "Rattle.capability.specs.declared.PipelineInstructionClass.TheVariants",
        &[
            "Alu",
            "Multiply",
            "Divide",
            "Load",
            "Store",
            "Branch",
            "Jump",
            "System",
            "FloatingPoint",
            "Unknown",
        ],
    ),
    (
        "Rattle.model.specs.Config",
        &["timing", "unit_spec", "PipelineShape", "pipeline_shape"],
    ),
    (
        "Rattle.model.specs.Requests",
        &[
            "in_queue",
            "in_station",
            "in_stage",
            "in_unit",
            "on_offer",
            "disassembly",
            "destination",
            "fault as fault_note",
            "source",
            "write",
            "status_message",
            "slot_text",
            "trace_detail",
            "row_disassembly",
            "stage_name",
            "unit_name",
            "station_label",
            "rename_register",
            "cell_label",
            "operand_register",
        ],
    ),
    (
        "Rattle.model.specs.Calls",
        &[
            "status",
            "stats",
            "enabled",
            "fetch_pc",
            "resume_pc",
            "stage_count",
            "edges",
            "entry_stages",
            "stage_order",
            "unit_count",
            "trace_count",
            "timeline_len",
            "station_count",
            "rename_count",
            "queue_count",
            "buffer_count",
            "buffer_capacity",
            "in_flight_before",
            "stage",
            "unit",
            "trace",
            "timeline_row",
            "station",
            "rename",
            "queued",
            "buffer_entry",
            "start",
            "retire",
            "retry",
            "resolve",
            "advance",
            "fetch",
            "capacity",
            "overlap",
            "halt",
            "fault",
            "reset",
            "redirect",
            "view",
            "cell",
            "text",
        ],
    ),
    (
        "Rattle.samples.specs.Lists",
        &[
            "Step", "shown", "quiet", "rest", "Case", "case_of", "op", "idle",
        ],
    ),
];

/// The file of a list, with some of its steps.
pub fn file_of(number: usize, case: &Case, some: &[Step]) -> String {
    let machine = &case.machine;
    let mut body = String::new();
    let _ = writeln!(body, "abbrev shape : PipelineShape");
    let mut lines = String::new();
    wrap(&mut lines, &mut shape(machine));
    let _ = writeln!(body, "shape =\n{lines}");
    let _ = writeln!(body, "abbrev steps : List Step");
    let _ = writeln!(body, "steps =\n{}\n", steps(some));
    let _ = writeln!(body, "abbrev numbers : List ℕ");
    let _ = writeln!(body, "numbers =\n{}\n", number_list(&case.numbers()));
    let _ = writeln!(body, "abbrev pub case_{number} : Case");
    let _ = writeln!(
        body,
        "case_{number} = case_of shape {} {} steps numbers",
        machine.entry, machine.lent
    );
    let words: BTreeSet<&str> = body
        .split(|c: char| c.is_whitespace() || c == '(' || c == ')')
        .collect();
    let seed = case.seed;
    let mut file = format!("-- List {number} of the sample, from seed {seed}. {MADE}\n");
    for (module, names) in NAMES {
        let used: Vec<&str> = names
            .iter()
            .filter(|name| {
                let word = name.rsplit(' ').next().expect("a name");
                word == "◌∷◌" || words.contains(word)
            })
            .copied()
            .collect();
        uses(&mut file, module, &used);
    }
    if body.contains("role.") {
        file.push_str(
            "use Rattle.capability.specs.declared.PipelineStageRole.TheVariants as role\n",
        );
    }
    file.push('\n');
    file.push_str(&body);
    file
}

/// A `use` line, in lines where it is long.
fn uses(file: &mut String, module: &str, names: &[&str]) {
    if names.is_empty() {
        return;
    }
    let line = format!("use {module}.{{{}}}\n", names.join(", "));
    if line.chars().count() <= 140 {
        file.push_str(&line);
        return;
    }
    let _ = writeln!(file, "use {module}.{{");
    for name in names {
        let _ = writeln!(file, "  {name},");
    }
    file.push_str("}\n");
}

fn collection(count: usize) -> String {
    let mut file = format!("-- The lists of the sample. {MADE}\n");
    file.push_str("use Rattle.std.specs.Prelude.{List, [], ◌∷◌}\n");
    file.push_str("use Rattle.samples.specs.Lists.{Case}\n");
    for number in 1..=count {
        let _ = writeln!(file, "use List{number}.{{case_{number}}}");
    }
    for number in 1..=count {
        let _ = writeln!(file, "pub mod List{number}");
    }
    let cases: Vec<String> = (1..=count).map(|n| format!("case_{n}")).collect();
    file.push_str("\nabbrev pub sample : List Case\nsample =\n");
    file.push_str(&joined(&cases));
    file.push('\n');
    file
}

fn proof(count: usize) -> String {
    let mut file = format!(
        "-- The model answers and shows what the Rust does, over the whole sample. {MADE}\n"
    );
    file.push_str(
        "use mathlib.Core.Path.{◌≡◌, refl}
use mathlib.Core.Bool.{true}
use Rattle.std.specs.List.{list_all}
use Rattle.model.specs.Everything.{everything}
use Rattle.samples.specs.Digest.{digest}
use Rattle.samples.specs.Lists.{agrees, lists_of_calls}
use Rattle.samples.specs.Sample.{sample}
use Rattle.samples.proofs.Tests.{all_true}
",
    );
    for number in 1..=count {
        let _ = writeln!(
            file,
            "use Rattle.samples.specs.Sample.List{number}.{{case_{number}}}"
        );
    }
    for number in 1..=count {
        let _ = write!(
            file,
            "
agrees-{number} : agrees case_{number} ≡ true
unfolding everything digest lists_of_calls
agrees-{number} = refl
"
        );
    }
    let mut all = (1..=count)
        .rev()
        .fold("tt".to_string(), |rest, n| format!("(agrees-{n}, {rest})"));
    file.push_str(
        "\npub sampled : list_all agrees sample ≡ true\nsampled =\n    all_true agrees sample\n",
    );
    wrap(&mut file, &mut all);
    file
}
