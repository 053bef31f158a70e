//! A fixed sample of lists with the Rust's answers, for the program `vectors`, which needs no Rust.
//!
//! data/lists is: a number, how many lists; then for each list a head of 48 bytes and its bytes. A head
//! is a name (16 bytes, spaces at its end) and four numbers: the bytes of the list, of the cell memory
//! and of `out`, and the bytes of a block. Before the call the cell memory is all 19 and `out` all 7.
//! stdout has a line for each list: its name as in the head, the number answered, the digest of the cell memory, and
//! the digest of each block of `out`. The digest of a block of one byte is that byte.

use std::collections::BTreeSet;
use std::fmt::Write as _;
use std::path::Path;
use std::process::ExitCode;
use std::{fs, io};

use crate::bench;
use crate::call::{Call, Machine, View};
use crate::compare::small_list;
use crate::decode::totals;
use crate::encode;
use crate::ends;
use crate::reference;
use crate::tally::Tally;

/// The most bytes of a list, of the cell memory and of `out`.
const MOST: (usize, usize, usize) = (131_072, 51_328, 262_144);
/// The bytes of all lists chosen from seeds.
const ALL: usize = 600_000;

struct Vector {
    name: String,
    list: Vec<u8>,
    cells: usize,
    out: usize,
    block: usize,
}

/// From h = 0, for each byte b: h = (h * 16777619 + b) mod 4294967291.
fn digest(bytes: &[u8]) -> u64 {
    bytes.iter().fold(0, |h, byte| {
        (h * 16_777_619 + u64::from(*byte)) % 4_294_967_291
    })
}

impl Vector {
    /// With exactly the memory that it needs, and some bytes more; small ones byte for byte.
    fn new(name: impl Into<String>, list: Vec<u8>) -> Self {
        let (cells, out) = match totals(&list) {
            Some(totals) => (totals.lent as usize, totals.size + 3),
            None => (400, 20),
        };
        Self {
            name: name.into(),
            list,
            cells,
            out,
            block: if out <= 1024 { 1 } else { 1024 },
        }
    }

    fn head(&self) -> Vec<u8> {
        let mut head = format!("{:16}", self.name).into_bytes();
        for number in [self.list.len(), self.cells, self.out, self.block] {
            head.extend((number as u64).to_le_bytes());
        }
        assert_eq!(head.len(), 48);
        head
    }

    fn line(&self, tally: &mut Tally) -> String {
        let mut cells = vec![19; self.cells];
        let mut out = vec![7; self.out];
        let answer = reference::play(&self.list, &mut cells, &mut out, tally);
        let mut line = format!("{:16} {answer} {}", self.name, digest(&cells));
        for block in out.chunks(self.block) {
            let _ = write!(line, " {}", digest(block));
        }
        line
    }

    fn fits(&self) -> bool {
        self.list.len() <= MOST.0 && self.cells <= MOST.1 && self.out <= MOST.2
    }
}

/// Writes data/lists and stdout into the crate at `folder`.
pub fn vectors(folder: &str) -> ExitCode {
    let mut vectors = forms();
    vectors.extend(chosen());
    match write(&vectors, Path::new(folder)) {
        Ok(()) => ExitCode::SUCCESS,
        Err(error) => {
            eprintln!("{folder}: {error}");
            ExitCode::FAILURE
        }
    }
}

fn write(vectors: &[Vector], folder: &Path) -> io::Result<()> {
    let mut lists = (vectors.len() as u64).to_le_bytes().to_vec();
    let mut lines = String::new();
    let mut tally = Tally::default();
    for vector in vectors {
        assert!(vector.fits(), "{}", vector.name);
        lists.extend(vector.head());
        lists.extend(&vector.list);
        lines += &vector.line(&mut tally);
        lines.push('\n');
    }
    fs::create_dir_all(folder.join("data"))?;
    fs::write(folder.join("data/lists"), &lists)?;
    fs::write(folder.join("stdout"), &lines)?;
    println!(
        "{} lists, {} calls, {} bytes of lists, {} of answers",
        vectors.len(),
        tally.calls(),
        lists.len(),
        lines.len()
    );
    let missing = tally.missing().into_iter();
    for what in missing.filter(|what| !what.ends_with("16777216 bytes")) {
        println!("not reached: {what}");
    }
    Ok(())
}

/// One of each call, and what is wrong with lists and machines.
fn forms() -> Vec<Vector> {
    let calls = ends::one_of_each();
    let each = encode::list(&ends::machine(), &calls);
    let with = |change: fn(&mut Machine)| {
        let mut machine = ends::machine();
        change(&mut machine);
        encode::list(&machine, &calls[..8])
    };
    let changed = |at: usize, byte: u8| {
        let mut list = each.clone();
        list[at] = byte;
        list
    };
    let mut more = each.clone();
    more.push(5);
    let mut vectors = vec![
        Vector::new("each", each.clone()),
        Vector::new("empty", Vec::new()),
        Vector::new("machine", each[..555].to_vec()),
        Vector::new("machine-cut", each[..554].to_vec()),
        Vector::new("call-cut", each[..each.len() - 1].to_vec()),
        Vector::new("call-begun", more),
        Vector::new("no-call", changed(555, 49)),
        Vector::new("no-flag", changed(56, 2)),
        Vector::new("no-class", changed(126, 10)),
        Vector::new("no-role", changed(105, 8)),
        Vector::new("history-257", with(|machine| machine.history = 257)),
        Vector::new("no-name", with(|machine| machine.kinds[1].name.clear())),
        Vector::new("extra", with(|machine| machine.extras[6] = u64::MAX)),
        Vector::new(
            "extra-and-lent",
            with(|machine| {
                machine.extras[2] = u64::MAX;
                machine.lent = 399;
            }),
        ),
        Vector::new("lent-399", with(|machine| machine.lent = 399)),
        Vector::new(
            "all-three",
            with(|machine| {
                machine.kinds[0].name = b"123456789".to_vec();
                machine.extras[0] = u64::MAX;
                machine.lent = 0;
            }),
        ),
    ];
    let mut short = Vector::new("out-short", each.clone());
    short.out -= 4;
    let mut cells = Vector::new("cells-short", each);
    cells.cells -= 1;
    let mut both = Vector::new("cut-and-short", vectors[4].list.clone());
    both.cells = 0;
    both.out = 0;
    vectors.extend([short, cells, both]);
    vectors.push(case_w());
    vectors.push(rows());
    vectors
}

/// More fetches than a history of 256 rows holds: the oldest rows go.
fn rows() -> Vector {
    let machine = bench::machine(2, 256);
    let mut calls = bench::run(&machine, &bench::independent(16), false, 520);
    for at in [0, 1, 254, 255, 256] {
        calls.push(Call::View(View::TimelineRow(at)));
        calls.extend([0, 3, 4, 5, 6].map(|cell| Call::Cell(at, cell, machine.lent)));
    }
    Vector::new("rows", encode::list(&machine, &calls))
}

/// Case W of document 01: the totals and the rows after it.
fn case_w() -> Vector {
    let (machine, calls) = ends::case_w();
    let mut calls: Vec<Call> = calls;
    calls.extend(
        ends::one_of_each()
            .into_iter()
            .filter(|call| !call.changes()),
    );
    Vector::new("case-w", encode::list(&machine, &calls))
}

/// Of the lists that seeds make those that together reach much for their size.
fn chosen() -> Vec<Vector> {
    let made = (1..=1500).map(|seed| Vector::new(format!("seed-{seed}"), small_list(seed)));
    let mut rest: Vec<(Vector, Vec<(String, u64)>)> = made
        .filter(Vector::fits)
        .map(|vector| {
            let mut tally = Tally::default();
            vector.line(&mut tally);
            (vector, tally.reached())
        })
        .collect();
    let mut seen: BTreeSet<String> = BTreeSet::new();
    let mut list = Vec::new();
    let mut size = 0;
    loop {
        let worth = |(vector, reached): &(Vector, Vec<(String, u64)>)| {
            let new = reached.iter().filter(|(what, _)| !seen.contains(what));
            let new: u64 = new.map(|(_, weight)| weight).sum();
            new * 1_000_000 / (2000 + vector.list.len() as u64)
        };
        let best = (0..rest.len()).max_by_key(|at| (worth(&rest[*at]), usize::MAX - at));
        let Some(best) = best.filter(|best| worth(&rest[*best]) > 0) else {
            return list;
        };
        let (vector, reached) = rest.swap_remove(best);
        if size + vector.list.len() <= ALL {
            size += vector.list.len();
            seen.extend(reached.into_iter().map(|(what, _)| what));
            list.push(vector);
        }
    }
}
