//! Runs each case with each library, round after round, and prints the medians.
//!
//!     bench-threads ROUNDS LIBRARY=PROGRAM.. [CASE..]
//!
//! The first library is ours: the last column is its time over that of the fastest other. A library whose program isn't
//! there has `-`. One whose program fails, or takes longer than five minutes, has `failed`, and the status is 1 then.
//! What each run took is printed to the standard error.
use std::env;
use std::path::PathBuf;
use std::process::{Command, ExitCode, Stdio};

use bench_threads::cases::{Case, CASES};

/// Seconds after which a run is ended.
const LIMIT: &str = "300";

struct Library {
    name: String,
    program: PathBuf,
}

impl Library {
    /// Runs a case once, in a process of its own, and returns the nanoseconds of an operation.
    fn run(&self, case: Case) -> Option<f64> {
        let mut command = Command::new("timeout");
        command
            .arg(LIMIT)
            .arg(&self.program)
            .args([case.name, &case.count.to_string()]);
        let output = command
            .stdin(Stdio::null())
            .stderr(Stdio::inherit())
            .output()
            .ok()?;
        if !output.status.success() {
            return None;
        }
        let printed = String::from_utf8(output.stdout).ok()?;
        let mut words = printed.split_whitespace();
        let (name, time) = (words.next()?, words.last()?);
        time.parse().ok().filter(|_| name == case.name)
    }
}

/// What a library did in the rounds of one case.
enum Cell {
    Missing,
    Failed,
    Times(Vec<f64>),
}

impl Cell {
    fn new(library: &Library) -> Self {
        if library.program.exists() {
            Cell::Times(Vec::new())
        } else {
            Cell::Missing
        }
    }

    /// Runs the case once more, unless the program is missing or has failed.
    fn add(&mut self, library: &Library, case: Case) {
        let Cell::Times(times) = self else { return };
        let time = library.run(case);
        let said = time.map_or("failed".to_owned(), |time| format!("{time:.1}"));
        eprintln!("{} {} {said}", case.name, library.name);
        match time {
            Some(time) => times.push(time),
            None => *self = Cell::Failed,
        }
    }

    fn median(&self) -> Option<f64> {
        match self {
            Cell::Times(times) => median(times),
            Cell::Missing | Cell::Failed => None,
        }
    }

    fn text(&self) -> String {
        match (self, self.median()) {
            (Cell::Failed, _) => "failed".to_owned(),
            (_, Some(median)) => format!("{median:.1}"),
            (_, None) => "-".to_owned(),
        }
    }
}

/// The middle of the times, or halfway between the two in the middle.
fn median(times: &[f64]) -> Option<f64> {
    let mut sorted = times.to_vec();
    sorted.sort_by(f64::total_cmp);
    let (above, below) = (
        sorted.get(sorted.len() / 2)?,
        sorted[(sorted.len() - 1) / 2],
    );
    Some((above + below) / 2.0)
}

/// The first library's median over the least of the others.
fn ratio(cells: &[Cell]) -> Option<f64> {
    let (ours, others) = cells.split_first()?;
    let fastest = others
        .iter()
        .filter_map(Cell::median)
        .min_by(f64::total_cmp)?;
    Some(ours.median()? / fastest)
}

fn print_row<'a>(case: &str, cells: impl Iterator<Item = &'a str>, last: &str) {
    let cells: String = cells.map(|cell| format!(" {cell:>14}")).collect();
    println!("{case:<16}{cells} {last:>14}");
}

/// The rounds, the libraries and the cases that the command line names.
fn arguments() -> Option<(usize, Vec<Library>, Vec<Case>)> {
    let mut words = env::args().skip(1);
    let rounds = words.next()?.parse().ok().filter(|rounds| *rounds > 0)?;
    let (mut libraries, mut cases) = (Vec::new(), Vec::new());
    for word in words {
        match word.split_once('=') {
            Some((name, program)) => libraries.push(Library {
                name: name.to_owned(),
                program: program.into(),
            }),
            None => cases.push(Case::named(&word)?),
        }
    }
    if cases.is_empty() {
        cases = CASES.to_vec();
    }
    Some((rounds, libraries, cases))
}

fn main() -> ExitCode {
    let Some((rounds, libraries, cases)) = arguments() else {
        let names: Vec<_> = CASES.iter().map(|case| case.name).collect();
        eprintln!(
            "usage: bench-threads ROUNDS LIBRARY=PROGRAM.. [CASE..]\ncases: {}",
            names.join(" ")
        );
        return ExitCode::from(2);
    };
    let row = || libraries.iter().map(Cell::new).collect::<Vec<_>>();
    let mut rows: Vec<_> = cases.iter().map(|case| (*case, row())).collect();
    for _ in 0..rounds {
        for (case, cells) in &mut rows {
            cells
                .iter_mut()
                .zip(&libraries)
                .for_each(|(cell, library)| cell.add(library, *case));
        }
    }
    print_row(
        "case",
        libraries.iter().map(|library| library.name.as_str()),
        "ours/fastest",
    );
    for (case, cells) in &rows {
        let texts: Vec<_> = cells.iter().map(Cell::text).collect();
        let ratio = ratio(cells).map_or("-".to_owned(), |ratio| format!("{ratio:.2}"));
        print_row(case.name, texts.iter().map(String::as_str), &ratio);
    }
    let failed = rows
        .iter()
        .flat_map(|(_, cells)| cells)
        .any(|cell| matches!(cell, Cell::Failed));
    ExitCode::from(u8::from(failed))
}
