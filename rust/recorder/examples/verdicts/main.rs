//! Reads the verdicts that `judge.sh` prints, and says whether they are those that the runs should have:
//!
//!     rust/recorder/judge.sh RUNS/*.run | cargo run --example verdicts -- VERDICTS RUNS
//!
//! A run that is named in the folder VERDICTS has the verdict of that file. One of a free random program is a run, meets
//! a corrected rule, or has a recording that stopped. Any other is a run. The status is 1 where one has another verdict,
//! or none.
use std::collections::BTreeMap;
use std::error::Error;
use std::io::Read;
use std::path::Path;
use std::process::ExitCode;
use std::{env, fs, io};

mod rules;

use rules::{Difference, RULES, Reply};

/// What was found of a run.
#[derive(Clone, Copy, Debug, PartialEq, Eq, PartialOrd, Ord)]
enum Found {
    /// It is a run.
    Run,
    /// It meets the corrected rule of this number.
    Meets(usize),
    /// Its recording stopped.
    Stopped,
    /// It has the verdict that is kept for it.
    Kept,
}

fn main() -> Result<ExitCode, Box<dyn Error>> {
    let arguments: Vec<String> = env::args().skip(1).collect();
    let [kept, runs] = &arguments[..] else {
        return Err("usage: verdicts VERDICTS RUNS".into());
    };
    let mut text = String::new();
    io::stdin().read_to_string(&mut text)?;
    let entries: Vec<&str> = text.split("== ").filter(|entry| !entry.is_empty()).collect();
    let (mut found, mut others) = (BTreeMap::new(), fs::read_dir(runs)?.count().abs_diff(entries.len()));
    if others > 0 {
        println!("{others} runs have no verdict, or none of these");
    }
    for entry in entries {
        match judged(entry, Path::new(kept)) {
            Some(what) => *found.entry(what).or_insert(0) += 1,
            None => {
                println!("another verdict: {entry}");
                others += 1;
            }
        }
    }
    print_found(&found, others);
    Ok(ExitCode::from(u8::from(others > 0 || found.is_empty())))
}

fn print_found(found: &BTreeMap<Found, usize>, others: usize) {
    for (number, rule) in RULES.iter().enumerate() {
        println!("{:6}  {}", count(found, Found::Meets(number)), rule.name);
    }
    let met: usize = (0..RULES.len()).map(|number| count(found, Found::Meets(number))).sum();
    let (runs, stopped, kept) = (count(found, Found::Run), count(found, Found::Stopped), count(found, Found::Kept));
    println!(
        "{} recordings: {runs} runs, {met} meet a corrected rule, {stopped} stopped, {kept} as kept, {others} otherwise",
        runs + met + stopped + kept + others
    );
}

fn count(found: &BTreeMap<Found, usize>, what: Found) -> usize {
    found.get(&what).copied().unwrap_or(0)
}

/// Returns what was found of a run, where that is right.
fn judged(entry: &str, kept: &Path) -> Option<Found> {
    let (file, verdict) = entry.trim_end().split_once('\n')?;
    let name = Path::new(file).file_stem()?.to_string_lossy();
    if let Ok(expected) = fs::read_to_string(kept.join(format!("{name}.verdict"))) {
        return (expected.trim_end() == verdict).then_some(Found::Kept);
    }
    let is_free = name.starts_with("free_");
    match verdict.rsplit_once('\n')?.1 {
        "status 0" => Some(Found::Run),
        "status 1" if is_free => met(&fs::read_to_string(file).ok()?, verdict).map(Found::Meets),
        "status 2" if is_free => has_stopped(&fs::read_to_string(file).ok()?, verdict).then_some(Found::Stopped),
        _ => None,
    }
}

/// Returns whether the verdict names the line that says why the recording stopped, which is the last.
fn has_stopped(run: &str, verdict: &str) -> bool {
    let (count, last) = (run.lines().count(), run.lines().last().unwrap_or_default());
    last.starts_with("# stopped at ") && verdict.starts_with(&format!("line {count}: no reply\n"))
}

/// Returns the number of the rule that a run meets where its verdict says that it is none.
fn met(run: &str, verdict: &str) -> Option<usize> {
    let lines: Vec<&str> = run.lines().collect();
    let mut words = verdict.lines();
    let line: usize = words.next()?.strip_prefix("line ")?.split_once(':')?.0.parse().ok()?;
    let recorded = Reply::read(words.next()?.strip_prefix("recorded: ")?)?;
    let given = Reply::read(words.next()?.strip_prefix("given: ")?)?;
    let before = &lines[..line - 1];
    let command = said(lines.get(line - 1)?.split_once(" => ")?.0, before)?;
    let primitive = lines.first()?.split(' ').next()?;
    let difference = Difference { primitive, command: &command, before, recorded, given };
    RULES.iter().position(|rule| (rule.makes)(&difference))
}

/// Returns the command, of a poll with what was asked in place of the numbers.
fn said(command: &str, before: &[&str]) -> Option<String> {
    let Some(request) = command.strip_prefix("poll ").and_then(|rest| rest.split(' ').next()) else {
        return Some(command.to_string());
    };
    let start = format!("start {request} ");
    let ask = before.iter().rev().find_map(|line| line.strip_prefix(&start))?;
    Some(format!("poll {}", ask.split(' ').next()?))
}
