//! The runs of a program: what was recorded of each primitive.
use std::collections::BTreeMap;
use std::fmt;
use std::fs;
use std::io;
use std::panic::Location;
use std::path::Path;
use std::sync::{Arc, Mutex};

use super::limits::Stop;
use super::tape::{Head, Tape};
use super::turn::lock;

/// What was recorded of a primitive.
#[derive(Clone, Debug, PartialEq, Eq)]
pub struct Run {
    /// The primitive, and the file and the line where it was made: `channel-main-12`.
    pub name: String,
    /// The run, as `esync check` reads it. Where the recording stopped, the last line says why.
    pub text: String,
    /// Each message's number that isn't its own, with the text or the own number that it stands for, in order.
    pub legend: Vec<(u64, String)>,
    /// Why the recording stopped, if it did.
    pub stop: Option<Stop>,
}

/// Returns what was recorded of this primitive so far.
pub trait Recorded {
    /// Returns the run, which ends with the last call that was answered.
    fn run(&self) -> Run;
}

/// Why the runs of a program weren't all saved whole.
pub enum Unsaved {
    /// A file couldn't be written.
    Io(io::Error),
    /// These recordings stopped. Their files are written, and end with a line that says why.
    Stopped(Vec<Run>),
}

impl fmt::Display for Unsaved {
    fn fmt(&self, f: &mut fmt::Formatter<'_>) -> fmt::Result {
        match self {
            Unsaved::Io(error) => write!(f, "{error}"),
            Unsaved::Stopped(runs) => {
                let reasons =
                    runs.iter().filter_map(|run| Some(format!("{} stopped at {}", run.name, run.stop.as_ref()?)));
                write!(f, "{}", reasons.collect::<Vec<_>>().join("; "))
            }
        }
    }
}

/// Shows the reasons alone, so that a test which unwraps the error says them.
impl fmt::Debug for Unsaved {
    fn fmt(&self, f: &mut fmt::Formatter<'_>) -> fmt::Result {
        fmt::Display::fmt(self, f)
    }
}

impl std::error::Error for Unsaved {}

impl From<io::Error> for Unsaved {
    fn from(error: io::Error) -> Self {
        Unsaved::Io(error)
    }
}

struct Known {
    tapes: Vec<Arc<Tape>>,
    made: BTreeMap<String, usize>,
}

static KNOWN: Mutex<Known> = Mutex::new(Known { tapes: Vec::new(), made: BTreeMap::new() });

/// Makes the tape of a primitive that was made here.
pub(crate) fn add(origin: &Location<'_>, head: Head) -> Arc<Tape> {
    let mut known = lock(&KNOWN);
    let file = Path::new(origin.file()).file_stem().unwrap_or_default().to_string_lossy().into_owned();
    let mut name = format!("{}-{file}-{}", head.kind, origin.line());
    let count = known.made.entry(name.clone()).or_default();
    *count += 1;
    if *count > 1 {
        name = format!("{name}-{count}");
    }
    let tape = Arc::new(Tape::new(name, head));
    known.tapes.push(Arc::clone(&tape));
    tape
}

/// Returns the runs of all primitives that were called, in the order of their first calls.
///
/// Forgets the primitives that are gone, of which these runs have the last calls.
pub fn take() -> Vec<Run> {
    let mut runs = Vec::new();
    lock(&KNOWN).tapes.retain(|tape| {
        // (asked before the run is read: a primitive that is gone by then makes no call after it)
        let is_there = Arc::strong_count(tape) > 1;
        runs.push(tape.run());
        is_there
    });
    runs
}

/// Writes what [`take`] returns into this folder, a file a primitive, and returns how many there are. Beside the run of a
/// primitive that has a legend it writes this, a line a number: `channel-main-12.legend`.
///
/// An error says which recordings stopped, or that a file couldn't be written.
pub fn save(folder: impl AsRef<Path>) -> Result<usize, Unsaved> {
    let folder = folder.as_ref();
    fs::create_dir_all(folder)?;
    let runs = take();
    for run in &runs {
        fs::write(folder.join(format!("{}.run", run.name)), &run.text)?;
        if !run.legend.is_empty() {
            let lines: String = run.legend.iter().map(|(number, said)| format!("{number} {said}\n")).collect();
            fs::write(folder.join(format!("{}.legend", run.name)), lines)?;
        }
    }
    let count = runs.len();
    let stopped: Vec<Run> = runs.into_iter().filter(|run| run.stop.is_some()).collect();
    match stopped.is_empty() {
        true => Ok(count),
        false => Err(Unsaved::Stopped(stopped)),
    }
}
