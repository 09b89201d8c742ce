//! Where the runs of the tests go, for the judge.
use std::fs;
use std::path::Path;

use recorder::Run;

/// Keeps a run for the judge, under this name.
pub fn keep(name: &str, run: &Run) {
    let folder = Path::new(env!("CARGO_TARGET_TMPDIR")).join("runs");
    fs::create_dir_all(&folder).unwrap();
    fs::write(folder.join(format!("{name}.run")), &run.text).unwrap();
}
