//! The runs that the repository keeps of upstream, recorded once more.

use std::fs;
use std::path::{Path, PathBuf};
use std::str;

use recorder::record;

/// The file or folder `name` of the repository.
fn in_repository(name: &str) -> PathBuf {
    Path::new(env!("CARGO_MANIFEST_DIR"))
        .join("../..")
        .join(name)
}

/// Records the commands of the run in `file`, and expects that run.
fn assert_recorded(file: &Path) {
    let run = fs::read_to_string(file).expect("the file can be read");
    let script: Vec<&str> = run
        .lines()
        .map(|line| line.split(" => ").next().unwrap_or(line))
        .collect();
    let mut recorded = Vec::new();
    record(script.join("\n").as_bytes(), &mut recorded).expect("each line is a command");
    assert_eq!(
        str::from_utf8(&recorded),
        Ok(run.as_str()),
        "{}",
        file.display()
    );
}

#[test]
fn the_first_example_is_a_run_of_upstream() {
    assert_recorded(&in_repository("examples/two_receivers.run"));
}

#[test]
fn each_kept_run_of_upstream_is_recorded_so() {
    let folder =
        fs::read_dir(in_repository("crates/test_tool/data")).expect("the folder can be read");
    let files = folder.map(|entry| entry.expect("the entry can be read").path());
    let kept: Vec<PathBuf> = files
        .filter(|file| file.to_string_lossy().contains("/upstream_"))
        .collect();
    assert!(!kept.is_empty());
    for file in kept {
        assert_recorded(&file);
    }
}
