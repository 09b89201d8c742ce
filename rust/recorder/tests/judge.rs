//! The status with which `judge.sh` ends.
#![cfg(unix)]
use std::fs::{self, Permissions};
use std::os::unix::fs::PermissionsExt;
use std::path::Path;
use std::process::Command;

use critical_section as _;

/// Judges runs by a program that ends with the status that a run says.
#[test]
fn the_greatest_status_is_that_of_the_judge() {
    let folder = Path::new(env!("CARGO_TARGET_TMPDIR")).join("judge");
    fs::create_dir_all(&folder).unwrap();
    fs::write(folder.join("esync"), "#!/bin/sh\nread -r status\nexit $status\n").unwrap();
    fs::set_permissions(folder.join("esync"), Permissions::from_mode(0o755)).unwrap();
    for status in ["0", "1", "2"] {
        fs::write(folder.join(status), format!("{status}\n")).unwrap();
    }
    for (runs, greatest) in [(&["0", "2", "1"][..], 2), (&["1", "0"], 1), (&["0", "0"], 0)] {
        let judge = Path::new(env!("CARGO_MANIFEST_DIR")).join("judge.sh");
        let judged = Command::new(judge).args(runs).current_dir(&folder).env("ESYNC", "./esync").output().unwrap();
        let verdicts: String = runs.iter().map(|status| format!("== {status}\n\nstatus {status}\n")).collect();
        assert_eq!((judged.status.code(), String::from_utf8(judged.stdout).unwrap()), (Some(greatest), verdicts));
    }
}
