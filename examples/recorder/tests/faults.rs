//! How a recording ends before its script does, and what was written until then.

use std::io::{self, Read, Write};

use recorder::{record, Fault};

/// What was recorded of `script`, and the text and the status of the fault.
fn fault_of(script: &[u8]) -> (String, String, u8) {
    let mut run = Vec::new();
    let fault = record(script, &mut run).expect_err("the script has a fault");
    (
        String::from_utf8_lossy(&run).into_owned(),
        fault.to_string(),
        fault.status(),
    )
}

#[test]
fn a_line_that_is_no_command_is_named() {
    let found = fault_of(b"channel 1\nlen\nlook\nlen\n");
    let run = "channel 1\nlen => 0 | -\n".to_string();
    assert_eq!(found, (run, "line 3: not a command".to_string(), 2));
}

#[test]
fn each_bad_form_of_a_line_is_one() {
    let long = format!("poll 0 {}1", "0".repeat(249));
    for line in [
        "",
        "len ",
        " len",
        "len 0",
        "LEN",
        "len\r",
        "poll  0 1",
        "poll 0",
        "poll 0 1 2",
        "end -1",
        "poll 18446744073709551616 1",
        "start 0",
        "start 0 wait",
        "try-send 4294967296",
        "join 0",
        "l\u{e9}n",
        &long,
    ] {
        let script = format!("channel 1\n{line}\nlen\n");
        let (run, text, _) = fault_of(script.as_bytes());
        assert_eq!(
            (run.as_str(), text.as_str()),
            ("channel 1\n", "line 2: not a command"),
            "{line}"
        );
    }
}

#[test]
fn line_1_names_a_primitive_and_its_capacity() {
    for line in [
        "",
        "channel",
        "channel 0",
        "channel 5",
        "channel 1 1",
        "signal 2",
        "greedy 2 0",
        "greedy 1",
        "mutex 1 1",
        "lazy 1 4294967296",
        "pubsub 1 0 0",
        "watch 1 -",
        "queue 1",
        "channel 1 ",
    ] {
        let (run, text, status) = fault_of(line.as_bytes());
        assert_eq!(
            (run.as_str(), text.as_str(), status),
            ("", "line 1: not a command", 2),
            "{line}"
        );
    }
}

#[test]
fn a_line_of_256_bytes_is_read() {
    let script = format!("channel 1\npoll 0 {}1", "0".repeat(248));
    let mut run = Vec::new();
    record(script.as_bytes(), &mut run).expect("the line is a command");
    assert_eq!(run, format!("{script} => Err(NoSuch) | -\n").as_bytes());
}

#[test]
fn numbers_that_upstream_cannot_begin_at_are_named() {
    let (run, text, status) = fault_of(b"pubsub 1 18446744073709551615\nlen\n");
    assert_eq!((run.as_str(), status), ("", 2));
    assert_eq!(
        text,
        "line 1: no counterpart upstream: its messages are numbered from 0"
    );
}

/// Gives its bytes, and then fails.
struct Failing<'a>(&'a [u8]);

impl Read for Failing<'_> {
    fn read(&mut self, buffer: &mut [u8]) -> io::Result<usize> {
        match self.0.read(buffer)? {
            0 => Err(io::Error::other("cut")),
            count => Ok(count),
        }
    }
}

impl Write for Failing<'_> {
    fn write(&mut self, _bytes: &[u8]) -> io::Result<usize> {
        Err(io::Error::other("full"))
    }

    fn flush(&mut self) -> io::Result<()> {
        Ok(())
    }
}

#[test]
fn a_line_that_a_failed_read_cuts_is_not_played() {
    let mut run = Vec::new();
    let script = io::BufReader::new(Failing(b"channel 1\nlen\ntry-send 1"));
    let fault = record(script, &mut run).expect_err("the read failed");
    assert!(matches!(fault, Fault::InputOrOutput(_)));
    assert_eq!(
        (run.as_slice(), fault.status()),
        (&b"channel 1\nlen => 0 | -\n"[..], 3)
    );
}

#[test]
fn a_failed_write_ends_the_recording() {
    let fault = record(&b"channel 1\nlen\n"[..], Failing(b"")).expect_err("the write failed");
    assert_eq!(fault.to_string(), "input or output failed");
    assert_eq!(fault.status(), 3);
}
