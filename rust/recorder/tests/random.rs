//! What the random programs keep to.
#![cfg(feature = "record")]
use critical_section as _;
use recorder::Run;

#[path = "../examples/random/dice.rs"]
mod dice;
mod executor;
#[path = "../examples/random/programs.rs"]
mod programs;

use dice::Dice;
use programs::PROGRAMS;

/// Plays each program with several seeds, and returns the runs of this primitive.
fn runs(kind: &str, is_plain: bool) -> Vec<Run> {
    let play = |number: u64| PROGRAMS[number as usize % PROGRAMS.len()](&mut Dice::new(number, is_plain));
    let runs: Vec<Run> = (0..10 * PROGRAMS.len() as u64).map(play).filter(|run| run.text.starts_with(kind)).collect();
    assert!(!runs.is_empty());
    runs
}

#[test]
fn no_subscriber_of_a_plain_program_leaves() {
    for run in runs("pubsub", true) {
        assert!(!run.text.contains("\nleave "), "{}", run.text);
    }
}

#[test]
fn before_a_subscriber_leaves_it_asks_what_it_missed() {
    for run in runs("pubsub", false) {
        let lines: Vec<&str> = run.text.lines().collect();
        for (place, line) in lines.iter().enumerate().filter(|(_, line)| line.starts_with("leave ")) {
            let asks = line.replacen("leave", "available", 1);
            let asks = asks.split(" => ").next().unwrap();
            assert!(lines[place - 2].starts_with(asks) && lines[place - 1].starts_with("len "), "{}", run.text);
        }
    }
}
