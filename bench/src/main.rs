//! Times the state forms, and the shared forms over a lock, beside embassy-sync 0.6.2.
//!
//! Prints a line a case, `case ours_ns upstream_ns ratio`, and then the largest ratio. Times are nanoseconds for a message that
//! goes in and comes out again. Arguments, where given, are the cases to run. The argument `sizes` prints how many bytes each
//! primitive takes, and times nothing.
mod cases;
mod host_mutex;
mod ours;
mod sizes;
mod upstream;

use std::hint::black_box;
use std::time::{Duration, Instant};

use cases::{Case, Ours, CASES};

/// How many messages a pass takes.
const MESSAGES: usize = 65536;
/// How often the sides take turns. The fastest pass of each counts.
const TURNS: usize = 200;
/// The least that a turn's passes take together.
const TURN: Duration = Duration::from_millis(2);

/// What a pass answers: the sum of the messages that came out, and how often the one task was woken.
#[derive(Debug, PartialEq, Eq)]
pub struct Answer {
    pub total: u64,
    pub woken: u64,
}

/// One pass over the messages.
pub type Pass = fn(&[u32]) -> Answer;

/// A byte for each message.
fn bytes(messages: &[u32]) -> &[u8] {
    // A number is four bytes, and each byte is a `u8`.
    unsafe { std::slice::from_raw_parts(messages.as_ptr().cast(), messages.len()) }
}

/// Pseudo-random numbers (xorshift of 32 bits).
fn messages() -> Vec<u32> {
    let mut state = 0x9E37_79B9u32;
    (0..MESSAGES)
        .map(|_| {
            state ^= state << 13;
            state ^= state >> 17;
            state ^= state << 5;
            state
        })
        .collect()
}

/// The time of the fastest of `count` passes.
fn fastest(pass: Pass, count: usize, messages: &[u32]) -> Duration {
    (0..count)
        .map(|_| {
            let start = Instant::now();
            black_box(pass(black_box(messages)));
            start.elapsed()
        })
        .min()
        .unwrap_or(Duration::MAX)
}

/// How many passes a turn has.
fn count(pass: Pass, messages: &[u32]) -> usize {
    let one = fastest(pass, 3, messages).as_nanos().max(1);
    (TURN.as_nanos() / one).max(1) as usize
}

/// The fastest pass of each side, in turn.
fn best(case: &Case, messages: &[u32]) -> (Duration, Duration) {
    let their_count = count(case.upstream, messages);
    let our_count = match case.ours {
        Ours::Export(pass) => count(pass, messages),
        Ours::Program(_) => their_count,
    };
    let mut best = (Duration::MAX, Duration::MAX);
    for _ in 0..TURNS {
        let ours = match case.ours {
            Ours::Export(pass) => fastest(pass, our_count, messages),
            Ours::Program(name) => ours::run_shared(name, our_count).1,
        };
        best.0 = best.0.min(ours);
        best.1 = best.1.min(fastest(case.upstream, their_count, messages));
    }
    best
}

/// Both sides have to answer alike before they are timed.
fn check(case: &Case, messages: &[u32]) {
    let ours = match case.ours {
        Ours::Export(pass) => pass(messages),
        Ours::Program(name) => ours::run_shared(name, 1).0,
    };
    assert_eq!(ours, (case.upstream)(messages), "{}", case.name);
}

fn nanoseconds(pass: Duration) -> f64 {
    pass.as_nanos() as f64 / MESSAGES as f64
}

fn main() {
    let chosen: Vec<String> = std::env::args().skip(1).collect();
    if chosen.iter().any(|name| name == "sizes") {
        return sizes::print();
    }
    let messages = messages();
    let mut largest = ("none", 0.0);
    for case in &CASES {
        if !chosen.is_empty() && !chosen.iter().any(|name| name == case.name) {
            continue;
        }
        check(case, &messages);
        let (ours, upstream) = best(case, &messages);
        let (ours, upstream) = (nanoseconds(ours), nanoseconds(upstream));
        let ratio = ours / upstream;
        println!("{} {ours:.2} {upstream:.2} {ratio:.2}", case.name);
        if ratio > largest.1 {
            largest = (case.name, ratio);
        }
    }
    println!("largest {} {:.2}", largest.0, largest.1);
}
