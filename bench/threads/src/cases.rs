//! The cases: what each is called, and how many operations one run of it takes.

/// What a run does.
#[derive(Debug, Clone, Copy, PartialEq, Eq)]
pub enum Work {
    /// One thread sends and another receives, over a channel of 4.
    SpscOfFour,
    /// One thread sends and another receives, over a channel of 64.
    SpscOfMany,
    /// Four threads send and four receive.
    MpmcThreads,
    /// Four tasks send and four receive, on four threads.
    MpmcTasks,
    /// Two threads answer each other.
    RoundTrip,
    /// One thread sends and receives, and never waits.
    UncontendedTry,
    /// One thread sends and receives through a wait that ends at once.
    UncontendedWait,
    /// Eight tasks on two threads pass a token round.
    TokenRing,
}

/// A case, as it is named on the command line.
#[derive(Debug, Clone, Copy)]
pub struct Case {
    pub name: &'static str,
    pub work: Work,
    /// How many operations a run takes: a multiple of eight.
    pub count: u32,
}

const fn case(name: &'static str, work: Work, count: u32) -> Case {
    Case { name, work, count }
}

pub const CASES: [Case; 8] = [
    case("spsc_4", Work::SpscOfFour, 1_000_000),
    case("spsc_64", Work::SpscOfMany, 1_000_000),
    case("mpmc_threads", Work::MpmcThreads, 1_000_000),
    case("mpmc_tasks", Work::MpmcTasks, 1_000_000),
    case("round_trip", Work::RoundTrip, 100_000),
    case("uncontended_try", Work::UncontendedTry, 10_000_000),
    case("uncontended_wait", Work::UncontendedWait, 10_000_000),
    case("token_ring", Work::TokenRing, 200_000),
];

impl Case {
    pub fn named(name: &str) -> Option<Self> {
        CASES.into_iter().find(|case| case.name == name)
    }
}
