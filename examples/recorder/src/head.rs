//! Line 1 of a script: which primitive is driven.

use crate::words::Words;

/// The capacities that a primitive can have.
#[derive(Clone, Copy, Debug, PartialEq, Eq)]
pub enum Capacity {
    One,
    Two,
    Three,
    Four,
    Eight,
}

/// The primitive that line 1 names.
#[derive(Debug, PartialEq, Eq)]
pub enum Head {
    Channel(Capacity),
    Max(Capacity),
    Min(Capacity),
    /// A channel of which the first message has the number `first`.
    PubSub {
        capacity: Capacity,
        first: u64,
    },
    Signal,
    Greedy {
        permits: usize,
    },
    Fair {
        capacity: Capacity,
        permits: usize,
    },
    Pipe(Capacity),
    Once,
    Lazy {
        value: u32,
    },
    ZeroCopy(Capacity),
    Mutex {
        whole: u32,
        part: u32,
    },
    Watch {
        capacity: Capacity,
        value: Option<u32>,
    },
}

impl Head {
    /// The primitive that line 1 names. `None` where it names none.
    pub fn read(line: &[u8]) -> Option<Self> {
        let mut words = Words::of(line)?;
        let name = words.name()?;
        let capacity = capacity(&mut words)?;
        let head = match name {
            "channel" => Head::Channel(capacity),
            "max" => Head::Max(capacity),
            "min" => Head::Min(capacity),
            "pubsub" => return pubsub(capacity, words),
            "fair" => Head::Fair {
                capacity,
                permits: words.number()?,
            },
            "pipe" => Head::Pipe(capacity),
            "zerocopy" => Head::ZeroCopy(capacity),
            "watch" => return watch(capacity, words),
            _ if capacity == Capacity::One => only_one(name, &mut words)?,
            _ => return None,
        };
        words.end(head)
    }
}

/// A primitive of which line 1 always says the capacity 1.
fn only_one(name: &str, words: &mut Words<'_>) -> Option<Head> {
    match name {
        "signal" => Some(Head::Signal),
        "greedy" => Some(Head::Greedy {
            permits: words.number()?,
        }),
        "once" => Some(Head::Once),
        "lazy" => Some(Head::Lazy {
            value: words.number()?,
        }),
        "mutex" => Some(Head::Mutex {
            whole: words.number()?,
            part: words.number()?,
        }),
        _ => None,
    }
}

/// A channel for publishers, with the number of its first message or without.
fn pubsub(capacity: Capacity, mut words: Words<'_>) -> Option<Head> {
    let first = match words.is_empty() {
        true => 0,
        false => words.number()?,
    };
    words.end(Head::PubSub { capacity, first })
}

/// A watch, with its first value or without.
fn watch(capacity: Capacity, mut words: Words<'_>) -> Option<Head> {
    let value = match words.is_empty() {
        true => None,
        false => Some(words.number()?),
    };
    words.end(Head::Watch { capacity, value })
}

fn capacity(words: &mut Words<'_>) -> Option<Capacity> {
    match words.number::<u64>()? {
        1 => Some(Capacity::One),
        2 => Some(Capacity::Two),
        3 => Some(Capacity::Three),
        4 => Some(Capacity::Four),
        8 => Some(Capacity::Eight),
        _ => None,
    }
}
