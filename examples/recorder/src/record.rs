//! A script goes in, and the recorded run comes out.

use std::cell::RefCell;
use std::io::{BufRead, Write};

use embassy_sync::blocking_mutex::raw::NoopRawMutex;
use embassy_sync::channel::Channel;
use embassy_sync::lazy_lock::LazyLock;
use embassy_sync::mutex::Mutex;
use embassy_sync::once_lock::OnceLock;
use embassy_sync::pipe::Pipe;
use embassy_sync::priority_channel::{Kind, Max, Min, PriorityChannel};
use embassy_sync::pubsub::PubSubChannel;
use embassy_sync::semaphore::{FairSemaphore, GreedySemaphore};
use embassy_sync::signal::Signal;
use embassy_sync::watch::Watch;
use embassy_sync::zerocopy_channel;

use crate::channel::Messages;
use crate::fault::Fault;
use crate::head::{Capacity, Head};
use crate::lazy_lock::Lazy;
use crate::machine::{Command, Machine, Primitive};
use crate::mutex::Locks;
use crate::once_lock::Once;
use crate::pipe::Bytes;
use crate::pubsub::{self, Broadcast};
use crate::semaphore::{Counter, Permits};
use crate::signal::Signals;
use crate::watch::Watched;
use crate::zerocopy_channel::{Slot, Slots};

/// Plays with a capacity as the constant that upstream's types take.
macro_rules! with_capacity {
    ($capacity:expr, $N:ident => $play:expr) => {
        match $capacity {
            Capacity::One => with_capacity!(1, $N, $play),
            Capacity::Two => with_capacity!(2, $N, $play),
            Capacity::Three => with_capacity!(3, $N, $play),
            Capacity::Four => with_capacity!(4, $N, $play),
            Capacity::Eight => with_capacity!(8, $N, $play),
        }
    };
    ($number:literal, $N:ident, $play:expr) => {{
        const $N: usize = $number;
        $play
    }};
}

/// Plays a script on `embassy-sync` and writes its run: line 1, and then `COMMAND => ANSWER | WAKERS` for each command.
///
/// Each line is played and written before the next one is read.
pub fn record(script: impl BufRead, run: impl Write) -> Result<(), Fault> {
    let mut recording = Recording {
        script,
        run,
        line: 0,
    };
    let head = recording.read_line()?.unwrap_or_default();
    let Some(primitive) = Head::read(&head) else {
        return Err(recording.not_a_command());
    };
    if matches!(primitive, Head::PubSub { first, .. } if first > pubsub::LAST_FIRST) {
        return Err(Fault::NoCounterpart {
            line: 1,
            lacks: "its messages are numbered from 0",
        });
    }
    recording.write_line(&head)?;
    recording.play_head(primitive)
}

/// A recording at a line of its script.
struct Recording<R, W> {
    script: R,
    run: W,
    line: usize,
}

impl<R: BufRead, W: Write> Recording<R, W> {
    /// The next line without its LF. `None` at the end of the script.
    fn read_line(&mut self) -> Result<Option<Vec<u8>>, Fault> {
        self.line += 1;
        let mut line = Vec::new();
        if self.script.read_until(b'\n', &mut line)? == 0 {
            return Ok(None);
        }
        if line.last() == Some(&b'\n') {
            line.pop();
        }
        Ok(Some(line))
    }

    fn write_line(&mut self, line: &[u8]) -> Result<(), Fault> {
        self.run.write_all(line)?;
        self.run.write_all(b"\n")?;
        Ok(self.run.flush()?)
    }

    fn not_a_command(&self) -> Fault {
        Fault::NotACommand { line: self.line }
    }

    /// Plays the commands behind line 1 on `primitive`.
    fn play<'a, P: Primitive<'a>>(&mut self, primitive: P) -> Result<(), Fault> {
        let mut machine = Machine::new(primitive);
        while let Some(mut line) = self.read_line()? {
            let Some(command) = Command::read::<P>(&line) else {
                return Err(self.not_a_command());
            };
            let (answer, woken) = machine.step(command);
            line.extend_from_slice(format!(" => {answer} | {}", wakers(&woken)).as_bytes());
            self.write_line(&line)?;
        }
        Ok(())
    }

    fn play_head(&mut self, head: Head) -> Result<(), Fault> {
        match head {
            Head::Channel(capacity) => with_capacity!(capacity, N => self.play_channel::<N>()),
            Head::Max(capacity) => with_capacity!(capacity, N => self.play_priority::<Max, N>()),
            Head::Min(capacity) => with_capacity!(capacity, N => self.play_priority::<Min, N>()),
            Head::PubSub { capacity, first } => {
                with_capacity!(capacity, N => self.play_pubsub::<N>(first))
            }
            Head::Signal => self.play(Signals::new(&Signal::new())),
            Head::Greedy { permits } => self.play_permits::<GreedySemaphore<NoopRawMutex>>(permits),
            Head::Fair { capacity, permits } => {
                with_capacity!(capacity, N => self.play_permits::<FairSemaphore<NoopRawMutex, N>>(permits))
            }
            Head::Pipe(capacity) => with_capacity!(capacity, N => self.play_pipe::<N>()),
            Head::Once => self.play(Once::new(&RefCell::new(OnceLock::new()))),
            Head::Lazy { value } => self.play(Lazy::new(LazyLock::new(move || value))),
            Head::ZeroCopy(capacity) => with_capacity!(capacity, N => self.play_zerocopy::<N>()),
            Head::Mutex { whole, part } => self.play(Locks::new(&Mutex::new((whole, part)))),
            Head::Watch { capacity, value } => {
                with_capacity!(capacity, N => self.play_watch::<N>(value))
            }
        }
    }

    fn play_channel<const N: usize>(&mut self) -> Result<(), Fault> {
        self.play(Messages::new(&Channel::<NoopRawMutex, u32, N>::new()))
    }

    fn play_priority<K: Kind, const N: usize>(&mut self) -> Result<(), Fault> {
        self.play(Messages::new(
            &PriorityChannel::<NoopRawMutex, u32, K, N>::new(),
        ))
    }

    fn play_pubsub<const N: usize>(&mut self, first: u64) -> Result<(), Fault> {
        let channel = PubSubChannel::new();
        pubsub::pass_messages(&channel, first);
        self.play(Broadcast::<N>::new(&channel))
    }

    fn play_permits<S: Counter>(&mut self, permits: usize) -> Result<(), Fault> {
        self.play(Permits::new(&S::with(permits), permits))
    }

    fn play_pipe<const N: usize>(&mut self) -> Result<(), Fault> {
        self.play(Bytes::new(&RefCell::new(Pipe::<NoopRawMutex, N>::new())))
    }

    fn play_zerocopy<const N: usize>(&mut self) -> Result<(), Fault> {
        let mut slots: [Slot; N] = std::array::from_fn(Slot::new);
        let mut channel = zerocopy_channel::Channel::<NoopRawMutex, _>::new(&mut slots);
        self.play(Slots::new(channel.split(), N))
    }

    fn play_watch<const N: usize>(&mut self, value: Option<u32>) -> Result<(), Fault> {
        let watch = value.map_or_else(Watch::new, Watch::new_with);
        self.play(Watched::<N>::new(&watch))
    }
}

/// The wakers of a step with one space between, or `-` for none.
fn wakers(woken: &[u64]) -> String {
    if woken.is_empty() {
        return "-".to_string();
    }
    let numbers: Vec<String> = woken.iter().map(u64::to_string).collect();
    numbers.join(" ")
}
