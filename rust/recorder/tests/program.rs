//! A program of three tasks over a channel, a mutex and a pipe, whose runs are kept for the judge.
//!
//! A sensor sends readings. A link takes each one, adds it up under a lock, and writes it as a line into a pipe. A
//! logger reads the pipe. In the second test the link flushes the channel after a while, as one that connects anew
//! does.
#![cfg(feature = "record")]
use critical_section as _;
use embassy_sync::blocking_mutex::raw::NoopRawMutex;
use recorder::channel::{Channel, Receiver, Sender};
use recorder::mutex::{Mutex, MutexGuard};
use recorder::pipe::{Pipe, Reader, Writer};
use recorder::{Recorded, Run, named_by_debug};

mod executor;
use executor::{Executor, pause, within};
mod keep;
use keep::keep;

/// How many messages the channel holds.
const READINGS: usize = 2;
/// How many bytes the pipe holds.
const BYTES: usize = 3;
/// How many readings there are.
const COUNT: u8 = 12;

/// What the sensor sends.
#[derive(Debug, Clone, Copy, PartialEq)]
enum Reading {
    /// A temperature, in degrees.
    Celsius(u8),
    /// A humidity, in percent.
    Percent(u8),
    /// There are no more.
    End,
}

named_by_debug!(Reading);

/// What the tasks add up, under a lock.
#[derive(Debug, Default)]
struct Totals {
    celsius: u32,
    percent: u32,
    seen: u32,
}

impl Totals {
    fn add(&mut self, reading: Reading) {
        match reading {
            Reading::Celsius(degrees) => self.celsius += u32::from(degrees),
            Reading::Percent(percent) => self.percent += u32::from(percent),
            Reading::End => return,
        }
        self.seen += 1;
    }
}

/// The primitives that the tasks share.
struct Shared {
    readings: Channel<NoopRawMutex, Reading, READINGS>,
    totals: Mutex<NoopRawMutex, Totals>,
}

impl Shared {
    fn new() -> Self {
        Shared { readings: Channel::new(), totals: Mutex::new(Totals::default()) }
    }
}

/// Returns the reading of this number.
fn reading(number: u8) -> Reading {
    match number % 3 {
        0 => Reading::Percent(40 + number),
        _ => Reading::Celsius(20 + number),
    }
}

/// Sends the readings, and looks at the totals now and then.
async fn sense(readings: Sender<'_, NoopRawMutex, Reading, READINGS>, totals: &Mutex<NoopRawMutex, Totals>) {
    for number in 0..COUNT {
        if readings.try_send(reading(number)).is_err() {
            readings.send(reading(number)).await;
        }
        if number % 4 == 3 {
            let totals = totals.lock().await;
            pause().await;
            assert!(totals.seen <= u32::from(COUNT));
        }
    }
    readings.send(Reading::End).await;
}

/// When the link flushes the channel.
#[derive(Clone, Copy)]
enum Flush {
    Never,
    After(usize),
}

/// Takes the readings, adds them up, and writes each as a line of three bytes.
async fn forward(
    readings: Receiver<'_, NoopRawMutex, Reading, READINGS>,
    totals: &Mutex<NoopRawMutex, Totals>,
    log: Writer<'_, NoopRawMutex, BYTES>,
    flush: Flush,
) {
    for count in 0.. {
        if matches!(flush, Flush::After(after) if after == count) {
            reconnect(readings).await;
        }
        let next = readings.receive().await;
        add(totals, next).await;
        write_line(log, next).await;
        if next == Reading::End {
            return;
        }
    }
}

/// Waits until the sensor waits for room, and drops what it has sent.
async fn reconnect(readings: Receiver<'_, NoopRawMutex, Reading, READINGS>) {
    for _ in 0..3 {
        pause().await;
    }
    assert!(readings.is_full(), "the sensor was faster");
    readings.clear();
}

/// Adds a reading up, in two steps with a pause between them, during which the lock stays.
async fn add(totals: &Mutex<NoopRawMutex, Totals>, reading: Reading) {
    let Some(mut totals) = within(2, totals.lock()).await else {
        // (the sensor looks at them: wait in earnest)
        totals.lock().await.add(reading);
        return;
    };
    pause().await;
    totals.add(reading);
    let mut seen = MutexGuard::map(totals, |totals| &mut totals.seen);
    *seen += 0;
}

/// Writes a reading as a line.
async fn write_line(log: Writer<'_, NoopRawMutex, BYTES>, reading: Reading) {
    let line = match reading {
        Reading::Celsius(degrees) => [b'c', degrees, b'\n'],
        Reading::Percent(percent) => [b'p', percent, b'\n'],
        Reading::End => *b"end",
    };
    let mut left = &line[..];
    while !left.is_empty() {
        let count = log.write(left).await;
        left = &left[count..];
    }
}

/// Reads the lines until the last one.
async fn read_log(reader: Reader<'_, NoopRawMutex, BYTES>, lines: &mut Vec<u8>) {
    let mut buf = [0; 64];
    while !lines.ends_with(b"end") {
        let count = match reader.try_read(&mut buf) {
            Ok(count) => count,
            Err(_) => reader.read(&mut buf).await,
        };
        lines.extend_from_slice(&buf[..count]);
    }
}

/// What a play of the program leaves.
struct Played {
    lines: Vec<u8>,
    waiting: usize,
    readings: Run,
    totals: Run,
    log: Run,
}

/// Plays the program until no task is woken any more.
fn play(flush: Flush) -> Played {
    let shared = Shared::new();
    let mut pipe: Pipe<NoopRawMutex, BYTES> = Pipe::new();
    let mut lines = Vec::new();
    let waiting = {
        let (reader, writer) = pipe.split();
        let mut executor = Executor::default();
        executor.spawn(sense(shared.readings.sender(), &shared.totals));
        executor.spawn(forward(shared.readings.receiver(), &shared.totals, writer, flush));
        executor.spawn(read_log(reader, &mut lines));
        executor.run()
    };
    Played { lines, waiting, readings: shared.readings.run(), totals: shared.totals.run(), log: pipe.run() }
}

#[test]
fn the_program_ends() {
    let played = play(Flush::Never);
    assert_eq!(played.waiting, 0);
    assert_eq!(played.lines.len(), 3 * usize::from(COUNT) + 3);
    for (name, run) in [("readings", &played.readings), ("totals", &played.totals), ("log", &played.log)] {
        assert_eq!(run.stop, None);
        keep(&format!("program_{name}"), run);
    }
}

#[test]
fn a_clear_under_a_waiting_sender_lets_it_sleep() {
    let played = play(Flush::After(4));
    assert_eq!(played.waiting, 3, "all wait for each other");
    for (name, run) in [("readings", &played.readings), ("totals", &played.totals), ("log", &played.log)] {
        assert_eq!(run.stop, None);
        keep(&format!("flush_{name}"), run);
    }
}
