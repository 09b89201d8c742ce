//! What is kept of a primitive's run and of its tasks, and for how long.
#![cfg(feature = "record")]
use std::collections::BTreeSet;
use std::sync::atomic::{AtomicBool, AtomicUsize, Ordering::SeqCst};
use std::sync::mpsc::channel as pair;
use std::sync::{Arc, Barrier, Mutex, MutexGuard, PoisonError};
use std::task::{Context, Waker};
use std::thread;
use std::time::Duration;

use critical_section as _;
use embassy_sync::blocking_mutex::raw::{CriticalSectionRawMutex, NoopRawMutex};
use embassy_sync::watch as upstream;
use recorder::channel::Channel;
use recorder::signal::Signal;
use recorder::watch::Watch;
use recorder::{Name, Recorded};

mod executor;
use executor::{Count, Task};

fn is_taken(name: &str) -> bool {
    recorder::take().iter().any(|run| run.name == name)
}

/// Lets one test take runs at a time: a run of a primitive that is gone is taken once.
fn lock_takes() -> MutexGuard<'static, ()> {
    static TAKES: Mutex<()> = Mutex::new(());
    TAKES.lock().unwrap_or_else(PoisonError::into_inner)
}

#[test]
fn two_primitives_of_one_line_have_two_names() {
    let signals: [Signal<NoopRawMutex, u8>; 2] = std::array::from_fn(|_| Signal::new());
    signals.iter().for_each(|signal| signal.signal(1));
    assert_ne!(signals[0].run().name, signals[1].run().name);
}

#[test]
fn a_primitive_is_forgotten_once_it_is_gone() {
    let _only_one = lock_takes();
    let signal: Signal<NoopRawMutex, u8> = Signal::new();
    signal.signal(1);
    let name = signal.run().name;
    assert!(is_taken(&name) && is_taken(&name));
    drop(signal);
    is_taken(&name);
    assert!(!is_taken(&name));
}

#[test]
fn the_last_call_of_a_primitive_that_ends_beside_take_is_taken() {
    let _only_one = lock_takes();
    let ending: Vec<Signal<NoopRawMutex, u8>> = (0..1000).map(|_| Signal::new()).collect();
    let names: Vec<String> = ending.iter().map(|signal| signal.run().name).collect();
    // (the run of this one is read last, and that takes a while)
    let long: Signal<NoopRawMutex, u8> = Signal::new();
    (0..40_000).for_each(|_| long.signal(1));
    let begins = Barrier::new(2);
    let mut runs = thread::scope(|scope| {
        let takes = scope.spawn(|| {
            begins.wait();
            recorder::take()
        });
        begins.wait();
        ending.into_iter().for_each(|signal| signal.signal(7));
        takes.join().unwrap()
    });
    runs.extend(recorder::take());
    let has_last: BTreeSet<String> =
        runs.into_iter().filter(|run| run.text.contains("signal 7")).map(|run| run.name).collect();
    assert_eq!(names.iter().filter(|name| !has_last.contains(*name)).count(), 0);
}

#[test]
fn wakers_are_kept_as_long_as_the_primitive() {
    let count = Arc::new(Count::default());
    let waker = Waker::from(Arc::clone(&count));
    let channel: Channel<NoopRawMutex, u8, 1> = Channel::new();
    assert!(channel.poll_receive(&mut Context::from_waker(&waker)).is_pending());
    drop(waker);
    assert!(Arc::strong_count(&count) > 1);
    drop(channel);
    assert_eq!(Arc::strong_count(&count), 1);
}

#[test]
fn tasks_are_woken_in_the_order_of_their_last_polls() {
    let watch: Watch<NoopRawMutex, u8, 2> = Watch::new();
    let (one, two) = (Task::new(), Task::new());
    let (mut first, mut second) = (watch.receiver().unwrap(), watch.receiver().unwrap());
    assert!(one.poll(&mut Box::pin(first.changed())).is_pending());
    assert!(two.poll(&mut Box::pin(second.changed())).is_pending());
    watch.sender().send(1);
    assert!(first.try_changed() == second.try_changed());
    assert!(two.poll(&mut Box::pin(second.changed())).is_pending());
    assert!(one.poll(&mut Box::pin(first.changed())).is_pending());
    watch.sender().send(2);
    let wakes = ["send 1 => Ok | 0 1", "send 2 => Ok | 1 0"];
    assert_eq!(watch.run().text.lines().filter(|line| line.starts_with("send")).collect::<Vec<_>>(), wakes);
}

static IS_NAMED: AtomicBool = AtomicBool::new(false);

/// Names a message that was received when another thread has had time to wait for its turn.
fn slow(message: &u8) -> Name {
    if IS_NAMED.swap(true, SeqCst) {
        thread::sleep(Duration::from_millis(50));
    }
    Name::number(*message)
}

#[test]
fn a_thread_that_waits_for_its_turn_gets_it() {
    static CHANNEL: Channel<CriticalSectionRawMutex, u8, 1> = Channel::named(slow);
    assert_eq!(CHANNEL.try_send(1), Ok(()));
    let (says, hears) = pair();
    for _ in 0..2 {
        let says = says.clone();
        thread::spawn(move || {
            _ = CHANNEL.try_receive();
            says.send(CHANNEL.len())
        });
    }
    for _ in 0..2 {
        assert_eq!(hears.recv_timeout(Duration::from_secs(20)), Ok(0));
    }
    let run = CHANNEL.run().text;
    let received = run.lines().position(|line| line == "try-receive => Ok(1) | -");
    let empty = run.lines().position(|line| line == "try-receive => Err(Empty) | -");
    assert!(received < empty, "{run}");
}

static LOOKS: AtomicUsize = AtomicUsize::new(0);

/// Names the value that was sent, and once more when it was found: then another thread has had time to send.
fn slow_once_found(value: &u8) -> Name {
    if *value == 1 && LOOKS.fetch_add(1, SeqCst) == 1 {
        thread::sleep(Duration::from_millis(50));
    }
    Name::number(*value)
}

#[test]
fn a_value_is_found_before_another_thread_sends() {
    static WATCH: Watch<CriticalSectionRawMutex, u8, 1> = Watch::named(upstream::Watch::new(), slow_once_found);
    WATCH.sender().send(1);
    let looks = thread::spawn(|| WATCH.try_get_and(|value| *value == 1));
    while LOOKS.load(SeqCst) < 2 {
        thread::yield_now();
    }
    WATCH.sender().send(2);
    assert_eq!(looks.join().unwrap(), Some(1));
    // (of a value that doesn't pass there is no line)
    assert_eq!(WATCH.sender().try_get_and(|value| *value == 1), None);
    assert_eq!(WATCH.run().text, "watch 1\nsend 1 => Ok | -\ntry-get => Some(1) | -\nsend 2 => Ok | -\n");
}

#[test]
fn the_lines_of_two_threads_have_the_order_of_their_calls() {
    static SIGNAL: Signal<CriticalSectionRawMutex, u32> = Signal::new();
    let takes = thread::spawn(|| (0..3000).for_each(|_| _ = SIGNAL.try_take()));
    (1..3000).for_each(|number| SIGNAL.signal(number));
    takes.join().unwrap();
    let mut value = "None".to_string();
    for line in SIGNAL.run().text.lines().skip(1) {
        match line.strip_prefix("try-take => ") {
            Some(found) => assert_eq!(found, format!("{} | -", std::mem::replace(&mut value, "None".to_string()))),
            None => value = format!("Some({})", line.split(' ').nth(1).unwrap()),
        }
    }
}
