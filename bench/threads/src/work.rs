//! The work of each case, written once for all libraries.
//!
//! In each, the messages 0, 1, .. up to the count are sent and received once, and the sum of them is returned.
use std::ops::Range;
use std::thread;

use crate::cases::Work;
use crate::library::{AsyncReceiver, BlockingReceiver, Library, Receiver, Sender, Task};

/// How many producers there are where there are several, and how many consumers.
const EACH: u32 = 4;
/// How many tasks pass the token round.
const RING: usize = 8;

impl Work {
    /// Does the work over so many messages, and returns the sum of those that came out.
    pub fn run<L: Library>(self, count: u32) -> u64 {
        match self {
            Work::SpscOfFour => spsc::<L, 4>(count),
            Work::SpscOfMany => spsc::<L, 64>(count),
            Work::MpmcThreads => mpmc_threads::<L>(count),
            Work::MpmcTasks => mpmc_tasks::<L>(count),
            Work::RoundTrip => round_trip::<L>(count),
            Work::UncontendedTry => uncontended_try::<L>(count),
            Work::UncontendedWait => uncontended_wait::<L>(count),
            Work::TokenRing => L::run(2, token_ring::<L>(count)),
        }
    }
}

fn send_all(sender: impl Sender, messages: Range<u32>) {
    messages.for_each(|message| sender.send_blocking(message));
}

fn receive_all(mut receiver: impl BlockingReceiver, count: u32) -> u64 {
    (0..count)
        .map(|_| u64::from(receiver.receive_blocking()))
        .sum()
}

fn spsc<L: Library, const N: usize>(count: u32) -> u64 {
    let (sender, receiver) = L::channel::<N>();
    thread::scope(|scope| {
        scope.spawn(move || send_all(sender, 0..count));
        let received = scope.spawn(move || receive_all(receiver, count));
        received.join().expect("the receiver ends")
    })
}

/// The messages of each producer.
fn shares(count: u32) -> impl Iterator<Item = Range<u32>> {
    let share = count / EACH;
    (0..EACH).map(move |producer| producer * share..(producer + 1) * share)
}

fn mpmc_threads<L: Library>(count: u32) -> u64 {
    let (sender, receiver) = L::channel::<64>();
    let receiver = L::among_threads(receiver);
    thread::scope(|scope| {
        for messages in shares(count) {
            let sender = sender.clone();
            scope.spawn(move || send_all(sender, messages));
        }
        let receivers: Vec<_> = (0..EACH)
            .map(|_| {
                let receiver = receiver.clone();
                scope.spawn(move || receive_all(receiver, count / EACH))
            })
            .collect();
        receivers
            .into_iter()
            .map(|received| received.join().expect("a receiver ends"))
            .sum()
    })
}

async fn send_as_task(sender: impl Sender, messages: Range<u32>) -> u64 {
    for message in messages {
        sender.send(message).await;
    }
    0
}

async fn receive_as_task(mut receiver: impl AsyncReceiver, count: u32) -> u64 {
    let mut total = 0;
    for _ in 0..count {
        total += u64::from(receiver.receive().await);
    }
    total
}

fn mpmc_tasks<L: Library>(count: u32) -> u64 {
    let (sender, receiver) = L::channel::<64>();
    let receiver = L::among_tasks(receiver);
    let mut tasks: Vec<Task> = Vec::new();
    for messages in shares(count) {
        tasks.push(Box::pin(send_as_task(sender.clone(), messages)));
        tasks.push(Box::pin(receive_as_task(receiver.clone(), count / EACH)));
    }
    L::run(4, tasks)
}

fn round_trip<L: Library>(count: u32) -> u64 {
    let (asks, mut asked) = L::channel::<1>();
    let (answers, mut answered) = L::channel::<1>();
    thread::scope(|scope| {
        scope.spawn(move || {
            (0..count).for_each(|_| answers.send_blocking(asked.receive_blocking()))
        });
        let received = scope.spawn(move || -> u64 {
            let trips = (0..count).map(|message| {
                asks.send_blocking(message);
                u64::from(answered.receive_blocking())
            });
            trips.sum()
        });
        received.join().expect("the side that asks ends")
    })
}

fn uncontended_try<L: Library>(count: u32) -> u64 {
    let (sender, mut receiver) = L::channel::<64>();
    (0..count)
        .map(|message| {
            assert!(sender.try_send(message), "there is room");
            u64::from(receiver.try_receive().expect("there is a message"))
        })
        .sum()
}

fn uncontended_wait<L: Library>(count: u32) -> u64 {
    let (sender, mut receiver) = L::channel::<64>();
    (0..count)
        .map(|message| {
            sender.send_blocking(message);
            u64::from(receiver.receive_blocking())
        })
        .sum()
}

/// Passes each token that comes on as the number that follows it, but for the last one.
async fn pass_on(
    sender: impl Sender,
    mut receiver: impl AsyncReceiver,
    laps: u32,
    last: u32,
) -> u64 {
    let mut total = 0;
    for _ in 0..laps {
        let token = receiver.receive().await;
        total += u64::from(token);
        if token != last {
            sender.send(token + 1).await;
        }
    }
    total
}

/// The tasks of a ring, of which the first one begins with the token 0.
fn token_ring<L: Library>(count: u32) -> Vec<Task> {
    let (laps, last) = (count / RING as u32, count - 1);
    let (senders, mut receivers): (Vec<_>, Vec<_>) = (0..RING).map(|_| L::channel::<1>()).unzip();
    // (the channel that a task sends to is the one that the next task receives from)
    receivers.rotate_right(1);
    assert!(senders[0].try_send(0), "there is room");
    let members = senders.into_iter().zip(receivers);
    members
        .map(|(sender, receiver)| -> Task { Box::pin(pass_on(sender, receiver, laps, last)) })
        .collect()
}
