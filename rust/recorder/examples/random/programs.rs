//! A random program for each primitive. A plain one keeps off the calls that upstream answers otherwise.
use std::future::Future;

use embassy_sync::blocking_mutex::raw::NoopRawMutex;
use recorder::channel::Channel;
use recorder::lazy_lock::LazyLock;
use recorder::mutex::{MappedMutexGuard, Mutex, MutexGuard};
use recorder::once_lock::OnceLock;
use recorder::pipe::{Pipe, Reader};
use recorder::priority_channel::{Kind, Max, Min, PriorityChannel};
use recorder::pubsub::{self, PubSubChannel};
use recorder::semaphore::{FairSemaphore, GreedySemaphore, Semaphore, SemaphoreReleaser};
use recorder::signal::Signal;
use recorder::watch::{self, Watch};
use recorder::zerocopy_channel;
use recorder::{Recorded, Run};

use crate::dice::{Dice, Futures};
use crate::executor::within;

/// A random program and the run of its primitive.
pub type Program = fn(&mut Dice) -> Run;

/// The programs. Each one plays with several capacities, and a pub-sub channel with several numbers of handles.
pub const PROGRAMS: [Program; 39] = [
    channel::<1>,
    channel::<2>,
    channel::<3>,
    channel::<5>,
    channel::<4096>,
    priority::<Max, 1>,
    priority::<Max, 2>,
    priority::<Min, 3>,
    priority::<Max, 6>,
    pipe::<1>,
    pipe::<2>,
    pipe::<3>,
    pipe::<300>,
    pipe_ends::<1>,
    pipe_ends::<3>,
    pipe_ends::<5>,
    pipe_ends::<200>,
    signal,
    mutex,
    greedy,
    fair::<1>,
    fair::<2>,
    fair::<3>,
    fair::<7>,
    watch::<1>,
    watch::<2>,
    watch::<5>,
    watch::<64>,
    pubsub::<1, 4, 4>,
    pubsub::<2, 4, 4>,
    pubsub::<5, 4, 4>,
    pubsub::<2, 1, 1>,
    pubsub::<1, 2, 3>,
    pubsub::<3, 3, 0>,
    pubsub::<2, 0, 2>,
    pubsub::<4, 16, 5>,
    zerocopy,
    once,
    lazy,
];

/// How many handles of a kind a run can have at a time.
const HANDLES: usize = 16;

/// How many steps a program has.
fn steps(dice: &mut Dice) -> u64 {
    if dice.is_wide { 600 + dice.below(300) } else { 20 + dice.below(30) }
}

fn channel<const N: usize>(dice: &mut Dice) -> Run {
    let channel: Channel<NoopRawMutex, u64, N> = Channel::new();
    let mut futures = Futures::new(dice);
    for _ in 0..steps(dice) {
        let message = dice.message();
        match dice.below(15) {
            0 | 1 => futures.add(|| channel.send(message)),
            2 | 3 => futures.add(|| {
                let receive = channel.receive();
                async { _ = receive.await }
            }),
            4 => futures.add(|| channel.ready_to_receive()),
            5 | 6 => _ = channel.try_send(message),
            7 => _ = channel.try_receive(),
            8 => _ = channel.poll_ready_to_send(&mut dice.context()),
            9 => _ = channel.poll_receive(&mut dice.context()),
            10 if !dice.is_plain => channel.clear(),
            11 => futures.end(dice),
            12 => _ = (channel.len(), channel.is_full(), channel.is_empty(), channel.free_capacity()),
            _ => _ = futures.poll(dice),
        }
    }
    channel.run()
}

fn priority<K: Kind, const N: usize>(dice: &mut Dice) -> Run {
    let channel: PriorityChannel<NoopRawMutex, u64, K, N> = PriorityChannel::new();
    let mut futures = Futures::new(dice);
    let clears = dice.coin();
    for _ in 0..steps(dice) {
        let message = dice.message();
        match dice.below(15) {
            0 | 1 => futures.add(|| channel.send(message)),
            2 | 3 => futures.add(|| {
                let receive = channel.receive();
                async { _ = receive.await }
            }),
            4 | 5 => _ = channel.try_send(message),
            6 => _ = channel.try_receive(),
            7 => _ = channel.poll_ready_to_receive(&mut dice.context()),
            8 => _ = channel.poll_receive(&mut dice.context()),
            9 if clears && !dice.is_plain => channel.clear(),
            10 if !clears && !dice.is_plain => _ = channel.poll_ready_to_send(&mut dice.context()),
            11 => futures.end(dice),
            12 => _ = (channel.len(), channel.is_full(), channel.is_empty(), channel.free_capacity()),
            _ => _ = futures.poll(dice),
        }
    }
    channel.run()
}

/// A plain pipe is of one byte: no read or write of it comes to the wrap.
fn pipe<const N: usize>(dice: &mut Dice) -> Run {
    if dice.is_plain && N > 1 {
        return pipe::<1>(dice);
    }
    let pipe: Pipe<NoopRawMutex, N> = Pipe::new();
    let rows: Vec<Vec<u8>> = (0..steps(dice)).map(|_| dice.bytes(N)).collect();
    let mut futures = Futures::new(dice).at_most(14);
    for row in &rows {
        match dice.below(11) {
            0 => futures.add(|| {
                let write = pipe.write(row);
                async { _ = write.await }
            }),
            1 => futures.add(|| pipe.write_all(row)),
            2 => futures.add(|| async { _ = pipe.read(&mut vec![0; N / 2 + 1]).await }),
            3 | 4 => _ = pipe.try_write(row),
            5 => _ = pipe.try_read(&mut vec![0; row.len()]),
            6 => pipe.clear(),
            7 => futures.end(dice),
            8 => _ = (pipe.len(), pipe.is_full(), pipe.is_empty(), pipe.free_capacity()),
            _ => _ = futures.poll(dice),
        }
    }
    pipe.run()
}

/// The reader of a plain pipe doesn't fill.
fn pipe_ends<const N: usize>(dice: &mut Dice) -> Run {
    if dice.is_plain && N > 1 {
        return pipe_ends::<1>(dice);
    }
    let mut pipe: Pipe<NoopRawMutex, N> = Pipe::new();
    let rows: Vec<Vec<u8>> = (0..steps(dice)).map(|_| dice.bytes(N)).collect();
    {
        let (reader, writer) = pipe.split();
        let (mut reader, mut shown) = (Some(reader), 0);
        let mut futures = Futures::new(dice).at_most(14);
        for row in &rows {
            match dice.below(9) {
                0 if reader.is_some() && futures.count() < 5 => {
                    let (polls, fills) = (1 + row.len(), !dice.is_plain && dice.coin());
                    futures.add(|| read(reader.take(), polls, fills));
                    shown = 0;
                }
                1 if !dice.is_plain => {
                    let filled = reader.as_mut().and_then(|reader| reader.try_fill_buf().ok());
                    shown = filled.map_or(0, <[u8]>::len);
                }
                2 if shown > 0 => {
                    let amount = dice.place(shown + 1);
                    shown -= amount;
                    _ = reader.as_mut().map(|reader| reader.consume(amount));
                }
                3 | 4 => _ = writer.try_write(row),
                5 => futures.add(|| read_nothing(writer.write(row))),
                6 => {
                    _ = reader.as_ref().map(|reader| reader.try_read(&mut vec![0; row.len()]));
                    shown = 0;
                }
                _ => reader = reader.or(futures.poll(dice).flatten()),
            }
        }
    }
    pipe.run()
}

/// Waits for a write, and gives no reader back.
async fn read_nothing<R>(write: impl Future<Output = usize>) -> Option<R> {
    write.await;
    None
}

/// Waits for bytes in so many polls at most, and gives the reader back.
async fn read<const N: usize>(
    reader: Option<Reader<'_, NoopRawMutex, N>>,
    polls: usize,
    fills: bool,
) -> Option<Reader<'_, NoopRawMutex, N>> {
    let mut reader = reader?;
    match fills {
        true => _ = within(polls, reader.fill_buf()).await,
        false => _ = within(polls, reader.read(&mut vec![0; N / 2 + 1])).await,
    }
    Some(reader)
}

fn signal(dice: &mut Dice) -> Run {
    let signal: Signal<NoopRawMutex, u64> = Signal::new();
    let mut futures = Futures::new(dice);
    for _ in 0..steps(dice) {
        match dice.below(9) {
            0 | 1 => futures.add(|| {
                let wait = signal.wait();
                async { _ = wait.await }
            }),
            2 => signal.signal(dice.message()),
            3 if !dice.is_plain => signal.reset(),
            4 => _ = signal.try_take(),
            5 => _ = signal.signaled(),
            6 => futures.end(dice),
            _ => _ = futures.poll(dice),
        }
    }
    signal.run()
}

/// A guard, mapped or not.
#[allow(dead_code)]
enum Guard<'a> {
    Whole(MutexGuard<'a, NoopRawMutex, [u64; 2]>),
    Part(MappedMutexGuard<'a, NoopRawMutex, u64>),
}

fn mutex(dice: &mut Dice) -> Run {
    let mutex: Mutex<NoopRawMutex, [u64; 2]> = Mutex::new([1, 2]);
    let mut futures = Futures::new(dice);
    let mut held = None;
    for _ in 0..steps(dice) {
        match dice.below(8) {
            0 | 1 => futures.add(|| mutex.lock()),
            2 => held = held.or(mutex.try_lock().ok().map(Guard::Whole)),
            3 => {
                held = held.map(|guard| match guard {
                    Guard::Whole(guard) => Guard::Part(MutexGuard::map(guard, |pair| &mut pair[1])),
                    part => part,
                });
            }
            4 => held = None,
            5 => futures.end(dice),
            _ => held = held.or(futures.poll(dice).map(Guard::Whole)),
        }
    }
    mutex.run()
}

/// What a program over a semaphore keeps to.
struct Keeps {
    waiting: usize,
    least: u64,
    ends: bool,
}

fn greedy(dice: &mut Dice) -> Run {
    let semaphore: GreedySemaphore<NoopRawMutex> = GreedySemaphore::new(dice.place(3));
    permits(&semaphore, dice, Keeps { waiting: usize::MAX, least: 0, ends: true })
}

/// In a plain program one request waits at a time, for at least one permit, and stays until it is granted.
fn fair<const N: usize>(dice: &mut Dice) -> Run {
    let semaphore: FairSemaphore<NoopRawMutex, N> = FairSemaphore::new(dice.place(2));
    let keeps = match dice.is_plain {
        true => Keeps { waiting: 1, least: 1, ends: false },
        false => Keeps { waiting: usize::MAX, least: 0, ends: true },
    };
    permits(&semaphore, dice, keeps)
}

fn permits<S: Semaphore + Recorded>(semaphore: &S, dice: &mut Dice, keeps: Keeps) -> Run {
    let mut futures = Futures::new(dice);
    let mut held = Vec::new();
    for _ in 0..steps(dice) {
        let permits = (keeps.least + dice.below(3)) as usize;
        let may_wait = futures.count() < keeps.waiting;
        match dice.below(13) {
            0 | 1 if may_wait => futures.add(|| {
                let acquire = semaphore.acquire(permits);
                async { acquire.await.ok() }
            }),
            2 if may_wait => futures.add(|| {
                let acquire = semaphore.acquire_all(permits);
                async { acquire.await.ok() }
            }),
            3 if held.len() < 8 => held.extend(semaphore.try_acquire(permits)),
            4 if held.len() < 8 => held.extend(semaphore.try_acquire_all(permits)),
            5 => semaphore.release(permits),
            6 if dice.coin() => semaphore.set(permits),
            7 => _ = held.pop(),
            8 => _ = held.pop().map(SemaphoreReleaser::disarm),
            9 if keeps.ends => futures.end(dice),
            _ if held.len() < 8 => held.extend(futures.poll(dice).flatten()),
            _ => held.truncate(4),
        }
    }
    semaphore.run()
}

/// What a watch's receiver waits for, in so many polls at most. The receiver comes back.
async fn watch_for<const N: usize>(
    mut receiver: watch::Receiver<'_, NoopRawMutex, u64, N>,
    polls: usize,
    what: u64,
) -> watch::Receiver<'_, NoopRawMutex, u64, N> {
    match what {
        0 => _ = within(polls, receiver.get()).await,
        1 => _ = within(polls, receiver.changed()).await,
        2 => _ = within(polls, receiver.get_and(|value| *value > 2)).await,
        _ => _ = within(polls, receiver.changed_and(|value| *value > 2)).await,
    }
    receiver
}

fn watch<const N: usize>(dice: &mut Dice) -> Run {
    let watch: Watch<NoopRawMutex, u64, N> = if dice.coin() { Watch::new() } else { Watch::new_with(dice.message()) };
    let (sender, mut anonymous) = (watch.sender(), watch.anon_receiver());
    let mut futures = Futures::new(dice);
    let mut receivers: Vec<watch::Receiver<'_, NoopRawMutex, u64, N>> = Vec::new();
    for _ in 0..steps(dice) {
        let message = dice.message();
        match dice.below(15) {
            // (a run has numbers for these and the anonymous one)
            0 | 1 if receivers.len() + futures.count() < HANDLES - 1 => receivers.extend(watch.receiver()),
            2 => _ = receivers.pop(),
            3 => sender.send(message),
            4 => sender.send_modify(|value| *value = value.map(|value| value.wrapping_add(message))),
            5 => sender.send_if_modified(|value| value.as_mut().map(|value| *value = message).is_some()),
            6 => sender.clear(),
            7 => _ = (watch.try_get(), watch.get_msg_id(), sender.contains_value()),
            8 => _ = (anonymous.try_get(), anonymous.try_changed_and(|value| *value > 1)),
            9 => _ = receivers.iter_mut().map(|it| (it.try_changed(), it.try_get_and(|value| *value > 3))).count(),
            10 | 11 => {
                futures.add_with(&mut receivers, |receiver| watch_for(receiver, 1 + dice.place(3), dice.below(4)));
            }
            _ => receivers.extend(futures.poll(dice)),
        }
    }
    watch.run()
}

type Subscriber<'a, const N: usize, const S: usize, const P: usize> =
    pubsub::Subscriber<'a, NoopRawMutex, u64, N, S, P>;

/// Waits for a message in so many polls at most. The subscriber comes back.
async fn read_next<const N: usize, const S: usize, const P: usize>(
    mut subscriber: Subscriber<'_, N, S, P>,
    polls: usize,
    pure: bool,
) -> Option<Subscriber<'_, N, S, P>> {
    match pure {
        true => _ = within(polls, subscriber.next_message_pure()).await,
        false => _ = within(polls, subscriber.next_message()).await,
    }
    Some(subscriber)
}

/// Waits until a message is published, and gives no subscriber back.
async fn publish_next<S>(publish: impl Future<Output = ()>) -> Option<S> {
    publish.await;
    None
}

/// In a plain program no subscriber leaves, and nothing is cleared.
fn pubsub<const N: usize, const S: usize, const P: usize>(dice: &mut Dice) -> Run {
    let channel: PubSubChannel<NoopRawMutex, u64, N, S, P> = PubSubChannel::new();
    let kept = P.min(1 + dice.place(P.max(1)));
    let publishers: Vec<_> = (0..kept).map(|_| channel.publisher().unwrap()).collect();
    let immediate = channel.immediate_publisher();
    let clears = dice.coin();
    let mut futures = Futures::new(dice);
    let mut subscribers: Vec<Subscriber<'_, N, S, P>> = Vec::new();
    for _ in 0..steps(dice) {
        let message = dice.message();
        match dice.below(16) {
            0 | 1 => subscribers.extend(channel.subscriber()),
            2 => drop(channel.publisher()),
            3..=6 if publishers.is_empty() => immediate.publish_immediate(message),
            3 => _ = publishers[dice.place(kept)].try_publish(message),
            4 | 5 => {
                let publisher = &publishers[dice.place(kept)];
                futures.add(|| publish_next(publisher.publish(message)));
            }
            6 if dice.coin() => immediate.publish_immediate(message),
            6 => publishers[dice.place(kept)].publish_immediate(message),
            7 => _ = subscribers.iter_mut().map(|it| (it.available(), it.try_next_message())).count(),
            8 => _ = subscribers.last_mut().map(Subscriber::try_next_message_pure),
            9 | 10 => {
                futures.add_with(&mut subscribers, |subscriber| read_next(subscriber, 1 + dice.place(3), dice.coin()));
            }
            11 => _ = (channel.len(), channel.is_full(), channel.is_empty(), channel.free_capacity()),
            12 if !clears && !dice.is_plain => {
                // (what is available and isn't held was missed, so that the run shows whether this one lags)
                _ = subscribers.pop().map(|subscriber| (subscriber.available(), channel.len()));
            }
            12 if clears && !dice.is_plain => channel.clear(),
            _ => subscribers.extend(futures.poll(dice).flatten()),
        }
    }
    channel.run()
}

type Sender<'a> = zerocopy_channel::Sender<'a, NoopRawMutex, u64>;
type Receiver<'a> = zerocopy_channel::Receiver<'a, NoopRawMutex, u64>;

/// Sends in so many polls at most. The sender comes back.
async fn send(mut sender: Sender<'_>, polls: usize, message: u64) -> (Option<Sender<'_>>, Option<Receiver<'_>>) {
    if let Some(slot) = within(polls, sender.send()).await {
        *slot = message;
        sender.send_done();
    }
    (Some(sender), None)
}

/// Receives in so many polls at most. The receiver comes back.
async fn receive(mut receiver: Receiver<'_>, polls: usize) -> (Option<Sender<'_>>, Option<Receiver<'_>>) {
    if within(polls, receiver.receive()).await.is_some() {
        receiver.receive_done();
    }
    (None, Some(receiver))
}

/// In a plain program nothing is cleared.
fn zerocopy(dice: &mut Dice) -> Run {
    let mut slots = [7, 8, 9, 10, 11, 12];
    let mut channel = zerocopy_channel::Channel::new(&mut slots[..1 + dice.place(6)]);
    {
        let (sender, receiver) = channel.split();
        let (mut sender, mut receiver) = (Some(sender), Some(receiver));
        let mut futures = Futures::new(dice);
        for _ in 0..steps(dice) {
            let message = dice.message();
            match dice.below(10) {
                0 => _ = sender.take().map(|sender| futures.add(|| send(sender, 1 + dice.place(4), message))),
                1 => _ = receiver.take().map(|receiver| futures.add(|| receive(receiver, 1 + dice.place(4)))),
                2 => _ = sender.as_mut().map(|sender| try_send(sender, message)),
                3 => _ = receiver.as_mut().map(try_receive),
                4 => _ = sender.as_mut().map(|sender| sender.poll_send(&mut dice.context()).is_ready()),
                5 => _ = sender.as_ref().map(|sender| (sender.len(), sender.is_full(), sender.is_empty())),
                6 if !dice.is_plain => _ = sender.as_mut().map(Sender::clear),
                7 if !dice.is_plain => _ = receiver.as_mut().map(Receiver::clear),
                _ => {
                    if let Some((sent, received)) = futures.poll(dice) {
                        (sender, receiver) = (sender.or(sent), receiver.or(received));
                    }
                }
            }
        }
    }
    channel.run()
}

fn try_send(sender: &mut Sender<'_>, message: u64) {
    if let Some(slot) = sender.try_send() {
        *slot = message;
        sender.send_done();
    }
}

fn try_receive(receiver: &mut Receiver<'_>) {
    if receiver.try_receive().is_some() {
        receiver.receive_done();
    }
}

fn once(dice: &mut Dice) -> Run {
    let mut lock: OnceLock<u64> = OnceLock::new();
    for _ in 0..3 {
        let mut futures = Futures::new(dice);
        for _ in 0..steps(dice) / 3 {
            let message = dice.message();
            match dice.below(9) {
                0 | 1 => futures.add(|| {
                    let get = lock.get();
                    async { _ = get.await }
                }),
                2 => _ = lock.try_get(),
                3 => _ = lock.init(message),
                4 => _ = lock.get_or_init(|| message),
                5 => _ = lock.is_set(),
                6 => futures.end(dice),
                _ => _ = futures.poll(dice),
            }
        }
        drop(futures);
        lock.take();
    }
    lock.run()
}

fn lazy(dice: &mut Dice) -> Run {
    let message = dice.message();
    let lock = LazyLock::new(move || message);
    for _ in 0..dice.below(4) {
        lock.get();
    }
    lock.run()
}
