//! The same passes over embassy-sync, in the same shapes.
use std::cell::Cell;
use std::future::Future;
use std::pin::pin;
use std::sync::atomic::{AtomicU64, Ordering};
use std::task::{Context, Poll, RawWaker, RawWakerVTable, Waker};

use embassy_sync::blocking_mutex::raw::RawMutex;
use embassy_sync::channel::Channel;
use embassy_sync::mutex::Mutex;
use embassy_sync::once_lock::OnceLock;
use embassy_sync::pipe::Pipe;
use embassy_sync::priority_channel::{Max, PriorityChannel};
use embassy_sync::pubsub::{PubSubChannel, Subscriber, WaitResult};
use embassy_sync::semaphore::{FairSemaphore, GreedySemaphore, Semaphore, SemaphoreReleaser};
use embassy_sync::signal::Signal;
use embassy_sync::watch::Watch;
use embassy_sync::zerocopy_channel;

use crate::{bytes, Answer};

/// A word that is read between two calls, as in the static library.
struct Turn(AtomicU64);

impl Turn {
    fn new() -> Self {
        Turn(AtomicU64::new(0))
    }

    fn next(&self) {
        let _ = self.0.load(Ordering::SeqCst);
    }
}

/// The cheapest waker that counts: a pointer to the count, which a clone copies and a drop leaves alone.
const COUNTING: RawWakerVTable = RawWakerVTable::new(
    |count| RawWaker::new(count, &COUNTING),
    |count| add_wake(count),
    |count| add_wake(count),
    |_| (),
);

fn add_wake(count: *const ()) {
    // Only `counted` makes such a waker, and its count outlives the pass.
    let count = unsafe { &*count.cast::<Cell<u64>>() };
    count.set(count.get().wrapping_add(1));
}

fn counted(count: &Cell<u64>) -> Waker {
    let count: *const Cell<u64> = count;
    // The table does what a waker's table has to do.
    unsafe { Waker::from_raw(RawWaker::new(count.cast(), &COUNTING)) }
}

fn answer(total: u64, woken: u64) -> Answer {
    Answer { total, woken }
}

#[inline(never)]
fn ping_pong_through<M: RawMutex, const N: usize>(
    channel: &Channel<M, u32, N>,
    messages: &[u32],
    turn: &Turn,
) -> u64 {
    let mut total = 0u64;
    for message in messages {
        let _ = channel.try_send(*message);
        turn.next();
        total = total.wrapping_add(channel.try_receive().unwrap_or(0).into());
        turn.next();
    }
    total
}

pub fn ping_pong<M: RawMutex, const N: usize>(messages: &[u32]) -> Answer {
    answer(
        ping_pong_through(&Channel::<M, u32, N>::new(), messages, &Turn::new()),
        0,
    )
}

#[inline(never)]
fn fill_and_drain_through<M: RawMutex, const N: usize>(
    channel: &Channel<M, u32, N>,
    messages: &[u32],
    turn: &Turn,
) -> u64 {
    let mut total = 0u64;
    for chunk in messages.chunks(N) {
        for message in chunk {
            let _ = channel.try_send(*message);
            turn.next();
        }
        for _ in chunk {
            total = total.wrapping_add(channel.try_receive().unwrap_or(0).into());
            turn.next();
        }
    }
    total
}

pub fn fill_drain<M: RawMutex, const N: usize>(messages: &[u32]) -> Answer {
    answer(
        fill_and_drain_through(&Channel::<M, u32, N>::new(), messages, &Turn::new()),
        0,
    )
}

#[inline(never)]
pub fn first_messages<M: RawMutex, const N: usize>(messages: &[u32]) -> Answer {
    let turn = Turn::new();
    let mut total = 0u64;
    for message in messages {
        let channel = Channel::<M, u32, N>::new();
        // So it stands in memory, as ours does.
        std::hint::black_box(&channel);
        let _ = channel.try_send(*message);
        turn.next();
        total = total.wrapping_add(channel.try_receive().unwrap_or(0).into());
        turn.next();
    }
    answer(total, 0)
}

#[inline(never)]
fn wait_and_wake_through<M: RawMutex>(
    channel: &Channel<M, u32, 4>,
    messages: &[u32],
    cx: &mut Context<'_>,
    turn: &Turn,
) -> u64 {
    let mut total = 0u64;
    for message in messages {
        let mut receiving = pin!(channel.receive());
        if let Poll::Ready(message) = receiving.as_mut().poll(cx) {
            total = total.wrapping_add(message.into());
        }
        turn.next();
        let _ = channel.try_send(*message);
        turn.next();
        if let Poll::Ready(message) = receiving.as_mut().poll(cx) {
            total = total.wrapping_add(message.into());
        }
        turn.next();
    }
    total
}

pub fn wait_and_wake<M: RawMutex>(messages: &[u32]) -> Answer {
    let count = Cell::new(0);
    let waker = counted(&count);
    let total = wait_and_wake_through(
        &Channel::<M, u32, 4>::new(),
        messages,
        &mut Context::from_waker(&waker),
        &Turn::new(),
    );
    answer(total, count.get())
}

#[inline(never)]
fn priority_fill_and_drain_through<M: RawMutex, const N: usize>(
    channel: &PriorityChannel<M, u32, Max, N>,
    messages: &[u32],
    turn: &Turn,
) -> u64 {
    let mut total = 0u64;
    for chunk in messages.chunks(N) {
        for message in chunk {
            let _ = channel.try_send(*message);
            turn.next();
        }
        for _ in chunk {
            total = total.wrapping_add(channel.try_receive().unwrap_or(0).into());
            turn.next();
        }
    }
    total
}

pub fn priority_fill_drain<M: RawMutex, const N: usize>(messages: &[u32]) -> Answer {
    answer(
        priority_fill_and_drain_through(
            &PriorityChannel::<M, u32, Max, N>::new(),
            messages,
            &Turn::new(),
        ),
        0,
    )
}

#[inline(never)]
fn priority_steady_through<M: RawMutex, const N: usize>(
    channel: &PriorityChannel<M, u32, Max, N>,
    messages: &[u32],
    turn: &Turn,
) -> u64 {
    let mut total = 0u64;
    let (first, rest) = messages.split_at(messages.len().min(N / 2));
    for message in first {
        let _ = channel.try_send(*message);
        turn.next();
    }
    for message in rest {
        let _ = channel.try_send(*message);
        turn.next();
        total = total.wrapping_add(channel.try_receive().unwrap_or(0).into());
        turn.next();
    }
    for _ in 0..channel.len() {
        total = total.wrapping_add(channel.try_receive().unwrap_or(0).into());
        turn.next();
    }
    total
}

pub fn priority_steady<M: RawMutex, const N: usize>(messages: &[u32]) -> Answer {
    answer(
        priority_steady_through(
            &PriorityChannel::<M, u32, Max, N>::new(),
            messages,
            &Turn::new(),
        ),
        0,
    )
}

#[inline(never)]
fn signal_take_through<M: RawMutex>(signal: &Signal<M, u32>, messages: &[u32], turn: &Turn) -> u64 {
    let mut total = 0u64;
    for message in messages {
        signal.signal(*message);
        turn.next();
        total = total.wrapping_add(signal.try_take().unwrap_or(0).into());
        turn.next();
    }
    total
}

pub fn signal_take<M: RawMutex>(messages: &[u32]) -> Answer {
    answer(
        signal_take_through(&Signal::<M, u32>::new(), messages, &Turn::new()),
        0,
    )
}

#[inline(never)]
fn mutex_lock_through<M: RawMutex>(mutex: &Mutex<M, ()>, messages: &[u32], turn: &Turn) -> u64 {
    let mut total = 0u64;
    for message in messages {
        let locked = mutex.try_lock();
        turn.next();
        if locked.is_ok() {
            total = total.wrapping_add((*message).into());
        }
        drop(locked);
        turn.next();
    }
    total
}

/// The value has no bytes, since our state has none.
pub fn mutex_lock<M: RawMutex>(messages: &[u32]) -> Answer {
    answer(
        mutex_lock_through(&Mutex::<M, ()>::new(()), messages, &Turn::new()),
        0,
    )
}

/// Either semaphore, with this number of permits.
pub trait Permits: Semaphore {
    fn with(permits: usize) -> Self;
}

impl<M: RawMutex> Permits for GreedySemaphore<M> {
    fn with(permits: usize) -> Self {
        GreedySemaphore::new(permits)
    }
}

impl<M: RawMutex, const N: usize> Permits for FairSemaphore<M, N> {
    fn with(permits: usize) -> Self {
        FairSemaphore::new(permits)
    }
}

/// What a poll took: no releaser gives it back by itself, since our side gives back in a call of its own.
fn taken<S: Semaphore>(poll: Poll<Result<SemaphoreReleaser<'_, S>, S::Error>>) -> u64 {
    match poll {
        Poll::Ready(Ok(permits)) => permits.disarm() as u64,
        _ => 0,
    }
}

#[inline(never)]
fn acquire_and_release_through<S: Semaphore>(
    semaphore: &S,
    messages: &[u32],
    cx: &mut Context<'_>,
    turn: &Turn,
) -> u64 {
    let mut total = 0u64;
    for message in messages {
        let acquiring = pin!(semaphore.acquire(*message as usize));
        total = total.wrapping_add(taken(acquiring.poll(cx)));
        turn.next();
        semaphore.release(*message as usize);
        turn.next();
    }
    total
}

pub fn permits_acquire<S: Permits>(messages: &[u32]) -> Answer {
    let count = Cell::new(0);
    let waker = counted(&count);
    let total = acquire_and_release_through(
        &S::with(u32::MAX as usize),
        messages,
        &mut Context::from_waker(&waker),
        &Turn::new(),
    );
    answer(total, count.get())
}

#[inline(never)]
fn take_and_release_through<S: Semaphore>(semaphore: &S, messages: &[u32], turn: &Turn) -> u64 {
    let mut total = 0u64;
    for message in messages {
        if let Some(permits) = semaphore.try_acquire(*message as usize) {
            total = total.wrapping_add(permits.disarm() as u64);
        }
        turn.next();
        semaphore.release(*message as usize);
        turn.next();
    }
    total
}

pub fn permits_try_acquire<S: Permits>(messages: &[u32]) -> Answer {
    answer(
        take_and_release_through(&S::with(u32::MAX as usize), messages, &Turn::new()),
        0,
    )
}

#[inline(never)]
fn permits_wait_and_wake_through<S: Semaphore>(
    semaphore: &S,
    messages: &[u32],
    cx: &mut Context<'_>,
    turn: &Turn,
) -> u64 {
    let mut total = 0u64;
    for message in messages {
        let mut acquiring = pin!(semaphore.acquire(*message as usize));
        total = total.wrapping_add(taken(acquiring.as_mut().poll(cx)));
        turn.next();
        semaphore.release(*message as usize);
        turn.next();
        total = total.wrapping_add(taken(acquiring.as_mut().poll(cx)));
        turn.next();
    }
    total
}

pub fn permits_wait_and_wake<S: Permits>(messages: &[u32]) -> Answer {
    let count = Cell::new(0);
    let waker = counted(&count);
    let total = permits_wait_and_wake_through(
        &S::with(0),
        messages,
        &mut Context::from_waker(&waker),
        &Turn::new(),
    );
    answer(total, count.get())
}

#[inline(never)]
fn pipe_blocks_through<M: RawMutex, const N: usize>(
    pipe: &Pipe<M, N>,
    block: &mut [u8],
    row: &mut [u8],
    messages: &[u8],
    turn: &Turn,
) -> u64 {
    let last = block.len() - 1;
    let mut total = 0u64;
    for message in messages {
        block[last] = *message;
        let _ = pipe.try_write(block);
        turn.next();
        let _ = pipe.try_read(row);
        turn.next();
        total = total.wrapping_add(row[last].into());
    }
    total
}

/// Blocks of `K` bytes that never go across the wrap.
pub fn pipe_blocks<M: RawMutex, const N: usize, const K: usize>(messages: &[u32]) -> Answer {
    let total = pipe_blocks_through(
        &Pipe::<M, N>::new(),
        &mut [0; K],
        &mut [0; K],
        bytes(messages),
        &Turn::new(),
    );
    answer(total, 0)
}

#[inline(never)]
fn pipe_parts_through<M: RawMutex, const N: usize>(
    pipe: &Pipe<M, N>,
    block: &mut [u8],
    row: &mut [u8],
    messages: &[u8],
    turn: &Turn,
) -> u64 {
    let last = block.len() - 1;
    let mut total = 0u64;
    for message in messages {
        block[last] = *message;
        let mut rest = &block[..];
        while !rest.is_empty() {
            rest = &rest[pipe.try_write(rest).unwrap_or(rest.len())..];
        }
        turn.next();
        let mut done = 0;
        while done < row.len() {
            done += pipe.try_read(&mut row[done..]).unwrap_or(row.len());
        }
        turn.next();
        total = total.wrapping_add(row[last].into());
    }
    total
}

/// Blocks of `K` bytes that go across the wrap, where a call stops: it is called until all bytes are through.
pub fn pipe_parts<M: RawMutex, const N: usize, const K: usize>(messages: &[u32]) -> Answer {
    let total = pipe_parts_through(
        &Pipe::<M, N>::new(),
        &mut [0; K],
        &mut [0; K],
        bytes(messages),
        &Turn::new(),
    );
    answer(total, 0)
}

#[inline(never)]
fn pipe_wait_and_wake_through<M: RawMutex, const N: usize>(
    pipe: &Pipe<M, N>,
    block: &mut [u8],
    row: &mut [u8],
    messages: &[u8],
    cx: &mut Context<'_>,
    turn: &Turn,
) -> u64 {
    let last = block.len() - 1;
    let mut total = 0u64;
    for message in messages {
        block[last] = *message;
        let mut reading = pin!(pipe.read(row));
        let _ = reading.as_mut().poll(cx);
        turn.next();
        let _ = pipe.try_write(block);
        turn.next();
        let _ = reading.as_mut().poll(cx);
        turn.next();
        total = total.wrapping_add(row[last].into());
    }
    total
}

pub fn pipe_wait_and_wake<M: RawMutex, const N: usize, const K: usize>(messages: &[u32]) -> Answer {
    let count = Cell::new(0);
    let waker = counted(&count);
    let total = pipe_wait_and_wake_through(
        &Pipe::<M, N>::new(),
        &mut [0; K],
        &mut [0; K],
        bytes(messages),
        &mut Context::from_waker(&waker),
        &Turn::new(),
    );
    answer(total, count.get())
}

#[inline(never)]
fn mutex_wait_and_wake_through<M: RawMutex>(
    mutex: &Mutex<M, ()>,
    messages: &[u32],
    cx: &mut Context<'_>,
    turn: &Turn,
) -> u64 {
    let mut total = 0u64;
    for message in messages {
        let held = mutex.try_lock();
        turn.next();
        let mut locking = pin!(mutex.lock());
        let _ = locking.as_mut().poll(cx);
        turn.next();
        drop(held);
        turn.next();
        let locked = locking.as_mut().poll(cx);
        turn.next();
        if locked.is_ready() {
            total = total.wrapping_add((*message).into());
        }
        drop(locked);
        turn.next();
    }
    total
}

pub fn mutex_wait_and_wake<M: RawMutex>(messages: &[u32]) -> Answer {
    let count = Cell::new(0);
    let waker = counted(&count);
    let total = mutex_wait_and_wake_through(
        &Mutex::<M, ()>::new(()),
        messages,
        &mut Context::from_waker(&waker),
        &Turn::new(),
    );
    answer(total, count.get())
}

#[inline(never)]
fn watch_send_and_read_through<M: RawMutex>(
    watch: &Watch<M, u32, 4>,
    messages: &[u32],
    turn: &Turn,
) -> u64 {
    let mut receiver = watch.receiver().expect("there is a place");
    let sender = watch.sender();
    let mut total = 0u64;
    for message in messages {
        sender.send(*message);
        turn.next();
        total = total.wrapping_add(receiver.try_changed().unwrap_or(0).into());
        turn.next();
    }
    total
}

pub fn watch_send_and_read<M: RawMutex>(messages: &[u32]) -> Answer {
    answer(
        watch_send_and_read_through(&Watch::<M, u32, 4>::new(), messages, &Turn::new()),
        0,
    )
}

#[inline(never)]
fn watch_wait_and_wake_through<M: RawMutex>(
    watch: &Watch<M, u32, 4>,
    messages: &[u32],
    cx: &mut Context<'_>,
    turn: &Turn,
) -> u64 {
    let mut receiver = watch.receiver().expect("there is a place");
    let sender = watch.sender();
    let mut total = 0u64;
    for message in messages {
        let mut changed = pin!(receiver.changed());
        if let Poll::Ready(message) = changed.as_mut().poll(cx) {
            total = total.wrapping_add(message.into());
        }
        turn.next();
        sender.send(*message);
        turn.next();
        if let Poll::Ready(message) = changed.as_mut().poll(cx) {
            total = total.wrapping_add(message.into());
        }
        turn.next();
    }
    total
}

pub fn watch_wait_and_wake<M: RawMutex>(messages: &[u32]) -> Answer {
    let count = Cell::new(0);
    let waker = counted(&count);
    let total = watch_wait_and_wake_through(
        &Watch::<M, u32, 4>::new(),
        messages,
        &mut Context::from_waker(&waker),
        &Turn::new(),
    );
    answer(total, count.get())
}

#[inline(never)]
fn once_init_and_get_through(once: &mut OnceLock<u32>, messages: &[u32], turn: &Turn) -> u64 {
    let mut total = 0u64;
    for message in messages {
        let _ = once.init(*message);
        turn.next();
        if let Some(message) = once.try_get() {
            total = total.wrapping_add((*message).into());
        }
        turn.next();
        let _ = once.take();
        turn.next();
    }
    total
}

pub fn once_init_and_get(messages: &[u32]) -> Answer {
    answer(
        once_init_and_get_through(&mut OnceLock::new(), messages, &Turn::new()),
        0,
    )
}

type Topic<M, const SUBS: usize> = PubSubChannel<M, u32, 4, SUBS, 1>;
type Reader<'a, M, const SUBS: usize> = Subscriber<'a, M, u32, 4, SUBS, 1>;

fn heard<M: RawMutex, const SUBS: usize>(subscriber: &mut Reader<'_, M, SUBS>) -> u64 {
    match subscriber.try_next_message() {
        Some(WaitResult::Message(message)) => message.into(),
        Some(WaitResult::Lagged(missed)) => missed,
        None => 0,
    }
}

#[inline(never)]
fn pubsub_through<M: RawMutex, const SUBS: usize>(
    topic: &Topic<M, SUBS>,
    subscribers: &mut [Reader<'_, M, SUBS>],
    messages: &[u32],
    turn: &Turn,
) -> u64 {
    let publisher = topic.publisher().expect("there is a place");
    let mut total = 0u64;
    for message in messages {
        let _ = publisher.try_publish(*message);
        turn.next();
        for subscriber in &mut *subscribers {
            total = total.wrapping_add(heard(subscriber));
            turn.next();
        }
    }
    total
}

pub fn pubsub<M: RawMutex, const SUBS: usize>(messages: &[u32]) -> Answer {
    let topic = Topic::<M, SUBS>::new();
    let mut subscribers: [_; SUBS] =
        std::array::from_fn(|_| topic.subscriber().expect("there is a place"));
    answer(
        pubsub_through(&topic, &mut subscribers, messages, &Turn::new()),
        0,
    )
}

#[inline(never)]
fn pubsub_lag_through<M: RawMutex>(
    topic: &Topic<M, 1>,
    subscriber: &mut Reader<'_, M, 1>,
    messages: &[u32],
    turn: &Turn,
) -> u64 {
    let publisher = topic.immediate_publisher();
    let mut total = 0u64;
    for chunk in messages.chunks(8) {
        for message in chunk {
            publisher.publish_immediate(*message);
            turn.next();
        }
        for _ in 0..5 {
            total = total.wrapping_add(heard(subscriber));
            turn.next();
        }
    }
    total
}

pub fn pubsub_lag<M: RawMutex>(messages: &[u32]) -> Answer {
    let topic = Topic::<M, 1>::new();
    let mut subscriber = topic.subscriber().expect("there is a place");
    answer(
        pubsub_lag_through(&topic, &mut subscriber, messages, &Turn::new()),
        0,
    )
}

fn polled<M: RawMutex>(subscriber: &mut Reader<'_, M, 4>, cx: &mut Context<'_>) -> u64 {
    match pin!(subscriber.next_message_pure()).poll(cx) {
        Poll::Ready(message) => message.into(),
        Poll::Pending => 0,
    }
}

#[inline(never)]
fn pubsub_wait_and_wake_through<M: RawMutex>(
    topic: &Topic<M, 4>,
    subscribers: &mut [Reader<'_, M, 4>],
    wakers: &[Waker],
    messages: &[u32],
    turn: &Turn,
) -> u64 {
    let publisher = topic.publisher().expect("there is a place");
    let mut total = 0u64;
    for message in messages {
        for (subscriber, waker) in subscribers.iter_mut().zip(wakers) {
            total = total.wrapping_add(polled(subscriber, &mut Context::from_waker(waker)));
            turn.next();
        }
        let _ = publisher.try_publish(*message);
        turn.next();
        for (subscriber, waker) in subscribers.iter_mut().zip(wakers) {
            total = total.wrapping_add(polled(subscriber, &mut Context::from_waker(waker)));
            turn.next();
        }
    }
    total
}

pub fn pubsub_wait_and_wake<M: RawMutex>(messages: &[u32]) -> Answer {
    let counts: [Cell<u64>; 4] = Default::default();
    let wakers: [Waker; 4] = std::array::from_fn(|k| counted(&counts[k]));
    let topic = Topic::<M, 4>::new();
    let mut subscribers: [_; 4] =
        std::array::from_fn(|_| topic.subscriber().expect("there is a place"));
    let total = pubsub_wait_and_wake_through(
        &topic,
        &mut subscribers,
        &wakers,
        messages,
        &Turn::new(),
    );
    answer(total, counts.iter().map(Cell::get).sum())
}

fn block(message: u32) -> [u8; 1024] {
    [message as u8; 1024]
}

#[inline(never)]
fn slots_through<M: RawMutex>(
    sender: &mut zerocopy_channel::Sender<'_, M, [u8; 1024]>,
    receiver: &mut zerocopy_channel::Receiver<'_, M, [u8; 1024]>,
    messages: &[u32],
) -> u64 {
    let mut total = 0u64;
    for message in messages {
        if let Some(slot) = sender.try_send() {
            *slot = block(*message);
            sender.send_done();
        }
        if let Some(slot) = receiver.try_receive() {
            total = total.wrapping_add(slot[1023].into());
            receiver.receive_done();
        }
    }
    total
}

pub fn slots<M: RawMutex>(messages: &[u32]) -> Answer {
    let mut row = [[0; 1024]; 2];
    let mut channel = zerocopy_channel::Channel::<M, [u8; 1024]>::new(&mut row);
    let (mut sender, mut receiver) = channel.split();
    answer(slots_through(&mut sender, &mut receiver, messages), 0)
}

#[inline(never)]
fn blocks_through<M: RawMutex>(channel: &Channel<M, [u8; 1024], 2>, messages: &[u32]) -> u64 {
    let mut total = 0u64;
    for message in messages {
        let _ = channel.try_send(block(*message));
        if let Ok(block) = channel.try_receive() {
            total = total.wrapping_add(block[1023].into());
        }
    }
    total
}

pub fn blocks<M: RawMutex>(messages: &[u32]) -> Answer {
    answer(
        blocks_through(&Channel::<M, [u8; 1024], 2>::new(), messages),
        0,
    )
}
