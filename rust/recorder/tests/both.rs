//! One program that is compiled with the feature and without: the primitives as statics, their futures in threads.
use std::future::Future;
use std::pin::Pin;
use std::task::{Context, Poll};

use critical_section as _;
use recorder::blocking_mutex::raw::CriticalSectionRawMutex;
use recorder::channel::{Channel, DynamicReceiver, DynamicSender, Receiver, Sender, TrySendError};
use recorder::lazy_lock::LazyLock;
use recorder::mutex::{MappedMutexGuard, Mutex, MutexGuard};
use recorder::once_lock::OnceLock;
use recorder::pipe::Pipe;
use recorder::priority_channel::{Max, PriorityChannel};
use recorder::pubsub::{DynSubscriber, PubSubChannel, Subscriber};
use recorder::semaphore::{FairSemaphore, GreedySemaphore, Semaphore, SemaphoreReleaser};
use recorder::signal::Signal;
use recorder::watch::{DynReceiver, Watch};
use recorder::{Name, Named, named_by_debug, zerocopy_channel};

mod executor;
use executor::{Executor, Task};

type Raw = CriticalSectionRawMutex;

/// A message with a number.
#[derive(Clone, Copy, Debug, PartialEq)]
struct Reading(u32);

impl Named for Reading {
    fn name(&self) -> Name {
        Name::number(self.0)
    }
}

/// A message without one.
#[derive(Clone, Debug, PartialEq)]
enum Event {
    Started,
    Failed(String),
}

named_by_debug!(Event);

static READINGS: Channel<Raw, Reading, 2> = Channel::new();
static URGENT: PriorityChannel<Raw, u8, Max, 2> = PriorityChannel::new();
static BYTES: Pipe<Raw, 4> = Pipe::new();
static STARTED: Signal<Raw, Event> = Signal::new();
static TOTALS: Mutex<Raw, [u32; 2]> = Mutex::new([0, 0]);
static POOL: GreedySemaphore<Raw> = GreedySemaphore::new(1);
static QUEUE: FairSemaphore<Raw, 2> = FairSemaphore::new(1);
static CONFIG: Watch<Raw, u16, 2> = Watch::new_with(1);
static EVENTS: PubSubChannel<Raw, Event, 2, 4, 4> = PubSubChannel::new();
static ONCE: OnceLock<u8> = OnceLock::new();
static LAZY: LazyLock<u8> = LazyLock::new(|| 3);

/// A future that another thread can have.
fn sent<F: Future + Send>(future: F) -> F {
    future
}

async fn produce(sender: Sender<'static, Raw, Reading, 2>) {
    for number in 0..5 {
        if let Err(TrySendError::Full(reading)) = sender.try_send(Reading(number)) {
            sent(sender.send(reading)).await;
        }
        let mut totals = sent(TOTALS.lock()).await;
        totals[0] += number;
    }
}

async fn consume(receiver: Receiver<'static, Raw, Reading, 2>, sum: &mut u32) {
    for _ in 0..5 {
        *sum += sent(receiver.receive()).await.0;
        let part: MappedMutexGuard<'_, Raw, u32> = MutexGuard::map(TOTALS.lock().await, |totals| &mut totals[1]);
        assert!(*part == 0);
    }
}

#[test]
fn a_channel_and_a_mutex() {
    let mut sum = 0;
    let mut executor = Executor::default();
    executor.spawn(produce(READINGS.sender()));
    executor.spawn(consume(READINGS.receiver(), &mut sum));
    assert_eq!(executor.run(), 0);
    drop(executor);
    assert_eq!(sum, 10);
    let totals: &Mutex<Raw, [u32]> = &TOTALS;
    assert_eq!(totals.try_lock().unwrap()[0], 10);
    let (sender, receiver): (DynamicSender<'_, Reading>, DynamicReceiver<'_, Reading>) =
        (READINGS.sender().into(), READINGS.receiver().into());
    assert!(sender.try_send(Reading(1)).is_ok() && receiver.try_receive() == Ok(Reading(1)));
}

/// Takes a permit of any semaphore.
/// Returns what a channel gives of a message whose type has a name.
fn through_a_channel<T: Named>(message: T) -> Option<T> {
    let channel: Channel<Raw, T, 1> = Channel::new();
    channel.try_send(message).ok()?;
    channel.try_receive().ok()
}

#[test]
fn messages_of_foreign_types() {
    assert_eq!(through_a_channel(()), Some(()));
    assert_eq!(through_a_channel((true, 'a')), Some((true, 'a')));
    assert_eq!(through_a_channel((1.5_f32,)), Some((1.5,)));
    assert_eq!(through_a_channel([1_u8, 2, 3, 4]), Some([1, 2, 3, 4]));
    assert_eq!(through_a_channel("ready"), Some("ready"));
    assert_eq!(through_a_channel(&[0.5_f64][..]), Some(&[0.5][..]));
    assert_eq!(through_a_channel(Some((1_u8, 2_i8, 3_u16))), Some(Some((1, 2, 3))));
    assert_eq!(through_a_channel((1_u8, 2.5_f64, Some(3), "four")), Some((1, 2.5, Some(3), "four")));
}

async fn take<S: Semaphore>(semaphore: &S) -> SemaphoreReleaser<'_, S> {
    match semaphore.acquire(1).await {
        Ok(releaser) => releaser,
        Err(_) => panic!("nobody else waits"),
    }
}

/// Subscribers of both kinds, in a struct that names their types.
struct Listeners<'a> {
    sized: Subscriber<'a, Raw, Event, 2, 4, 4>,
    dynamic: DynSubscriber<'a, Event>,
    config: DynReceiver<'a, u16>,
}

async fn listen(listeners: &mut Listeners<'_>) -> (Event, Event, u16) {
    let first = sent(listeners.sized.next_message_pure()).await;
    (first, listeners.dynamic.next_message_pure().await, listeners.config.changed_and(|value| *value > 3).await)
}

#[test]
fn the_others() {
    let mut executor = Executor::default();
    executor.spawn(async {
        let (one, other) = (take(&POOL).await, take(&QUEUE).await);
        assert_eq!(one.permits() + other.disarm(), 2);
        sent(URGENT.send(*ONCE.get_or_init(|| *LAZY.get()))).await;
        assert_eq!(sent(URGENT.receive()).await, 3);
        sent(BYTES.write_all(b"abcdef")).await;
    });
    executor.spawn(async {
        let mut buf = [0; 3];
        let first = BYTES.read(&mut buf).await;
        assert_eq!(first + BYTES.read(&mut buf[..1]).await, 4);
        assert_eq!(sent(STARTED.wait()).await, Event::Started);
    });
    executor.spawn(async {
        let (sized, dynamic) = (EVENTS.subscriber().unwrap(), EVENTS.dyn_subscriber().unwrap());
        let mut listeners = Listeners { sized, dynamic, config: CONFIG.receiver().unwrap().into() };
        let publisher = EVENTS.publisher().unwrap();
        publisher.publish(Event::Failed("x".to_string())).await;
        CONFIG.sender().send(4);
        let (first, second, config) = listen(&mut listeners).await;
        assert_eq!((first, config), (second, 4));
        STARTED.signal(Event::Started);
    });
    assert_eq!(executor.run(), 0);
}

/// A future of one's own over a poll.
struct Next<'a>(&'a Channel<Raw, Reading, 2>);

impl Future for Next<'_> {
    type Output = Reading;

    fn poll(self: Pin<&mut Self>, cx: &mut Context<'_>) -> Poll<Reading> {
        self.0.poll_receive(cx)
    }
}

#[test]
fn a_zero_copy_channel_and_a_poll() {
    let mut slots = [Reading(0), Reading(0)];
    let mut channel: zerocopy_channel::Channel<'_, Raw, Reading> = zerocopy_channel::Channel::new(&mut slots);
    let (mut sender, mut receiver) = channel.split();
    let mut executor = Executor::default();
    executor.spawn(async {
        *sender.send().await = Reading(7);
        sender.send_done();
    });
    assert_eq!(executor.run(), 0);
    assert_eq!(receiver.try_receive().copied(), Some(Reading(7)));
    receiver.receive_done();
    let own: Channel<Raw, Reading, 2> = Channel::new();
    assert!(own.try_send(Reading(5)).is_ok());
    assert_eq!(Task::new().poll(&mut Next(&own)), Poll::Ready(Reading(5)));
}
