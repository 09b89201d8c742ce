//! A run or two of each primitive that have each of its calls, against the text that its documentation makes of them.
#![cfg(feature = "record")]
use std::fs;
use std::task::Poll::{Pending, Ready};

use critical_section as _;
use embassy_sync::blocking_mutex::raw::NoopRawMutex;
use recorder::channel::{self, Channel, TryReceiveError, TrySendError};
use recorder::lazy_lock::LazyLock;
use recorder::mutex::{MappedMutexGuard, Mutex, MutexGuard};
use recorder::once_lock::OnceLock;
use recorder::pipe::{self, Pipe, TryReadError, TryWriteError};
use recorder::priority_channel::{Max, Min, PriorityChannel};
use recorder::pubsub::{Error, PubSubChannel, WaitResult};
use recorder::semaphore::{FairSemaphore, GreedySemaphore, Semaphore, WaitQueueFull};
use recorder::signal::Signal;
use recorder::watch::{self, Watch};
use recorder::{Recorded, Run, zerocopy_channel};

mod executor;
use executor::Task;
mod keep;
use keep::keep;

/// Compares a run with the text in `tests/expected`, and keeps it for the judge.
#[track_caller]
fn expect(name: &str, run: &Run) {
    assert_eq!(run.stop, None);
    let text = fs::read_to_string(format!("tests/expected/{name}.run")).unwrap();
    for (number, (recorded, expected)) in run.text.lines().zip(text.lines()).enumerate() {
        assert_eq!(recorded, expected, "line {}", number + 1);
    }
    assert_eq!(run.text, text);
    keep(name, run);
}

#[test]
fn a_channel() {
    let channel: Channel<NoopRawMutex, u8, 2> = Channel::new();
    let (sender, receiver) = (channel.sender(), channel.receiver());
    let (one, two) = (Task::new(), Task::new());
    assert_eq!((channel.capacity(), sender.capacity(), receiver.capacity()), (2, 2, 2));
    channel.clear();
    assert!(channel.is_empty());

    let mut receive = channel.receive();
    assert_eq!(one.poll(&mut receive), Pending);
    assert_eq!(channel.try_send(7), Ok(()));
    assert_eq!(one.take_wakes(), 1);
    assert_eq!(one.poll(&mut receive), Ready(7));
    let mut ready = channel.ready_to_receive();
    assert_eq!(two.poll(&mut ready), Pending);
    assert_eq!(channel.try_send(1), Ok(()));
    assert_eq!(two.poll(&mut ready), Ready(()));
    // (a poll for readiness registers whatever it answers)
    assert_eq!(channel.try_send(2), Ok(()));
    assert!(channel.is_full());
    assert_eq!(channel.try_send(3), Err(TrySendError::Full(3)));
    let mut send = channel.send(4);
    assert_eq!(one.poll(&mut send), Pending);
    assert_eq!((channel.free_capacity(), channel.len()), (0, 2));
    assert_eq!(channel.poll_receive(&mut two.context()), Ready(1));
    assert_eq!(one.poll(&mut send), Ready(()));
    assert_eq!(channel.poll_ready_to_send(&mut one.context()), Pending);
    assert_eq!(channel.poll_ready_to_receive(&mut two.context()), Ready(()));
    assert_eq!(channel.try_receive(), Ok(2));
    assert_eq!(channel.try_receive(), Ok(4));
    assert_eq!(channel.try_receive(), Err(TryReceiveError::Empty));
    expect("each_channel", &channel.run());
}

#[test]
fn the_handles_of_a_channel() {
    let channel: Channel<NoopRawMutex, u8, 1> = Channel::new();
    let (sender, receiver) = (channel.sender(), channel.receiver());
    let (one, two) = (Task::new(), Task::new());
    sender.clear();
    receiver.clear();
    assert_eq!(sender.try_send(1), Ok(()));
    assert_eq!((sender.len(), receiver.len()), (1, 1));
    assert_eq!((sender.free_capacity(), receiver.free_capacity()), (0, 0));
    assert_eq!((sender.is_full(), receiver.is_full()), (true, true));
    assert_eq!((sender.is_empty(), receiver.is_empty()), (false, false));
    let mut send = sender.send(2);
    assert_eq!(one.poll(&mut send), Pending);
    assert_eq!(sender.poll_ready_to_send(&mut two.context()), Pending);
    assert_eq!(receiver.poll_ready_to_receive(&mut one.context()), Ready(()));
    let mut ready = receiver.ready_to_receive();
    assert_eq!(one.poll(&mut ready), Ready(()));
    assert_eq!(receiver.poll_receive(&mut one.context()), Ready(1));
    assert_eq!(one.poll(&mut send), Ready(()));
    assert_eq!(receiver.try_receive(), Ok(2));
    let mut receive = receiver.receive();
    assert_eq!(two.poll(&mut receive), Pending);
    drop(receive);

    let (sender, receiver) = (channel::DynamicSender::from(sender), channel::DynamicReceiver::from(receiver));
    assert_eq!(sender.try_send(3), Ok(()));
    let mut send = sender.send(4);
    assert_eq!(one.poll(&mut send), Pending);
    drop(send);
    assert_eq!(sender.poll_ready_to_send(&mut one.context()), Pending);
    assert_eq!(receiver.poll_ready_to_receive(&mut one.context()), Ready(()));
    assert_eq!(receiver.poll_receive(&mut one.context()), Ready(3));
    assert_eq!(receiver.try_receive(), Err(TryReceiveError::Empty));
    let mut receive = receiver.receive();
    assert_eq!(two.poll(&mut receive), Pending);
    assert_eq!(channel.dyn_sender().try_send(5), Ok(()));
    assert_eq!(two.poll(&mut receive), Ready(5));
    assert_eq!(channel.dyn_receiver().try_receive(), Err(TryReceiveError::Empty));
    expect("each_channel_handle", &channel.run());
}

#[test]
fn a_priority_channel() {
    let channel: PriorityChannel<NoopRawMutex, u8, Max, 2> = PriorityChannel::new();
    let (one, two) = (Task::new(), Task::new());
    channel.clear();
    assert!(channel.is_empty());
    let mut receive = channel.receive();
    assert_eq!(one.poll(&mut receive), Pending);
    assert_eq!(channel.try_send(3), Ok(()));
    assert_eq!(one.poll(&mut receive), Ready(3));
    assert_eq!(channel.try_send(4), Ok(()));
    assert_eq!(channel.try_send(9), Ok(()));
    assert!(channel.is_full());
    assert_eq!(channel.try_send(5), Err(TrySendError::Full(5)));
    let mut send = channel.send(6);
    assert_eq!(one.poll(&mut send), Pending);
    assert_eq!((channel.free_capacity(), channel.len()), (0, 2));
    assert_eq!(channel.poll_receive(&mut two.context()), Ready(9));
    assert_eq!(one.poll(&mut send), Ready(()));
    assert_eq!(channel.poll_ready_to_send(&mut one.context()), Pending);
    assert_eq!(channel.poll_ready_to_receive(&mut two.context()), Ready(()));
    assert_eq!(channel.try_receive(), Ok(6));
    assert_eq!(channel.try_receive(), Ok(4));
    assert_eq!(channel.try_receive(), Err(TryReceiveError::Empty));
    expect("each_priority", &channel.run());
}

#[test]
fn the_handles_of_a_priority_channel() {
    let channel: PriorityChannel<NoopRawMutex, i8, Min, 2> = PriorityChannel::new();
    let (sender, receiver) = (channel.sender(), channel.receiver());
    let one = Task::new();
    sender.clear();
    receiver.clear();
    assert_eq!(sender.try_send(1), Ok(()));
    assert_eq!(one.poll(&mut sender.send(-1)), Ready(()));
    assert_eq!((sender.len(), receiver.len()), (2, 2));
    assert_eq!((sender.free_capacity(), receiver.free_capacity()), (0, 0));
    assert_eq!((sender.is_full(), receiver.is_full()), (true, true));
    assert_eq!((sender.is_empty(), receiver.is_empty()), (false, false));
    assert_eq!(sender.poll_ready_to_send(&mut one.context()), Pending);
    assert_eq!(receiver.poll_ready_to_receive(&mut one.context()), Ready(()));
    assert_eq!(receiver.poll_receive(&mut one.context()), Ready(-1));
    assert_eq!(receiver.try_receive(), Ok(1));
    let mut receive = receiver.receive();
    assert_eq!(one.poll(&mut receive), Pending);
    assert_eq!(channel::DynamicSender::from(sender).try_send(2), Ok(()));
    assert_eq!(channel::DynamicReceiver::from(receiver).try_receive(), Ok(2));
    drop(receive);
    expect("each_priority_handle", &channel.run());
}

#[test]
fn a_pipe() {
    let pipe: Pipe<NoopRawMutex, 4> = Pipe::new();
    let one = Task::new();
    let mut buf = [0; 64];
    assert_eq!(pipe.capacity(), 4);
    pipe.clear();
    assert!(pipe.is_empty());
    let mut read = pipe.read(&mut buf);
    assert_eq!(one.poll(&mut read), Pending);
    assert_eq!(pipe.try_write(&[1, 2]), Ok(2));
    assert_eq!(one.poll(&mut read), Ready(2));
    drop(read);
    assert_eq!(buf[..2], [1, 2]);
    assert_eq!(pipe.try_write(&[3, 4]), Ok(2));
    assert_eq!(pipe.try_read(&mut buf[..2]), Ok(2));
    assert_eq!(one.poll(&mut pipe.write(&[5, 6, 7, 8])), Ready(4));
    assert!(pipe.is_full());
    assert_eq!((pipe.free_capacity(), pipe.len()), (0, 4));
    assert_eq!(pipe.try_write(&[9]), Err(TryWriteError::Full));
    let mut write = Box::pin(pipe.write_all(&[9, 10]));
    assert_eq!(one.poll(&mut write), Pending);
    assert_eq!(pipe.try_read(&mut buf), Ok(4));
    assert_eq!(one.poll(&mut write), Ready(()));
    assert_eq!(pipe.try_read(&mut []), Ok(0));
    assert_eq!(pipe.try_read(&mut buf), Ok(2));
    assert_eq!(pipe.try_read(&mut buf), Err(TryReadError::Empty));
    expect("each_pipe", &pipe.run());
}

#[test]
fn the_ends_of_a_pipe() {
    let mut pipe: Pipe<NoopRawMutex, 4> = Pipe::new();
    let (one, two) = (Task::new(), Task::new());
    let mut buf = [0; 4];
    {
        let (mut reader, writer) = pipe.split();
        assert_eq!(reader.try_read(&mut buf), Err(TryReadError::Empty));
        assert_eq!(reader.try_fill_buf(), Err(TryReadError::Empty));
        let mut fill = reader.fill_buf();
        assert_eq!(two.poll(&mut fill), Pending);
        assert_eq!(writer.try_write(&[1, 2, 3]), Ok(3));
        assert_eq!(two.poll(&mut fill), Ready(&[1, 2, 3][..]));
        drop(fill);
        reader.consume(2);
        assert_eq!(one.poll(&mut writer.write(&[4])), Ready(1));
        assert_eq!(reader.try_fill_buf(), Ok(&[3, 4][..]));
        assert_eq!(one.poll(&mut reader.read(&mut buf)), Ready(2));

        let (mut reader, writer) = (pipe::DynamicReader::from(reader), pipe::DynamicWriter::from(writer));
        let mut fill = reader.fill_buf();
        assert_eq!(one.poll(&mut fill), Pending);
        assert_eq!(one.poll(&mut writer.write(&[5, 6])), Ready(2));
        assert_eq!(one.poll(&mut fill), Ready(&[5, 6][..]));
        drop(fill);
        reader.consume(1);
        assert_eq!(writer.try_write(&[7]), Ok(1));
        assert_eq!(reader.try_read(&mut buf[..1]), Ok(1));
        assert_eq!(reader.try_fill_buf(), Ok(&[7][..]));
        assert_eq!(one.poll(&mut reader.read(&mut buf)), Ready(1));
    }
    expect("each_pipe_end", &pipe.run());
}

#[test]
fn a_signal() {
    let signal: Signal<NoopRawMutex, u8> = Signal::default();
    let (one, two) = (Task::new(), Task::new());
    assert!(!signal.signaled());
    signal.reset();
    let mut first = Box::pin(signal.wait());
    assert_eq!(one.poll(&mut first), Pending);
    let mut second = Box::pin(signal.wait());
    assert_eq!(two.poll(&mut second), Pending);
    signal.signal(5);
    assert!(signal.signaled());
    assert_eq!(one.poll(&mut first), Ready(5));
    drop(second);
    signal.signal(6);
    signal.signal(7);
    assert_eq!(signal.try_take(), Some(7));
    assert_eq!(signal.try_take(), None);
    expect("each_signal", &signal.run());
}

#[test]
fn a_mutex() {
    let mut mutex: Mutex<NoopRawMutex, [u8; 2]> = Mutex::from([1, 2]);
    let (one, two) = (Task::new(), Task::new());
    *mutex.get_mut() = [3, 4];
    let Ready(mut guard) = one.poll(&mut Box::pin(mutex.lock())) else { panic!("the mutex is free") };
    assert!(mutex.try_lock().is_err());
    guard[0] = 5;
    let mut lock = Box::pin(mutex.lock());
    assert!(two.poll(&mut lock).is_pending());
    let part = MutexGuard::map(guard, |pair| &mut pair[0]);
    let mut part = MappedMutexGuard::map(part, |byte| byte);
    *part += 1;
    assert_eq!(format!("{part} {part:?} {mutex:?}"), "6 6 Mutex { inner: <locked>, .. }");
    drop(part);
    let Ready(guard) = two.poll(&mut lock) else { panic!("the mutex is free") };
    assert_eq!(*guard, [6, 4]);
    drop(guard);
    let guard = mutex.try_lock().unwrap();
    assert_eq!(format!("{guard:?}"), "[6, 4]");
    drop(guard);
    assert_eq!(format!("{mutex:?}"), "Mutex { inner: [6, 4], .. }");
    drop(lock);
    let run = mutex.run();
    assert_eq!(mutex.into_inner(), [6, 4]);
    expect("each_mutex", &run);
}

#[test]
fn a_greedy_semaphore() {
    let semaphore: GreedySemaphore<NoopRawMutex> = GreedySemaphore::new(2);
    let (one, two) = (Task::new(), Task::new());
    let mut acquire = Box::pin(semaphore.acquire(3));
    assert!(one.poll(&mut acquire).is_pending());
    semaphore.release(1);
    let Ready(Ok(three)) = one.poll(&mut acquire) else { panic!("there are three permits") };
    assert_eq!(three.permits(), 3);
    assert!(semaphore.try_acquire(1).is_none());
    assert!(semaphore.try_acquire_all(1).is_none());
    drop(three);
    let first = semaphore.try_acquire(1).unwrap();
    let others = semaphore.try_acquire_all(0).unwrap();
    assert_eq!(first.disarm(), 1);
    drop(others);
    let mut acquire = Box::pin(semaphore.acquire_all(3));
    assert!(two.poll(&mut acquire).is_pending());
    semaphore.set(5);
    let Ready(Ok(all)) = two.poll(&mut acquire) else { panic!("there are five permits") };
    assert_eq!(all.disarm(), 5);
    expect("each_greedy", &semaphore.run());
}

#[test]
fn a_fair_semaphore() {
    let semaphore: FairSemaphore<NoopRawMutex, 2> = FairSemaphore::default();
    let (one, two, three) = (Task::new(), Task::new(), Task::new());
    let mut first = Box::pin(semaphore.acquire(2));
    assert!(one.poll(&mut first).is_pending());
    let mut second = Box::pin(semaphore.acquire_all(1));
    assert!(two.poll(&mut second).is_pending());
    let mut third = Box::pin(semaphore.acquire(1));
    let Ready(Err(WaitQueueFull)) = three.poll(&mut third) else { panic!("two wait") };
    semaphore.release(3);
    let Ready(Ok(pair)) = one.poll(&mut first) else { panic!("there are three permits") };
    let Ready(Ok(rest)) = two.poll(&mut second) else { panic!("there is one permit") };
    assert!(semaphore.try_acquire(1).is_none());
    drop(pair);
    assert!(semaphore.try_acquire_all(3).is_none());
    let one_of_two = semaphore.try_acquire(1).unwrap();
    let other = semaphore.try_acquire_all(1).unwrap();
    assert_eq!((rest.permits(), other.disarm()), (1, 1));
    let mut fourth = Box::pin(semaphore.acquire(2));
    assert!(three.poll(&mut fourth).is_pending());
    semaphore.set(1);
    drop((one_of_two, rest));
    let Ready(Ok(granted)) = three.poll(&mut fourth) else { panic!("there are three permits") };
    assert_eq!(granted.disarm(), 2);
    expect("each_fair", &semaphore.run());
}

#[test]
fn a_once_lock() {
    let mut lock: OnceLock<u8> = OnceLock::new();
    let one = Task::new();
    assert!(!lock.is_set());
    assert_eq!(lock.try_get(), None);
    {
        let mut get = Box::pin(lock.get());
        assert_eq!(one.poll(&mut get), Pending);
        assert_eq!(one.take_wakes(), 1);
        assert_eq!(lock.init(4), Ok(()));
        assert_eq!(lock.init(5), Err(5));
        assert_eq!(one.poll(&mut get), Ready(&4));
    }
    assert!(lock.is_set());
    assert_eq!(lock.get_or_init(|| 6), &4);
    assert_eq!(lock.take(), Some(4));
    assert_eq!(lock.get_or_init(|| 6), &6);
    assert_eq!(lock.try_get(), Some(&6));
    expect("each_once", &lock.run());
    assert_eq!(lock.into_inner(), Some(6));
}

#[test]
fn a_lazy_lock() {
    let lock = LazyLock::new(|| 7_u8);
    assert_eq!(lock.run().text, "lazy 1 0\n");
    assert_eq!((lock.get(), lock.get()), (&7, &7));
    expect("each_lazy", &lock.run());
    assert_eq!(lock.into_inner(), 7);
}

#[test]
fn what_ends_a_lock_is_recorded() {
    let once: OnceLock<u8> = OnceLock::new();
    assert_eq!(once.init(1), Ok(()));
    assert_eq!(once.into_inner(), Some(1));
    assert_eq!(LazyLock::<u8>::new(|| 2).into_inner(), 2);
    let runs = recorder::take();
    let text = |kind: &str| runs.iter().rev().find(|run| run.name.starts_with(kind)).map(|run| run.text.as_str());
    assert_eq!(text("once-each"), Some("once 1\ninit 1 => Ok | -\ntake => Some(1) | -\n"));
    assert_eq!(text("lazy-each"), Some("lazy 1 2\ninto => 2 | -\n"));
}

#[test]
fn a_watch() {
    let watch: Watch<NoopRawMutex, u8, 2> = Watch::new();
    let sender = watch.sender();
    let (one, two) = (Task::new(), Task::new());
    assert!(!sender.contains_value());
    assert_eq!((watch.try_get(), sender.try_get()), (None, None));
    let mut first = watch.receiver().unwrap();
    let mut second = watch.receiver().unwrap();
    assert!(watch.receiver().is_none());
    let mut get = Box::pin(first.get());
    assert_eq!(one.poll(&mut get), Pending);
    sender.send(3);
    assert_eq!(one.poll(&mut get), Ready(3));
    drop(get);
    assert_eq!((first.try_changed(), second.try_changed()), (None, Some(3)));
    let mut changed = Box::pin(first.changed());
    assert_eq!(one.poll(&mut changed), Pending);
    sender.send_modify(|value| *value = value.map(|value| value + 4));
    assert_eq!(one.poll(&mut changed), Ready(7));
    drop(changed);
    assert_eq!(first.try_get_and(|value| *value > 5), Some(7));
    assert_eq!(first.try_get_and(|value| *value > 9), None);
    assert_eq!(second.try_changed_and(|value| *value > 9), None);
    assert_eq!(second.try_changed_and(|value| *value > 5), Some(7));
    sender.send_if_modified(|_| false);
    sender.send_if_modified(|value| value.replace(8).is_some());
    assert_eq!((watch.get_msg_id(), first.contains_value()), (3, true));
    assert_eq!(one.poll(&mut Box::pin(first.get_and(|value| *value > 5))), Ready(8));
    let mut changed = Box::pin(second.changed_and(|value| *value > 8));
    assert_eq!(two.poll(&mut changed), Pending);
    sender.clone().send(9);
    assert_eq!(two.poll(&mut changed), Ready(9));
    drop(changed);
    assert_eq!((watch.try_get_and(|value| *value > 5), sender.try_get_and(|value| *value > 9)), (Some(9), None));
    drop(first);
    sender.clear();
    assert_eq!(second.try_get(), None);
    expect("each_watch", &watch.run());
}

#[test]
fn the_handles_of_a_watch() {
    let watch: Watch<NoopRawMutex, u8, 1> = Watch::new_with(1);
    let one = Task::new();
    let sender: watch::DynSender<u8> = watch.sender().into();
    let mut anonymous = watch.anon_receiver();
    assert_eq!((anonymous.try_get(), anonymous.try_changed()), (Some(1), None));
    sender.send(2);
    assert_eq!(anonymous.try_changed_and(|value| *value == 2), Some(2));
    assert_eq!((anonymous.try_get_and(|value| *value == 1), anonymous.contains_value()), (None, true));
    let mut anonymous: watch::DynAnonReceiver<u8> = anonymous.into();
    watch.dyn_sender().clone().send_modify(|value| *value = Some(3));
    assert_eq!(anonymous.try_changed(), Some(3));
    drop(anonymous);
    assert!(watch.dyn_anon_receiver().contains_value());

    let mut receiver: watch::DynReceiver<u8> = watch.receiver().unwrap().into();
    assert!(watch.dyn_receiver().is_none());
    assert_eq!(one.poll(&mut Box::pin(receiver.changed())), Ready(3));
    let mut changed = Box::pin(receiver.changed());
    assert_eq!(one.poll(&mut changed), Pending);
    drop(changed);
    sender.clear();
    assert_eq!((receiver.try_get(), receiver.try_get_and(|_| true)), (None, None));
    assert_eq!(one.poll(&mut Box::pin(receiver.get_and(|_| true))), Pending);
    sender.send_if_modified(|value| value.replace(4).is_none());
    assert_eq!(one.poll(&mut Box::pin(receiver.get())), Ready(4));
    assert_eq!(one.poll(&mut Box::pin(receiver.changed_and(|_| true))), Pending);
    drop(receiver);
    assert_eq!(watch.dyn_receiver().unwrap().try_changed_and(|value| *value == 4), Some(4));
    expect("each_watch_handle", &watch.run());
}

#[test]
fn a_watch_that_refuses_a_seventeenth_receiver() {
    let watch: Watch<NoopRawMutex, u8, 16> = Watch::new();
    let one = Task::new();
    let mut first = watch.receiver().unwrap();
    let mut others: Vec<_> = (1..16).map(|_| watch.receiver().unwrap()).collect();
    let mut changed = Box::pin(first.changed());
    assert_eq!(one.poll(&mut changed), Pending);
    // (no number is free for these calls, so the run leaves them out)
    assert!(watch.receiver().is_none() && watch.dyn_receiver().is_none());
    watch.sender().send(1);
    assert_eq!(one.poll(&mut changed), Ready(1));

    drop(others.remove(2));
    let mut again = watch.dyn_receiver().unwrap();
    assert!(watch.receiver().is_none());
    assert_eq!((again.try_changed(), again.try_changed()), (Some(1), None));
    expect("each_watch_of_16", &watch.run());
}

#[test]
fn a_pubsub_channel() {
    let channel: PubSubChannel<NoopRawMutex, u8, 2, 4, 4> = PubSubChannel::new();
    let (one, two) = (Task::new(), Task::new());
    assert_eq!(channel.capacity(), 2);
    channel.clear();
    assert!(channel.is_empty());
    let mut fast = channel.subscriber().unwrap();
    let mut slow = channel.dyn_subscriber().unwrap();
    let others = [channel.subscriber().unwrap(), channel.subscriber().unwrap()];
    assert_eq!(channel.subscriber().err(), Some(Error::MaximumSubscribersReached));
    drop(others);
    let publisher = channel.publisher().unwrap();

    let mut next = fast.next_message();
    assert_eq!(one.poll(&mut next), Pending);
    assert_eq!(publisher.try_publish(5), Ok(()));
    assert_eq!(one.poll(&mut next), Ready(WaitResult::Message(5)));
    drop(next);
    assert_eq!(one.poll(&mut Box::pin(publisher.publish(6))), Ready(()));
    assert!(channel.is_full());
    assert_eq!(publisher.try_publish(7), Err(7));
    let mut publish = Box::pin(publisher.publish(7));
    assert_eq!(two.poll(&mut publish), Pending);
    assert_eq!((slow.available(), channel.len(), channel.free_capacity()), (2, 2, 0));
    assert_eq!(slow.try_next_message(), Some(WaitResult::Message(5)));
    assert_eq!(two.poll(&mut publish), Ready(()));
    publisher.publish_immediate(8);
    assert_eq!(slow.try_next_message(), Some(WaitResult::Lagged(1)));
    assert_eq!(slow.try_next_message_pure(), Some(7));
    assert_eq!(one.poll(&mut Box::pin(slow.next_message_pure())), Ready(8));
    let mut next = slow.next_message();
    assert_eq!(two.poll(&mut next), Pending);
    drop(next);
    assert_eq!(one.poll(&mut fast.next_message()), Ready(WaitResult::Lagged(1)));
    assert_eq!(fast.try_next_message_pure(), Some(7));
    assert_eq!(fast.try_next_message_pure(), Some(8));
    assert_eq!((fast.try_next_message_pure(), fast.try_next_message()), (None, None));
    channel.immediate_publisher().publish_immediate(9);
    expect("each_pubsub", &channel.run());
}

#[test]
fn the_handles_of_a_pubsub_channel() {
    let channel: PubSubChannel<NoopRawMutex, u8, 1, 4, 4> = PubSubChannel::new();
    let one = Task::new();
    let subscriber = channel.subscriber().unwrap();
    let publisher = channel.dyn_publisher().unwrap();
    let others = [channel.publisher().unwrap(), channel.publisher().unwrap(), channel.publisher().unwrap()];
    assert_eq!(channel.publisher().err(), Some(Error::MaximumPublishersReached));
    drop(others);
    let immediate = channel.dyn_immediate_publisher();
    immediate.publish_immediate(1);
    publisher.publish_immediate(2);
    assert_eq!((subscriber.capacity(), publisher.capacity(), immediate.capacity()), (1, 1, 1));
    assert_eq!((subscriber.len(), publisher.len(), immediate.len()), (1, 1, 1));
    assert_eq!((subscriber.free_capacity(), publisher.free_capacity(), immediate.free_capacity()), (0, 0, 0));
    assert!(subscriber.is_full() && publisher.is_full() && immediate.is_full());
    assert!(!subscriber.is_empty() && !publisher.is_empty() && !immediate.is_empty());
    subscriber.clear();
    publisher.clear();
    immediate.clear();
    assert_eq!(one.poll(&mut Box::pin(publisher.publish(3))), Ready(()));
    assert_eq!(publisher.try_publish(4), Err(4));
    drop((publisher, subscriber));
    channel.immediate_publisher().publish_immediate(5);
    expect("each_pubsub_handle", &channel.run());
}

#[test]
fn a_pubsub_channel_of_two_subscribers_and_a_publisher() {
    let channel: PubSubChannel<NoopRawMutex, u8, 1, 2, 1> = PubSubChannel::new();
    let (one, two, three) = (Task::new(), Task::new(), Task::new());
    let (mut first, mut second) = (channel.subscriber().unwrap(), channel.subscriber().unwrap());
    assert_eq!(channel.subscriber().err(), Some(Error::MaximumSubscribersReached));
    let publisher = channel.publisher().unwrap();
    assert_eq!(channel.publisher().err(), Some(Error::MaximumPublishersReached));

    let (mut next, mut other) = (first.next_message(), second.next_message());
    assert_eq!((one.poll(&mut next), two.poll(&mut other)), (Pending, Pending));
    // (upstream keeps the wakers of as many tasks as there can be subscribers, and wakes these for another's place)
    assert_eq!(three.poll(&mut other), Pending);
    assert_eq!((one.take_wakes(), two.take_wakes()), (1, 1));
    assert_eq!(one.poll(&mut Box::pin(publisher.publish(5))), Ready(()));
    assert_eq!((one.take_wakes(), two.take_wakes(), three.take_wakes()), (0, 0, 1));
    assert_eq!(one.poll(&mut next), Ready(WaitResult::Message(5)));
    assert_eq!(three.poll(&mut other), Ready(WaitResult::Message(5)));
    drop((next, other));

    // (and of as many as there can be publishers)
    assert_eq!(publisher.try_publish(6), Ok(()));
    let mut publish = Box::pin(publisher.publish(7));
    assert_eq!(one.poll(&mut publish), Pending);
    let mut another = Box::pin(publisher.publish(8));
    assert_eq!(two.poll(&mut another), Pending);
    assert_eq!((one.take_wakes(), publisher.try_publish(9)), (1, Err(9)));
    assert_eq!(first.try_next_message(), Some(WaitResult::Message(6)));
    assert_eq!(second.try_next_message(), Some(WaitResult::Message(6)));
    assert_eq!((two.poll(&mut another), one.poll(&mut publish)), (Ready(()), Pending));
    drop(second);
    assert_eq!(first.try_next_message(), Some(WaitResult::Message(8)));
    assert_eq!(one.poll(&mut publish), Ready(()));
    let _second = channel.subscriber().unwrap();
    drop((publish, another));
    drop(publisher);
    let _publisher = channel.publisher().unwrap();
    expect("each_pubsub_of_2_and_1", &channel.run());
}

#[test]
fn a_pubsub_channel_without_publishers() {
    let channel: PubSubChannel<NoopRawMutex, u8, 2, 3, 0> = PubSubChannel::new();
    let one = Task::new();
    assert_eq!(channel.publisher().err(), Some(Error::MaximumPublishersReached));
    assert_eq!(channel.dyn_publisher().err(), Some(Error::MaximumPublishersReached));
    let publisher = channel.immediate_publisher();
    publisher.publish_immediate(1);
    assert_eq!(channel.len(), 0);
    let mut first = channel.subscriber().unwrap();
    let mut second = channel.subscriber().unwrap();
    let mut third = channel.subscriber().unwrap();
    assert_eq!(channel.subscriber().err(), Some(Error::MaximumSubscribersReached));

    let mut next = first.next_message();
    assert_eq!(one.poll(&mut next), Pending);
    for message in [2, 3, 4] {
        publisher.publish_immediate(message);
    }
    assert_eq!(one.poll(&mut next), Ready(WaitResult::Lagged(1)));
    drop(next);
    assert_eq!(first.try_next_message(), Some(WaitResult::Message(3)));
    assert_eq!(second.try_next_message(), Some(WaitResult::Lagged(1)));
    assert_eq!(second.try_next_message_pure(), Some(3));
    assert_eq!((third.available(), third.try_next_message_pure()), (3, Some(3)));
    assert_eq!(channel.len(), 1);
    expect("each_pubsub_of_3_and_0", &channel.run());
}

#[test]
fn a_pubsub_channel_without_subscribers() {
    let channel: PubSubChannel<NoopRawMutex, u8, 1, 0, 2> = PubSubChannel::new();
    assert_eq!(channel.subscriber().err(), Some(Error::MaximumSubscribersReached));
    assert_eq!(channel.dyn_subscriber().err(), Some(Error::MaximumSubscribersReached));
    let (first, second) = (channel.publisher().unwrap(), channel.dyn_publisher().unwrap());
    assert_eq!(channel.publisher().err(), Some(Error::MaximumPublishersReached));
    assert_eq!(Task::new().poll(&mut Box::pin(first.publish(1))), Ready(()));
    assert_eq!(second.try_publish(2), Ok(()));
    channel.immediate_publisher().publish_immediate(3);
    assert_eq!(channel.free_capacity(), 1);
    drop(first);
    let _first = channel.publisher().unwrap();
    expect("each_pubsub_of_0_and_2", &channel.run());

    let channel: PubSubChannel<NoopRawMutex, u8, 1, 0, 0> = PubSubChannel::new();
    channel.immediate_publisher().publish_immediate(1);
    assert_eq!(channel.run().text, "pubsub 1 0 0 0\nimmediate 1 => Ok | -\n");
}

#[test]
fn a_pubsub_channel_of_sixteen_and_sixteen() {
    let channel: PubSubChannel<NoopRawMutex, u8, 2, 16, 16> = PubSubChannel::new();
    let tasks: Vec<Task> = (0..17).map(|_| Task::new()).collect();
    let mut subscribers: Vec<_> = (0..16).map(|_| channel.subscriber().unwrap()).collect();
    let publishers: Vec<_> = (0..16).map(|_| channel.publisher().unwrap()).collect();

    let mut messages: Vec<_> = subscribers.iter_mut().map(|subscriber| subscriber.next_message()).collect();
    for (message, task) in messages.iter_mut().zip(&tasks) {
        assert_eq!(task.poll(message), Pending);
    }
    assert_eq!(tasks[16].poll(&mut messages[15]), Pending);
    assert_eq!(publishers[15].try_publish(1), Ok(()));
    for (message, task) in messages.iter_mut().zip(&tasks) {
        assert_eq!(task.poll(message), Ready(WaitResult::Message(1)));
    }
    drop(messages);

    assert_eq!((publishers[0].try_publish(2), publishers[1].try_publish(3)), (Ok(()), Ok(())));
    let mut publishes: Vec<_> = publishers.iter().map(|publisher| Box::pin(publisher.publish(4))).collect();
    for (publish, task) in publishes.iter_mut().zip(&tasks) {
        assert_eq!(task.poll(publish), Pending);
    }
    assert_eq!(tasks[16].poll(&mut publishes[0]), Pending);
    for subscriber in &mut subscribers {
        assert_eq!(subscriber.try_next_message(), Some(WaitResult::Message(2)));
    }
    assert_eq!(tasks[16].poll(&mut publishes[0]), Ready(()));
    assert!(tasks.iter().all(|task| task.take_wakes() == 2));
    expect("each_pubsub_of_16_and_16", &channel.run());
}

#[test]
fn a_pubsub_channel_that_refuses_a_seventeenth_handle() {
    let channel: PubSubChannel<NoopRawMutex, u8, 2, 16, 16> = PubSubChannel::new();
    let one = Task::new();
    let mut first = channel.subscriber().unwrap();
    let mut others: Vec<_> = (1..16).map(|_| channel.subscriber().unwrap()).collect();
    let mut publishers: Vec<_> = (0..16).map(|_| channel.publisher().unwrap()).collect();
    let mut next = first.next_message();
    assert_eq!(one.poll(&mut next), Pending);
    // (no number is free for these calls, so the run leaves them out)
    assert_eq!(channel.subscriber().err(), Some(Error::MaximumSubscribersReached));
    assert_eq!(channel.dyn_subscriber().err(), Some(Error::MaximumSubscribersReached));
    assert_eq!(channel.publisher().err(), Some(Error::MaximumPublishersReached));
    assert_eq!(channel.dyn_publisher().err(), Some(Error::MaximumPublishersReached));
    assert_eq!(publishers[15].try_publish(1), Ok(()));
    assert_eq!(one.poll(&mut next), Ready(WaitResult::Message(1)));

    drop(others.remove(2));
    let mut again = channel.subscriber().unwrap();
    assert_eq!(channel.subscriber().err(), Some(Error::MaximumSubscribersReached));
    drop(publishers.remove(5));
    let publisher = channel.publisher().unwrap();
    assert_eq!(channel.publisher().err(), Some(Error::MaximumPublishersReached));
    assert_eq!(publisher.try_publish(2), Ok(()));
    assert_eq!(again.try_next_message(), Some(WaitResult::Message(2)));
    assert_eq!(others[0].try_next_message(), Some(WaitResult::Message(1)));
    expect("each_pubsub_of_16_again", &channel.run());
}

#[test]
fn a_zero_copy_channel() {
    let mut slots = [10_u32, 11];
    let mut channel = zerocopy_channel::Channel::<NoopRawMutex, _>::new(&mut slots);
    let (one, two) = (Task::new(), Task::new());
    channel.clear();
    assert!(channel.is_empty());
    {
        let (mut sender, mut receiver) = channel.split();
        assert!(receiver.try_receive().is_none());
        let mut receive = Box::pin(receiver.receive());
        assert!(one.poll(&mut receive).is_pending());
        *sender.try_send().unwrap() = 5;
        sender.send_done();
        let Ready(slot) = one.poll(&mut receive) else { panic!("a slot is sent") };
        assert_eq!(*slot, 5);
        drop(receive);
        receiver.receive_done();
        let Ready(slot) = two.poll(&mut Box::pin(sender.send())) else { panic!("both slots are free") };
        *slot = 6;
        sender.send_done();
        // (one that is done without a loan sends what the slot has)
        sender.send_done();
        assert!((sender.is_full(), sender.len(), sender.is_empty()) == (true, 2, false));
        assert!((receiver.is_full(), receiver.len(), receiver.is_empty()) == (true, 2, false));
        assert!(sender.poll_send(&mut two.context()).is_pending());
        assert!(receiver.poll_receive(&mut one.context()).is_ready());
        assert_eq!(receiver.borrow().try_receive(), Some(&mut 6));
        receiver.receive_done();
        assert!(sender.borrow().poll_send(&mut two.context()).is_ready());
        sender.clear();
        receiver.clear();
    }
    assert_eq!((channel.len(), channel.is_full()), (0, false));
    expect("each_zerocopy", &channel.run());
}
