//! Where a program does what no run can have: the recording stops and says why, and the program goes on.
#![cfg(feature = "record")]
use std::panic::{AssertUnwindSafe, catch_unwind};
use std::task::Poll::{Pending, Ready};
use std::thread;

use critical_section as _;
use embassy_sync::blocking_mutex::raw::{CriticalSectionRawMutex, NoopRawMutex};
use recorder::channel::Channel;
use recorder::mutex::{MappedMutexGuard, Mutex, MutexGuard};
use recorder::once_lock::OnceLock;
use recorder::pipe::{Pipe, TryWriteError};
use recorder::priority_channel::{Max, PriorityChannel};
use recorder::pubsub::PubSubChannel;
use recorder::semaphore::{GreedySemaphore, Semaphore};
use recorder::signal::Signal;
use recorder::watch::Watch;
use recorder::{Name, Recorded, Run, Stop, Unsaved, named_by_debug, zerocopy_channel};

#[path = "dotted/two.signals.rs"]
mod dotted;
mod executor;
use executor::Task;
mod keep;
use keep::keep;

/// Compares a run that has stopped with a text, and with the reason that it gives.
#[track_caller]
fn expect_stop(run: &Run, stop: Stop, text: &str) {
    assert_eq!(run.text, text);
    assert_eq!(run.stop, Some(stop));
}

/// A message without a number of its own.
#[derive(Clone, Debug, PartialEq, Eq, PartialOrd, Ord)]
enum Word {
    Yes,
    No(u8),
}

named_by_debug!(Word);

#[test]
fn equal_debug_is_an_equal_number() {
    let signal: Signal<NoopRawMutex, Word> = Signal::new();
    for word in [Word::No(3), Word::Yes, Word::No(3), Word::No(4)] {
        signal.signal(word);
    }
    assert_eq!(signal.try_take(), Some(Word::No(4)));
    let text = "\
signal 1
signal 0 => Ok | -
signal 1 => Ok | -
signal 0 => Ok | -
signal 2 => Ok | -
try-take => Some(2) | -
";
    assert_eq!(signal.run().text, text);
    keep("each_signal_by_debug", &signal.run());
}

#[test]
fn messages_of_foreign_types_go_by_their_debug() {
    let channel: Channel<NoopRawMutex, (Option<f32>, [u8; 2], String), 2> = Channel::new();
    let messages = [(Some(21.5), [1, 2], "in".to_string()), (None, [3, 4], "out".to_string())];
    for message in messages.clone() {
        assert_eq!(channel.try_send(message), Ok(()));
    }
    assert_eq!(channel.try_receive(), Ok(messages[0].clone()));
    let run = channel.run();
    assert_eq!(run.text, "channel 2\ntry-send 0 => Ok | -\ntry-send 1 => Ok | -\ntry-receive => Ok(0) | -\n");
    let texts = [r#"(Some(21.5), [1, 2], "in")"#, r#"(None, [3, 4], "out")"#];
    assert_eq!(run.legend, [(0, texts[0].to_string()), (1, texts[1].to_string())]);
    keep("each_channel_of_tuples", &run);
}

#[test]
fn a_closure_names_messages() {
    let channel: Channel<NoopRawMutex, f32, 1> = Channel::named(|celsius| Name::number((celsius * 10.0) as u32));
    assert_eq!(channel.try_send(21.5), Ok(()));
    assert_eq!(channel.run().text, "channel 1\ntry-send 215 => Ok | -\n");
}

#[test]
fn a_capacity_that_no_run_has() {
    let channel: Channel<NoopRawMutex, u8, 4097> = Channel::new();
    assert_eq!((channel.try_send(1), channel.try_receive()), (Ok(()), Ok(1)));
    let text = "channel 4097\n# stopped at a capacity of 4097, where 1 to 4096 can be recorded\n";
    expect_stop(&channel.run(), Stop::Capacity(4097), text);
    keep("stop_at_a_capacity", &channel.run());
    let watch: Watch<NoopRawMutex, u8, 4097> = Watch::new();
    watch.sender().send(1);
    let text = "watch 4097\n# stopped at a capacity of 4097, where 1 to 4096 can be recorded\n";
    expect_stop(&watch.run(), Stop::Capacity(4097), text);
}

#[test]
fn numbers_of_subscribers_and_publishers_that_no_run_has() {
    let pubsub: PubSubChannel<NoopRawMutex, u8, 2, 17, 1> = PubSubChannel::new();
    assert_eq!(pubsub.publisher().map(|publisher| publisher.try_publish(1)).ok(), Some(Ok(())));
    let text = "\
pubsub 2 0 17 1
# stopped at 17 subscribers and 1 publishers, where 0 to 16 of each can be recorded
";
    expect_stop(&pubsub.run(), Stop::Handles { subscribers: 17, publishers: 1 }, text);
    keep("stop_at_handles", &pubsub.run());
    let pubsub: PubSubChannel<NoopRawMutex, u8, 2, 0, 17> = PubSubChannel::new();
    pubsub.clear();
    let text = "\
pubsub 2 0 0 17
# stopped at 0 subscribers and 17 publishers, where 0 to 16 of each can be recorded
";
    expect_stop(&pubsub.run(), Stop::Handles { subscribers: 0, publishers: 17 }, text);
}

#[test]
fn a_pipe_of_the_greatest_capacity() {
    let pipe: Pipe<NoopRawMutex, 4096> = Pipe::new();
    let row: Vec<u8> = (0..4096).map(|place: usize| place as u8).collect();
    let mut read = vec![0; 5000];
    assert_eq!((pipe.try_write(&row), pipe.try_write(&row)), (Ok(4096), Err(TryWriteError::Full)));
    assert_eq!((pipe.try_read(&mut read), &read[..4096]), (Ok(4096), &row[..]));
    assert_eq!(pipe.run().stop, None);
    keep("each_pipe_of_4096_bytes", &pipe.run());
}

/// Compares a run that has stopped behind the start of so many requests.
#[track_caller]
fn expect_stop_at_numbers(run: &Run, count: usize) {
    assert_eq!(run.text.lines().filter(|line| line.starts_with("start ")).count(), count);
    assert_eq!(run.stop, Some(Stop::Numbers));
}

#[test]
fn two_hundred_requests_at_a_time() {
    let mutex: Mutex<NoopRawMutex, u8> = Mutex::new(1);
    let guard = mutex.try_lock().expect("nobody has locked it");
    let tasks: Vec<Task> = (0..200).map(|_| Task::new()).collect();
    let mut locks: Vec<_> = (0..200).map(|_| mutex.lock()).collect();
    for (lock, task) in locks.iter_mut().zip(&tasks) {
        assert!(task.poll(lock).is_pending());
    }
    drop(guard);
    assert!(tasks[199].poll(&mut locks[199]).is_ready());
    // (a mutex keeps the waker of one task, and wakes this for another's place)
    let starts: String = (1..=200).map(|number| format!("start {number} lock => Ok | -\n")).collect();
    let polls: String = (1..200).map(|task| format!("poll {} {task} => Pending | {}\n", task + 1, task - 1)).collect();
    let text = format!(
        "mutex 1 0 0\ntry-lock 0 => Ok | -\n{starts}poll 1 0 => Pending | -\n{polls}\
         end 0 => Ok | 199\npoll 200 199 => Ready | -\nend 200 => Ok | -\n"
    );
    assert_eq!((mutex.run().text, mutex.run().stop), (text, None));
    keep("each_of_200_requests", &mutex.run());
}

#[test]
fn the_lowest_free_number_is_taken() {
    let channel: Channel<NoopRawMutex, u8, 1> = Channel::new();
    let mut receives: Vec<_> = (0..4).map(|_| Some(channel.receive())).collect();
    for place in [2, 0, 1] {
        receives[place] = None;
    }
    receives.extend((0..4).map(|_| Some(channel.receive())));
    let text: String = [0, 1, 2, 3].map(|number| format!("start {number} receive => Ok | -\n")).concat()
        + &[2, 0, 1].map(|number| format!("end {number} => Ok | -\n")).concat()
        + &[0, 1, 2, 4].map(|number| format!("start {number} receive => Ok | -\n")).concat();
    assert_eq!(channel.run().text, format!("channel 1\n{text}"));
    keep("each_number_again", &channel.run());
}

#[test]
fn more_requests_than_numbers() {
    let channel: Channel<NoopRawMutex, u8, 1> = Channel::new();
    let one = Task::new();
    let mut receives: Vec<_> = (0..1025).map(|_| channel.receive()).collect();
    assert_eq!(one.poll(&mut receives[1024]), Pending);
    assert_eq!(channel.try_send(1), Ok(()));
    assert_eq!((one.take_wakes(), one.poll(&mut receives[1024])), (1, Ready(1)));
    let starts: String = (0..1024).map(|number| format!("start {number} receive => Ok | -\n")).collect();
    let text = format!(
        "channel 1\n{starts}# stopped at a call for more than 1024 requests, 16 of a pipe, or 16 handles of a kind at a time\n"
    );
    expect_stop(&channel.run(), Stop::Numbers, &text);
    keep("stop_at_requests", &channel.run());
}

#[test]
fn more_requests_of_a_pipe_than_numbers() {
    let pipe: Pipe<NoopRawMutex, 1> = Pipe::new();
    let mut rows = [[0]; 17];
    let task = Task::new();
    let mut reads: Vec<_> = rows.iter_mut().map(|row| pipe.read(row)).collect();
    for read in &mut reads {
        assert_eq!(task.poll(read), Pending);
    }
    expect_stop_at_numbers(&pipe.run(), 16);
    keep("stop_at_requests_of_a_pipe", &pipe.run());
}

#[test]
fn more_receivers_than_numbers() {
    let watch: Watch<NoopRawMutex, u8, 17> = Watch::new();
    let mut receivers: Vec<_> = (0..17).map(|_| watch.receiver().unwrap()).collect();
    watch.sender().send(1);
    assert_eq!(receivers[16].try_changed(), Some(1));
    let lines: String = (0..16).map(|number| format!("receiver {number} => Ok | -\n")).collect();
    let text = format!(
        "watch 17\n{lines}# stopped at a call for more than 1024 requests, 16 of a pipe, or 16 handles of a kind at a time\n"
    );
    expect_stop(&watch.run(), Stop::Numbers, &text);
    keep("stop_at_receivers", &watch.run());
}

#[test]
fn an_anonymous_receiver_more_than_numbers() {
    let watch: Watch<NoopRawMutex, u8, 1> = Watch::new();
    let _counted = watch.receiver().unwrap();
    let _anonymous: Vec<_> = (0..15).map(|_| watch.anon_receiver()).collect();
    assert!(watch.receiver().is_none());
    assert_eq!(watch.run().stop, None);
    assert_eq!(watch.dyn_anon_receiver().try_get(), None);
    assert_eq!(watch.run().stop, Some(Stop::Numbers));
}

#[test]
fn messages_of_64_bits() {
    let channel: Channel<NoopRawMutex, u64, 2> = Channel::new();
    assert_eq!((channel.try_send(u32::MAX.into()), channel.try_send(1 << 40)), (Ok(()), Ok(())));
    assert_eq!((channel.try_receive(), channel.try_receive()), (Ok(u32::MAX.into()), Ok(1 << 40)));
    assert_eq!((channel.try_send(1 << 40), channel.try_send(u64::MAX)), (Ok(()), Ok(())));
    let run = channel.run();
    let text = "\
channel 2
try-send 4294967295 => Ok | -
try-send 1099511627776 => Ok | -
try-receive => Ok(4294967295) | -
try-receive => Ok(1099511627776) | -
try-send 1099511627776 => Ok | -
try-send 18446744073709486080 => Ok | -
";
    assert_eq!((run.text.as_str(), &run.stop), (text, &None));
    assert_eq!(run.legend, [(18446744073709486080, "18446744073709551615".to_string())]);
    keep("each_channel_of_64_bits", &run);
}

#[test]
fn messages_of_64_bits_with_a_sign() {
    let watch: Watch<NoopRawMutex, i64, 1> = Watch::new();
    let sender = watch.sender();
    for number in [i64::MIN, -1, i64::MAX, i64::MIN] {
        sender.send(number);
    }
    assert!(watch.try_get() == Some(i64::MIN));
    let text = "\
watch 1
send 0 => Ok | -
send 9223372036854775807 => Ok | -
send 18446744073709486080 => Ok | -
send 0 => Ok | -
try-get => Some(0) | -
";
    assert_eq!(watch.run().text, text);
    keep("each_watch_of_64_bits", &watch.run());
}

#[test]
fn more_messages_than_numbers_that_are_given() {
    let signal: Signal<NoopRawMutex, u64> = Signal::new();
    for number in 0..65_535 {
        signal.signal(u64::MAX - number);
    }
    assert_eq!(signal.run().stop, None);
    signal.signal(u64::MAX - 65_535);
    assert_eq!(signal.run().stop, Some(Stop::Message(i128::from(u64::MAX) - 65_535)));
}

#[test]
fn a_message_of_a_priority_channel_below_all_numbers() {
    let channel: PriorityChannel<NoopRawMutex, i64, Max, 2> = PriorityChannel::named(|number| Name::number(*number));
    assert_eq!((channel.try_send(i64::MAX), channel.try_send(-1)), (Ok(()), Ok(())));
    let text = "\
max 2
try-send 9223372036854775807 => Ok | -
# stopped at a message with the number -1, which isn't in 0..=18446744073709551615
";
    expect_stop(&channel.run(), Stop::Message(-1), text);
    keep("stop_at_a_message", &channel.run());
}

#[test]
fn texts_have_no_order() {
    let channel: PriorityChannel<NoopRawMutex, Word, Max, 2> = PriorityChannel::new();
    assert_eq!(channel.try_send(Word::Yes), Ok(()));
    let text = "max 2\n# stopped at messages of a priority channel that a text names\n";
    expect_stop(&channel.run(), Stop::NoOrder, text);
}

#[test]
fn numbers_beside_texts() {
    let naming = |word: &Word| if *word == Word::Yes { Name::number(7) } else { Name::by_debug(word) };
    let channel: Channel<NoopRawMutex, Word, 2> = Channel::named(naming);
    assert_eq!((channel.try_send(Word::Yes), channel.try_send(Word::No(1))), (Ok(()), Ok(())));
    assert_eq!(channel.run().stop, Some(Stop::MixedNames));
}

#[test]
fn a_row_that_is_too_long() {
    let pipe: Pipe<NoopRawMutex, 8> = Pipe::new();
    // (of a call that writes what goes in, the first 4096 bytes say all)
    assert_eq!(pipe.try_write(&[7; 5000]), Ok(8));
    drop(pipe.write_all(&[7; 4097]));
    let row = ["7"; 4096].join(",");
    let text = format!(
        "pipe 8\ntry-write {row} => Ok(8) | -\n# stopped at 4097 bytes in a call, where 4096 can be recorded\n"
    );
    expect_stop(&pipe.run(), Stop::Bytes(4097), &text);
    keep("stop_at_a_row", &pipe.run());
}

#[test]
fn a_call_within_a_call() {
    let lock: OnceLock<u8> = OnceLock::new();
    assert_eq!(lock.get_or_init(|| u8::from(lock.is_set())), &0);
    let text = "once 1\n# stopped at a call within a call of the same primitive\n";
    expect_stop(&lock.run(), Stop::Nested, text);
}

#[test]
fn a_poll_after_the_answer() {
    let channel: Channel<NoopRawMutex, u8, 2> = Channel::new();
    let one = Task::new();
    assert_eq!((channel.try_send(1), channel.try_send(2)), (Ok(()), Ok(())));
    let mut receive = channel.receive();
    assert_eq!((one.poll(&mut receive), one.poll(&mut receive)), (Ready(1), Ready(2)));
    assert_eq!(channel.run().stop, Some(Stop::PolledAgain));
}

#[test]
fn calls_without_a_counterpart() {
    let watch: Watch<NoopRawMutex, u8, 1> = Watch::new_with(1);
    watch.sender().send_modify(|value| *value = None);
    assert!(matches!(watch.run().stop, Some(Stop::NoCounterpart(_))));
    let watch: Watch<NoopRawMutex, u8, 1> = Watch::new_with(1);
    watch.sender().send_if_modified(|value| value.replace(2).is_none());
    assert!(matches!(watch.run().stop, Some(Stop::NoCounterpart(_))));
    assert_eq!(watch.try_get(), Some(2));
    let pubsub: PubSubChannel<NoopRawMutex, u8, 2, 4, 4> = PubSubChannel::new();
    assert_eq!(pubsub.immediate_publisher().try_publish(1), Ok(()));
    assert!(matches!(pubsub.run().stop, Some(Stop::NoCounterpart(_))));

    let mut slots = [1_u8];
    let mut channel = zerocopy_channel::Channel::<NoopRawMutex, _>::new(&mut slots);
    let (mut sender, mut receiver) = channel.split();
    let slot = sender.try_send().unwrap();
    receiver.clear();
    *slot = 2;
    assert!(matches!(channel.run().stop, Some(Stop::NoCounterpart(_))));
}

#[test]
fn a_panic_is_recorded() {
    let mut pipe: Pipe<NoopRawMutex, 2> = Pipe::new();
    assert_eq!(pipe.try_write(&[1]), Ok(1));
    let (mut reader, _) = pipe.split();
    assert!(catch_unwind(AssertUnwindSafe(|| reader.consume(2))).is_err());
    let semaphore: GreedySemaphore<NoopRawMutex> = GreedySemaphore::new(1);
    // (where sums are checked, as they are in a test)
    assert!(catch_unwind(AssertUnwindSafe(|| semaphore.release(usize::MAX))).is_err());
    assert_eq!(pipe.run().text, "pipe 2\ntry-write 1 => Ok(1) | -\nconsume 2 => Panic | -\n");
    assert_eq!(semaphore.run().text, format!("greedy 1 1\nrelease {} => Panic | -\n", usize::MAX));
    keep("free_consume_too_many", &pipe.run());
    keep("free_release_too_many", &semaphore.run());
}

#[test]
fn a_second_map_that_panics_unlocks() {
    let mutex: Mutex<NoopRawMutex, u8> = Mutex::new(1);
    let task = Task::new();
    let part = MutexGuard::map(mutex.try_lock().unwrap(), |byte| byte);
    let part = MappedMutexGuard::map(part, |byte| byte);
    let mut lock = Box::pin(mutex.lock());
    assert!(task.poll(&mut lock).is_pending());
    let map = || drop(MappedMutexGuard::map(part, |_| -> &mut u8 { panic!("no part of it") }));
    assert!(catch_unwind(AssertUnwindSafe(map)).is_err());
    assert_eq!((task.take_wakes(), task.poll(&mut lock).is_ready()), (1, true));
    let text = "\
mutex 1 0 0
try-lock 0 => Ok | -
map 0 => Ok | -
start 1 lock => Ok | -
poll 1 0 => Pending | -
map 0 => Panic | 0
poll 1 0 => Ready | -
end 1 => Ok | -
";
    assert_eq!((mutex.run().text.as_str(), mutex.run().stop), (text, None));
}

#[test]
fn a_static_that_two_threads_call() {
    static CHANNEL: Channel<CriticalSectionRawMutex, u32, 4> = Channel::new();
    let sender = thread::spawn(|| {
        let task = Task::new();
        for number in 0..40 {
            let mut send = CHANNEL.send(number);
            while task.poll(&mut send) == Pending {
                thread::yield_now();
            }
        }
    });
    let task = Task::new();
    for number in 0..40 {
        let mut receive = CHANNEL.receive();
        while task.poll(&mut receive) != Ready(number) {
            thread::yield_now();
        }
    }
    sender.join().unwrap();
    assert_eq!(CHANNEL.run().stop, None);
    keep("threads", &CHANNEL.run());
}

#[test]
fn two_threads_that_ask_for_the_last_handle() {
    static CHANNEL: PubSubChannel<CriticalSectionRawMutex, u8, 1, 16, 0> = PubSubChannel::new();
    let _others: Vec<_> = (0..15).map(|_| CHANNEL.subscriber().unwrap()).collect();
    let ask = || {
        for _ in 0..100 {
            drop(CHANNEL.subscriber());
            thread::yield_now();
        }
    };
    thread::scope(|scope| {
        scope.spawn(ask);
        scope.spawn(ask);
    });
    // (now and then upstream refuses a thread, while the other one has the handle)
    assert_eq!(CHANNEL.run().stop, None);
    keep("threads_at_handles", &CHANNEL.run());
}

#[test]
fn what_is_saved() {
    let folder = std::path::Path::new(env!("CARGO_TARGET_TMPDIR")).join("saved");
    let signal: Signal<NoopRawMutex, u8> = Signal::new();
    signal.signal(1);
    let pipe: Pipe<NoopRawMutex, 5000> = Pipe::new();
    pipe.clear();
    let word: Signal<NoopRawMutex, Word> = Signal::new();
    word.signal(Word::No(3));
    let dotted = dotted::signals();
    dotted.iter().zip([1, 2]).for_each(|(signal, number)| signal.signal(number));
    let Err(Unsaved::Stopped(stopped)) = recorder::save(&folder) else {
        panic!("a pipe of 5000 bytes stops a recording")
    };
    let stopped: Vec<Run> = stopped.into_iter().filter(|run| run.name == pipe.run().name).collect();
    let reason = format!("{:?}", Unsaved::Stopped(stopped));
    assert!(reason.ends_with("stopped at a capacity of 5000, where 1 to 4096 can be recorded"), "{reason}");
    let run = signal.run();
    assert!(run.name.starts_with("signal-limits-"), "{}", run.name);
    let file = |run: &Run, extension: &str| folder.join(format!("{}.{extension}", run.name));
    let saved = std::fs::read_to_string(file(&run, "run")).unwrap();
    assert_eq!(saved, "signal 1\nsignal 1 => Ok | -\n");
    assert!(!file(&run, "legend").exists());
    assert_eq!(std::fs::read_to_string(file(&word.run(), "legend")).unwrap(), "0 No(3)\n");
    // (both were made in a file whose name has a dot)
    for signal in dotted {
        let run = signal.run();
        assert!(run.name.starts_with("signal-two.signals-"), "{}", run.name);
        assert_eq!(std::fs::read_to_string(file(&run, "run")).unwrap(), run.text);
    }
}
