//! Runs that follow from what upstream's documentation says of each primitive.

use std::str;

use recorder::record;

/// Records the commands of `run`, and expects `run`.
fn assert_recorded(run: &str) {
    let script: Vec<&str> = run.lines().map(command).collect();
    let mut recorded = Vec::new();
    record(script.join("\n").as_bytes(), &mut recorded).expect("each line is a command");
    assert_eq!(str::from_utf8(&recorded), Ok(run));
}

/// The command of a recorded line.
fn command(line: &str) -> &str {
    line.split_once(" => ").map_or(line, |(command, _)| command)
}

/// A sender waits while the buffer is full, and data comes out in the order in which it was sent.
#[test]
fn a_channel_is_in_order_and_waits_for_room() {
    assert_recorded(
        "\
channel 2
try-send 1 => Ok | -
try-send 2 => Ok | -
try-send 3 => Err(Full(3)) | -
free => 0 | -
start 0 send 3 => Ok | -
poll 0 7 => Pending | -
try-receive => Ok(1) | 7
poll 0 7 => Ready | -
try-receive => Ok(2) | -
try-receive => Ok(3) | -
try-receive => Err(Empty) | -
len => 0 | -
",
    );
}

/// A waker that another task's displaces is woken, so that its task can register again.
#[test]
fn a_displaced_waker_is_woken() {
    assert_recorded(
        "\
channel 1
start 0 receive => Ok | -
start 1 receive => Ok | -
poll 0 5 => Pending | -
poll 0 5 => Pending | -
poll 1 6 => Pending | 5
end 0 => Ok | -
try-send 8 => Ok | 6
poll 1 6 => Ready(8) | -
poll 1 6 => Err(NoSuch) | -
",
    );
}

/// A poll for readiness leaves its waker, and takes nothing.
#[test]
fn a_poll_for_readiness_takes_nothing() {
    assert_recorded(
        "\
channel 1
start 0 receive-ready => Ok | -
poll 0 1 => Pending | -
start 1 send-ready => Ok | -
poll 1 2 => Ready | -
try-send 4 => Ok | 1
poll 0 1 => Ready | -
len => 1 | -
",
    );
}

/// The message of the highest priority leaves first.
#[test]
fn a_priority_channel_gives_the_greatest_or_the_least() {
    assert_recorded(
        "\
max 3
try-send 2 => Ok | -
try-send 9 => Ok | -
try-send 4 => Ok | -
try-receive => Ok(9) | -
try-receive => Ok(4) | -
try-receive => Ok(2) | -
",
    );
    assert_recorded(
        "\
min 3
try-send 2 => Ok | -
try-send 9 => Ok | -
try-send 1 => Ok | -
start 0 receive => Ok | -
poll 0 1 => Ready(1) | -
try-receive => Ok(2) | -
",
    );
}

/// Each subscriber reads each message, as in the example of `PubSubChannel`.
#[test]
fn each_subscriber_reads_each_message() {
    assert_recorded(
        "\
pubsub 4
join 0 => Ok | -
join 1 => Ok | -
publisher 0 => Ok | -
start 0 publish 0 42 => Ok | -
poll 0 1 => Ready | -
immediate 43 => Ok | -
start 1 message 0 => Ok | -
poll 1 2 => Ready(Message(42)) | -
next 1 => Message(42) | -
start 2 message-pure 0 => Ok | -
poll 2 2 => Ready(43) | -
next-pure 1 => Some(43) | -
next 0 => None | -
next 1 => None | -
",
    );
}

/// An immediate message drops the oldest one where there is no room, and who missed it is told that it lags.
#[test]
fn a_subscriber_is_told_that_it_lags() {
    assert_recorded(
        "\
pubsub 1 5
join 3 => Ok | -
start 0 stream 3 => Ok | -
poll 0 1 => Pending | -
immediate 7 => Ok | 1
immediate 8 => Ok | -
available 3 => 2 | -
poll 0 1 => Pending | 1
poll 0 1 => Ready(Some(8)) | -
",
    );
}

/// There are as many subscribers as the channel has slots for, and one that leaves makes room.
#[test]
fn slots_of_subscribers_and_publishers_run_out() {
    assert_recorded(
        "\
pubsub 1
join 0 => Ok | -
join 1 => Ok | -
join 2 => Ok | -
join 3 => Ok | -
join 4 => Err(MaximumSubscribersReached) | -
leave 2 => Ok | -
join 4 => Ok | -
publisher 0 => Ok | -
publisher 1 => Ok | -
publisher 2 => Ok | -
publisher 3 => Ok | -
publisher 4 => Err(MaximumPublishersReached) | -
retire 0 => Ok | -
publisher 4 => Ok | -
publisher 4 => Err(NoSuch) | -
try-publish 0 1 => Err(NoSuch) | -
",
    );
}

/// A subscriber that leaves ends its requests, and a publisher that retires ends its own.
#[test]
fn a_handle_ends_its_requests() {
    assert_recorded(
        "\
pubsub 1
join 0 => Ok | -
publisher 0 => Ok | -
start 1 message 0 => Ok | -
start 2 publish 0 6 => Ok | -
leave 0 => Ok | -
poll 1 1 => Err(NoSuch) | -
poll 2 1 => Ready | -
start 2 publish 0 6 => Ok | -
retire 0 => Ok | -
poll 2 1 => Err(NoSuch) | -
leave 0 => Err(NoSuch) | -
retire 0 => Err(NoSuch) | -
",
    );
}

/// A signal keeps the latest value, and wakes who waits for it.
#[test]
fn a_signal_overwrites() {
    assert_recorded(
        "\
signal 1
start 0 wait => Ok | -
poll 0 3 => Pending | -
signal 1 => Ok | 3
signal 2 => Ok | -
signaled => true | -
poll 0 3 => Ready(2) | -
signal 4 => Ok | -
try-take => Some(4) | -
try-take => None | -
signal 5 => Ok | -
reset => Ok | -
signaled => false | -
",
    );
}

/// A task gets its permits as soon as they are there, also where another one waits for more.
#[test]
fn a_greedy_semaphore_lets_others_pass() {
    assert_recorded(
        "\
greedy 1 0
start 0 acquire 2 => Ok | -
poll 0 1 => Pending | -
release 1 => Ok | 1
try 1 1 => Some(1) | -
permits => 0 | -
end 1 => Ok | -
release 2 => Ok | -
try-all 2 1 => Some(3) | -
disarm 2 => 3 | -
permits => 0 | -
set 2 => Ok | -
poll 0 1 => Ready(2) | -
",
    );
}

/// Nobody passes who waits for more, and as many can wait as the queue has places.
#[test]
fn a_fair_semaphore_lets_nobody_pass() {
    assert_recorded(
        "\
fair 1 1
start 0 acquire 2 => Ok | -
poll 0 1 => Pending | -
try 1 1 => None | -
start 1 acquire 1 => Ok | -
poll 1 2 => Ready(Err(WaitQueueFull)) | -
permits => 1 | -
release 1 => Ok | 1
poll 0 1 => Ready(2) | -
end 0 => Ok | -
permits => 2 | -
start 0 acquire-all 1 => Ok | -
poll 0 1 => Ready(2) | -
",
    );
}

/// Who counts the permits leaves the queue and its wakers as they were.
#[test]
fn counting_the_permits_changes_nothing() {
    for semaphore in ["greedy 1 1", "fair 2 1"] {
        assert_recorded(&format!(
            "\
{semaphore}
start 0 acquire 2 => Ok | -
poll 0 1 => Pending | -
permits => 1 | -
permits => 1 | -
release 1 => Ok | 1
permits => 2 | -
poll 0 1 => Ready(2) | -
permits => 0 | -
end 0 => Ok | -
permits => 2 | -
"
        ));
    }
}

/// The lock is free again once its guard is dropped, and a mapped guard shows a part.
#[test]
fn a_mutex_has_one_guard() {
    assert_recorded(
        "\
mutex 1 4 6
start 0 lock => Ok | -
poll 0 1 => Ready | -
try-lock 1 => Err(TryLockError) | -
start 1 lock => Ok | -
poll 1 2 => Pending | -
write 0 5 7 => Ok | -
map 0 => Ok | -
read 0 => (7) | -
write 0 1 1 => Err(NoSuch) | -
map 0 => Err(NoSuch) | -
write-part 0 8 => Ok | -
end 0 => Ok | 2
poll 1 2 => Ready | -
read 1 => (5,8) | -
write-part 1 1 => Err(NoSuch) | -
",
    );
}

/// Who waits for a value that isn't set is woken at once, to poll again.
#[test]
fn a_once_lock_is_polled_in_a_loop() {
    assert_recorded(
        "\
once 1
start 0 get => Ok | -
poll 0 1 => Pending | 1
get-or-init 20 => 20 | -
poll 0 1 => Ready(20) | -
init 21 => Err(Set(21)) | -
take => Some(20) | -
is-set => false | -
try-get => None | -
init 22 => Ok | -
try-get => Some(22) | -
",
    );
}

/// A lazy value is what its closure makes, until the lock is consumed.
#[test]
fn a_lazy_lock_gives_its_value() {
    assert_recorded(
        "\
lazy 1 20
get => 20 | -
poll 0 1 => Err(NoSuch) | -
into => 20 | -
get => Err(NoSuch) | -
",
    );
}

/// A writer waits while the pipe is full, and bytes come out in the order in which they were written.
#[test]
fn a_pipe_is_in_order_and_waits_for_room() {
    assert_recorded(
        "\
pipe 4
start 0 read 2 => Ok | -
poll 0 1 => Pending | -
start 1 write-all 1,2,3,4,5,6 => Ok | -
poll 1 2 => Pending | 1
free => 0 | -
try-write 9 => Err(Full) | -
poll 0 1 => Ready(1,2) | 2
poll 1 2 => Ready | -
len => 4 | -
try-fill => Ok(3,4) | -
",
    );
}

/// What a fill shows stays until it is consumed, and to consume more than that is a panic.
#[test]
fn more_than_is_there_cannot_be_consumed() {
    assert_recorded(
        "\
pipe 4
try-write 1,2 => Ok(2) | -
start 0 fill => Ok | -
poll 0 1 => Ready(1,2) | -
consume 3 => Panic | -
consume 1 => Ok | -
try-read 16 => Ok(2) | -
try-fill => Err(Empty) | -
try-read 1 => Err(Empty) | -
",
    );
}

/// A receiver has each slot in the order in which it was sent, with the value that the sender wrote.
#[test]
fn a_zerocopy_channel_lends_its_slots_in_order() {
    assert_recorded(
        "\
zerocopy 2
start 0 receive => Ok | -
poll 0 1 => Pending | -
try-send => Some(0) | -
write 7 => Ok | -
done-send => Ok | 1
write 9 => Err(NoSuch) | -
start 1 send => Ok | -
poll 1 2 => Ready(1) | -
write 8 => Ok | -
done-send => Ok | -
len => 2 | -
free => 0 | -
try-send => None | -
done-send => Panic | -
poll 0 1 => Ready(0,7) | -
done-receive => Ok | -
end-receive => Err(NoSuch) | -
try-receive => Some(1,8) | -
end-receive => Ok | -
try-receive => Some(1,8) | -
",
    );
}

/// The example of `Watch`: a change is seen once by each receiver.
#[test]
fn a_receiver_sees_a_change_once() {
    assert_recorded(
        "\
watch 2
receiver 0 => Ok | -
receiver 1 => Ok | -
receiver 2 => None | -
changed 1 => None | -
start 0 changed 0 => Ok | -
poll 0 5 => Pending | -
send 10 => Ok | 5
poll 0 5 => Ready(10) | -
changed 1 => Some(10) | -
changed 0 => None | -
changed 1 => None | -
start 2 changed 0 => Ok | -
poll 2 5 => Pending | -
end 2 => Ok | -
send 20 => Ok | 5
start 1 get 1 => Ok | -
poll 1 6 => Ready(20) | -
changed 1 => None | -
get 1 => Some(20) | -
id => 2 | -
",
    );
}

/// A receiver that isn't counted can look, and can't wait. A change that changes nothing isn't told.
#[test]
fn an_anonymous_receiver_cannot_wait() {
    assert_recorded(
        "\
watch 1 3
anon 0 => Ok | -
start 0 changed 0 => Err(NoSuch) | -
receiver 1 => Ok | -
start 0 changed-below 1 5 => Ok | -
poll 0 2 => Pending | -
modify-if 0 => Ok | -
modify 4 => Ok | 2
poll 0 2 => Pending | -
get-below 0 7 => None | -
changed-below 0 8 => Some(7) | -
send 4 => Ok | 2
leave 1 => Ok | -
poll 0 2 => Err(NoSuch) | -
clear => Ok | -
contains => false | -
try-get => None | -
",
    );
}
