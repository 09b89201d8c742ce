//! What is timed: in each case both sides take the same passes.
use embassy_sync::blocking_mutex::raw::NoopRawMutex;
use embassy_sync::semaphore::{FairSemaphore, GreedySemaphore};

use crate::host_mutex::HostMutex;
use crate::{ours, upstream, Pass};

pub enum Ours {
    /// An export of the static library: a state form, with no lock.
    Export(Pass),
    /// A case of the Rattle program: a shared form, with a lock, or what takes memory.
    Program(&'static str),
}

pub struct Case {
    pub name: &'static str,
    pub ours: Ours,
    pub upstream: Pass,
}

const fn state(name: &'static str, ours: Pass, upstream: Pass) -> Case {
    Case {
        name,
        ours: Ours::Export(ours),
        upstream,
    }
}

const fn program(name: &'static str, case: &'static str, upstream: Pass) -> Case {
    Case {
        name,
        ours: Ours::Program(case),
        upstream,
    }
}

pub const CASES: [Case; 45] = [
    state(
        "channel_ping_pong_4",
        ours::ping_pong_4,
        upstream::ping_pong::<NoopRawMutex, 4>,
    ),
    state(
        "channel_ping_pong_64",
        ours::ping_pong_64,
        upstream::ping_pong::<NoopRawMutex, 64>,
    ),
    state(
        "channel_ping_pong_1024",
        ours::ping_pong_1024,
        upstream::ping_pong::<NoopRawMutex, 1024>,
    ),
    state(
        "channel_ping_pong_4096",
        ours::ping_pong_4096,
        upstream::ping_pong::<NoopRawMutex, 4096>,
    ),
    state(
        "channel_fill_drain_4",
        ours::fill_drain_4,
        upstream::fill_drain::<NoopRawMutex, 4>,
    ),
    state(
        "channel_fill_drain_64",
        ours::fill_drain_64,
        upstream::fill_drain::<NoopRawMutex, 64>,
    ),
    state(
        "channel_fill_drain_1024",
        ours::fill_drain_1024,
        upstream::fill_drain::<NoopRawMutex, 1024>,
    ),
    state(
        "channel_fill_drain_4096",
        ours::fill_drain_4096,
        upstream::fill_drain::<NoopRawMutex, 4096>,
    ),
    state(
        "channel_first_message_4",
        ours::first_message_4,
        upstream::first_messages::<NoopRawMutex, 4>,
    ),
    state(
        "channel_first_message_64",
        ours::first_message_64,
        upstream::first_messages::<NoopRawMutex, 64>,
    ),
    state(
        "channel_first_message_1024",
        ours::first_message_1024,
        upstream::first_messages::<NoopRawMutex, 1024>,
    ),
    state(
        "channel_wait_and_wake",
        ours::wait_and_wake,
        upstream::wait_and_wake::<NoopRawMutex>,
    ),
    state(
        "priority_fill_drain_4",
        ours::priority_fill_drain_4,
        upstream::priority_fill_drain::<NoopRawMutex, 4>,
    ),
    state(
        "priority_fill_drain_64",
        ours::priority_fill_drain_64,
        upstream::priority_fill_drain::<NoopRawMutex, 64>,
    ),
    state(
        "priority_fill_drain_1024",
        ours::priority_fill_drain_1024,
        upstream::priority_fill_drain::<NoopRawMutex, 1024>,
    ),
    state(
        "priority_steady_4",
        ours::priority_steady_4,
        upstream::priority_steady::<NoopRawMutex, 4>,
    ),
    state(
        "priority_steady_64",
        ours::priority_steady_64,
        upstream::priority_steady::<NoopRawMutex, 64>,
    ),
    state(
        "priority_steady_1024",
        ours::priority_steady_1024,
        upstream::priority_steady::<NoopRawMutex, 1024>,
    ),
    state(
        "signal_take",
        ours::signal_take,
        upstream::signal_take::<NoopRawMutex>,
    ),
    state(
        "mutex_lock",
        ours::mutex_lock,
        upstream::mutex_lock::<NoopRawMutex>,
    ),
    state(
        "mutex_wait_and_wake",
        ours::mutex_wait_and_wake,
        upstream::mutex_wait_and_wake::<NoopRawMutex>,
    ),
    state(
        "watch_send_and_read",
        ours::watch_send_and_read,
        upstream::watch_send_and_read::<NoopRawMutex>,
    ),
    state(
        "watch_wait_and_wake",
        ours::watch_wait_and_wake,
        upstream::watch_wait_and_wake::<NoopRawMutex>,
    ),
    state(
        "once_init_and_get",
        ours::once_init_and_get,
        upstream::once_init_and_get,
    ),
    state(
        "pubsub_one",
        ours::pubsub_one,
        upstream::pubsub::<NoopRawMutex, 1>,
    ),
    state(
        "pubsub_four",
        ours::pubsub_four,
        upstream::pubsub::<NoopRawMutex, 4>,
    ),
    state(
        "pubsub_lag",
        ours::pubsub_lag,
        upstream::pubsub_lag::<NoopRawMutex>,
    ),
    state(
        "pubsub_wait_and_wake",
        ours::pubsub_wait_and_wake,
        upstream::pubsub_wait_and_wake::<NoopRawMutex>,
    ),
    state(
        "greedy_acquire",
        ours::greedy_acquire,
        upstream::permits_acquire::<GreedySemaphore<NoopRawMutex>>,
    ),
    state(
        "greedy_try_acquire",
        ours::greedy_try_acquire,
        upstream::permits_try_acquire::<GreedySemaphore<NoopRawMutex>>,
    ),
    state(
        "greedy_wait_and_wake",
        ours::greedy_wait_and_wake,
        upstream::permits_wait_and_wake::<GreedySemaphore<NoopRawMutex>>,
    ),
    state(
        "fair_acquire",
        ours::fair_acquire,
        upstream::permits_acquire::<FairSemaphore<NoopRawMutex, 4>>,
    ),
    state(
        "fair_try_acquire",
        ours::fair_try_acquire,
        upstream::permits_try_acquire::<FairSemaphore<NoopRawMutex, 4>>,
    ),
    state(
        "fair_wait_and_wake",
        ours::fair_wait_and_wake,
        upstream::permits_wait_and_wake::<FairSemaphore<NoopRawMutex, 4>>,
    ),
    state(
        "pipe_byte",
        ours::pipe_byte,
        upstream::pipe_blocks::<NoopRawMutex, 16, 1>,
    ),
    state(
        "pipe_16",
        ours::pipe_16,
        upstream::pipe_blocks::<NoopRawMutex, 64, 16>,
    ),
    state(
        "pipe_1024",
        ours::pipe_1024,
        upstream::pipe_blocks::<NoopRawMutex, 1024, 1024>,
    ),
    state(
        "pipe_1024_of_1500",
        ours::pipe_1024_of_1500,
        upstream::pipe_parts::<NoopRawMutex, 1500, 1024>,
    ),
    state(
        "pipe_wait_and_wake",
        ours::pipe_wait_and_wake,
        upstream::pipe_wait_and_wake::<NoopRawMutex, 32, 16>,
    ),
    program("zerocopy_1024", "slots", upstream::slots::<NoopRawMutex>),
    program(
        "zerocopy_1024_beside_channel",
        "slots",
        upstream::blocks::<NoopRawMutex>,
    ),
    program("channel_1024_bytes", "blocks", upstream::blocks::<NoopRawMutex>),
    program(
        "shared_ping_pong_4",
        "ping_pong",
        upstream::ping_pong::<HostMutex, 4>,
    ),
    program(
        "shared_wait_and_wake",
        "wait_and_wake",
        upstream::wait_and_wake::<HostMutex>,
    ),
    program(
        "shared_signal_take",
        "signal_take",
        upstream::signal_take::<HostMutex>,
    ),
];
