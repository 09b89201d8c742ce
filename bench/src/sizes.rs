//! How many bytes each primitive takes, ours beside upstream's.
use std::mem::size_of;

use embassy_sync::blocking_mutex::raw::NoopRawMutex as Noop;
use embassy_sync::channel::Channel;
use embassy_sync::mutex::Mutex;
use embassy_sync::once_lock::OnceLock;
use embassy_sync::pipe::Pipe;
use embassy_sync::priority_channel::{Max, PriorityChannel};
use embassy_sync::pubsub::PubSubChannel;
use embassy_sync::semaphore::{FairSemaphore, GreedySemaphore};
use embassy_sync::signal::Signal;
use embassy_sync::watch::Watch;

extern "C" {
    fn esync_bench_size(state: usize) -> usize;
}

/// Upstream's, in the order of the numbers that our side knows ours by.
const UPSTREAM: [(&str, usize); 13] = [
    ("channel_4", size_of::<Channel<Noop, u32, 4>>()),
    ("channel_1024", size_of::<Channel<Noop, u32, 1024>>()),
    ("channel_1024_bytes_4", size_of::<Channel<Noop, [u8; 1024], 4>>()),
    ("priority_4", size_of::<PriorityChannel<Noop, u32, Max, 4>>()),
    ("priority_1024", size_of::<PriorityChannel<Noop, u32, Max, 1024>>()),
    ("signal", size_of::<Signal<Noop, u32>>()),
    ("watch_4", size_of::<Watch<Noop, u32, 4>>()),
    ("pubsub_4_4_1", size_of::<PubSubChannel<Noop, u32, 4, 4, 1>>()),
    ("pipe_1024", size_of::<Pipe<Noop, 1024>>()),
    ("mutex", size_of::<Mutex<Noop, ()>>()),
    ("greedy", size_of::<GreedySemaphore<Noop>>()),
    ("fair_4", size_of::<FairSemaphore<Noop, 4>>()),
    ("once", size_of::<OnceLock<u32>>()),
];

/// Prints a line a primitive: `size NAME ours upstream`.
pub fn print() {
    for (state, (name, upstream)) in UPSTREAM.iter().enumerate() {
        // The static library has this export, which takes a number and returns one.
        let ours = unsafe { esync_bench_size(state) };
        println!("size {name} {ours} {upstream}");
    }
}
