//! Our side: one call takes a whole pass over the messages.
use std::path::Path;
use std::process::Command;
use std::time::Duration;

use crate::{bytes, Answer};

/// How the static library's exports are called: a slice is a pointer and then a length.
type Export<T> = unsafe extern "C" fn(*const T, usize, *mut u64, usize) -> u64;

macro_rules! exports {
    ($row:ident: &[$message:ty]; $($name:ident = $export:ident;)*) => {
        extern "C" {
            $(fn $export(messages: *const $message, count: usize, woken: *mut u64, tasks: usize) -> u64;)*
        }

        $(pub fn $name(messages: &[u32]) -> Answer {
            pass($export, $row(messages))
        })*
    };
}

fn whole(messages: &[u32]) -> &[u32] {
    messages
}

exports! {
    whole: &[u32];
    ping_pong_4 = esync_bench_channel_ping_pong_4;
    ping_pong_64 = esync_bench_channel_ping_pong_64;
    ping_pong_1024 = esync_bench_channel_ping_pong_1024;
    ping_pong_4096 = esync_bench_channel_ping_pong_4096;
    fill_drain_4 = esync_bench_channel_fill_drain_4;
    fill_drain_64 = esync_bench_channel_fill_drain_64;
    fill_drain_1024 = esync_bench_channel_fill_drain_1024;
    fill_drain_4096 = esync_bench_channel_fill_drain_4096;
    first_message_4 = esync_bench_channel_first_message_4;
    first_message_64 = esync_bench_channel_first_message_64;
    first_message_1024 = esync_bench_channel_first_message_1024;
    wait_and_wake = esync_bench_channel_wait_and_wake;
    priority_fill_drain_4 = esync_bench_priority_fill_drain_4;
    priority_fill_drain_64 = esync_bench_priority_fill_drain_64;
    priority_fill_drain_1024 = esync_bench_priority_fill_drain_1024;
    priority_steady_4 = esync_bench_priority_steady_4;
    priority_steady_64 = esync_bench_priority_steady_64;
    priority_steady_1024 = esync_bench_priority_steady_1024;
    signal_take = esync_bench_signal_take;
    mutex_lock = esync_bench_mutex_lock;
    mutex_wait_and_wake = esync_bench_mutex_wait_and_wake;
    watch_send_and_read = esync_bench_watch_send_and_read;
    watch_wait_and_wake = esync_bench_watch_wait_and_wake;
    once_init_and_get = esync_bench_once_init_and_get;
    pubsub_one = esync_bench_pubsub_one;
    pubsub_four = esync_bench_pubsub_four;
    pubsub_lag = esync_bench_pubsub_lag;
    pubsub_wait_and_wake = esync_bench_pubsub_wait_and_wake;
    greedy_acquire = esync_bench_greedy_acquire;
    greedy_try_acquire = esync_bench_greedy_try_acquire;
    greedy_wait_and_wake = esync_bench_greedy_wait_and_wake;
    fair_acquire = esync_bench_fair_acquire;
    fair_try_acquire = esync_bench_fair_try_acquire;
    fair_wait_and_wake = esync_bench_fair_wait_and_wake;
}

exports! {
    bytes: &[u8];
    pipe_byte = esync_bench_pipe_byte;
    pipe_16 = esync_bench_pipe_16;
    pipe_1024 = esync_bench_pipe_1024;
    pipe_1024_of_1500 = esync_bench_pipe_1024_of_1500;
    pipe_wait_and_wake = esync_bench_pipe_wait_and_wake;
}

fn pass<T>(export: Export<T>, messages: &[T]) -> Answer {
    let mut woken = [0; 4];
    // An export requires nothing but two slices that nobody else writes.
    let total = unsafe {
        export(
            messages.as_ptr(),
            messages.len(),
            woken.as_mut_ptr(),
            woken.len(),
        )
    };
    Answer {
        total,
        woken: woken.iter().sum(),
    }
}

/// Runs the Rattle program over the shared forms: what its last pass answered, and the time of its fastest.
pub fn run_shared(case: &str, passes: usize) -> (Answer, Duration) {
    let program = Path::new(env!("CARGO_MANIFEST_DIR"))
        .join("../crates/bench_shared/out/bench_shared");
    let output = Command::new(program)
        .args([case, &passes.to_string()])
        .output()
        .expect("the program over the shared forms is built");
    assert!(output.status.success(), "{output:?}");
    let text = String::from_utf8(output.stdout).expect("it prints numbers");
    let numbers: Vec<u64> = text
        .split_whitespace()
        .skip(1)
        .map(|word| word.parse().expect("it prints numbers"))
        .collect();
    let &[total, woken, nanoseconds] = numbers.as_slice() else {
        panic!("it prints the case and three numbers: {text}");
    };
    (Answer { total, woken }, Duration::from_nanos(nanoseconds))
}
