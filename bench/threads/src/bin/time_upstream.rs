//! embassy-sync, over one critical section for all channels. It has no executor and no wait of a thread, so both stand
//! here.
use std::future::Future;

use bench_threads::executor;
use bench_threads::library::{AsyncReceiver, BlockingReceiver, Library, Receiver, Sender, Task};
use bench_threads::parking::block_on;
use embassy_sync::blocking_mutex::raw::CriticalSectionRawMutex;
use embassy_sync::channel::Channel;

struct Upstream;

/// A channel that is never freed, as a `static` is.
#[derive(Clone, Copy)]
struct Handle<const N: usize>(&'static Channel<CriticalSectionRawMutex, u32, N>);

impl Library for Upstream {
    type Sender<const N: usize> = Handle<N>;
    type Receiver<const N: usize> = Handle<N>;
    type AmongThreads<const N: usize> = Handle<N>;
    type AmongTasks<const N: usize> = Handle<N>;

    fn channel<const N: usize>() -> (Handle<N>, Handle<N>) {
        let handle = Handle(Box::leak(Box::new(Channel::new())));
        (handle, handle)
    }

    fn among_threads<const N: usize>(receiver: Handle<N>) -> Handle<N> {
        receiver
    }

    fn among_tasks<const N: usize>(receiver: Handle<N>) -> Handle<N> {
        receiver
    }

    fn run(threads: usize, tasks: Vec<Task>) -> u64 {
        executor::run(threads, tasks)
    }
}

impl<const N: usize> Sender for Handle<N> {
    fn send(&self, message: u32) -> impl Future<Output = ()> + Send {
        self.0.send(message)
    }

    fn send_blocking(&self, message: u32) {
        block_on(self.0.send(message));
    }

    fn try_send(&self, message: u32) -> bool {
        self.0.try_send(message).is_ok()
    }
}

impl<const N: usize> AsyncReceiver for Handle<N> {
    fn receive(&mut self) -> impl Future<Output = u32> + Send {
        self.0.receive()
    }
}

impl<const N: usize> BlockingReceiver for Handle<N> {
    fn receive_blocking(&mut self) -> u32 {
        block_on(self.0.receive())
    }
}

impl<const N: usize> Receiver for Handle<N> {
    fn try_receive(&mut self) -> Option<u32> {
        self.0.try_receive().ok()
    }
}

fn main() {
    bench_threads::time::<Upstream>();
}
