//! async-channel, with the executor and the wait of a thread that its family has: async-executor and futures-lite.
use std::thread;

use async_executor::Executor;
use bench_threads::library::{AsyncReceiver, BlockingReceiver, Library, Receiver, Sender, Task};
use futures_lite::future::block_on;

struct AsyncChannel;

#[derive(Clone)]
struct SendHalf(async_channel::Sender<u32>);

#[derive(Clone)]
struct ReceiveHalf(async_channel::Receiver<u32>);

impl Library for AsyncChannel {
    type Sender<const N: usize> = SendHalf;
    type Receiver<const N: usize> = ReceiveHalf;
    type AmongThreads<const N: usize> = ReceiveHalf;
    type AmongTasks<const N: usize> = ReceiveHalf;

    fn channel<const N: usize>() -> (SendHalf, ReceiveHalf) {
        let (sender, receiver) = async_channel::bounded(N);
        (SendHalf(sender), ReceiveHalf(receiver))
    }

    fn among_threads<const N: usize>(receiver: ReceiveHalf) -> ReceiveHalf {
        receiver
    }

    fn among_tasks<const N: usize>(receiver: ReceiveHalf) -> ReceiveHalf {
        receiver
    }

    fn run(threads: usize, tasks: Vec<Task>) -> u64 {
        let executor = Executor::new();
        let spawned: Vec<_> = tasks.into_iter().map(|task| executor.spawn(task)).collect();
        // The threads run tasks until this channel closes.
        let (end, ended) = async_channel::bounded::<()>(1);
        thread::scope(|scope| {
            for _ in 0..threads {
                scope.spawn(|| block_on(executor.run(ended.recv())));
            }
            let total = block_on(async {
                let mut total = 0;
                for task in spawned {
                    total += task.await;
                }
                total
            });
            drop(end);
            total
        })
    }
}

impl Sender for SendHalf {
    async fn send(&self, message: u32) {
        self.0.send(message).await.expect("the channel is open");
    }

    fn send_blocking(&self, message: u32) {
        block_on(self.0.send(message)).expect("the channel is open");
    }

    fn try_send(&self, message: u32) -> bool {
        self.0.try_send(message).is_ok()
    }
}

impl AsyncReceiver for ReceiveHalf {
    async fn receive(&mut self) -> u32 {
        self.0.recv().await.expect("the channel is open")
    }
}

impl BlockingReceiver for ReceiveHalf {
    fn receive_blocking(&mut self) -> u32 {
        block_on(self.0.recv()).expect("the channel is open")
    }
}

impl Receiver for ReceiveHalf {
    fn try_receive(&mut self) -> Option<u32> {
        self.0.try_recv().ok()
    }
}

fn main() {
    bench_threads::time::<AsyncChannel>();
}
