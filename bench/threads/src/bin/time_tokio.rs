//! tokio: its bounded `mpsc`, its runtime of several threads, and its own wait of a thread.
use std::sync::{Arc, Mutex};

use bench_threads::library::{AsyncReceiver, BlockingReceiver, Library, Receiver, Sender, Task};
use tokio::runtime::Builder;
use tokio::sync::mpsc;

struct Tokio;

#[derive(Clone)]
struct SendHalf(mpsc::Sender<u32>);

struct ReceiveHalf(mpsc::Receiver<u32>);

/// The channel's one receiver behind a lock, for several threads.
#[derive(Clone)]
struct AmongThreads(Arc<Mutex<mpsc::Receiver<u32>>>);

/// The channel's one receiver behind a lock, for several tasks.
#[derive(Clone)]
struct AmongTasks(Arc<tokio::sync::Mutex<mpsc::Receiver<u32>>>);

impl Library for Tokio {
    type Sender<const N: usize> = SendHalf;
    type Receiver<const N: usize> = ReceiveHalf;
    type AmongThreads<const N: usize> = AmongThreads;
    type AmongTasks<const N: usize> = AmongTasks;

    fn channel<const N: usize>() -> (SendHalf, ReceiveHalf) {
        let (sender, receiver) = mpsc::channel(N);
        (SendHalf(sender), ReceiveHalf(receiver))
    }

    fn among_threads<const N: usize>(receiver: ReceiveHalf) -> AmongThreads {
        AmongThreads(Arc::new(Mutex::new(receiver.0)))
    }

    fn among_tasks<const N: usize>(receiver: ReceiveHalf) -> AmongTasks {
        AmongTasks(Arc::new(tokio::sync::Mutex::new(receiver.0)))
    }

    fn run(threads: usize, tasks: Vec<Task>) -> u64 {
        let runtime = Builder::new_multi_thread()
            .worker_threads(threads)
            .build()
            .expect("the runtime starts");
        let spawned: Vec<_> = tasks.into_iter().map(|task| runtime.spawn(task)).collect();
        runtime.block_on(async {
            let mut total = 0;
            for task in spawned {
                total += task.await.expect("a task ends");
            }
            total
        })
    }
}

impl Sender for SendHalf {
    async fn send(&self, message: u32) {
        self.0.send(message).await.expect("the channel is open");
    }

    fn send_blocking(&self, message: u32) {
        self.0.blocking_send(message).expect("the channel is open");
    }

    fn try_send(&self, message: u32) -> bool {
        self.0.try_send(message).is_ok()
    }
}

impl AsyncReceiver for ReceiveHalf {
    async fn receive(&mut self) -> u32 {
        self.0.recv().await.expect("the channel is open")
    }
}

impl BlockingReceiver for ReceiveHalf {
    fn receive_blocking(&mut self) -> u32 {
        self.0.blocking_recv().expect("the channel is open")
    }
}

impl Receiver for ReceiveHalf {
    fn try_receive(&mut self) -> Option<u32> {
        self.0.try_recv().ok()
    }
}

impl BlockingReceiver for AmongThreads {
    fn receive_blocking(&mut self) -> u32 {
        let mut receiver = self.0.lock().expect("no thread has panicked");
        receiver.blocking_recv().expect("the channel is open")
    }
}

impl AsyncReceiver for AmongTasks {
    async fn receive(&mut self) -> u32 {
        self.0
            .lock()
            .await
            .recv()
            .await
            .expect("the channel is open")
    }
}

fn main() {
    bench_threads::time::<Tokio>();
}
