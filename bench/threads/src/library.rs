//! What a library has to offer so that the cases can be run with it.
use std::future::Future;
use std::pin::Pin;

/// A task, which ends with the sum of the messages that it received.
pub type Task = Pin<Box<dyn Future<Output = u64> + Send>>;

/// A bounded channel of `u32`, and the means to wait on it.
pub trait Library {
    type Sender<const N: usize>: Sender;
    type Receiver<const N: usize>: Receiver;
    /// A receiver that several threads own.
    type AmongThreads<const N: usize>: BlockingReceiver + Clone;
    /// A receiver that several tasks own.
    type AmongTasks<const N: usize>: AsyncReceiver + Clone;

    /// Makes a channel that holds `N` messages.
    fn channel<const N: usize>() -> (Self::Sender<N>, Self::Receiver<N>);

    fn among_threads<const N: usize>(receiver: Self::Receiver<N>) -> Self::AmongThreads<N>;

    fn among_tasks<const N: usize>(receiver: Self::Receiver<N>) -> Self::AmongTasks<N>;

    /// Runs the tasks on so many threads, which it starts and ends, and returns the sum of what the tasks ended with.
    fn run(threads: usize, tasks: Vec<Task>) -> u64;
}

pub trait Sender: Clone + Send + Sync + 'static {
    fn send(&self, message: u32) -> impl Future<Output = ()> + Send;

    /// Sends, and parks the thread while the channel is full.
    fn send_blocking(&self, message: u32);

    /// Sends if the channel isn't full, and says whether it did.
    fn try_send(&self, message: u32) -> bool;
}

pub trait AsyncReceiver: Send + 'static {
    fn receive(&mut self) -> impl Future<Output = u32> + Send;
}

pub trait BlockingReceiver: Send + 'static {
    /// Receives, and parks the thread while the channel is empty.
    fn receive_blocking(&mut self) -> u32;
}

pub trait Receiver: AsyncReceiver + BlockingReceiver {
    /// Receives if there is a message.
    fn try_receive(&mut self) -> Option<u32>;
}
