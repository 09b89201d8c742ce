//! An executor by hand: tasks whose wakers count how often they were woken, polled in turn while one was woken.
#![allow(dead_code)]
use std::cell::Cell;
use std::future::{Future, poll_fn};
use std::pin::{Pin, pin};
use std::sync::Arc;
use std::sync::atomic::{AtomicUsize, Ordering::Relaxed};
use std::task::{Context, Poll, Wake, Waker};

/// A task's waker, which counts the wakes that no poll has followed.
#[derive(Default)]
pub struct Count(AtomicUsize);

impl Count {
    /// Returns the wakes since this was last called.
    pub fn take(&self) -> usize {
        self.0.swap(0, Relaxed)
    }
}

impl Wake for Count {
    fn wake(self: Arc<Self>) {
        self.wake_by_ref();
    }

    fn wake_by_ref(self: &Arc<Self>) {
        self.0.fetch_add(1, Relaxed);
    }
}

/// A task that is polled by hand.
pub struct Task(Arc<Count>, Waker);

impl Task {
    /// Returns a task that nobody has woken.
    pub fn new() -> Self {
        let count = Arc::new(Count::default());
        let waker = Waker::from(Arc::clone(&count));
        Task(count, waker)
    }

    /// Polls a future once.
    pub fn poll<F: Future + Unpin>(&self, future: &mut F) -> Poll<F::Output> {
        Pin::new(future).poll(&mut self.context())
    }

    /// Returns a context with the task's waker.
    pub fn context(&self) -> Context<'_> {
        Context::from_waker(&self.1)
    }

    /// Returns how often the task was woken since this was last called.
    pub fn take_wakes(&self) -> usize {
        self.0.take()
    }
}

type Job<'a> = Pin<Box<dyn Future<Output = ()> + 'a>>;

/// Tasks of one thread.
#[derive(Default)]
pub struct Executor<'a>(Vec<(Option<Job<'a>>, Arc<Count>)>);

impl<'a> Executor<'a> {
    /// Adds a task, which is polled from the next run on.
    pub fn spawn(&mut self, job: impl Future<Output = ()> + 'a) {
        let count = Arc::new(Count::default());
        count.wake_by_ref();
        self.0.push((Some(Box::pin(job)), count));
    }

    /// Polls the tasks that were woken, in turn, until none is. Returns how many haven't finished.
    pub fn run(&mut self) -> usize {
        while self.0.iter_mut().fold(false, |polled, (job, count)| poll_woken(job, count) || polled) {}
        self.0.iter().filter(|(job, _)| job.is_some()).count()
    }
}

/// Polls the task where it was woken, and returns whether it was.
fn poll_woken(job: &mut Option<Job<'_>>, count: &Arc<Count>) -> bool {
    let Some(future) = job.as_mut().filter(|_| count.take() > 0) else {
        return false;
    };
    let waker = Waker::from(Arc::clone(count));
    if future.as_mut().poll(&mut Context::from_waker(&waker)).is_ready() {
        *job = None;
    }
    true
}

/// Lets the other tasks go first.
pub async fn pause() {
    let is_over = Cell::new(false);
    poll_fn(|cx| match is_over.replace(true) {
        true => Poll::Ready(()),
        false => {
            cx.waker().wake_by_ref();
            Poll::Pending
        }
    })
    .await;
}

/// Polls a future so often at most, each time after a pause, and drops it where it isn't Ready by then.
pub async fn within<F: Future>(polls: usize, future: F) -> Option<F::Output> {
    let mut future = pin!(future);
    let mut left = polls;
    poll_fn(|cx| {
        left -= 1;
        match future.as_mut().poll(cx) {
            Poll::Ready(output) => Poll::Ready(Some(output)),
            Poll::Pending if left == 0 => Poll::Ready(None),
            Poll::Pending => {
                cx.waker().wake_by_ref();
                Poll::Pending
            }
        }
    })
    .await
}
