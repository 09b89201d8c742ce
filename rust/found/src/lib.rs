//! What the programs share: a task that notes whether it was woken, one poll by hand, and the last line.
use critical_section as _;
use std::fmt::Debug;
use std::future::Future;
use std::pin::Pin;
use std::process::ExitCode;
use std::sync::atomic::{AtomicBool, Ordering::Relaxed};
use std::sync::Arc;
use std::task::{Context, Poll, Wake, Waker};

struct Flag(AtomicBool);

impl Wake for Flag {
    fn wake(self: Arc<Self>) {
        self.0.store(true, Relaxed);
    }
}

/// A task without an executor: its waker notes that it was woken.
pub struct Task(&'static str, Arc<Flag>);

impl Task {
    /// Returns a task of this name.
    pub fn new(name: &'static str) -> Self {
        Task(name, Arc::new(Flag(AtomicBool::new(false))))
    }

    /// Polls a future once with the task's waker, and prints the answer. A wake counts from here on.
    pub fn poll<F: Future<Output: Debug>>(&self, future: Pin<&mut F>) -> Poll<F::Output> {
        self.poll_by(|cx| future.poll(cx))
    }

    /// Polls once by a call that takes a context, and prints the answer. A wake counts from here on.
    pub fn poll_by<T: Debug>(&self, call: impl FnOnce(&mut Context<'_>) -> Poll<T>) -> Poll<T> {
        self.1 .0.store(false, Relaxed);
        let waker = Waker::from(self.1.clone());
        let answer = call(&mut Context::from_waker(&waker));
        println!("{} polls: {answer:?}", self.0);
        answer
    }

    /// Says whether the task was woken since its last poll, and prints it.
    pub fn woken(&self) -> bool {
        let woken = self.1 .0.load(Relaxed);
        println!("{} {} woken", self.0, if woken { "was" } else { "was not" });
        woken
    }

    /// Ends a program: the status is 1 where the task was not woken or its next poll isn't Ready, and else 0.
    pub fn end<F: Future<Output: Debug>>(&self, future: Pin<&mut F>) -> ExitCode {
        let (woken, name) = (self.woken(), self.0);
        if self.poll(future).is_pending() {
            return end(true, &format!("HANGS: {name}'s future is Pending, and nobody will wake it"));
        }
        let fault = format!("HANGS: {name}'s future would be Ready, and its waker was never woken");
        end(!woken, &fault)
    }
}

/// Ends a program: prints the fault, with the status 1, or that it doesn't show, with the status 0.
pub fn end(shows: bool, fault: &str) -> ExitCode {
    println!("{}", if shows { fault } else { "mended: the fault does not show" });
    ExitCode::from(shows as u8)
}
