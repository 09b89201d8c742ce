//! A wait that parks the thread, for a library that has none of its own.
use std::cell::OnceCell;
use std::future::Future;
use std::pin::pin;
use std::sync::atomic::{AtomicBool, Ordering};
use std::sync::Arc;
use std::task::{Context, Poll, Wake, Waker};
use std::thread::{self, Thread};

/// A thread that waits, and whether it was woken since it last looked.
struct Seat {
    thread: Thread,
    woken: AtomicBool,
}

impl Wake for Seat {
    fn wake(self: Arc<Self>) {
        self.wake_by_ref();
    }

    fn wake_by_ref(self: &Arc<Self>) {
        if !self.woken.swap(true, Ordering::AcqRel) {
            self.thread.unpark();
        }
    }
}

thread_local! {
    // One a thread, so that a wait takes no memory.
    static SEAT: OnceCell<(Arc<Seat>, Waker)> = const { OnceCell::new() };
}

fn seat() -> (Arc<Seat>, Waker) {
    let seat = Arc::new(Seat {
        thread: thread::current(),
        woken: AtomicBool::new(false),
    });
    (seat.clone(), Waker::from(seat))
}

/// Polls the future until it ends, and parks the thread between two polls until it is woken.
pub fn block_on<F: Future>(future: F) -> F::Output {
    let mut future = pin!(future);
    SEAT.with(|cell| {
        let (seat, waker) = cell.get_or_init(seat);
        let mut context = Context::from_waker(waker);
        loop {
            if let Poll::Ready(output) = future.as_mut().poll(&mut context) {
                return output;
            }
            while !seat.woken.swap(false, Ordering::AcqRel) {
                thread::park();
            }
        }
    })
}
