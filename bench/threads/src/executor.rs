//! A small executor, for a library that has none of its own: threads that share one queue of woken tasks.
use std::collections::VecDeque;
use std::sync::atomic::{AtomicBool, Ordering};
use std::sync::{Arc, Condvar, Mutex, MutexGuard};
use std::task::{Context, Poll, Wake, Waker};
use std::thread;

use crate::library::Task;

/// What the threads share.
#[derive(Default)]
struct Queue {
    state: Mutex<State>,
    changed: Condvar,
}

#[derive(Default)]
struct State {
    woken: VecDeque<Arc<Spawned>>,
    /// How many threads wait for a task.
    asleep: usize,
    /// How many tasks have not ended.
    running: usize,
    /// The sum of what the others ended with.
    total: u64,
}

struct Spawned {
    /// None once the task has ended.
    task: Mutex<Option<Task>>,
    /// Whether the task is in the queue.
    queued: AtomicBool,
    queue: Arc<Queue>,
}

impl Queue {
    fn lock(&self) -> MutexGuard<'_, State> {
        self.state.lock().expect("no thread has panicked")
    }

    fn push(&self, spawned: Arc<Spawned>) {
        let mut state = self.lock();
        state.woken.push_back(spawned);
        let sleeps = state.asleep > 0;
        drop(state);
        // (a notification that no thread waits for is a system call all the same)
        if sleeps {
            self.changed.notify_one();
        }
    }

    /// Takes a woken task out, and sleeps while there is none; None once all have ended.
    fn pop(&self) -> Option<Arc<Spawned>> {
        let mut state = self.lock();
        while state.woken.is_empty() && state.running > 0 {
            state.asleep += 1;
            state = self.changed.wait(state).expect("no thread has panicked");
            state.asleep -= 1;
        }
        state.woken.pop_front()
    }

    fn end(&self, output: u64) {
        let mut state = self.lock();
        state.running -= 1;
        state.total += output;
        if state.running == 0 {
            self.changed.notify_all();
        }
    }

    fn work(&self) {
        while let Some(spawned) = self.pop() {
            spawned.poll();
        }
    }
}

impl Spawned {
    fn poll(self: Arc<Self>) {
        let mut task = self.task.lock().expect("no thread has panicked");
        // From here on, a wake queues the task again.
        self.queued.store(false, Ordering::SeqCst);
        let waker = Waker::from(self.clone());
        let Some(running) = task.as_mut() else { return };
        if let Poll::Ready(output) = running.as_mut().poll(&mut Context::from_waker(&waker)) {
            *task = None;
            self.queue.end(output);
        }
    }
}

impl Wake for Spawned {
    fn wake(self: Arc<Self>) {
        self.wake_by_ref();
    }

    fn wake_by_ref(self: &Arc<Self>) {
        if !self.queued.swap(true, Ordering::SeqCst) {
            self.queue.push(self.clone());
        }
    }
}

/// Runs the tasks on so many threads, and returns the sum of what they ended with.
pub fn run(threads: usize, tasks: Vec<Task>) -> u64 {
    let queue = Arc::new(Queue::default());
    queue.lock().running = tasks.len();
    for task in tasks {
        let (task, queued) = (Mutex::new(Some(task)), AtomicBool::new(true));
        queue.push(Arc::new(Spawned {
            task,
            queued,
            queue: queue.clone(),
        }));
    }
    thread::scope(|scope| {
        for _ in 0..threads {
            scope.spawn(|| queue.work());
        }
    });
    let total = queue.lock().total;
    total
}
