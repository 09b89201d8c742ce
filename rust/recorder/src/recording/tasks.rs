//! The tasks of a run: wakers that note who was woken, and wake.
use std::mem;
use std::sync::{Arc, Mutex};
use std::task::{Wake, Waker};

use super::turn::lock;

/// The tasks that were woken, in order, each as often as it was woken. `None` where none is noted any more.
type Woken = Arc<Mutex<Option<Vec<u64>>>>;

/// A task's own waker, with the number of the task.
struct Note {
    number: u64,
    own: Waker,
    woken: Woken,
}

impl Wake for Note {
    fn wake(self: Arc<Self>) {
        self.wake_by_ref();
    }

    fn wake_by_ref(self: &Arc<Self>) {
        if let Some(woken) = &mut *lock(&self.woken) {
            woken.push(self.number);
        }
        self.own.wake_by_ref();
    }
}

/// The tasks in the order of their first polls. Two wakers are of one task where one would wake the other's.
pub struct Tasks {
    known: Vec<(Waker, Waker)>,
    woken: Woken,
}

impl Tasks {
    /// Returns no tasks.
    pub fn new() -> Self {
        Tasks { known: Vec::new(), woken: Arc::new(Mutex::new(Some(Vec::new()))) }
    }

    /// Returns the number of the task, and the waker that upstream gets in place of its own.
    pub fn find(&mut self, own: &Waker) -> (u64, Waker) {
        let place = self.known.iter().position(|(known, _)| known.will_wake(own));
        let place = place.unwrap_or_else(|| self.add(own));
        (place as u64, self.known[place].1.clone())
    }

    fn add(&mut self, own: &Waker) -> usize {
        let note = Note { number: self.known.len() as u64, own: own.clone(), woken: Arc::clone(&self.woken) };
        self.known.push((own.clone(), Waker::from(Arc::new(note))));
        self.known.len() - 1
    }

    /// Returns who was woken since this was last called.
    pub fn take_woken(&mut self) -> Vec<u64> {
        lock(&self.woken).as_mut().map(mem::take).unwrap_or_default()
    }

    /// Notes nobody who is woken from now on: nobody asks for it.
    pub fn stop_noting(&mut self) {
        *lock(&self.woken) = None;
    }

    /// Lets go of the tasks' own wakers. No waker is known after it.
    pub fn forget(&mut self) -> Vec<(Waker, Waker)> {
        mem::take(&mut self.known)
    }
}
