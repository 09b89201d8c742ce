//! The tasks of a run: wakers that note who was woken.

use std::collections::BTreeMap;
use std::sync::{Arc, Mutex, MutexGuard, PoisonError};
use std::task::{Wake, Waker};

/// The tasks that were woken, in order, each as often as it was woken.
type Woken = Arc<Mutex<Vec<u64>>>;

/// What the wakers of one number share.
struct Task {
    number: u64,
    woken: Woken,
}

impl Wake for Task {
    fn wake(self: Arc<Self>) {
        self.wake_by_ref();
    }

    fn wake_by_ref(self: &Arc<Self>) {
        lock(&self.woken).push(self.number);
    }
}

/// One waker for each number, so that upstream sees by `will_wake` who is the same task.
#[derive(Default)]
pub struct Tasks {
    wakers: BTreeMap<u64, Waker>,
    woken: Woken,
}

impl Tasks {
    /// The waker of task `number`.
    pub fn waker(&mut self, number: u64) -> Waker {
        let woken = &self.woken;
        let waker = self.wakers.entry(number).or_insert_with(|| {
            let woken = Arc::clone(woken);
            Waker::from(Arc::new(Task { number, woken }))
        });
        waker.clone()
    }

    /// Who was woken since this was last called, in order, each as often as it was woken.
    pub fn take_woken(&mut self) -> Vec<u64> {
        std::mem::take(&mut *lock(&self.woken))
    }
}

/// The list, also where a thread panicked while it had it: a push leaves it whole.
fn lock(woken: &Woken) -> MutexGuard<'_, Vec<u64>> {
    woken.lock().unwrap_or_else(PoisonError::into_inner)
}

#[cfg(test)]
mod tests {
    use super::Tasks;

    #[test]
    fn a_waker_wakes_its_own_task_alone() {
        let mut tasks = Tasks::default();
        let numbers = [0, 1, 2, 3, u64::MAX];
        let wakers = numbers.map(|number| tasks.waker(number));
        for (place, waker) in wakers.iter().enumerate() {
            for (other, number) in numbers.into_iter().enumerate() {
                let again = tasks.waker(number).clone();
                assert_eq!(waker.will_wake(&again), place == other);
            }
        }
    }

    #[test]
    fn each_wake_is_noted_once_and_in_order() {
        let mut tasks = Tasks::default();
        let (one, two) = (tasks.waker(1), tasks.waker(2));
        let clone = one.clone();
        two.wake_by_ref();
        clone.wake();
        two.wake();
        assert_eq!(tasks.take_woken(), [2, 1, 2]);
        drop(one);
        assert_eq!(tasks.take_woken(), []);
    }
}
