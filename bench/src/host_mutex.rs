//! A lock of the host for upstream: one mutex a primitive, as the shared forms have.
use std::sync::{Mutex, PoisonError};

use embassy_sync::blocking_mutex::raw::RawMutex;

pub struct HostMutex(Mutex<()>);

// One closure runs at a time, since the mutex is held while it does.
unsafe impl RawMutex for HostMutex {
    #[allow(clippy::declare_interior_mutable_const)]
    const INIT: Self = HostMutex(Mutex::new(()));

    fn lock<R>(&self, f: impl FnOnce() -> R) -> R {
        let _held = self.0.lock().unwrap_or_else(PoisonError::into_inner);
        f()
    }
}
