//! Two primitives that are made in a file whose name has a dot.
use embassy_sync::blocking_mutex::raw::NoopRawMutex;
use recorder::signal::Signal;

/// Returns a signal of each of two lines.
pub fn signals() -> [Signal<NoopRawMutex, u8>; 2] {
    let first = Signal::new();
    let second = Signal::new();
    [first, second]
}
