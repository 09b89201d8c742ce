//! Without the feature the modules are upstream's own.
#![cfg(not(feature = "record"))]
use critical_section as _;
use embassy_sync::blocking_mutex::raw::NoopRawMutex;

struct Event;

impl recorder::Named for Event {
    fn name(&self) -> recorder::Name {
        recorder::Name::number(0)
    }
}

#[derive(Debug)]
struct Reading;

recorder::named_by_debug!(Reading);

#[test]
fn the_types_are_upstreams() {
    let channel: embassy_sync::channel::Channel<NoopRawMutex, Event, 5> = recorder::channel::Channel::new();
    assert!(channel.try_send(Event).is_ok());
    let mutex: embassy_sync::mutex::Mutex<NoopRawMutex, Reading> = recorder::mutex::Mutex::new(Reading);
    assert!(mutex.try_lock().is_ok());
}
