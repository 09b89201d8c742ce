//! The example of `README.md`.
#![cfg(feature = "record")]
use critical_section as _;
use embassy_sync::blocking_mutex::raw::NoopRawMutex;
use recorder::Recorded;
use recorder::channel::Channel;

mod executor;
use executor::Task;
mod keep;

#[test]
fn a_channel_is_cleared() {
    let (channel, sender) = (Channel::<NoopRawMutex, u8, 1>::new(), Task::new());
    assert!(channel.try_send(1).is_ok());
    let mut send = channel.send(2);
    assert!(sender.poll(&mut send).is_pending());
    channel.clear();
    assert!(sender.poll(&mut send).is_ready());
    recorder::save("target/runs").unwrap();

    let text = "\
channel 1
try-send 1 => Ok | -
start 0 send 2 => Ok | -
poll 0 0 => Pending | -
clear => Ok | -
poll 0 0 => Ready | -
";
    assert_eq!(channel.run().text, text);
    keep::keep("documented", &channel.run());
}
