//! Three programs, each over the recorder and over upstream: what happens in both is the same.
#![cfg(feature = "record")]
use std::cell::RefCell;

use critical_section as _;

mod executor;
mod keep;

type Log = RefCell<Vec<String>>;

fn say(log: &Log, text: impl Into<String>) {
    log.borrow_mut().push(text.into());
}

macro_rules! programs {
    ($name:ident, $krate:ident, $finish:expr) => {
        mod $name {
            use super::{Log, executor, say};
            use embassy_sync::blocking_mutex::raw::NoopRawMutex;
            use executor::{Executor, pause, within};
            use $krate::pubsub::{PubSubChannel, WaitResult};
            use $krate::semaphore::{FairSemaphore, Semaphore};
            use $krate::watch::Watch;

            /// Subscribers come and go (40 in all), lag, and leave while they lag.
            pub fn pubsub() -> Vec<String> {
                let log = Log::default();
                let channel: PubSubChannel<NoopRawMutex, u16, 3, 2, 2> = PubSubChannel::new();
                let mut executor = Executor::default();
                executor.spawn(async {
                    let publisher = channel.publisher().unwrap();
                    for number in 0..20 {
                        pause().await;
                        let sent = within(4, publisher.publish(number)).await;
                        say(&log, format!("p publish {number} {sent:?}"));
                        if number % 3 == 2 {
                            publisher.publish_immediate(100 + number);
                            say(&log, format!("p immediate, len {}", channel.len()));
                        }
                    }
                });
                executor.spawn(async {
                    // (a slow one)
                    for round in 0..6 {
                        let Ok(mut slow) = channel.subscriber() else {
                            say(&log, format!("slow {round} refused"));
                            pause().await;
                            continue;
                        };
                        for _ in 0..round {
                            pause().await;
                        }
                        say(&log, format!("slow {round} available {}", slow.available()));
                        let told = within(2, slow.next_message()).await;
                        say(&log, format!("slow {round} {told:?}"));
                    }
                });
                executor.spawn(async {
                    for round in 0..24 {
                        let Ok(mut quick) = channel.dyn_subscriber() else {
                            say(&log, format!("quick {round} refused"));
                            pause().await;
                            continue;
                        };
                        match within(3, quick.next_message()).await {
                            Some(WaitResult::Lagged(count)) => say(&log, format!("quick {round} lagged {count}")),
                            Some(WaitResult::Message(message)) => say(&log, format!("quick {round} message {message}")),
                            None => say(&log, format!("quick {round} timed out, {:?}", quick.try_next_message_pure())),
                        }
                        if round % 5 == 0 {
                            let more: Vec<_> = (0..3).map(|_| channel.subscriber()).collect();
                            say(
                                &log,
                                format!(
                                    "quick {round} more {:?}",
                                    more.iter().map(|it| it.is_ok()).collect::<Vec<_>>()
                                ),
                            );
                        }
                    }
                });
                let left = executor.run();
                say(&log, format!("{left} tasks wait"));
                drop(executor);
                #[allow(clippy::redundant_closure_call)]
                ($finish)("alike_pubsub", &channel);
                log.into_inner()
            }

            /// Receivers are dropped while they wait.
            pub fn watch() -> Vec<String> {
                let log = Log::default();
                let watch: Watch<NoopRawMutex, u16, 3> = Watch::new();
                let mut executor = Executor::default();
                for task in 0..3 {
                    let (log, watch) = (&log, &watch);
                    executor.spawn(async move {
                        for round in 0..6 {
                            let Some(mut receiver) = watch.receiver() else {
                                say(log, format!("{task} {round} refused"));
                                pause().await;
                                continue;
                            };
                            let found = match (task + round) % 4 {
                                0 => within(2, receiver.changed()).await,
                                1 => within(2, std::pin::pin!(receiver.changed_and(|value| value % 2 == 0))).await,
                                2 => within(3, receiver.get()).await,
                                _ => within(2, std::pin::pin!(receiver.get_and(|value| *value > 6))).await,
                            };
                            say(log, format!("{task} {round} {found:?} {:?}", receiver.try_changed()));
                        }
                    });
                }
                executor.spawn(async {
                    let sender = watch.sender();
                    for value in 1..12 {
                        match value % 4 {
                            0 => sender.clear(),
                            1 => sender.send_modify(|it| *it = Some(it.unwrap_or(0) + value)),
                            2 => sender.send_if_modified(|it| {
                                *it = Some(value);
                                true
                            }),
                            _ => sender.send(value),
                        }
                        say(&log, format!("s {value} {:?}", sender.try_get()));
                        pause().await;
                    }
                });
                let left = executor.run();
                say(&log, format!("{left} tasks wait"));
                drop(executor);
                #[allow(clippy::redundant_closure_call)]
                ($finish)("alike_watch", &watch);
                log.into_inner()
            }

            /// The front request of a fair semaphore gives up, which wakes nobody: the run is a free one.
            pub fn fair() -> Vec<String> {
                let log = Log::default();
                let semaphore: FairSemaphore<NoopRawMutex, 2> = FairSemaphore::new(1);
                let mut executor = Executor::default();
                executor.spawn(async {
                    let got = within(3, semaphore.acquire(2)).await;
                    say(&log, format!("a {:?}", got.map(|it| it.map(|it| it.permits()))));
                    let got = semaphore.acquire(1).await;
                    say(&log, format!("a {:?}", got.map(|it| it.disarm())));
                });
                executor.spawn(async {
                    let got = semaphore.acquire(1).await;
                    say(&log, format!("b {:?}", got.as_ref().map(|it| it.permits())));
                    pause().await;
                    drop(got);
                    say(&log, "b gave back");
                });
                let left = executor.run();
                say(&log, format!("{left} tasks wait"));
                semaphore.release(1);
                let left = executor.run();
                say(&log, format!("{left} tasks wait"));
                drop(executor);
                #[allow(clippy::redundant_closure_call)]
                ($finish)("free_alike_fair", &semaphore);
                log.into_inner()
            }
        }
    };
}

fn finish(name: &str, primitive: &dyn recorder::Recorded) {
    let run = primitive.run();
    assert_eq!(run.stop, None);
    keep::keep(name, &run);
}

programs!(recorded, recorder, |name: &str, primitive: &dyn recorder::Recorded| super::finish(name, primitive));
programs!(plain, embassy_sync, |_: &str, _| ());

#[test]
fn pubsub_is_the_same() {
    let log = recorded::pubsub();
    assert_eq!(log, plain::pubsub());
}

#[test]
fn watch_is_the_same() {
    let log = recorded::watch();
    assert_eq!(log, plain::watch());
}

#[test]
fn fair_is_the_same() {
    let log = recorded::fair();
    assert_eq!(log, plain::fair());
}
