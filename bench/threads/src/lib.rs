//! Times channels between threads and tasks that really wait, the same cases for each library.
//!
//! Each library is a program of its own, as ours is, which `main.rs` runs as `PROGRAM CASE COUNT`. It does so many
//! operations of the case, and prints the case first, and last the nanoseconds of one of them.
pub mod cases;
pub mod executor;
pub mod library;
pub mod parking;
mod work;

use std::env;
use std::time::Instant;

use cases::Case;
use library::Library;

/// The main function of a library's program.
pub fn time<L: Library>() {
    let mut words = env::args().skip(1);
    let case = words
        .next()
        .and_then(|name| Case::named(&name))
        .expect("a case comes first");
    let count: u32 = words
        .next()
        .and_then(|count| count.parse().ok())
        .expect("a count comes next");
    assert!(
        count > 0 && count.is_multiple_of(8),
        "the count is a multiple of eight"
    );

    // Threads are started, and have ended, within the work.
    let start = Instant::now();
    let total = case.work.run::<L>(count);
    let elapsed = start.elapsed();

    assert_eq!(
        total,
        u64::from(count) * u64::from(count - 1) / 2,
        "each message comes out once"
    );
    println!(
        "{} {:.1}",
        case.name,
        elapsed.as_nanos() as f64 / f64::from(count)
    );
}
