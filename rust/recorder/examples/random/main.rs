//! Plays random programs over the primitives, and writes their runs:
//!
//!     cargo run --features record --example random -- FOLDER COUNT SEED
//!
//! Each program is a file in the folder: `plain_NUMBER.run`, where the program keeps off all that upstream does
//! otherwise, or `free_NUMBER.run`.
use std::error::Error;
use std::path::PathBuf;
use std::{env, fs};

use critical_section as _;

mod dice;
#[path = "../../tests/executor/mod.rs"]
mod executor;
mod programs;

use dice::Dice;
use programs::PROGRAMS;

fn main() -> Result<(), Box<dyn Error>> {
    let arguments: Vec<String> = env::args().skip(1).collect();
    let [folder, count, seed] = &arguments[..] else {
        return Err("usage: random FOLDER COUNT SEED".into());
    };
    let (folder, count, seed): (_, usize, u64) = (PathBuf::from(folder), count.parse()?, seed.parse()?);
    fs::create_dir_all(&folder)?;
    let mut stopped = 0;
    for number in 0..count {
        let is_plain = number / PROGRAMS.len() % 2 == 0;
        let mut dice = Dice::new(seed.wrapping_add(number as u64).wrapping_mul(0x2545_f491_4f6c_dd1d), is_plain);
        let run = PROGRAMS[number % PROGRAMS.len()](&mut dice);
        let name = format!("{}_{number:05}.run", if is_plain { "plain" } else { "free" });
        fs::write(folder.join(name), &run.text)?;
        stopped += usize::from(run.stop.is_some());
        // (the primitive is gone)
        recorder::take();
    }
    println!("{count} programs, of which {stopped} did what no run can have");
    Ok(())
}
