//! A proved program and a plain one over one file, in turns: their times and memory. Each time is the best of several runs, from the file in the page
//! cache into nothing; the memory is the most that any run held.

use std::fs::File;
use std::io::Result;
use std::process::{Command, Stdio};
use std::time::Instant;

const ROUNDS: usize = 7;

/// What wait4 tells of a process that has ended: times (4 words), then the most memory that it held, in KiB, then 13 words more.
type Usage = [i64; 18];

extern "C" {
    fn wait4(pid: i32, status: *mut i32, options: i32, usage: *mut Usage) -> i32;
}

/// What one run took: seconds, seconds of the processor, KiB.
#[derive(Clone, Copy)]
struct Took {
    wall: f64,
    cpu: f64,
    memory: i64,
}

fn run(program: &str, file: &str) -> Result<Took> {
    let start = Instant::now();
    let child = Command::new(program).stdin(File::open(file)?).stdout(Stdio::null()).spawn()?;
    let (mut status, mut usage) = (0, [0; 18]);
    // The child is ours and not waited for elsewhere; both places are lent for the call.
    let ended = unsafe { wait4(child.id() as i32, &mut status, 0, &mut usage) };
    assert!(ended == child.id() as i32 && status == 0, "{program} ends well");
    let cpu = (usage[0] + usage[2]) as f64 + (usage[1] + usage[3]) as f64 / 1e6;
    Ok(Took { wall: start.elapsed().as_secs_f64(), cpu, memory: usage[4] })
}

/// Prints the table.
pub fn measure(ours: &str, plain: &str, file: &str) -> Result<()> {
    let bytes = std::fs::metadata(file)?.len();
    let best = |a: Took, b: Took| Took { wall: a.wall.min(b.wall), cpu: a.cpu.min(b.cpu), memory: a.memory.max(b.memory) };
    let (mut first, mut second) = (run(ours, file)?, run(plain, file)?);
    for _ in 0..ROUNDS {
        first = best(first, run(ours, file)?);
        second = best(second, run(plain, file)?);
    }
    println!("| {:.0} MB | | seconds | MB/s | seconds of the processor | memory, KiB |", bytes as f64 / 1e6);
    println!("|---|---|---|---|---|---|");
    for (name, took) in [("proved", first), ("plain Rust", second)] {
        println!("| | {name} | {:.3} | {:.0} | {:.3} | {} |", took.wall, bytes as f64 / 1e6 / took.wall, took.cpu, took.memory);
    }
    println!("| | throughput, proved / plain | {:.2} | | {:.2} | |", second.wall / first.wall, second.cpu / first.cpu);
    Ok(())
}
