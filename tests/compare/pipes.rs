//! A program in pipes: its input is delivered in pieces of many sizes, and what it prints is read beside.

use crate::inputs::random::Random;
use std::io::{Read, Write};
use std::os::fd::{AsRawFd, RawFd};
use std::process::{ChildStdin, Command, Output, Stdio};

/// How an input reaches the program.
#[derive(Clone, Copy, Debug)]
pub enum Delivery {
    /// So many bytes at a time, each piece read before the next is written.
    Pieces(usize),
    /// Pieces of random sizes up to this one.
    Random(usize),
}

/// A way for an input of this length; a byte at a time is for short ones.
pub fn delivery(r: &mut Random, length: usize) -> Delivery {
    match r.below(6) {
        0 if length < 8_000 => Delivery::Pieces(1),
        0 | 1 => Delivery::Pieces(191),
        2 => Delivery::Pieces(192),
        3 => Delivery::Random(5_000),
        _ => Delivery::Pieces(1 << 20),
    }
}

extern "C" {
    fn ioctl(fd: i32, request: u64, argument: *mut i32) -> i32;
}

/// How many bytes of a pipe are not read yet.
fn unread(pipe: RawFd) -> i32 {
    const FIONREAD: u64 = 0x541B;
    let mut bytes = 0;
    // The call writes one int, and the descriptor is open.
    unsafe { ioctl(pipe, FIONREAD, &mut bytes) };
    bytes
}

fn deliver(mut pipe: ChildStdin, input: &[u8], delivery: Delivery, r: &mut Random) {
    let mut rest = input;
    while !rest.is_empty() {
        let size = match delivery {
            Delivery::Pieces(size) => size,
            Delivery::Random(most) => 1 + r.below(most),
        };
        let (piece, after) = rest.split_at(size.min(rest.len()));
        // A program that refuses the settings stops reading.
        if pipe.write_all(piece).is_err() {
            return;
        }
        while !after.is_empty() && unread(pipe.as_raw_fd()) > 0 {
            std::thread::yield_now();
            if pipe_closed(&mut pipe) {
                return;
            }
        }
        rest = after;
    }
}

/// Nobody reads the pipe any more.
fn pipe_closed(pipe: &mut ChildStdin) -> bool {
    extern "C" {
        fn poll(fds: *mut PollFd, count: u64, timeout: i32) -> i32;
    }
    #[repr(C)]
    struct PollFd {
        fd: i32,
        events: i16,
        found: i16,
    }
    const POLLERR: i16 = 8;
    let mut asked = PollFd { fd: pipe.as_raw_fd(), events: 0, found: 0 };
    // One entry is lent, and the count says so.
    unsafe { poll(&mut asked, 1, 0) };
    asked.found & POLLERR != 0
}

/// What the program prints on standard output and on standard error, and how it ends.
pub fn printed(program: &str, input: &[u8], delivery: Delivery, r: &mut Random) -> Output {
    let mut child = Command::new(program).stdin(Stdio::piped()).stdout(Stdio::piped()).stderr(Stdio::piped()).spawn().expect("the program starts");
    let (pipe, mut output, mut errors) = (child.stdin.take().unwrap(), child.stdout.take().unwrap(), child.stderr.take().unwrap());
    let mut random = Random(r.next() | 1);
    let [mut stdout, mut stderr] = [Vec::new(), Vec::new()];
    std::thread::scope(|scope| {
        scope.spawn(|| deliver(pipe, input, delivery, &mut random));
        scope.spawn(|| errors.read_to_end(&mut stderr).expect("the program's errors are read"));
        output.read_to_end(&mut stdout).expect("the program's output is read");
    });
    Output { status: child.wait().expect("the program ends"), stdout, stderr }
}
