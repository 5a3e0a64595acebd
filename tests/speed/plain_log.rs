//! The log program in plain Rust over the other implementation, with buffers of 64 KiB: what the proved program is measured against.

#![allow(dead_code)] // parts of the other implementation are for the comparisons

#[path = "../other/mod.rs"]
mod other;

use other::log::{self, RECORD, SETTINGS};
use std::io::{stdin, stdout, BufReader, Read, Result, Write};

const BUFFER: usize = 64 << 10;

fn main() -> Result<()> {
    let mut input = BufReader::with_capacity(0, stdin().lock());
    let mut output = stdout().lock();
    let mut out = Vec::with_capacity(BUFFER);
    let mut head = Vec::new();
    input.by_ref().take(SETTINGS as u64).read_to_end(&mut head)?;
    if let Some(mut log) = log::open(&head, &mut out) {
        let mut buffer = vec![0; BUFFER];
        let mut held = 0;
        loop {
            let got = input.read(&mut buffer[held..])?;
            if got == 0 {
                break;
            }
            let bytes = &buffer[..held + got];
            let mut records = bytes.chunks_exact(RECORD);
            for record in &mut records {
                if out.len() > BUFFER - 128 {
                    output.write_all(&out)?;
                    out.clear();
                }
                log.record(record, &mut out);
            }
            let rest = records.remainder().len();
            let end = bytes.len();
            buffer.copy_within(end - rest..end, 0);
            held = rest;
        }
        if held > 0 {
            log.record(&buffer[..held], &mut out);
        }
        log.end(&mut out);
    }
    output.write_all(&out)?;
    output.flush()
}
