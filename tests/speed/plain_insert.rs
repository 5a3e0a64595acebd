//! The program insert in plain Rust over the other implementation, with buffers of 64 KiB: what the proved program is measured against.

#![allow(dead_code)] // parts of the other implementation are for the comparisons

#[path = "../other/mod.rs"]
mod other;

use other::insert::{self, Printed, NUMBERS, RECORD};
use std::io::{stderr, stdin, stdout, BufReader, Read, Result, Write};

const BUFFER: usize = 64 << 10;

fn main() -> Result<()> {
    let mut input = BufReader::with_capacity(0, stdin().lock());
    let mut output = stdout().lock();
    let mut printed = Printed { output: Vec::with_capacity(BUFFER), errors: Vec::new(), status: None };
    let mut settings = Vec::new();
    input.by_ref().take(NUMBERS as u64).read_to_end(&mut settings)?;
    if let Some(&a) = settings.get(NUMBERS - 1) {
        input.by_ref().take(a.into()).read_to_end(&mut settings)?;
    }
    if let Some(mut insertion) = insert::open(&settings, &mut printed) {
        let mut buffer = vec![0; BUFFER];
        let mut held = 0;
        loop {
            let got = input.read(&mut buffer[held..])?;
            if got == 0 {
                break;
            }
            let bytes = &buffer[..held + got];
            let mut records = bytes.chunks_exact(RECORD);
            for record in &mut records {
                if printed.output.len() > BUFFER - RECORD {
                    send(&mut output, &mut printed)?;
                }
                insertion.record(record, &mut printed);
            }
            let rest = records.remainder().len();
            let end = bytes.len();
            buffer.copy_within(end - rest..end, 0);
            held = rest;
        }
        if held > 0 {
            insertion.record(&buffer[..held], &mut printed);
        }
    }
    send(&mut output, &mut printed)?;
    output.flush()
}

fn send(output: &mut impl Write, printed: &mut Printed) -> Result<()> {
    output.write_all(&printed.output)?;
    stderr().write_all(&printed.errors)?;
    printed.output.clear();
    printed.errors.clear();
    Ok(())
}
