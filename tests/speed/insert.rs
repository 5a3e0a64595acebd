//! An input for the program insert.

use crate::inputs::random::Random;
use std::fs::File;
use std::io::{BufWriter, Result, Write};

/// Makes an input: mega-frames of 2016 packets, a quarter of them null, with another adapter's notice in each.
pub fn make(file: &str, bytes: u64) -> Result<()> {
    let mut r = Random(1);
    let mut block = Vec::new();
    for frame in 0..32_u32 {
        let sts = 312_500 * frame % 10_000_000;
        for label in 0..2016 {
            block.extend(sts.to_be_bytes());
            if label == 1_000 {
                block.extend([0x47, 0x60, 0x15, 0x10]);
                block.extend(r.bytes(184));
            } else if r.one_in(4) {
                block.extend([0x47, 0x1F, 0xFF, 0x10]);
                block.extend([0xFF; 184]);
            } else {
                block.extend([0x47, 0x01, r.next() as u8, 0x10]);
                block.extend(r.bytes(184));
            }
        }
    }
    let mut out = BufWriter::new(File::create(file)?);
    // n 2016, MD 700,000, and an offset of −51 for site 7
    out.write_all(&[0x07, 0xE0, 0, 0, 0, 0, 0x0A, 0xAE, 0x60, 0x81, 0x16, 0, 0, 7, 0, 7, 4, 0, 4, 0xFF, 0xCD])?;
    let mut made = 21;
    while made < bytes {
        out.write_all(&block)?;
        made += block.len() as u64;
    }
    out.flush()
}
