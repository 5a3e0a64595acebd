//! A capture for the log program.

use crate::inputs::notices;
use crate::inputs::random::Random;
use crate::other::basics::Notice;
use std::fs::File;
use std::io::{BufWriter, Result, Write};

const CADENCE: u16 = 2016;

/// Makes a capture: mega-frames of 2016 packets with one notice each, told to arrive while its mark is still to come.
pub fn make(file: &str, bytes: u64) -> Result<()> {
    let mut r = Random(1);
    let mut block = Vec::new();
    for frame in 0..32u32 {
        let sts = 312_500 * frame % 10_000_000;
        for label in 0..CADENCE {
            let packet = if label == 1_000 {
                notices::packet_of(&Notice { pointer: CADENCE - 1 - label, sts, md: 700_000, ..notices::notice(&mut r) }, &[])
            } else if r.one_in(4) {
                [&[0x47, 0x1F, 0xFF, 0x10][..], &[0xFF; 184]].concat()
            } else {
                [&[0x47, 0x01, r.next() as u8, 0x10][..], &r.bytes(184)].concat()
            };
            let tick = (sts + 9_700_000 + u32::from(label)) % 10_000_000;
            block.extend(tick.to_be_bytes());
            block.extend(packet);
        }
    }
    let mut out = BufWriter::new(File::create(file)?);
    out.write_all(&[0, 0x07, 0xE0, 0, 7, 0, 0, 0, 0])?;
    let mut made = 9;
    while made < bytes {
        out.write_all(&block)?;
        made += block.len() as u64;
    }
    out.flush()
}
