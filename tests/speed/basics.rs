//! The check value, notices, the settings of a site, and whether n is admitted: one table of nanoseconds a call and ratios. The times of a mark are
//! the slave's: they are measured with its packets.

use super::measure::{candidate, full_field, register_by_nibbles, table, INPUTS};
use crate::bindings::answers::Reading;
use crate::bindings::{probe, vikombare};
use crate::inputs::notices;
use crate::inputs::random::Random;
use crate::other::basics::{self, Notice, Settings};
use crate::other::slave;
use std::cell::RefCell;
use std::hint::black_box;

extern "C" {
    fn c_byte_table(s: *const u8, length: usize) -> u32;
    fn c_nibbles(s: *const u8, length: usize) -> u32;
    fn c_nibbles_in_order(s: *const u8, length: usize) -> u32;
}

// The plain candidates, each behind a call, as the proved code is.

#[inline(never)]
fn plain_read(packet: &[u8]) -> Reading {
    basics::read(packet).into()
}

#[inline(never)]
fn nibbles_read(packet: &[u8]) -> Reading {
    basics::read_with(register_by_nibbles, packet, basics::FULL).into()
}

#[inline(never)]
fn plain_write(out: &mut [u8], notice: &Notice, field: &[u8]) -> u8 {
    basics::write(out, notice, field).err().unwrap_or(0)
}

#[inline(never)]
fn nibbles_write(out: &mut [u8], notice: &Notice, field: &[u8]) -> u8 {
    basics::write_with(register_by_nibbles, out, notice, field).err().unwrap_or(0)
}

#[inline(never)]
fn plain_settings(field: &[u8], site: u16, before: Settings) -> probe::Settings {
    basics::settings(field, site, before).into()
}

#[inline(never)]
fn plain_admits(profile: u8, n: u16) -> bool {
    slave::admits(profile, n)
}

pub fn measure() {
    let r = &mut Random(1);
    let bytes: Vec<Vec<u8>> = (0..INPUTS).map(|_| r.bytes(188)).collect();
    let written: Vec<Notice> = (0..INPUTS).map(|_| notices::notice(r)).collect();
    let fields: Vec<Vec<u8>> = (0..INPUTS).map(|_| full_field(r)).collect();

    // What is measured gives the same results.
    for s in &bytes {
        for length in 0..=188 {
            let s = &s[..length];
            let check = basics::register_by_bits(s);
            let in_c = [c_byte_table, c_nibbles, c_nibbles_in_order].map(|register| unsafe { register(s.as_ptr(), length) });
            assert!(in_c == [check; 3] && [register_by_nibbles(s), basics::register(s), probe::register(s)] == [check; 3]);
        }
    }

    println!("| Call | Proved | Plain | Ratio | Against |\n|---|---|---|---|---|");
    table(
        "check value, 188 bytes",
        vec![
            candidate("proved", |k| probe::register(&bytes[k])),
            candidate("C, the same nibble tables, eight bytes a turn", |k| unsafe { c_nibbles(bytes[k].as_ptr(), 188) }),
            candidate("C, the same, terms in the order written (-fno-tree-reassoc)", |k| unsafe { c_nibbles_in_order(bytes[k].as_ptr(), 188) }),
            candidate("Rust, the same", |k| register_by_nibbles(&bytes[k])),
            candidate("C, byte table of 256", |k| unsafe { c_byte_table(bytes[k].as_ptr(), 188) }),
        ],
    );
    for a in [0, 163] {
        let packets: Vec<Vec<u8>> = (0..INPUTS).map(|k| notices::packet_of(&written[k], &fields[k][..a])).collect();
        for packet in &packets {
            let reading = Reading::from(vikombare::read(packet));
            assert!(reading.number == 0 && reading == plain_read(packet) && reading == nibbles_read(packet));
        }
        table(
            &format!("read, a = {a}"),
            vec![
                candidate("proved", |k| vikombare::read(&packets[k])),
                candidate("Rust, byte table", |k| plain_read(&packets[k])),
                candidate("Rust, the same nibble tables", |k| nibbles_read(&packets[k])),
            ],
        );
    }
    for a in [0, 163] {
        let field = |k: usize| &fields[k][..a];
        let out = || RefCell::new([0; 188]);
        let (ours, plain, nibbles) = (out(), out(), out());
        for k in 0..INPUTS {
            let (ours, plain, nibbles) = (&mut *ours.borrow_mut(), &mut *plain.borrow_mut(), &mut *nibbles.borrow_mut());
            let numbers = [
                vikombare::write(ours, &written[k], field(k)),
                plain_write(plain, &written[k], field(k)),
                nibbles_write(nibbles, &written[k], field(k)),
            ];
            assert!(numbers == [0; 3] && ours == plain && ours == nibbles);
        }
        table(
            &format!("write, a = {a}"),
            vec![
                candidate("proved", |k| vikombare::write(black_box(&mut *ours.borrow_mut()), &written[k], field(k))),
                candidate("Rust, byte table", |k| plain_write(black_box(&mut *plain.borrow_mut()), &written[k], field(k))),
                candidate("Rust, the same nibble tables", |k| nibbles_write(black_box(&mut *nibbles.borrow_mut()), &written[k], field(k))),
            ],
        );
    }
    let before = Settings::default();
    table(
        "settings of a site, 163 bytes",
        vec![candidate("proved", |k| probe::settings(&fields[k], 7, before)), candidate("Rust", |k| plain_settings(&fields[k], 7, before))],
    );
    // A slave has one n for good, so each has a row of its own.
    for n in [2016, 6048, 10_584] {
        assert!(probe::admits(0, n) && plain_admits(0, n));
        table(
            &format!("n = {n} admitted"),
            vec![candidate("proved", |_| probe::admits(black_box(0), black_box(n))), candidate("Rust", |_| plain_admits(black_box(0), black_box(n)))],
        );
    }
}
