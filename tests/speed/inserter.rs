//! An inserter's packets in place, as a head-end's firmware links them, against the other implementation: one table of nanoseconds a call and ratios. Each
//! call has the inserter judged anew, its addressing field too.

use super::measure::{candidate, full_field, register_by_nibbles, table, INPUTS};
use crate::bindings::inserter::{CInserter, CInserterProgress};
use crate::bindings::vikombare;
use crate::inputs::notices;
use crate::inputs::random::Random;
use crate::other::basics::{register, FULL};
use crate::other::inserter::{Inserter, Settings, ZEROS};
use std::hint::black_box;

// The plain candidates, each behind a call, as the proved code is.

#[inline(never)]
fn plain(inserter: &mut Inserter, packet: &mut [u8], sts: u32) -> u8 {
    inserter.insert_with(register, packet, sts)
}

#[inline(never)]
fn nibbles(inserter: &mut Inserter, packet: &mut [u8], sts: u32) -> u8 {
    inserter.insert_with(register_by_nibbles, packet, sts)
}

/// How a null packet, another adapter's notice and any other packet begin.
const NULL: [u8; 4] = [0x47, 0x1F, 0xFF, 0x10];
const FOREIGN: [u8; 4] = [0x47, 0x60, 0x15, 0x10];
const PASSING: [u8; 4] = [0x47, 0x01, 0x00, 0x10];

/// The STS of every packet. It is hidden from the compiler, so that no call is compiled for this one alone.
fn sts() -> u32 {
    black_box(9_500_000)
}

/// A row for inserters with a field of `a` bytes, in a mega-frame that has its notice or not, and packets that begin with these bytes. Before each call the
/// label and the packet's first bytes are put back, which is all that the next call looks at.
fn measure_packets(what: &str, fields: &[Vec<u8>], a: usize, placed: u8, head: [u8; 4]) {
    let inserter = |k: usize| {
        let mut inserter = ZEROS;
        let number = inserter.start(Settings { n: 2016, periodic: 1, reserved: 0, md: 700_000, tps: 0x8116_0000 }, &fields[k][..a]);
        assert!(number == 0);
        Inserter { label: 100 + 7 * k as u16, placed, continuity: (k % 16) as u8, ..inserter }
    };
    let inserters: Vec<Inserter> = (0..INPUTS).map(inserter).collect();
    let mut packet = notices::null();
    packet[..4].copy_from_slice(&head);
    let packets = vec![packet; INPUTS];

    // What is measured gives the same results.
    for (inserter, packet) in inserters.iter().zip(&packets) {
        let (mut lent, mut ours) = (CInserter::from(*inserter), packet.clone());
        let number = vikombare::insert(&mut lent, &mut ours, sts());
        for call in [plain, nibbles] {
            let (mut moved, mut sent) = (*inserter, packet.clone());
            assert!(call(&mut moved, &mut sent, sts()) == number && moved == lent.into() && sent == ours && number == 0, "{inserter:?} {lent:?}");
        }
    }

    let proved = {
        let mut lent: Vec<CInserter> = inserters.iter().map(|inserter| (*inserter).into()).collect();
        let mut packets = packets.clone();
        let progress: Vec<CInserterProgress> = lent.iter().map(|inserter| inserter.progress).collect();
        move |k: usize| {
            lent[k].progress = progress[k];
            packets[k][..4].copy_from_slice(&head);
            vikombare::insert(&mut lent[k], &mut packets[k], sts())
        }
    };
    // written out for each call: behind a pointer to it the call would cost more
    macro_rules! plain {
        ($call:path) => {{
            let (mut lent, mut packets) = (inserters.clone(), packets.clone());
            let progress: Vec<(u16, u8, u8)> = lent.iter().map(|inserter| (inserter.label, inserter.placed, inserter.continuity)).collect();
            move |k: usize| {
                (lent[k].label, lent[k].placed, lent[k].continuity) = progress[k];
                packets[k][..4].copy_from_slice(&head);
                $call(&mut lent[k], &mut packets[k], sts())
            }
        }};
    }
    // the check value is reckoned for a notice alone
    let candidates = if placed == 0 && head == NULL {
        vec![candidate("proved", proved), candidate("Rust, byte table", plain!(plain)), candidate("Rust, the same nibble tables", plain!(nibbles))]
    } else {
        vec![candidate("proved", proved), candidate("Rust", plain!(plain))]
    };
    table(what, candidates);
}

/// Prints the table.
pub fn measure() {
    let r = &mut Random(1);
    let fields: Vec<Vec<u8>> = (0..INPUTS).map(|_| full_field(r)).collect();
    println!("\n| Call | Proved | Plain | Ratio | Against |\n|---|---|---|---|---|");
    for a in [0, FULL] {
        measure_packets(&format!("insert, packet that passes, a = {a}"), &fields, a, 0, PASSING);
    }
    measure_packets("insert, null packet behind the notice, a = 0", &fields, 0, 1, NULL);
    measure_packets("insert, PID 0x15 behind the notice, a = 0", &fields, 0, 1, FOREIGN);
    for a in [0, FULL] {
        measure_packets(&format!("insert, null packet to notice, a = {a}"), &fields, a, 0, NULL);
    }
}
