//! Notices, their addressing fields and packets: sound ones, wrong ones and damaged ones.

use super::calls::Limit;
use super::random::Random;
use crate::other::basics::{self, Notice};

// ---- Notices and their addressing fields

/// Times that an STS, an MD, a TAD or an arrival is tried with, within the second and without.
pub fn edges(second: u32) -> [u32; 14] {
    [0, 1, 50, 32_767, 32_768, second / 2, second - 32_768, second - 1, second, second + 1, 0xFF_FFFF, 2 * second, 1 << 31, u32::MAX]
}

/// A notice that the writer accepts.
pub fn notice(r: &mut Random) -> Notice {
    let second = basics::DVB_SECOND as usize;
    let mut time = || if r.one_in(4) { r.pick(&edges(basics::DVB_SECOND)[..8]) } else { r.below(second) as u32 };
    let (sts, md) = (time(), time());
    Notice {
        continuity: r.below(16) as u8,
        pointer: if r.one_in(4) { r.pick(&[0, 1, 2015, 2016, 10_583, 65_535]) } else { r.next() as u16 },
        periodic: r.one_in(2),
        reserved: if r.one_in(4) { r.pick(&[0, 1, 0x3FFF, 0x4000, 0x7FFF]) } else { r.next() as u16 & 0x7FFF },
        sts,
        md,
        tps: r.next() as u32,
    }
}

/// The site's own identifier, 0x0000 or another's.
fn identifier(r: &mut Random, site: u16) -> u16 {
    match r.below(4) {
        0 | 1 => site,
        2 => 0,
        _ => r.pick(&[site ^ 1, site.swap_bytes(), site.wrapping_add(256), 0xFFFF, 1]),
    }
}

/// A function of the right form, its length counting tag, length and body.
fn function(r: &mut Random) -> Vec<u8> {
    let tag = match r.below(8) {
        0..=2 => 0,
        3 => 1,
        4 => 2,
        5 | 6 => 3,
        _ => r.pick(&[4, 5, 127, 128, 255]),
    };
    let body = match tag {
        0 | 2 => 2,
        1 => 3,
        _ => match r.below(4) {
            0 => 0,
            1 => 1,
            2 => r.below(12),
            _ => r.below(40),
        },
    };
    function_of(r, tag, body + 2)
}

/// A tag, a length, and as many further bytes as that length leaves, often ones that look like tags and lengths.
fn function_of(r: &mut Random, tag: u8, length: usize) -> Vec<u8> {
    let mut function = vec![tag, length as u8];
    while function.len() < length {
        function.push(if r.one_in(2) { r.below(6) as u8 } else { r.next() as u8 });
    }
    function
}

fn entry_of(identifier: u16, functions: &[u8]) -> Vec<u8> {
    [&identifier.to_be_bytes()[..], &[functions.len() as u8], functions].concat()
}

/// An entry of the right form, of at least 3 and at most `limit` bytes.
fn entry(r: &mut Random, site: u16, limit: usize) -> Vec<u8> {
    let room = (limit - 3).min(255);
    let mut functions = Vec::new();
    while !r.one_in(4) {
        let function = function(r);
        if functions.len() + function.len() <= room {
            functions.extend(function);
        }
    }
    entry_of(identifier(r, site), &functions)
}

/// A field of the right form, of at most `limit` bytes.
pub fn field(r: &mut Random, site: u16, limit: usize) -> Vec<u8> {
    let mut field = Vec::new();
    while field.len() + 3 <= limit && !r.one_in(8) {
        field.extend(entry(r, site, limit - field.len()));
    }
    field
}

/// A field of the right form and of this length; the lengths 1, 2 and 4 have none.
pub fn field_of_length(r: &mut Random, site: u16, length: usize) -> Option<Vec<u8>> {
    if matches!(length, 1 | 2 | 4) {
        return None;
    }
    loop {
        let mut field = field(r, site, length);
        while length - field.len() > 258 {
            field.extend(entry_of(identifier(r, site), &[]));
        }
        let rest = length - field.len();
        if rest == 0 {
            return Some(field);
        }
        if rest == 3 || rest >= 5 {
            let filler = if rest == 3 { Vec::new() } else { function_of(r, 3, rest - 3) };
            field.extend(entry_of(identifier(r, site), &filler));
            return Some(field);
        }
    }
}

/// The kinds of wrong form.
pub const WRONG_FORMS: [&str; 11] = [
    "an entry's head cut short",
    "a loop beyond the field",
    "a function's head cut short",
    "a function beyond its loop",
    "a time offset of another length",
    "a frequency offset of another length",
    "a power of another length",
    "a length of tags 0 to 2 below 2",
    "a length that counts the body alone",
    "a private function of length 0 or 1",
    "an unknown function of length 0 or 1",
];

/// A field of the wrong form of this kind.
pub fn wrong_field(r: &mut Random, site: u16, kind: usize) -> Vec<u8> {
    let mut wrong = field(r, site, 50);
    if kind == 0 {
        let cut = 1 + r.below(2);
        wrong.extend(r.bytes(cut));
        return wrong;
    }
    let mut functions = if r.one_in(2) { function(r) } else { Vec::new() };
    if kind == 1 {
        let mut entry = entry_of(identifier(r, site), &functions);
        entry[2] = (entry[2] as usize + 1 + r.pick(&[0, 0, 1, 2, 100, 255])).min(255) as u8;
        wrong.extend(entry);
        return wrong;
    }
    let short = r.below(2) as u8;
    functions.extend(match kind {
        2 => vec![r.below(5) as u8],
        3 => {
            let mut function = function(r);
            function[1] = function[1].saturating_add(r.pick(&[1, 1, 2, 3, 100]));
            function
        }
        4 => length_but(r, 0, 4),
        5 => length_but(r, 1, 5),
        6 => length_but(r, 2, 4),
        7 => vec![r.below(3) as u8, short, 1, 2],
        8 => {
            let tag = r.below(3) as u8;
            let mut function = function_of(r, tag, if tag == 1 { 5 } else { 4 });
            function[1] -= 2;
            function
        }
        // One byte on stands a function of the right form.
        9 => vec![3, short, 5, 1, 2, 3],
        _ => vec![4 + r.below(252) as u8, short, 5, 1, 2, 3],
    });
    wrong.extend(entry_of(identifier(r, site), &functions));
    wrong.extend(field(r, site, 20));
    wrong
}

/// A function of another length than the tag's own, otherwise of the right form.
fn length_but(r: &mut Random, tag: u8, own: usize) -> Vec<u8> {
    let length = r.pick(&[2, 3, 4, 5, 6, 7, 20]);
    function_of(r, tag, if length == own { own + 1 } else { length })
}

/// Limits of a reader: the full board's call with none, those of the papers and about them, and the highest that a call can give.
pub const LIMITS: [Limit; 11] =
    [None, Some(0), Some(63), Some(64), Some(65), Some(162), Some(163), Some(164), Some(255), Some(256), Some(usize::MAX)];

/// The limit of a reader that gets this packet: most often the full board's, and often on the length of the packet's addressing field or beside it.
pub fn limit(r: &mut Random, packet: &[u8]) -> Limit {
    let a = packet.get(20).copied().unwrap_or(0);
    match r.below(8) {
        0..=4 => None,
        5 => r.pick(&LIMITS),
        6 => Some(r.near(a.into()).max(0) as usize),
        _ => Some(r.below(300)),
    }
}

// ---- Packets

/// A packet that the reader accepts, by the other implementation's writer.
pub fn packet(r: &mut Random, site: u16) -> Vec<u8> {
    let limit = r.pick(&[0, 20, 60, 163]);
    let field = if r.one_in(4) { field_of_length(r, site, 163).unwrap() } else { field(r, site, limit) };
    packet_of(&notice(r), &field)
}

pub fn packet_of(notice: &Notice, field: &[u8]) -> Vec<u8> {
    let mut packet = vec![0; 188];
    let _ = basics::write(&mut packet, notice, field);
    packet
}

/// A null packet.
pub fn null() -> Vec<u8> {
    let mut packet = vec![0xFF; 188];
    packet[..4].copy_from_slice(&[0x47, 0x1F, 0xFF, 0x10]);
    packet
}

/// Makes the check value right again, at the place that byte 20 gives it.
pub fn reseal(packet: &mut [u8]) {
    let end = 21 + usize::from(packet[20]);
    if end + 4 <= packet.len() {
        let check = basics::register(&packet[..end]);
        packet[end..end + 4].copy_from_slice(&check.to_be_bytes());
    }
}

/// Changes the check value so that the section leaves this register instead of zero: the register is taken back over 32 bits of zero.
pub fn leave(packet: &mut [u8], mut residue: u32) {
    for _ in 0..32 {
        residue = if residue & 1 == 1 { (residue ^ 0x04C1_1DB7) >> 1 | 1 << 31 } else { residue >> 1 };
    }
    let end = 21 + usize::from(packet[20]);
    for (byte, change) in packet[end..end + 4].iter_mut().zip(residue.to_be_bytes()) {
        *byte ^= change;
    }
}

/// Puts a field of any form into a packet, with its lengths; the check value is not made right.
pub fn put_field(packet: &mut [u8], field: &[u8]) {
    packet[5] = 19 + field.len() as u8;
    packet[20] = field.len() as u8;
    packet[21..21 + field.len()].copy_from_slice(field);
}

/// A packet as a careless network would hand it on: sound, damaged, or damaged with the check value made right again.
pub fn damaged(r: &mut Random, site: u16) -> Vec<u8> {
    let mut p = packet(r, site);
    let section = 25 + usize::from(p[20]);
    if r.one_in(2) {
        let stuffing = r.bytes(188 - section);
        p[section..].copy_from_slice(&stuffing);
    }
    match r.below(12) {
        0..=2 => {}
        3 if r.one_in(4) => leave(&mut p, 1 << r.below(32)),
        3 => p[r.below(188)] ^= 1 << r.below(8),
        4 => {
            p[r.below(section - 4)] ^= 1 << r.below(8);
            reseal(&mut p);
        }
        5 => {
            // section lengths and a, small and large, also beyond 163 and beyond 256 together
            p[20] = r.next() as u8;
            p[5] = p[20].wrapping_add(r.pick(&[19, 19, 18, 20, 23, 0]));
            reseal(&mut p);
        }
        6 => {
            let length = r.below(301);
            p.resize(length, 0xFF);
        }
        7 => {
            let length = if r.one_in(2) { 188 } else { r.below(301) };
            p = r.bytes(length);
            for (to, from) in p.iter_mut().zip([0x47, 0x60, 0x15, 0x10, 0]) {
                if !r.one_in(4) {
                    *to = from;
                }
            }
        }
        // several faults at once, so that the order of the numbers shows
        _ => {
            let rare = r.pick(&[2, 4, 8]);
            if r.one_in(rare) {
                let wrong = r.below(WRONG_FORMS.len());
                put_field(&mut p, &wrong_field(r, site, wrong));
            }
            for time in [10, 13] {
                if r.one_in(rare) {
                    p[time..time + 3].copy_from_slice(&r.pick(&[9_999_999_u32, 10_000_000, 10_000_001, 0xFF_FFFF]).to_be_bytes()[1..]);
                }
            }
            let section_length = p[5];
            for (at, values) in [
                (0, [0x46, 0x07, 0xC7, 0xB8]),
                (1, [0xE0, 0x40, 0x20, 0x60 ^ 1 << r.below(8)]),
                (2, [0x14, 0x11, 0x95, 0x00]),
                (3, [0x00, 0x20, 0x30, 0x10 ^ 1 << r.below(8)]),
                (4, [1, 2, 128, 255]),
                (5, [section_length ^ 1, section_length ^ 128, section_length.wrapping_sub(4), 0]),
            ] {
                if r.one_in(2 * rare) {
                    p[at] = r.pick(&values);
                }
            }
            if r.one_in(2) {
                p[1..3].copy_from_slice(&[0x60, 0x15]);
            }
            if !r.one_in(rare) {
                reseal(&mut p);
            }
        }
    }
    p
}
