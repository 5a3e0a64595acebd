//! What the log program prints compared, byte for byte, over random captures in pipes of many sizes.

use super::comparison::{Cases, Compared, Comparison, Difference, Subject};
use super::pipes::{self, Delivery};
use super::shrink;
use crate::inputs::notices;
use crate::inputs::random::Random;
use crate::other::basics::{self, dvb_cadences, second, Notice};
use crate::other::faults::{self, Fault};
use crate::other::log::{log, RECORD, SETTINGS};
use std::process::Output;

const PROGRAM: &str = "target/bin/log";

/// Where the shortest capture found is kept that shows a difference with no fault seeded.
const KEPT: &str = "target/tests/difference.bin";

pub struct Captures;

impl Subject for Captures {
    const NAME: &'static str = "the log";
    const COUNTED: &'static str = "captures";
    const COUNT: u64 = 2_000;
    // a capture takes a process and its pipes
    const MOST: u64 = 20_000;
    const REQUIRED: fn() -> Cases = required;
    const FAULTS: &'static [&'static [Fault]] = &[faults::LOG];
    const ITEMS: &'static str = "records";
    const LONGEST: usize = 4;

    fn random(comparison: &mut Comparison<Self>) -> Compared {
        comparison.random_capture()
    }
}

// ---- Captures

/// Settings that start a slave, or ones that do not: out of their limits, or short.
fn settings(r: &mut Random, odd: bool) -> Vec<u8> {
    let profile = u8::from(r.one_in(10));
    let cadences: Vec<u16> = dvb_cadences().collect();
    let n = if profile == 1 { 624 } else { r.pick(&cadences) };
    let site = r.pick(&[1, 7, 256, 65_535, r.0 as u16 | 1]);
    let tad = match r.below(8) {
        0..=3 => 0,
        4..=6 => r.below(1_000) as u32,
        // nearly every mark is late, many by a second or more
        _ => second(profile) - 1 - r.below(1_000) as u32,
    };
    let put = |profile: u8, n: u16, site: u16, tad: u32| [&[profile][..], &n.to_be_bytes(), &site.to_be_bytes(), &tad.to_be_bytes()].concat();
    if !odd {
        return put(profile, n, site, tad);
    }
    match r.below(6) {
        0 => put(profile, n, 0, tad),
        1 => put(profile, n ^ 1, site, tad),
        2 => put(1 - profile, n, site, tad),
        3 => put(r.pick(&[2, 128, 255]), n, site, tad),
        4 => put(profile, n, site, r.pick(&[10_000_000, 19_392_658, u32::MAX])),
        _ => put(profile, n, site, tad)[..r.pick(&[0, 1, 8, 8, r.0 as usize % SETTINGS])].to_vec(),
    }
}

/// A capture: packets of an adapter's stream with losses, damage and wrong notices, the last perhaps cut short.
fn capture(r: &mut Random) -> Vec<u8> {
    let odd = r.one_in(12);
    let mut capture = settings(r, odd);
    if capture.len() < SETTINGS {
        return capture;
    }
    let (profile, n) = (capture[0], u16::from_be_bytes([capture[1], capture[2]]).max(2));
    let site = u16::from_be_bytes([capture[3], capture[4]]);
    let tad = u32::from_be_bytes([capture[5], capture[6], capture[7], capture[8]]);
    let second = second(profile);
    let records = match r.below(20) {
        0 => 0,
        1 => 1_000 + r.below(1_200),
        2..=4 => r.below(300),
        _ => r.below(40),
    };
    let (mut sts, mut md) = (r.below(10_000_000) as u32, r.below(900_000) as u32);
    let mut label = n - 1 - r.below(6).min(usize::from(n) - 1) as u16;
    for _ in 0..records {
        if r.one_in(30) {
            label = (u32::from(label) + r.below(5) as u32) as u16 % n;
        }
        if r.one_in(15) {
            label = n - 1 - r.below(4).min(usize::from(n) - 1) as u16;
        }
        let mut packet = match r.below(24) {
            0 => notices::damaged(r, site),
            1 => notices::packet(r, site),
            2 => r.bytes(188),
            3 => [&[r.pick(&[0x46, 0, 0xFF])][..], &r.bytes(187)].concat(),
            4 => [&[0x47, 0x80 | r.next() as u8][..], &r.bytes(186)].concat(),
            5..=9 => {
                if r.one_in(8) {
                    (sts, md) = (r.below(10_000_000) as u32, r.below(900_000) as u32);
                }
                let pointer = if r.one_in(10) { r.below(usize::from(n)) as u16 } else { n - 1 - label };
                // an offset of −51 for all: too much for an MD of 50
                let (field, md) = match r.below(24) {
                    0 => (vec![0, 0, 4, 0, 4, 0xFF, 0xCD], 50),
                    1..=12 => (Vec::new(), md),
                    13 => (notices::field_of_length(r, site, 163).unwrap(), md),
                    _ => (notices::field(r, site, 163), md),
                };
                let mut packet = notices::packet_of(&Notice { pointer, sts, md, ..notices::notice(r) }, &field);
                if r.one_in(12) {
                    packet[24] ^= 1;
                }
                packet
            }
            10..=13 => [&[0x47, r.below(32) as u8][..], &r.bytes(186)].concat(),
            _ => [&[0x47, 0x1F, 0xFF, 0x10][..], &[0xFF; 184]].concat(),
        };
        let tick = match r.below(16) {
            0 => r.pick(&notices::edges(second)),
            1 => r.below(second as usize) as u32,
            // where OD is 0, late by 1, or by a number of any length
            2..=4 => {
                let most = 10_usize.pow(r.below(8) as u32);
                let [u, sts, md, tad] = [second, sts, md, tad].map(i64::from);
                (sts + md - tad + 1 + r.below(most) as i64).rem_euclid(u) as u32
            }
            _ => (sts + r.below(2 * md as usize + 1) as u32) % second,
        };
        // A packet of another length shifts every record after it.
        if !r.one_in(500) {
            packet.resize(188, 0);
        }
        capture.extend(tick.to_be_bytes());
        capture.extend(&packet);
        label = (label + 1) % n;
    }
    if r.one_in(3) {
        let cut = r.pick(&[1, 3, 4, 5, 191, 1 + r.0 as usize % 191]);
        capture.extend([&[0, 0, 0, 5, 0x47][..], &r.bytes(187)].concat()[..cut].iter());
    }
    capture
}

// ---- Comparing

/// Counts what a log has.
fn kinds(printed: &[u8], mut saw: impl FnMut(&'static str, i64)) {
    let text = String::from_utf8_lossy(printed);
    if text == "refused 15\n" {
        return saw("refused alone with", 15);
    }
    let lines: Vec<&str> = text.lines().collect();
    if lines.len() == 2 {
        saw("of no record (0), of more than 1,024 (1)", 0);
    }
    if lines.len() > 1_026 {
        saw("of no record (0), of more than 1,024 (1)", 1);
    }
    for line in &lines[1..lines.len() - 1] {
        match line.split(' ').collect::<Vec<_>>()[1..] {
            ["refused", number] => saw("record refused with", number.parse().unwrap_or(0)),
            [label, notice, ref mark @ ..] => {
                let taken = "notice none (0), taken (1), slip (2)";
                match notice {
                    "-" => saw(taken, 0),
                    "taken" => saw(taken, 1),
                    "slip" => saw(taken, 2),
                    number => saw(if label == "-" { "hunting, ignored with" } else { "locked, ignored with" }, number.parse().unwrap_or(0)),
                }
                let kind = match mark {
                    ["-"] => 0,
                    ["untimed"] => 1,
                    ["late", lateness] => {
                        saw("lateness", lateness.parse().unwrap_or(0));
                        saw("digits of a lateness", lateness.len() as i64);
                        2
                    }
                    _ => 3,
                };
                saw("mark none (0), untimed (1), late (2), emission (3)", kind);
            }
            _ => {}
        }
    }
}

/// One record for two, where the first is a notice: it stands a packet nearer to its mark.
fn joined(notice: &[u8]) -> Option<Vec<u8>> {
    let (tick, packet) = notice.split_at_checked(4)?;
    let (Notice { pointer, .. }, _) = basics::read(packet).ok()?;
    let mut nearer = packet.to_vec();
    nearer[6..8].copy_from_slice(&pointer.checked_sub(1)?.to_be_bytes());
    notices::reseal(&mut nearer);
    Some([tick, &nearer].concat())
}

/// What the program prints; on standard error there is nothing, and it ends with 0.
fn printed(capture: &[u8], how: Delivery, r: &mut Random) -> Vec<u8> {
    let Output { status, stdout, stderr } = pipes::printed(PROGRAM, capture, how, r);
    assert!(status.success(), "the log program ends with {status}");
    [stdout, stderr].concat()
}

impl Comparison<Captures> {
    fn random_capture(&mut self) -> Compared {
        self.calls += 1;
        let r = &mut self.random;
        let capture = capture(r);
        let how = pipes::delivery(r, capture.len());
        let (ours, other) = (printed(&capture, how, r), log(&capture));
        if ours != other {
            return Err(self.shortened_capture(&capture, how));
        }
        kinds(&ours, |what, value| self.saw("log", what, value));
        if !ours.starts_with(b"refused 15") {
            self.saw("log", "cut to bytes", ((capture.len() - SETTINGS) % RECORD) as i64);
        }
        Ok(())
    }

    /// The shortest capture found, by leaving records out and moving notices nearer to their marks, on which the program and the other implementation
    /// still differ.
    fn shortened_capture(&self, capture: &[u8], how: Delivery) -> Difference {
        let (settings, records) = capture.split_at(capture.len().min(SETTINGS));
        let records: Vec<Vec<u8>> = records.chunks(RECORD).map(<[u8]>::to_vec).collect();
        let with = |records: &[Vec<u8>]| [settings, &records.concat()].concat();
        let both = |records: &[Vec<u8>]| {
            let capture = with(records);
            [printed(&capture, how, &mut Random(1)), log(&capture)]
        };
        let differ = |records: &[Vec<u8>]| {
            let [ours, other] = both(records);
            (ours != other).then_some(records.len())
        };
        let shortest = shrink::shortest(&records, differ, |one, _| joined(one).into_iter().collect(), |_| Vec::new());
        let [ours, other] = both(&shortest);
        let again = ours != other;
        let [ours, other] = [ours, other].map(|text| String::from_utf8_lossy(&text).into_owned());
        let mut text = format!("seed {} capture {}, {how:?}", self.seed, self.calls);
        if !self.seeded {
            std::fs::write(KEPT, with(&shortest)).expect("the capture is kept");
            text += &format!("; the shortest found that differs is {KEPT}");
        }
        text += &format!("\nours\n{ours}other\n{other}");
        Difference { text, whole: records.len(), shortest: shortest.len(), again }
    }
}

// ---- What must be reached

/// Refusals, and each kind of notice and of mark.
fn required() -> Cases {
    vec![
        ("log", "refused alone with", vec![15]),
        ("log", "record refused with", vec![1, 2, 3]),
        ("log", "cut to bytes", vec![1, 3, 4, 5, 191]),
        ("log", "of no record (0), of more than 1,024 (1)", vec![0, 1]),
        ("log", "notice none (0), taken (1), slip (2)", vec![0, 1, 2]),
        ("log", "hunting, ignored with", vec![4, 6, 7, 8, 9, 10, 11, 12, 13]),
        ("log", "locked, ignored with", vec![4, 6, 7, 8, 9, 10, 11, 12, 13]),
        ("log", "mark none (0), untimed (1), late (2), emission (3)", vec![0, 1, 2, 3]),
        ("log", "lateness", vec![1]),
        ("log", "digits of a lateness", (1..=8).collect()),
    ]
}
