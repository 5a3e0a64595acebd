//! The basics: check values, notices made by hand, addressing, times and cadence.

use super::slave::HUNTING_BLOCK;
use super::{Packet, Vectors};
use crate::other::basics::Notice;

pub fn all(v: &mut Vectors) {
    check_values(v);
    notices(v);
    unread(v);
    limits(v);
    unwritten(v);
    addressing(v);
    releases(v);
    cadence(v);
}

// ---- Check values

fn check_values(v: &mut Vectors) {
    v.register("no byte", &[]);
    // the published check value of CRC-32/MPEG-2
    v.register("P11, 123456789", b"123456789");
    // Sections of MPEG-2 streams end in the same check value (ISO/IEC 13818-1, annex A).
    v.register("program association section", &[0x00, 0xB0, 0x0D, 0x00, 0x01, 0xC1, 0x00, 0x00, 0x00, 0x01, 0xF0, 0x00, 0x2A, 0xB1, 0x04, 0xB2]);
    v.register(
        "another program association section",
        &[0x00, 0xB0, 0x0D, 0x59, 0x81, 0xEB, 0x00, 0x00, 0x00, 0x01, 0xE0, 0x42, 0x5E, 0x44, 0x05, 0x9A],
    );
    v.register("program map section", &PROGRAM_MAP);
    v.register("a saved block", &HUNTING_BLOCK);
}

#[rustfmt::skip]
const PROGRAM_MAP: [u8; 26] = [
    0x02, 0xB0, 0x17, 0x00, 0x01, 0xC1, 0x00, 0x00, 0xE1, 0x00, 0xF0, 0x00, 0x1B, 0xE1, 0x00, 0xF0, 0x00, 0x0F, 0xE1, 0x01, 0xF0, 0x00,
    0x2F, 0x44, 0xB9, 0x9B,
];

// ---- Notices made by hand from TS 101 191, table 1. Each check value is the remainder of a long division by the generator polynomial.

/// No addressing: pointer 2015, STS 9,500,000, MD 700,000, and a tps_mip by table 3 (64-QAM, rate 2/3, guard 1/32, 8k, 8 MHz, high priority).
#[rustfmt::skip]
const PLAIN: [u8; 25] = [
    0x47, 0x60, 0x15, 0x10, // transport_packet_header
    0x00,                   // synchronization_id
    19,                     // section_length
    0x07, 0xDF,             // pointer
    0x00, 0x00,             // periodic_flag, future_use
    0x90, 0xF5, 0x60,       // synchronization_time_stamp
    0x0A, 0xAE, 0x60,       // maximum_delay
    0x81, 0x16, 0x00, 0x00, // tps_mip
    0,                      // individual_addressing_length
    0x40, 0xE5, 0x8B, 0x98, // crc_32
];

const PLAIN_NOTICE: Notice = Notice { continuity: 0, pointer: 2015, periodic: false, reserved: 0, sts: 9_500_000, md: 700_000, tps: 0x8116_0000 };

/// One entry with the four functions of tables 7 to 10, and every other field at its highest.
#[rustfmt::skip]
const FUNCTIONS: [u8; 46] = [
    0x47, 0x60, 0x15, 0x15, 0x00, 19 + 21,
    0xFF, 0xFF, 0xFF, 0xFF,
    0x98, 0x96, 0x7F, 0x98, 0x96, 0x7F, 0xFF, 0xFF, 0xFF, 0xFF,
    21,
    0x00, 0x07, 18,               // tx_identifier, function_loop_length
    0x00, 4, 0xFF, 0xCD,          // table 7: time_offset −51
    0x01, 5, 0xFE, 0x79, 0x60,    // table 8: frequency_offset −100,000
    0x02, 4, 0x01, 0x2C,          // table 9: power 300
    0x03, 5, 0x50, 0x51, 0x52,    // table 10: three bytes of private_data
    0xED, 0xD9, 0xCC, 0x29,
];

/// Entries for site 7, for all, for site 8 and for 0xFFFF, with a function of no known tag and an empty loop.
#[rustfmt::skip]
const ENTRIES: [u8; 56] = [
    0x47, 0x60, 0x15, 0x1F, 0x00, 19 + 31,
    0x00, 0x00, 0x80, 0x01,
    0x00, 0x00, 0x00, 0x00, 0x00, 0x00, 0x00, 0x00, 0x00, 0x00,
    31,
    0x00, 0x07, 4, 0x00, 4, 0x00, 0x64,
    0x00, 0x00, 11, 0x00, 4, 0xFF, 0xFF, 0x01, 5, 0x80, 0x00, 0x00, 0xFF, 2,
    0x00, 0x08, 4, 0x00, 4, 0x7F, 0xFF,
    0xFF, 0xFF, 0,
    0xA0, 0x0E, 0xB9, 0xB4,
];

/// A field of a bytes: one private function, whose body counts 0, 1, 2 and on.
pub fn private(a: u8, check: [u8; 4]) -> Vec<u8> {
    let mut bytes = PLAIN[..21].to_vec();
    (bytes[5], bytes[20]) = (19 + a, a);
    bytes.extend([0x00, 0x07, a - 3, 0x03, a - 3]);
    bytes.extend(0..a - 5);
    bytes.extend(check);
    bytes
}

/// The longest section, 182 bytes.
fn longest() -> Vec<u8> {
    private(163, [0x88, 0x2B, 0x56, 0x5E])
}

fn section(name: &str, section: &[u8]) -> Packet {
    let mut bytes = section.to_vec();
    bytes.resize(188, 0xFF);
    Packet { text: String::from(name), bytes }
}

fn notices(v: &mut Vectors) {
    let highest = Notice { continuity: 5, pointer: 65_535, periodic: true, reserved: 32_767, sts: 9_999_999, md: 9_999_999, tps: 0xFFFF_FFFF };
    let lowest = Notice { continuity: 15, periodic: true, reserved: 1, ..Notice::default() };
    for (name, bytes, notice) in [
        ("plain", &PLAIN[..], PLAIN_NOTICE),
        ("functions", &FUNCTIONS, highest),
        ("entries", &ENTRIES, lowest),
        ("longest", &longest(), PLAIN_NOTICE),
    ] {
        let packet = section(name, bytes);
        let mut other_stuffing = packet.clone();
        other_stuffing.bytes[bytes.len()..].fill(0x47);
        other_stuffing.text += ", stuffing 47";
        let field = &bytes[21..bytes.len() - 4];
        v.register(&format!("{name}, the section"), bytes);
        v.read(name, &packet);
        v.read(&format!("{name}, stuffed otherwise"), &other_stuffing);
        v.write(name, 188, notice, field);
        v.write(&format!("{name}, two bytes more"), 190, notice, field);
    }
}

/// Addressing fields of 0, 63, 64, 65, 162 and 163 bytes against limits 0, 64, 163 and 255, and a of 164 and 255, which are 8 whatever the limit. 26 comes
/// after 8 and before 9, 10 and 11.
fn limits(v: &mut Vectors) {
    let plain = section("plain", &PLAIN);
    let of_65 = section("private, a 65", &private(65, [0x65, 0x40, 0xB2, 0x14]));
    for (a, packet) in [
        (0, plain.clone()),
        (63, section("private, a 63", &private(63, [0x71, 0xD1, 0xE4, 0x79]))),
        (64, section("private, a 64", &private(64, [0x29, 0x4E, 0xEC, 0x99]))),
        (65, of_65.clone()),
        (162, section("private, a 162", &private(162, [0xF4, 0x31, 0xEA, 0x23]))),
        (163, section("longest", &longest())),
        (164, plain.with(&[(5, 183), (20, 164)])),
        (255, plain.with(&[(5, 18), (20, 255)])),
    ] {
        for limit in [0, 64, 163, 255] {
            v.read_within(&format!("a {a}, limit {limit}"), &packet, Some(limit));
        }
    }
    v.read_within("exactly its own limit", &of_65, Some(65));
    v.read_within("7 before 26", &of_65.with(&[(4, 1)]), Some(64));
    v.read_within("8 before 26", &of_65.with(&[(5, 85)]), Some(64));
    v.read_within("26 before 9", &of_65.with(&[(89, 0x15)]), Some(64));
    v.read_within("9 within the limit", &of_65.with(&[(89, 0x15)]), Some(65));
    v.read_within("26 before 10 and 11", &of_65.with(&[(10, 0xFF), (24, 1)]).sealed(), Some(64));
    v.read_within("10 within the limit", &of_65.with(&[(10, 0xFF), (24, 1)]).sealed(), Some(65));
}

fn unread(v: &mut Vectors) {
    let plain = section("plain", &PLAIN);
    let with = |changes: &[(usize, u8)]| plain.with(changes);
    v.read("no packet", &plain.of_length(0));
    v.read("187 bytes", &plain.of_length(187));
    v.read("189 bytes", &plain.of_length(189));
    v.read("0x46", &with(&[(0, 0x46)]));
    v.read("byte 1 0xE0", &with(&[(1, 0xE0)]));
    v.read("refusal 5: 47 1F FF 10", &with(&[(1, 0x1F), (2, 0xFF)]));
    v.read("error indicator before PID", &with(&[(1, 0x9F), (2, 0xFF)]));
    v.read("byte 1 0x40", &with(&[(1, 0x40)]));
    v.read("scrambled", &with(&[(3, 0x90)]));
    v.read("adaptation 11", &with(&[(3, 0x30)]));
    v.read("synchronization id 1", &with(&[(4, 1)]));
    v.read("section length 20, a 0", &with(&[(5, 20)]));
    v.read("a 164, section length 183", &with(&[(5, 183), (20, 164)]));
    v.read("a 255, section length 18", &with(&[(5, 18), (20, 255)]));
    v.read("last check bit flipped", &with(&[(24, 0x99)]));
    v.read("another continuity, old check value", &with(&[(3, 0x11)]));
    // packets with a check value reckoned for exactly these bytes
    let checked = |name, changes: &[(usize, u8)], field: &[u8], check: [u8; 4]| section(name, &[&with(changes).bytes[..21], field, &check].concat());
    v.read("a 2", &checked("a field of two zeros", &[(5, 21), (20, 2)], &[0, 0], [0x11, 0x10, 0xAB, 0xB7]));
    let body = checked("a function whose length counts its body", &[(5, 26), (20, 7)], &[0, 7, 4, 0, 2, 0xFF, 0xCD], [0x33, 0x92, 0xE6, 0xA7]);
    v.read("the body's length alone", &body);
    let sts = checked("STS 10,000,000", &[(10, 0x98), (11, 0x96), (12, 0x80)], &[], [0x67, 0x0E, 0xE7, 0x65]);
    v.read("an STS of a second", &sts);
    let md = checked("MD 10,000,000", &[(13, 0x98), (14, 0x96), (15, 0x80)], &[], [0x63, 0x1D, 0x1E, 0x49]);
    v.read("an MD of a second", &md);
}

fn unwritten(v: &mut Vectors) {
    let plain = PLAIN_NOTICE;
    let continuity = Notice { continuity: 16, ..plain };
    let sts = Notice { sts: 10_000_000, ..plain };
    v.write("refusal 18: 187 bytes", 187, plain, &[]);
    v.write("no buffer, all else wrong too", 0, continuity, &[0; 200]);
    v.write("refusal 19: continuity 16", 188, continuity, &[]);
    v.write("continuity 16, a field of 200", 188, continuity, &[0; 200]);
    v.write("reserved 32,768", 188, Notice { reserved: 32_768, ..plain }, &[]);
    v.write("a field of 200 of wrong form", 188, sts, &[1; 200]);
    v.write("a field of 164", 188, plain, &[&[0, 7, 161, 3, 161][..], &[0; 159]].concat());
    v.write("a 2", 188, sts, &[0, 0]);
    v.write("STS 10,000,000", 188, sts, &[]);
    v.write("MD 10,000,000", 188, Notice { md: 10_000_000, ..plain }, &[]);
}

fn addressing(v: &mut Vectors) {
    v.settings("no field", &[], 7);
    v.settings("functions, own", &FUNCTIONS[21..42], 7);
    v.settings("functions, another's", &FUNCTIONS[21..42], 8);
    v.settings("entries, the later replaces", &ENTRIES[21..52], 7);
    v.settings("entries, own after all", &ENTRIES[21..52], 8);
    v.settings("entries, all", &ENTRIES[21..52], 9);
    v.settings("longest", &longest()[21..184], 7);
    v.settings("the body's length alone", &[0, 7, 4, 0, 2, 0xFF, 0xCD], 7);
    v.settings("another's wrong form", &[0, 8, 3, 0, 3, 1], 7);
    v.settings("private of length 2", &[0, 7, 2, 3, 2], 7);
    v.settings("private of length 1", &[0, 7, 2, 3, 1], 7);
    v.settings("private of length 0", &[0, 7, 2, 3, 0], 7);
    v.settings("empty loop", &[0, 7, 0], 7);
    v.settings("a loop that counts its head", &[0, 7, 7, 0, 4, 0xFF, 0xCD], 7);
}

// ---- Times and cadence

fn releases(v: &mut Vectors) {
    v.release("P1", 0, [9_500_000, 700_000, 0, 9_900_000], 0);
    v.release("P2", 0, [9_500_000, 700_000, 0, 200_000], 0);
    v.release("P3", 0, [9_500_000, 700_000, 0, 200_001], 0);
    v.release("P4", 0, [9_300_000, 700_000, 0, 9_300_000], 0);
    v.release("P5", 0, [9_999_000, 1_100, 200, 9_999_500], 0);
    v.release("P6", 1, [19_392_657, 63_740, 1_000, 19_392_657], -32_768);
    // Sums of U − 1, U and U + 1 for each time; each of the other two times has a sum of its own.
    for (profile, sts) in [(0, 9_999_000), (1, 19_391_658)] {
        for (name, md) in [("a reference sum of U − 1", 999), ("a reference sum of U", 1_000), ("a reference sum of U + 1", 1_001)] {
            v.release(name, profile, [sts, md, 100, sts], 10);
        }
        for (name, od) in [("an emission sum of U − 1", -101), ("an emission sum of U", -100), ("an emission sum of U + 1", -99)] {
            v.release(name, profile, [sts, 1_100, 100, sts], od);
        }
        for (name, tad) in [("a modulation sum of U − 1", 101), ("a modulation sum of U", 100), ("a modulation sum of U + 1", 99)] {
            v.release(name, profile, [sts, 1_200, tad, sts], -100);
        }
    }
    // Late by one unit across the pulse, and by U − 1 and more up to the most.
    for (profile, sts, last) in [(0, 9_999_000, 9_999_999), (1, 19_391_658, 19_392_657)] {
        v.release("modulation on the pulse, a tick behind it", profile, [sts, 1_100, 0, 1], -100);
        v.release("modulation at U − 1, a tick on the pulse", profile, [sts, 1_100, 1, 0], -100);
        for (name, arrival) in [("late by U − 1", 0), ("late by U", 1), ("late by U + 1", 2), ("late by 2 × (U − 1)", last)] {
            v.release(name, profile, [0, 51, last, arrival], -51);
        }
    }
    // The same arrival with an MD that is longer by the lateness, and by one less.
    for (name, md) in [("late by 50,000", 700_000), ("MD longer by 50,000", 750_000), ("MD longer by 49,999", 749_999)] {
        v.release(name, 0, [9_500_000, md, 0, 250_000], 0);
    }
    for (name, md) in [("late by 20,251", 100_000), ("MD longer by 20,251", 120_251), ("MD longer by 20,250", 120_250)] {
        v.release(name, 1, [19_392_000, md, 200, 119_342], -51);
    }
    v.release("arrival 10,000,000", 0, [9_500_000, 700_000, 0, 10_000_000], 0);
    v.release("arrival 19,392,658", 1, [0, 700_000, 0, 19_392_658], 0);
    v.release("STS 10,000,000", 0, [10_000_000, 700_000, 0, 0], 0);
    v.release("MD 50, OD −51", 0, [0, 50, 0, 0], -51);
    v.release("MD 51, OD −51", 0, [0, 51, 0, 0], -51);
    v.release("MD + OD of a second", 0, [0, 9_999_999, 0, 0], 1);
    v.release("MD + OD + TAD of a second", 0, [0, 9_999_000, 1_000, 0], 0);
    v.release("MD + OD + TAD of a second", 1, [0, 19_391_658, 1_000, 0], 0);
    v.release("MD + OD + TAD of 0", 1, [0, 51, 0, 0], -51);
    v.release("MD + OD + TAD of 1", 1, [0, 52, 0, 0], -51);
    v.release("TAD above MD + OD", 0, [0, 10, 11, 0], 0);
    v.release("a tick before STS", 0, [5_000_000, 1_000_000, 0, 4_999_999], 0);
    v.release("TAD of a second", 0, [0, 10, 10_000_000, 10_000_000], 0);
    v.fits("MD 50, OD −51", 0, 50, -51, 0);
    v.fits("MD 51, OD −51", 0, 51, -51, 0);
    v.fits("the highest MD", 0, u32::MAX, 0, 0);
    v.fits("a sum of 0", 1, 51, -51, 0);
    v.fits("a sum of 1", 1, 51, -51, 1);
    v.fits("the highest TAD", 1, 1, 0, u32::MAX);
}

fn cadence(v: &mut Vectors) {
    v.label("P7, pointer 0", 2016, 0);
    v.label("P7, pointer 2015", 2016, 2015);
    v.label("pointer 2016, n 2016", 2016, 2016);
    // QPSK, 16-QAM and 64-QAM at 1/2, 2/3, 3/4, 5/6 and 7/8; 6,048 comes twice
    for (name, n) in [("QPSK 1/2", 2016), ("QPSK 2/3", 2688), ("QPSK 3/4", 3024), ("QPSK 5/6", 3360), ("QPSK 7/8", 3528)] {
        v.admits(name, 0, n);
    }
    for (name, n) in [("16-QAM 1/2", 4032), ("16-QAM 2/3", 5376), ("16-QAM 3/4", 6048), ("16-QAM 5/6", 6720), ("16-QAM 7/8", 7056)] {
        v.admits(name, 0, n);
    }
    for (name, n) in [("64-QAM 1/2", 6048), ("64-QAM 2/3", 8064), ("64-QAM 3/4", 9072), ("64-QAM 5/6", 10_080), ("P9, 64-QAM 7/8", 10_584)] {
        v.admits(name, 0, n);
    }
    for (c, constellation) in (0..).zip(["QPSK", "16-QAM", "64-QAM"]) {
        for (r, rate) in (0..).zip(["1/2", "2/3", "3/4", "5/6", "7/8"]) {
            v.length(&format!("n of {constellation} {rate}"), c, r);
        }
    }
    v.length("no constellation", 3, 0);
    v.length("no code rate", 0, 5);
    v.admits("A/110", 1, 624);
    v.admits("A/110's cadence in profile 0", 0, 624);
    v.admits("a DVB cadence in profile 1", 1, 2016);
    v.admits("no profile", 2, 624);
    v.place("P10", 19, 623);
    v.place("M/H place of mark 0", 0, 0);
}
