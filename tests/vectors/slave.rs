//! A slave's calls, and its saved block.

use super::{notice, null, Packet, Vectors};
use crate::inputs::streams::offset_entry;
use crate::other::slave::{Numbers, Slave, COLD, LOCKED, UNKNOWN};

pub fn all(v: &mut Vectors) {
    starts(v);
    reckoned(v);
    refusals(v);
    empty(v);
    limits(v);
    steps(v);
    late(v);
    indexes(v);
    coasting(v);
    saves(v);
    releases(v);
}

fn starts(v: &mut Vectors) {
    v.start("site 7, cadence 2016", 0, 2016, 7, 0);
    v.start("P9", 0, 10_584, 65_535, 9_999_999);
    v.start("one packet less than P9", 0, 10_583, 65_535, 9_999_999);
    v.start("profile 1", 1, 624, 1, 19_392_657);
    v.start("refusal 15: site 0", 0, 2016, 0, 0);
    v.start("n 624 in profile 0", 0, 624, 7, 0);
    v.start("n 2016 in profile 1", 1, 2016, 7, 0);
    v.start("n 2017", 0, 2017, 7, 0);
    v.start("TAD of a second", 0, 2016, 7, 10_000_000);
    v.start("TAD of a second, profile 1", 1, 624, 7, 19_392_658);
}

/// P1 to P8 and P10, each by the calls of a slave.
fn reckoned(v: &mut Vectors) {
    let null = null();
    let site_7 = Slave::hunting(0, 2016, 7, 0);
    v.hand("site 7", site_7);
    v.packet("P1 to P3, the notice; P7, pointer 0", &notice(0, 9_500_000, 700_000, &[]), 5);
    let due = v.slave;
    v.packet("P1", &null, 9_900_000);
    v.hand("P1's slave", due);
    v.packet("P2", &null, 200_000);
    v.hand("P1's slave", due);
    v.packet("P3, refusal 14", &null, 200_001);
    v.hand("site 7", site_7);
    v.packet("P4, the notice", &notice(0, 9_300_000, 700_000, &[]), 5);
    v.packet("P4", &null, 9_300_000);
    v.start("P5, the start", 0, 2016, 7, 200);
    v.packet("P5, the notice", &notice(0, 9_999_000, 1_100, &[]), 5);
    v.packet("P5", &null, 9_999_500);
    v.start("P6, the start", 1, 624, 7, 1_000);
    let p6 = Numbers { pointer: 0, sts: 19_392_657, md: 63_740, od: -32_768, index: UNKNOWN };
    v.numbers("P6, the notice", &null, 5, p6);
    v.packet("P6", &null, 19_392_657);
    v.hand("site 7", site_7);
    v.packet("P7, pointer 2015", &notice(2015, 1, 2, &[]), 5);
    v.hand("site 7", site_7);
    v.packet("P8, the notice", &notice(6, 1, 2, &[]), 5);
    let before = v.slave;
    v.gap("P8, gap 6", 6);
    v.hand("P8's slave", before);
    v.gap("P8, gap 7", 7);
    v.start("P10, the start", 1, 624, 7, 1);
    let started = v.slave;
    let p10 = Numbers { pointer: 0, sts: 1, md: 2, od: 0, index: 0 };
    v.numbers("P10, the mark passed is 19", &null, 5, p10);
    v.hand("P10's slave", started);
    let before = Numbers { pointer: 0, sts: 1, md: 20, od: 0, index: 19 };
    v.numbers("P10 by packets, the notice", &null, 5, before);
    v.packet("P10 by packets, mark 19", &null, 5);
    v.gap("P10 by packets, up to 623", 622);
    v.packet("P10 by packets", &null, 5);
}

/// The examples of the table of numbers that a packet has, of a hunting slave and on a due mark; the order of the numbers; slaves that count as cold.
fn refusals(v: &mut Vectors) {
    let null = null();
    let plain = notice(2015, 1_000, 700_000, &[]);
    let kept = [
        ("refusal 1: 187 bytes", plain.of_length(187), 5),
        ("189 bytes", plain.of_length(189), 5),
        ("187 bytes, 0x46, tick U", plain.with(&[(0, 0x46)]).of_length(187), 10_000_000),
        ("1 byte, 0x46, tick U", plain.with(&[(0, 0x46)]).of_length(1), 10_000_000),
        ("refusal 2: 0x46", plain.with(&[(0, 0x46)]), 5),
        ("0x46, tick U", plain.with(&[(0, 0x46)]), 10_000_000),
        ("refusal 3: tick U", plain.clone(), 10_000_000),
        ("tick U, error indicator", plain.with(&[(1, 0xE0)]), 10_000_000),
    ];
    let last = plain.bytes[24];
    let ignored = [
        ("refusal 4: byte 1 0xE0", plain.with(&[(1, 0xE0)])),
        ("an errored null packet", null.with(&[(1, 0x9F)])),
        ("refusal 6: byte 1 0x40", plain.with(&[(1, 0x40)])),
        ("refusal 7: synchronization id 1", plain.with(&[(4, 1)])),
        ("refusal 8: section length 20, a 0", plain.with(&[(5, 20)])),
        ("refusal 9: last check bit flipped", plain.with(&[(24, last ^ 1)])),
        ("refusal 10: a 2", plain.with(&[(5, 21), (20, 2), (21, 0), (22, 0)]).sealed()),
        ("refusal 11: STS 10,000,000", plain.with(&[(10, 0x98), (11, 0x96), (12, 0x80)]).sealed()),
        ("refusal 12: pointer 2016, n 2016", notice(2016, 1_000, 700_000, &[])),
        ("refusal 13: MD 50, OD −51", notice(2015, 1_000, 50, &offset_entry(7, -51))),
    ];
    let hunting = Slave::hunting(0, 2016, 7, 0);
    let due = Slave { phase: LOCKED, od: 5, pending: 1, sts: 9_500_000, md: 700_000, coasted: 3, ..hunting };
    let numbers = Numbers { pointer: 0, sts: 1, md: 2, od: 0, index: UNKNOWN };
    for (which, slave) in [("site 7", hunting), ("a mark due", due)] {
        v.hand(which, slave);
        for (name, packet, tick) in &kept {
            v.packet(&format!("{name}, {which}"), packet, *tick);
        }
        v.numbers(&format!("refusal 20: numbers in profile 0, {which}"), &null.with(&[(1, 0x9F)]), 5, numbers);
        v.numbers(&format!("numbers in profile 0, tick U, {which}"), &null, 10_000_000, numbers);
    }
    v.hand("site 7", hunting);
    for (name, packet) in &ignored {
        v.packet(&format!("{name}, hunting"), packet, 5);
    }
    for (name, packet) in &ignored {
        v.hand("a mark due", due);
        v.packet(&format!("{name}, released"), packet, 9_900_000);
        v.hand("a mark due", due);
        v.packet(&format!("{name}, late"), packet, 200_006);
    }
    for (name, cold) in [
        ("cold", COLD),
        ("phase 7", Slave { phase: 7, ..due }),
        ("phase 0", Slave { phase: 0, ..due }),
        ("hunting with a label", Slave { phase: 1, ..due }),
        ("times left over", Slave { pending: 0, ..due }),
        ("an index in profile 0", Slave { index: 0, ..due }),
        ("a frequency of 25 bits", Slave { frequency: 8_388_608, ..due }),
        ("a pending notice against 13", Slave { md: 50, od: -51, ..due }),
        ("a label of n", Slave { next: 2016, ..due }),
        ("hunting with 254 marks coasted", Slave { coasted: 254, ..hunting }),
        ("hunting with no marks coasted", Slave { coasted: 0, ..hunting }),
    ] {
        v.hand(name, cold);
        v.packet(&format!("15 before 1 and 3: {name}"), &plain.of_length(187), 10_000_000);
        v.hand(name, cold);
        v.packet(&format!("15 for an empty packet: {name}"), &plain.of_length(0), 10_000_000);
        v.hand(name, cold);
        v.gap(&format!("15 for a gap of 0: {name}"), 0);
        v.hand(name, cold);
        v.numbers(&format!("15 before 1 and 12: {name}"), &plain.of_length(0), 5, Numbers { index: 20, ..numbers });
    }
}

/// An empty packet in the place of one that was lost, hunting, off the mark and on it, with a notice pending and with none; a numbers notice has none.
fn empty(v: &mut Vectors) {
    let (null, none) = (null(), Packet { text: String::from("no bytes"), bytes: Vec::new() });
    v.start("behind a card", 0, 2016, 7, 0);
    v.packet("an empty packet, hunting", &none, 10_000_000);
    v.packet("three packets stand before the mark", &notice(3, 9_500_000, 700_000, &[]), 5);
    v.packet("the first is lost", &none, u32::MAX);
    v.packet("the second has its label", &null, 5);
    v.packet("the third is lost", &none, 5);
    v.packet("the mark comes in time", &null, 9_900_000);
    v.packet("a notice behind the mark", &notice(2014, 1, 700_000, &[]), 5);
    v.packet("and an empty packet", &none, 5);
    v.packet("the next notice is no slip", &notice(2012, 2, 700_000, &[]), 5);
    let numbers = Numbers { pointer: 0, sts: 1, md: 2, od: 0, index: UNKNOWN };
    v.numbers("1 before 3 and 20: a numbers notice with no bytes", &none, 10_000_000, numbers);
    v.gap("up to the mark", 2012);
    v.packet("the mark is lost", &none, 9_900_000);
    v.packet("the packet behind it has label 1", &null, 5);
    v.gap("up to a mark with no notice", 2014);
    v.packet("a lost mark is not untimed", &none, 5);
    v.start("behind a card, profile 1", 1, 624, 7, 0);
    v.numbers("of index 19", &null, 5, Numbers { index: 19, ..numbers });
    v.packet("mark 19 is lost", &none, 19_392_658);
    v.packet("the packet behind it has its place", &null, 5);
    v.numbers("1 before 3 and 11: no bytes, profile 1", &none, 19_392_658, Numbers { sts: u32::MAX, ..numbers });
}

/// An OD for site 7, and one private function that fills the field up to a bytes.
fn filled(a: u8, od: i16) -> Vec<u8> {
    let mut field = offset_entry(7, od);
    field.extend([0x00, 0x07, a - 10, 0x03, a - 10]);
    field.resize(a.into(), 0);
    field
}

/// A gap-filler: a notice of 65 bytes teaches it nothing, hunting, off the mark, on a mark that is released and on an untimed one. Profile 1 has no limit.
fn limits(v: &mut Vectors) {
    let null = null();
    let of = |pointer, a| notice(pointer, 9_500_000, 700_000, &filled(a, -51));
    let gap_filler = Some(64);
    v.start("a gap-filler", 0, 2016, 7, 0);
    v.packet_within("65 bytes, hunting", &of(3, 65), 5, gap_filler);
    v.packet_within("a plain packet, hunting", &null, 5, gap_filler);
    v.packet_within("8 before 26, hunting", &of(3, 65).with(&[(5, 85)]), 5, gap_filler);
    v.packet_within("64 bytes", &of(3, 64), 5, gap_filler);
    v.packet_within("65 bytes, another MD and OD", &notice(2, 1, 52, &filled(65, -52)), 5, gap_filler);
    v.packet_within("65 bytes, another pointer: no slip", &of(9, 65), 5, gap_filler);
    v.packet_within("26 before 9", &of(0, 65).with(&[(89, 0), (88, 0)]), 5, gap_filler);
    v.packet_within("65 bytes on the mark", &of(2015, 65), 9_900_000, gap_filler);
    v.packet_within("4 before 26", &of(2014, 65).with(&[(1, 0xE0)]), 5, gap_filler);
    v.gap("up to the next mark", 2014);
    v.packet_within("65 bytes on a mark with no notice", &of(2015, 65), 5, gap_filler);
    v.packet_within("a limit of 0 reads no field", &of(2014, 20), 5, Some(0));
    v.packet_within("a limit of 255 reads all", &of(2013, 163), 5, Some(255));
    v.packet_within("and 9 whatever is there", &of(2012, 163).with(&[(187, 0), (186, 0)]), 5, Some(usize::MAX));
    v.packet_within("164 bytes by a limit of 255", &null.with(&[(1, 0x60), (2, 0x15), (4, 0), (5, 183), (20, 164)]), 5, Some(255));
    v.packet_within("255 bytes by a limit of 64", &null.with(&[(1, 0x60), (2, 0x15), (4, 0), (5, 18), (20, 255)]), 5, gap_filler);
    v.start("a gap-filler of profile 1", 1, 624, 7, 0);
    v.packet_within("65 bytes, profile 1", &of(3, 65), 5, Some(0));
}

fn steps(v: &mut Vectors) {
    let null = null();
    v.start("TAD 100", 0, 2016, 7, 100);
    v.packet("hunting has no label", &null, 5);
    v.gap("hunting is unchanged by a gap", 65_535);
    v.packet("first lock", &notice(1, 500, 1_000, &[]), 5);
    let later = notice(0, 600, 2_000, &offset_entry(0, 10));
    v.packet("the later replaces", &later, 5);
    let on_mark = notice(2015, 700, 3_000, &offset_entry(7, -20));
    v.packet("mark and notice on one packet", &on_mark, 1_000);
    v.gap("all but the mark", 2015);
    v.packet("late beside a notice", &on_mark, 3_581);
    v.gap("a whole cadence", 2016);
    v.gap("to the mark", 2015);
    v.packet("untimed", &null, 5);
    v.packet("slip", &notice(1_000, 1, 200, &[]), 5);
    v.packet("slip onto label 0", &notice(2015, 2, 300, &[]), 5);
    v.packet("a whole cadence lost untold", &notice(2014, 3, 400, &[]), 5);
    v.gap("to the mark again", 2014);
    v.packet("slip from a counted 0", &notice(2000, 4, 500, &[]), 5);
    v.gap("a gap of 0", 0);
    v.gap("a gap over many marks", 65_535);
    let settings = [0, 7, 9, 1, 5, 0xFE, 0x79, 0x60, 2, 4, 1, 0x2C];
    v.packet("frequency and power", &notice(976, 5, 600, &settings), 5);
    v.start("another cadence", 0, 2688, 7, 0);
    v.packet("first lock on label 0", &notice(2687, 1, 2, &[]), 5);
    v.gap("its notice waits for the next mark", 2687);
    v.packet("and is released there", &null, 2);
    v.start("TAD 11", 0, 2016, 7, 11);
    v.packet("TAD above MD + OD", &notice(0, 0, 10, &[]), 5);
    v.packet("is always late", &null, 0);
}

/// How late a mark was: an MD that is longer by it is enough at the same arrival, and one by less is not; and the most in each profile.
fn late(v: &mut Vectors) {
    let null = null();
    let of_md = |md| notice(0, 9_999_000, md, &[]);
    v.start("TAD 200", 0, 2016, 7, 200);
    v.packet("MD 1,100", &of_md(1_100), 5);
    v.packet("is late by 200", &null, 100);
    v.gap("up to label 2015", 2014);
    v.packet("MD longer by 200", &of_md(1_300), 5);
    v.packet("is in time", &null, 100);
    v.gap("up to label 2015 again", 2014);
    v.packet("MD longer by 199", &of_md(1_299), 5);
    v.packet("is late by 1", &null, 100);
    v.start("the highest TAD", 0, 2016, 7, 9_999_999);
    v.packet("MD + OD of 0", &notice(0, 0, 51, &offset_entry(7, -51)), 5);
    v.packet("late by 2 × (U − 1)", &null, 9_999_999);
    v.start("the highest TAD, profile 1", 1, 624, 7, 19_392_657);
    let m = Numbers { pointer: 0, sts: 0, md: 51, od: -51, index: 19 };
    v.numbers("MD + OD of 0, profile 1", &null, 5, m);
    v.numbers("late by 2 × (U − 1) beside a notice, profile 1", &null, 19_392_657, Numbers { pointer: 623, index: 0, ..m });
}

fn indexes(v: &mut Vectors) {
    let null = null();
    let mip = notice(0, 1, 2, &[]);
    v.hand("P10's slave", Slave::hunting(1, 624, 7, 1));
    v.packet("profile 1 reads no MIP", &mip, 10_000_000);
    v.packet("tick U of profile 1", &null, 19_392_658);
    let m = Numbers { pointer: 1, sts: 100, md: 1_000, od: 0, index: UNKNOWN };
    v.numbers("STS of a second", &null, 5, Numbers { sts: 19_392_658, ..m });
    v.numbers("11 before 12", &null, 5, Numbers { md: 19_392_658, index: 20, ..m });
    v.numbers("pointer 624", &null, 5, Numbers { pointer: 624, ..m });
    v.numbers("index 20", &null, 5, Numbers { index: 20, ..m });
    v.numbers("12 before 13", &null, 5, Numbers { index: 254, md: 0, od: -1, ..m });
    v.numbers("MD + OD of −1", &null, 5, Numbers { md: 0, od: -1, ..m });
    v.numbers("MD + OD + TAD of U", &null, 5, Numbers { md: 19_392_657, ..m });
    v.numbers("error indicator", &null.with(&[(1, 0x9F)]), 5, Numbers { sts: u32::MAX, ..m });
    v.numbers("first lock, index unknown", &null, 5, m);
    let known = Numbers { pointer: 0, index: 19, ..m };
    v.numbers("no turn from unknown", &null, 5, known);
    let zero = Numbers { pointer: 623, index: 0, ..m };
    v.numbers("19, then a notice of 0", &null, 150, zero);
    v.numbers("an index of 255 keeps", &null, 5, Numbers { pointer: 622, ..m });
    let five = Numbers { pointer: 621, index: 5, ..m };
    v.numbers("turn", &null, 5, five);
    v.packet("error indicator, place kept", &mip.with(&[(1, 0xE0)]), 5);
    v.gap("a gap over three marks", 620 + 1 + 624 + 624);
    let slip = Numbers { pointer: 0, index: UNKNOWN, ..m };
    v.numbers("a slip makes the index unknown", &null, 5, slip);
    let onto = Numbers { pointer: 600, index: 7, ..m };
    v.numbers("no turn on a slip", &null, 5, onto);
    let mark = Numbers { pointer: 623, index: 7, ..m };
    v.numbers("a slip onto label 0 raises nothing", &null, 5, mark);
    v.gap("to the mark of index 7", 623);
    v.packet("a late mark is passed", &null, 1_100);
}

// ---- The saved block, made by hand from document 01's table of the body and document 02's Paper 12. Each check value is a long division's remainder, as above.

/// A hunting slave of site 7, n 2016.
#[rustfmt::skip]
pub const HUNTING_BLOCK: [u8; 39] = [
    1, 0, 0x07, 0xE0, 0, 7,       // phase, profile, n, site
    0, 0, 0, 0,                   // TAD
    0, 0, 0, 0, 0, 0, 0, 0,       // OD, frequency, power
    0, 0, 0, 255,                 // next packet's label, pending, index of the next mark
    0, 0, 0, 0, 0, 0, 0, 0,       // STS, MD
    255,                          // marks coasted
    0, 7, 0, 31,                  // trailer: site, distance
    0x0F, 0x2E, 0xA7, 0x5D,       // check value
];

/// The same slave locked, with a notice that waits.
#[rustfmt::skip]
const LOCKED_BLOCK: [u8; 39] = [
    2, 0, 0x07, 0xE0, 0, 7,
    0, 0, 0, 0,
    0xFF, 0xCD, 0xFF, 0xFE, 0x79, 0x60, 0x01, 0x2C,
    0x07, 0xDF, 1, 255,
    0x00, 0x98, 0x96, 0x7F, 0, 0, 0, 51,
    42,
    0, 7, 0, 31,
    0x60, 0x3F, 0xF0, 0xF3,
];

/// Both as the release before this one saved them, without byte 30.
fn old(block: &[u8; 39], check: [u8; 4]) -> Vec<u8> {
    [&block[..30], &[0, 7, 0, 30], &check].concat()
}

fn changed(block: &[u8], at: usize, value: u8, check: [u8; 4]) -> Vec<u8> {
    let mut block = block.to_vec();
    block[at] = value;
    let end = block.len() - 4;
    block[end..].copy_from_slice(&check);
    block
}

fn saves(v: &mut Vectors) {
    let hunting = Slave::hunting(0, 2016, 7, 0);
    let locked =
        Slave { phase: LOCKED, od: -51, frequency: -100_000, power: 300, next: 2015, pending: 1, sts: 9_999_999, md: 51, coasted: 42, ..hunting };
    v.hand("site 7", hunting);
    v.save("refusal 18: 37 bytes", 37);
    v.save("refusal 18: 38 bytes", 38);
    v.save("a hunting slave's block", 41);
    v.hand("cold", COLD);
    v.save("15 before 18: a cold slave into 38 bytes", 38);
    v.hand("a locked slave to save", locked);
    v.save("a locked slave's block", 41);
    v.save("in exactly its bytes", 39);
    v.resume("on its own board", &HUNTING_BLOCK, 7);
    v.resume("the locked one on its own board", &LOCKED_BLOCK, 7);
    v.resume("refusal 17: saved by site 7, board is 8", &HUNTING_BLOCK, 8);
    let phase = changed(&HUNTING_BLOCK, 0, 7, [0xD0, 0xD7, 0x91, 0x83]);
    v.resume("refusal 16: phase 7, check right", &phase, 7);
    v.resume("16 before 17", &phase, 8);
    v.resume("15: site 0", &HUNTING_BLOCK, 0);
    let delay = changed(&LOCKED_BLOCK, 29, 50, [0x7B, 0x17, 0xFD, 0x8B]);
    v.resume("16: pending with MD 50, OD −51", &delay, 7);
    v.resume("16: no bytes", &[], 7);
}

/// Blocks of two releases: what this one makes of the earlier one's blocks, and that one of this one's (document 02, Paper 12).
fn releases(v: &mut Vectors) {
    let old_hunting = old(&HUNTING_BLOCK, [0xFD, 0x94, 0xA0, 0x42]);
    let old_locked = old(&LOCKED_BLOCK, [0x9E, 0xBB, 0x22, 0x1A]);
    v.resume("an old block, hunting", &old_hunting, 7);
    v.resume("an old block, locked", &old_locked, 7);
    v.resume("an old block behind another byte", &[&[42], &old_locked[..]].concat(), 7);
    v.resume("16: an old block with a byte behind it", &[&old_locked[..], &[42]].concat(), 7);
    v.resume("17: an old block on another board", &old_locked, 8);
    v.resume("16: an old block, phase 7", &changed(&old_hunting, 0, 7, [0xAE, 0x3E, 0x8D, 0xF9]), 7);
    v.resume("16: an old block, pending with MD 50, OD −51", &changed(&old_locked, 29, 50, [0xD7, 0xB6, 0x45, 0x97]), 7);
    v.resume("16: an old block with its last bit of distance flipped", &changed(&old_locked, 33, 31, [0x9E, 0xBB, 0x22, 0x1A]), 7);
    v.resume("16: hunting with 254 marks coasted", &changed(&HUNTING_BLOCK, 30, 254, [0x46, 0x23, 0xC0, 0xD0]), 7);
    v.resume("16: hunting with none", &changed(&HUNTING_BLOCK, 30, 0, [0x3E, 0xCD, 0x81, 0x0E]), 7);
    v.resume("locked with 254", &changed(&LOCKED_BLOCK, 30, 254, [0xC8, 0x47, 0x78, 0x9E]), 7);
    let longer = [&LOCKED_BLOCK[..31], &[0x99, 0, 7, 0, 32, 0x39, 0x8B, 0xF4, 0x89]].concat();
    v.resume("a distance of 32: byte 31 is skipped", &longer, 7);
    v.resume("16: a block with its last bit of distance flipped", &changed(&LOCKED_BLOCK, 34, 30, [0x60, 0x3F, 0xF0, 0xF3]), 7);
    v.resume("16: the first 38 bytes of a block", &LOCKED_BLOCK[..38], 7);
    v.resume("16: the last 38 bytes of a block", &LOCKED_BLOCK[1..], 7);
    v.older_resume("the release before this one, its own block", &old_locked, 7);
    v.older_resume("the release before this one: byte 30 is not read", &LOCKED_BLOCK, 7);
    v.older_resume("the release before this one: hunting with 254", &changed(&HUNTING_BLOCK, 30, 254, [0x46, 0x23, 0xC0, 0xD0]), 7);
    v.older_resume("the release before this one, 16: the first 38 bytes", &LOCKED_BLOCK[..38], 7);
}

/// How many marks a slave coasted over since its last notice (document 02, Paper 12): every kind of mark counts, up to 255; a notice sets 0 after its packet's
/// own mark, a slip's too; a refused one does not.
fn coasting(v: &mut Vectors) {
    let (null, none) = (null(), Packet { text: String::from("no bytes"), bytes: Vec::new() });
    let m = Numbers { pointer: 3, sts: 1, md: 700_000, od: 0, index: UNKNOWN };
    v.start("coasting", 1, 624, 7, 0);
    v.packet("hunting coasts on", &null, 5);
    v.gap("hunting, over a gap", 65_535);
    v.numbers("a first notice, label 620", &null, 5, m);
    v.gap("65,535 packets, 106 marks", 65_535);
    v.gap("65,535 packets, 105 marks", 65_535);
    v.gap("43 marks: 254 in all", 26_806);
    v.gap("up to the 255th", 623);
    v.packet("the 255th", &null, 5);
    v.gap("up to the 256th", 623);
    v.packet("the 256th", &null, 5);
    v.gap("and many more", 65_535);
    v.numbers("12 takes none", &null, 5, Numbers { pointer: 624, ..m });
    v.packet("2 counts no packet", &null.with(&[(0, 0x46)]), 5);
    v.packet("4 takes none", &null.with(&[(1, 0x9F)]), 5);
    v.numbers("a slip", &null, 5, Numbers { pointer: 1, ..m });
    v.gap("up to its mark", 1);
    v.packet("released, 1", &null, 5);
    v.gap("up to the next mark", 623);
    v.packet("4 on a mark, 2", &null.with(&[(1, 0x9F)]), 5);
    v.gap("up to the next", 623);
    v.packet("a lost mark, 3", &none, 5);
    v.gap("one mark short of three more", 1_871);
    v.packet("that mark, 6", &null, 5);
    v.gap("up to another", 623);
    v.numbers("a notice on the mark: then 0", &null, 5, Numbers { pointer: 623, ..m });
    v.gap("a cadence", 624);
    v.numbers("a slip onto label 0: then 0 too", &null, 5, Numbers { pointer: 623, ..m });
    v.gap("up to its mark again", 623);
    v.packet("late, 1", &null, 700_002);
    v.gap("a gap of 0 passes none", 0);
    v.gap("a gap behind the mark passes none", 623);
    v.gap("a gap of one passes one", 1);
}
