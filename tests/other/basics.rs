//! The basics, which keep no state and on which the slave stands: the check value, notices read and written, the addressing field, the times of a
//! mark, and the cadence. From document 01, Papers 2, 3 and 9 of document 02, and ETSI TS 101 191.

use super::faults::{rule, Fault::*};

/// Units in a second (01, "Two clocks"): 100 ns steps in profile 0, transport stream bit periods in profile 1.
pub const DVB_SECOND: u32 = 10_000_000;
pub const A110_SECOND: u32 = 19_392_658;

/// Refuses with the number when the condition holds.
fn refuse(number: u8, when: bool) -> Result<(), u8> {
    if when {
        Err(number)
    } else {
        Ok(())
    }
}

// ---- Check value (TS 101 191, annex A)

const GENERATOR: u32 = 0x04C1_1DB7;

/// One bit enters the decoder: it is added to z(31), and the sum goes to z(0) and to every other adder.
const fn shift(z: u32, bit: u32) -> u32 {
    (z << 1) ^ (((z >> 31) ^ bit) * GENERATOR)
}

/// The decoder's register after the bytes: from all ones, bit by bit, most significant bit first.
pub fn register_by_bits(bytes: &[u8]) -> u32 {
    let bits = bytes.iter().flat_map(|byte| (0..8).rev().map(move |k| u32::from(byte >> k & 1)));
    bits.fold(u32::MAX, shift)
}

/// For each byte at the top of the register, the register after eight bits of zero.
static TABLE: [u32; 256] = {
    let mut table = [0; 256];
    let mut byte = 0;
    while byte < 256 {
        let mut z = (byte as u32) << 24;
        let mut k = 0;
        while k < 8 {
            z = shift(z, 0);
            k += 1;
        }
        table[byte] = z;
        byte += 1;
    }
    table
};

/// The same register, a byte at a time.
pub fn register(bytes: &[u8]) -> u32 {
    bytes.iter().fold(u32::MAX, |z, byte| (z << 8) ^ TABLE[usize::from((z >> 24) as u8 ^ byte)])
}

/// The full board's limit on the addressing field, and the highest that there is (02, Paper 9).
pub const FULL: usize = 163;

/// Number 26: an addressing field of this length is above the reader's own limit.
pub fn over_limit(a: usize, limit: usize) -> bool {
    let highest = rule(FULL, LimitZeroed, 0);
    let highest = rule(highest, LimitLess164, limit.wrapping_sub(164));
    let limit = if limit > FULL { highest } else { limit };
    rule(rule(a > limit, LimitExcluded, a >= limit), LimitUnjudged, false)
}

// ---- The MIP (TS 101 191, clause 6, table 1; 01, "The MIP, 188 bytes, big-endian")

#[derive(Clone, Copy, Debug, Default, PartialEq)]
pub struct Notice {
    pub continuity: u8,
    pub pointer: u16,
    pub periodic: bool,
    pub reserved: u16,
    pub sts: u32,
    pub md: u32,
    pub tps: u32,
}

impl Notice {
    /// STS or MD above 9,999,999 (number 11).
    fn out_of_range(&self) -> bool {
        self.sts > rule(DVB_SECOND - 1, StsOfASecond, DVB_SECOND) || self.md > DVB_SECOND - 1
    }
}

/// The full board's reader: numbers 1, 2, 4 to 11 in this order; then the fields, and the packet's own addressing bytes.
pub fn read(packet: &[u8]) -> Result<(Notice, &[u8]), u8> {
    read_within(packet, FULL)
}

/// A reader of this limit: it has 26 between 8 and 9.
pub fn read_within(packet: &[u8], limit: usize) -> Result<(Notice, &[u8]), u8> {
    read_with(register, packet, limit)
}

/// The reader over a check register of the caller's choice.
pub fn read_with(register: impl Fn(&[u8]) -> u32, packet: &[u8], limit: usize) -> Result<(Notice, &[u8]), u8> {
    let p: &[u8; 188] = packet.try_into().map_err(|_| 1)?;
    refuse(2, p[0] != 0x47)?;
    let pid = u16::from_be_bytes([p[1], p[2]]) & rule(0x1FFF, PidLowByteOnly, 0x00FF);
    let error = p[1] & 0x80 != 0;
    refuse(4, rule(error, ErrorAfterPid, error && pid == 0x15))?;
    refuse(5, pid != 0x15)?;
    let start_and_priority = p[1] & 0x60;
    let scrambling_and_adaptation = p[3] & 0xF0;
    refuse(6, start_and_priority != 0x60 || rule(scrambling_and_adaptation != 0x10, AdaptationFree, p[3] & 0xC0 != 0))?;
    refuse(7, p[4] != 0)?;
    let a = usize::from(p[20]);
    refuse(26, rule(false, LimitBeforeLengths, over_limit(a, limit)))?;
    refuse(8, usize::from(p[5]) != rule(19 + a, SectionLengthModulo256, (19 + a) % 256))?;
    // a section length of at most 182: the section lies in the packet
    let section = p.get(..25 + a).ok_or(rule(8, SectionLengthModulo256, 9))?;
    refuse(26, over_limit(a, limit) && rule(true, LimitAfterCheck, register(section) == 0))?;
    let check = register(section);
    refuse(9, rule(check, CheckLosesLastByte, check >> 8) != 0)?;
    let field = &section[21..21 + a];
    let flags = u16::from_be_bytes([p[8], p[9]]);
    let notice = Notice {
        continuity: p[3] & 0x0F,
        pointer: u16::from_be_bytes([p[6], p[7]]),
        periodic: flags & 0x8000 != 0,
        reserved: flags & rule(0x7FFF, ReservedBitLost, 0x3FFF),
        sts: u32::from_be_bytes([0, p[10], p[11], p[12]]),
        md: u32::from_be_bytes([0, p[13], p[14], p[15]]),
        tps: u32::from_be_bytes([p[16], p[17], p[18], p[19]]),
    };
    refuse(11, rule(false, LimitsBeforeForm, notice.out_of_range()))?;
    check_form(field)?;
    refuse(11, notice.out_of_range())?;
    Ok((notice, field))
}

/// The writer: numbers 18, 19, 8, 10, 11 in this order; a refused write keeps `out`, an accepted one its bytes after the 188.
pub fn write(out: &mut [u8], notice: &Notice, field: &[u8]) -> Result<(), u8> {
    write_with(register, out, notice, field)
}

/// The writer over a check register of the caller's choice.
pub fn write_with(register: impl Fn(&[u8]) -> u32, out: &mut [u8], notice: &Notice, field: &[u8]) -> Result<(), u8> {
    let (p, tail) = out.split_at_mut_checked(188).ok_or(18)?;
    refuse(19, notice.continuity > 15 || notice.reserved > 32_767)?;
    if rule(false, FormBeforeLength, true) {
        check_form(field)?;
    }
    refuse(8, field.len() > 163)?;
    check_form(field)?;
    refuse(11, notice.out_of_range())?;
    put(register, p, notice, field);
    if rule(false, TailStuffed, true) {
        tail.fill(0xFF);
    }
    Ok(())
}

/// What an accepted write puts in the 188 bytes.
#[inline(always)]
pub fn put(register: impl Fn(&[u8]) -> u32, p: &mut [u8], notice: &Notice, field: &[u8]) {
    let a = field.len();
    p[..6].copy_from_slice(&[0x47, 0x60, 0x15, 0x10 | notice.continuity, 0, 19 + a as u8]);
    p[6..8].copy_from_slice(&notice.pointer.to_be_bytes());
    p[8..10].copy_from_slice(&(u16::from(notice.periodic) << 15 | notice.reserved).to_be_bytes());
    p[10..13].copy_from_slice(&notice.sts.to_be_bytes()[1..]);
    p[13..16].copy_from_slice(&notice.md.to_be_bytes()[1..]);
    p[16..20].copy_from_slice(&notice.tps.to_be_bytes());
    p[20] = a as u8;
    p[21..21 + a].copy_from_slice(field);
    let check = register(&p[..21 + a]);
    p[21 + a..25 + a].copy_from_slice(&check.to_be_bytes());
    p[25 + a..].fill(rule(0xFF, StuffingOfZeros, 0));
}

// ---- Addressing (TS 101 191, tables 1 and 6 to 10; 01, "Addressing")

#[derive(Clone, Copy, Debug, Default, PartialEq)]
pub struct Settings {
    pub od: i16,
    pub frequency: i32,
    pub power: u16,
}

/// The form alone (number 10), which is judged for every entry, whoever it is addressed to.
pub fn check_form(field: &[u8]) -> Result<(), u8> {
    settings(field, 0, Settings::default()).map(|_| ())
}

/// The settings of a site after the field: entries for the site or for 0x0000 apply in order.
pub fn settings(field: &[u8], site: u16, before: Settings) -> Result<Settings, u8> {
    let mut after = before;
    let mut entries = field;
    while let [high, low, loop_length, rest @ ..] = entries {
        let (functions, rest) = rest.split_at_checked(usize::from(*loop_length)).ok_or(10)?;
        let identifier = u16::from_be_bytes([*high, *low]);
        if identifier == site || rule(identifier == 0, BroadcastIgnored, false) {
            after = apply(functions, after)?;
        } else if rule(true, OthersUnjudged, false) {
            apply(functions, after)?;
        }
        entries = rest;
    }
    refuse(10, !entries.is_empty())?;
    Ok(after)
}

/// One entry's functions in order. A function's length counts its tag, its length and its body (6.1).
fn apply(mut functions: &[u8], mut settings: Settings) -> Result<Settings, u8> {
    while let [_, length, ..] = functions {
        let length = usize::from(*length) + rule(0, LengthCountsBody, 2);
        let (function, rest) = functions.split_at_checked(length).ok_or(10)?;
        match *function {
            [0, _, high, low] => {
                let od = i16::from_be_bytes([high, low]);
                settings.od = rule(od, FirstOffsetStays, if settings.od == 0 { od } else { settings.od });
            }
            [1, _, high, middle, low] => {
                let frequency = i32::from_be_bytes([high, middle, low, 0]) >> 8;
                settings.frequency = rule(frequency, FrequencyUnsigned, frequency & 0xFF_FFFF);
            }
            [2, _, high, low] => settings.power = u16::from_be_bytes([high, low]),
            [3..=255, _, ..] => {} // private data and future use, skipped by length
            [3] if rule(false, PrivateOfLengthOne, true) => {}
            _ => return Err(10),
        }
        functions = rest;
    }
    refuse(10, !functions.is_empty())?;
    Ok(settings)
}

// ---- Times (01, "Release" and numbers 13, 14)

/// The profile's second.
pub fn second(profile: u8) -> u32 {
    if profile == 0 {
        DVB_SECOND
    } else {
        A110_SECOND
    }
}

#[derive(Clone, Copy, Debug, Default, PartialEq)]
pub struct Times {
    pub reference: u32,
    pub emission: u32,
    pub modulation: u32,
    pub wait: i64,
}

/// Number 13: MD + OD in 0 to U − 1; in profile 1 also MD + OD + TAD in 1 to U − 1.
pub fn delay_fits(profile: u8, md: u32, od: i16, tad: u32) -> bool {
    let second = i64::from(second(profile));
    let delay = i64::from(md) + i64::from(od);
    let whole = delay + i64::from(tad);
    let whole_fits = match profile {
        0 => rule(true, TadInDvbDelay, whole < second),
        _ => (rule(1, A110DelayFromZero, 0)..second).contains(&whole),
    };
    (0..second).contains(&delay) && whole_fits
}

/// The lateness of a mark: minus its wait, which is negative (02, Paper 3).
fn lateness(wait: i64, second: i64) -> u32 {
    let lateness = rule(-wait, WaitForLateness, wait.rem_euclid(second));
    let lateness = rule(lateness, LatenessOneMore, lateness + 1);
    let lateness = rule(lateness, LatenessOneLess, lateness - 1);
    let lateness = rule(lateness, LatenessModuloSecond, lateness % second);
    rule(lateness, LatenessZero, 0) as u32
}

/// The times of a mark; an error is how late it was (14). Every number is within its limits.
pub fn release(profile: u8, sts: u32, md: u32, od: i16, tad: u32, arrival: u32) -> Result<Times, u32> {
    let [second, sts, md, tad, arrival] = [second(profile), sts, md, tad, arrival].map(i64::from);
    let od = i64::from(od);
    // A sum equal to U or above it loses U, once (02, Paper 2).
    let reduced = |sum: i64, reaches: bool| if reaches { sum - second } else { sum };
    let sum = sts + md;
    let reference = reduced(sum, rule(sum >= second, ReferenceOfASecond, sum > second));
    let sum = rule(sum, OffsetOnReducedSum, reference) + od;
    let emission = reduced(sum, rule(sum >= second, EmissionOfASecond, sum > second));
    let negative = rule(emission < tad, ModulationOfASecond, emission <= tad);
    let modulation = if negative { emission - tad + second } else { emission - tad };
    let link_delay = rule((arrival - sts).rem_euclid(second), LinkDelayNotReduced, arrival - sts);
    let wait = md + od - tad - link_delay;
    let wait = rule(wait, WaitModuloSecond, wait.rem_euclid(second));
    if rule(wait < 0, LateAtZero, wait <= 0) {
        return Err(lateness(wait, second));
    }
    Ok(Times { reference: reference as u32, emission: emission as u32, modulation: modulation as u32, wait })
}

// ---- Cadence (01, "Cadence"; number 12)

/// The length of a mega-frame, n = 2016 × v × r, for QPSK, 16-QAM and 64-QAM (0 to 2) at the code rates 1/2, 2/3, 3/4, 5/6 and 7/8 (0 to 4);
/// 0 where there is no such constellation or code rate.
pub fn length(constellation: u8, rate: u8) -> u16 {
    let bits = match constellation {
        0 => 2,
        1 => rule(4, ConstellationsExchanged, 6),
        2 => rule(6, ConstellationsExchanged, 4),
        _ => return 0,
    };
    let (over, under) = match rate {
        0 => (1, 2),
        1 => rule((2, 3), CodeRatesExchanged, (3, 4)),
        2 => rule((3, 4), CodeRatesExchanged, (2, 3)),
        3 => (rule(5, CodeRateMistaken, 4), 6),
        4 => (7, 8),
        _ => return 0,
    };
    2016 * bits / under * over
}

/// The fifteen lengths of profile 0.
pub fn dvb_cadences() -> impl Iterator<Item = u16> {
    (0..3).flat_map(|constellation| (0..5).map(move |rate| length(constellation, rate)))
}

/// Whether n is a cadence of the profile.
pub fn admits(profile: u8, n: u16) -> bool {
    match profile {
        0 => dvb_cadences().any(|length| length == n),
        1 => n == 624,
        _ => false,
    }
}

/// The label of a packet whose notice has this pointer: n − 1 − pointer.
pub fn label(n: u16, pointer: u16) -> Result<u16, u8> {
    let last = n.checked_sub(1).ok_or(12)?;
    let label = last.checked_sub(pointer);
    rule(label, PointerOfN, Some(last.saturating_sub(pointer))).ok_or(12)
}

/// The M/H place of the packet p after mark i.
pub fn mobile_place(i: u8, p: u16) -> u16 {
    ((rule(37, PlaceOffByOne, 36) + 624 * u32::from(i) + u32::from(p)) % 12_480) as u16
}
