//! Inputs for a slave: an adapter's stream, settings, times and ticks on their limits, packets, and slaves of any parts.

use super::moments::{any_sts, md_on_limit};
use super::notices::{self, WRONG_FORMS};
use super::random::Random;
use crate::other::basics::{self, second, Notice, A110_SECOND, DVB_SECOND};
use crate::other::slave::{Slave, LOCKED, UNKNOWN};

/// An adapter's stream: place t has label t mod n, each mark its STS and MD, and each cadence at most one notice, for the mark that ends it.
#[derive(Clone, Copy, Debug)]
pub struct Adapter {
    pub profile: u8,
    pub n: u16,
    seed: u64,
}

impl Adapter {
    pub fn any(r: &mut Random) -> Adapter {
        let profile = r.below(2) as u8;
        Adapter { profile, n: cadence(r, profile), seed: r.next() }
    }

    pub fn second(&self) -> u32 {
        second(self.profile)
    }

    pub fn label(&self, place: u64) -> u16 {
        (place % u64::from(self.n)) as u16
    }

    /// What the adapter drew for one mark or cadence.
    fn drawn(&self, which: u64) -> Random {
        Random(self.seed ^ which.wrapping_mul(0xD6E8_FEB8_6659_FD93))
    }

    /// STS and MD of the mark that follows this place.
    pub fn times_after(&self, place: u64) -> (u32, u32) {
        let r = &mut self.drawn(2 * (place / u64::from(self.n) + 1));
        let second = self.second();
        let sts = if r.one_in(6) { r.pick(&[0, 1, second - 1]) } else { r.below(second as usize) as u32 };
        let md = match r.below(8) {
            0 => second - sts,
            1 => r.pick(&[0, 51, 32_767, 32_768, second - 1]),
            _ => 40_000 + r.below(second as usize / 2) as u32,
        };
        (sts, md.min(second - 1))
    }

    /// The packets from this place on before the next notice.
    pub fn to_notice(&self, place: u64) -> u64 {
        let n = u64::from(self.n);
        (place / n..)
            .find_map(|cadence| {
                let r = &mut self.drawn(2 * cadence + 1);
                let label = match r.below(8) {
                    0 => return None,
                    1 => 0,
                    2 => n - 1,
                    _ => r.below(self.n.into()) as u64,
                };
                (cadence * n + label).checked_sub(place)
            })
            .unwrap_or(0)
    }
}

pub fn cadence(r: &mut Random, profile: u8) -> u16 {
    match profile {
        0 => r.pick(&basics::dvb_cadences().collect::<Vec<u16>>()),
        _ => 624,
    }
}

pub fn any_site(r: &mut Random) -> u16 {
    r.pick(&[7, 7, 8, 0x0102, 256, 65_535])
}

/// A TAD, most often one that a board would have.
pub fn any_tad(r: &mut Random, profile: u8) -> u32 {
    match r.below(8) {
        0 => second(profile) - 1 - r.below(3) as u32,
        1 => r.below(second(profile) as usize) as u32,
        2 | 3 => 0,
        _ => r.below(3_000) as u32,
    }
}

pub fn any_offset(r: &mut Random) -> i16 {
    if r.one_in(2) {
        r.pick(&[i16::MIN, -51, -1, 0, 0, 1, i16::MAX])
    } else {
        r.next() as i16
    }
}

/// STS and MD, often such that a sum with this OD and TAD falls on one of its limits, at times beyond a second.
pub fn any_times(r: &mut Random, second: u32, od: i16, tad: u32) -> (u32, u32) {
    let (od, tad) = (i64::from(od), i64::from(tad));
    let kind = r.below(16);
    let md = md_on_limit(r, kind, second, od, tad).unwrap_or_else(|| 40_000 + r.below(second as usize / 2) as i64);
    let sts = any_sts(r, second, md, od, tad);
    let number = |x: i64| x.clamp(0, u32::MAX.into()) as u32;
    (number(sts), number(md))
}

/// An arrival tick: where a notice is pending, most often in time for it or about its limit.
pub fn any_tick(r: &mut Random, slave: &Slave) -> u32 {
    let second = second(slave.profile);
    let [u, sts, md, tad] = [second, slave.sts, slave.md, slave.tad].map(i64::from);
    let limit = sts + md + i64::from(slave.od) - tad;
    match r.below(12) {
        0 => r.pick(&[0, second - 1]),
        1 => r.pick(&[0, second - 1, second, second, second + 1, DVB_SECOND, A110_SECOND, u32::MAX]),
        2..=4 if slave.pending == 1 => r.near(limit).rem_euclid(u) as u32,
        5..=10 if slave.pending == 1 => (sts + r.below((limit - sts).clamp(1, u) as usize) as i64).rem_euclid(u) as u32,
        11 if slave.pending == 1 => r.near(sts).rem_euclid(u) as u32,
        _ => r.below(second as usize) as u32,
    }
}

/// A packet with another PID than the MIP's, at times with the error indicator.
pub fn plain_packet(r: &mut Random) -> Vec<u8> {
    let mut packet = vec![0x5A; 188];
    let pid: u16 = r.pick(&[0x1FFF, 0x1FFF, 0x0014, 0x0017, 0x0115, 0x1015, 0x0000, 0x0100]);
    let flags = if r.one_in(12) { 0x8000 } else { 0 } | (r.below(4) as u16) << 13;
    packet[0] = 0x47;
    packet[1..3].copy_from_slice(&(flags | pid).to_be_bytes());
    packet[3..12].copy_from_slice(&r.bytes(9));
    packet
}

/// A MIP with these fields, of any size, and with a field of any form.
pub fn mip(r: &mut Random, pointer: u16, sts: u32, md: u32, field: &[u8]) -> Vec<u8> {
    let mut packet = notices::packet_of(&Notice { pointer, sts: 0, md: 0, ..notices::notice(r) }, &[]);
    packet[10..13].copy_from_slice(&sts.to_be_bytes()[1..]);
    packet[13..16].copy_from_slice(&md.to_be_bytes()[1..]);
    notices::put_field(&mut packet, field);
    notices::reseal(&mut packet);
    packet
}

/// One entry with a time offset.
pub fn offset_entry(identifier: u16, od: i16) -> Vec<u8> {
    [&identifier.to_be_bytes()[..], &[4, 0, 4], &od.to_be_bytes()].concat()
}

pub fn any_field(r: &mut Random, site: u16) -> Vec<u8> {
    match r.below(8) {
        0 => offset_entry(0, any_offset(r)),
        1 | 2 => offset_entry(site, any_offset(r)),
        3 => notices::field(r, site, 163),
        4 if r.one_in(2) => {
            let kind = r.below(WRONG_FORMS.len());
            notices::wrong_field(r, site, kind)
        }
        _ => Vec::new(),
    }
}

/// Marks coasted, often about the most.
pub fn any_coasted(r: &mut Random) -> u8 {
    if r.one_in(2) {
        r.pick(&[0, 0, 1, 253, 254, 255])
    } else {
        r.next() as u8
    }
}

/// A slave built from its parts, nearly always a sound one.
pub fn any_slave(r: &mut Random) -> Slave {
    let profile = r.below(2) as u8;
    let (n, site, tad) = (cadence(r, profile), any_site(r), any_tad(r, profile));
    let hunting = Slave::hunting(profile, n, site, tad);
    if r.one_in(8) {
        return hunting;
    }
    let od = any_offset(r);
    let pending = r.below(2) as u8;
    let (sts, md) = if pending == 1 { any_times(r, second(profile), od, tad) } else { (0, 0) };
    Slave {
        phase: LOCKED,
        od,
        frequency: r.pick(&[0, 1, -1, -8_388_608, 8_388_607]),
        power: r.pick(&[0, 1, 0x8000, 0xFFFF]),
        next: if r.one_in(2) { r.pick(&[0, 1, n - 2, n - 1]) } else { r.below(n.into()) as u16 },
        pending,
        index: if profile == 0 || r.one_in(4) { UNKNOWN } else { r.below(20) as u8 },
        sts,
        md,
        coasted: any_coasted(r),
        ..hunting
    }
}

/// The slave with one part changed; the part's place among the fourteen.
pub fn change_part(r: &mut Random, slave: Slave) -> (usize, Slave) {
    let (second, part) = (second(slave.profile), r.below(14));
    let time = r.pick(&[1, second - 1, second, second + 1, 1 << 31, u32::MAX]);
    let mut s = slave;
    match part {
        0 => s.phase = r.pick(&[0, 1, 2, 3, 7, 255]),
        1 => s.profile = r.pick(&[0, 1, 2, 3, 255]),
        2 => s.n = r.pick(&[0, 1, 623, 624, 625, 2016, 2017, 10_584, 12_096, 65_535]),
        3 => s.site = 0,
        4 => s.tad = time,
        5 => s.od = any_offset(r),
        6 => s.frequency = r.pick(&[1, -8_388_609, 8_388_608, i32::MIN, i32::MAX]),
        7 => s.power = r.pick(&[1, 0x8000, 0xFFFF]),
        8 => s.next = r.pick(&[1, slave.n - 1, slave.n, slave.n + 1, 65_535]),
        9 => s.pending = r.pick(&[0, 1, 2, 255]),
        10 => s.index = r.pick(&[0, 19, 20, 21, 128, 254, 255]),
        11 => s.sts = time,
        12 => s.md = time,
        _ => s.coasted = any_coasted(r),
    }
    (part, s)
}
