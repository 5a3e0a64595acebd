//! Marks that a notice waits for, and the moments at which they arrive.

use super::calls::{Call, Form, Lent};
use super::notices::{edges, null};
use super::random::Random;
use crate::other::slave::{Slave, LOCKED};

/// The times of a notice that waits for its mark, a site's TAD, and the mark's arrival.
#[derive(Clone, Copy, Debug)]
pub struct Moment {
    pub sts: u32,
    pub md: u32,
    pub od: i16,
    pub tad: u32,
    pub arrival: u32,
}

impl Moment {
    /// The slave whose next packet is the mark.
    pub fn slave(&self, profile: u8) -> Slave {
        let &Moment { sts, md, od, tad, .. } = self;
        Slave { phase: LOCKED, od, pending: 1, sts, md, ..Slave::hunting(profile, if profile == 0 { 2016 } else { 624 }, 7, tad) }
    }

    /// The mark's packet, a null packet.
    pub fn mark(&self) -> Call {
        Call::Packet { form: Form::InPlace, packet: Lent::alone(null()), tick: self.arrival, limit: None }
    }
}

/// An MD whose sum with this OD and TAD falls on one of its limits or beside it, or an MD on its own limits: kinds 0 to 5.
pub fn md_on_limit(r: &mut Random, kind: usize, second: u32, od: i64, tad: i64) -> Option<i64> {
    let u = i64::from(second);
    let limit = match kind {
        0 => return Some(r.pick(&edges(second)).into()),
        1 => -od,
        2 => u - od,
        3 => -od - tad,
        4 => u - od - tad,
        5 => tad - od,
        _ => return None,
    };
    Some(r.near(limit))
}

/// An STS, half of the time on its own limits or such that a sum falls on one of its limits or beside it.
pub fn any_sts(r: &mut Random, second: u32, md: i64, od: i64, tad: i64) -> i64 {
    let u = i64::from(second);
    match r.below(8) {
        0 => r.pick(&edges(second)).into(),
        1 => r.near(u - md),
        2 => r.near(u - md - od),
        3 => r.near(tad - md - od).rem_euclid(u),
        _ => r.below(second as usize) as i64,
    }
}

/// STS, MD, OD, TAD and arrival, often such that a sum or the wait falls on one of its limits.
pub fn moment(r: &mut Random, second: u32) -> Moment {
    let u = i64::from(second);
    let od: i16 = if r.one_in(2) { r.pick(&[-32_768, -32_767, -51, -1, 0, 1, 32_767]) } else { r.next() as i16 };
    let o = i64::from(od);
    let tad = match r.below(8) {
        0 => i64::from(r.pick(&edges(second))),
        1 => 0,
        2 => r.near(u),
        3 => r.below(second as usize) as i64,
        _ => r.below(3_000) as i64,
    };
    let kind = r.below(12);
    let md = md_on_limit(r, kind, second, o, tad).unwrap_or_else(|| match kind {
        6 => r.next() as u32 as i64,
        _ => r.below(second as usize) as i64,
    });
    let sts = any_sts(r, second, md, o, tad);
    let arrival = match r.below(12) {
        0 => i64::from(r.pick(&edges(second))),
        1 => r.near(sts).rem_euclid(u),
        2 | 3 => r.below(second as usize) as i64,
        4..=7 => r.near(sts + md + o - tad).rem_euclid(u),
        _ => (sts + r.below((md + o - tad).clamp(1, u) as usize) as i64).rem_euclid(u),
    };
    let number = |x: i64| x.clamp(0, u32::MAX.into()) as u32;
    Moment { sts: number(sts), md: number(md), od, tad: number(tad), arrival: number(arrival) }
}
