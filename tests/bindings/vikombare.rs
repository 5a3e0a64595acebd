//! The calls that a board links, as crate `vikombare` exports them. A slice is passed as its address and its length; a board's profile chooses its
//! start and its resume.

use super::inserter::{CInserter, CInserterSettings};
use super::slave::CSlave;
use crate::other::{basics, slave::Numbers};
use std::mem::MaybeUninit;

c_struct! {
    /// A count of 100 ns steps.
    Steps { steps: u32, }
}

c_struct! {
    /// A count of transport stream bit periods.
    Periods { periods: u32, }
}

c_struct! {
    /// An arrival tick, and of which profile's clock it is.
    Tick { profile: u8, count: u32, }
}

c_struct! {
    /// What a start, a gap or a resume leaves, and 0 or the call's number.
    CChange { slave: CSlave, number: u8, }
}

c_struct! {
    /// A mark's times; of a late mark the first is how late it is. In C they are a union of both in the two units.
    Times { reference: u32, emission: u32, modulation: u32, wait: i64, }
}

c_struct! {
    Mark {
        /// 0 none, 1 untimed, 2 late in profile 0, 3 released in profile 0, 4 released in profile 1, 5 late in profile 1.
        kind: u8,
        /// 14 where it is late, else 0.
        number: u8,
        times as dvb a110: Times,
    }
}

c_struct! {
    /// The reply to a packet. What it has not is 0 or false.
    Reply {
        /// 0, or the number that refuses the whole call.
        number: u8,
        has_label: bool,
        label: u16,
        /// 0 none, 1 taken, 2 slip, 3 ignored.
        notice: u8,
        /// The number with which the notice is ignored.
        ignored: u8,
        turn: bool,
        has_place: bool,
        place: u16,
        mark: Mark,
    }
}

c_struct! {
    /// A slave after a packet, and the reply.
    CStep { slave: CSlave, reply: Reply, }
}

c_struct! {
    /// What a numbers notice carries.
    CNumbers { pointer: u16, sts: Periods, md: Periods, od: i16, index: u8, }
}

c_struct! {
    CNotice { continuity: u8, pointer: u16, periodic: bool, reserved: u16, sts: Steps, md: Steps, tps: u32, }
}

c_struct! {
    /// What the reader says: a number, or the fields and the addressing field's length.
    CReading { number: u8, notice: CNotice, addressing: usize, }
}

#[link(name = "vikombare", kind = "static")]
extern "C" {
    fn vikombare_dvb_start(slave: *mut CSlave, n: u16, site: u16, tad: Steps) -> u8;
    fn vikombare_a110_start(slave: *mut CSlave, n: u16, site: u16, tad: Periods) -> u8;
    fn vikombare_packet(slave: *mut CSlave, packet: *const u8, length: usize, arrival: Tick) -> Reply;
    fn vikombare_packet_within(slave: *mut CSlave, packet: *const u8, length: usize, arrival: Tick, limit: usize) -> Reply;
    fn vikombare_numbers(slave: *mut CSlave, packet: *const u8, length: usize, arrival: Periods, notice: CNumbers) -> Reply;
    fn vikombare_gap(slave: *mut CSlave, k: u16) -> u8;
    fn vikombare_save(slave: CSlave, out: *mut u8, length: usize) -> u8;
    fn vikombare_dvb_resume(slave: *mut CSlave, block: *const u8, length: usize, n: u16, site: u16, tad: Steps) -> u8;
    fn vikombare_a110_resume(slave: *mut CSlave, block: *const u8, length: usize, n: u16, site: u16, tad: Periods) -> u8;
    fn vikombare_read(packet: *const u8, length: usize) -> CReading;
    fn vikombare_read_within(packet: *const u8, length: usize, limit: usize) -> CReading;
    fn vikombare_write(out: *mut u8, out_length: usize, notice: CNotice, addressing: *const u8, addressing_length: usize) -> u8;
    fn vikombare_inserter_start(inserter: *mut CInserter, settings: CInserterSettings, addressing: *const u8, addressing_length: usize) -> u8;
    fn vikombare_insert(inserter: *mut CInserter, packet: *mut u8, length: usize, sts: Steps) -> u8;
}

// No call has a condition on its arguments, so each is safe to call.

/// What a start and a resume overwrite, whatever it is.
#[inline(always)]
fn anything() -> CSlave {
    let mut slave = MaybeUninit::<CSlave>::uninit();
    unsafe {
        slave.as_mut_ptr().write_bytes(0xA5, 1);
        slave.assume_init()
    }
}

/// The slave that a call leaves, and its number.
#[inline(always)]
fn changed(mut slave: CSlave, call: impl FnOnce(&mut CSlave) -> u8) -> CChange {
    let number = call(&mut slave);
    CChange { slave, number }
}

#[inline(always)]
pub fn start(profile: u8, n: u16, site: u16, tad: u32) -> CChange {
    changed(anything(), |slave| match profile {
        0 => unsafe { vikombare_dvb_start(slave, n, site, Steps { steps: tad }) },
        _ => unsafe { vikombare_a110_start(slave, n, site, Periods { periods: tad }) },
    })
}

/// A packet in place with a tick of this profile's clock.
#[inline(always)]
pub fn packet(slave: &mut CSlave, p: &[u8], profile: u8, count: u32) -> Reply {
    unsafe { vikombare_packet(slave, p.as_ptr(), p.len(), Tick { profile, count }) }
}

/// The same, its notice read with this limit.
#[inline(always)]
pub fn packet_within(slave: &mut CSlave, p: &[u8], profile: u8, count: u32, limit: usize) -> Reply {
    unsafe { vikombare_packet_within(slave, p.as_ptr(), p.len(), Tick { profile, count }, limit) }
}

/// A numbers notice in place.
#[inline(always)]
pub fn numbers_lent(slave: &mut CSlave, p: &[u8], tick: u32, m: &Numbers) -> Reply {
    let [arrival, sts, md] = [tick, m.sts, m.md].map(|periods| Periods { periods });
    let notice = CNumbers { pointer: m.pointer, sts, md, od: m.od, index: m.index };
    unsafe { vikombare_numbers(slave, p.as_ptr(), p.len(), arrival, notice) }
}

#[inline(always)]
pub fn numbers(mut slave: CSlave, p: &[u8], tick: u32, m: &Numbers) -> CStep {
    let reply = numbers_lent(&mut slave, p, tick, m);
    CStep { slave, reply }
}

/// A gap in place.
#[inline(always)]
pub fn gap_lent(slave: &mut CSlave, k: u16) -> u8 {
    unsafe { vikombare_gap(slave, k) }
}

#[inline(always)]
pub fn gap(slave: CSlave, k: u16) -> CChange {
    changed(slave, |slave| gap_lent(slave, k))
}

#[inline(always)]
pub fn save(slave: CSlave, out: &mut [u8]) -> u8 {
    unsafe { vikombare_save(slave, out.as_mut_ptr(), out.len()) }
}

#[inline(always)]
pub fn resume(block: &[u8], profile: u8, n: u16, site: u16, tad: u32) -> CChange {
    changed(anything(), |slave| match profile {
        0 => unsafe { vikombare_dvb_resume(slave, block.as_ptr(), block.len(), n, site, Steps { steps: tad }) },
        _ => unsafe { vikombare_a110_resume(slave, block.as_ptr(), block.len(), n, site, Periods { periods: tad }) },
    })
}

#[inline(always)]
pub fn read(p: &[u8]) -> CReading {
    unsafe { vikombare_read(p.as_ptr(), p.len()) }
}

#[inline(always)]
pub fn read_within(p: &[u8], limit: usize) -> CReading {
    unsafe { vikombare_read_within(p.as_ptr(), p.len(), limit) }
}

#[inline(always)]
pub fn write(out: &mut [u8], n: &basics::Notice, field: &[u8]) -> u8 {
    let &basics::Notice { continuity, pointer, periodic, reserved, sts, md, tps } = n;
    let [sts, md] = [sts, md].map(|steps| Steps { steps });
    let notice = CNotice { continuity, pointer, periodic, reserved, sts, md, tps };
    unsafe { vikombare_write(out.as_mut_ptr(), out.len(), notice, field.as_ptr(), field.len()) }
}

/// Starts an inserter in this memory, whatever it holds.
#[inline(always)]
pub fn inserter_start(inserter: &mut CInserter, settings: CInserterSettings, field: &[u8]) -> u8 {
    unsafe { vikombare_inserter_start(inserter, settings, field.as_ptr(), field.len()) }
}

/// A packet in place, with the STS of the next mark.
#[inline(always)]
pub fn insert(inserter: &mut CInserter, p: &mut [u8], sts: u32) -> u8 {
    unsafe { vikombare_insert(inserter, p.as_mut_ptr(), p.len(), Steps { steps: sts }) }
}
