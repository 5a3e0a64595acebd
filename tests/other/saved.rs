//! The saved block: save and resume. From document 01 and document 02's Paper 12, over the slave.

use super::basics::register;
use super::faults::{rule, Fault::*};
use super::slave::{Slave, COLD, HUNTING, LOCKED, MOST};

/// The bytes of a body, of a trailer, and of what save writes.
pub const BODY: usize = 31;
pub const TRAILER: usize = 8;
pub const BLOCK: usize = 39;

/// The same of the release that knew no marks coasted.
pub const OLD_BODY: usize = 30;
pub const OLD_BLOCK: usize = 38;

/// A slave's parts in the body's order, big-endian.
pub fn body(s: &Slave) -> [u8; BODY] {
    let next = rule(s.next, SaveLabelSwapped, s.next.swap_bytes());
    let mut body = [0; BODY];
    (body[0], body[1]) = (s.phase, s.profile);
    body[2..4].copy_from_slice(&s.n.to_be_bytes());
    body[4..6].copy_from_slice(&s.site.to_be_bytes());
    body[6..10].copy_from_slice(&s.tad.to_be_bytes());
    body[10..12].copy_from_slice(&s.od.to_be_bytes());
    body[12..16].copy_from_slice(&s.frequency.to_be_bytes());
    body[16..18].copy_from_slice(&s.power.to_be_bytes());
    body[18..20].copy_from_slice(&next.to_be_bytes());
    (body[20], body[21]) = (s.pending, s.index);
    body[22..26].copy_from_slice(&s.sts.to_be_bytes());
    body[26..30].copy_from_slice(&s.md.to_be_bytes());
    body[30] = rule(s.coasted, SaveCoastedMost, MOST);
    body
}

fn u16_at(b: &[u8], at: usize) -> u16 {
    u16::from_be_bytes([b[at], b[at + 1]])
}

fn u32_at(b: &[u8], at: usize) -> u32 {
    u32::from_be_bytes([b[at], b[at + 1], b[at + 2], b[at + 3]])
}

/// The parts that 30 bytes say, whatever they are, and these marks coasted.
fn parts(b: &[u8], coasted: u8) -> Slave {
    let (od, frequency) = (u16_at(b, 10) as i16, u32_at(b, 12) as i32);
    Slave {
        phase: b[0],
        profile: b[1],
        n: u16_at(b, 2),
        site: u16_at(b, 4),
        tad: u32_at(b, 6),
        od: rule(od, OffsetUnsigned, od.max(0)),
        frequency: rule(frequency, FrequencyOf24Bits, frequency & 0xFF_FFFF),
        power: u16_at(b, 16),
        next: u16_at(b, 18),
        pending: b[20],
        index: b[21],
        sts: u32_at(b, 22),
        md: u32_at(b, 26),
        coasted,
    }
}

/// Bytes followed by the check value that makes all together leave zero.
pub fn sealed(mut bytes: Vec<u8>) -> Vec<u8> {
    let check = register(&bytes);
    bytes.extend(check.to_be_bytes());
    bytes
}

/// Save: 15, 18.
pub fn save(s: &Slave, out: &mut [u8]) -> Result<(), u8> {
    save_with(register, s, out)
}

/// Save over a check register of the caller's choice.
pub fn save_with(register: impl Fn(&[u8]) -> u32, s: &Slave, out: &mut [u8]) -> Result<(), u8> {
    let distance = rule(BODY, SaveOtherDistance, BLOCK) as u16;
    let mut block = [0; BLOCK];
    block[..BODY].copy_from_slice(&body(s));
    block[31..33].copy_from_slice(&s.site.to_be_bytes());
    block[33..35].copy_from_slice(&distance.to_be_bytes());
    let check = register(&block[..35]);
    block[35..].copy_from_slice(&check.to_be_bytes());
    block[38] ^= rule(0, SaveCheckInverted, 0xFF);
    let cold = if s.sound() { Ok(()) } else { Err(15) };
    let short = if out.len() < rule(rule(BLOCK, SaveNeedsMore, BLOCK + 1), SaveNeedsOld, OLD_BLOCK) { Err(18) } else { Ok(()) };
    let answer = rule(cold.and(short), SaveRoomFirst, short.and(cold));
    if answer.is_ok() || rule(false, SaveRefusedWrites, true) {
        let room = out.len().min(BLOCK);
        out[..room].copy_from_slice(&block[..room]);
        if rule(false, SaveTailCleared, true) {
            out[room..].fill(0);
        }
    }
    answer
}

/// The slave that a block holds, if it is a sound block; by the older release's reading, where every body is an old one.
fn held(register: impl Fn(&[u8]) -> u32, block: &[u8], older: bool) -> Option<Slave> {
    let block = rule(block, BlockAtFront, &block[..block.len().min(BLOCK)]);
    let end = block.len().checked_sub(TRAILER)?;
    let site = u16_at(block, end);
    let distance = usize::from(u16_at(block, end + 2));
    if distance < rule(rule(OLD_BODY, DistanceOf29, OLD_BODY - 1), OldRefused, BODY) || distance > rule(usize::MAX, DistanceOf31Only, BODY) {
        return None;
    }
    let start = rule(end.checked_sub(distance), DistanceCut, Some(end.saturating_sub(distance)))?;
    let old = older || distance <= rule(OLD_BODY, NewReadOld, BODY) || rule(false, LongReadOld, distance > BODY);
    let body = block.get(start..start + if old { OLD_BODY } else { BODY })?;
    let byte_30 = *block.get(start + OLD_BODY)?;
    let s = parts(body, if old { rule(rule(MOST, OldReadZero, 0), OldReadOn, byte_30) } else { byte_30 });
    let sound = rule(s.sound(), AnyPhase, s.phase != 0 && Slave { phase: LOCKED, ..s }.sound());
    let sound = rule(sound, HuntingAnyCoasted, Slave { coasted: if s.phase == HUNTING { MOST } else { s.coasted }, ..s }.sound());
    let left = if rule(false, CheckOfBody, true) { register(&[body, &block[end + 4..]].concat()) } else { register(&block[start..]) };
    let check = rule(left == 0, CheckUnjudged, true);
    let same_site = rule(site == s.site, TrailerSiteUnjudged, true);
    (check && same_site && sound).then_some(s)
}

/// Resume on a board of these settings: 15, 16, 17. What is left is the cold slave, a fresh hunting one, or the block's.
pub fn resume(block: &[u8], profile: u8, n: u16, site: u16, tad: u32) -> (Slave, Result<(), u8>) {
    resume_with(register, block, profile, n, site, tad)
}

/// Resume over a check register of the caller's choice.
pub fn resume_with(register: impl Fn(&[u8]) -> u32, block: &[u8], profile: u8, n: u16, site: u16, tad: u32) -> (Slave, Result<(), u8>) {
    resumed(held(register, block, false), block, profile, n, site, tad)
}

/// Resume by the release before this one, as document 01 alone has it. Its slaves count no marks; here they have the 255 that an old block is read with.
pub fn older_resume(block: &[u8], profile: u8, n: u16, site: u16, tad: u32) -> (Slave, Result<(), u8>) {
    resumed(held(register, block, true), block, profile, n, site, tad)
}

/// What a resume leaves and says of a block that holds this slave, or none.
fn resumed(s: Option<Slave>, block: &[u8], profile: u8, n: u16, site: u16, tad: u32) -> (Slave, Result<(), u8>) {
    let Ok(fresh) = Slave::start(profile, n, site, tad) else {
        let left = rule(COLD, RefusedSettingsKept, Slave::hunting(profile, n, site, tad));
        return (left, Err(if s.is_none() { rule(15, SettingsLast, 16) } else { 15 }));
    };
    let other = |s: &Slave| {
        rule(s.site != site, SiteUnjudged, false)
            || s.profile != profile
            || rule(s.n != n, CadenceUnjudged, false)
            || rule(s.tad != tad, TadUnjudged, false)
    };
    match s {
        None if block.len() < OLD_BLOCK => (fresh, Err(rule(16, ShortAsOther, 17))),
        None => {
            let said = parts(&block[block.len().saturating_sub(BLOCK)..], MOST);
            let left = rule(fresh, RefusedBlockHunts, Slave { tad: said.tad, ..fresh });
            (left, Err(rule(16, OtherBoardFirst, if other(&said) { 17 } else { 16 })))
        }
        Some(s) if other(&s) => (rule(fresh, OtherBoardKept, s), Err(17)),
        Some(s) => (s, Ok(())),
    }
}
