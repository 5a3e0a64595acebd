//! Simpler calls, for shortening a failing sequence.

use super::shrink::smaller;
use crate::inputs::calls::{Board, Call, Lent, Limit};
use crate::inputs::notices;
use crate::other::basics::{self, Notice};
use crate::other::slave::{Numbers, Slave, UNKNOWN};

/// One gap for two calls that move the count, if need be by whole cadences less.
pub fn joined(one: &Call, another: &Call) -> Vec<Call> {
    let moved = |call: &Call| match call {
        Call::Gap(k) => Some(u32::from(*k)),
        Call::Packet { .. } | Call::Numbers { .. } => Some(1),
        _ => None,
    };
    let Some(sum) = moved(one).zip(moved(another)).map(|(one, another)| one + another) else { return Vec::new() };
    u16::try_from(sum).map_or_else(|_| within_a_cadence(sum).collect(), |sum| vec![Call::Gap(sum)])
}

/// Gaps that move the count of one cadence or another by as much.
fn within_a_cadence(k: u32) -> impl Iterator<Item = Call> {
    basics::dvb_cadences().chain([624]).filter(move |n| u32::from(*n) <= k).map(move |n| Call::Gap((k % u32::from(n)) as u16))
}

/// Calls of the same kind with one argument simpler.
pub fn simpler(call: &Call) -> Vec<Call> {
    match call {
        Call::Hand(slave) => simpler_slaves(slave).into_iter().map(Call::Hand).collect(),
        Call::Start(board) => simpler_boards(board).into_iter().map(Call::Start).collect(),
        Call::Packet { form, packet, tick, limit } => {
            let packets = simpler_packets(packet).into_iter().map(|packet| (packet, *tick, *limit));
            let ticks = words(*tick).map(|tick| (packet.clone(), tick, *limit));
            let limits = limits(*limit).map(|limit| (packet.clone(), *tick, limit));
            packets.chain(ticks).chain(limits).map(|(packet, tick, limit)| Call::Packet { form: *form, packet, tick, limit }).collect()
        }
        Call::Numbers { packet, tick, numbers } => {
            let packets = simpler_packets(packet).into_iter().map(|packet| (packet, *tick, *numbers));
            let ticks = words(*tick).map(|tick| (packet.clone(), tick, *numbers));
            let values = simpler_numbers(numbers).into_iter().map(|numbers| (packet.clone(), *tick, numbers));
            packets.chain(ticks).chain(values).map(|(packet, tick, numbers)| Call::Numbers { packet, tick, numbers }).collect()
        }
        Call::Gap(k) => pairs(*k).map(Call::Gap).chain(within_a_cadence((*k).into())).collect(),
        Call::Save(out) => simpler_bytes(out).into_iter().map(Call::Save).collect(),
        Call::Resume(block, board) => {
            let blocks = simpler_bytes(block).into_iter().map(|block| Call::Resume(block, *board));
            blocks.chain(simpler_boards(board).into_iter().map(|board| Call::Resume(block.clone(), board))).collect()
        }
        Call::Read(packet, limit) => {
            let packets = simpler_packets(packet).into_iter().map(|packet| Call::Read(packet, *limit));
            packets.chain(limits(*limit).map(|limit| Call::Read(packet.clone(), limit))).collect()
        }
        Call::Write { out, notice, field } => {
            let outs = simpler_bytes(out).into_iter().map(|out| (out, *notice, field.clone()));
            let notices = simpler_notices(notice).into_iter().map(|notice| (out.clone(), notice, field.clone()));
            let fields = smaller(field.len() as u64).into_iter().map(|length| (out.clone(), *notice, field[..length as usize].to_vec()));
            outs.chain(notices).chain(fields).map(|(out, notice, field)| Call::Write { out, notice, field }).collect()
        }
    }
}

fn words(x: u32) -> impl Iterator<Item = u32> {
    smaller(x.into()).into_iter().map(|less| less as u32)
}

fn pairs(x: u16) -> impl Iterator<Item = u16> {
    words(x.into()).map(|less| less as u16)
}

/// No limit, then lower ones.
fn limits(limit: Limit) -> impl Iterator<Item = Limit> {
    limit.into_iter().flat_map(|limit| std::iter::once(None).chain(smaller(limit as u64).into_iter().map(|less| Some(less as usize))))
}

/// Numbers nearer to 0, of the same sign.
fn offsets(x: i16) -> impl Iterator<Item = i16> {
    pairs(x.unsigned_abs()).map(move |less| (i32::from(x.signum()) * i32::from(less)) as i16)
}

fn simpler_boards(b: &Board) -> Vec<Board> {
    let sites = pairs(b.site).filter(|site| *site > 0).map(|site| Board { site, ..*b });
    let shorter = (b.profile == 0 && b.n > 2016).then_some(Board { n: 2016, ..*b });
    shorter.into_iter().chain(sites).chain(words(b.tad).map(|tad| Board { tad, ..*b })).collect()
}

fn simpler_slaves(s: &Slave) -> Vec<Slave> {
    let boards = simpler_boards(&Board::of(s)).into_iter().map(|Board { profile, n, site, tad }| Slave { profile, n, site, tad, ..*s });
    let times = words(s.sts).map(|sts| Slave { sts, ..*s }).chain(words(s.md).map(|md| Slave { md, ..*s }));
    let settings = offsets(s.od).map(|od| Slave { od, ..*s }).chain(pairs(s.power).map(|power| Slave { power, ..*s }));
    let unset = (s.frequency != 0).then_some(Slave { frequency: 0, ..*s });
    let unknown = (s.index != UNKNOWN).then_some(Slave { index: UNKNOWN, ..*s });
    let coasted = pairs(s.coasted.into()).map(|coasted| Slave { coasted: coasted as u8, ..*s });
    let settled = settings.chain(unset).chain(unknown).chain(coasted);
    boards.chain(times).chain(settled).chain(pairs(s.next).map(|next| Slave { next, ..*s })).collect()
}

fn simpler_numbers(m: &Numbers) -> Vec<Numbers> {
    let times = words(m.sts).map(|sts| Numbers { sts, ..*m }).chain(words(m.md).map(|md| Numbers { md, ..*m }));
    let unknown = (m.index != UNKNOWN).then_some(Numbers { index: UNKNOWN, ..*m });
    let pointers = pairs(m.pointer).map(|pointer| Numbers { pointer, ..*m });
    times.chain(offsets(m.od).map(|od| Numbers { od, ..*m })).chain(pointers).chain(unknown).collect()
}

fn simpler_notices(n: &Notice) -> Vec<Notice> {
    let times = words(n.sts).map(|sts| Notice { sts, ..*n }).chain(words(n.md).map(|md| Notice { md, ..*n }));
    let carried = pairs(n.reserved).map(|reserved| Notice { reserved, ..*n }).chain(words(n.tps).map(|tps| Notice { tps, ..*n }));
    let unset = n.periodic.then_some(Notice { periodic: false, ..*n });
    let counters = pairs(n.continuity.into()).map(|continuity| Notice { continuity: continuity as u8, ..*n });
    times.chain(carried).chain(counters).chain(unset).chain(pairs(n.pointer).map(|pointer| Notice { pointer, ..*n })).collect()
}

/// With nothing about them; with their second half, their first half or one of their bytes zero.
fn simpler_bytes(lent: &Lent) -> Vec<Lent> {
    let bytes = lent.bytes();
    let half = bytes.len() / 2;
    let parts = [0..half, half..bytes.len()].into_iter().chain((0..bytes.len()).map(|at| at..at + 1));
    let zeroed = parts.filter(|part| bytes[part.clone()].iter().any(|byte| *byte != 0)).map(|part| {
        let mut bytes = bytes.to_vec();
        bytes[part].fill(0);
        lent.with(&bytes)
    });
    (!lent.is_alone()).then(|| Lent::alone(bytes.to_vec())).into_iter().chain(zeroed).collect()
}

/// The null packet; a MIP with no addressing or with a smaller field, its check value made right where it was; 0xFF where the section has ended.
pub fn simpler_packets(lent: &Lent) -> Vec<Lent> {
    let bytes = lent.bytes();
    let mut simpler = Vec::new();
    if !lent.is_alone() {
        simpler.push(Lent::alone(bytes.to_vec()));
    }
    if bytes.len() != 188 {
        simpler.extend(smaller(bytes.len() as u64).into_iter().filter(|length| *length != 188).map(|length| lent.with(&bytes[..length as usize])));
        return simpler;
    }
    let null = notices::null();
    if bytes == null {
        return simpler;
    }
    simpler.push(lent.with(&null));
    let (a, end) = (usize::from(bytes[20]), 25 + usize::from(bytes[20]));
    let sealed = a <= 163 && basics::register(&bytes[..end]) == 0;
    let mut push = |packet: &mut Vec<u8>| {
        if sealed {
            notices::reseal(packet);
        }
        simpler.push(lent.with(packet));
    };
    if sealed && a > 0 {
        let mut packet = bytes.to_vec();
        (packet[5], packet[20]) = (19, 0);
        push(&mut packet);
    }
    for (from, to) in [(6, 8), (8, 10), (10, 13), (13, 16), (16, 20)] {
        let value = bytes[from..to].iter().fold(0, |value, byte| value << 8 | u64::from(*byte));
        for less in smaller(value) {
            let mut packet = bytes.to_vec();
            packet[from..to].copy_from_slice(&less.to_be_bytes()[8 - (to - from)..]);
            push(&mut packet);
        }
    }
    if bytes[3] & 0x0F != 0 {
        let mut packet = bytes.to_vec();
        packet[3] &= 0xF0;
        push(&mut packet);
    }
    if end < 188 && bytes[end..].iter().any(|byte| *byte != 0xFF) {
        let mut packet = bytes.to_vec();
        packet[end..].fill(0xFF);
        push(&mut packet);
    }
    simpler
}
