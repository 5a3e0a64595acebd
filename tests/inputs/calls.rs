//! A board's calls as data, so that a sequence of them can be compared, run again, shortened and printed.

use super::random::{Hex, Random};
use crate::bindings::answers::{Change, Reading, Step};
use crate::bindings::vikombare::Reply;
use crate::bindings::{probe, vikombare};
use crate::other::basics::{self, Notice};
use crate::other::saved;
use crate::other::slave::{Numbers, Slave, COLD};
use std::fmt;

/// A board's settings.
#[derive(Clone, Copy, Debug, PartialEq)]
pub struct Board {
    pub profile: u8,
    pub n: u16,
    pub site: u16,
    pub tad: u32,
}

impl Board {
    pub fn of(s: &Slave) -> Board {
        Board { profile: s.profile, n: s.n, site: s.site, tad: s.tad }
    }
}

/// Bytes that are lent to a call, at any alignment: a part of a larger room.
#[derive(Clone, PartialEq)]
pub struct Lent {
    room: Vec<u8>,
    from: usize,
    to: usize,
}

impl Lent {
    /// The bytes behind up to 15 others, with none after them.
    pub fn new(r: &mut Random, bytes: &[u8]) -> Lent {
        let from = r.below(16);
        let mut room = Vec::with_capacity(from + bytes.len());
        room.resize(from, 0xA5);
        room.extend_from_slice(bytes);
        Lent { to: room.len(), room, from }
    }

    /// The bytes alone.
    pub fn alone(bytes: Vec<u8>) -> Lent {
        Lent { from: 0, to: bytes.len(), room: bytes }
    }

    /// The bytes between others, for a call that writes.
    pub fn between(r: &mut Random, bytes: &[u8]) -> Lent {
        let mut lent = Lent::new(r, bytes);
        lent.room.extend(r.bytes(48));
        lent
    }

    pub fn bytes(&self) -> &[u8] {
        &self.room[self.from..self.to]
    }

    /// How many bytes stand before the lent ones.
    pub fn from(&self) -> usize {
        self.from
    }

    /// All bytes about the lent ones, and they.
    pub fn room(&self) -> Hex {
        Hex(self.room.clone())
    }

    /// Whether nothing stands about the lent ones.
    pub fn is_alone(&self) -> bool {
        self.room.len() == self.bytes().len()
    }

    /// Other bytes in the same room.
    pub fn with(&self, bytes: &[u8]) -> Lent {
        let room = [&self.room[..self.from], bytes, &self.room[self.to..]].concat();
        Lent { room, from: self.from, to: self.from + bytes.len() }
    }

    /// What a call writes into the bytes: its number and the whole room after it.
    pub fn after(&self, call: impl FnOnce(&mut [u8]) -> u8) -> (u8, Hex) {
        let mut room = self.room.clone();
        let number = call(&mut room[self.from..self.to]);
        (number, Hex(room))
    }

    fn written(&self, call: impl FnOnce(&mut [u8]) -> u8) -> Said {
        let (number, room) = self.after(call);
        Said::Written(number, room)
    }
}

impl fmt::Debug for Lent {
    fn fmt(&self, f: &mut fmt::Formatter) -> fmt::Result {
        write!(f, "{:?}", Hex(self.bytes().to_vec()))?;
        if !self.is_alone() {
            write!(f, " ({} bytes before them, {} behind)", self.from, self.room.len() - self.to)?;
        }
        Ok(())
    }
}

/// The limit of a call's reader on the addressing field; none for the full board's call, which gives none.
pub type Limit = Option<usize>;

/// How a packet is handed over: in place, with a tick of the slave's own clock; by value; or in place with a tick of this profile's clock.
#[derive(Clone, Copy, Debug, PartialEq)]
pub enum Form {
    InPlace,
    ByValue,
    OfClock(u8),
}

/// A call. Each gets the slave that the last one left.
#[derive(Clone, Debug, PartialEq)]
pub enum Call {
    /// No call: a slave of any parts is handed in.
    Hand(Slave),
    Start(Board),
    Packet {
        form: Form,
        packet: Lent,
        tick: u32,
        limit: Limit,
    },
    Numbers {
        packet: Lent,
        tick: u32,
        numbers: Numbers,
    },
    Gap(u16),
    Save(Lent),
    Resume(Lent, Board),
    Read(Lent, Limit),
    Write {
        out: Lent,
        notice: Notice,
        field: Vec<u8>,
    },
}

/// What a call says beside the slave that it leaves.
#[derive(Clone, Debug, PartialEq)]
pub enum Said {
    Nothing,
    Number(u8),
    Reply(Reply),
    /// A number, and all the bytes about the lent ones.
    Written(u8, Hex),
    Reading(Reading),
}

#[derive(Clone, Debug, PartialEq)]
pub struct Outcome {
    pub slave: Slave,
    pub said: Said,
}

impl Outcome {
    /// The number that refuses the whole call, or 0.
    pub fn number(&self) -> u8 {
        match &self.said {
            Said::Nothing => 0,
            Said::Number(number) | Said::Written(number, _) => *number,
            Said::Reply(reply) => reply.number,
            Said::Reading(reading) => reading.number,
        }
    }

    /// What a packet or a numbers notice left and replied.
    pub fn step(&self) -> Step {
        match self.said {
            Said::Reply(reply) => Step { slave: self.slave, reply },
            _ => unreachable!("only a packet and a numbers notice have a reply"),
        }
    }
}

impl From<Change> for Outcome {
    fn from(change: Change) -> Outcome {
        Outcome { slave: change.slave, said: Said::Number(change.number) }
    }
}

impl From<Step> for Outcome {
    fn from(step: Step) -> Outcome {
        Outcome { slave: step.slave, said: Said::Reply(step.reply) }
    }
}

/// One implementation.
pub type Code = fn(&Call, Slave) -> Outcome;

/// The proved code.
pub fn ours(call: &Call, slave: Slave) -> Outcome {
    let keeping = |said| Outcome { slave, said };
    let lending = |lent: &Lent, clock, tick, limit| {
        let mut lent_slave = slave.into();
        let reply = match limit {
            None => vikombare::packet(&mut lent_slave, lent.bytes(), clock, tick),
            Some(limit) => vikombare::packet_within(&mut lent_slave, lent.bytes(), clock, tick, limit),
        };
        Step { slave: lent_slave.into(), reply }.into()
    };
    match call {
        Call::Hand(slave) => Outcome { slave: *slave, said: Said::Nothing },
        Call::Start(b) => Change::from(vikombare::start(b.profile, b.n, b.site, b.tad)).into(),
        Call::Packet { form: Form::InPlace, packet, tick, limit } => lending(packet, slave.profile, *tick, *limit),
        Call::Packet { form: Form::OfClock(clock), packet, tick, limit } => lending(packet, *clock, *tick, *limit),
        Call::Packet { form: Form::ByValue, packet, tick, limit } => by_value(slave, packet, *tick, *limit),
        Call::Numbers { packet, tick, numbers } => Step::from(vikombare::numbers(slave.into(), packet.bytes(), *tick, numbers)).into(),
        Call::Gap(k) => Change::from(vikombare::gap(slave.into(), *k)).into(),
        Call::Save(out) => keeping(out.written(|bytes| vikombare::save(slave.into(), bytes))),
        Call::Resume(block, b) => Change::from(vikombare::resume(block.bytes(), b.profile, b.n, b.site, b.tad)).into(),
        Call::Read(packet, None) => keeping(Said::Reading(vikombare::read(packet.bytes()).into())),
        Call::Read(packet, Some(limit)) => keeping(Said::Reading(vikombare::read_within(packet.bytes(), *limit).into())),
        Call::Write { out, notice, field } => keeping(out.written(|bytes| vikombare::write(bytes, notice, field))),
    }
}

/// A packet that the proved code gets by value, where each call gives a limit.
fn by_value(slave: Slave, packet: &Lent, tick: u32, limit: Limit) -> Outcome {
    Step::from(probe::packet_within(slave.into(), packet.bytes(), tick, limit.unwrap_or(basics::FULL))).into()
}

/// The other implementation.
pub fn other(call: &Call, slave: Slave) -> Outcome {
    let keeping = |said| Outcome { slave, said };
    match call {
        Call::Hand(slave) => Outcome { slave: *slave, said: Said::Nothing },
        Call::Start(b) => Change::from(Slave::start(b.profile, b.n, b.site, b.tad)).into(),
        Call::Packet { form: Form::OfClock(clock), packet, tick, .. } if *clock != slave.profile => {
            Step::from(slave.foreign_packet(packet.bytes(), *tick)).into()
        }
        Call::Packet { packet, tick, limit, .. } => Step::from(slave.packet_within(packet.bytes(), *tick, limit.unwrap_or(basics::FULL))).into(),
        Call::Numbers { packet, tick, numbers } => Step::from(slave.numbers_by_value(packet.bytes(), *tick, numbers)).into(),
        Call::Gap(k) => Change::from(slave.gap_by_value(*k)).into(),
        Call::Save(out) => keeping(out.written(|bytes| saved::save(&slave, bytes).err().unwrap_or(0))),
        Call::Resume(block, b) => Change::from(saved::resume(block.bytes(), b.profile, b.n, b.site, b.tad)).into(),
        Call::Read(packet, limit) => keeping(Said::Reading(basics::read_within(packet.bytes(), limit.unwrap_or(basics::FULL)).into())),
        Call::Write { out, notice, field } => keeping(out.written(|bytes| basics::write(bytes, notice, field).err().unwrap_or(0))),
    }
}

/// Where a sequence's answers first differ: at which call, with which slave, and both answers.
#[derive(Debug)]
pub struct Disagreement {
    pub at: usize,
    pub slave: Slave,
    pub ours: Outcome,
    pub other: Outcome,
}

/// The answer on which both implementations agree and, for a packet, both of the proved forms; or ours and the other's.
pub fn agreed(call: &Call, slave: Slave) -> Result<Outcome, (Outcome, Outcome)> {
    let (ours, other) = (ours(call, slave), other(call, slave));
    if ours != other {
        return Err((ours, other));
    }
    if let Call::Packet { form: Form::InPlace, packet, tick, limit } = call {
        let by_value = by_value(slave, packet, *tick, *limit);
        if by_value != other {
            return Err((by_value, other));
        }
    }
    Ok(ours)
}

/// Runs a sequence from the cold slave on.
pub fn disagreement(calls: &[Call]) -> Option<Disagreement> {
    let mut slave = COLD;
    for (at, call) in calls.iter().enumerate() {
        match agreed(call, slave) {
            Ok(outcome) => slave = outcome.slave,
            Err((ours, other)) => return Some(Disagreement { at, slave, ours, other }),
        }
    }
    None
}
