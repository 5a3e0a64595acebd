//! An inserter's calls as data, so that a sequence of them can be compared, run again, shortened and printed; and inputs for them.

use super::calls::Lent;
use super::notices::{self, WRONG_FORMS};
use super::random::{Hex, Random};
use crate::bindings::inserter::CInserter;
use crate::bindings::vikombare;
use crate::other::basics::{dvb_cadences, DVB_SECOND, FULL};
use crate::other::inserter::{Inserter, Settings, ZEROS};
use std::fmt;

/// A call. Each gets the inserter that the last one left.
#[derive(Clone, Debug, PartialEq)]
pub enum Call {
    /// No call: an inserter of any parts is handed in.
    Hand(Box<Inserter>),
    Start(Settings, Lent),
    /// The packet with this STS, so many times, each a call.
    Insert {
        packet: Lent,
        sts: u32,
        times: u32,
    },
}

/// What a call leaves and says: the inserter, its number, and all the bytes about the lent packet.
#[derive(Clone, Debug, PartialEq)]
pub struct Outcome {
    pub inserter: Inserter,
    pub number: u8,
    pub room: Option<Hex>,
}

/// One implementation. Of a packet that comes many times it makes the first call.
pub type Code = fn(&Call, Inserter) -> Outcome;

/// The proved code.
pub fn ours(call: &Call, inserter: Inserter) -> Outcome {
    let mut lent = CInserter::from(inserter);
    let (number, room) = match call {
        Call::Hand(inserter) => return Outcome { inserter: **inserter, number: 0, room: None },
        Call::Start(settings, field) => (vikombare::inserter_start(&mut lent, (*settings).into(), field.bytes()), None),
        Call::Insert { packet, sts, .. } => {
            let (number, room) = packet.after(|bytes| vikombare::insert(&mut lent, bytes, *sts));
            (number, Some(room))
        }
    };
    Outcome { inserter: lent.into(), number, room }
}

/// The other implementation.
pub fn other(call: &Call, mut inserter: Inserter) -> Outcome {
    let (number, room) = match call {
        Call::Hand(inserter) => return Outcome { inserter: **inserter, number: 0, room: None },
        Call::Start(settings, field) => (inserter.start(*settings, field.bytes()), None),
        Call::Insert { packet, sts, .. } => {
            let (number, room) = packet.after(|bytes| inserter.insert(bytes, *sts));
            (number, Some(room))
        }
    };
    Outcome { inserter, number, room }
}

/// Where a sequence's answers first differ: at which call, at which time of it, with which inserter, and both answers.
#[derive(Debug)]
pub struct Disagreement {
    pub at: usize,
    pub time: u32,
    pub inserter: Inserter,
    pub ours: Outcome,
    pub other: Outcome,
}

/// Makes a call, so many times as it says, in both implementations; `saw` gets the inserter before and what both gave.
pub fn agreed(call: &Call, inserter: &mut Inserter, mut saw: impl FnMut(&Inserter, &Outcome)) -> Result<(), Disagreement> {
    let times = if let Call::Insert { times, .. } = call { *times } else { 1 };
    for time in 1..=times {
        let (ours, other) = (ours(call, *inserter), other(call, *inserter));
        if ours != other {
            return Err(Disagreement { at: 0, time, inserter: *inserter, ours, other });
        }
        saw(inserter, &ours);
        *inserter = ours.inserter;
    }
    Ok(())
}

/// Runs a sequence from zeros on.
pub fn disagreement(calls: &[Call]) -> Option<Disagreement> {
    let mut inserter = ZEROS;
    calls.iter().enumerate().find_map(|(at, call)| {
        let found = agreed(call, &mut inserter, |_, _| ()).err()?;
        Some(Disagreement { at, ..found })
    })
}

impl fmt::Debug for Inserter {
    fn fmt(&self, f: &mut fmt::Formatter) -> fmt::Result {
        let Inserter { settings, label, placed, continuity, length, field } = self;
        write!(f, "{settings:?} label {label} placed {placed} continuity {continuity}, the first {length} of {:?}", Hex(field.to_vec()))
    }
}

// ---- Settings and inserters

/// Settings that a start takes.
pub fn settings(r: &mut Random) -> Settings {
    let cadences: Vec<u16> = dvb_cadences().collect();
    let notice = notices::notice(r);
    let md = if r.one_in(4) { r.pick(&[0, 1, DVB_SECOND - 1]) } else { notice.md };
    Settings { n: r.pick(&cadences), periodic: notice.periodic.into(), reserved: notice.reserved, md, tps: notice.tps }
}

/// The settings with this one of n, flag, reserved bits and MD out of its limits, or near them.
pub fn change(r: &mut Random, settings: Settings, part: usize) -> Settings {
    let mut s = settings;
    match part {
        0 => s.n = r.pick(&[0, 1, 624, 2015, 2017, 12_096, 65_535, s.n ^ 1, s.n.swap_bytes()]),
        1 => s.periodic = r.pick(&[2, 2, 3, 128, 129, 255]),
        2 => s.reserved = r.pick(&[32_768, 32_768, 32_769, 65_535]),
        _ => s.md = r.pick(&[DVB_SECOND, DVB_SECOND, DVB_SECOND + 1, 1 << 24, 1 << 31, u32::MAX]),
    }
    s
}

/// A field that a start takes: of any length that there is, often none.
pub fn field(r: &mut Random) -> Vec<u8> {
    match r.below(4) {
        0 => Vec::new(),
        1 => notices::field_of_length(r, 7, FULL).unwrap(),
        2 => notices::field(r, 7, 60),
        _ => {
            let length = r.below(FULL + 1);
            notices::field_of_length(r, 7, length).unwrap_or_default()
        }
    }
}

/// An inserter with these settings and this field, at this label; its parts are sound where the field is.
pub fn inserter(r: &mut Random, settings: Settings, field: &[u8], label: u16) -> Inserter {
    let mut room = [0; FULL];
    if r.one_in(3) {
        room.copy_from_slice(&r.bytes(FULL));
    }
    room[..field.len()].copy_from_slice(field);
    let placed = if label == 0 { 0 } else { r.below(2) as u8 };
    let continuity = if r.one_in(2) { r.pick(&[0, 14, 15]) } else { r.below(16) as u8 };
    Inserter { settings, label, placed, continuity, length: field.len() as u8, field: room }
}

/// A label, often on an end of the mega-frame.
pub fn label(r: &mut Random, n: u16) -> u16 {
    if r.one_in(2) {
        r.pick(&[0, 1, n - 3, n - 2, n - 1])
    } else {
        r.below(n.into()) as u16
    }
}

/// A sound inserter, as no start need have left it.
pub fn any_inserter(r: &mut Random) -> Inserter {
    let (settings, field) = (settings(r), field(r));
    let label = label(r, settings.n);
    inserter(r, settings, &field, label)
}

/// The parts of an inserter that can be out of range.
pub const PARTS: usize = 10;

/// The inserter with this part out of range: n, flag, reserved bits, MD, label, notice put, counter, the field's length and form, and a notice put
/// before label 0.
pub fn damaged(r: &mut Random, inserter: Inserter, part: usize) -> Inserter {
    let mut i = inserter;
    let n = i.settings.n;
    match part {
        0..=3 => i.settings = change(r, i.settings, part),
        4 => i.label = r.pick(&[n, n, n + 1, 32_768, 65_535]),
        5 => i.placed = r.pick(&[2, 2, 3, 128, 255]),
        6 => i.continuity = r.pick(&[16, 16, 17, 31, 128, 255]),
        7 => i.length = r.pick(&[164, 164, 165, 200, 255]),
        8 => {
            let kind = r.below(WRONG_FORMS.len());
            let field = notices::wrong_field(r, 7, kind);
            i.length = field.len() as u8;
            i.field[..field.len()].copy_from_slice(&field);
        }
        _ => (i.label, i.placed) = (0, 1),
    }
    i
}

// ---- Packets

/// A packet of this PID: its other header bits, and its payload, are a notice's, a null packet's or any.
pub fn packet_of_pid(r: &mut Random, pid: u16) -> Vec<u8> {
    let mut packet = match r.below(4) {
        0 => notices::packet(r, 7),
        1 => notices::null(),
        _ => [&[0x47][..], &r.bytes(187)].concat(),
    };
    let flags = if r.one_in(2) { [packet[1] & 0x60, 0x80][usize::from(r.one_in(8))] } else { (r.below(8) as u8) << 5 };
    packet[1..3].copy_from_slice(&pid.to_be_bytes());
    packet[1] |= flags;
    packet
}

/// A PID that is neither a null packet's nor a notice's, often like one of them.
pub fn other_pid(r: &mut Random) -> u16 {
    let pid = match r.below(4) {
        0 => r.pick(&[0x0014, 0x0016, 0x1015, 0x1F15, 0x0115, 0x1FFE, 0x1FEF, 0x0FFF, 0x00FF, 0x1EFF]),
        1 => 0x0015 ^ 1 << r.below(13),
        2 => 0x1FFF ^ 1 << r.below(13),
        _ => r.next() as u16 & 0x1FFF,
    };
    if pid == 0x0015 || pid == 0x1FFF {
        0x0100
    } else {
        pid
    }
}

/// A packet as a stream has it, or one of another length or with another first byte.
pub fn packet(r: &mut Random) -> Vec<u8> {
    let mut packet = match r.below(8) {
        0 | 1 => notices::null(),
        2 => packet_of_pid(r, 0x1FFF),
        3 | 4 => packet_of_pid(r, 0x0015),
        _ => {
            let pid = other_pid(r);
            packet_of_pid(r, pid)
        }
    };
    if r.one_in(16) {
        packet[0] = if r.one_in(2) { 0x47 ^ 1 << r.below(8) } else { r.next() as u8 };
    }
    if r.one_in(16) {
        let length = if r.one_in(2) { r.pick(&[0, 1, 4, 187, 189, 376]) } else { r.below(301) };
        packet.resize(length, 0xFF);
    }
    packet
}

/// An STS, at times on its limit or above.
pub fn sts(r: &mut Random) -> u32 {
    match r.below(12) {
        0 => r.pick(&[0, 1, 255, 256, 65_536, DVB_SECOND - 1]),
        1 => r.pick(&[DVB_SECOND, DVB_SECOND, DVB_SECOND + 1, 0xFF_FFFF, 1 << 24, 1 << 31, u32::MAX]),
        _ => r.below(DVB_SECOND as usize) as u32,
    }
}
