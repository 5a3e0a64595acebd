//! The inserter compared, call by call: start, and packets by the thousand.

use super::comparison::{Cases, Compared, Comparison, Difference, Subject};
use super::shrink::{self, smaller};
use super::simpler::simpler_packets;
use crate::bindings::inserter::CInserter;
use crate::bindings::vikombare;
use crate::inputs::calls::Lent;
use crate::inputs::inserters::{self, Call, Outcome, PARTS};
use crate::inputs::notices::{self, WRONG_FORMS};
use crate::inputs::random::Random;
use crate::inputs::streams::offset_entry;
use crate::other::basics::{check_form, dvb_cadences, DVB_SECOND, FULL};
use crate::other::faults::{self, Fault};
use crate::other::inserter::{is_sent, Inserter, Settings, NO_NULL_PACKET, ZEROS};
use crate::other::slave::admits;

pub struct Inserters;

impl Subject for Inserters {
    const NAME: &'static str = "the inserter";
    const COUNT: u64 = 2_000_000;
    const REQUIRED: fn() -> Cases = required;
    const FAULTS: &'static [&'static [Fault]] = &[faults::INSERTER];
    // a call with all its repetitions is one
    const LONGEST: usize = 3;

    fn random(comparison: &mut Comparison<Self>) -> Compared {
        comparison.random_track()
    }

    fn sweeps(comparison: &mut Comparison<Self>) -> Compared {
        comparison.sweep_settings()?;
        comparison.sweep_fields()?;
        comparison.sweep_lengths()?;
        comparison.sweep_parts()?;
        comparison.sweep_bits()?;
        comparison.sweep_headers()?;
        comparison.sweep_labels()?;
        comparison.sweep_mega_frames()?;
        comparison.sweep_heard()
    }
}

/// The calls since the track began, and the inserter that they left.
struct Track {
    calls: Vec<Call>,
    inserter: Inserter,
}

impl Track {
    fn of(inserter: Inserter) -> Track {
        Track { calls: vec![Call::Hand(Box::new(inserter))], inserter }
    }
}

/// A packet by its PID: null, of a notice, or another.
fn kind(packet: &[u8]) -> i64 {
    match u16::from_be_bytes([packet[1], packet[2]]) & 0x1FFF {
        0x1FFF => 0,
        0x0015 => 1,
        _ => 2,
    }
}

// ---- The calls

impl Comparison<Inserters> {
    /// A call of a track, with all its repetitions. Gives the last one's number.
    fn turn(&mut self, track: &mut Track, call: Call) -> Compared<u8> {
        let mut number = 0;
        let agreed = inserters::agreed(&call, &mut track.inserter, |before, outcome| {
            self.calls += 1;
            number = outcome.number;
            match &call {
                Call::Hand(_) => {}
                Call::Start(settings, field) => self.saw_start(settings, field.bytes(), before, outcome),
                Call::Insert { packet, sts, .. } => self.saw_packet(packet.bytes(), *sts, before, outcome),
            }
        });
        track.calls.push(call);
        match agreed {
            Ok(()) => Ok(number),
            Err(_) => Err(self.shortened_track(&track.calls)),
        }
    }

    fn saw_start(&mut self, s: &Settings, field: &[u8], before: &Inserter, outcome: &Outcome) {
        let number = outcome.number;
        self.saw("start", "number", number);
        let conditions = [!admits(0, s.n), s.periodic > 1 || s.reserved > 32_767, field.len() > FULL, check_form(field).is_err(), s.md >= DVB_SECOND];
        self.saw("start", "15 (16), 19 (8), 8 (4), 10 (2), 11 (1) apply", bits(&conditions));
        match number {
            0 => {
                self.saw("start", "n", s.n);
                self.saw("start", "accepted with a", field.len() as i64);
                self.saw("start", "accepted with reserved bits", s.reserved);
                self.saw("start", "accepted with MD", s.md);
                self.saw("start", "over a field that is longer (1)", i64::from(usize::from(before.length) > field.len()));
            }
            15 => self.saw("start", "15 for n", s.n),
            19 => self.saw("start", "19 for flag (1), reserved bits (2)", i64::from(s.periodic > 1) + 2 * i64::from(s.reserved > 32_767)),
            8 => self.saw("start", "8 with a", field.len() as i64),
            11 => self.saw("start", "11 for MD", s.md),
            _ => {}
        }
        if number != 0 {
            self.saw("start", "refused over zeros (0), over an inserter (1)", i64::from(*before != ZEROS));
        }
    }

    fn saw_packet(&mut self, packet: &[u8], sts: u32, before: &Inserter, outcome: &Outcome) {
        let number = outcome.number;
        self.saw("insert", "number", number);
        self.saw("insert", "of length", packet.len() as i64);
        let conditions = [!before.sound(), packet.len() != 188, packet.first() != Some(&0x47), sts >= DVB_SECOND];
        self.saw("insert", "15 (8), 1 (4), 2 (2), 11 (1) apply", bits(&conditions));
        if packet.len() != 188 || number == 15 {
            return;
        }
        let (n, a) = (before.settings.n, i64::from(before.length));
        let placed = i64::from(before.placed);
        let place = match before.label {
            0 => 0,
            label => 100 + 100 * i64::from(label == n - 1),
        };
        let what = place + 10 * placed + kind(packet);
        match number {
            2 => self.saw("insert", "2, on a label", what),
            11 => {
                self.saw("insert", "11, on a label", what);
                self.saw("insert", "11 for STS", sts);
            }
            _ => {}
        }
        if !is_sent(number) {
            return;
        }
        self.saw("insert", "on a label", what);
        self.saw("insert", "with STS", sts);
        let header = u16::from_be_bytes([packet[1], packet[2]]);
        self.saw("insert", "of PID", header & 0x1FFF);
        self.saw("insert", "header bits", 100 * placed + 10 * kind(packet) + i64::from(header >> 13));
        if before.field[a as usize..].iter().any(|byte| *byte != 0) {
            self.saw("insert", "with other bytes behind the field", kind(packet));
        }
        if placed == 0 && kind(packet) < 2 {
            self.saw("insert", "notice with a", a);
            self.saw("insert", "notice with counter", before.continuity);
            self.saw("insert", "notice with n", n);
            self.saw("insert", "notice with flag", before.settings.periodic);
            self.saw("insert", "notice with reserved bits", before.settings.reserved);
        }
        if number == NO_NULL_PACKET {
            self.saw("insert", "21 with n", n);
            self.saw("insert", "21 with counter", before.continuity);
        }
    }

    /// The difference at the track's last call, with the shortest failing track found.
    fn shortened_track(&self, calls: &[Call]) -> Difference {
        let fails = |calls: &[Call]| inserters::disagreement(calls).map(|found| found.at + 1);
        let shortest = shrink::shortest(calls, fails, joined, simpler);
        let found = inserters::disagreement(&shortest);
        let made = |calls: &[Call]| calls.iter().filter(|call| !matches!(call, Call::Hand(_))).count();
        let mut text = format!("seed {} call {}; the shortest failing sequence found:", self.seed, self.calls);
        for (number, call) in (1..).zip(&shortest) {
            text += &format!("\n  {number}. {call:?}");
        }
        match &found {
            Some(found) => {
                text += &format!("\n  the {}. time, with {:?}\n  ours  {:?}\n  other {:?}", found.time, found.inserter, found.ours, found.other)
            }
            None => text += "\n  does not fail again",
        }
        Difference { text, whole: made(calls), shortest: made(&shortest), again: found.is_some() }
    }
}

/// The conditions as a number, the first as its highest bit.
fn bits(conditions: &[bool]) -> i64 {
    conditions.iter().fold(0, |number, holds| 2 * number + i64::from(*holds))
}

// ---- Random tracks

impl Comparison<Inserters> {
    fn random_track(&mut self) -> Compared {
        let inserter = inserters::any_inserter(&mut self.random);
        let mut track = Track::of(inserter);
        for _ in 0..1 + self.random.below(40) {
            let r = &mut self.random;
            if !track.inserter.sound() && !r.one_in(4) {
                let call = if r.one_in(2) { Call::Hand(Box::new(inserters::any_inserter(r))) } else { start(r) };
                self.turn(&mut track, call)?;
                continue;
            }
            match r.below(24) {
                0 => {
                    let call = Call::Hand(Box::new(inserters::any_inserter(r)));
                    self.turn(&mut track, call)?;
                }
                1 => {
                    let part = r.below(PARTS);
                    let damaged = inserters::any_inserter(r);
                    let damaged = inserters::damaged(r, damaged, part);
                    let call = insert(r, &damaged);
                    self.turn(&mut track, Call::Hand(Box::new(damaged)))?;
                    self.turn(&mut track, call)?;
                }
                2 | 3 => {
                    let call = start(r);
                    self.turn(&mut track, call)?;
                }
                _ => {
                    let call = insert(r, &track.inserter);
                    self.turn(&mut track, call)?;
                }
            }
        }
        Ok(())
    }
}

/// A start, most often with what it takes, else with one thing wrong or several.
fn start(r: &mut Random) -> Call {
    let (mut settings, mut field) = (inserters::settings(r), inserters::field(r));
    let wrong = r.pick(&[0, 0, 1, 2, 3]);
    for _ in 0..wrong {
        match r.below(6) {
            part @ 0..=3 => settings = inserters::change(r, settings, part),
            4 => {
                let kind = r.below(WRONG_FORMS.len());
                field = notices::wrong_field(r, 7, kind);
            }
            _ => {
                let length = r.pick(&[164, 164, 165, 182, 200, 255, 256, 300]);
                field = if r.one_in(2) { r.bytes(length) } else { notices::field_of_length(r, 7, length).unwrap() };
            }
        }
    }
    Call::Start(settings, Lent::new(r, &field))
}

/// A packet for this inserter, at times in a row up to the end of its mega-frame, or over mega-frames.
fn insert(r: &mut Random, inserter: &Inserter) -> Call {
    let (packet, sts) = (inserters::packet(r), inserters::sts(r));
    let n = u32::from(inserter.settings.n);
    let times = match r.below(200) {
        0 => n.saturating_sub(inserter.label.into()).saturating_sub(r.below(3) as u32).max(1),
        1 => 1 + r.below(2 * n as usize + 1) as u32,
        2..=20 => 1 + r.below(4) as u32,
        _ => 1,
    };
    Call::Insert { packet: Lent::between(r, &packet), sts, times }
}

// ---- Sweeps

impl Comparison<Inserters> {
    /// A packet between other bytes.
    fn lent(&mut self, packet: &[u8]) -> Lent {
        Lent::between(&mut self.random, packet)
    }

    /// One packet for an inserter that is handed in. Gives its number.
    fn single(&mut self, inserter: Inserter, packet: &[u8], sts: u32) -> Compared<u8> {
        let packet = self.lent(packet);
        self.turn(&mut Track::of(inserter), Call::Insert { packet, sts, times: 1 })
    }

    /// A start over what another inserter left in the memory.
    fn start(&mut self, settings: Settings, field: &[u8]) -> Compared<u8> {
        let before = if self.random.one_in(4) { ZEROS } else { inserters::any_inserter(&mut self.random) };
        let field = Lent::new(&mut self.random, field);
        self.turn(&mut Track::of(before), Call::Start(settings, field))
    }

    /// Every n, every flag, every number of reserved bits, and MD on its limits; each with the others sound and with one of them not.
    fn sweep_settings(&mut self) -> Compared {
        for value in 0..=65_535 {
            let r = &mut self.random;
            let (one, another) = (inserters::settings(r), inserters::settings(r));
            let field = inserters::field(r);
            let part = r.below(4);
            self.start(Settings { n: value, ..one }, &field)?;
            self.start(Settings { reserved: value, ..another }, &field)?;
            let mixed = inserters::change(&mut self.random, another, part);
            self.start(Settings { n: value, ..mixed }, &field)?;
        }
        // each of 15, 19, 8, 10 and 11 alone, and with any of the others
        for wrong in 0..32 {
            let r = &mut self.random;
            let mut settings = inserters::settings(r);
            for (bit, part) in [(16, 0), (8, r.pick(&[1, 2])), (1, 3)] {
                if wrong & bit != 0 {
                    settings = inserters::change(r, settings, part);
                }
            }
            let sound = notices::field_of_length(r, 7, if wrong & 4 != 0 { 170 } else { 100 }).unwrap();
            let cut = &sound[..sound.len() - 1];
            let field = if wrong & 2 != 0 { [cut, &[0; 2]].concat() } else { sound };
            self.start(settings, &field)?;
        }
        for periodic in 0..=255 {
            let settings = inserters::settings(&mut self.random);
            self.start(Settings { periodic, ..settings }, &[])?;
        }
        for md in notices::edges(DVB_SECOND) {
            let settings = inserters::settings(&mut self.random);
            self.start(Settings { md, ..settings }, &[])?;
        }
        Ok(())
    }

    /// Fields of every length that a start takes and of many that it does not, and each kind of wrong form; a notice with each.
    fn sweep_fields(&mut self) -> Compared {
        for length in (0..=300).flat_map(|length| [length; 3]) {
            let r = &mut self.random;
            let Some(field) = notices::field_of_length(r, 7, length) else { continue };
            let settings = inserters::settings(r);
            let mut track = Track::of(inserters::any_inserter(r));
            let lent = Lent::new(r, &field);
            if self.turn(&mut track, Call::Start(settings, lent))? == 0 {
                let label = inserters::label(&mut self.random, settings.n);
                let plain = self.lent(&[0x47; 188]);
                self.turn(&mut track, Call::Insert { packet: plain, sts: 1, times: label.into() })?;
                let (packet, sts) = (inserters::packet_of_pid(&mut self.random, 0x1FFF), inserters::sts(&mut self.random));
                let packet = self.lent(&packet);
                self.turn(&mut track, Call::Insert { packet, sts: sts.min(DVB_SECOND - 1), times: 1 })?;
            }
        }
        for (kind, what) in WRONG_FORMS.iter().enumerate().flat_map(|kind| [kind; 100]) {
            let field = notices::wrong_field(&mut self.random, 7, kind);
            let settings = inserters::settings(&mut self.random);
            let number = self.start(settings, &field)?;
            self.saw("start", what, number);
        }
        Ok(())
    }

    /// Packets of every length, with each first byte and with an STS within its limits and without.
    fn sweep_lengths(&mut self) -> Compared {
        for length in 0..=300 {
            for sync in [0x47, 0x46] {
                for sts in [0, DVB_SECOND - 1, DVB_SECOND, u32::MAX] {
                    let inserter = inserters::any_inserter(&mut self.random);
                    let mut packet = inserters::packet_of_pid(&mut self.random, 0x1FFF);
                    packet[0] = sync;
                    packet.resize(length, 0xFF);
                    self.single(inserter, &packet, sts)?;
                }
            }
        }
        for sync in 0..=255 {
            let inserter = inserters::any_inserter(&mut self.random);
            let mut packet = inserters::packet_of_pid(&mut self.random, 0x0015);
            packet[0] = sync;
            self.single(inserter, &packet, 5)?;
        }
        Ok(())
    }

    /// Inserters with each part out of range, and one or several more; beside 1, 2 and 11.
    fn sweep_parts(&mut self) -> Compared {
        for part in (0..PARTS).flat_map(|part| [part; 400]) {
            let r = &mut self.random;
            let sound = inserters::any_inserter(r);
            let mut damaged = inserters::damaged(r, sound, part);
            let (packet, sts) = (inserters::packet(r), inserters::sts(r));
            let number = self.single(damaged, &packet, sts)?;
            if number == 15 {
                self.saw("insert", "15 for its part", part as i64);
            }
            let r = &mut self.random;
            if part != 4 && r.one_in(2) {
                let another = r.below(4);
                damaged = inserters::damaged(r, damaged, another);
            }
            self.single(damaged, &packet, sts)?;
        }
        // each value of the small parts, on each end of a mega-frame
        for value in 0..=255 {
            for label in [0, 1, 2015] {
                let sound = inserters::any_inserter(&mut self.random);
                let sound = Inserter { settings: Settings { n: 2016, ..sound.settings }, label, placed: 0, ..sound };
                let packet = inserters::packet(&mut self.random);
                for inserter in [
                    Inserter { placed: value, ..sound },
                    Inserter { continuity: value, ..sound },
                    Inserter { length: value, field: [0; FULL], ..sound },
                    Inserter { settings: Settings { periodic: value, ..sound.settings }, ..sound },
                ] {
                    self.single(inserter, &packet, 5)?;
                }
            }
        }
        Ok(())
    }

    /// Every bit of some inserters flipped, and every bit of a packet.
    fn sweep_bits(&mut self) -> Compared {
        for _ in 0..20 {
            let sound = inserters::any_inserter(&mut self.random);
            let packet = inserters::packet_of_pid(&mut self.random, 0x1FFF);
            for bit in 0..8 * 181 {
                let number = self.single(flipped(sound, bit), &packet, 5)?;
                self.saw("insert", "with a bit of the inserter flipped", bit as i64);
                if number == 15 && bit < PROGRESS {
                    self.saw("insert", "15 for a bit of the settings", bit as i64);
                }
            }
            for bit in 0..8 * 188 {
                let mut packet = packet.clone();
                packet[bit / 8] ^= 1 << (bit % 8);
                self.single(sound, &packet, 5)?;
            }
        }
        Ok(())
    }

    /// Every PID with every other bit of its two bytes, before the notice and behind it.
    fn sweep_headers(&mut self) -> Compared {
        let sound = inserters::any_inserter(&mut self.random);
        let packet = inserters::packet_of_pid(&mut self.random, 0x0015);
        let mut packet = self.lent(&packet);
        for header in 0..=65_535_u16 {
            let mut bytes = packet.bytes().to_vec();
            bytes[1..3].copy_from_slice(&header.to_be_bytes());
            packet = packet.with(&bytes);
            for placed in [0, 1] {
                let inserter = Inserter { label: 1 + header % 2_000, placed, ..sound };
                self.turn(&mut Track::of(inserter), Call::Insert { packet: packet.clone(), sts: 5, times: 1 })?;
            }
        }
        Ok(())
    }

    /// Every label of every mega-frame, without a notice before and with one: a null packet, one of a notice's PID, and another.
    fn sweep_labels(&mut self) -> Compared {
        let packets = [0x1FFF, 0x0015, 0x0100].map(|pid| inserters::packet_of_pid(&mut self.random, pid)).map(|packet| self.lent(&packet));
        let mut lengths: Vec<u16> = dvb_cadences().collect();
        lengths.sort();
        lengths.dedup();
        for n in lengths {
            let sound = inserters::any_inserter(&mut self.random);
            let sound = Inserter { settings: Settings { n, ..sound.settings }, ..sound };
            for label in 0..n {
                for placed in [0, 1] {
                    for packet in &packets {
                        let inserter = Inserter { label, placed, continuity: (label % 16) as u8, ..sound };
                        self.turn(&mut Track::of(inserter), Call::Insert { packet: packet.clone(), sts: label.into(), times: 1 })?;
                    }
                }
            }
        }
        Ok(())
    }

    /// Whole mega-frames from a start on: of every length, with one null packet, with more, with none, and with nothing else.
    fn sweep_mega_frames(&mut self) -> Compared {
        let (null, plain) = (self.lent(&notices::null()), self.lent(&[0x47; 188]));
        for n in dvb_cadences() {
            let settings = Settings { n, ..inserters::settings(&mut self.random) };
            let field = inserters::field(&mut self.random);
            let mut track = Track { calls: Vec::new(), inserter: ZEROS };
            let lent = Lent::new(&mut self.random, &field);
            self.turn(&mut track, Call::Start(settings, lent))?;
            for mega_frame in 0..if n == 2016 { 40 } else { 5 } {
                let sts = self.random.below(DVB_SECOND as usize) as u32;
                let before = if self.random.one_in(4) { n - 1 } else { self.random.below(n.into()) as u16 };
                let nulls = match mega_frame % 5 {
                    0 => 1,
                    1 => (n - before).min(3),
                    2 => 0,
                    3 => n - before,
                    _ => 1 + self.random.below((n - before).into()) as u16,
                };
                let mut number = 0;
                for (packet, times) in [(&plain, before), (&null, nulls), (&plain, n - before - nulls)] {
                    if times > 0 {
                        number = self.turn(&mut track, Call::Insert { packet: packet.clone(), sts, times: times.into() })?;
                    }
                }
                if track.inserter.label != 0 || (number == NO_NULL_PACKET) != (nulls == 0) {
                    return Err(
                        self.differs(format!("a mega-frame of {n} packets with {nulls} null ones ends with {number} at {:?}", track.inserter))
                    );
                }
                self.saw("insert", "whole mega-frame with null packets: none (0), one (1), more (2)", i64::from(nulls.min(2)));
            }
        }
        Ok(())
    }
}

impl Comparison<Inserters> {
    /// A slave at site 7 that hears what an inserter sends, of every cadence: it counts the inserter's labels and releases each mark with its STS.
    fn sweep_heard(&mut self) -> Compared {
        const MD: u32 = 700_000;
        const OD: i16 = -51;
        let field = offset_entry(7, OD);
        for n in dvb_cadences() {
            let settings = Settings { n, md: MD, ..inserters::settings(&mut self.random) };
            let mut inserter = CInserter::default();
            let mut slave = vikombare::start(0, n, 7, 0).slave;
            let number = vikombare::inserter_start(&mut inserter, settings.into(), &field);
            // the last mark's, where a notice gave it
            let mut told = None;
            for mega_frame in 0..4 {
                let sts = self.random.below(DVB_SECOND as usize) as u32;
                let noticed = if mega_frame == 2 { n } else { self.random.pick(&[0, n - 1, self.random.0 as u16 % n]) };
                for label in 0..n {
                    let mut packet = if label == noticed { notices::null() } else { vec![0x47; 188] };
                    let inserted = vikombare::insert(&mut inserter, &mut packet, sts);
                    let reply = vikombare::packet(&mut slave, &packet, 0, told.unwrap_or(0));
                    self.calls += 2;
                    let locked = mega_frame > 0 || label >= noticed;
                    // whether it has a label, the label, the notice, and the kind of mark
                    let heard = (reply.has_label, reply.label, reply.notice, reply.mark.class());
                    let mark = match told {
                        _ if label > 0 || !locked => 0,
                        Some(_) => 3,
                        None => 1,
                    };
                    let expected = (locked, if locked { label } else { 0 }, u8::from(label == noticed), mark);
                    let wrapped = |sum: i64| (sum % i64::from(DVB_SECOND)) as u32;
                    let sum = i64::from(told.unwrap_or(0)) + i64::from(MD);
                    let times = [reply.mark.times.reference, reply.mark.times.emission];
                    let released = mark != 3 || times == [wrapped(sum), wrapped(sum + i64::from(OD))];
                    let ended = if noticed == n && label == n - 1 { NO_NULL_PACKET } else { 0 };
                    if number != 0 || inserted != ended || heard != expected || !released {
                        return Err(self.differs(format!(
                            "{settings:?}, label {label} of mega-frame {mega_frame}, noticed at {noticed}: {inserted}, {reply:?}"
                        )));
                    }
                }
                told = (noticed < n).then_some(sts);
            }
            self.saw("insert", "heard by a slave of n", n);
        }
        Ok(())
    }
}

/// How many bits of an inserter stand before its label.
const PROGRESS: usize = 8 * 13;

/// The inserter with one bit flipped, counted over its parts: n, flag, reserved bits, MD, TPS, label, notice put, counter, length, field.
fn flipped(inserter: Inserter, bit: usize) -> Inserter {
    let mut i = inserter;
    let (byte, bit) = (bit / 8, bit % 8);
    let one = |at: usize| 1_u32 << (8 * (byte - at) + bit);
    match byte {
        0 | 1 => i.settings.n ^= one(0) as u16,
        2 => i.settings.periodic ^= one(2) as u8,
        3 | 4 => i.settings.reserved ^= one(3) as u16,
        5..=8 => i.settings.md ^= one(5),
        9..=12 => i.settings.tps ^= one(9),
        13 | 14 => i.label ^= one(13) as u16,
        15 => i.placed ^= one(15) as u8,
        16 => i.continuity ^= one(16) as u8,
        17 => i.length ^= one(17) as u8,
        _ => i.field[byte - 18] ^= 1 << bit,
    }
    i
}

// ---- Shortening

/// One call for two that move the label: the packet of one of them, or one that passes, as often as both together.
fn joined(one: &Call, another: &Call) -> Vec<Call> {
    let (Call::Insert { packet, sts, times }, Call::Insert { packet: next, sts: next_sts, times: more }) = (one, another) else { return Vec::new() };
    let times = times + more;
    let passing = Lent::alone(vec![0x47; 188]);
    [(packet.clone(), *sts), (next.clone(), *next_sts), (passing, 0)].map(|(packet, sts)| Call::Insert { packet, sts, times }).to_vec()
}

fn words(x: u32) -> impl Iterator<Item = u32> {
    smaller(x.into()).into_iter().map(|less| less as u32)
}

/// Calls of the same kind with one argument simpler.
fn simpler(call: &Call) -> Vec<Call> {
    match call {
        Call::Hand(inserter) => simpler_inserters(inserter).into_iter().map(|inserter| Call::Hand(Box::new(inserter))).collect(),
        Call::Start(settings, field) => {
            let lengths = smaller(field.bytes().len() as u64).into_iter().map(|length| field.with(&field.bytes()[..length as usize]));
            let alone = (!field.is_alone()).then(|| Lent::alone(field.bytes().to_vec()));
            let fields = alone.into_iter().chain(lengths).map(|field| Call::Start(*settings, field));
            fields.chain(simpler_settings(settings).into_iter().map(|settings| Call::Start(settings, field.clone()))).collect()
        }
        Call::Insert { packet, sts, times } => {
            let fewer = words(*times).filter(|times| *times > 0).map(|times| (packet.clone(), *sts, times));
            let packets = simpler_packets(packet).into_iter().map(|packet| (packet, *sts, *times));
            let earlier = words(*sts).map(|sts| (packet.clone(), sts, *times));
            fewer.chain(packets).chain(earlier).map(|(packet, sts, times)| Call::Insert { packet, sts, times }).collect()
        }
    }
}

fn simpler_settings(s: &Settings) -> Vec<Settings> {
    let shorter = (admits(0, s.n) && s.n > 2016).then_some(Settings { n: 2016, ..*s });
    let flags = words(s.periodic.into()).map(|periodic| Settings { periodic: periodic as u8, ..*s });
    let reserved = words(s.reserved.into()).map(|reserved| Settings { reserved: reserved as u16, ..*s });
    let numbers = words(s.md).map(|md| Settings { md, ..*s }).chain(words(s.tps).map(|tps| Settings { tps, ..*s }));
    shorter.into_iter().chain(flags).chain(reserved).chain(numbers).collect()
}

fn simpler_inserters(i: &Inserter) -> Vec<Inserter> {
    let settings = simpler_settings(&i.settings).into_iter().map(|settings| {
        // as far from the mega-frame's end as before
        let label = if settings.n < i.settings.n { i.label.saturating_sub(i.settings.n - settings.n) } else { i.label };
        Inserter { settings, label, ..*i }
    });
    let labels = words(i.label.into()).map(|label| Inserter { label: label as u16, ..*i });
    let counters = words(i.continuity.into()).map(|continuity| Inserter { continuity: continuity as u8, ..*i });
    let lengths = words(i.length.into()).map(|length| Inserter { length: length as u8, ..*i });
    let open = i.placed.checked_sub(1).map(|placed| Inserter { placed, ..*i });
    let used = usize::from(i.length).min(FULL);
    let bare = i.field[used..].iter().any(|byte| *byte != 0).then(|| {
        let mut bare = *i;
        bare.field[used..].fill(0);
        bare
    });
    settings.chain(bare).chain(lengths).chain(labels).chain(counters).chain(open).collect()
}

// ---- What must be reached

fn required() -> Cases {
    let lengths: Vec<i64> = (0..=300).collect();
    let field_lengths: Vec<i64> = (0..=163).filter(|a| ![1, 2, 4].contains(a)).collect();
    let cadences: Vec<i64> = dvb_cadences().map(i64::from).collect();
    let second = i64::from(DVB_SECOND);
    // 100 on a label between the mega-frame's ends, 200 on its last; 10 behind the notice; 1 of a notice's PID, 2 of another than that and the null packet's
    let labels: Vec<i64> = [0, 100, 110, 200, 210].into_iter().flat_map(|place| [0, 1, 2].map(|kind| place + kind)).collect();
    let mut list: Cases = vec![
        ("start", "number", vec![0, 15, 19, 8, 10, 11]),
        ("start", "15 (16), 19 (8), 8 (4), 10 (2), 11 (1) apply", (0..32).collect()),
        ("start", "n", cadences.clone()),
        ("start", "15 for n", (0..=65_535).filter(|n| !admits(0, *n)).map(i64::from).collect()),
        ("start", "19 for flag (1), reserved bits (2)", vec![1, 2, 3]),
        ("start", "accepted with a", field_lengths.clone()),
        ("start", "8 with a", (164..=300).collect()),
        ("start", "accepted with reserved bits", (0..=32_767).collect()),
        ("start", "accepted with MD", vec![0, 1, second - 1]),
        ("start", "11 for MD", vec![second, second + 1, u32::MAX.into()]),
        ("start", "over a field that is longer (1)", vec![0, 1]),
        ("start", "refused over zeros (0), over an inserter (1)", vec![0, 1]),
        ("insert", "number", vec![0, 15, 1, 2, 11, 21]),
        ("insert", "of length", lengths),
        ("insert", "15 (8), 1 (4), 2 (2), 11 (1) apply", (0..16).collect()),
        ("insert", "15 for its part", (0..PARTS as i64).collect()),
        ("insert", "with a bit of the inserter flipped", (0..8 * 181).collect()),
        ("insert", "15 for a bit of the settings", (0..16).collect()),
        ("insert", "on a label", labels.clone()),
        ("insert", "2, on a label", labels.clone()),
        ("insert", "11, on a label", labels),
        ("insert", "11 for STS", vec![second, second + 1, u32::MAX.into()]),
        ("insert", "with STS", vec![0, second - 1]),
        ("insert", "of PID", (0..=8_191).collect()),
        ("insert", "header bits", [0, 10, 20, 100, 110, 120].into_iter().flat_map(|whose| (0..8).map(move |bits| whose + bits)).collect()),
        ("insert", "with other bytes behind the field", vec![0, 1, 2]),
        ("insert", "notice with a", field_lengths),
        ("insert", "notice with counter", (0..16).collect()),
        ("insert", "notice with n", cadences.clone()),
        ("insert", "notice with flag", vec![0, 1]),
        ("insert", "notice with reserved bits", vec![0, 1, 32_767]),
        ("insert", "21 with n", cadences.clone()),
        ("insert", "heard by a slave of n", cadences),
        ("insert", "21 with counter", (0..16).collect()),
        ("insert", "whole mega-frame with null packets: none (0), one (1), more (2)", vec![0, 1, 2]),
    ];
    list.extend(WRONG_FORMS.map(|what| ("start", what, vec![10])));
    list
}
