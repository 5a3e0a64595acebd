//! The log program: from a capture's bytes to the lines that it prints. From document 01 and Paper 3 of document 02, over the slave.

use super::basics::{register, FULL};
use super::faults::{rule, Fault::*};
use super::slave::{MarkPart, NoticePart, Slave};

/// A capture's settings: profile (1), n (2), site (2), TAD (4).
pub const SETTINGS: usize = 9;

/// A record: tick (4) and packet (188).
pub const RECORD: usize = 192;

/// A log that was opened, after some records.
pub struct Log {
    slave: Slave,
    records: u64,
    refused: u64,
}

/// A number in decimal.
fn number(out: &mut Vec<u8>, n: u64) {
    if rule(false, Hexadecimal, true) {
        out.extend(format!("{n:x}").bytes());
        return;
    }
    if rule(false, LeadingZero, n < 10) {
        out.push(b'0');
    }
    let mut digits = [0; 20];
    let mut at = digits.len();
    let mut rest = n;
    loop {
        at -= 1;
        digits[at] = b'0' + (rest % 10) as u8;
        rest /= 10;
        if rest == 0 {
            break;
        }
    }
    out.extend_from_slice(&digits[at..]);
}

/// Settings as they stand at the front of a capture: the site line, or the refusal alone.
pub fn open(head: &[u8], out: &mut Vec<u8>) -> Option<Log> {
    let padded = [head, &[0]].concat();
    let head = rule(head, ShortSettingsPadded, &padded);
    let started = match head {
        &[profile, n0, n1, s0, s1, t0, t1, t2, t3, ..] => {
            let (n, site) = (u16::from_be_bytes([n0, n1]), u16::from_be_bytes([s0, s1]));
            Slave::start(profile, n, site, u32::from_be_bytes([t0, t1, t2, t3])).ok().map(|slave| (slave, n, site))
        }
        _ => None,
    };
    let Some((slave, n, site)) = started else {
        out.extend(rule(&b"refused 15\n"[..], RefusedCarriesOn, b"refused 15\nend 0\n"));
        return None;
    };
    let (first, second) = rule((site, n), SiteForCadence, (n, site));
    out.extend(b"site ");
    number(out, first.into());
    out.extend(b" cadence ");
    number(out, second.into());
    out.push(b'\n');
    Some(Log { slave, records: rule(0, NumberFromOne, 1), refused: 0 })
}

impl Log {
    /// The line of a record, whole or cut short.
    #[inline]
    pub fn record(&mut self, record: &[u8], out: &mut Vec<u8>) {
        if record.len() < RECORD {
            if rule(false, CutInTickSilent, record.len() < 4) {
                return;
            }
            if !rule(false, CutSilent, true) {
                number(out, self.records);
                if rule(false, CutTold, record.len() == 4) {
                    out.extend(b" - - -");
                } else {
                    out.extend(b" refused ");
                    number(out, rule(1, CutFedToSlave, if record.get(4) == Some(&0x47) { 1 } else { 2 }));
                }
                out.push(b'\n');
            }
            self.records += rule(1, CutUncounted, 0);
            self.refused += 1;
            return;
        }
        let (tick, packet) = rule((0, 4), TickAfterPacket, (188, 0));
        let bytes: [u8; 4] = record[tick..tick + 4].try_into().unwrap();
        let tick = rule(u32::from_be_bytes(bytes), TickLittleEndian, u32::from_le_bytes(bytes));
        let reply = self.slave.packet_with(register, &record[packet..packet + 188], tick, rule(FULL, LogOfLimit64, 64));
        number(out, self.records);
        out.push(b' ');
        self.records += 1;
        match reply {
            Err(k) => {
                self.refused += 1;
                out.extend(rule(&b"refused "[..], RefusedByK, b""));
                number(out, k.into());
            }
            Ok(reply) => {
                let label = match reply.label {
                    Some(x) => rule(Some(x), LabelHidden, Some(x).filter(|x| *x > 0)),
                    None => None,
                };
                if rule(false, NoticeBeforeLabel, true) {
                    notice(out, reply.notice);
                    out.push(b' ');
                }
                match label {
                    Some(x) => number(out, x.into()),
                    None => out.push(b'-'),
                }
                out.push(b' ');
                if !rule(false, NoticeBeforeLabel, true) {
                    notice(out, reply.notice);
                    out.push(b' ');
                }
                mark(out, reply.mark);
            }
        }
        out.push(b'\n');
    }

    /// The end line.
    pub fn end(self, out: &mut Vec<u8>) {
        out.extend(b"end ");
        number(out, rule(self.records, EndCountsAccepted, self.records.saturating_sub(self.refused)));
        out.extend(rule(&b"\n"[..], NoLastLineFeed, b""));
    }
}

#[inline]
fn notice(out: &mut Vec<u8>, part: NoticePart) {
    match part {
        NoticePart::None => out.push(b'-'),
        NoticePart::Taken => out.extend(b"taken"),
        NoticePart::Slip => out.extend(rule(&b"slip"[..], SlipTaken, b"taken")),
        NoticePart::Ignored(_) if rule(false, IgnoredHidden, true) => out.push(b'-'),
        NoticePart::Ignored(k) => number(out, k.into()),
    }
}

#[inline]
fn mark(out: &mut Vec<u8>, part: MarkPart) {
    match part {
        MarkPart::None => out.push(b'-'),
        MarkPart::Untimed => out.extend(rule(&b"untimed"[..], UntimedHidden, b"-")),
        MarkPart::Late(_) if rule(false, LateUntimed, true) => out.extend(b"untimed"),
        MarkPart::Late(_) if rule(false, LatenessHidden, true) => out.extend(b"late"),
        MarkPart::Late(lateness) => {
            out.extend(rule(rule(&b"late "[..], LatenessUnspaced, b"late"), LatenessSigned, b"late -"));
            number(out, lateness.into());
        }
        MarkPart::Released(times) => {
            number(out, rule(rule(times.emission, ModulationShown, times.modulation), ReferenceShown, times.reference).into())
        }
    }
}

/// The log of a whole capture.
pub fn log(capture: &[u8]) -> Vec<u8> {
    let mut out = Vec::new();
    let (head, records) = capture.split_at(capture.len().min(SETTINGS));
    if let Some(mut log) = open(head, &mut out) {
        for record in records.chunks(RECORD) {
            log.record(record, &mut out);
        }
        log.end(&mut out);
    }
    out
}
