//! The answers of a board's calls in one form, into which both implementations' are brought: the slave as the other implementation has it, and the
//! reply as the C interface has it.

use super::vikombare::{CChange, CNotice, CReading, CStep, Mark, Reply, Times};
use crate::other::basics::{self, Notice};
use crate::other::slave::{self, MarkPart, NoticePart, Slave, COLD};

/// What a start, a gap or a resume leaves, and 0 or the call's number.
#[derive(Clone, Copy, Debug, PartialEq)]
pub struct Change {
    pub slave: Slave,
    pub number: u8,
}

/// A slave after a packet, and the reply.
#[derive(Clone, Copy, Debug, PartialEq)]
pub struct Step {
    pub slave: Slave,
    pub reply: Reply,
}

/// What the reader says of a packet: a number, or the fields and the length of the addressing field.
#[derive(Clone, Copy, Debug, Default, PartialEq)]
pub struct Reading {
    pub number: u8,
    pub notice: Notice,
    pub addressing: usize,
}

impl Mark {
    /// 0 none, 1 untimed, 2 late, 3 released in either profile.
    pub fn class(&self) -> u8 {
        match self.kind {
            0 | 1 => self.kind,
            2 | 5 => 2,
            _ => 3,
        }
    }
}

// ---- The proved code's answers

impl From<CChange> for Change {
    fn from(change: CChange) -> Self {
        Change { slave: change.slave.into(), number: change.number }
    }
}

impl From<CStep> for Step {
    fn from(step: CStep) -> Self {
        Step { slave: step.slave.into(), reply: step.reply }
    }
}

impl From<CReading> for Reading {
    fn from(reading: CReading) -> Self {
        let CReading { number, notice: CNotice { continuity, pointer, periodic, reserved, sts, md, tps }, addressing } = reading;
        Reading { number, notice: Notice { continuity, pointer, periodic, reserved, sts: sts.steps, md: md.steps, tps }, addressing }
    }
}

// ---- The other implementation's

impl From<Result<Slave, u8>> for Change {
    fn from(result: Result<Slave, u8>) -> Self {
        match result {
            Ok(slave) => Change { slave, number: 0 },
            Err(number) => Change { slave: COLD, number },
        }
    }
}

impl From<(Slave, Result<(), u8>)> for Change {
    fn from((slave, result): (Slave, Result<(), u8>)) -> Self {
        Change { slave, number: result.err().unwrap_or(0) }
    }
}

impl From<(Slave, Result<slave::Reply, u8>)> for Step {
    fn from((slave, result): (Slave, Result<slave::Reply, u8>)) -> Self {
        let slave::Reply { label, notice, turn, mark, place } = match result {
            Ok(reply) => reply,
            Err(number) => return Step { slave, reply: Reply { number, ..Reply::default() } },
        };
        let (notice, ignored) = match notice {
            NoticePart::None => (0, 0),
            NoticePart::Taken => (1, 0),
            NoticePart::Slip => (2, 0),
            NoticePart::Ignored(number) => (3, number),
        };
        let mark = match mark {
            MarkPart::None => Mark::default(),
            MarkPart::Untimed => Mark { kind: 1, ..Mark::default() },
            MarkPart::Late(lateness) => Mark { kind: 2 + 3 * slave.profile, number: 14, times: Times { reference: lateness, ..Times::default() } },
            MarkPart::Released(times) => Mark { kind: 3 + slave.profile, times: times.into(), ..Mark::default() },
        };
        let (has_label, has_place) = (label.is_some(), place.is_some());
        let (label, place) = (label.unwrap_or(0), place.unwrap_or(0));
        Step { slave, reply: Reply { number: 0, has_label, label, notice, ignored, turn, has_place, place, mark } }
    }
}

impl From<basics::Times> for Times {
    fn from(times: basics::Times) -> Self {
        let basics::Times { reference, emission, modulation, wait } = times;
        Times { reference, emission, modulation, wait }
    }
}

impl From<Result<(Notice, &[u8]), u8>> for Reading {
    fn from(result: Result<(Notice, &[u8]), u8>) -> Self {
        match result {
            Ok((notice, field)) => Reading { number: 0, notice, addressing: field.len() },
            Err(number) => Reading { number, ..Reading::default() },
        }
    }
}
