//! Sequences of calls, compared one by one. A difference is shortened to the shortest failing sequence that is found, and printed call by call.

use super::comparison::{Compared, Comparison, Difference, Subject};
use super::{shrink, simpler};
use crate::inputs::calls::{self, Call, Outcome};
use crate::other::slave::{Slave, COLD};

/// The calls since the sequence began, and the slave that they left.
#[derive(Clone)]
pub struct Sequence {
    calls: Vec<Call>,
    slave: Slave,
}

impl Default for Sequence {
    fn default() -> Self {
        Sequence { calls: Vec::new(), slave: COLD }
    }
}

/// A sequence of more calls begins anew with the slave that it came to.
const LONG: usize = 400;

impl<S: Subject> Comparison<S> {
    /// A call with this slave. The sequence goes on if its last call left this slave, and begins with it otherwise.
    pub fn call(&mut self, slave: Slave, call: Call) -> Compared<Outcome> {
        if self.sequence.slave != slave || self.sequence.calls.len() >= LONG {
            self.sequence = Sequence { calls: vec![Call::Hand(slave)], slave };
        }
        self.append(call)
    }

    /// A call that begins a sequence.
    pub fn first(&mut self, call: Call) -> Compared<Outcome> {
        self.sequence = Sequence::default();
        self.append(call)
    }

    /// Calls beside the sequence, which goes on after them.
    pub fn beside<T>(&mut self, calls: impl FnOnce(&mut Self) -> Compared<T>) -> Compared<T> {
        let kept = std::mem::take(&mut self.sequence);
        let result = calls(self)?;
        self.sequence = kept;
        Ok(result)
    }

    fn append(&mut self, call: Call) -> Compared<Outcome> {
        self.calls += 1;
        let agreed = calls::agreed(&call, self.sequence.slave);
        self.sequence.calls.push(call);
        match agreed {
            Ok(outcome) => {
                self.sequence.slave = outcome.slave;
                Ok(outcome)
            }
            Err(_) => Err(self.shortened()),
        }
    }

    /// The difference at the sequence's last call, with the shortest failing sequence found.
    fn shortened(&self) -> Difference {
        let fails = |calls: &[Call]| calls::disagreement(calls).map(|found| found.at + 1);
        let shortest = shrink::shortest(&self.sequence.calls, fails, simpler::joined, simpler::simpler);
        let found = calls::disagreement(&shortest);
        let made = |calls: &[Call]| calls.iter().filter(|call| !matches!(call, Call::Hand(_))).count();
        let mut text = format!("seed {} call {}; the shortest failing sequence found:", self.seed, self.calls);
        for (number, call) in (1..).zip(&shortest) {
            text += &format!("\n  {number}. {call:?}");
        }
        match &found {
            Some(found) => text += &format!("\n  with {:?}\n  ours  {:?}\n  other {:?}", found.slave, found.ours, found.other),
            None => text += "\n  does not fail again",
        }
        Difference { text, whole: made(&self.sequence.calls), shortest: made(&shortest), again: found.is_some() }
    }
}
