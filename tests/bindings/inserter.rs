//! The inserter of the C interface. The tests keep an inserter as the other implementation has it; only what is handed to the proved code is one of these.

use super::vikombare::Steps;
use crate::other::basics::FULL;
use crate::other::inserter::{Inserter, Settings};

c_struct! {
    /// The settings of a start.
    CInserterSettings { n: u16, periodic: u8, reserved: u16, md: Steps, tps: u32, }
}

c_struct! {
    /// Where the inserter stands in its mega-frame.
    CInserterProgress { label: u16, placed: u8, continuity: u8, }
}

/// The room of an addressing field.
#[repr(transparent)]
#[derive(Clone, Copy, Debug, PartialEq)]
pub struct Field(pub [u8; FULL]);

impl Default for Field {
    fn default() -> Field {
        Field([0; FULL])
    }
}

c_struct! {
    CInserter { settings: CInserterSettings, progress: CInserterProgress, length: u8, field: Field, }
}

impl From<Settings> for CInserterSettings {
    fn from(s: Settings) -> CInserterSettings {
        let Settings { n, periodic, reserved, md, tps } = s;
        CInserterSettings { n, periodic, reserved, md: Steps { steps: md }, tps }
    }
}

impl From<CInserterSettings> for Settings {
    fn from(s: CInserterSettings) -> Settings {
        let CInserterSettings { n, periodic, reserved, md, tps } = s;
        Settings { n, periodic, reserved, md: md.steps, tps }
    }
}

impl From<Inserter> for CInserter {
    fn from(i: Inserter) -> CInserter {
        let Inserter { settings, label, placed, continuity, length, field } = i;
        CInserter { settings: settings.into(), progress: CInserterProgress { label, placed, continuity }, length, field: Field(field) }
    }
}

impl From<CInserter> for Inserter {
    fn from(i: CInserter) -> Inserter {
        let CInserter { settings, progress: CInserterProgress { label, placed, continuity }, length, field: Field(field) } = i;
        Inserter { settings: settings.into(), label, placed, continuity, length, field }
    }
}
