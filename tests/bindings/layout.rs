//! Prints how the tests' bindings lay the structs of include/vikombare.h out. tests/bindings/layout.c prints the same of the header: what a board's
//! firmware sees is what the comparisons link.

#![allow(dead_code)] // the bindings are looked at, not called

#[path = "mod.rs"]
mod bindings;
#[path = "../other/mod.rs"]
mod other;

use bindings::inserter::{CInserter, CInserterProgress, CInserterSettings};
use bindings::slave::{CBoard, CCount, CSettings, CSlave, CWaiting};
use bindings::vikombare::{CNotice, CNumbers, CReading, Mark, Periods, Reply, Steps, Tick, Times};

fn main() {
    Steps::layout("steps");
    Periods::layout("periods");
    Tick::layout("tick");
    CBoard::layout("board");
    CSettings::layout("settings");
    CCount::layout("count");
    CWaiting::layout("waiting");
    CSlave::layout("slave");
    Times::layout("dvb_times");
    Times::layout("a110_times");
    Mark::layout("mark");
    Reply::layout("reply");
    CNumbers::layout("numbers_notice");
    CNotice::layout("notice");
    CReading::layout("reading");
    CInserterSettings::layout("inserter_settings");
    CInserterProgress::layout("inserter_progress");
    CInserter::layout("inserter");
}
