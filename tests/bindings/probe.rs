//! The calls that tests link besides, as crate `probe` exports them, and the other implementation's results in their form.
//! A slice is passed as its address and its length. A refused call has its number and zeros.

use super::slave::CSlave;
use super::vikombare::CStep;
use crate::other::basics;

#[repr(C)]
#[derive(Clone, Copy, Debug, Default, PartialEq)]
pub struct Settings {
    pub number: u8,
    pub od: i16,
    pub frequency: i32,
    pub power: u16,
}

#[repr(C)]
#[derive(Clone, Copy, Debug, Default, PartialEq)]
pub struct Label {
    pub number: u8,
    pub value: u16,
}

#[link(name = "probe", kind = "static")]
extern "C" {
    fn probe_register(s: *const u8, length: usize) -> u32;
    fn probe_settings(field: *const u8, length: usize, site: u16, od: i16, frequency: i32, power: u16) -> Settings;
    fn probe_dvb_delay_fits(md: u32, od: i16) -> bool;
    fn probe_a110_delay_fits(md: u32, od: i16, tad: u32) -> bool;
    fn probe_length(constellation: u8, rate: u8) -> u16;
    fn probe_admits(profile: u8, n: u16) -> bool;
    fn probe_label(n: u16, pointer: u16) -> Label;
    fn probe_mobile_place(i: u8, p: u16) -> u16;
    fn probe_packet(slave: CSlave, p: *const u8, length: usize, tick: u32, limit: usize) -> CStep;
    fn probe_handed(slave: CSlave, p: *const u8, length: usize, tick: u32) -> CStep;
}

// No exported call has a condition on its arguments, so each is safe to call.

pub fn register(s: &[u8]) -> u32 {
    unsafe { probe_register(s.as_ptr(), s.len()) }
}

pub fn settings(field: &[u8], site: u16, before: basics::Settings) -> Settings {
    unsafe { probe_settings(field.as_ptr(), field.len(), site, before.od, before.frequency, before.power) }
}

pub fn delay_fits(profile: u8, md: u32, od: i16, tad: u32) -> bool {
    match profile {
        0 => unsafe { probe_dvb_delay_fits(md, od) },
        _ => unsafe { probe_a110_delay_fits(md, od, tad) },
    }
}

/// 0 where there is no such constellation or code rate.
pub fn length(constellation: u8, rate: u8) -> u16 {
    unsafe { probe_length(constellation, rate) }
}

pub fn admits(profile: u8, n: u16) -> bool {
    unsafe { probe_admits(profile, n) }
}

pub fn label(n: u16, pointer: u16) -> Label {
    unsafe { probe_label(n, pointer) }
}

pub fn mobile_place(i: u8, p: u16) -> u16 {
    unsafe { probe_mobile_place(i, p) }
}

/// A packet by value, read with this limit.
#[inline(always)]
pub fn packet_within(slave: CSlave, p: &[u8], tick: u32, limit: usize) -> CStep {
    unsafe { probe_packet(slave, p.as_ptr(), p.len(), tick, limit) }
}

/// The same with the full board's limit.
#[inline(always)]
pub fn packet(slave: CSlave, p: &[u8], tick: u32) -> CStep {
    packet_within(slave, p, tick, basics::FULL)
}

#[inline(always)]
pub fn handed(slave: CSlave, p: &[u8], tick: u32) -> CStep {
    unsafe { probe_handed(slave, p.as_ptr(), p.len(), tick) }
}

impl From<Result<basics::Settings, u8>> for Settings {
    fn from(result: Result<basics::Settings, u8>) -> Self {
        match result {
            Ok(s) => Settings { number: 0, od: s.od, frequency: s.frequency, power: s.power },
            Err(number) => Settings { number, ..Default::default() },
        }
    }
}

impl From<Result<u16, u8>> for Label {
    fn from(result: Result<u16, u8>) -> Self {
        match result {
            Ok(value) => Label { number: 0, value },
            Err(number) => Label { number, value: 0 },
        }
    }
}
