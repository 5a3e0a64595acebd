//! The inserter: start, insert, and which inserters are sound. From document 02's Paper 1, over the basics' writer. It reckons from the pointer: how many
//! packets stand between this one and the next mark.

use super::basics::{check_form, put, register, Notice, DVB_SECOND, FULL};
use super::faults::{rule, Fault::*};
use super::slave::admits;

/// A mega-frame ended without a null packet: the number of its last packet, which is sent.
pub const NO_NULL_PACKET: u8 = 21;

/// The settings of a start; what of them stands in each notice, as it is written there.
#[derive(Clone, Copy, Debug, PartialEq)]
pub struct Settings {
    pub n: u16,
    pub periodic: u8,
    pub reserved: u16,
    pub md: u32,
    pub tps: u32,
}

/// The next packet's label, whether its mega-frame has its notice, the next notice's counter, and the addressing field, which is the first bytes of its room.
#[derive(Clone, Copy, PartialEq)]
pub struct Inserter {
    pub settings: Settings,
    pub label: u16,
    pub placed: u8,
    pub continuity: u8,
    pub length: u8,
    pub field: [u8; FULL],
}

/// What a refused start leaves.
pub const ZEROS: Inserter = Inserter {
    settings: Settings { n: 0, periodic: 0, reserved: 0, md: 0, tps: 0 },
    label: 0,
    placed: 0,
    continuity: 0,
    length: 0,
    field: [0; FULL],
};

/// The first number in this order whose condition holds.
#[inline(always)]
fn first<const N: usize>(conditions: [(u8, bool); N], order: [usize; N]) -> Option<u8> {
    order.into_iter().map(|k| conditions[k]).find(|(_, holds)| *holds).map(|(number, _)| number)
}

/// The number that settings are refused with: 15, and then a write's 19, 8, 10, 11.
#[inline(always)]
fn refused(s: &Settings, field: &[u8]) -> Option<u8> {
    let cadence = admits(0, s.n) || rule(false, AdmitsA110, s.n == 624);
    let flag = s.periodic <= rule(1, FlagOf2, 2);
    let reserved = s.reserved <= rule(32_767, ReservedOf16Bits, 32_768);
    let fits = field.len() <= rule(FULL, FieldOf164, FULL + 1);
    let md = s.md < rule(DVB_SECOND, MdOfASecond, DVB_SECOND + 1);
    let formed = field.is_empty() || check_form(field).is_ok();
    let conditions = [(15, !cadence), (19, !(flag && reserved)), (8, !fits), (10, !formed), (11, !md)];
    let order = rule([0, 1, 2, 3, 4], FieldsBeforeCadence, [1, 0, 2, 3, 4]);
    let order = rule(order, RoomBeforeFields, [0, 2, 1, 3, 4]);
    let order = rule(order, FormBeforeRoom, [0, 1, 3, 2, 4]);
    first(conditions, rule(order, MdBeforeForm, [0, 1, 2, 4, 3]))
}

/// Whether the packet with this number is to be sent.
pub fn is_sent(number: u8) -> bool {
    matches!(number, 0 | NO_NULL_PACKET)
}

impl Inserter {
    /// Start: 15, 19, 8, 10, 11, or 0. Whatever was in this memory, an accepted start leaves the settings at label 0, a refused one zeros.
    pub fn start(&mut self, settings: Settings, field: &[u8]) -> u8 {
        let before = *self;
        let number = refused(&settings, field).unwrap_or(0);
        *self = ZEROS;
        if number != 0 {
            *self = rule(ZEROS, RefusedStartKept, before);
            self.field = rule(self.field, RefusedFieldKept, before.field);
            self.settings = rule(self.settings, RefusedSettingsStay, settings);
            return number;
        }
        let a = field.len().min(FULL);
        self.field = rule(ZEROS.field, FieldLeftOver, before.field);
        self.field[..a].copy_from_slice(&field[..a]);
        (self.settings, self.length) = (settings, a as u8);
        self.label = rule(0, StartKeepsLabel, before.label);
        self.continuity = rule(rule(0, CounterFrom1, 1), StartKeepsCounter, before.continuity);
        0
    }

    /// Whether an accepted call leaves these parts; 15 otherwise.
    #[inline(always)]
    pub fn sound(&self) -> bool {
        let s = &self.settings;
        let room = &self.field[..usize::from(self.length).min(FULL)];
        let field = rule(room, StateFormUnjudged, &[]);
        // settings that a start takes, in place of those that are not judged
        let taken = Settings {
            n: rule(s.n, StateCadenceUnjudged, 2016),
            periodic: rule(s.periodic, StateFlagUnjudged, 0),
            reserved: rule(s.reserved, StateReservedUnjudged, 0),
            md: rule(s.md, StateMdUnjudged, 0),
            tps: s.tps,
        };
        refused(&taken, field).is_none()
            && usize::from(self.length) <= rule(FULL, StateLengthUnjudged, usize::MAX)
            && self.label < rule(s.n, LabelOfNSound, s.n.saturating_add(1))
            && self.placed <= rule(1, PlacedOf2, 2)
            && self.continuity <= rule(15, CounterOf16, 16)
            && (self.label > 0 || rule(self.placed == 0, PlacedAtStart, true))
            && !(rule(false, FieldTailJudged, true) && self.field[room.len()..].iter().any(|byte| *byte != 0))
    }

    /// A packet with the STS of the next mark: 15, 1, 2, 11, which keep all; else it is sent, in its place, with 0 or 21.
    pub fn insert(&mut self, packet: &mut [u8], sts: u32) -> u8 {
        self.insert_with(register, packet, sts)
    }

    /// The same over a check register of the caller's choice.
    #[inline(always)]
    pub fn insert_with(&mut self, register: impl Fn(&[u8]) -> u32, packet: &mut [u8], sts: u32) -> u8 {
        let n = self.settings.n;
        let pointer = n.wrapping_sub(1).wrapping_sub(self.label);
        // PIDs alone say which places are vacant: null packets, and those of another adapter's notices
        let header = if let [_, high, low, ..] = *packet { u16::from_be_bytes([high, low]) } else { 0 };
        let pid_bits = rule(0x1FFF, LowByteOfPid, 0x00FF);
        let null = header & pid_bits == 0x1FFF & pid_bits && rule(true, ErroredNullPasses, header & 0x8000 == 0);
        let null = null && rule(true, NullOfWholeHeader, header & 0xE000 == 0 && packet.get(3) == Some(&0x10));
        let foreign = header & pid_bits == 0x0015 && rule(true, ErroredForeignPasses, header & 0x8000 == 0);
        let foreign = foreign && rule(true, ForeignOfWholeHeader, header & 0x6000 == 0x6000);
        let foreign = foreign && rule(true, ForeignPassesAfter, self.placed == 0) && rule(true, ForeignPassesBefore, self.placed == 1);
        let vacant = rule(rule(null || foreign, NullStays, foreign), ForeignNeverNotice, null);
        let put_here = vacant && rule(self.placed == 0, SecondNotice, true);
        let lacking = pointer == 0 && self.placed == 0 && !put_here;

        let late = sts >= rule(DVB_SECOND, StsOfU, DVB_SECOND + 1);
        let late = late && rule(true, StsOfNoticesAlone, put_here) && rule(true, StsAfterEnd, !lacking);
        let conditions = [(15, !self.sound()), (1, packet.len() != 188), (2, packet.first() != Some(&0x47)), (11, late)];
        let order = rule([0, 1, 2, 3], SoundAfterLength, [1, 0, 2, 3]);
        let order = rule(order, SyncBeforeLength, [0, 2, 1, 3]);
        let order = rule(rule(order, StsBeforeSync, [0, 1, 3, 2]), StsBeforeLength, [0, 3, 1, 2]);
        if let Some(number) = first(conditions, rule(order, SoundLast, [1, 2, 3, 0])) {
            self.keep_wrongly(number, packet, foreign);
            return number;
        }
        if rule(false, EndKeepsAll, lacking) {
            return NO_NULL_PACKET;
        }

        if put_here {
            self.put_notice(register, packet, pointer, sts);
        } else if foreign {
            make_null(packet);
        }
        let placed = put_here || self.placed == 1;
        let at_end = rule(rule(pointer == 0, EndEarly, pointer == 1), EndLate, self.label == 0);
        let number = if at_end && !rule(placed, EndBeforeLast, self.placed == 1) { NO_NULL_PACKET } else { 0 };
        let counts = rule(put_here, CounterAlwaysRises, put_here || lacking);
        if rule(counts, CounterStays, false) {
            let rises = rule(rule(16, CounterTo14, 15), CounterTo16, 17);
            self.continuity = ((u32::from(self.continuity) + 1) % rises) as u8;
        }
        let ended = pointer == 0;
        self.placed = u8::from(placed && !rule(ended, PlacedAcross, false));
        self.label = if rule(ended, LabelToN, false) { 0 } else { n.wrapping_sub(pointer) };
        self.label = rule(self.label, EndKeepsLabel, if number == NO_NULL_PACKET { n.wrapping_sub(1) } else { self.label });
        rule(number, EndSilent, 0)
    }

    /// The notice for the next mark, so many packets before it, in the packet's place.
    #[inline(always)]
    fn put_notice(&mut self, register: impl Fn(&[u8]) -> u32, packet: &mut [u8], pointer: u16, sts: u32) {
        let Settings { n, periodic, reserved, md, tps } = self.settings;
        let pointer = rule(rule(pointer, PointerOneMore, pointer.wrapping_add(1)), PointerOneLess, pointer.wrapping_sub(1));
        let pointer = rule(pointer, PointerOfNAtStart, if self.label == 0 { n } else { pointer });
        let pointer = rule(pointer, PointerIsLabel, self.label);
        let (sts, md) = rule((sts, md), TimesExchanged, (md, sts));
        let continuity = rule(rule(self.continuity, CounterUnwritten, 0), CounterWrittenRisen, (self.continuity + 1) % 16);
        let (periodic, reserved) = (rule(periodic == 1, FlagUnwritten, false), rule(reserved, ReservedUnwritten, 0));
        let notice = Notice { continuity, pointer, periodic, reserved, sts, md, tps: rule(tps, TpsSwapped, tps.swap_bytes()) };
        let a = usize::from(self.length).min(FULL);
        let field = &self.field[..rule(rule(a, WholeRoomSent, FULL), FieldUnsent, 0)];
        let came = rule(false, StuffingStays, true).then(|| packet.to_vec());
        put(register, packet, &notice, field);
        if let Some(came) = came {
            packet[25 + a..].copy_from_slice(&came[25 + a..]);
        }
    }

    /// What a refused packet may not change.
    fn keep_wrongly(&mut self, number: u8, packet: &mut [u8], foreign: bool) {
        if number == 15 {
            *self = rule(*self, UnsoundZeroed, ZEROS);
            return;
        }
        let moves = match number {
            1 => rule(false, LengthMoves, true),
            2 => rule(false, SyncMoves, true),
            _ => rule(false, StsMoves, true),
        };
        if moves {
            self.label = (self.label + 1) % self.settings.n;
        }
        if foreign && number == 11 && rule(false, StsMakesNull, true) {
            make_null(packet);
        }
    }
}

/// A null packet: 47 1F FF 10, then 184 bytes of 0xFF.
#[inline(always)]
fn make_null(packet: &mut [u8]) {
    let counter = packet[3] & 0x0F;
    packet.fill(rule(0xFF, NullOfZeros, 0));
    packet[..4].copy_from_slice(&[0x47, 0x1F, 0xFF, rule(rule(0x10, NullHeader, 0x00), NullKeepsCounter, 0x10 | counter)]);
}
