//! The slave: start, packet, numbers notice and gap, and which slaves count as cold.
//! From document 01 and document 02's Papers 5, 9 and 12, over the basics. An error is the number that refuses the whole call.

use super::basics::{self, over_limit, second, Settings, Times, A110_SECOND, DVB_SECOND, FULL};
use super::faults::{rule, Fault::*};

// ---- The slave (01, "Steps of a slave", "Saved block")

pub const HUNTING: u8 = 1;
pub const LOCKED: u8 = 2;

/// The index that is not known.
pub const UNKNOWN: u8 = 255;

/// The marks coasted are counted up to here.
pub const MOST: u8 = 255;

/// The saved body's parts in its order. `next` is the next packet's label, `index` the next mark's, `coasted` the marks since the last notice taken.
#[derive(Clone, Copy, Debug, PartialEq)]
pub struct Slave {
    pub phase: u8,
    pub profile: u8,
    pub n: u16,
    pub site: u16,
    pub tad: u32,
    pub od: i16,
    pub frequency: i32,
    pub power: u16,
    pub next: u16,
    pub pending: u8,
    pub index: u8,
    pub sts: u32,
    pub md: u32,
    pub coasted: u8,
}

/// What 15 leaves.
pub const COLD: Slave = Slave {
    phase: 0,
    profile: 0,
    n: 0,
    site: 0,
    tad: 0,
    od: 0,
    frequency: 0,
    power: 0,
    next: 0,
    pending: 0,
    index: UNKNOWN,
    sts: 0,
    md: 0,
    coasted: 0,
};

/// A packet's reply, where the whole call is not refused.
#[derive(Clone, Copy, Debug, PartialEq)]
pub struct Reply {
    pub label: Option<u16>,
    pub notice: NoticePart,
    pub turn: bool,
    pub mark: MarkPart,
    pub place: Option<u16>,
}

#[derive(Clone, Copy, Debug, PartialEq)]
pub enum NoticePart {
    None,
    Taken,
    Slip,
    Ignored(u8),
}

#[derive(Clone, Copy, Debug, PartialEq)]
pub enum MarkPart {
    None,
    Untimed,
    /// How late.
    Late(u32),
    Released(Times),
}

/// What a numbers notice gives.
#[derive(Clone, Copy, Debug, PartialEq)]
pub struct Numbers {
    pub pointer: u16,
    pub sts: u32,
    pub md: u32,
    pub od: i16,
    pub index: u8,
}

/// An accepted notice: its packet's label, and what enters after the packet's mark.
struct Accepted {
    label: u16,
    sts: u32,
    md: u32,
    settings: Settings,
    index: u8,
}

/// A packet's notice: none, accepted, or the number with which it is ignored.
type Judged = Result<Option<Accepted>, u8>;

/// Whether n is a cadence of the profile: 2016 × v × r, or 624.
pub fn admits(profile: u8, n: u16) -> bool {
    match profile {
        0 => matches!(n, 2016 | 2688 | 3024 | 3360 | 3528 | 4032 | 5376 | 6048 | 6720 | 7056 | 8064 | 9072 | 10_080 | 10_584),
        1 => n == 624,
        _ => false,
    }
}

impl Slave {
    /// Start: a hunting slave, or 15.
    pub fn start(profile: u8, n: u16, site: u16, tad: u32) -> Result<Slave, u8> {
        if admits(profile, n) && rule(site != 0, StartWithoutSite, true) && rule(tad < second(profile), StartOnAnyTad, true) {
            Ok(Slave::hunting(profile, n, site, tad))
        } else {
            Err(15)
        }
    }

    /// The fresh hunting slave of these settings.
    pub fn hunting(profile: u8, n: u16, site: u16, tad: u32) -> Slave {
        Slave { phase: HUNTING, profile, n, site, tad, coasted: rule(MOST, CoastedNone, 0), ..COLD }
    }

    /// Whether a saved body may hold these parts; every other slave counts as cold.
    pub fn sound(&self) -> bool {
        let &Slave { phase, profile, n, site, tad, power, .. } = self;
        if !admits(profile, n) || site == 0 || tad >= second(profile) {
            return false;
        }
        match phase {
            HUNTING => {
                let coasted = rule(MOST, HuntingCoasted, self.coasted);
                *self == Slave { power: rule(0, HuntingWithPower, power), coasted, ..Slave::hunting(profile, n, site, tad) }
            }
            LOCKED => self.locked_sound(),
            _ => rule(false, PhaseNotZero, phase != 0 && self.locked_sound()),
        }
    }

    fn locked_sound(&self) -> bool {
        let index_sound = self.index == UNKNOWN || self.index < 20 && rule(self.profile == 1, IndexInDvb, true);
        let notice_sound = match self.pending {
            0 => self.sts == 0 && self.md == 0 || rule(false, TimesLeftOver, true),
            1 => {
                let second = second(self.profile);
                self.sts < second && self.md < second && rule(self.delay_fits(self.md, self.od), PendingUnjudged, true)
            }
            _ => false,
        };
        self.next < rule(self.n, LabelOfN, self.n + 1)
            && rule(true, PendingUncoasted, self.pending == 0 || self.coasted == 0)
            && rule((-0x80_0000..0x80_0000).contains(&self.frequency), FrequencyOf32Bits, true)
            && index_sound
            && notice_sound
    }

    /// Number 13.
    fn delay_fits(&self, md: u32, od: i16) -> bool {
        basics::delay_fits(self.profile, md, od, self.tad)
    }

    // ---- Packets

    /// A packet with its arrival tick, in place, as the full board reads it.
    pub fn packet(&mut self, packet: &[u8], tick: u32) -> Result<Reply, u8> {
        self.packet_with(basics::register, packet, tick, FULL)
    }

    /// The same, by value.
    pub fn packet_by_value(mut self, packet: &[u8], tick: u32) -> (Slave, Result<Reply, u8>) {
        let reply = self.packet(packet, tick);
        (self, reply)
    }

    /// A packet that a reader of this limit reads, by value.
    pub fn packet_within(mut self, packet: &[u8], tick: u32, limit: usize) -> (Slave, Result<Reply, u8>) {
        let reply = self.packet_with(basics::register, packet, tick, limit);
        (self, reply)
    }

    /// A packet, over a check register of the caller's choice. Numbers 15, 1, 2, 3 refuse the call; 4, 6 to 8, 26, 9 to 13 its notice. An empty one was lost.
    pub fn packet_with(&mut self, register: impl Fn(&[u8]) -> u32, packet: &[u8], tick: u32, limit: usize) -> Result<Reply, u8> {
        if rule(true, EmptyUnawake, !packet.is_empty()) {
            self.awake()?;
        }
        if packet.is_empty() && rule(true, EmptyRefused, false) {
            return self.lost(tick);
        }
        let p = self.arrived(packet, tick)?;
        let pid = u16::from_be_bytes([p[1], p[2]]) & 0x1FFF;
        let error = p[1] & 0x80 != 0;
        let notice = if rule(error, ErrorOfNoticesAlone, error && pid == 0x15) {
            Err(4)
        } else if rule(self.profile == 0, A110ReadsMip, true) && pid == 0x15 {
            self.judge(register, p, limit).map(Some)
        } else if rule(false, LimitOfAnyPid, over_limit(p[20].into(), limit)) {
            Err(26)
        } else {
            Ok(None)
        };
        if matches!(notice, Err(26)) && rule(false, LimitRefusesCall, true) {
            return Err(26);
        }
        Ok(self.step(notice, tick))
    }

    /// A radio link card's empty packet: one packet more is missing, whatever the tick, and the reply has nothing in it (02, Paper 5).
    fn lost(&mut self, tick: u32) -> Result<Reply, u8> {
        if rule(false, EmptyTickJudged, tick >= second(self.profile)) {
            return Err(3);
        }
        if rule(false, EmptyCounted, self.phase == LOCKED) {
            return Ok(self.step(Ok(None), tick));
        }
        let on_mark = self.phase == LOCKED && self.next == 0;
        let mark = rule(MarkPart::None, EmptyUntimed, if on_mark { MarkPart::Untimed } else { MarkPart::None });
        let kept = *self;
        if self.phase == LOCKED && rule(true, EmptyUntold, false) {
            self.next = (self.next + 1) % self.n;
            if on_mark {
                self.clear();
                self.raise(rule(1, EmptyKeepsIndex, 0));
                self.coast(rule(1, EmptyUncoasted, 0));
            }
        }
        if rule(false, EmptyKeepsNotice, true) {
            (self.pending, self.sts, self.md) = (kept.pending, kept.sts, kept.md);
        }
        if rule(false, EmptyHunts, self.phase == LOCKED) {
            *self = Slave::hunting(self.profile, self.n, self.site, self.tad);
        }
        Ok(Reply { label: None, notice: NoticePart::None, turn: false, mark, place: None })
    }

    /// A packet with a tick of the other profile's clock, which is no tick of this slave's: 15, 1, 2 or else 3, by value. An empty packet's is not read.
    pub fn foreign_packet(mut self, packet: &[u8], tick: u32) -> (Slave, Result<Reply, u8>) {
        if rule(false, ForeignTickTaken, true) || packet.is_empty() && rule(true, EmptyForeign, false) {
            return self.packet_by_value(packet, tick);
        }
        let refused = self.awake().err().unwrap_or(match packet {
            _ if packet.len() != 188 => 1,
            [0x47, ..] => 3,
            _ => 2,
        });
        (self, Err(refused))
    }

    /// A numbers notice with its packet and tick, in place. Numbers 15, 1, 2, 3, 20 refuse the call; 4, 11 to 13 the notice.
    pub fn numbers(&mut self, packet: &[u8], tick: u32, numbers: &Numbers) -> Result<Reply, u8> {
        self.awake()?;
        if packet.is_empty() && rule(false, EmptyOfNumbers, true) {
            return self.lost(tick);
        }
        let p = self.arrived(packet, tick)?;
        let error = p[1] & 0x80 != 0;
        if self.profile == 0 && rule(true, ErrorBeforeProfile, !error) {
            return Err(20);
        }
        let notice = if error { Err(4) } else { self.judge_numbers(numbers).map(Some) };
        Ok(self.step(notice, tick))
    }

    /// The same, by value.
    pub fn numbers_by_value(mut self, packet: &[u8], tick: u32, numbers: &Numbers) -> (Slave, Result<Reply, u8>) {
        let reply = self.numbers(packet, tick, numbers);
        (self, reply)
    }

    /// Number 15, which leaves the cold slave.
    fn awake(&mut self) -> Result<(), u8> {
        if self.sound() {
            return Ok(());
        }
        *self = rule(COLD, ColdKept, *self);
        self.coasted = rule(self.coasted, ColdCoasted, MOST);
        Err(15)
    }

    /// Numbers 1, 2, 3, which keep the slave.
    fn arrived<'a>(&self, packet: &'a [u8], tick: u32) -> Result<&'a [u8; 188], u8> {
        let p: &[u8; 188] = packet.try_into().map_err(|_| rule(1, LengthAfterSync, if packet.first() == Some(&0x47) { 1 } else { 2 }))?;
        let limit = rule(second(self.profile), TickByOtherClock, DVB_SECOND);
        let ticked = tick < rule(limit, TickOfASecond, limit + 1) || rule(false, HuntingTickUnjudged, self.phase == HUNTING);
        if p[0] != 0x47 {
            Err(rule(2, TickBeforeSync, if ticked { 2 } else { 3 }))
        } else if !ticked {
            Err(3)
        } else {
            Ok(p)
        }
    }

    /// A packet of the MIP's PID: numbers 6 to 8, 26, 9 to 13. The addressing field is walked once, for its form and for this site's settings.
    fn judge(&mut self, register: impl Fn(&[u8]) -> u32, p: &[u8; 188], limit: usize) -> Result<Accepted, u8> {
        if p[1] & 0x60 != 0x60 || p[3] & 0xF0 != 0x10 {
            return Err(6);
        }
        if p[4] != 0 {
            return Err(7);
        }
        let a = usize::from(p[20]);
        let over = over_limit(a, limit);
        if rule(false, LimitBeforeLengths, over) {
            return Err(26);
        }
        if a > 163 || usize::from(p[5]) != 19 + a {
            return Err(8);
        }
        if rule(over, LongTakenUnread, false) && rule(true, LimitAfterCheck, register(&p[..25 + a]) == 0) {
            self.learn_wrongly(p, a);
            return Err(26);
        }
        if register(&p[..25 + a]) != 0 {
            return Err(9);
        }
        let before = Settings { od: self.od, frequency: self.frequency, power: self.power };
        let field = &p[21..21 + rule(a, LongTakenUnread, if over { 0 } else { a })];
        let settings = basics::settings(field, self.site, before)?;
        let (sts, md) = (u32::from_be_bytes([0, p[10], p[11], p[12]]), u32::from_be_bytes([0, p[13], p[14], p[15]]));
        if sts >= DVB_SECOND || md >= DVB_SECOND {
            return Err(11);
        }
        let label = self.label(u16::from_be_bytes([p[6], p[7]]))?;
        self.accept(Accepted { label, sts, md, settings, index: UNKNOWN })
    }

    /// What a notice above the limit may not teach: its label, its settings, that another notice is gone.
    fn learn_wrongly(&mut self, p: &[u8; 188], a: usize) {
        if self.phase != LOCKED {
            return;
        }
        let label = basics::label(self.n, u16::from_be_bytes([p[6], p[7]]));
        self.next = rule(self.next, LongSetsCount, label.unwrap_or(self.next));
        let before = Settings { od: self.od, frequency: self.frequency, power: self.power };
        self.enter(rule(before, LongSettingsEnter, basics::settings(&p[21..21 + a], self.site, before).unwrap_or(before)));
        if rule(false, LongDropsPending, true) {
            self.clear();
        }
    }

    /// Numbers 11 to 13 of a numbers notice. It gives no frequency and no power.
    fn judge_numbers(&mut self, numbers: &Numbers) -> Result<Accepted, u8> {
        let &Numbers { pointer, sts, md, od, index } = numbers;
        let index_wrong = index >= rule(20, IndexOf20, 21) && index != UNKNOWN;
        if index_wrong && rule(false, IndexBeforeLimits, true) {
            return Err(12);
        }
        if sts >= A110_SECOND || md >= A110_SECOND {
            return Err(11);
        }
        let label = self.label(pointer)?;
        if index_wrong {
            return Err(12);
        }
        let kept = Settings { od, frequency: self.frequency, power: self.power };
        let settings = rule(kept, NumbersDropPower, Settings { od, ..Settings::default() });
        self.accept(Accepted { label, sts, md, settings, index })
    }

    /// Number 12 of a pointer, or the packet's label.
    fn label(&self, pointer: u16) -> Result<u16, u8> {
        basics::label(self.n, pointer).map(|label| rule(label, LabelOffByOne, (label + 1) % self.n))
    }

    /// Number 13, with the OD in force once this notice is taken.
    fn accept(&mut self, notice: Accepted) -> Result<Accepted, u8> {
        if self.delay_fits(notice.md, rule(notice.settings.od, OldOffsetJudged, self.od)) {
            return Ok(notice);
        }
        if rule(false, RefusedSettingsEnter, self.phase == LOCKED) {
            self.enter(notice.settings);
        }
        Err(13)
    }

    /// The steps of a packet that counts, its notice being judged. Inlined, so that the reply is made where the caller wants it.
    #[inline(always)]
    fn step(&mut self, judged: Judged, tick: u32) -> Reply {
        let (mut notice, accepted) = match judged {
            Ok(None) => (NoticePart::None, None),
            Ok(Some(accepted)) => (NoticePart::Taken, Some(accepted)),
            Err(number) => (NoticePart::Ignored(number), None),
        };
        let label = match &accepted {
            Some(accepted) => {
                let differs = accepted.label != self.next;
                if self.phase == LOCKED && rule(differs, MarkSlips, differs || accepted.label == 0) {
                    notice = NoticePart::Slip;
                    if rule(true, SlipReleases, false) {
                        self.clear();
                    }
                    self.index = rule(UNKNOWN, SlipKeepsIndex, self.index);
                }
                self.coasted = rule(self.coasted, CoastedBeforeMark, 0);
                rule(accepted.label, SlipKeepsCount, if self.phase == LOCKED { self.next } else { accepted.label })
            }
            None if self.phase == LOCKED => self.next,
            None => {
                let notice = rule(notice, HuntingRefusalSilent, NoticePart::None);
                return Reply { label: None, notice, turn: false, mark: MarkPart::None, place: None };
            }
        };
        if let Some(accepted) = &accepted {
            self.od = rule(self.od, NewOffsetReleased, accepted.settings.od);
            let kept = (self.pending, self.sts, self.md);
            (self.pending, self.sts, self.md) = rule(kept, NewNoticeReleased, (1, accepted.sts, accepted.md));
        }
        let (unraised, coasted_before) = (self.index, self.coasted);
        let mark = if label == 0 { self.pass_mark(tick) } else { MarkPart::None };
        if rule(true, RefusalUncounted, !matches!(notice, NoticePart::Ignored(_))) {
            self.next = if label + 1 == self.n { 0 } else { label + 1 };
        }
        let mut turn = false;
        if let Some(accepted) = accepted {
            let known = rule(self.index, TurnBeforeMark, unraised);
            if accepted.index != UNKNOWN {
                turn = known != accepted.index && rule(known != UNKNOWN, TurnFromUnknown, true);
                self.index = accepted.index;
            }
            self.index = rule(self.index, UnknownEnters, accepted.index);
            self.phase = LOCKED;
            self.enter(accepted.settings);
            let slipped = notice == NoticePart::Slip;
            self.coasted = rule(0, CoastedBeforeMark, self.coasted);
            self.coasted = rule(self.coasted, SlipCoasts, if slipped { coasted_before } else { 0 });
            self.coasted = rule(self.coasted, TakenCoasts, if slipped { 0 } else { coasted_before });
            if rule(true, FirstNoticeStays, self.pending == 0) {
                (self.pending, self.sts, self.md) = (1, accepted.sts, accepted.md);
            }
        }
        if matches!(notice, NoticePart::Ignored(_)) {
            self.coasted = rule(self.coasted, RefusedResets, 0);
        }
        Reply { label: Some(label), notice, turn, mark, place: self.place(label) }
    }

    fn enter(&mut self, settings: Settings) {
        (self.od, self.frequency, self.power) = (settings.od, settings.frequency, settings.power);
    }

    fn clear(&mut self) {
        (self.pending, self.sts, self.md) = (0, 0, 0);
    }

    /// Label 0: a pending notice is released, or late, and cleared; the index is raised. A hunting slave and one that slipped have none.
    fn pass_mark(&mut self, tick: u32) -> MarkPart {
        let &mut Slave { phase, profile, tad, od, pending, sts, md, .. } = self;
        let mark = if pending == 0 {
            rule(MarkPart::Untimed, FirstLockUnmarked, if phase == HUNTING { MarkPart::None } else { MarkPart::Untimed })
        } else {
            basics::release(profile, sts, md, od, tad, tick).map_or_else(MarkPart::Late, MarkPart::Released)
        };
        if rule(true, LateKept, !matches!(mark, MarkPart::Late(_))) {
            self.clear();
            (self.sts, self.md) = rule((0, 0), ReleasedTimesLeft, (sts, md));
        }
        self.raise(1);
        let counts = match mark {
            MarkPart::Late(_) => rule(1, LateUncoasted, 0),
            MarkPart::Released(_) => rule(1, ReleasedUncoasted, 0),
            _ => rule(1, UntimedUncoasted, 0),
        };
        self.coast(counts);
        mark
    }

    /// So many marks more since the last notice taken, up to 255 (02, Paper 12).
    fn coast(&mut self, marks: u32) {
        let sum = u32::from(self.coasted) + marks;
        let most = rule(255, CoastedTo254, 254);
        self.coasted = rule(if sum < most { sum } else { most }, CoastedWraps, sum % 256) as u8;
    }

    /// Raises a known index by the marks passed, 19 to 0.
    fn raise(&mut self, marks: u32) {
        if self.index != UNKNOWN {
            let raised = u32::from(self.index) + marks;
            self.index = rule(raised % 20, IndexPast19, if raised < 20 { raised } else { raised % 19 }) as u8;
        }
    }

    /// The M/H place of a packet, from the mark before the next one.
    fn place(&self, label: u16) -> Option<u16> {
        let passed = match self.index {
            UNKNOWN => return None,
            0 => 19,
            index => index - 1,
        };
        Some(basics::mobile_place(rule(passed, PlaceOfNextMark, self.index), label))
    }

    // ---- Gaps

    /// A gap of k packets, in place.
    pub fn gap(&mut self, k: u16) -> Result<(), u8> {
        if rule(false, GapOfZeroUnjudged, k == 0) {
            return Ok(());
        }
        self.awake()?;
        if self.phase != LOCKED {
            return Ok(());
        }
        let [n, next, gap] = [self.n, self.next, k].map(u32::from);
        let to_mark = if next == 0 { rule(0, GapKeepsMark, n) } else { n - next };
        if gap > to_mark {
            if rule(true, GapNeverDrops, false) {
                self.clear();
            }
            let marks = 1 + (gap - to_mark - 1) / n;
            self.raise(rule(marks, GapRaisesOnce, 1));
            self.coast(rule(rule(marks, GapCoastsOnce, 1), GapUncoasted, 0));
        } else if rule(false, GapDropsEarly, gap == to_mark && gap > 0) {
            self.clear();
        }
        let sum = rule(next + gap, GapOf16Bits, u32::from(self.next.wrapping_add(k)));
        self.next = rule((sum % n) as u16, GapUncounted, self.next);
        Ok(())
    }

    /// The same, by value.
    pub fn gap_by_value(mut self, k: u16) -> (Slave, Result<(), u8>) {
        let result = self.gap(k);
        (self, result)
    }
}
