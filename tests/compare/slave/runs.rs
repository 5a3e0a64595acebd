//! A slave's calls compared and counted, and random runs of them on an adapter's stream: losses told and untold, damage, slips, late marks.

use super::Calls;
use crate::bindings::answers::{Change, Step};
use crate::comparison::{Compared, Comparison};
use crate::inputs::calls::{Board, Call, Form, Lent, Limit, Outcome, Said};
use crate::inputs::notices;
use crate::inputs::random::Random;
use crate::inputs::streams::*;
use crate::other::basics::{self, second, Settings, A110_SECOND};
use crate::other::saved;
use crate::other::slave::{Numbers, Slave, HUNTING, LOCKED, UNKNOWN};

/// The names of the calls among the cases.
pub const PACKET: [&str; 2] = ["packet in profile 0", "packet in profile 1"];
pub const NUMBERS: &str = "numbers notice";
pub const FOREIGN: &str = "packet with another clock's tick";
pub const EMPTY: &str = "empty packet";
pub const LIMITED: &str = "packet with a limit";
pub const RUN: &str = "run";

fn change(outcome: Outcome) -> Change {
    Change { slave: outcome.slave, number: outcome.number() }
}

// ---- The calls

impl Comparison<Calls> {
    pub fn start(&mut self, board: Board) -> Compared<Change> {
        let started = change(self.first(Call::Start(board))?);
        self.listed("start", "number", started.number)?;
        if started.number == 0 {
            self.saw("start", ["n in profile 0", "n in profile 1"][usize::from(board.profile)], board.n);
        }
        Ok(started)
    }

    /// A packet in place and by value, as the full board reads it.
    pub fn packet(&mut self, slave: Slave, packet: &[u8], tick: u32) -> Compared<Step> {
        self.packet_within(slave, packet, tick, None)
    }

    /// The same, with a limit.
    pub fn packet_within(&mut self, slave: Slave, packet: &[u8], tick: u32, limit: Limit) -> Compared<Step> {
        let lent = Lent::new(&mut self.random, packet);
        let stepped = self.call(slave, Call::Packet { form: Form::InPlace, packet: lent, tick, limit })?.step();
        self.listed("packet", "number", stepped.reply.number)?;
        self.saw("packet", "of length", packet.len() as i64);
        if packet.is_empty() {
            self.saw_empty(slave, tick, &stepped);
        } else {
            self.saw_step(PACKET[usize::from(slave.profile & 1)], slave, tick, &stepped)?;
        }
        if let (Some(limit), 0, 188) = (limit, stepped.reply.number, packet.len()) {
            self.saw_limited(slave, packet, limit.min(1_000) as i64, &stepped);
        }
        Ok(stepped)
    }

    /// A packet with a tick of another clock than the slave's: the other profile's, or none that there is.
    pub fn foreign(&mut self, slave: Slave, packet: &[u8], tick: u32) -> Compared {
        let lent = Lent::new(&mut self.random, packet);
        let clock = self.random.pick(&[1 - slave.profile.min(1), 1 - slave.profile.min(1), 2, 255]);
        let limit = notices::limit(&mut self.random, packet);
        let number = self.call(slave, Call::Packet { form: Form::OfClock(clock), packet: lent, tick, limit })?.number();
        self.listed(FOREIGN, "number", number)?;
        self.saw(FOREIGN, "of length", packet.len() as i64);
        if number == 3 {
            self.saw(FOREIGN, "100 × phase + profile of the slave", 100 * i64::from(slave.phase) + i64::from(slave.profile));
            self.saw(FOREIGN, "of clock", clock);
            self.saw(FOREIGN, "tick", tick);
        }
        if packet.is_empty() && number == 0 {
            self.saw(FOREIGN, "of clock, with an empty packet", clock);
        }
        Ok(())
    }

    pub fn numbers(&mut self, slave: Slave, packet: &[u8], tick: u32, numbers: &Numbers) -> Compared<Step> {
        let lent = Lent::new(&mut self.random, packet);
        let stepped = self.call(slave, Call::Numbers { packet: lent, tick, numbers: *numbers })?.step();
        self.listed(NUMBERS, "number", stepped.reply.number)?;
        self.saw(NUMBERS, "of length", packet.len() as i64);
        self.saw_step(NUMBERS, slave, tick, &stepped)?;
        match stepped.reply.notice {
            1 | 2 => {
                self.saw(NUMBERS, "taken with index", numbers.index);
                self.saw(NUMBERS, "turn", stepped.reply.turn);
            }
            3 if stepped.reply.ignored == 11 => {
                self.saw(NUMBERS, "11 for STS (1), MD (2)", i64::from(numbers.sts >= A110_SECOND) + 2 * i64::from(numbers.md >= A110_SECOND));
            }
            3 if stepped.reply.ignored == 12 => {
                self.saw(NUMBERS, "12 for pointer (1), index (2)", i64::from(numbers.pointer >= 624) + 2 * i64::from(numbers.index >= 20));
            }
            _ => {}
        }
        if [1, 2].contains(&stepped.reply.notice) || stepped.reply.ignored == 13 {
            let [md, tad] = [numbers.md, slave.tad].map(i64::from);
            let delay = md + i64::from(numbers.od);
            self.saw(NUMBERS, "judged by 13, MD + OD", delay);
            self.saw(NUMBERS, "judged by 13, MD + OD + TAD", delay + tad);
        }
        Ok(stepped)
    }

    pub fn gap(&mut self, slave: Slave, k: u16) -> Compared<Change> {
        let shifted = change(self.call(slave, Call::Gap(k))?);
        self.listed("gap", "number", shifted.number)?;
        if shifted.number == 0 {
            self.saw("gap", "in phase", slave.phase);
            self.saw("gap", "k", k);
            if slave.phase == LOCKED {
                let [n, next, k] = [slave.n, slave.next, k].map(i64::from);
                let to_mark = (n - next) % n;
                let marks = (next + k + n - 1) / n - (next + n - 1) / n;
                self.saw("gap", "marks passed", marks);
                if marks > 0 {
                    self.saw("gap", "coasted over marks, from", slave.coasted);
                }
                if marks > 1 {
                    self.saw("gap", "coasted on to less 255, over more marks than one", i64::from(slave.coasted) + marks - 255);
                }
                if slave.pending == 1 {
                    self.saw("gap", "k less the packets to a pending mark", k - to_mark);
                }
                if slave.index != UNKNOWN && k > to_mark {
                    self.saw("gap", "index raised to", shifted.slave.index);
                }
            }
        }
        Ok(shifted)
    }

    /// Counts what an empty packet reached.
    fn saw_empty(&mut self, before: Slave, tick: u32, after: &Step) {
        self.saw(EMPTY, "number", after.reply.number);
        if after.reply.number != 0 {
            return;
        }
        self.saw(EMPTY, "100 × phase + profile", 100 * i64::from(before.phase) + i64::from(before.profile));
        self.saw(EMPTY, "tick", tick);
        if before.phase == LOCKED {
            let passed = i64::from(before.next == 0);
            self.saw(EMPTY, "on the mark (10) with pending (1)", 10 * passed + i64::from(before.pending));
            if before.next == 0 {
                self.saw(EMPTY, "on the mark with index", before.index);
                self.saw(EMPTY, "coasted over its mark, from", before.coasted);
            }
            if before.next == before.n - 1 {
                self.saw(EMPTY, "before the mark with pending", before.pending);
            }
        }
    }

    /// Counts what the packet of a reader with this limit reached; 1,000 stands for every limit of 1,000 or more.
    fn saw_limited(&mut self, before: Slave, packet: &[u8], limit: i64, after: &Step) {
        let a = i64::from(packet[20]);
        match (after.reply.notice, after.reply.ignored) {
            (1 | 2, _) => {
                self.saw(LIMITED, "taken, a less the limit", a - limit);
                self.saw(LIMITED, "taken, by a limit of", limit);
            }
            (3, 26) => {
                self.saw(LIMITED, "26, a less the limit", a - limit);
                self.saw(LIMITED, "26, by a limit of", limit);
                self.saw(LIMITED, "26, of a hunting (1), a locked slave (2)", before.phase);
                self.saw(LIMITED, "26, with a wrong check value", basics::register(&packet[..25 + a as usize]) != 0);
                let pointer = u16::from_be_bytes([packet[6], packet[7]]);
                self.saw(LIMITED, "26, the label by its pointer counted (1) or another (0)", before.next.checked_add(pointer) == Some(before.n - 1));
            }
            (3, 8) if a > 163 => self.saw(LIMITED, "8 by a above 163, by a limit of", limit),
            (0, _) if a > limit => self.saw(LIMITED, "plain, or of profile 1, with byte 20 above the limit", before.profile),
            _ => {}
        }
    }

    /// Counts what a packet or a numbers notice reached.
    fn saw_step(&mut self, whose: &'static str, before: Slave, tick: u32, after: &Step) -> Compared {
        let reply = after.reply;
        if reply.number == 0 || reply.number == 3 {
            self.saw(whose, "tick", tick);
        }
        if reply.number != 0 {
            return Ok(());
        }
        let mark = reply.mark.class();
        self.listed(whose, "100 × phase + 10 × notice + mark", 100 * i64::from(before.phase) + 10 * i64::from(reply.notice) + i64::from(mark))?;
        if reply.notice == 3 {
            self.listed(whose, if before.phase == HUNTING { "hunting, ignored with" } else { "locked, ignored with" }, reply.ignored)?;
            self.saw(whose, ["off the mark beside", "untimed beside", "late beside", "released beside"][usize::from(mark)], reply.ignored);
        }
        if reply.notice == 1 && before.phase == LOCKED && reply.label != 0 {
            // with one pending: the second notice of its cadence
            self.saw(whose, "taken off the mark with pending", before.pending);
        }
        if reply.notice == 2 {
            self.saw(whose, if reply.label == 0 { "slip onto label 0 with pending" } else { "slip elsewhere with pending" }, before.pending);
            self.saw(whose, "slip from a counted", before.next);
        }
        if mark >= 2 {
            let [u, sts, md, tad, arrival] = [second(before.profile), before.sts, before.md, before.tad, tick].map(i64::from);
            let od = i64::from(before.od);
            self.saw(whose, "wait", md + od - tad - (arrival - sts).rem_euclid(u));
            if mark == 3 {
                self.saw(whose, "released, STS + MD", sts + md);
                self.saw(whose, "released, STS + MD + OD", sts + md + od);
                self.saw(whose, "released, STS + MD + OD - TAD", sts + md + od - tad);
            }
        }
        if mark == 2 {
            self.saw(whose, "lateness", reply.mark.times.reference);
        }
        if mark == 3 {
            self.saw(whose, "reference", reply.mark.times.reference);
            self.saw(whose, "emission", reply.mark.times.emission);
            self.saw(whose, "modulation", reply.mark.times.modulation);
            self.saw(whose, "released at tick", tick);
        }
        if before.phase == LOCKED {
            let (coasted, slip, on_mark) = (i64::from(before.coasted), i64::from(reply.notice == 2), i64::from(reply.label == 0));
            match reply.notice {
                1 | 2 => self.saw(
                    whose,
                    "coasted before it, taken off the mark (0), on it (1), slip off (2), on (3)",
                    1_000 * (2 * slip + on_mark) + coasted,
                ),
                _ if mark != 0 => {
                    self.saw(whose, "coasted over a mark untimed (0), late (1), released (2), from", 1_000 * (i64::from(mark) - 1) + coasted);
                }
                _ => {}
            }
        }
        if mark != 0 && before.index != UNKNOWN && reply.notice != 2 {
            self.saw(whose, "index raised from", before.index);
        }
        self.saw(whose, "has a place", reply.has_place);
        if reply.has_place {
            self.saw(whose, "M/H place before index", after.slave.index);
        }
        Ok(())
    }
}

// ---- Random runs

/// A run: the slave as the last call left it, and the place that the stream has come to.
struct Run {
    adapter: Adapter,
    slave: Slave,
    place: u64,
}

impl Comparison<Calls> {
    /// A start and some hundred calls, with every kind of loss, damage and disagreement.
    pub fn random_run(&mut self) -> Compared {
        let r = &mut self.random;
        let mut adapter = Adapter::any(r);
        let (site, tad, mut place) = (any_site(r), any_tad(r, adapter.profile), r.below(1 << 20) as u64);
        let mut slave = self.start(Board { profile: adapter.profile, n: adapter.n, site, tad })?.slave;
        let r = &mut self.random;
        if r.one_in(2) {
            let any = any_slave(r);
            if any.sound() {
                (adapter.profile, adapter.n, slave) = (any.profile, any.n, any);
                // the slave's count is the adapter's, or not
                place = u64::from(any.n) * 1_000 + if r.one_in(4) { r.below(any.n.into()) as u64 } else { any.next.into() };
            }
        }
        let mut run = Run { adapter, slave, place };
        for _ in 0..60 {
            self.lose(&mut run)?;
            self.deliver(&mut run)?;
            if self.random.one_in(16) {
                self.beside(|beside| beside.changed_slave(&run))?;
            }
            if self.random.one_in(60) {
                self.warm_boot(&mut run)?;
            }
        }
        Ok(())
    }

    /// Packets that the network loses, told exactly, wrongly or not at all.
    fn lose(&mut self, run: &mut Run) -> Compared {
        let r = &mut self.random;
        let n = u64::from(run.adapter.n);
        let label = if r.one_in(2) { u64::from(run.slave.next) } else { run.place % n };
        let to_mark = (n - label) % n;
        let lost = match r.below(20) {
            0 => 1 + r.below(4) as u64,
            1 => n * (1 + r.below(3) as u64),
            2 => r.below(140_000) as u64,
            3..=7 => to_mark,
            8 => to_mark + 1 + r.below(2) as u64,
            9 => to_mark.saturating_sub(1),
            10..=12 => run.adapter.to_notice(run.place),
            _ => 0,
        };
        run.place += lost;
        let mut told = match r.below(10) {
            0 => 0,
            1 => r.near(lost as i64).max(0) as u64,
            2 => r.pick(&[1, n - 1, n, n + 1, 65_535]),
            _ => lost,
        };
        if lost > 0 {
            // 0 untold, 1 too few, 2 exactly, 3 too many
            let how = if told == 0 { 0 } else { 2 + (told as i64 - lost as i64).signum() };
            self.saw(RUN, "packets lost and told", how);
        }
        // few of them by a card's empty packets
        while told > 0 && told < 8 && self.random.one_in(2) {
            let tick = any_tick(&mut self.random, &run.slave);
            run.slave = self.packet(run.slave, &[], tick)?.slave;
            told -= 1;
        }
        while told > 0 || self.random.one_in(16) {
            let k = told.min(65_535);
            run.slave = self.gap(run.slave, k as u16)?.slave;
            told -= k;
        }
        Ok(())
    }

    /// The packet of the run's place, or what the network made of it.
    fn deliver(&mut self, run: &mut Run) -> Compared {
        let r = &mut self.random;
        let tick = any_tick(r, &run.slave);
        let noticed = if run.adapter.to_notice(run.place) == 0 { !r.one_in(8) } else { r.one_in(5) };
        let as_numbers = if run.adapter.profile == 1 { noticed && !r.one_in(8) } else { r.one_in(40) };
        let mut packet = match r.below(10) {
            0 => notices::damaged(r, run.slave.site),
            _ if noticed && (!as_numbers || r.one_in(4)) => any_mip(r, run),
            _ => plain_packet(r),
        };
        if r.one_in(24) {
            let length = if r.one_in(2) { r.below(301) } else { r.pick(&[187, 189]) };
            packet.resize(length, 0xFF);
        }
        if r.one_in(24) && !packet.is_empty() {
            packet[0] = r.pick(&[0x46, 0x00, 0xB8, 0xFF]);
        }
        if r.one_in(16) {
            self.foreign(run.slave, &packet, tick)?;
        }
        let r = &mut self.random;
        let stepped = if as_numbers {
            let numbers = any_numbers(r, run);
            self.numbers(run.slave, &packet, tick, &numbers)?
        } else {
            let limit = notices::limit(&mut self.random, &packet);
            self.packet_within(run.slave, &packet, tick, limit)?
        };
        run.slave = stepped.slave;
        if stepped.reply.number == 0 || self.random.one_in(2) {
            run.place += 1;
        }
        Ok(())
    }

    /// Saves the slave and resumes it, at times from a block with a bit flipped; the run goes on with what is left.
    fn warm_boot(&mut self, run: &mut Run) -> Compared {
        let r = &mut self.random;
        let length = saved::BLOCK + r.below(3);
        let buffer = r.bytes(length);
        let out = Lent::between(r, &buffer);
        let from = out.from();
        let Said::Written(_, bytes) = self.call(run.slave, Call::Save(out))?.said else { unreachable!("a save gives bytes") };
        let mut block = bytes.0[from..from + saved::BLOCK].to_vec();
        let r = &mut self.random;
        if r.one_in(4) {
            let bit = r.below(8 * saved::BLOCK);
            block[bit / 8] ^= 1 << (bit % 8);
        }
        let lent = Lent::new(r, &block);
        let resumed = self.call(run.slave, Call::Resume(lent, Board::of(&run.slave)))?;
        self.saw(RUN, "resumed with", resumed.number());
        run.slave = resumed.slave;
        Ok(())
    }

    /// The run's slave, or any, with one part changed: any call with it.
    fn changed_slave(&mut self, run: &Run) -> Compared {
        let r = &mut self.random;
        let slave = if r.one_in(2) { run.slave } else { any_slave(r) };
        let (part, changed) = change_part(r, slave);
        let number = match r.below(5) {
            0 => {
                let k = r.pick(&[0, 0, 1, 624, 65_535]);
                self.gap(changed, k)?.number
            }
            1 => {
                let numbers = any_numbers(r, run);
                let (packet, tick) = (plain_packet(r), any_tick(r, &slave));
                self.numbers(changed, &packet, tick, &numbers)?.reply.number
            }
            2 => {
                let (packet, tick) = (plain_packet(r), any_tick(r, &slave));
                return self.foreign(changed, &packet, tick);
            }
            which => {
                let mut packet = if which == 3 { any_mip(r, run) } else { plain_packet(r) };
                if r.one_in(8) {
                    packet.pop();
                }
                let tick = any_tick(r, &slave);
                self.packet(changed, &packet, tick)?.reply.number
            }
        };
        if number == 15 && slave.sound() {
            self.saw("slave", "15 for its part", part as i64);
        }
        Ok(())
    }
}

/// A pointer for the run's place: the adapter's, the slave's own, or another.
fn any_pointer(r: &mut Random, run: &Run) -> u16 {
    let n = run.adapter.n;
    match r.below(16) {
        0 | 1 => (n - 1).saturating_sub(run.slave.next),
        2 => r.pick(&[0, n - 1]),
        3 => r.below(n.into()) as u16,
        4 => r.pick(&[n, n + 1, 65_535]),
        _ => n - 1 - run.adapter.label(run.place),
    }
}

fn any_mip(r: &mut Random, run: &Run) -> Vec<u8> {
    let Slave { site, od, tad, frequency, power, .. } = run.slave;
    let field = any_field(r, site);
    let settings = basics::settings(&field, site, Settings { od, frequency, power });
    let times = if r.one_in(2) { run.adapter.times_after(run.place) } else { any_times(r, run.adapter.second(), settings.map_or(od, |s| s.od), tad) };
    let pointer = any_pointer(r, run);
    let mut packet = mip(r, pointer, times.0, times.1, &field);
    if r.one_in(8) {
        // any bit, or one of those that numbers 4 to 8 are about; at times with the check value made right again
        let bit = if r.one_in(2) { r.below(8 * 188) } else { 8 + r.below(40) };
        packet[bit / 8] ^= 1 << (bit % 8);
        if r.one_in(2) {
            notices::reseal(&mut packet);
        }
    }
    packet
}

fn any_numbers(r: &mut Random, run: &Run) -> Numbers {
    let pointer = any_pointer(r, run);
    let od = if r.one_in(2) { run.slave.od } else { any_offset(r) };
    let (sts, md) = if r.one_in(2) { run.adapter.times_after(run.place) } else { any_times(r, A110_SECOND, od, run.slave.tad) };
    let index = match r.below(8) {
        0 => UNKNOWN,
        1 => r.pick(&[20, 21, 128, 254]),
        2 | 3 => r.below(20) as u8,
        4 | 5 if run.slave.index != UNKNOWN => (run.slave.index + 1) % 20,
        _ if run.slave.index != UNKNOWN => run.slave.index,
        _ => r.below(20) as u8,
    };
    Numbers { pointer, sts, md, od, index }
}
