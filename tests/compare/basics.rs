//! The basics compared: check value, notices read and written, addressing, times of a mark, cadence.

use super::comparison::{Cases, Compared, Comparison, Subject};
use crate::bindings::answers::Reading;
use crate::bindings::vikombare::Reply;
use crate::bindings::{probe, vikombare};
use crate::inputs::calls::{Call, Lent, Limit, Said};
use crate::inputs::moments::{self, Moment};
use crate::inputs::notices::{self, WRONG_FORMS};
use crate::inputs::random::{hex, Hex};
use crate::other::basics::{self, second, Notice, Settings, DVB_SECOND};
use crate::other::faults::{self, Fault};

pub struct Basics;

impl Subject for Basics {
    const NAME: &'static str = "the basics";
    const REQUIRED: fn() -> Cases = required;
    const FAULTS: &'static [&'static [Fault]] = &[faults::BASICS, faults::LIMIT];
    // nothing is kept from call to call
    const LONGEST: usize = 1;
    const SHORTENED: bool = false;

    fn random(comparison: &mut Comparison<Self>) -> Compared {
        comparison.random_call()
    }

    fn sweeps(comparison: &mut Comparison<Self>) -> Compared {
        comparison.sweep_lengths()?;
        comparison.sweep_packet_bytes()?;
        comparison.sweep_limits()?;
        comparison.sweep_residues()?;
        comparison.sweep_flips()?;
        comparison.sweep_times()?;
        comparison.sweep_cadence()
    }
}

/// The name of a mark's times among the cases, by profile.
const RELEASE: [&str; 2] = ["DVB release", "A/110 release"];

impl Comparison<Basics> {
    // ---- The calls

    fn register(&mut self, bytes: &[u8]) -> Compared {
        let lent = Lent::new(&mut self.random, bytes);
        let other = basics::register_by_bits(bytes);
        self.same("the byte table's register", || hex(bytes), basics::register(bytes), other)?;
        self.same("register", || hex(bytes), probe::register(lent.bytes()), other)?;
        self.saw("register", "of length", bytes.len() as i64);
        Ok(())
    }

    /// As the full board reads it.
    fn read(&mut self, packet: &[u8]) -> Compared<Reading> {
        self.read_within(packet, None)
    }

    fn read_within(&mut self, packet: &[u8], limit: Limit) -> Compared<Reading> {
        let lent = Lent::new(&mut self.random, packet);
        let Said::Reading(reading) = self.first(Call::Read(lent, limit))?.said else { unreachable!("a read gives a reading") };
        self.listed("read", "number", reading.number)?;
        self.saw("read", "of length", packet.len() as i64);
        if reading.number == 0 {
            self.saw("read", "accepted with a", reading.addressing as i64);
            self.write_again(packet, &reading)?;
        }
        if let (Some(limit), 188) = (limit, packet.len()) {
            self.saw_limited(packet[20].into(), limit.min(1_000) as i64, reading.number);
        }
        Ok(reading)
    }

    /// Counts what a reader with this limit gave; 1,000 stands for every limit of 1,000 or more.
    fn saw_limited(&mut self, a: i64, limit: i64, number: u8) {
        match number {
            0 => {
                self.saw("read", "accepted, a less the limit", a - limit);
                self.saw("read", "accepted, by a limit of", limit);
            }
            26 => {
                self.saw("read", "26, a less the limit", a - limit);
                self.saw("read", "26, by a limit of", limit);
            }
            8 if a > 163 => self.saw("read", "8 by a above 163, by a limit of", limit),
            _ => {}
        }
    }

    /// An accepted packet, written again, is the same packet with stuffing of 0xFF.
    fn write_again(&mut self, packet: &[u8], reading: &Reading) -> Compared {
        let section = 25 + reading.addressing;
        let mut expected = packet.to_vec();
        expected[section..].fill(0xFF);
        let mut again = vec![0; 188];
        let number = vikombare::write(&mut again, &reading.notice, &packet[21..section - 4]);
        self.same("write again", || hex(packet), (number, Hex(again)), (0, Hex(expected)))?;
        self.saw("write", "again what was read", 0);
        Ok(())
    }

    /// A write into a buffer of this length between other bytes; every byte is compared.
    fn write(&mut self, length: usize, notice: &Notice, field: &[u8]) -> Compared {
        let before = self.random.bytes(length);
        let out = Lent::between(&mut self.random, &before);
        let kept = out.room();
        let Said::Written(number, after) = self.first(Call::Write { out, notice: *notice, field: field.to_vec() })?.said else {
            unreachable!("a write gives bytes")
        };
        if number != 0 {
            self.same("write, refused", || hex(&before), after, kept)?;
        }
        self.listed("write", "number", number)?;
        self.saw("write", "into a buffer of length", length as i64);
        match number {
            0 => self.saw("write", "accepted with a", field.len() as i64),
            8 => self.saw("write", "8 with a", field.len() as i64),
            11 => self.saw("write", "11 for STS (1), MD (2)", i64::from(notice.sts >= DVB_SECOND) + 2 * i64::from(notice.md >= DVB_SECOND)),
            19 => {
                self.saw("write", "19 for continuity (1), reserved (2)", i64::from(notice.continuity > 15) + 2 * i64::from(notice.reserved > 32_767))
            }
            _ => {}
        }
        Ok(())
    }

    fn settings(&mut self, field: &[u8], site: u16, before: Settings) -> Compared<u8> {
        let lent = Lent::new(&mut self.random, field);
        let ours = probe::settings(lent.bytes(), site, before);
        let input = || format!("site {site}, {before:?}, field of {}", hex(field));
        let number = self.same("settings", input, ours, basics::settings(field, site, before).into())?.number;
        self.listed("settings", "number", number)?;
        self.saw("settings", "of length", field.len() as i64);
        Ok(number)
    }

    /// A mark that a notice waits for, by the packet call; and number 13 by itself.
    fn release(&mut self, profile: u8, m: Moment) -> Compared {
        let whose = RELEASE[usize::from(profile)];
        let reply = self.call(m.slave(profile), m.mark())?.step().reply;
        let (ours, other) = (probe::delay_fits(profile, m.md, m.od, m.tad), basics::delay_fits(profile, m.md, m.od, m.tad));
        let fits = self.same("delay fits", || format!("profile {profile}, {m:?}"), ours, other)?;
        self.saw(whose, "delay fits", fits);
        // released, late, or a number that refuses the packet
        let number = match (reply.number, reply.mark.class()) {
            (0, 3) => 0,
            (0, 2) => 14,
            (0, kind) => return Err(self.differs(format!("{m:?}: a mark of kind {kind}"))),
            (number, _) => number,
        };
        self.listed(whose, "number", number)?;
        self.saw_limits(profile, m, number, &reply);
        Ok(())
    }

    /// Which limits refused a release, and which sums fell on a limit or beside it; and how late it was.
    fn saw_limits(&mut self, profile: u8, m: Moment, number: u8, reply: &Reply) {
        let whose = RELEASE[usize::from(profile)];
        let [u, sts, md, tad, arrival] = [second(profile), m.sts, m.md, m.tad, m.arrival].map(i64::from);
        let od = i64::from(m.od);
        if number == 15 {
            let limit = match (tad < u, sts.max(md) < u) {
                (false, _) => 15,
                (true, false) => 11,
                (true, true) => 13,
            };
            self.saw(whose, "15 by the limits of number", limit);
        }
        if tad.max(sts).max(md) < u {
            self.saw(whose, "MD + OD", md + od);
            self.saw(whose, "MD + OD + TAD", md + od + tad);
        }
        if [0, 14].contains(&number) {
            self.saw(whose, "wait", md + od - tad - (arrival - sts).rem_euclid(u));
        }
        if number == 14 {
            self.saw(whose, "lateness", reply.mark.times.reference);
        }
        if number == 0 {
            self.saw(whose, "released, STS + MD", sts + md);
            self.saw(whose, "released, STS + MD + OD", sts + md + od);
            self.saw(whose, "released, STS + MD + OD - TAD", sts + md + od - tad);
            self.saw(whose, "released, OD", od);
            self.saw(whose, "released, modulation", reply.mark.times.modulation);
            self.saw(whose, "released, TAD", tad);
        }
    }

    fn length(&mut self, constellation: u8, rate: u8) -> Compared {
        let asked = || format!("constellation {constellation}, code rate {rate}");
        let n = self.same("length", asked, probe::length(constellation, rate), basics::length(constellation, rate))?;
        self.saw("cadence", "length", n);
        Ok(())
    }

    fn admits(&mut self, profile: u8, n: u16) -> Compared {
        let ours = probe::admits(profile, n);
        let admitted = self.same("admits", || format!("profile {profile}, n {n}"), ours, basics::admits(profile, n))?;
        if admitted {
            self.saw("cadence", ["n in profile 0", "n in profile 1"][usize::from(profile)], n);
        }
        Ok(())
    }

    fn label(&mut self, n: u16, pointer: u16) -> Compared {
        let label = self.same("label", || format!("n {n}, pointer {pointer}"), probe::label(n, pointer), basics::label(n, pointer).into())?;
        self.listed("label", "number", label.number)
    }

    fn place(&mut self, i: u8, p: u16) -> Compared {
        self.same("M/H place", || format!("i {i}, p {p}"), probe::mobile_place(i, p), basics::mobile_place(i, p)).map(|_| ())
    }

    // ---- Random calls

    fn random_call(&mut self) -> Compared {
        let r = &mut self.random;
        let site = r.pick(&[7, 7, 8, 0x0102, 256, 65_535, 0]);
        match r.below(20) {
            0..=6 => {
                let packet = notices::damaged(r, site);
                let limit = notices::limit(r, &packet);
                self.read_within(&packet, limit)?;
            }
            7..=10 => {
                let length = if r.one_in(3) { r.below(301) } else { r.pick(&[188, 188, 187, 189]) };
                let mut notice = notices::notice(r);
                let mut field = notices::field(r, site, 163);
                if r.one_in(8) {
                    notice.continuity = r.pick(&[15, 16, 17, 31, 128, 255]);
                }
                if r.one_in(8) {
                    notice.reserved = r.pick(&[0x7FFF, 0x8000, 0x8001, 0xFFFF]);
                }
                if r.one_in(8) {
                    notice.sts = r.pick(&notices::edges(DVB_SECOND));
                }
                if r.one_in(8) {
                    notice.md = r.pick(&notices::edges(DVB_SECOND));
                }
                match r.below(8) {
                    0 => {
                        let kind = r.below(WRONG_FORMS.len());
                        field = notices::wrong_field(r, site, kind);
                    }
                    1 => {
                        let length = r.pick(&[160, 161, 162, 163, 164, 165, 182, 200, 255, 256, 300]);
                        field = if r.one_in(3) { r.bytes(length) } else { notices::field_of_length(r, site, length).unwrap() };
                    }
                    _ => {}
                }
                self.write(length, &notice, &field)?;
            }
            11..=14 => {
                let before = Settings {
                    od: r.pick(&[0, -1, i16::MIN, i16::MAX, 1234]),
                    frequency: r.pick(&[0, -1, -8_388_608, 8_388_607, i32::MIN, i32::MAX, 98_765]),
                    power: r.pick(&[0, 1, 0x8000, 0xFFFF]),
                };
                let kind = r.below(3 * WRONG_FORMS.len());
                if kind < WRONG_FORMS.len() {
                    let field = notices::wrong_field(r, site, kind);
                    let number = self.settings(&field, site, before)?;
                    self.saw("settings", WRONG_FORMS[kind], number);
                } else {
                    let limit = r.pick(&[20, 60, 163, 300]);
                    let field = notices::field(r, site, limit);
                    self.settings(&field, site, before)?;
                    self.saw_functions(&field, site);
                }
            }
            which @ 15..=18 => {
                let profile = u8::from(which >= 17);
                let moment = moments::moment(r, second(profile));
                self.release(profile, moment)?;
            }
            _ => {
                let length = r.below(301);
                let bytes = r.bytes(length);
                self.register(&bytes)?;
                let n = self.random.pick(&[0, 1, 2, 5, 624, 2016, 10_584, 12_480, 65_535]);
                let pointer = if self.random.one_in(2) { self.random.near(n.into()).clamp(0, 65_535) as u16 } else { self.random.next() as u16 };
                self.label(n, pointer)?;
                let profile = self.random.pick(&[0, 0, 1, 2]);
                let n = self.random.pick(&[624, 2016, 2688, 3024, 3360, 3528, 4032, 5376, 6048, 6720, 7056, 8064, 9072, 10_080, 10_584, 12_096]);
                self.admits(profile, n)?;
                let (i, p) = (self.random.below(20) as u8, self.random.below(624) as u16);
                self.place(i, p)?;
            }
        }
        Ok(())
    }

    /// Which functions a field of the right form has, and for whom.
    fn saw_functions(&mut self, field: &[u8], site: u16) {
        let mut at = 0;
        while at < field.len() {
            let identifier = u16::from_be_bytes([field[at], field[at + 1]]);
            let end = at + 3 + usize::from(field[at + 2]);
            self.saw("settings", "entry for another (0), this site (1) or all (2)", if identifier == 0 { 2 } else { i64::from(identifier == site) });
            if end == at + 3 {
                self.saw("settings", "empty loop", 0);
            }
            at += 3;
            while at < end {
                self.saw("settings", "function with tag", field[at]);
                if field[at] >= 3 && field[at + 1] == 2 {
                    self.saw("settings", "function with no body", 2);
                }
                at += usize::from(field[at + 1]);
            }
        }
    }

    // ---- Sweeps

    /// Every length from 0 to 300 of packets, buffers, fields and bytes under the register.
    fn sweep_lengths(&mut self) -> Compared {
        for length in 0..=300 {
            let bytes = self.random.bytes(length);
            self.register(&bytes)?;
            let mut packet = notices::packet(&mut self.random, 7);
            packet.resize(length, 0xFF);
            self.read(&packet)?;
            let notice = notices::notice(&mut self.random);
            let field = notices::field(&mut self.random, 7, 163);
            self.write(length, &notice, &field)?;
            let field = notices::field_of_length(&mut self.random, 7, length).unwrap_or(bytes);
            self.settings(&field, 7, Settings::default())?;
            self.write(188 + length % 3, &notice, &field)?;
            self.read(&notices::packet_of(&notice, &field))?;
        }
        Ok(())
    }

    /// Every value of each byte that the reader judges, with the check value made right, and every a with every kind of section length.
    fn sweep_packet_bytes(&mut self) -> Compared {
        for at in [0, 1, 2, 3, 4, 5, 20] {
            let packet = notices::packet(&mut self.random, 7);
            for value in 0..=255 {
                let mut packet = packet.clone();
                packet[at] = value;
                notices::reseal(&mut packet);
                self.read(&packet)?;
            }
        }
        // each fixed bit of bytes 1 and 3 alone is number 6
        for (at, bit) in [(1, 0x40), (1, 0x20), (3, 0x80), (3, 0x40), (3, 0x20), (3, 0x10)] {
            let mut packet = notices::packet(&mut self.random, 7);
            packet[at] ^= bit;
            notices::reseal(&mut packet);
            let number = self.read(&packet)?.number;
            self.saw("read", "header byte and bit refused with 6", if number == 6 { at as i64 * 256 + i64::from(bit) } else { 0 });
        }
        for a in 0..=255 {
            for off in 0..=255 {
                let mut packet = notices::packet_of(&notices::notice(&mut self.random), &[]);
                packet[20] = a;
                packet[5] = a.wrapping_add(off);
                notices::reseal(&mut packet);
                let number = self.read(&packet)?.number;
                if a > 163 && off == 19 {
                    self.saw("read", "a above 163 with its section length", number);
                }
            }
        }
        Ok(())
    }

    /// Every length of addressing field with every limit of the papers and those beside its own length: whole, with a wrong check value, with a wrong
    /// section length, with a form of its own or a wrong one; and lengths above 163.
    fn sweep_limits(&mut self) -> Compared {
        for a in 0..=255_usize {
            let notice = notices::notice(&mut self.random);
            let field = notices::field_of_length(&mut self.random, 7, a).unwrap_or(vec![0; a]);
            let mut whole = notices::packet_of(&notice, &field[..if [1, 2, 4].contains(&a) || a > 163 { 0 } else { a }]);
            (whole[5], whole[20]) = ((a + 19) as u8, a as u8);
            notices::reseal(&mut whole);
            for limit in notices::LIMITS.into_iter().chain((a.saturating_sub(2)..a + 2).map(Some)) {
                self.read_within(&whole, limit)?;
                for at in [5, (24 + a).min(187)] {
                    let mut packet = whole.clone();
                    packet[at] ^= 1;
                    self.read_within(&packet, limit)?;
                    notices::reseal(&mut packet);
                    self.read_within(&packet, limit)?;
                }
            }
        }
        Ok(())
    }

    /// Check values that leave a register of one bit, or of one byte, instead of zero.
    fn sweep_residues(&mut self) -> Compared {
        let residues = (0..32).map(|k| 1 << k).chain((1..256).flat_map(|byte| [0, 8, 16, 24].map(|k| byte << k)));
        for residue in residues {
            let mut packet = notices::packet(&mut self.random, 7);
            notices::leave(&mut packet, residue);
            let number = self.read(&packet)?.number;
            self.saw("read", "register left at other than zero", number);
        }
        Ok(())
    }

    /// Every single bit of the section of some hundred accepted packets: each flip is refused, and a flip in the stuffing changes nothing.
    fn sweep_flips(&mut self) -> Compared {
        for _ in 0..300 {
            let mut packet = notices::packet(&mut self.random, 7);
            let whole = self.read(&packet)?;
            let section = 25 + whole.addressing;
            for bit in 0..8 * 188 {
                packet[bit / 8] ^= 1 << (bit % 8);
                let flipped = self.read(&packet)?;
                if bit < 8 * section {
                    self.same("read, a bit flipped", || hex(&packet), flipped.number != 0, true)?;
                    self.saw("read", "bit of the section flipped", bit as i64);
                } else {
                    self.same("read, a stuffing bit flipped", || hex(&packet), flipped, whole)?;
                    self.saw("read", "bit of the stuffing flipped", bit as i64);
                }
                packet[bit / 8] ^= 1 << (bit % 8);
            }
        }
        Ok(())
    }

    /// Every combination of times on the limits.
    fn sweep_times(&mut self) -> Compared {
        for profile in [0, 1] {
            let edges = notices::edges(second(profile));
            for (sts, md) in pairs(&edges) {
                for od in [-32_768, -1, 0, 32_767] {
                    for (tad, arrival) in pairs(&edges) {
                        self.release(profile, Moment { sts, md, od, tad, arrival })?;
                    }
                }
            }
        }
        Ok(())
    }

    /// Every constellation with every code rate, every profile with every n, every M/H index with every label, and every pointer of each cadence.
    fn sweep_cadence(&mut self) -> Compared {
        for constellation in 0..=255 {
            for rate in 0..=255 {
                self.length(constellation, rate)?;
            }
        }
        for profile in 0..=255 {
            for n in 0..=65_535 {
                self.admits(profile, n)?;
            }
        }
        for i in 0..=255 {
            for p in 0..=65_535 {
                self.place(i, p)?;
            }
        }
        for n in basics::dvb_cadences().chain([0, 1, 624, 65_535]) {
            for pointer in 0..=65_535 {
                self.label(n, pointer)?;
            }
        }
        Ok(())
    }
}

fn pairs(list: &[u32]) -> impl Iterator<Item = (u32, u32)> + '_ {
    list.iter().flat_map(|&x| list.iter().map(move |&y| (x, y)))
}

// ---- What must be reached

fn required() -> Cases {
    let lengths: Vec<i64> = (0..=300).collect();
    let field_lengths: Vec<i64> = (0..=163).filter(|a| ![1, 2, 4].contains(a)).collect();
    let mut list = vec![
        ("read", "number", vec![0, 1, 2, 4, 5, 6, 7, 8, 26, 9, 10, 11]),
        ("read", "accepted, a less the limit", vec![-1, 0]),
        ("read", "accepted, by a limit of", vec![0, 63, 64, 65, 162, 163, 164, 255, 256, 1_000]),
        ("read", "26, a less the limit", vec![1, 2]),
        ("read", "26, by a limit of", (0..=162).collect()),
        ("read", "8 by a above 163, by a limit of", vec![0, 64, 163, 255, 1_000]),
        ("read", "of length", lengths.clone()),
        ("read", "accepted with a", field_lengths.clone()),
        ("read", "register left at other than zero", vec![9]),
        ("read", "bit of the section flipped", (0..8 * 188).collect()),
        ("read", "bit of the stuffing flipped", (8 * 25..8 * 188).collect()),
        ("read", "header byte and bit refused with 6", vec![0x140, 0x120, 0x380, 0x340, 0x320, 0x310]),
        ("read", "a above 163 with its section length", vec![8]),
        ("write", "number", vec![0, 18, 19, 8, 10, 11]),
        ("write", "into a buffer of length", lengths.clone()),
        ("write", "accepted with a", field_lengths),
        ("write", "8 with a", (164..=300).collect()),
        ("write", "11 for STS (1), MD (2)", vec![1, 2, 3]),
        ("write", "19 for continuity (1), reserved (2)", vec![1, 2, 3]),
        ("write", "again what was read", vec![0]),
        ("settings", "number", vec![0, 10]),
        ("settings", "of length", lengths.clone()),
        ("settings", "function with tag", vec![0, 1, 2, 3, 4, 5, 127, 128, 255]),
        ("settings", "function with no body", vec![2]),
        ("settings", "empty loop", vec![0]),
        ("settings", "entry for another (0), this site (1) or all (2)", vec![0, 1, 2]),
        ("label", "number", vec![0, 12]),
        ("cadence", "length", basics::dvb_cadences().map(i64::from).chain([0]).collect()),
        ("cadence", "n in profile 0", basics::dvb_cadences().map(i64::from).collect()),
        ("cadence", "n in profile 1", vec![624]),
        ("register", "of length", lengths),
    ];
    list.extend(WRONG_FORMS.map(|what| ("settings", what, vec![10])));
    for profile in [0, 1] {
        let (whose, u) = (RELEASE[usize::from(profile)], i64::from(second(profile)));
        list.extend([
            (whose, "number", vec![0, 15, 3, 14]),
            (whose, "15 by the limits of number", vec![15, 11, 13]),
            (whose, "delay fits", vec![0, 1]),
            (whose, "MD + OD", vec![-1, 0, u - 1, u]),
            (whose, "MD + OD + TAD", vec![0, 1, u - 1, u]),
            (whose, "wait", vec![-1, 0, 1]),
            (whose, "lateness", vec![1, u - 1, u, u + 1, 2 * (u - 1)]),
            (whose, "released, STS + MD", vec![u - 1, u, u + 1]),
            (whose, "released, STS + MD + OD", vec![u - 1, u, u + 1]),
            (whose, "released, STS + MD + OD - TAD", vec![u - 1, u, u + 1]),
            (whose, "released, modulation", vec![0, u - 1]),
            (whose, "released, OD", vec![-32_768, -1, 0, 32_767]),
            (whose, "released, TAD", vec![0, 1]),
        ]);
    }
    list
}
