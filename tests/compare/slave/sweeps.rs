//! Sweeps over a slave's calls: every length, every value of a part, every bit, pointer and gap, and the limits of the rest.

use super::Calls;
use crate::comparison::{Compared, Comparison};
use crate::inputs::calls::Board;
use crate::inputs::notices;
use crate::inputs::streams::*;
use crate::other::basics::{self, second, A110_SECOND, DVB_SECOND};
use crate::other::slave::{Numbers, Slave, LOCKED, UNKNOWN};

/// A sound slave of each kind: hunting, locked with nothing pending, and locked with a mark due.
fn kinds() -> [Slave; 6] {
    [(0, 2016), (1, 624)]
        .map(|(profile, n)| {
            let hunting = Slave::hunting(profile, n, 7, 200);
            let index = if profile == 0 { UNKNOWN } else { 19 };
            let locked = Slave { phase: LOCKED, od: -51, frequency: -100_000, power: 300, next: 5, index, ..hunting };
            [hunting, locked, Slave { next: 0, pending: 1, sts: 9_500_000, md: 700_000, ..locked }]
        })
        .concat()
        .try_into()
        .unwrap()
}

/// The MIP with another pointer.
fn at_pointer(mip: &[u8], pointer: u16) -> Vec<u8> {
    let mut packet = mip.to_vec();
    packet[6..8].copy_from_slice(&pointer.to_be_bytes());
    notices::reseal(&mut packet);
    packet
}

/// A tick at which the due mark of `kinds` is in time.
const IN_TIME: u32 = 9_900_000;

impl Comparison<Calls> {
    pub fn sweep_starts(&mut self) -> Compared {
        for profile in [0, 1] {
            for n in 0..=65_535 {
                self.start(Board { profile, n, site: 7, tad: 0 })?;
            }
        }
        for (profile, n) in basics::dvb_cadences().map(|n| (0, n)).chain([(1, 624)]) {
            for site in [0, 1, 7, 255, 256, 65_535] {
                for tad in notices::edges(DVB_SECOND).into_iter().chain(notices::edges(A110_SECOND)) {
                    let started = self.start(Board { profile, n, site, tad })?;
                    self.saw(
                        "start",
                        "15 for site (1), TAD (2)",
                        if started.number == 15 { i64::from(site == 0) + 2 * i64::from(tad >= second(profile)) } else { 0 },
                    );
                }
            }
        }
        Ok(())
    }

    /// A MIP and numbers that a slave of `kinds` would take with no slip.
    fn notices(&mut self, slave: &Slave) -> (Vec<u8>, Numbers) {
        let pointer = slave.n - 1 - slave.next;
        let packet = mip(&mut self.random, pointer, 1_000, 800_000, &offset_entry(7, -52));
        (packet, Numbers { pointer, sts: 1_000, md: 800_000, od: -52, index: 0 })
    }

    /// Every length from 0 to 300, with and without the sync byte.
    pub fn sweep_lengths(&mut self) -> Compared {
        for slave in kinds() {
            let (mip, numbers) = self.notices(&slave);
            for length in 0..=300 {
                for (tick, sync) in [(IN_TIME, 0x47), (IN_TIME, 0x46), (u32::MAX, 0x47), (u32::MAX, 0x46)] {
                    let mut packet = mip.clone();
                    packet[0] = sync;
                    packet.resize(length, 0xFF);
                    self.packet(slave, &packet, tick)?;
                    self.foreign(slave, &packet, tick)?;
                    self.numbers(slave, &packet, tick, &numbers)?;
                }
            }
        }
        Ok(())
    }

    /// An empty packet: every tick on its limits, of either clock, and each index and label about the mark.
    pub fn sweep_empty(&mut self) -> Compared {
        for slave in kinds() {
            for tick in notices::edges(DVB_SECOND).into_iter().chain(notices::edges(A110_SECOND)).chain([u32::MAX]) {
                self.packet(slave, &[], tick)?;
                self.foreign(slave, &[], tick)?;
            }
            for index in (0..20).chain([UNKNOWN]) {
                for next in [0, 1, slave.n - 1] {
                    self.packet(Slave { index, next, ..slave }, &[], IN_TIME)?;
                }
            }
        }
        Ok(())
    }

    /// Addressing fields about the limits of the papers, of every kind of slave: whole, with a wrong check value, with a wrong section length; and packets
    /// that carry none with byte 20 the same.
    pub fn sweep_limits(&mut self) -> Compared {
        for slave in kinds() {
            for a in [0, 3, 7, 62, 63, 64, 65, 66, 161, 162, 163, 164, 255] {
                let field = notices::field_of_length(&mut self.random, 7, a.min(163)).unwrap();
                let mut whole = mip(&mut self.random, slave.n - 1 - slave.next, 1_000, 800_000, &field);
                if a > 163 {
                    (whole[5], whole[20]) = ((a + 19) as u8, a as u8);
                }
                for limit in notices::LIMITS {
                    // a pointer that is not the slave's own
                    let mut elsewhere = whole.clone();
                    elsewhere[7] ^= 1;
                    notices::reseal(&mut elsewhere);
                    self.packet_within(slave, &elsewhere, IN_TIME, limit)?;
                    for (at, bit) in [(0, 0), (24 + a, 1), (5, 1), (1, 0x80), (1, 0x20), (2, 0x01)] {
                        let mut packet = whole.clone();
                        packet[at.min(187)] ^= bit;
                        self.packet_within(slave, &packet, IN_TIME, limit)?;
                        if at == 5 {
                            notices::reseal(&mut packet);
                            self.packet_within(slave, &packet, IN_TIME, limit)?;
                        }
                    }
                }
            }
        }
        Ok(())
    }

    /// A slave of any parts: every call with it.
    fn any_call(&mut self, slave: Slave, packet: &[u8], numbers: &Numbers) -> Compared {
        self.packet(slave, packet, IN_TIME)?;
        self.packet(slave, &[], IN_TIME)?;
        self.foreign(slave, packet, IN_TIME)?;
        self.numbers(slave, packet, IN_TIME, numbers)?;
        self.gap(slave, 0)?;
        self.gap(slave, 1)?;
        Ok(())
    }

    /// Every value of each part of one or two bytes, and the limits of the others, alone.
    pub fn sweep_parts(&mut self) -> Compared {
        for slave in kinds() {
            let (mip, numbers) = self.notices(&slave);
            for value in 0..=255 {
                for changed in [
                    Slave { phase: value, ..slave },
                    Slave { profile: value, ..slave },
                    Slave { pending: value, ..slave },
                    Slave { index: value, ..slave },
                ] {
                    self.any_call(changed, &mip, &numbers)?;
                }
            }
            for value in 0..=65_535 {
                for changed in [
                    Slave { n: value, ..slave },
                    Slave { site: value, ..slave },
                    Slave { od: value as i16, md: if slave.pending == 1 { 20_000 } else { 0 }, ..slave },
                    Slave { power: value, ..slave },
                    Slave { next: value, ..slave },
                ] {
                    self.gap(changed, 1)?;
                }
            }
            for second in [DVB_SECOND, A110_SECOND] {
                for value in notices::edges(second) {
                    for changed in [Slave { tad: value, ..slave }, Slave { sts: value, ..slave }, Slave { md: value, ..slave }] {
                        self.any_call(changed, &mip, &numbers)?;
                    }
                }
            }
            for value in [i32::MIN, -8_388_609, -8_388_608, -1, 0, 1, 8_388_607, 8_388_608, 1 << 24, i32::MAX] {
                self.any_call(Slave { frequency: value, ..slave }, &mip, &numbers)?;
            }
            // a pending notice on the limits of 13
            let u = i64::from(second(slave.profile));
            for (od, tad) in [(-51, 0), (-51, 1), (-51, 200), (51, 0), (51, 1), (51, 200)] {
                for limit in [-i64::from(od), -i64::from(od) - i64::from(tad), u - i64::from(od), u - i64::from(od) - i64::from(tad)] {
                    for md in (limit - 3).max(0)..=limit + 3 {
                        self.any_call(Slave { phase: LOCKED, pending: 1, od, tad, md: md as u32, ..slave }, &mip, &numbers)?;
                        self.numbers(Slave { tad, ..slave }, &mip, IN_TIME, &Numbers { od, md: md as u32, ..numbers })?;
                    }
                }
            }
        }
        Ok(())
    }

    pub fn sweep_ticks(&mut self) -> Compared {
        for slave in kinds() {
            let (mip, numbers) = self.notices(&slave);
            let plain = plain_packet(&mut self.random);
            for tick in notices::edges(DVB_SECOND).into_iter().chain(notices::edges(A110_SECOND)) {
                self.packet(slave, &mip, tick)?;
                self.packet(slave, &plain, tick)?;
                self.foreign(slave, &plain, tick)?;
                self.numbers(slave, &plain, tick, &numbers)?;
            }
        }
        Ok(())
    }

    /// A due mark that is late by one unit to two seconds less two units, on and beside these limits: MD + OD and TAD on theirs, and ticks about STS.
    pub fn sweep_late(&mut self) -> Compared {
        for slave in kinds().into_iter().filter(|slave| slave.pending == 1) {
            let (mip, numbers) = self.notices(&slave);
            let plain = plain_packet(&mut self.random);
            let u = second(slave.profile);
            for delay in [0, 1, 2] {
                for tad in [0, 1, 2, u - 2, u - 1] {
                    for link_delay in [0, 1, 2, u - 2, u - 1] {
                        let due = Slave { tad, md: 51 + delay, ..slave };
                        let tick = (due.sts + link_delay) % u;
                        self.packet(due, &mip, tick)?;
                        self.packet(due, &plain, tick)?;
                        self.numbers(due, &plain, tick, &numbers)?;
                        self.numbers(due, &plain, tick, &Numbers { md: 52, ..numbers })?;
                    }
                }
            }
        }
        Ok(())
    }

    /// Every bit of a MIP, with the check value made right and not, and every value of its first bytes.
    pub fn sweep_bits(&mut self) -> Compared {
        for slave in kinds() {
            let (mip, numbers) = self.notices(&slave);
            for bit in 0..8 * 188 {
                let mut packet = mip.clone();
                packet[bit / 8] ^= 1 << (bit % 8);
                self.packet(slave, &packet, IN_TIME)?;
                self.saw("packet", "with a bit flipped", bit as i64);
                self.numbers(slave, &packet, IN_TIME, &numbers)?;
                notices::reseal(&mut packet);
                self.packet(slave, &packet, IN_TIME)?;
            }
            for at in [0, 1, 2, 3, 4, 5, 20] {
                for value in 0..=255 {
                    let mut packet = mip.clone();
                    packet[at] = value;
                    notices::reseal(&mut packet);
                    self.packet(slave, &packet, IN_TIME)?;
                }
            }
        }
        Ok(())
    }

    /// Every pointer, and every index.
    pub fn sweep_pointers(&mut self) -> Compared {
        for slave in kinds() {
            let (mip, numbers) = self.notices(&slave);
            for pointer in 0..=65_535_u16 {
                if slave.profile == 0 {
                    self.packet(slave, &at_pointer(&mip, pointer), IN_TIME)?;
                } else {
                    self.numbers(slave, &mip, IN_TIME, &Numbers { pointer, ..numbers })?;
                }
            }
            for index in 0..=255 {
                for own in [0, 1, 18, 19, UNKNOWN] {
                    for pointer in [0, 5, 623, 624] {
                        self.numbers(Slave { index: own, ..slave }, &mip, IN_TIME, &Numbers { pointer, index, ..numbers })?;
                    }
                }
            }
        }
        Ok(())
    }

    /// Every number of marks coasted: over marks of each kind, with and without a notice on them, a slip, and gaps to and about 255.
    pub fn sweep_coasting(&mut self) -> Compared {
        for slave in kinds().into_iter().filter(|slave| slave.phase == LOCKED) {
            let (mip, numbers) = self.notices(&slave);
            let null = notices::null();
            let mut damaged = mip.clone();
            damaged[24] ^= 1;
            // of another label, and of label 0
            let [other, onto] = [numbers.pointer ^ 1, slave.n - 1].map(|pointer| (pointer, at_pointer(&mip, pointer)));
            let late = if slave.profile == 0 { 200_001 } else { 10_200_001 };
            for coasted in 0..=255 {
                let slave = Slave { coasted, ..slave };
                let untimed = Slave { next: 0, pending: 0, sts: 0, md: 0, ..slave };
                let refused = Numbers { index: 20, ..numbers };
                for tick in [IN_TIME, late] {
                    for packet in [&mip, &null, &damaged, &other.1, &onto.1] {
                        self.packet(slave, packet, tick)?;
                    }
                    for pointer in [numbers.pointer, other.0, onto.0] {
                        self.numbers(slave, &null, tick, &Numbers { pointer, ..numbers })?;
                    }
                    self.numbers(slave, &null, tick, &refused)?;
                }
                self.packet(untimed, &null, IN_TIME)?;
                self.packet(untimed, &damaged, IN_TIME)?;
                self.numbers(untimed, &null, IN_TIME, &refused)?;
                self.packet(Slave { next: 0, ..slave }, &[], IN_TIME)?;
                for to in [1, 2, 254, 255, 256_u16] {
                    let packets = to.saturating_sub(coasted.into()).saturating_mul(slave.n);
                    self.gap(slave, packets)?;
                    self.gap(slave, packets.saturating_add(1))?;
                }
                self.gap(slave, 65_535)?;
            }
        }
        Ok(())
    }

    /// Every k for profile 1, and each cadence of profile 0 about the multiples of n.
    pub fn sweep_gaps(&mut self) -> Compared {
        for slave in kinds() {
            for k in 0..=65_535 {
                self.gap(slave, k)?;
            }
            for n in basics::dvb_cadences().chain([624]) {
                for next in [0, 1, n / 2, n - 1] {
                    for passed in 0..=65_535 / n {
                        for k in (passed * n).saturating_sub(next + 1)..=(passed * n).saturating_sub(next).saturating_add(2) {
                            self.gap(Slave { n, next, ..slave }, k)?;
                        }
                    }
                }
            }
        }
        Ok(())
    }
}
