//! Save and resume compared, call by call.

use super::comparison::{Cases, Compared, Comparison, Subject};
use crate::inputs::calls::{Board, Call, Lent, Outcome, Said};
use crate::inputs::random::{hex, Random};
use crate::inputs::streams::any_coasted;
use crate::other::basics::{dvb_cadences, second};
use crate::other::faults::{self, Fault};
use crate::other::saved::{body, sealed, BLOCK, BODY, OLD_BLOCK, OLD_BODY, TRAILER};
use crate::other::slave::{Slave, COLD, LOCKED, MOST, UNKNOWN};

pub struct Blocks;

impl Subject for Blocks {
    const NAME: &'static str = "the saved block";
    const REQUIRED: fn() -> Cases = required;
    const FAULTS: &'static [&'static [Fault]] = &[faults::SAVED];
    // a save or a resume, at most with the resume that the slave came from
    const LONGEST: usize = 2;
    const SHORTENED: bool = false;

    fn random(comparison: &mut Comparison<Self>) -> Compared {
        comparison.random_block()
    }

    fn sweeps(comparison: &mut Comparison<Self>) -> Compared {
        comparison.sweep_saves()?;
        comparison.sweep_lengths()?;
        comparison.sweep_distances()?;
        comparison.sweep_parts()?;
        comparison.sweep_boards()?;
        comparison.sweep_bits()
    }
}

/// What must be reached.
fn required() -> Cases {
    let lengths: Vec<i64> = (0..=300).collect();
    vec![
        ("save", "number", vec![0, 15, 18]),
        ("save", "into length", lengths.clone()),
        ("save", "accepted into length", (39..=300).collect()),
        ("save", "in phase", vec![1, 2]),
        ("save", "marks coasted", (0..=255).collect()),
        ("resume", "number", vec![0, 15, 16, 17]),
        ("resume", "from length", lengths),
        ("resume", "in phase", vec![1, 2]),
        ("resume", "in profile", vec![0, 1]),
        ("resume", "with pending", vec![0, 1]),
        ("resume", "from byte", (0..=261).collect()),
        ("resume", "an old block from byte", (0..=262).collect()),
        ("resume", "an old block in phase", vec![1, 2]),
        ("resume", "over a distance", (30..=292).collect()),
        ("resume", "marks coasted, locked with pending", (0..=255).chain(1000..=1255).collect()),
        ("resume", "refused for its part", (0..14).collect()),
        ("resume", "refused hunting with marks coasted", (0..=254).collect()),
        ("resume", "refused in phase", vec![0, 3, 7, 255]),
        ("resume", "refused for a pending notice against 13", vec![0, 1]),
        ("resume", "refused over a distance", (0..30).chain(293..=65_535).collect()),
        ("resume", "refused with a bit flipped", (0..312).collect()),
        ("resume", "refused with a bit of an old block flipped", (0..304).collect()),
        ("resume", "refused for the trailer's site", vec![16]),
        ("resume", "another board's by setting", (0..4).collect()),
        ("resume", "15 for n (0), site (1), TAD (2)", (0..3).collect()),
    ]
}

// ---- The calls

impl Comparison<Blocks> {
    /// Saves between other bytes: nothing about what is lent is touched. Gives the number and what the lent bytes hold.
    fn save(&mut self, s: Slave, lent: &[u8]) -> Compared<(u8, Vec<u8>)> {
        let out = Lent::between(&mut self.random, lent);
        let from = out.from();
        let Said::Written(number, after) = self.call(s, Call::Save(out))?.said else { unreachable!("a save gives bytes") };
        self.listed("save", "number", number)?;
        self.saw("save", "into length", lent.len() as i64);
        if number == 0 {
            self.saw("save", "accepted into length", lent.len() as i64);
            self.saw("save", "in phase", s.phase);
            self.saw("save", "marks coasted", s.coasted);
        }
        Ok((number, after.0[from..from + lent.len()].to_vec()))
    }

    fn resume(&mut self, block: &[u8], board: Board) -> Compared<Outcome> {
        let lent = Lent::new(&mut self.random, block);
        let resumed = self.first(Call::Resume(lent, board))?;
        self.listed("resume", "number", resumed.number())?;
        self.saw("resume", "from length", block.len() as i64);
        if resumed.number() == 0 {
            self.saw("resume", "in phase", resumed.slave.phase);
            self.saw("resume", "in profile", resumed.slave.profile);
            self.saw("resume", "with pending", resumed.slave.pending);
            if resumed.slave.phase == LOCKED {
                let Slave { pending, coasted, .. } = resumed.slave;
                self.saw("resume", "marks coasted, locked with pending", 1_000 * i64::from(pending) + i64::from(coasted));
            }
        }
        Ok(resumed)
    }

    /// The same, with the number that it must have.
    fn resume_with(&mut self, number: u8, block: &[u8], board: Board) -> Compared<Outcome> {
        let resumed = self.resume(block, board)?;
        if resumed.number() != number {
            return Err(self.differs(format!("resume({board:?}, {}) gives {resumed:?} and not {number}", hex(block))));
        }
        Ok(resumed)
    }

    /// A block that holds this slave, which is what its own board resumes.
    fn resume_as(&mut self, s: Slave, block: &[u8]) -> Compared {
        let resumed = self.resume_with(0, block, Board::of(&s))?;
        if resumed.slave != s {
            return Err(self.differs(format!("{} holds {s:?}, resumed {resumed:?}", hex(block))));
        }
        Ok(())
    }
}

// ---- Slaves and blocks

/// Settings that start accepts, at their edges or anywhere.
fn board(r: &mut Random) -> Board {
    let profile = r.below(2) as u8;
    let cadences: Vec<u16> = dvb_cadences().collect();
    let n = if profile == 1 { 624 } else { r.pick(&cadences) };
    let site = if r.one_in(2) { r.pick(&[1, 7, 8, 255, 256, 65_535]) } else { 1 + r.below(65_535) as u16 };
    Board { profile, n, site, tad: time(r, profile) }
}

/// A time within the profile's second.
fn time(r: &mut Random, profile: u8) -> u32 {
    let second = second(profile);
    match r.below(3) {
        0 => r.pick(&[0, 1, 255, 256, 65_536, second / 2, second - 1]),
        1 => r.below(100_000) as u32,
        _ => r.below(second as usize) as u32,
    }
}

fn hunting(board: Board) -> Slave {
    Slave::hunting(board.profile, board.n, board.site, board.tad)
}

fn locked(r: &mut Random, board: Board) -> Slave {
    let Board { profile, n, .. } = board;
    let mut s = Slave { phase: LOCKED, ..hunting(board) };
    s.od = if r.one_in(2) { r.pick(&[0, 1, -1, 32_767, -32_768]) } else { r.next() as i16 };
    let edges = [0, 1, -1, 8_388_607, -8_388_608];
    s.frequency = if r.one_in(2) { r.pick(&edges) } else { r.below(1 << 24) as i32 - (1 << 23) };
    s.power = r.next() as u16;
    s.next = if r.one_in(2) { r.pick(&[0, 1, n - 1]) } else { r.below(usize::from(n)) as u16 };
    s.index = if profile == 1 && !r.one_in(3) { r.below(20) as u8 } else { UNKNOWN };
    s.coasted = any_coasted(r);
    s
}

fn noticed(r: &mut Random, mut s: Slave) -> Slave {
    s.pending = 1;
    while !s.sound() {
        (s.sts, s.md) = (time(r, s.profile), time(r, s.profile));
        s.od = if r.one_in(4) { 0 } else { s.od };
    }
    s
}

/// A sound slave.
fn sound(r: &mut Random) -> Slave {
    let board = board(r);
    if r.one_in(4) {
        return hunting(board);
    }
    let s = locked(r, board);
    let fits = |s: &Slave| (0..40).any(|i| Slave { pending: 1, sts: 0, md: i * (second(s.profile) / 40), ..*s }.sound());
    if r.one_in(3) || !fits(&s) {
        return s;
    }
    noticed(r, s)
}

/// Bytes in front, a body, bytes between, and a trailer whose check value is right from the body on.
fn block(front: &[u8], body: &[u8], between: &[u8], site: u16, distance: u16) -> Vec<u8> {
    let covered = sealed([body, between, &site.to_be_bytes(), &distance.to_be_bytes()].concat());
    [front, &covered].concat()
}

fn block_of(s: &Slave) -> Vec<u8> {
    block(&[], &body(s), &[], s.site, BODY as u16)
}

/// The block that the release before this one saved, and the slave that it is now.
fn old_block_of(s: &Slave) -> (Vec<u8>, Slave) {
    (block(&[], &body(s)[..OLD_BODY], &[], s.site, OLD_BODY as u16), Slave { coasted: MOST, ..*s })
}

// ---- Sweeps

impl Comparison<Blocks> {
    /// Slaves that are sound and slaves that are not, into every length.
    fn sweep_saves(&mut self) -> Compared {
        for length in 0..=300 {
            for kind in 0..4 {
                let mut s = sound(&mut self.random);
                match kind {
                    0 => s.phase = self.random.pick(&[0, 3, 7, 255]),
                    1 => s = COLD,
                    _ => {}
                }
                let lent = self.random.bytes(length);
                let (number, bytes) = self.save(s, &lent)?;
                if number == 0 {
                    self.resume_as(s, &bytes[..BLOCK])?;
                    // its first bytes, as many as an old block has
                    self.resume_with(16, &bytes[..OLD_BLOCK], Board::of(&s))?;
                }
            }
        }
        Ok(())
    }

    /// Blocks of every length, of this release and the one before: cut at either end, with bytes in front, and no block at all.
    fn sweep_lengths(&mut self) -> Compared {
        for length in 0..=300_usize {
            for _ in 0..4 {
                let s = sound(&mut self.random);
                let whole = block_of(&s);
                let noise = self.random.bytes(length);
                self.resume(&noise, Board::of(&s))?;
                self.resume(&vec![0; length], Board::of(&s))?;
                let (old, old_slave) = old_block_of(&s);
                if length < OLD_BLOCK {
                    self.resume_with(16, &old[..length], Board::of(&s))?;
                    self.resume_with(16, &old[OLD_BLOCK - length..], Board::of(&s))?;
                } else {
                    self.resume_as(old_slave, &[&noise[..length - OLD_BLOCK], &old].concat())?;
                    self.saw("resume", "an old block from byte", (length - OLD_BLOCK) as i64);
                    self.saw("resume", "an old block in phase", s.phase);
                }
                if length < BLOCK {
                    self.resume_with(16, &whole[..length], Board::of(&s))?;
                    self.resume_with(16, &whole[BLOCK - length..], Board::of(&s))?;
                } else {
                    let behind = [&noise[..length - BLOCK], &whole].concat();
                    self.resume_as(s, &behind)?;
                    self.saw("resume", "from byte", (length - BLOCK) as i64);
                    let own = Board::of(&s);
                    for (setting, wrong) in
                        [Board { n: s.n + 1, ..own }, Board { site: 0, ..own }, Board { tad: second(s.profile), ..own }].into_iter().enumerate()
                    {
                        self.resume_with(15, &behind, wrong)?;
                        self.resume_with(15, &noise, wrong)?;
                        self.saw("resume", "15 for n (0), site (1), TAD (2)", setting as i64);
                    }
                }
            }
        }
        Ok(())
    }

    /// Every distance over 300 bytes, those about the two bodies with many slaves; the check value right from where it leads, or from the first byte on where
    /// it leads out.
    fn sweep_distances(&mut self) -> Compared {
        let end = 300 - TRAILER;
        let about_bodies = (28..=33).flat_map(|distance| [distance; 60]);
        for distance in (0..=65_535_u16).chain(about_bodies) {
            let s = sound(&mut self.random);
            let back = usize::from(distance);
            let mut bytes = self.random.bytes(end);
            let start = end.saturating_sub(back);
            let body = body(&s);
            for (to, from) in bytes[start..].iter_mut().zip(&body) {
                *to = *from;
            }
            let lent = [&bytes[..start], &sealed([&bytes[start..], &s.site.to_be_bytes(), &distance.to_be_bytes()].concat())].concat();
            let number = if (OLD_BODY..=end).contains(&back) { 0 } else { 16 };
            self.resume_with(number, &lent, Board::of(&s))?;
            self.saw("resume", if number == 0 { "over a distance" } else { "refused over a distance" }, distance);
        }
        Ok(())
    }

    /// Each part out of its range, with a right check value.
    fn sweep_parts(&mut self) -> Compared {
        for _ in 0..20 {
            let board = board(&mut self.random);
            let free = locked(&mut self.random, board);
            let held = noticed(&mut self.random, Slave { od: 0, tad: board.tad.min(1_000), ..free });
            for s in [hunting(board), free, held] {
                let u = second(s.profile);
                for byte in 0..=255_u8 {
                    self.part(0, Slave { phase: byte, ..s })?;
                    self.part(1, Slave { profile: byte, ..s })?;
                    self.part(9, Slave { pending: byte, ..s })?;
                    self.part(10, Slave { index: byte, ..s })?;
                    self.part(13, Slave { coasted: byte, ..s })?;
                }
                for pair in (0..=65_535).step_by(61).chain(dvb_cadences()).chain([0, 1, s.n - 1, s.n, s.n + 1, 65_535]) {
                    self.part(2, Slave { n: pair, ..s })?;
                    self.part(3, Slave { site: pair, ..s })?;
                    self.part(5, Slave { od: pair as i16, ..s })?;
                    self.part(7, Slave { power: pair, ..s })?;
                    self.part(8, Slave { next: pair, ..s })?;
                }
                for word in [0, 1, u / 2, u - 1, u, u + 1, 0x80_0000, 0x80_0001, 0xFF80_0000, 0xFF7F_FFFF, 1 << 31, u32::MAX] {
                    self.part(4, Slave { tad: word, ..s })?;
                    self.part(6, Slave { frequency: word as i32, ..s })?;
                    self.part(11, Slave { sts: word, ..s })?;
                    self.part(12, Slave { md: word, ..s })?;
                }
            }
        }
        Ok(())
    }

    /// A body of these parts on a board of its own settings, or of any where those are out of limits.
    fn part(&mut self, part: i64, s: Slave) -> Compared {
        let own = Board::of(&s);
        let board = if Slave::start(own.profile, own.n, own.site, own.tad).is_ok() { own } else { board(&mut self.random) };
        self.resume(&old_block_of(&s).0, board)?;
        let resumed = self.resume(&block_of(&s), board)?;
        self.save(s, &[0xC3; BLOCK])?;
        if resumed.number() == 16 {
            if part == 13 {
                self.saw("resume", "refused hunting with marks coasted", s.coasted);
            }
            self.saw("resume", "refused for its part", part);
            if part == 0 {
                self.saw("resume", "refused in phase", s.phase);
            }
            let unnoticed = Slave { pending: 0, sts: 0, md: 0, ..s };
            if s.pending == 1 && unnoticed.sound() && s.sts.max(s.md) < second(s.profile) {
                self.saw("resume", "refused for a pending notice against 13", s.profile);
            }
        }
        Ok(())
    }

    /// Boards with one other setting, and a trailer with another site.
    fn sweep_boards(&mut self) -> Compared {
        for _ in 0..2_000 {
            let s = sound(&mut self.random);
            let other = board(&mut self.random);
            let whole = block_of(&s);
            let own = Board::of(&s);
            let site = if s.site == 1 { 2 } else { s.site - 1 };
            let tad = if s.tad == 0 { 1 } else { s.tad - 1 };
            let n = if s.profile == 1 { 624 } else { other.n };
            let (profile, its_n) = if s.profile == 0 { (1, 624) } else { (0, 2016) };
            for (setting, board) in
                [(0, Board { site, ..own }), (1, Board { profile, n: its_n, ..own }), (2, Board { n, ..own }), (3, Board { tad, ..own }), (4, other)]
            {
                let resumed = self.resume(&whole, board)?;
                if resumed.number() == 17 {
                    self.saw("resume", "another board's by setting", setting);
                }
                let mut damaged = whole.clone();
                damaged[BLOCK - 1] ^= 1;
                self.resume(&damaged, board)?;
            }
            self.resume_with(16, &block(&[], &body(&s), &[], s.site ^ 0x100, BODY as u16), own)?;
            self.saw("resume", "refused for the trailer's site", 16);
        }
        Ok(())
    }

    /// Every bit of a saved block flipped, of this release and the one before, of exactly its bytes and with others in front.
    fn sweep_bits(&mut self) -> Compared {
        for round in 0..200 {
            let s = sound(&mut self.random);
            let (saved, whose) = if round < 100 {
                (self.save(s, &[0; BLOCK])?.1, "refused with a bit flipped")
            } else {
                (old_block_of(&s).0, "refused with a bit of an old block flipped")
            };
            let front = if round % 2 == 0 { Vec::new() } else { self.random.bytes(60) };
            for bit in 0..8 * saved.len() {
                let mut flipped = [&front[..], &saved].concat();
                flipped[front.len() + bit / 8] ^= 0x80 >> (bit % 8);
                if front.is_empty() {
                    self.resume_with(16, &flipped, Board::of(&s))?;
                    self.saw("resume", whose, bit as i64);
                } else {
                    self.resume(&flipped, Board::of(&s))?;
                }
            }
        }
        Ok(())
    }

    /// A block with bytes in front and between, damaged or not, on its own board or another.
    fn random_block(&mut self) -> Compared {
        let s = sound(&mut self.random);
        let r = &mut self.random;
        let (ahead, between) = (r.below(40), if r.one_in(2) { 0 } else { r.below(60) });
        let (front, middle) = (r.bytes(ahead), r.bytes(between));
        let length = if r.one_in(2) { BODY } else { OLD_BODY };
        let distance = length + between;
        let mut lent = block(&front, &body(&s)[..length], &middle, s.site, distance as u16);
        let own = if r.one_in(8) { board(r) } else { Board::of(&s) };
        match r.below(8) {
            0 => {
                let at = r.below(lent.len());
                lent[at] = r.next() as u8;
            }
            1 => {
                let (from, to) = (r.below(lent.len()), r.below(lent.len()));
                lent.swap(from, to);
            }
            2 => lent.truncate(r.below(300)),
            3 => {
                let more = r.below(9);
                lent.extend(r.bytes(more));
            }
            4 => {
                // damage with a right check value
                let at = r.below(distance + 4);
                lent[ahead + at] = r.next() as u8;
                let whole = sealed(lent[ahead..ahead + distance + 4].to_vec());
                lent.truncate(ahead);
                lent.extend(whole);
            }
            _ => {}
        }
        self.resume(&lent, own)?;
        let length = self.random.below(60);
        let buffer = self.random.bytes(length);
        let mut other = s;
        if self.random.one_in(4) {
            other.md ^= 1 << self.random.below(32);
        }
        self.save(other, &buffer)?;
        Ok(())
    }
}
