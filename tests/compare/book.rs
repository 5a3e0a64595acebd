//! The book of document 01's "Runs": two slaves on one adapter's stream, each with its own losses, and every reply held to the book. Where both
//! release a mark told exactly, its reference time is one, and is that of the adapter's notice for the mark.

use super::comparison::{Cases, Compared, Comparison, Difference, Subject};
use super::{shrink, simpler};
use crate::bindings::vikombare::{Reply, Times};
use crate::inputs::calls::{self, Board, Call, Code, Form, Lent, Limit};
use crate::inputs::notices::{self, WRONG_FORMS};
use crate::inputs::random::Random;
use crate::inputs::streams::*;
use crate::other::basics::{self, second, Settings};
use crate::other::faults::Fault;
use crate::other::slave::{Numbers, Slave, COLD, UNKNOWN};
use std::collections::BTreeMap;
use std::fmt::Debug;

pub struct Runs;

impl Subject for Runs {
    const NAME: &'static str = "runs by the book";
    const REQUIRED: fn() -> Cases = required;
    // those against which demand 3 stands
    const FAULTS: &'static [&'static [Fault]] = &[&[
        Fault::RefusalUncounted,
        Fault::LabelOffByOne,
        Fault::SlipKeepsCount,
        Fault::MarkSlips,
        Fault::NewNoticeReleased,
        Fault::FirstNoticeStays,
        Fault::LateKept,
        Fault::LimitRefusesCall,
        Fault::EmptyCounted,
        Fault::EmptyUntold,
        Fault::EmptyKeepsNotice,
        Fault::GapUncounted,
        Fault::GapOf16Bits,
        Fault::GapKeepsMark,
        Fault::GapNeverDrops,
    ]];
    const LONGEST: usize = 7;

    /// A stream with two slaves on it: the proved one's, or faulty ones where a fault is seeded.
    fn random(comparison: &mut Comparison<Self>) -> Compared {
        comparison.random_run(if comparison.seeded { calls::other } else { calls::ours })
    }
}

/// What 01's orders make of a call, and 02's Paper 5 of an empty packet.
enum Judged {
    Lost,
    Kept(u8),
    Ignored(u8),
    Plain,
    Taken { pointer: u16, sts: u32, md: u32, od: i16 },
}

/// The book of one slave's run. It is fed the calls alone: places, gaps, and what the orders refuse or accept.
struct Book {
    adapter: Adapter,
    site: u16,
    tad: u32,
    /// The OD that its own taken notices gave.
    od: i16,
    open: Option<Open>,
}

/// From the first notice taken on.
#[derive(Clone, Copy, Debug)]
struct Open {
    /// The last place counted.
    s: u64,
    /// The number untold.
    u: i64,
    /// Whether u was 0 at every packet counted since the last notice taken.
    exact: bool,
}

impl Book {
    /// Judges a call by the start's settings and the book's OD.
    fn judge(&self, packet: &[u8], tick: u32, limit: Limit, numbers: Option<&Numbers>) -> Judged {
        let Adapter { profile, n, .. } = self.adapter;
        let second = self.adapter.second();
        if packet.is_empty() && numbers.is_none() {
            return Judged::Lost;
        }
        if packet.len() != 188 {
            return Judged::Kept(1);
        }
        if packet[0] != 0x47 {
            return Judged::Kept(2);
        }
        if tick >= second {
            return Judged::Kept(3);
        }
        if numbers.is_some() && profile == 0 {
            return Judged::Kept(20);
        }
        if packet[1] >= 0x80 {
            return Judged::Ignored(4);
        }
        let (pointer, sts, md, od) = if let Some(&Numbers { pointer, sts, md, od, index }) = numbers {
            if sts >= second || md >= second {
                return Judged::Ignored(11);
            }
            if pointer >= n || (20..255).contains(&index) {
                return Judged::Ignored(12);
            }
            (pointer, sts, md, od)
        } else if profile == 0 && [packet[1] & 0x1F, packet[2]] == [0, 0x15] {
            let (notice, field) = match basics::read_within(packet, limit.unwrap_or(basics::FULL)) {
                Ok(read) => read,
                Err(number) => return Judged::Ignored(number),
            };
            if notice.pointer >= n {
                return Judged::Ignored(12);
            }
            let settings = basics::settings(field, self.site, Settings { od: self.od, ..Settings::default() });
            (notice.pointer, notice.sts, notice.md, settings.map_or(self.od, |s| s.od))
        } else {
            return Judged::Plain;
        };
        if basics::delay_fits(profile, md, od, self.tad) {
            Judged::Taken { pointer, sts, md, od }
        } else {
            Judged::Ignored(13)
        }
    }
}

// ---- Two slaves on a stream

/// What two boards of one network hear: the adapter's stream, and each board's settings.
#[derive(Clone, Copy, Debug)]
struct Network {
    adapter: Adapter,
    boards: [Board; 2],
}

/// A call of one of the two slaves; a packet and a numbers notice have a place.
#[derive(Clone, Debug)]
struct Step {
    who: usize,
    place: u64,
    call: Call,
}

/// One slave's run, its book, and the times of the marks that it released told exactly, by place.
struct Listener {
    slave: Slave,
    book: Book,
    released: BTreeMap<u64, Times>,
}

/// Both runs as far as they have come.
struct Books {
    code: Code,
    network: Network,
    listeners: [Listener; 2],
}

/// A case that a step reached.
type Saw<'a> = &'a mut dyn FnMut(&'static str, i64);

/// Where a reply is not the book's: what, ours and the book's.
struct Against {
    what: &'static str,
    ours: String,
    book: String,
}

fn hold<T: PartialEq + Debug>(what: &'static str, ours: T, book: T) -> Result<(), Against> {
    if ours == book {
        return Ok(());
    }
    Err(Against { what, ours: format!("{ours:?}"), book: format!("{book:?}") })
}

impl Books {
    fn new(code: Code, network: Network) -> Books {
        let listeners = network.boards.map(|board| Listener {
            slave: code(&Call::Start(board), COLD).slave,
            book: Book { adapter: network.adapter, site: board.site, tad: board.tad, od: 0, open: None },
            released: BTreeMap::new(),
        });
        Books { code, network, listeners }
    }

    /// Makes a call and holds its reply to the book. Gives whether the call's place is counted.
    fn step(&mut self, step: &Step, saw: Saw) -> Result<bool, Against> {
        let listener = &mut self.listeners[step.who];
        let outcome = (self.code)(&step.call, listener.slave);
        let before = std::mem::replace(&mut listener.slave, outcome.slave);
        let (packet, tick, limit, numbers) = match &step.call {
            Call::Packet { packet, tick, form, limit } => {
                saw("packet in place (0), by value (1)", i64::from(*form == Form::ByValue));
                (packet, *tick, *limit, None)
            }
            Call::Numbers { packet, tick, numbers } => (packet, *tick, None, Some(numbers)),
            Call::Gap(k) => {
                hold("a gap's number", outcome.number(), 0)?;
                if let Some(open) = &mut listener.book.open {
                    open.u -= i64::from(*k);
                    saw("gap", if *k == 0 { 0 } else { 1 });
                }
                return Ok(false);
            }
            _ => unreachable!("a run has packets, numbers notices and gaps"),
        };
        let judged = listener.book.judge(packet.bytes(), tick, limit, numbers);
        let reply = outcome.step().reply;

        // the whole call's number, and the notice's part but for a slip
        let (number, part) = match judged {
            Judged::Kept(number) => (number, (0, 0)),
            Judged::Ignored(number) => (0, (3, number)),
            Judged::Plain | Judged::Lost => (0, (0, 0)),
            Judged::Taken { .. } => (0, (1, 0)),
        };
        let given = (if reply.notice == 2 { 1 } else { reply.notice }, reply.ignored);
        hold("the numbers", (reply.number, given), (number, part))?;
        if let Judged::Kept(number) = judged {
            saw("refused with", number.into());
            hold("a refused call's slave", outcome.slave, before)?;
            return Ok(false);
        }
        if let Judged::Lost = judged {
            // a gap of one: nothing is in the reply, the slave is left as by a gap, and no place is counted
            hold("an empty packet's reply", reply, Reply::default())?;
            hold("the slave behind an empty packet", outcome.slave, (self.code)(&Call::Gap(1), before).slave)?;
            if let Some(open) = &mut listener.book.open {
                open.u -= 1;
                saw("empty packet with tick U or more", i64::from(tick >= self.network.adapter.second()));
                saw("empty packet on the slave's mark (10) with pending (1)", i64::from(before.pending) + if before.next == 0 { 10 } else { 0 });
            }
            return Ok(false);
        }
        saw("ignored with", part.1.into());
        listener.counted(step.place, &judged, &reply, saw)?;
        // A mark that both released told exactly has one reference time, also where it has two emission times.
        if let [Some(one), Some(other)] = self.listeners.each_ref().map(|listener| listener.released.get(&step.place)) {
            hold("two slaves on one stream", one.reference, other.reference)?;
            saw("mark released by both in profile", self.network.adapter.profile.into());
            saw("mark released by both, emission the same (0), another (1)", i64::from(one.emission != other.emission));
        }
        Ok(true)
    }
}

impl Listener {
    /// A packet that counts: its label, slip and reference time by the book, which is then written on.
    fn counted(&mut self, place: u64, judged: &Judged, reply: &Reply, saw: Saw) -> Result<(), Against> {
        let Adapter { profile, n, .. } = self.book.adapter;
        let n = i64::from(n);
        let adapters_label = place as i64 % n;
        let taken = matches!(judged, Judged::Taken { .. });
        if let &Judged::Taken { pointer, sts, md, od } = judged {
            // the premise: each notice taken is the adapter's at that place
            let after = self.book.adapter.times_after(place);
            assert!((i64::from(pointer), (sts, md)) == (n - 1 - adapters_label, after), "the adapter's notice at place {place}");
            self.book.od = od;
        }
        let Some(Open { s, u, exact }) = self.book.open else {
            hold("the first label", (reply.has_label, reply.label), if taken { (true, adapters_label as u16) } else { (false, 0) })?;
            hold("a slip on the first notice", reply.notice == 2, false)?;
            saw(if taken { "first notice on label" } else { "before the first notice" }, if taken { adapters_label } else { 0 });
            if taken {
                self.book.open = Some(Open { s: place, u: 0, exact: true });
            }
            return Ok(());
        };
        let u = u + (place - s) as i64 - 1;
        let label = if taken { adapters_label } else { (place as i64 - u).rem_euclid(n) };
        hold("the label", (reply.has_label, i64::from(reply.label)), (true, label))?;
        let about = if u == 0 { 0 } else { u.signum() * if u % n == 0 { 2 } else { 1 } };
        saw(if taken { "untold at a notice" } else { "untold elsewhere" }, about);
        if taken {
            hold("a slip", reply.notice == 2, u % n != 0)?;
        }
        if reply.mark.class() == 3 {
            // the adapter's notice for this mark stood before it
            let (sts, md) = self.book.adapter.times_after(place - 1);
            let sum = sts + md;
            let reference = if sum >= second(profile) { sum - second(profile) } else { sum };
            if exact && u == 0 {
                hold("label and reference time told exactly", (adapters_label, reply.mark.times.reference), (0, reference))?;
                saw("told exactly, released in profile", profile.into());
                saw("told exactly, released beside a notice taken", taken.into());
                self.released.insert(place, reply.mark.times);
            } else if reply.mark.times.reference != reference {
                saw("not told exactly, released with another time", 0);
            }
        }
        self.book.open = Some(if taken { Open { s: place, u: 0, exact: true } } else { Open { s: place, u, exact: exact && u == 0 } });
        Ok(())
    }
}

/// The first step whose reply is not the book's.
fn against(code: Code, network: Network, steps: &[Step]) -> Option<(usize, Against)> {
    let mut books = Books::new(code, network);
    steps.iter().enumerate().find_map(|(at, step)| books.step(step, &mut |_, _| ()).err().map(|against| (at, against)))
}

// ---- Random runs

const BOOK: &str = "book";

/// How a slave's network loses packets.
struct Way {
    place: u64,
    left: u64,
    /// Whole cadences with hardly a loss.
    whole: bool,
    /// Few losses that are not told exactly.
    careful: bool,
    /// Packets lost whose loss is told late.
    owed: u64,
}

impl Comparison<Runs> {
    fn random_run(&mut self, code: Code) -> Compared {
        let r = &mut self.random;
        let adapter = Adapter::any(r);
        let Adapter { profile, n, .. } = adapter;
        let boards = [(); 2].map(|()| {
            let (site, tad) = (any_site(r), if r.one_in(8) { any_tad(r, profile) } else { r.below(3_000) as u32 });
            Board { profile, n, site, tad }
        });
        let network = Network { adapter, boards };
        let mut ways = [(); 2].map(|()| {
            let (whole, careful) = (r.one_in(30), r.one_in(2));
            let place = u64::from(n) * 1_000 + r.below(n.into()) as u64;
            Way { place, left: if whole { 3 * u64::from(n) } else { 100 }, whole, careful, owed: 0 }
        });
        let mut books = Books::new(code, network);
        let mut steps = Vec::new();
        // the slave that is behind on the stream goes on
        while let Some(who) = (0..2).filter(|who| ways[*who].left > 0).min_by_key(|who| ways[*who].place) {
            self.walk(&mut books, &mut ways[who], who, &mut steps)?;
        }
        Ok(())
    }

    /// Losses, what is told of them, and a packet.
    fn walk(&mut self, books: &mut Books, way: &mut Way, who: usize, steps: &mut Vec<Step>) -> Compared {
        way.left -= 1;
        let adapter = books.network.adapter;
        let n = u64::from(adapter.n);
        let r = &mut self.random;
        let lost = match r.below(16) {
            _ if way.whole && !r.one_in(500) => 0,
            0 => 1 + r.below(4) as u64,
            1 => n * (1 + r.below(2) as u64),
            2 if !way.careful => r.below(80_000) as u64,
            3..=6 => (n - way.place % n) % n,
            7..=12 => adapter.to_notice(way.place),
            _ => 0,
        };
        let first = way.place;
        way.place += lost;
        let mut told = match r.below(12) {
            0 | 1 if lost > 0 && lost % n == 0 => 0,
            _ if way.careful && !r.one_in(8) => lost,
            0 => 0,
            1 => r.near(lost as i64).max(0) as u64,
            2 => {
                // told after the next packet
                way.owed = lost;
                0
            }
            3 => std::mem::take(&mut way.owed) + lost,
            _ => lost,
        };
        // few of them by a card's empty packets, from the first lost place on
        if told < 8 && self.random.one_in(2) {
            for place in first..first + std::mem::take(&mut told) {
                let r = &mut self.random;
                let tick = any_tick(r, &books.listeners[who].slave);
                let call =
                    Call::Packet { form: r.pick(&[Form::InPlace, Form::ByValue]), packet: Lent::new(r, &[]), tick, limit: notices::limit(r, &[]) };
                self.book_step(books, Step { who, place, call }, steps)?;
            }
        }
        while told > 0 || self.random.one_in(40) {
            let k = told.min(if self.random.one_in(4) { 1_000 } else { 65_535 });
            self.book_step(books, Step { who, place: way.place, call: Call::Gap(k as u16) }, steps)?;
            told -= k;
        }
        let Listener { slave, book, .. } = &books.listeners[who];
        let (packet, numbers) = adapters_packet(&mut self.random, book, way.place);
        let tick = any_tick(&mut self.random, slave);
        let limit = notices::limit(&mut self.random, &packet);
        let packet = Lent::new(&mut self.random, &packet);
        let call = match numbers {
            Some(numbers) => Call::Numbers { packet, tick, numbers },
            None => Call::Packet { form: self.random.pick(&[Form::InPlace, Form::ByValue]), packet, tick, limit },
        };
        let counted = self.book_step(books, Step { who, place: way.place, call }, steps)?;
        // a packet refused as a whole comes again, or is gone
        if counted || self.random.one_in(2) {
            way.place += 1;
        }
        Ok(())
    }

    fn book_step(&mut self, books: &mut Books, step: Step, steps: &mut Vec<Step>) -> Compared<bool> {
        self.calls += 1;
        let held = books.step(&step, &mut |what, value| self.saw(BOOK, what, value));
        steps.push(step);
        held.map_err(|_| self.shortened_run(books.code, books.network, steps))
    }

    /// A run whose last step is not the book's, with the shortest such run found.
    fn shortened_run(&self, code: Code, network: Network, steps: &[Step]) -> Difference {
        let second = network.adapter.second();
        let simpler = |step: &Step| {
            // a packet that counts keeps its notice, which is the adapter's, or becomes a null packet
            let calls = match &step.call {
                Call::Packet { form, packet, tick, limit } if matches!(packet.bytes(), [0x47, rest @ ..] if rest.len() == 187) && *tick < second => {
                    let null = Lent::alone(notices::null());
                    let plain = (*packet != null).then_some(Call::Packet { form: *form, packet: null, tick: *tick, limit: *limit });
                    plain
                        .into_iter()
                        .chain((*tick > 0).then_some(Call::Packet { form: *form, packet: packet.clone(), tick: 0, limit: *limit }))
                        .collect()
                }
                call @ Call::Gap(_) => simpler::simpler(call),
                Call::Packet { packet, .. } if packet.bytes().is_empty() => vec![Call::Gap(1)],
                _ => Vec::new(),
            };
            calls.into_iter().map(|call| Step { call, ..step.clone() }).collect()
        };
        let fails = |steps: &[Step]| against(code, network, steps).map(|(at, _)| at + 1);
        // one gap for two calls of a slave
        let joined = |one: &Step, another: &Step| {
            let gaps = if one.who == another.who { simpler::joined(&one.call, &another.call) } else { Vec::new() };
            gaps.into_iter().map(|call| Step { call, ..another.clone() }).collect()
        };
        let shortest = shrink::shortest(steps, fails, joined, simpler);
        let mut text = format!("seed {} call {}; the shortest run found that is not the book's, on {network:?}:", self.seed, self.calls);
        for (number, Step { who, place, call }) in (1..).zip(&shortest) {
            text += &format!("\n  {number}. slave {who}, place {place}: {call:?}");
        }
        let found = against(code, network, &shortest);
        match &found {
            Some((_, Against { what, ours, book })) => text += &format!("\n  {what}\n  ours {ours}\n  book {book}"),
            None => text += "\n  does not fail again",
        }
        Difference { text, whole: steps.len(), shortest: shortest.len(), again: found.is_some() }
    }
}

/// What arrives at a place: the adapter's packet, whole or damaged, so that every notice that can be taken is the adapter's.
fn adapters_packet(r: &mut Random, book: &Book, place: u64) -> (Vec<u8>, Option<Numbers>) {
    let adapter = book.adapter;
    let own = adapter.to_notice(place) == 0;
    let (n, second) = (adapter.n, adapter.second());
    let (sts, md) = adapter.times_after(place);
    let pointer = n - 1 - adapter.label(place);
    let mut packet = plain_packet(r);
    let mut numbers = None;
    if own && !r.one_in(8) || r.one_in(10) {
        // away from its place, a notice comes only with what refuses it
        let wrong = if own && !r.one_in(6) { 0 } else { 1 + r.below(6) };
        let (pointer, sts, md) = match wrong {
            1 => (r.pick(&[n, n + 1, 65_535]), sts, md),
            2 => (pointer, second + r.below(100) as u32, md),
            3 => (pointer, sts, second),
            4 => (pointer, sts, 50),
            _ => (pointer, sts, md),
        };
        if adapter.profile == 1 || r.one_in(20) {
            let od = if wrong == 4 { -51 } else { any_offset(r) };
            let index = if wrong == 5 { r.pick(&[20, 254]) } else { r.pick(&[0, 1, 19, UNKNOWN, UNKNOWN]) };
            numbers = Some(Numbers { pointer, sts, md, od, index });
            packet[1] |= if wrong == 6 { 0x80 } else { 0 };
        } else {
            let field = match wrong {
                4 => offset_entry(0, -51),
                5 => {
                    let kind = r.below(WRONG_FORMS.len());
                    notices::wrong_field(r, book.site, kind)
                }
                _ if r.one_in(2) => offset_entry(book.site, any_offset(r)),
                _ => Vec::new(),
            };
            packet = mip(r, pointer, sts, md, &field);
            if wrong == 6 {
                let bit = 8 + r.below(8 * (24 + field.len()));
                packet[bit / 8] ^= 1 << (bit % 8);
            }
        }
    }
    match r.below(40) {
        0 => packet.truncate(187),
        1 => packet[0] = 0x46,
        _ => {}
    }
    (packet, numbers)
}

// ---- What must be reached

fn required() -> Cases {
    vec![
        (BOOK, "before the first notice", vec![0]),
        (BOOK, "first notice on label", vec![0, 623]),
        (BOOK, "refused with", vec![1, 2, 3, 20]),
        (BOOK, "ignored with", vec![0, 4, 6, 7, 8, 26, 9, 10, 11, 12, 13]),
        (BOOK, "packet in place (0), by value (1)", vec![0, 1]),
        (BOOK, "gap", vec![0, 1]),
        (BOOK, "empty packet with tick U or more", vec![0, 1]),
        (BOOK, "empty packet on the slave's mark (10) with pending (1)", vec![0, 1, 10, 11]),
        // 0 none; 1 a number that is no multiple of n, 2 one that is; negative where more was told than lost
        (BOOK, "untold elsewhere", vec![-1, 0, 1, 2]),
        (BOOK, "untold at a notice", vec![-1, 0, 1, 2]),
        (BOOK, "told exactly, released in profile", vec![0, 1]),
        (BOOK, "told exactly, released beside a notice taken", vec![0, 1]),
        (BOOK, "not told exactly, released with another time", vec![0]),
        (BOOK, "mark released by both in profile", vec![0, 1]),
        (BOOK, "mark released by both, emission the same (0), another (1)", vec![0, 1]),
    ]
}
