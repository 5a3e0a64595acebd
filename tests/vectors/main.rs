//! Vectors: the papers' examples, published values, and notices and blocks made by hand, each by a call of the proved code.
//! It prints one line for each: a name, the input in short, and what the call gave. tests/vectors/vectors.txt has what the papers say, reckoned by hand from
//! documents 01 and 02 and TS 101 191; the two must be the same. After a slave's call stand the parts of the slave that it changed, and after an inserter's
//! those of the inserter.
//!
//! vectors        the proved code
//! vectors other  the other implementation

#![allow(dead_code)] // parts of the shared modules are for the comparisons

#[path = "../bindings/mod.rs"]
mod bindings;
#[path = "../inputs/mod.rs"]
mod inputs;
#[path = "../other/mod.rs"]
mod other;

mod basics;
mod inserter;
mod slave;

use bindings::answers::{Change, Reading};
use bindings::probe;
use bindings::vikombare::{Mark, Reply, Times};
use inputs::calls::{self, Board, Call, Code, Form, Lent, Limit, Outcome, Said};
use inputs::inserters;
use inputs::moments::Moment;
use inputs::notices;
use inputs::random::Hex;
use other::basics::{Notice, Settings};
use other::inserter::{Inserter, ZEROS};
use other::slave::{Numbers, Slave, COLD};

fn main() {
    let proved = std::env::args().nth(1).is_none();
    let code: Code = if proved { calls::ours } else { calls::other };
    let insert_code: inserters::Code = if proved { inserters::ours } else { inserters::other };
    let v = &mut Vectors { proved, code, insert_code, slave: COLD, inserter: ZEROS, handed: None, described: Vec::new() };
    println!("name | input | output");
    basics::all(v);
    slave::all(v);
    inserter::all(v);
}

/// One implementation, and the slave and the inserter that their last calls left.
struct Vectors {
    proved: bool,
    code: Code,
    insert_code: inserters::Code,
    slave: Slave,
    inserter: Inserter,
    /// The name of a slave or an inserter that was handed in for the next call.
    handed: Option<String>,
    /// The names of those that were described.
    described: Vec<String>,
}

impl Vectors {
    fn line(&self, name: &str, input: String, output: String) {
        println!("{name} | {input} | {output}");
    }

    // ---- Calls that keep no slave

    /// The other implementation has two registers, which must agree.
    fn register(&self, name: &str, bytes: &[u8]) {
        let register = if self.proved { probe::register(bytes) } else { other::basics::register(bytes) };
        let by_bits = if self.proved { register } else { other::basics::register_by_bits(bytes) };
        let bits = if by_bits == register { String::new() } else { format!(", by bits {by_bits:08X}") };
        self.line(name, format!("register of {:?}", Hex(bytes.to_vec())), format!("{register:08X}{bits}"));
    }

    fn read(&self, name: &str, packet: &Packet) {
        self.read_within(name, packet, None);
    }

    fn read_within(&self, name: &str, packet: &Packet, limit: Limit) {
        let Said::Reading(reading) = self.said(Call::Read(Lent::alone(packet.bytes.clone()), limit)) else { unreachable!("a read gives a reading") };
        self.line(name, format!("read {}{}", packet.text, limit_text(limit)), reading_text(&reading));
    }

    fn write(&self, name: &str, length: usize, notice: Notice, field: &[u8]) {
        let Said::Written(number, bytes) = self.said(Call::Write { out: Lent::alone(vec![0x5A; length]), notice, field: field.to_vec() }) else {
            unreachable!("a write gives bytes")
        };
        let input = format!("write into {length} bytes 5A: {}, field of {:?}", notice_text(&notice), Hex(field.to_vec()));
        self.line(name, input, format!("{}, {bytes:?}", numbered(number, || String::from("written"))));
    }

    fn said(&self, call: Call) -> Said {
        (self.code)(&call, COLD).said
    }

    fn settings(&self, name: &str, field: &[u8], site: u16) {
        let before = Settings { od: 11, frequency: 22, power: 33 };
        let after: probe::Settings =
            if self.proved { probe::settings(field, site, before) } else { other::basics::settings(field, site, before).into() };
        let input = format!("settings of site {site}, OD 11 frequency 22 power 33 before, from {:?}", Hex(field.to_vec()));
        self.line(name, input, numbered(after.number, || format!("OD {} frequency {} power {}", after.od, after.frequency, after.power)));
    }

    /// A mark that a notice waits for, by the packet call.
    fn release(&self, name: &str, profile: u8, [sts, md, tad, arrival]: [u32; 4], od: i16) {
        let moment = Moment { sts, md, od, tad, arrival };
        let (outcome, other_form) = self.in_both_forms(moment.slave(profile), &notices::null(), arrival, None);
        let Reply { number, mark, .. } = outcome.step().reply;
        let output = numbered(number, || mark_text(profile, &mark).unwrap_or(String::from("no mark")));
        self.line(name, format!("a mark due in profile {profile}, STS {sts} MD {md} OD {od} TAD {tad} arrival {arrival}"), output + &other_form);
    }

    fn fits(&self, name: &str, profile: u8, md: u32, od: i16, tad: u32) {
        let fits = if self.proved { probe::delay_fits } else { other::basics::delay_fits }(profile, md, od, tad);
        let output = if fits { "fits" } else { "does not fit" };
        self.line(name, format!("13 in profile {profile}, MD {md} OD {od} TAD {tad}"), String::from(output));
    }

    fn label(&self, name: &str, n: u16, pointer: u16) {
        let label: probe::Label = if self.proved { probe::label(n, pointer) } else { other::basics::label(n, pointer).into() };
        self.line(name, format!("label of pointer {pointer}, n {n}"), numbered(label.number, || format!("label {}", label.value)));
    }

    fn length(&self, name: &str, constellation: u8, rate: u8) {
        let n = if self.proved { probe::length(constellation, rate) } else { other::basics::length(constellation, rate) };
        let output = if n == 0 { String::from("none") } else { n.to_string() };
        self.line(name, format!("length for constellation {constellation} and code rate {rate}"), output);
    }

    fn admits(&self, name: &str, profile: u8, n: u16) {
        let admitted = if self.proved { probe::admits(profile, n) } else { other::basics::admits(profile, n) };
        self.line(name, format!("cadence {n} in profile {profile}"), String::from(if admitted { "yes" } else { "no" }));
    }

    fn place(&self, name: &str, i: u8, p: u16) {
        let place = if self.proved { probe::mobile_place(i, p) } else { other::basics::mobile_place(i, p) };
        self.line(name, format!("M/H place of packet {p} after mark {i}"), format!("{place}"));
    }

    // ---- A slave's calls

    /// Makes a call with the slave; its line ends in what changed of the slave.
    fn call(&mut self, name: &str, input: String, call: Call, output: impl Fn(&Outcome) -> String) {
        let outcome = (self.code)(&call, self.slave);
        let output = output(&outcome);
        self.left(name, input, outcome, output);
    }

    /// The line of a call that left this, and the slave for the next one.
    fn left(&mut self, name: &str, input: String, outcome: Outcome, output: String) {
        let handed = self.handed.take().map_or(String::new(), |name| name + ": ");
        self.line(name, handed + &input, format!("{output}; {}", changes(&self.slave, &outcome.slave)));
        self.slave = outcome.slave;
    }

    /// A slave for the next call, described where its name is new.
    fn hand(&mut self, name: &str, slave: Slave) {
        if !self.described.iter().any(|described| described == name) {
            self.described.push(String::from(name));
            self.line(name, String::from("a slave handed in"), changes(&COLD, &slave));
        }
        self.slave = slave;
        self.handed = Some(String::from(name));
    }

    fn start(&mut self, name: &str, profile: u8, n: u16, site: u16, tad: u32) {
        (self.slave, self.handed) = (COLD, None);
        let input = format!("start profile {profile} n {n} site {site} TAD {tad}");
        self.call(name, input, Call::Start(Board { profile, n, site, tad }), |outcome| numbered(outcome.number(), || String::from("started")));
    }

    /// A packet in place; and what it gives by value, where that is not the same.
    fn in_both_forms(&self, slave: Slave, packet: &[u8], tick: u32, limit: Limit) -> (Outcome, String) {
        let [in_place, by_value] = [Form::InPlace, Form::ByValue].map(|form| {
            let packet = Lent::alone(packet.to_vec());
            (self.code)(&Call::Packet { form, packet, tick, limit }, slave)
        });
        let other_form = if in_place == by_value { String::new() } else { format!(", by value {by_value:?}") };
        (in_place, other_form)
    }

    fn packet(&mut self, name: &str, packet: &Packet, tick: u32) {
        self.packet_within(name, packet, tick, None);
    }

    fn packet_within(&mut self, name: &str, packet: &Packet, tick: u32, limit: Limit) {
        let (outcome, other_form) = self.in_both_forms(self.slave, &packet.bytes, tick, limit);
        let output = reply_text(self.slave.profile, &outcome.step().reply) + &other_form;
        self.left(name, format!("{} at {tick}{}", packet.text, limit_text(limit)), outcome, output);
    }

    fn numbers(&mut self, name: &str, packet: &Packet, tick: u32, numbers: Numbers) {
        let input = format!("{} with {} at {tick}", packet.text, numbers_text(&numbers));
        let call = Call::Numbers { packet: Lent::alone(packet.bytes.clone()), tick, numbers };
        let profile = self.slave.profile;
        self.call(name, input, call, |outcome| reply_text(profile, &outcome.step().reply));
    }

    fn gap(&mut self, name: &str, k: u16) {
        self.call(name, format!("gap {k}"), Call::Gap(k), |outcome| numbered(outcome.number(), || String::from("counted")));
    }

    fn save(&mut self, name: &str, length: usize) {
        let call = Call::Save(Lent::alone(vec![0xEE; length]));
        self.call(name, format!("save into {length} bytes EE"), call, |outcome| match &outcome.said {
            Said::Written(number, bytes) => format!("{}, {bytes:?}", numbered(*number, || String::from("saved"))),
            _ => unreachable!("a save gives bytes"),
        });
    }

    /// A resume on a board of profile 0, n 2016 and TAD 0.
    fn resume(&mut self, name: &str, block: &[u8], site: u16) {
        (self.slave, self.handed) = (COLD, None);
        let call = Call::Resume(Lent::alone(block.to_vec()), Board { profile: 0, n: 2016, site, tad: 0 });
        let input = format!("resume at site {site} from {:?}", Hex(block.to_vec()));
        self.call(name, input, call, |outcome| numbered(outcome.number(), || String::from("resumed")));
    }

    /// The same by the release before this one, of which there is no code here: the other implementation's reading of it stands in both runs.
    fn older_resume(&mut self, name: &str, block: &[u8], site: u16) {
        (self.slave, self.handed) = (COLD, None);
        let outcome = Outcome::from(Change::from(other::saved::older_resume(block, 0, 2016, site, 0)));
        let output = numbered(outcome.number(), || String::from("resumed"));
        self.left(name, format!("resume at site {site} from {:?}", Hex(block.to_vec())), outcome, output);
    }
}

// ---- Texts

/// A packet and what it is, in short.
#[derive(Clone)]
struct Packet {
    text: String,
    bytes: Vec<u8>,
}

impl Packet {
    /// With these bytes at their places.
    fn with(&self, changes: &[(usize, u8)]) -> Packet {
        let mut changed = self.clone();
        for &(at, value) in changes {
            changed.bytes[at] = value;
            changed.text += &format!(", byte {at} {value:02X}");
        }
        changed
    }

    /// With its check value made right again.
    fn sealed(mut self) -> Packet {
        notices::reseal(&mut self.bytes);
        self.text += ", check value right";
        self
    }

    /// Its first bytes, or all with 0xFF behind them.
    fn of_length(&self, length: usize) -> Packet {
        let mut cut = self.clone();
        cut.bytes.resize(length, 0xFF);
        cut.text += &format!(", {length} bytes");
        cut
    }
}

fn null() -> Packet {
    Packet { text: String::from("null packet"), bytes: notices::null() }
}

/// A notice without flags, stuffed as the writer does.
fn notice(pointer: u16, sts: u32, md: u32, field: &[u8]) -> Packet {
    let mut text = format!("notice pointer {pointer} STS {sts} MD {md}");
    if !field.is_empty() {
        text += &format!(" field {}", hex(field));
    }
    Packet { text, bytes: notices::packet_of(&Notice { pointer, sts, md, ..Notice::default() }, field) }
}

/// The limit of the reader, where the call gives one.
fn limit_text(limit: Limit) -> String {
    limit.map_or_else(String::new, |limit| format!(" with limit {limit}"))
}

fn hex(bytes: &[u8]) -> String {
    bytes.iter().map(|byte| format!("{byte:02X}")).collect()
}

fn numbered(number: u8, accepted: impl FnOnce() -> String) -> String {
    if number == 0 {
        accepted()
    } else {
        format!("refused {number}")
    }
}

/// The parts in which a slave differs from the one that was handed in.
fn changes(before: &Slave, after: &Slave) -> String {
    if *after == COLD {
        return String::from("slave cold");
    }
    if after == before {
        return String::from("slave kept");
    }
    let parts = |s: &Slave| -> [(&'static str, i64); 14] {
        [
            ("phase", s.phase.into()),
            ("profile", s.profile.into()),
            ("n", s.n.into()),
            ("site", s.site.into()),
            ("TAD", s.tad.into()),
            ("OD", s.od.into()),
            ("frequency", s.frequency.into()),
            ("power", s.power.into()),
            ("next", s.next.into()),
            ("pending", s.pending.into()),
            ("index", s.index.into()),
            ("STS", s.sts.into()),
            ("MD", s.md.into()),
            ("coasted", s.coasted.into()),
        ]
    };
    let changed = parts(before).into_iter().zip(parts(after)).filter(|(before, after)| before != after);
    changed.map(|(_, (part, value))| format!("{part} {value}")).collect::<Vec<_>>().join(" ")
}

/// A mark in a reply of a slave of this profile, where there is one.
fn mark_text(profile: u8, mark: &Mark) -> Option<String> {
    match mark.kind {
        0 => None,
        1 => Some(String::from("untimed")),
        kind if kind == 2 + 3 * profile && mark.times == (Times { reference: mark.times.reference, ..Times::default() }) => {
            Some(format!("late {}", mark.times.reference))
        }
        kind if kind == 3 + profile => {
            let Times { reference, emission, modulation, wait } = mark.times;
            Some(format!("released reference {reference} emission {emission} modulation {modulation} wait {wait}"))
        }
        kind => Some(format!("mark {kind}")),
    }
}

fn reply_text(profile: u8, a: &Reply) -> String {
    numbered(a.number, || {
        let mut parts = vec![if a.has_label { format!("label {}", a.label) } else { String::from("no label") }];
        match a.notice {
            0 => {}
            1 => parts.push(String::from("taken")),
            2 => parts.push(String::from("slip")),
            _ => parts.push(format!("ignored {}", a.ignored)),
        }
        if a.turn {
            parts.push(String::from("turn"));
        }
        parts.extend(mark_text(profile, &a.mark));
        if a.has_place {
            parts.push(format!("place {}", a.place));
        }
        parts.join(", ")
    })
}

fn numbers_text(m: &Numbers) -> String {
    format!("numbers pointer {} STS {} MD {} OD {} index {}", m.pointer, m.sts, m.md, m.od, m.index)
}

fn notice_text(n: &Notice) -> String {
    let Notice { continuity, pointer, periodic, reserved, sts, md, tps } = n;
    format!("continuity {continuity} pointer {pointer} periodic {periodic} reserved {reserved} STS {sts} MD {md} TPS {tps:08X}")
}

fn reading_text(r: &Reading) -> String {
    numbered(r.number, || format!("{} addressing {}", notice_text(&r.notice), r.addressing))
}
