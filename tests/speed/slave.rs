//! The slave, save and resume against the other implementation: one table of nanoseconds a call and ratios. Packets in place, numbers notices, gaps,
//! saves and resumes are the calls that a board links; packets by value are a test's.

use super::measure::{self, best, candidate, figure, full_field, ratio, register_by_bytes, register_by_nibbles, Candidate, INPUTS, ROUNDS};
use crate::bindings::answers::{Change, Step};
use crate::bindings::slave::CSlave;
use crate::bindings::{probe, vikombare};
use crate::inputs::notices;
use crate::inputs::random::Random;
use crate::other::basics::{Notice, FULL};
use crate::other::saved;
use crate::other::slave::{Numbers, Reply, Slave, LOCKED, UNKNOWN};
use std::hint::black_box;
use std::time::Instant;

// ---- The candidates, each behind a call

#[inline(never)]
fn by_value(slave: Slave, packet: &[u8], tick: u32) -> Step {
    slave.packet_by_value(packet, tick).into()
}

#[inline(never)]
fn nibbles_by_value(mut slave: Slave, packet: &[u8], tick: u32) -> Step {
    let reply = slave.packet_with(register_by_nibbles, packet, tick, FULL);
    (slave, reply).into()
}

#[inline(never)]
fn bytes_by_value(mut slave: Slave, packet: &[u8], tick: u32) -> Step {
    let reply = slave.packet_with(register_by_bytes, packet, tick, FULL);
    (slave, reply).into()
}

#[inline(never)]
fn in_place(slave: &mut Slave, packet: &[u8], tick: u32) -> Result<Reply, u8> {
    slave.packet(packet, tick)
}

#[inline(never)]
fn nibbles_in_place(slave: &mut Slave, packet: &[u8], tick: u32) -> Result<Reply, u8> {
    slave.packet_with(register_by_nibbles, packet, tick, FULL)
}

#[inline(never)]
fn bytes_in_place(slave: &mut Slave, packet: &[u8], tick: u32) -> Result<Reply, u8> {
    slave.packet_with(register_by_bytes, packet, tick, FULL)
}

#[inline(never)]
fn limited(slave: &mut Slave, packet: &[u8], tick: u32, limit: usize) -> Result<Reply, u8> {
    slave.packet_with(register_by_nibbles, packet, tick, limit)
}

#[inline(never)]
fn numbers_by_value(slave: Slave, packet: &[u8], tick: u32, numbers: &Numbers) -> Step {
    slave.numbers_by_value(packet, tick, numbers).into()
}

#[inline(never)]
fn numbers_in_place(slave: &mut Slave, packet: &[u8], tick: u32, numbers: &Numbers) -> Result<Reply, u8> {
    slave.numbers(packet, tick, numbers)
}

#[inline(never)]
fn gap_by_value(slave: Slave, k: u16) -> Change {
    slave.gap_by_value(k).into()
}

#[inline(never)]
fn gap_in_place(slave: &mut Slave, k: u16) -> Result<(), u8> {
    slave.gap(k)
}

#[inline(never)]
fn save(slave: &Slave, out: &mut [u8]) -> Result<(), u8> {
    saved::save(slave, out)
}

#[inline(never)]
fn nibbles_save(slave: &Slave, out: &mut [u8]) -> Result<(), u8> {
    saved::save_with(register_by_nibbles, slave, out)
}

#[inline(never)]
fn resume(block: &[u8], s: &Slave) -> Change {
    saved::resume(block, s.profile, s.n, s.site, s.tad).into()
}

#[inline(never)]
fn nibbles_resume(block: &[u8], s: &Slave) -> Change {
    saved::resume_with(register_by_nibbles, block, s.profile, s.n, s.site, s.tad).into()
}

// ---- Measuring

/// A row: by value and in place, each the proved code's figure and the plain one's.
fn row(what: &str, by_value: [Option<f64>; 2], in_place: [Option<f64>; 2]) {
    let [by_value, in_place] = [by_value, in_place].map(|[proved, plain]| [figure(proved), figure(plain), ratio(proved, plain)]);
    let figures = by_value.iter().chain(&in_place).map(String::as_str);
    measure::row(&[what].into_iter().chain(figures).collect::<Vec<_>>());
}

/// The same slaves as the C interface has them, so that none is changed while the proved code is measured.
fn of_c(slaves: &[Slave]) -> Vec<CSlave> {
    slaves.iter().map(|slave| (*slave).into()).collect()
}

/// Calls of a kind, each with its own slave and packet.
struct Calls {
    slaves: Vec<Slave>,
    packets: Vec<Vec<u8>>,
}

/// The arrival of every packet, in time for the marks below. It is hidden from the compiler, so that no call is compiled for this tick alone.
fn tick() -> u32 {
    black_box(9_900_000)
}

impl Calls {
    fn new(slave: impl Fn(usize) -> Slave, packet: impl Fn(usize) -> Vec<u8>) -> Calls {
        Calls { slaves: (0..INPUTS).map(slave).collect(), packets: (0..INPUTS).map(packet).collect() }
    }

    /// Rows by value and in place. What is measured gives the same results, and this notice and mark.
    fn measure(&self, what: &str, notice: u8, mark: u8) {
        for (&slave, packet) in self.slaves.iter().zip(&self.packets) {
            let ours = Step::from(probe::packet(slave.into(), packet, tick()));
            let mut lent = slave.into();
            let reply = vikombare::packet(&mut lent, packet, slave.profile, tick());
            assert!(ours == Step { slave: lent.into(), reply }, "{slave:?} {ours:?} {reply:?}");
            let plain = [by_value, nibbles_by_value, bytes_by_value].map(|call| call(slave, packet, tick()));
            let lent = [in_place, nibbles_in_place, bytes_in_place].map(|call| {
                let mut moved = slave;
                let reply = call(&mut moved, packet, tick());
                Step::from((moved, reply))
            });
            assert!(plain == [ours; 3] && lent == [ours; 3], "{slave:?} {ours:?} {plain:?}");
            assert!((ours.reply.number, ours.reply.notice, ours.reply.mark.class()) == (0, notice, mark), "{slave:?} {ours:?}");
        }
        let Calls { slaves, packets } = self;
        let c_slaves = &of_c(slaves);
        // written out for each call: a function between would copy what is handed back
        macro_rules! by_value {
            ($slaves:ident, $call:path) => {
                candidate("", |k| $call($slaves[k], &packets[k], tick()))
            };
        }
        // a slave that a plain packet moved serves again, any other is put back first
        let again = notice == 0 && mark == 0;
        macro_rules! in_place {
            ($slaves:ident, $call:path $(, $profile:expr)?) => {{
                let mut lent = $slaves.clone();
                candidate("", move |k| {
                    if !again {
                        lent[k] = $slaves[k];
                    }
                    $call(&mut lent[k], &packets[k], $($profile,)? tick())
                })
            }};
        }
        let profile = black_box(slaves[0].profile);
        let mut by_values = vec![by_value!(c_slaves, probe::packet), by_value!(slaves, by_value)];
        let mut in_places = vec![in_place!(c_slaves, vikombare::packet, profile), in_place!(slaves, in_place)];
        let mut against = vec![String::from(what)];
        if notice != 0 {
            by_values.extend([by_value!(slaves, nibbles_by_value), by_value!(slaves, bytes_by_value)]);
            in_places.extend([in_place!(slaves, nibbles_in_place), in_place!(slaves, bytes_in_place)]);
            against = ["byte table", "the same nibble tables", "eight byte tables"].map(|tables| format!("{what}, {tables}")).to_vec();
        }
        let (by_value, in_place) = (best(ROUNDS, by_values), best(ROUNDS, in_places));
        for (k, what) in (1..).zip(against) {
            row(&what, [0, k].map(|k| Some(by_value[k])), [0, k].map(|k| Some(in_place[k])));
        }
    }

    /// A row for a gap-filler's call, in place with its limit, against the same tables. It gives this notice.
    fn measure_within(&self, what: &str, limit: usize, notice: u8) {
        let Calls { slaves, packets } = self;
        for (&slave, packet) in slaves.iter().zip(packets) {
            let (mut lent, mut moved) = (slave.into(), slave);
            let reply = vikombare::packet_within(&mut lent, packet, slave.profile, tick(), limit);
            let plain = limited(&mut moved, packet, tick(), limit);
            assert!(Step::from((moved, plain)) == Step { slave: lent.into(), reply } && reply.notice == notice, "{slave:?} {reply:?}");
        }
        let c_slaves = of_c(slaves);
        let (mut c_lent, mut lent) = (c_slaves.clone(), slaves.clone());
        let (profile, limit) = (black_box(slaves[0].profile), black_box(limit));
        let figures = best(
            ROUNDS,
            vec![
                candidate("", move |k| {
                    if notice != 0 {
                        c_lent[k] = c_slaves[k];
                    }
                    vikombare::packet_within(&mut c_lent[k], &packets[k], profile, tick(), limit)
                }),
                candidate("", move |k| {
                    if notice != 0 {
                        lent[k] = slaves[k];
                    }
                    limited(&mut lent[k], &packets[k], tick(), limit)
                }),
            ],
        );
        row(what, [None; 2], [Some(figures[0]), Some(figures[1])]);
    }
}

/// A stream with one notice in a cadence, from that notice on: nanoseconds a packet in the best thousand of its last million packets.
fn stream<'a, S: From<Slave> + Into<Slave>, T>(packets: usize, mut step: impl FnMut(&mut S, &[u8], u32) -> T + 'a) -> Candidate<'a> {
    const N: u16 = 2016;
    const NOTICED: u16 = 1516;
    let (null, notice) = (notices::null(), mip(N - 1 - NOTICED, &[]));
    let round = move || {
        let mut slave = S::from(Slave::hunting(0, N, 7, 0));
        let mut label = NOTICED;
        let mut best = f64::INFINITY;
        for done in (0..packets).step_by(1_000) {
            let start = Instant::now();
            for _ in 0..1_000 {
                let packet = if label == NOTICED { &notice } else { &null };
                black_box(&step(&mut slave, black_box(packet), tick()));
                label = if label + 1 == N { 0 } else { label + 1 };
            }
            let nanoseconds = start.elapsed().as_nanos() as f64 / 1_000.0;
            if packets - done <= 1_000_000 {
                best = best.min(nanoseconds);
            }
        }
        let Slave { phase, next, .. } = slave.into();
        assert!(phase == LOCKED && next == label);
        best
    };
    ("", Box::new(round))
}

fn mip(pointer: u16, field: &[u8]) -> Vec<u8> {
    notices::packet_of(&Notice { continuity: 0, pointer, periodic: true, reserved: 0, sts: 9_500_000, md: 700_000, tps: 0x8116_0000 }, field)
}

/// A row for the slave handed in and back by the same C signature as a packet's, with nothing done.
fn handed(slave: Slave) {
    let null = notices::null();
    let slaves = of_c(&vec![slave; INPUTS]);
    let ours = Step::from(probe::handed(slaves[0], &null, tick()));
    assert!(ours == by_value(slave, &null, tick()), "{ours:?}");
    let figures = best(ROUNDS, vec![candidate("", |k| probe::handed(slaves[k], &null, tick()))]);
    row("handed in and back, nothing done", [Some(figures[0]), None], [None, None]);
}

/// Prints the table.
pub fn measure() {
    let hunting = Slave::hunting(0, 2016, 7, 200);
    let locked = |k: usize| Slave { phase: LOCKED, od: -51, power: 300, next: 100 + 7 * k as u16, ..hunting };
    let due = |k: usize| Slave { next: 0, pending: 1, sts: 9_500_000 + k as u32, md: 700_000, ..locked(k) };
    let of_a110 = |slave: Slave| Slave { profile: 1, n: 624, index: if slave.phase == LOCKED { 19 } else { UNKNOWN }, ..slave };

    println!("\n| Call | Proved, by value | Rust, by value | Ratio | Proved, in place | Rust, in place | Ratio |\n|---|---|---|---|---|---|---|");
    handed(hunting);
    Calls::new(|_| hunting, |_| notices::null()).measure("null packet, hunting", 0, 0);
    Calls::new(locked, |_| notices::null()).measure("null packet, locked", 0, 0);
    Calls::new(|k| Slave { n: 10_584, ..locked(k) }, |_| notices::null()).measure("null packet, locked, n = 10584", 0, 0);
    Calls::new(|k| of_a110(locked(k)), |_| notices::null()).measure("null packet, locked, profile 1", 0, 0);
    Calls::new(due, |_| notices::null()).measure("null packet on a mark", 0, 3);
    Calls::new(|k| of_a110(due(k)), |_| notices::null()).measure("null packet on a mark, profile 1", 0, 3);
    Calls::new(locked, |_| Vec::new()).measure("empty packet, locked", 0, 0);
    let r = &mut Random(1);
    let fields: Vec<Vec<u8>> = (0..INPUTS).map(|_| full_field(r)).collect();
    for a in [0, 163] {
        Calls::new(locked, |k| mip(2015 - locked(k).next, &fields[k][..a])).measure(&format!("notice, a = {a}"), 1, 0);
    }

    Calls::new(locked, |_| notices::null()).measure_within("null packet, locked, with a limit", 64, 0);
    for (a, notice) in [(0, 1), (163, 3)] {
        Calls::new(locked, |k| mip(2015 - locked(k).next, &fields[k][..a])).measure_within(
            &format!("notice, a = {a}, with a limit of 64"),
            64,
            notice,
        );
    }

    let slaves: Vec<Slave> = (0..INPUTS).map(|k| of_a110(locked(k))).collect();
    let numbers: Vec<Numbers> =
        (0..INPUTS).map(|k| Numbers { pointer: 623 - slaves[k].next, sts: 9_500_000, md: 700_000, od: -51, index: (k % 20) as u8 }).collect();
    let null = notices::null();
    for (slave, numbers) in slaves.iter().zip(&numbers) {
        let ours = Step::from(vikombare::numbers((*slave).into(), &null, tick(), numbers));
        assert!(ours.reply.notice == 1 && ours == numbers_by_value(*slave, &null, tick(), numbers), "{slave:?} {ours:?}");
    }
    let c_slaves = of_c(&slaves);
    let figures = best(
        ROUNDS,
        vec![
            candidate("", |k| vikombare::numbers(c_slaves[k], &null, tick(), &numbers[k])),
            candidate("", |k| numbers_by_value(slaves[k], &null, tick(), &numbers[k])),
            candidate("", |k| vikombare::numbers_lent(black_box(&mut c_slaves[k].clone()), &null, tick(), &numbers[k])),
            candidate("", |k| numbers_in_place(black_box(&mut slaves[k].clone()), &null, tick(), &numbers[k])),
        ],
    );
    row("numbers notice", [Some(figures[0]), Some(figures[1])], [Some(figures[2]), Some(figures[3])]);

    let dues: Vec<Slave> = (0..INPUTS).map(due).collect();
    for (what, slaves) in [("gap", dues.clone()), ("gap, profile 1", slaves)] {
        let k_of = |k: usize| (1_000 * k) as u16;
        for (k, slave) in slaves.iter().enumerate() {
            assert!(Change::from(vikombare::gap((*slave).into(), k_of(k))) == gap_by_value(*slave, k_of(k)));
        }
        let c_slaves = of_c(&slaves);
        let mut moving: Vec<Slave> = slaves.clone();
        let mut c_moving = c_slaves.clone();
        let figures = best(
            ROUNDS,
            vec![
                candidate("", |k| vikombare::gap(c_slaves[k], k_of(k))),
                candidate("", |k| gap_by_value(slaves[k], k_of(k))),
                candidate("", move |k| vikombare::gap_lent(&mut c_moving[k], k_of(k))),
                candidate("", move |k| gap_in_place(&mut moving[k], k_of(k))),
            ],
        );
        row(what, [Some(figures[0]), Some(figures[1])], [Some(figures[2]), Some(figures[3])]);
    }
    saves(&dues);

    let per_packet = [("a thousand", 1_000, ROUNDS), ("ten million", 10_000_000, 1)].map(|(many, packets, rounds)| {
        let by_values = vec![
            stream(packets, |slave, packet, tick| *slave = probe::packet(*slave, packet, tick).slave),
            stream(packets, |slave: &mut Slave, packet, tick| *slave = by_value(*slave, packet, tick).slave),
        ];
        let profile = black_box(0);
        let in_places = vec![stream(packets, |slave, packet, tick| vikombare::packet(slave, packet, profile, tick)), stream(packets, in_place)];
        let (by_value, in_place) = (best(rounds, by_values), best(rounds, in_places));
        row(&format!("stream of {many} packets, each"), [0, 1].map(|k| Some(by_value[k])), [0, 1].map(|k| Some(in_place[k])));
        [by_value[0], in_place[0]]
    });
    let [short, long] = per_packet;
    println!(
        "\nA packet of the long stream costs {:.2} times one of the short stream by value, {:.2} times in place (proved).",
        long[0] / short[0],
        long[1] / short[1]
    );
}

/// Save and resume of slaves with a notice that waits.
fn saves(slaves: &[Slave]) {
    let blocks: Vec<[u8; saved::BLOCK]> = slaves
        .iter()
        .map(|slave| {
            let mut ours = [0; saved::BLOCK];
            assert!(vikombare::save((*slave).into(), &mut ours) == 0, "{slave:?}");
            for call in [save, nibbles_save] {
                let mut plain = [0; saved::BLOCK];
                assert!(call(slave, &mut plain).is_ok() && plain == ours, "{slave:?}");
            }
            ours
        })
        .collect();
    let ours = |k: usize| {
        let Slave { profile, n, site, tad, .. } = slaves[k];
        vikombare::resume(&blocks[k], profile, n, site, tad)
    };
    for (k, slave) in slaves.iter().enumerate() {
        let resumed = [Change::from(ours(k)), resume(&blocks[k], slave), nibbles_resume(&blocks[k], slave)];
        assert!(resumed == [Change { slave: *slave, number: 0 }; 3], "{slave:?}");
    }
    let c_slaves = of_c(slaves);
    let [mut first, mut second, mut third] = [[0; saved::BLOCK]; 3];
    let saved = vec![
        candidate("", |k| vikombare::save(c_slaves[k], black_box(&mut first))),
        candidate("", |k| save(&slaves[k], black_box(&mut second))),
        candidate("", |k| nibbles_save(&slaves[k], black_box(&mut third))),
    ];
    let resumed =
        vec![candidate("", ours), candidate("", |k| resume(&blocks[k], &slaves[k])), candidate("", |k| nibbles_resume(&blocks[k], &slaves[k]))];
    for (what, candidates) in [("save", saved), ("resume", resumed)] {
        let figures = best(ROUNDS, candidates);
        row(&format!("{what}, byte table"), [Some(figures[0]), Some(figures[1])], [None; 2]);
        row(&format!("{what}, the same nibble tables"), [Some(figures[0]), Some(figures[2])], [None; 2]);
    }
}
