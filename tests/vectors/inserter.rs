//! An inserter's calls: document 02, Paper 1.

use super::basics::private;
use super::{hex, notice, null, numbered, Packet, Vectors};
use crate::inputs::calls::Lent;
use crate::inputs::inserters::Call;
use crate::inputs::random::Hex;
use crate::inputs::streams::offset_entry;
use crate::other::basics::FULL;
use crate::other::inserter::{is_sent, Inserter, Settings, NO_NULL_PACKET, ZEROS};

pub fn all(v: &mut Vectors) {
    starts(v);
    mega_frames(v);
    counters(v);
    fields(v);
    headers(v);
    refusals(v);
    unsound(v);
}

/// What stands in the notice that vectors call plain, but for its pointer and STS.
const PLAIN: Settings = Settings { n: 2016, periodic: 0, reserved: 0, md: 700_000, tps: 0x8116_0000 };

/// Every number at its highest.
const HIGHEST: Settings = Settings { n: 10_584, periodic: 1, reserved: 32_767, md: 9_999_999, tps: 0xFFFF_FFFF };

/// A packet that passes.
fn passing() -> Packet {
    Packet { text: String::from("packet of PID 0x0100"), bytes: [&[0x47, 0x01, 0x00, 0x10][..], &[0x5A; 184]].concat() }
}

/// Another adapter's notice.
fn foreign() -> Packet {
    notice(7, 1, 2, &[])
}

/// The field of the longest section.
fn longest() -> Vec<u8> {
    private(163, [0; 4])[21..184].to_vec()
}

fn starts(v: &mut Vectors) {
    let short = offset_entry(7, -51);
    v.start_inserter("the plain settings", PLAIN, &[]);
    v.start_inserter("the lowest numbers", Settings { md: 0, tps: 0, ..PLAIN }, &[]);
    v.start_inserter("the highest numbers and the longest field", HIGHEST, &longest());
    v.start_inserter("a field of 7 bytes", Settings { n: 6048, ..PLAIN }, &short);
    v.start_inserter("refusal 15: n 624", Settings { n: 624, ..PLAIN }, &[]);
    v.start_inserter("n 0", Settings { n: 0, ..PLAIN }, &[]);
    v.start_inserter("n 10,583", Settings { n: 10_583, ..PLAIN }, &[]);
    v.start_inserter("refusal 19: flag 2", Settings { periodic: 2, ..PLAIN }, &short);
    v.start_inserter("refusal 19: reserved bits 32,768", Settings { reserved: 32_768, ..PLAIN }, &short);
    v.start_inserter("refusal 8: a field of 164", PLAIN, &[&[0, 7, 161, 3, 161][..], &[0; 159]].concat());
    v.start_inserter("refusal 10: a 2", PLAIN, &[0, 0]);
    v.start_inserter("refusal 11: MD 10,000,000", Settings { md: 10_000_000, ..PLAIN }, &short);
    let wrong = Settings { n: 624, periodic: 2, md: 10_000_000, ..PLAIN };
    v.start_inserter("15 before 19, 8, 10 and 11", wrong, &[1; 200]);
    v.start_inserter("19 before 8, 10 and 11", Settings { n: 2016, ..wrong }, &[1; 200]);
    v.start_inserter("8 before 10 and 11", Settings { n: 2016, periodic: 1, ..wrong }, &[1; 200]);
    v.start_inserter("10 before 11", Settings { n: 2016, periodic: 1, ..wrong }, &[1; 163]);
}

/// Five mega-frames of 2016: the notice on label 0, in place of another's notice, on label 2015, none, and on label 1008.
fn mega_frames(v: &mut Vectors) {
    let (null, passing, foreign) = (null(), passing(), foreign());
    v.start_inserter("five mega-frames", PLAIN, &[]);
    v.insert("first null packet on label 0: the plain notice", &null, 9_500_000);
    v.insert("a second null packet", &null, 9_500_000);
    v.insert("another's notice behind it", &foreign, 9_500_000);
    v.insert("a packet of another PID", &passing, 9_500_000);
    v.insert_row("up to the end", &passing, 9_500_000, 2_011);
    v.insert("the last, a null packet", &null, 9_500_000);
    v.insert("a packet of another PID on label 0", &passing, 5);
    v.insert("another's notice before the first null packet", &foreign, 5);
    v.insert("a null packet behind it", &null, 5);
    v.insert_row("null packets up to the end", &null, 5, 2_013);
    v.insert_row("up to label 2015", &passing, 9_999_999, 2_015);
    v.insert("first null packet on label 2015: no 21", &null, 9_999_999);
    v.insert_row("up to label 2015 again", &passing, 0, 2_015);
    v.insert("21: no null packet", &passing, 0);
    v.insert_row("up to label 1008", &passing, 0, 1_008);
    v.insert("the next counter but for the mega-frame without", &null, 0);
}

/// The counter from 15 to 0; and a mega-frame without a null packet, which keeps it.
fn counters(v: &mut Vectors) {
    let last = Inserter { settings: PLAIN, label: 2_014, placed: 0, continuity: 15, ..ZEROS };
    v.hand_inserter("two before the end, counter 15", last);
    v.insert("counter 15, pointer 1", &null(), 5);
    v.insert("the end of it", &passing(), 5);
    v.insert("counter 0 on the next label 0", &null(), 5);
    v.hand_inserter("one before the end, counter 15", Inserter { label: 2_015, ..last });
    v.insert("21 keeps counter 15", &passing(), 5);
    v.insert("counter 15 in the next mega-frame", &foreign(), 5);
}

/// Each kind of addressing field, and the numbers at their ends.
fn fields(v: &mut Vectors) {
    v.start_inserter("highest", HIGHEST, &longest());
    v.insert("the longest notice, n 10,584", &null(), 9_999_999);
    v.insert("behind the longest", &null(), 9_999_999);
    v.start_inserter("seven bytes", Settings { n: 6048, periodic: 1, ..PLAIN }, &offset_entry(7, -51));
    v.insert("a packet before it", &passing(), 123);
    v.insert("a field of 7, n 6048", &foreign(), 123);
    v.start_inserter("lowest", Settings { n: 3528, md: 0, tps: 0, reserved: 1, ..PLAIN }, &[]);
    v.insert("all else 0, n 3528", &null(), 0);
    let mut behind = Inserter { settings: PLAIN, label: 1_008, length: 7, field: [0xA5; FULL], ..ZEROS };
    behind.field[..7].copy_from_slice(&offset_entry(7, -51));
    v.hand_inserter("other bytes behind the field", behind);
    v.insert("they are not read", &null(), 5);
}

/// PIDs alone decide.
fn headers(v: &mut Vectors) {
    let open = Inserter { settings: PLAIN, label: 1_000, ..ZEROS };
    let shut = Inserter { placed: 1, ..open };
    let (null, foreign, passing) = (null(), foreign(), passing());
    let packets = [
        ("a null packet with the error indicator", null.with(&[(1, 0x9F)])),
        ("a null packet with every other bit of the header", null.with(&[(1, 0xFF), (3, 0xFF), (4, 0)])),
        ("PID 0x15 with the error indicator", foreign.with(&[(1, 0xE0)])),
        ("PID 0x15 and no other bit of the header", foreign.with(&[(1, 0x00), (3, 0x00)])),
        ("PID 0x14", foreign.with(&[(2, 0x14)])),
        ("PID 0x1F15", foreign.with(&[(1, 0x7F)])),
        ("PID 0xFF", null.with(&[(1, 0x00)])),
        ("PID 0x1FFE", null.with(&[(2, 0xFE)])),
        ("PID 0x100 with the error indicator", passing.with(&[(1, 0x81)])),
    ];
    for (which, inserter) in [("before the notice", open), ("behind the notice", shut)] {
        for (name, packet) in &packets {
            v.hand_inserter(which, inserter);
            v.insert(&format!("{name}, {which}"), packet, 5);
        }
    }
}

/// 1, 2 and 11, of every packet, in this order; each keeps the packet and the inserter, on the last label too.
fn refusals(v: &mut Vectors) {
    let open = Inserter { settings: PLAIN, label: 2_015, ..ZEROS };
    let shut = Inserter { placed: 1, ..open };
    for (which, inserter) in [("the last label", open), ("the last label behind the notice", shut)] {
        for (kind, packet) in [("null", null()), ("PID 0x15", foreign()), ("PID 0x100", passing())] {
            for (name, packet, sts) in [
                ("refusal 1: 187 bytes", packet.of_length(187), 5),
                ("refusal 2: 0x46", packet.with(&[(0, 0x46)]), 5),
                ("refusal 11: STS 10,000,000", packet, 10_000_000),
            ] {
                v.hand_inserter(which, inserter);
                v.insert(&format!("{name}, {kind}, {which}"), &packet, sts);
            }
        }
    }
    for (name, packet, sts) in [
        ("no bytes", null().of_length(0), 5),
        ("189 bytes", null().of_length(189), 5),
        ("two packets", null().of_length(376), 5),
        ("1 before 2 and 11", null().with(&[(0, 0x46)]).of_length(187), 10_000_000),
        ("2 before 11", null().with(&[(0, 0x46)]), 10_000_000),
        ("the highest STS", null(), 4_294_967_295),
    ] {
        v.hand_inserter("the last label", open);
        v.insert(name, &packet, sts);
    }
}

/// Inserters with a part out of range: 15 before 1, 2 and 11, and they are kept.
fn unsound(v: &mut Vectors) {
    let sound = Inserter { settings: PLAIN, label: 1, ..ZEROS };
    let mut cut = Inserter { length: 2, ..sound };
    cut.field[0] = 7;
    // a sound field, but for its length
    let whole = Inserter { length: 164, field: longest().try_into().unwrap(), ..sound };
    for (name, inserter) in [
        ("zeros", ZEROS),
        ("n 624", Inserter { settings: Settings { n: 624, ..PLAIN }, ..sound }),
        ("flag 2", Inserter { settings: Settings { periodic: 2, ..PLAIN }, ..sound }),
        ("reserved bits 32,768", Inserter { settings: Settings { reserved: 32_768, ..PLAIN }, ..sound }),
        ("MD 10,000,000", Inserter { settings: Settings { md: 10_000_000, ..PLAIN }, ..sound }),
        ("label 2016", Inserter { label: 2_016, ..sound }),
        ("2 for a notice put", Inserter { placed: 2, ..sound }),
        ("counter 16", Inserter { continuity: 16, ..sound }),
        ("a field of 164 bytes", whole),
        ("a field of wrong form", cut),
        ("a notice put before label 0", Inserter { label: 0, placed: 1, ..sound }),
    ] {
        v.hand_inserter(name, inserter);
        v.insert(&format!("15: {name}"), &null(), 5);
        v.hand_inserter(name, inserter);
        v.insert(&format!("15 before 1, 2 and 11: {name}"), &null().with(&[(0, 0x46)]).of_length(187), 10_000_000);
    }
}

impl Vectors {
    // ---- An inserter's calls

    /// In memory that holds other bytes. The line has what the inserter is besides zeros.
    fn start_inserter(&mut self, name: &str, settings: Settings, field: &[u8]) {
        let Settings { n, periodic, reserved, md, tps } = settings;
        let memory = Inserter {
            settings: Settings { n: 0xA5A5, periodic: 0xA5, reserved: 0xA5A5, md: 0xA5A5_A5A5, tps: 0xA5A5_A5A5 },
            label: 0xA5A5,
            placed: 0xA5,
            continuity: 0xA5,
            length: 0xA5,
            field: [0xA5; FULL],
        };
        let outcome = (self.insert_code)(&Call::Start(settings, Lent::alone(field.to_vec())), memory);
        let input =
            format!("start an inserter n {n} periodic {periodic} reserved {reserved} MD {md} TPS {tps:08X}, field of {:?}", Hex(field.to_vec()));
        let output = numbered(outcome.number, || String::from("started"));
        self.line(name, input, format!("{output}; {}", changes(&ZEROS, &outcome.inserter, "zeros")));
        (self.inserter, self.handed) = (outcome.inserter, None);
    }

    /// An inserter for the next call, described where its name is new.
    fn hand_inserter(&mut self, name: &str, inserter: Inserter) {
        if !self.described.iter().any(|described| described == name) {
            self.described.push(String::from(name));
            self.line(name, String::from("an inserter handed in"), changes(&ZEROS, &inserter, "zeros"));
        }
        self.inserter = inserter;
        self.handed = Some(String::from(name));
    }

    fn insert(&mut self, name: &str, packet: &Packet, sts: u32) {
        self.insert_row(name, packet, sts, 1);
    }

    /// The packet so many times. The line has the first time that is not sent as it came, or what all gave.
    fn insert_row(&mut self, name: &str, packet: &Packet, sts: u32, times: u32) {
        let call = Call::Insert { packet: Lent::alone(packet.bytes.clone()), sts, times };
        let before = self.inserter;
        let mut unlike = None;
        for time in 1..=times {
            let outcome = (self.insert_code)(&call, self.inserter);
            self.inserter = outcome.inserter;
            let bytes = outcome.room.map_or(Vec::new(), |room| room.0);
            let came = if bytes == packet.bytes { String::from("as it came") } else { format!("{:?}", Hex(bytes)) };
            let output = match outcome.number {
                NO_NULL_PACKET => format!("21, sent {came}"),
                number if is_sent(number) => format!("sent {came}"),
                number => format!("refused {number}, {came}"),
            };
            if output != "sent as it came" {
                unlike.get_or_insert(if times > 1 { format!("the {time}. time {output}") } else { output });
            }
        }
        let handed = self.handed.take().map_or(String::new(), |name| name + ": ");
        let often = if times > 1 { format!("{times} times ") } else { String::new() };
        let output = unlike.unwrap_or(String::from("sent as it came"));
        self.line(name, format!("{handed}{often}{} with STS {sts}", packet.text), format!("{output}; {}", changes(&before, &self.inserter, "kept")));
    }
}

/// The parts in which an inserter differs from another, or what it is said to be where it does not.
fn changes(before: &Inserter, after: &Inserter, same: &str) -> String {
    if after == before {
        return format!("inserter {same}");
    }
    let parts = |i: &Inserter| {
        let Settings { n, periodic, reserved, md, tps } = i.settings;
        let numbers = [("n", u32::from(n)), ("periodic", periodic.into()), ("reserved", reserved.into()), ("MD", md)];
        let progress = [("label", u32::from(i.label)), ("placed", i.placed.into()), ("continuity", i.continuity.into())];
        let text = |(part, value): &(&str, u32)| format!("{part} {value}");
        let field = format!("field {} of {:?}", i.length, Hex(i.field.to_vec()));
        let tps = format!("TPS {}", hex(&tps.to_be_bytes()));
        [numbers.iter().map(text).collect(), vec![tps], progress.iter().map(text).collect(), vec![field]].concat()
    };
    let changed: Vec<String> = parts(before).into_iter().zip(parts(after)).filter(|(before, after)| before != after).map(|(_, part)| part).collect();
    changed.join(" ")
}
