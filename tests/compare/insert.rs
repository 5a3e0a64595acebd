//! What the program insert sends and says compared, byte for byte, over random inputs in pipes of many sizes.

use super::comparison::{Cases, Compared, Comparison, Difference, Subject};
use super::pipes::{self, Delivery};
use super::shrink::{self, smaller};
use crate::inputs::inserters;
use crate::inputs::notices::{self, WRONG_FORMS};
use crate::inputs::random::{Hex, Random};
use crate::other::basics::DVB_SECOND;
use crate::other::faults::{self, Fault};
use crate::other::insert::{self, settings_length, Printed, NUMBERS, RECORD};
use crate::other::inserter::Settings;
use std::process::Output;

const PROGRAM: &str = "target/bin/insert";

/// Where the shortest input found is kept that shows a difference with no fault seeded.
const KEPT: &str = "target/tests/insert_difference.bin";

pub struct Inputs;

impl Subject for Inputs {
    const NAME: &'static str = "the program insert";
    const COUNTED: &'static str = "inputs";
    const COUNT: u64 = 1_500;
    // an input takes a process and its pipes
    const MOST: u64 = 20_000;
    const REQUIRED: fn() -> Cases = required;
    const FAULTS: &'static [&'static [Fault]] = &[faults::INSERT];
    // a record with all its repetitions is one
    const ITEMS: &'static str = "records";
    const LONGEST: usize = 3;

    fn random(comparison: &mut Comparison<Self>) -> Compared {
        comparison.random_input()
    }

    fn sweeps(comparison: &mut Comparison<Self>) -> Compared {
        comparison.sweep_cuts()
    }
}

// ---- Inputs

/// A record so many times; one that is cut short is the last.
#[derive(Clone, Debug, PartialEq)]
struct Row {
    record: Hex,
    times: u32,
}

impl Row {
    fn new(sts: u32, packet: &[u8], times: u32) -> Row {
        Row { record: Hex([&sts.to_be_bytes()[..], packet].concat()), times }
    }
}

fn bytes(settings: &[u8], rows: &[Row]) -> Vec<u8> {
    let mut bytes = settings.to_vec();
    for row in rows {
        for _ in 0..row.times {
            bytes.extend(&row.record.0);
        }
    }
    bytes
}

/// Settings as the program reads them, most often ones that a start takes and whole.
fn settings(r: &mut Random) -> Vec<u8> {
    let mut settings = inserters::settings(r);
    let mut field = inserters::field(r);
    if !r.one_in(4) {
        settings.n = 2016;
    }
    let odd = r.one_in(6);
    for _ in 0..if odd { r.pick(&[1, 1, 2]) } else { 0 } {
        match r.below(6) {
            part @ 0..=3 => settings = inserters::change(r, settings, part),
            4 => {
                let kind = r.below(WRONG_FORMS.len());
                field = notices::wrong_field(r, 7, kind);
            }
            _ => {
                let length = r.pick(&[164, 165, 200, 255]);
                field = notices::field_of_length(r, 7, length).unwrap();
            }
        }
    }
    let Settings { n, periodic, reserved, md, tps } = settings;
    let numbers = [&n.to_be_bytes()[..], &[periodic], &reserved.to_be_bytes(), &md.to_be_bytes(), &tps.to_be_bytes()].concat();
    let mut bytes = [&numbers[..], &[field.len() as u8], &field].concat();
    if r.one_in(10) {
        let length = if r.one_in(2) { r.below(NUMBERS + 1) } else { r.below(bytes.len()) };
        bytes.truncate(if r.one_in(6) { bytes.len() - 1 } else { length.min(bytes.len()) });
    }
    bytes
}

/// An input: some records, or mega-frames with null packets and without, the last record perhaps cut short.
fn input(r: &mut Random) -> (Vec<u8>, Vec<Row>) {
    let settings = settings(r);
    if settings.len() < NUMBERS || settings.len() < NUMBERS + usize::from(settings[NUMBERS - 1]) {
        return (settings, Vec::new());
    }
    // records that are all sent, or any
    let sound = r.one_in(2);
    let mut rows = Vec::new();
    let mut row = |r: &mut Random, pid: u16, times: u32| {
        let (mut packet, mut sts) = (if pid == ANY { inserters::packet(r) } else { inserters::packet_of_pid(r, pid) }, inserters::sts(r));
        // A packet of another length shifts every record after it.
        if sound || !r.one_in(40) {
            packet.resize(188, 0);
        }
        if sound {
            packet[0] = 0x47;
            sts %= DVB_SECOND;
        }
        rows.push(Row::new(sts, &packet, times));
    };
    if r.one_in(6) {
        let n = u32::from(u16::from_be_bytes([settings[0], settings[1]])).clamp(4, 10_584);
        for _ in 0..1 + r.below(4) {
            let before = r.pick(&[0, 1, n - 2, n - 1, r.0 as u32 % n]);
            let with_null = r.one_in(2);
            row(r, 0x0100, before);
            row(r, if with_null { 0x1FFF } else { 0x0101 }, 1);
            if r.one_in(4) {
                row(r, ANY, 1);
            }
            row(r, 0x0200, n - 1 - before);
        }
        if r.one_in(2) {
            row(r, 0x1FFF, 1);
        }
    } else {
        for _ in 0..r.pick(&[0, 1, 2, 20, 100]) {
            let times = if r.one_in(20) { 1 + r.below(20) as u32 } else { 1 };
            row(r, ANY, times);
        }
    }
    rows.retain(|row| row.times > 0);
    if r.one_in(3) {
        let cut = r.pick(&[1, 3, 4, 5, 191, 1 + r.0 as usize % 191]);
        let first = r.pick(&[0x47, 0x47, 0x46]);
        let record = Hex([&[0, 0, 0, 5, first][..], &r.bytes(187)].concat()[..cut].to_vec());
        rows.push(Row { record, times: 1 });
    }
    (settings, rows)
}

/// Stands for any PID.
const ANY: u16 = 0xFFFF;

// ---- Comparing

const INSERT: &str = "program insert";

/// What the program prints, and how it ends.
fn printed(input: &[u8], how: Delivery, r: &mut Random) -> Printed {
    let Output { status, stdout, stderr } = pipes::printed(PROGRAM, input, how, r);
    Printed { output: stdout, errors: stderr, status: status.code() }
}

/// Counts what an input and its lines have.
fn kinds(input: &[u8], printed: &Printed, mut saw: impl FnMut(&'static str, i64)) {
    let text = String::from_utf8_lossy(&printed.errors);
    let settings = settings_length(input);
    let records = input.len() - settings;
    if let Some(number) = text.strip_prefix("refused ") {
        let whole = settings >= NUMBERS && settings == NUMBERS + usize::from(input[NUMBERS - 1]);
        if settings < NUMBERS {
            saw("settings cut to bytes", settings as i64);
        } else if !whole {
            saw("field cut short, of at most 163 bytes (0), of more (1)", i64::from(input[NUMBERS - 1] > 163));
        } else {
            saw("settings refused with", number.trim_end().parse().unwrap_or(0));
            saw("settings refused, records behind them", i64::from(records > 0));
        }
        return;
    }
    let (sent, cut) = (printed.output.len() / 188, records % RECORD);
    let whole = records / RECORD;
    saw("records refused: none (0), one (1), more (2)", (whole - sent.min(whole)).min(2) as i64);
    saw("cut to bytes", cut as i64);
    if cut > 0 {
        saw("cut behind records all sent (0), some refused (1)", i64::from(sent < whole));
    }
    saw("packets sent: none (0), some (1), more than a mega-frame (2)", if sent > 2016 { 2 } else { i64::from(sent > 0) });
    saw("notices sent: none (0), one (1), more (2)", printed.output.chunks(188).filter(|p| p[1..3] == [0x60, 0x15]).count().min(2) as i64);
    let mut lacking = 0;
    for line in text.lines() {
        match line.split(' ').collect::<Vec<_>>()[..] {
            ["record", _, "refused", number] => saw("record refused with", number.parse().unwrap_or(0)),
            ["mega-frame", number, ..] => {
                lacking += 1;
                saw("mega-frame without a null packet", number.parse().unwrap_or(-1));
            }
            _ => {}
        }
    }
    saw("mega-frames without a null packet", lacking);
}

impl Comparison<Inputs> {
    fn random_input(&mut self) -> Compared {
        let r = &mut self.random;
        let (settings, rows) = input(r);
        let how = pipes::delivery(r, settings.len() + rows.iter().map(|row| row.record.0.len() * row.times as usize).sum::<usize>());
        self.input(&settings, &rows, how)
    }

    /// Settings cut to every length, without an addressing field, with one and with one that is too long; and a record cut to every length, behind one
    /// that is sent and behind one that is refused.
    fn sweep_cuts(&mut self) -> Compared {
        for a in [0, 7, 164] {
            let field = notices::field_of_length(&mut self.random, 7, a).unwrap();
            let numbers = [0x07, 0xE0, 1, 0x7F, 0xFF, 0, 0x0A, 0xAE, 0x60, 0x81, 0x16, 0, 0, a as u8];
            let settings = [&numbers[..], &field].concat();
            for length in 0..=settings.len() {
                self.input(&settings[..length], &[], Delivery::Pieces(1 << 20))?;
            }
            for length in 0..if a < 164 { RECORD } else { 0 } {
                let cut = Row { record: Hex(self.random.bytes(length)), times: 1 };
                for sts in [5, DVB_SECOND] {
                    let before = Row::new(sts, &notices::null(), 1);
                    self.input(&settings, &[before, cut.clone()], Delivery::Pieces(1 << 20))?;
                }
            }
        }
        Ok(())
    }

    fn input(&mut self, settings: &[u8], rows: &[Row], how: Delivery) -> Compared {
        self.calls += 1;
        let input = bytes(settings, rows);
        let (ours, other) = (printed(&input, how, &mut self.random), insert::printed(&input));
        if ours != other {
            return Err(self.shortened_input(settings, rows, how));
        }
        kinds(&input, &ours, |what, value| self.saw(INSERT, what, value));
        Ok(())
    }

    /// The shortest input found, by leaving records out and joining them, on which the program and the other implementation still differ.
    fn shortened_input(&self, settings: &[u8], rows: &[Row], how: Delivery) -> Difference {
        let both = |rows: &[Row]| {
            let input = bytes(settings, rows);
            [printed(&input, how, &mut Random(1)), insert::printed(&input)]
        };
        let differ = |rows: &[Row]| {
            let [ours, other] = both(rows);
            (ours != other).then_some(rows.len())
        };
        let shortest = shrink::shortest(rows, differ, joined, simpler);
        let [ours, other] = both(&shortest);
        let mut text = format!("seed {} input {}, {how:?}; the shortest found, settings {:?}:", self.seed, self.calls, Hex(settings.to_vec()));
        for (number, Row { record, times }) in (1..).zip(&shortest) {
            text += &format!("\n  {number}. {times} times {record:?}");
        }
        if !self.seeded {
            std::fs::write(KEPT, bytes(settings, &shortest)).expect("the input is kept");
            text += &format!("\n  it is {KEPT}");
        }
        for (whose, Printed { output, errors, status }) in [("ours", &ours), ("other", &other)] {
            let last = Hex(output[output.len().saturating_sub(188)..].to_vec());
            text += &format!(
                "\n{whose}: {} bytes sent, of which the last are {last:?}, status {status:?}\n{}",
                output.len(),
                String::from_utf8_lossy(errors)
            );
        }
        Difference { text, whole: rows.len(), shortest: shortest.len(), again: ours != other }
    }
}

// ---- Shortening

/// One row for two: the record of one of them, or one that is sent as it comes, as often as both together.
fn joined(one: &Row, another: &Row) -> Vec<Row> {
    if one.record.0.len() < RECORD || another.record.0.len() < RECORD {
        return Vec::new();
    }
    let times = one.times + another.times;
    [one.record.clone(), another.record.clone(), Row::new(0, &[0x47; 188], 1).record].map(|record| Row { record, times }).to_vec()
}

/// Fewer of the record, and simpler ones.
fn simpler(row: &Row) -> Vec<Row> {
    let fewer = smaller(row.times.into()).into_iter().filter(|times| *times > 0).map(|times| Row { times: times as u32, ..row.clone() });
    let simple = [Row::new(0, &notices::null(), row.times), Row::new(0, &[0x47; 188], row.times)];
    let at = simple.iter().position(|simple| simple == row).unwrap_or(if row.record.0.len() < RECORD { 0 } else { simple.len() });
    fewer.chain(simple[..at].to_vec()).collect()
}

// ---- What must be reached

fn required() -> Cases {
    vec![
        (INSERT, "settings cut to bytes", (0..NUMBERS as i64).collect()),
        (INSERT, "field cut short, of at most 163 bytes (0), of more (1)", vec![0, 1]),
        (INSERT, "settings refused with", vec![15, 19, 8, 10, 11]),
        (INSERT, "settings refused, records behind them", vec![0, 1]),
        (INSERT, "record refused with", vec![1, 2, 11]),
        (INSERT, "records refused: none (0), one (1), more (2)", vec![0, 1, 2]),
        (INSERT, "cut to bytes", (0..RECORD as i64).collect()),
        (INSERT, "cut behind records all sent (0), some refused (1)", vec![0, 1]),
        (INSERT, "packets sent: none (0), some (1), more than a mega-frame (2)", vec![0, 1, 2]),
        (INSERT, "notices sent: none (0), one (1), more (2)", vec![0, 1, 2]),
        (INSERT, "mega-frame without a null packet", vec![0, 1, 2, 3]),
        (INSERT, "mega-frames without a null packet", vec![0, 1, 2, 3]),
    ]
}
