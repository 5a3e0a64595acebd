//! The program insert: from settings and records to the packets that it sends and the lines on standard error. From document 02's Paper 1, over the
//! inserter.

use super::faults::{rule, Fault::*};
use super::inserter::{is_sent, Inserter, Settings, NO_NULL_PACKET, ZEROS};

/// The settings' numbers: n (2), periodic flag (1), reserved bits (2), MD (4), TPS (4), length of the addressing field (1). The field follows.
pub const NUMBERS: usize = 14;

/// A record: STS (4) and packet (188).
pub const RECORD: usize = 192;

/// What was printed so far.
#[derive(Clone, Debug, Default, PartialEq)]
pub struct Printed {
    /// The packets that are sent.
    pub output: Vec<u8>,
    /// Lines.
    pub errors: Vec<u8>,
    /// The exit status.
    pub status: Option<i32>,
}

impl Printed {
    fn line(&mut self, line: String) {
        self.errors.extend(line.bytes());
        self.errors.extend(rule(&b"\n"[..], LinesUnbroken, b" "));
    }
}

/// The program behind its settings, after some records.
pub struct Insertion {
    inserter: Inserter,
    records: u64,
    mega_frames: u64,
    ended: u64,
    refused: bool,
}

/// How many bytes of the input are settings; all of it where it ends within them.
pub fn settings_length(input: &[u8]) -> usize {
    let whole = input.get(NUMBERS - 1).map_or(NUMBERS, |a| NUMBERS + usize::from(*a));
    whole.min(input.len())
}

/// The settings, whole or cut short: none where they are refused.
pub fn open(settings: &[u8], printed: &mut Printed) -> Option<Insertion> {
    let mut inserter = ZEROS;
    let number = begin(&mut inserter, settings);
    let short = settings.len() < NUMBERS || settings.len() < NUMBERS + usize::from(settings[NUMBERS - 1]);
    let silent = rule(rule(false, RefusedSettingsSilent, true), ShortSettingsSilent, short);
    if number != 0 && !silent {
        printed.line(format!("{}refused {number}", rule("", SettingsAsRecord, "record 0 ")));
    }
    printed.status = Some(rule(i32::from(number != 0), RefusedSettingsEndWith0, 0));
    let records = rule(0, RecordFrom1, 1);
    let mega_frames = rule(0, MegaFrameFrom1, 1);
    let opened = Insertion { inserter, records, mega_frames, ended: 0, refused: false };
    (number == 0 || rule(false, RefusedSettingsSend, true)).then_some(opened)
}

/// Starts the inserter, or gives the number that the settings are refused with.
fn begin(inserter: &mut Inserter, settings: &[u8]) -> u8 {
    let padded = [settings, &[0]].concat();
    let settings = rule(settings, SettingsCutPadded, if settings.len() < NUMBERS { &padded } else { settings });
    let &[n0, n1, periodic, r0, r1, m0, m1, m2, m3, t0, t1, t2, t3, a, ref field @ ..] = settings else {
        return 15;
    };
    let field_ends = field.len() < usize::from(a) && rule(true, ShortFieldTaken, false);
    let (md, tps) = rule(([m0, m1, m2, m3], [t0, t1, t2, t3]), TpsBeforeMd, ([t0, t1, t2, t3], [m0, m1, m2, m3]));
    let [md, tps] = [md, tps].map(u32::from_be_bytes);
    let (n, reserved) = (u16::from_be_bytes([n0, n1]), u16::from_be_bytes([r0, r1]));
    let number = inserter.start(Settings { n, periodic, reserved, md, tps }, field);
    let too_long = rule(false, LongFieldUnread, a > 163);
    if field_ends {
        *inserter = ZEROS;
        return if too_long { 8 } else { rule(15, ShortFieldJudged, if number == 0 { 15 } else { number }) };
    }
    number
}

impl Insertion {
    /// A record, whole or cut short.
    #[inline]
    pub fn record(&mut self, record: &[u8], printed: &mut Printed) {
        if rule(false, RefusedStops, self.refused) {
            return;
        }
        let &[s0, s1, s2, s3, ref packet @ ..] = record else {
            if !rule(false, CutInStsIgnored, true) {
                self.cut(&[], printed);
            }
            return;
        };
        if record.len() < RECORD {
            return self.cut(packet, printed);
        }
        let (sts, packet) = rule(([s0, s1, s2, s3], packet), StsBehindPacket, (record[188..].try_into().unwrap(), &record[..188]));
        let sts = rule(u32::from_be_bytes(sts), StsLittleEndian, u32::from_le_bytes(sts));
        let at = printed.output.len();
        printed.output.extend_from_slice(packet);
        let number = self.inserter.insert(&mut printed.output[at..], sts);
        let sent = rule(is_sent(number), EndUnsent, number == 0);
        if !rule(sent, RefusedSent, true) {
            printed.output.truncate(at);
        }
        if number == NO_NULL_PACKET {
            self.lacking(printed);
        } else if number != 0 {
            self.refusal(number, printed);
        }
        self.records += 1;
        if sent && self.inserter.label == 0 {
            self.mega_frames += 1;
        }
    }

    /// A record that ends behind its STS or within it.
    fn cut(&mut self, packet: &[u8], printed: &mut Printed) {
        if rule(false, CutIgnored, true) {
            return;
        }
        let by_sync = match packet {
            [] | [0x47, ..] => 1,
            _ => 2,
        };
        if rule(false, CutSent, true) {
            printed.output.extend_from_slice(packet);
        }
        self.refused = rule(self.refused, CutAlwaysNamed, false);
        self.refusal(rule(1, CutBySync, by_sync), printed);
    }

    /// The first refusal is named.
    fn refusal(&mut self, number: u8, printed: &mut Printed) {
        let record = rule(self.records, LabelAsRecord, self.inserter.label.into());
        if rule(!self.refused, EveryRefusalNamed, true) && rule(true, NoRefusalNamed, false) {
            printed.line(format!("record {record} refused {number}"));
        }
        self.refused = true;
    }

    /// A mega-frame without a null packet, of which this was the last.
    fn lacking(&mut self, printed: &mut Printed) {
        let mega_frame = rule(self.mega_frames, MegaFrameOfRecords, self.records / u64::from(self.inserter.settings.n));
        let mega_frame = rule(mega_frame, LackingCounted, self.ended);
        if rule(true, LackingSilent, false) && rule(true, LackingOnce, self.ended == 0) {
            printed.line(rule(
                format!("mega-frame {mega_frame} without a null packet"),
                LackingAsRefusal,
                format!("record {} refused 21", self.records),
            ));
        }
        self.ended += 1;
    }
}

/// What the program prints of a whole input.
pub fn printed(input: &[u8]) -> Printed {
    let mut printed = Printed::default();
    let (settings, records) = input.split_at(settings_length(input));
    if let Some(mut insertion) = open(settings, &mut printed) {
        for record in records.chunks(RECORD) {
            insertion.record(record, &mut printed);
        }
    }
    printed
}
