//! Measuring: plain check registers, and tables of nanoseconds a call and ratios, as docs/SPEED.md has them.

use crate::inputs::random::Random;
use std::hint::black_box;
use std::time::Instant;

/// Inputs of each kind, taken in turn, and calls in one round.
pub const INPUTS: usize = 64;
pub const CALLS: usize = 512;
pub const ROUNDS: usize = 1_000;

/// A field of 163 bytes: ten entries with a time offset, a frequency offset and a power, and one with none.
pub fn full_field(r: &mut Random) -> Vec<u8> {
    let mut field = Vec::new();
    for _ in 0..10 {
        let b = r.bytes(7);
        field.extend([0, r.pick(&[0, 7, 8, 9]), 13, 0, 4, b[0], b[1], 1, 5, b[2], b[3], b[4], 2, 4, b[5], b[6]]);
    }
    field.extend([0, 7, 0]);
    field
}

// ---- Check registers for plain readers of a notice

/// The register after as many bits of zero.
const fn after_zeros(mut z: u32, bits: usize) -> u32 {
    let mut k = 0;
    while k < bits {
        z = z << 1 ^ (z >> 31) * 0x04C1_1DB7;
        k += 1;
    }
    z
}

/// Each nibble of eight bytes by its place from the right, after these bytes: the proved code's own tables.
static NIBBLES: [[u32; 16]; 16] = {
    let mut table = [[0; 16]; 16];
    let mut k = 0;
    while k < 256 {
        let (place, nibble) = (k / 16, k % 16);
        table[place][nibble] = after_zeros((nibble as u32) << (4 * (place % 8)), 32 + 32 * (place / 8));
        k += 1;
    }
    table
};

/// Each byte of eight by its place from the right, after these bytes.
static BYTES: [[u32; 256]; 8] = {
    let mut table = [[0; 256]; 8];
    let mut k = 0;
    while k < 2048 {
        table[k / 256][k % 256] = after_zeros((k % 256) as u32 * (1 << 24), 8 + 8 * (k / 256));
        k += 1;
    }
    table
};

/// Eight bytes a turn: the sum of what the tables have for each part of the eight, with the register added to their first four.
#[inline(always)]
fn by_eights(bytes: &[u8], sum_of_eight: impl Fn(u32, u32) -> u32, byte: impl Fn(u8) -> u32) -> u32 {
    let mut eights = bytes.chunks_exact(8);
    let mut z = u32::MAX;
    for s in &mut eights {
        z = sum_of_eight(z ^ u32::from_be_bytes([s[0], s[1], s[2], s[3]]), u32::from_be_bytes([s[4], s[5], s[6], s[7]]));
    }
    eights.remainder().iter().fold(z, |z, b| z << 8 ^ byte((z >> 24) as u8 ^ b))
}

#[inline(never)]
pub fn register_by_nibbles(bytes: &[u8]) -> u32 {
    let add = |sum, four: u32, tables: &[[u32; 16]]| (0..8).fold(sum, |sum: u32, j| sum ^ tables[j][(four >> (4 * j) & 15) as usize]);
    // first what does not wait for the register
    let sum_of_eight = |first, second| add(add(0, second, &NIBBLES[..8]), first, &NIBBLES[8..]);
    by_eights(bytes, sum_of_eight, |b| NIBBLES[1][usize::from(b >> 4)] ^ NIBBLES[0][usize::from(b & 15)])
}

#[inline(never)]
pub fn register_by_bytes(bytes: &[u8]) -> u32 {
    let add = |sum, four: u32, tables: &[[u32; 256]]| (0..4).fold(sum, |sum: u32, j| sum ^ tables[j][(four >> (8 * j)) as u8 as usize]);
    let sum_of_eight = |first, second| add(add(0, second, &BYTES[..4]), first, &BYTES[4..]);
    by_eights(bytes, sum_of_eight, |b| BYTES[0][usize::from(b)])
}

// ---- Measuring

/// A candidate: its name, and one round of calls, in nanoseconds a call.
pub type Candidate<'a> = (&'a str, Box<dyn FnMut() -> f64 + 'a>);

/// A round over the inputs in turn. The result is looked at where the call left it: copying it would be measured too.
pub fn candidate<'a, T>(name: &'a str, mut call: impl FnMut(usize) -> T + 'a) -> Candidate<'a> {
    let round = move || {
        let start = Instant::now();
        for k in 0..CALLS {
            black_box(&call(black_box(k % INPUTS)));
        }
        start.elapsed().as_nanos() as f64 / CALLS as f64
    };
    (name, Box::new(round))
}

/// The best round of each candidate, in nanoseconds a call.
pub fn best(rounds: usize, mut candidates: Vec<Candidate>) -> Vec<f64> {
    let mut best = vec![f64::INFINITY; candidates.len()];
    for _ in 0..rounds {
        for (best, (_, round)) in best.iter_mut().zip(&mut candidates) {
            *best = best.min(round());
        }
    }
    best
}

/// One call's rows: the first candidate is the proved code, the others are what it is held to.
pub fn table(what: &str, candidates: Vec<Candidate>) {
    let names: Vec<&str> = candidates.iter().map(|(name, _)| *name).collect();
    let best = best(ROUNDS, candidates);
    for (k, (plain, name)) in best.iter().zip(names).enumerate().skip(1) {
        let (what, proved) = if k == 1 { (what, Some(best[0])) } else { ("", None) };
        row(&[what, &figure(proved), &figure(Some(*plain)), &ratio(Some(best[0]), Some(*plain)), name]);
    }
}

/// A row of a table; an empty cell is one space.
pub fn row(cells: &[&str]) {
    println!("|{}", cells.iter().map(|cell| if cell.is_empty() { String::from(" |") } else { format!(" {cell} |") }).collect::<String>());
}

/// Nanoseconds, where there are any.
pub fn figure(nanoseconds: Option<f64>) -> String {
    nanoseconds.map_or(String::new(), |nanoseconds| format!("{nanoseconds:.1}"))
}

/// The proved code's nanoseconds by the plain one's, where there are both.
pub fn ratio(proved: Option<f64>, plain: Option<f64>) -> String {
    proved.zip(plain).map_or(String::new(), |(proved, plain)| format!("{:.2}", proved / plain))
}
