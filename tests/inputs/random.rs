//! A small deterministic generator, and bytes in hexadecimal.

use std::fmt;

/// Bytes that print in hexadecimal, a long run of one byte as the byte and its number.
#[derive(Clone, PartialEq)]
pub struct Hex(pub Vec<u8>);

impl fmt::Debug for Hex {
    fn fmt(&self, f: &mut fmt::Formatter) -> fmt::Result {
        write!(f, "{} bytes", self.0.len())?;
        let mut apart = " ";
        for run in self.0.chunk_by(|one, next| one == next) {
            if run.len() > 8 {
                write!(f, " {:02X} ×{}", run[0], run.len())?;
                apart = " ";
            } else {
                write!(f, "{apart}")?;
                run.iter().try_for_each(|byte| write!(f, "{byte:02X}"))?;
                apart = "";
            }
        }
        Ok(())
    }
}

pub fn hex(bytes: &[u8]) -> String {
    format!("{:?}", Hex(bytes.to_vec()))
}

/// splitmix64.
pub struct Random(pub u64);

impl Random {
    pub fn next(&mut self) -> u64 {
        self.0 = self.0.wrapping_add(0x9E37_79B9_7F4A_7C15);
        let z = (self.0 ^ (self.0 >> 30)).wrapping_mul(0xBF58_476D_1CE4_E5B9);
        let z = (z ^ (z >> 27)).wrapping_mul(0x94D0_49BB_1331_11EB);
        z ^ (z >> 31)
    }

    /// A number from 0 to n − 1.
    pub fn below(&mut self, n: usize) -> usize {
        (self.next() % n as u64) as usize
    }

    /// True once in n times.
    pub fn one_in(&mut self, n: usize) -> bool {
        self.below(n) == 0
    }

    pub fn pick<T: Copy>(&mut self, from: &[T]) -> T {
        from[self.below(from.len())]
    }

    /// x or a near neighbour.
    pub fn near(&mut self, x: i64) -> i64 {
        x + self.below(5) as i64 - 2
    }

    pub fn bytes(&mut self, count: usize) -> Vec<u8> {
        (0..count).map(|_| self.next() as u8).collect()
    }
}
