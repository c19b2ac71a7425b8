//! A digest of bytes (FNV-1a of 64 bits), by which two runs of a comparison are compared.

use std::fmt;

const START: u64 = 0xCBF2_9CE4_8422_2325;
const FACTOR: u64 = 0x0000_0100_0000_01B3;

pub struct Digest(u64);

impl Digest {
    /// Of no bytes.
    pub fn new() -> Digest {
        Digest(START)
    }

    pub fn add(&mut self, bytes: &[u8]) {
        let taken_in = |digest: u64, &byte: &u8| (digest ^ u64::from(byte)).wrapping_mul(FACTOR);
        self.0 = bytes.iter().fold(self.0, taken_in);
    }
}

impl Default for Digest {
    fn default() -> Digest {
        Digest::new()
    }
}

impl fmt::Display for Digest {
    fn fmt(&self, out: &mut fmt::Formatter) -> fmt::Result {
        write!(out, "{:016x}", self.0)
    }
}
