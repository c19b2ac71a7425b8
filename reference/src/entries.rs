//! Signed entries of 64 bits: 8 bytes each, lowest first.

pub const ENTRY: usize = 8;

/// Writes as many entries as there are; `memory` is just as long as they are.
pub fn write_entries(memory: &mut [u8], entries: &[i64]) {
    for (bytes, entry) in memory.as_chunks_mut().0.iter_mut().zip(entries) {
        *bytes = entry.to_le_bytes();
    }
}

pub fn read_entries(memory: &[u8]) -> impl Iterator<Item = i64> + '_ {
    let entries = memory.as_chunks::<ENTRY>().0.iter();
    entries.map(|bytes| i64::from_le_bytes(*bytes))
}
