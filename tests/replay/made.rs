//! Bytes made by a formula, and one number for many bytes: those of crates/replay/src/made.rt.

/// Each byte is the middle of a number of the run that begins at the seed.
pub fn fill(bytes: &mut [u8], seed: u32) {
    let mut x = u64::from(seed) % (1 << 31);
    for byte in bytes {
        x = (x * 1_103_515_245 + 12_345) % (1 << 31);
        *byte = (x >> 16) as u8;
    }
}

pub fn filled(len: usize, seed: u32) -> Vec<u8> {
    let mut bytes = vec![0; len];
    fill(&mut bytes, seed);
    bytes
}

/// The bytes as digits after a 1, to the base 16,777,619, by the prime 2^32 - 5.
pub fn sum(bytes: &[u8]) -> u32 {
    bytes.iter().fold(1, |h, &byte| (h * 16_777_619 + u64::from(byte)) % 4_294_967_291) as u32
}
