//! A checksum in Rust written after its checksum.rs, with 16 entries and two steps a byte in place of 256 and one, as 02's
//! S-10 asks: what the request costs in Rust.

const fn table() -> [u32; 16] {
    let mut table = [0; 16];
    let mut index = 0;
    while index < 16 {
        let mut value = index as u32;
        let mut bit = 0;
        while bit < 4 {
            value = (value >> 1) ^ (0xedb8_8320 & 0u32.wrapping_sub(value & 1));
            bit += 1;
        }
        table[index] = value;
        index += 1;
    }
    table
}

static TABLE: [u32; 16] = table();

pub fn crc32(bytes: &[u8]) -> u32 {
    let mut state = u32::MAX;
    for &byte in bytes {
        state ^= u32::from(byte);
        state = (state >> 4) ^ TABLE[(state % 16) as usize];
        state = (state >> 4) ^ TABLE[(state % 16) as usize];
    }
    !state
}
