//! Fields of code and of jobs, low byte first.

pub fn u32_at(bytes: &[u8], at: usize) -> u32 {
    u32::from_le_bytes(bytes[at..at + 4].try_into().unwrap())
}

pub fn u64_at(bytes: &[u8], at: usize) -> u64 {
    u64::from_le_bytes(bytes[at..at + 8].try_into().unwrap())
}

/// A length of four bytes.
pub fn length_at(bytes: &[u8], at: usize) -> usize {
    u32_at(bytes, at) as usize
}
