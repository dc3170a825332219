//! Buffers with guard bytes after them, and how a failure prints them.
use std::hint::black_box;

/// Bytes at the end of each buffer that are never passed to a call.
pub const GUARD: usize = 64;

pub fn hex(bytes: &[u8]) -> String {
    bytes.iter().map(|b| format!("{b:02X} ")).collect::<String>().trim_end().to_string()
}

/// Empty if the buffers are equal; they have the same length.
pub fn difference(name: &str, tested: &[u8], plain: &[u8]) -> String {
    if tested == plain {
        return String::new();
    }
    let i = tested.iter().zip(plain).position(|(x, y)| x != y).expect("same length");
    format!("{name} differs at byte {i}: {:02X}, expected {:02X}\n", tested[i], plain[i])
}

/// A buffer that a call only reads, with guard bytes after it.
pub struct Input {
    bytes: Vec<u8>,
    kept: Vec<u8>,
    length: usize,
}

impl Input {
    pub fn new(part: &[u8]) -> Input {
        let mut bytes = part.to_vec();
        bytes.extend_from_slice(&[0x5A; GUARD]);
        Input { kept: bytes.clone(), bytes, length: part.len() }
    }

    pub fn part(&self) -> &[u8] {
        &self.bytes[..self.length]
    }

    /// The optimizer may assume that a shared slice is unchanged; `black_box` keeps the comparison.
    pub fn difference(&self, name: &str) -> String {
        difference(name, black_box(&self.bytes), &self.kept)
    }
}
