//! Code images (004) and their checksum, as the reference has them: byte by byte,
//! with a carry for each of the two sums.
fn byte_sum(a: u8, b: u8) -> u8 {
    let sum = a as u16 + b as u16;
    if sum > 255 {
        (sum - 256 + 1) as u8
    } else {
        sum as u8
    }
}

/// The low and the high sum after these bytes, from any two sums before them.
pub fn sums_after(sums: (u8, u8), bytes: &[u8]) -> (u8, u8) {
    let (mut low, mut high) = sums;
    for &b in bytes {
        low = byte_sum(low, b);
        high = byte_sum(high, low);
    }
    (low, high)
}

pub fn checksum(first: u8, bytes: &[u8]) -> u16 {
    let (low, high) = sums_after((first, 0), bytes);
    u16::from_le_bytes([low, high])
}

/// The type of the code in an image (004).
#[derive(Clone, Copy, PartialEq, Eq, PartialOrd, Ord, Debug)]
pub enum CodeType {
    Handler,
    PlugIn,
}

impl CodeType {
    pub const EVERY: [CodeType; 2] = [CodeType::Handler, CodeType::PlugIn];

    /// Flag bit 1.
    pub fn flag(self) -> u8 {
        match self {
            CodeType::Handler => 0,
            CodeType::PlugIn => 2,
        }
    }

    /// An image is one or more of this many bytes.
    pub fn unit(self) -> usize {
        match self {
            CodeType::Handler => 64,
            CodeType::PlugIn => 20,
        }
    }

    pub fn checksum(self, image: &[u8]) -> u16 {
        match self {
            CodeType::Handler => checksum(1, image),
            CodeType::PlugIn => checksum(3, image),
        }
    }
}
