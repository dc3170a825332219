//! Frames by value.
use core::fmt;
use core::ops::Deref;

use crate::UART_FRAME;

/// The bytes of a request or of another message, up to 64 of them.
#[derive(Clone, Copy, PartialEq, Eq)]
pub struct Frame {
    /// With zeros after them.
    bytes: [u8; UART_FRAME],
    length: usize,
}

impl Frame {
    /// The first `length` bytes, which are at most 64.
    pub(crate) fn new(bytes: &[u8], length: usize) -> Frame {
        let mut frame = Frame { bytes: [0; UART_FRAME], length };
        frame.bytes[..length].copy_from_slice(&bytes[..length]);
        frame
    }
}

impl Deref for Frame {
    type Target = [u8];

    fn deref(&self) -> &[u8] {
        &self.bytes[..self.length]
    }
}

impl fmt::Debug for Frame {
    fn fmt(&self, f: &mut fmt::Formatter) -> fmt::Result {
        (**self).fmt(f)
    }
}
