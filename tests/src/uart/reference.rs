//! The serial line: change 5/12 of document 02 with the framing of section
//! 2.3.2 of document 000, implemented as plainly as possible, without regard to
//! speed. A stream is read in two ways that share only the check byte: byte by
//! byte by a receiver, and as a whole by cutting it at its flags.
use grelfint::raw::{LengthAnswer, ReceiveAnswer, Receiver};

pub const FLAG: u8 = 0x7E;
pub const ESCAPE: u8 = 0x7D;
pub const ESCAPE_BIT: u8 = 0x20;

pub const SHORTEST: usize = 6;
pub const LONGEST: usize = 64;

/// The longest message on the line: two flags and 65 escaped bytes.
pub const FRAMED: usize = 132;

/// Why a frame is dropped, in the order of the tests.
pub const TOO_LONG: u8 = 1;
pub const CUT: u8 = 2;
pub const SHORT: u8 = 3;
pub const WRONG_CHECK_BYTE: u8 = 4;

/// What comes out of a stream.
#[derive(Clone, Debug, PartialEq, Eq)]
pub enum Event {
    /// Without its check byte.
    Frame(Vec<u8>),
    /// With its cause.
    Drop(u8),
}

/// The 1-Wire CRC from FF hex.
pub fn check_byte(message: &[u8]) -> u8 {
    crc_after(0xFF, message)
}

/// The 1-Wire CRC after these bytes, from any CRC before them (000, 13.1), bit by bit.
pub fn crc_after(mut crc: u8, bytes: &[u8]) -> u8 {
    for &byte in bytes {
        for bit in 0..8 {
            let differs = (crc ^ (byte >> bit)) & 1 == 1;
            crc >>= 1;
            if differs {
                crc ^= 0x8C;
            }
        }
    }
    crc
}

// ---- sender ----
/// Flags and escapes are replaced by an escape and the byte with the escape bit changed.
pub fn escaped(bytes: &[u8]) -> Vec<u8> {
    let mut line = Vec::new();
    for &byte in bytes {
        if byte == FLAG || byte == ESCAPE {
            line.extend_from_slice(&[ESCAPE, byte ^ ESCAPE_BIT]);
        } else {
            line.push(byte);
        }
    }
    line
}

/// The bytes on the line for a message of any length.
pub fn framed(message: &[u8]) -> Vec<u8> {
    [&[FLAG], &escaped(message)[..], &escaped(&[check_byte(message)]), &[FLAG]].concat()
}

pub fn frame(message: &[u8], out: &mut [u8]) -> LengthAnswer {
    if message.len() < SHORTEST || message.len() > LONGEST {
        return LengthAnswer { refusal: 2, length: 0 };
    }
    let line = framed(message);
    if line.len() > out.len() {
        return LengthAnswer { refusal: 11, length: 0 };
    }
    out[..line.len()].copy_from_slice(&line);
    LengthAnswer { refusal: 0, length: line.len() }
}

// ---- receiver ----
pub fn receiver(gateway: bool) -> Receiver {
    Receiver { limit: if gateway { 64 } else { 62 }, phase: 0, count: 0, bytes: [0; 65] }
}

pub fn receiver_rule(r: &Receiver) -> bool {
    if r.limit != 62 && r.limit != 64 {
        return false;
    }
    if r.phase > 2 || r.count > r.limit + 2 {
        return false;
    }
    r.phase != 0 || r.count == 0
}

pub fn receive(receiver: Receiver, bytes: &[u8]) -> ReceiveAnswer {
    if !receiver_rule(&receiver) {
        return ReceiveAnswer { refusal: 1, ..ReceiveAnswer::zeros(receiver) };
    }
    let mut after = receiver;
    for (i, &byte) in bytes.iter().enumerate() {
        if let Some(event) = take(&mut after, byte) {
            return ReceiveAnswer { taken: i + 1, ..answer_of(&event, after) };
        }
    }
    ReceiveAnswer { taken: bytes.len(), ..ReceiveAnswer::zeros(after) }
}

fn answer_of(event: &Event, receiver: Receiver) -> ReceiveAnswer {
    let mut answer = ReceiveAnswer::zeros(receiver);
    match event {
        Event::Frame(message) => {
            answer.event = 1;
            answer.length = message.len();
            answer.frame[..message.len()].copy_from_slice(message);
        }
        Event::Drop(cause) => {
            answer.event = 2;
            answer.cause = *cause;
        }
    }
    answer
}

/// One byte from the line; an event if it is a flag that ends a frame.
fn take(r: &mut Receiver, byte: u8) -> Option<Event> {
    match (r.phase, byte) {
        (_, FLAG) => {
            let event = event_at_flag(r);
            (r.phase, r.count) = (1, 0);
            return event;
        }
        (0, _) => {}
        (1, ESCAPE) => r.phase = 2,
        (1, _) => store(r, byte),
        _ => {
            store(r, byte ^ ESCAPE_BIT);
            r.phase = 1;
        }
    }
    None
}

fn store(r: &mut Receiver, byte: u8) {
    if r.count <= r.limit {
        r.bytes[r.count as usize] = byte;
    }
    if r.count < r.limit + 2 {
        r.count += 1;
    }
}

fn event_at_flag(r: &Receiver) -> Option<Event> {
    if r.phase == 0 || (r.phase == 1 && r.count == 0) {
        return None;
    }
    if r.count > r.limit + 1 {
        return Some(Event::Drop(TOO_LONG));
    }
    if r.phase == 2 {
        return Some(Event::Drop(CUT));
    }
    if r.count < 7 {
        return Some(Event::Drop(SHORT));
    }
    let last = r.count as usize - 1;
    let message = &r.bytes[..last];
    if r.bytes[last] != check_byte(message) {
        return Some(Event::Drop(WRONG_CHECK_BYTE));
    }
    Some(Event::Frame(message.to_vec()))
}

// ---- a whole stream ----
/// What stands between two flags, or after the last one.
pub struct Piece {
    /// Without the escapes, check byte included.
    pub bytes: Vec<u8>,
    /// It ends with an escape.
    pub cut: bool,
}

impl Piece {
    fn read(line: &[u8]) -> Piece {
        let mut bytes = Vec::new();
        let mut rest = line.iter();
        while let Some(&byte) = rest.next() {
            if byte != ESCAPE {
                bytes.push(byte);
            } else if let Some(next) = rest.next() {
                bytes.push(next ^ ESCAPE_BIT);
            } else {
                return Piece { bytes, cut: true };
            }
        }
        Piece { bytes, cut: false }
    }

    /// Whether the last byte is the check byte of those before it.
    pub fn checks(&self) -> bool {
        self.bytes.split_last().is_some_and(|(&check, message)| check == check_byte(message))
    }

    /// None for a piece with no byte at all. The check byte does not count in the limit or in the shortest length.
    fn event(&self, limit: usize) -> Option<Event> {
        let length = self.bytes.len();
        if length == 0 && !self.cut {
            None
        } else if length > limit + 1 {
            Some(Event::Drop(TOO_LONG))
        } else if self.cut {
            Some(Event::Drop(CUT))
        } else if length < SHORTEST + 1 {
            Some(Event::Drop(SHORT))
        } else if !self.checks() {
            Some(Event::Drop(WRONG_CHECK_BYTE))
        } else {
            Some(Event::Frame(self.bytes[..length - 1].to_vec()))
        }
    }
}

/// A whole stream, cut at its flags.
pub struct Stream {
    /// What stands between two flags.
    pub ended: Vec<Piece>,
    /// What stands after the last flag; none without a flag.
    pub open: Option<Piece>,
}

impl Stream {
    /// Bytes before the first flag are skipped.
    pub fn read(line: &[u8]) -> Stream {
        let mut ended: Vec<Piece> = line.split(|&byte| byte == FLAG).skip(1).map(Piece::read).collect();
        let open = ended.pop();
        Stream { ended, open }
    }

    /// The frames and drops at a receiver with this limit.
    pub fn events(&self, limit: usize) -> Vec<Event> {
        self.ended.iter().filter_map(|piece| piece.event(limit)).collect()
    }

    /// The record that a receiver with these bytes has after the stream: each piece is written over those before it.
    pub fn receiver_after(&self, limit: usize, mut bytes: [u8; 65]) -> Receiver {
        for piece in self.ended.iter().chain(&self.open) {
            let length = piece.bytes.len().min(limit + 1);
            bytes[..length].copy_from_slice(&piece.bytes[..length]);
        }
        let (phase, count) = match &self.open {
            None => (0, 0),
            Some(piece) => (if piece.cut { 2 } else { 1 }, piece.bytes.len().min(limit + 2)),
        };
        Receiver { limit: limit as u8, phase, count: count as u8, bytes }
    }
}
