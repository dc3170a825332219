//! Random messages, streams, cuts and receivers of the serial line: full of
//! flags and escapes, often at a limit, and with each kind of fault.
use super::reference::{check_byte, crc_after, ESCAPE, ESCAPE_BIT, FLAG, LONGEST, SHORTEST};
use crate::rng::{edge, Rng};
use grelfint::raw::Receiver;

pub const LIMITS: [u8; 2] = [62, 64];

/// Often a flag, an escape, or what stands for one of them after an escape.
fn byte(g: &mut Rng) -> u8 {
    if g.chance(1, 3) {
        g.pick(&[FLAG, ESCAPE, FLAG ^ ESCAPE_BIT, ESCAPE ^ ESCAPE_BIT])
    } else {
        g.byte()
    }
}

fn bytes(g: &mut Rng, length: usize) -> Vec<u8> {
    (0..length).map(|_| byte(g)).collect()
}

/// A message whose check byte is often a flag or an escape.
pub fn message(g: &mut Rng, length: usize) -> Vec<u8> {
    let mut message = bytes(g, length);
    if g.chance(1, 4) {
        set_check_byte(&mut message, g.pick(&[FLAG, ESCAPE]));
    }
    message
}

/// Sets the last byte, if there is one, so that the message has this check byte.
pub fn set_check_byte(message: &mut [u8], check: u8) {
    if let Some((last, before)) = message.split_last_mut() {
        let crc = check_byte(before);
        *last = (0..=255).find(|&byte| crc_after(crc, &[byte]) == check).expect("one byte leads to each CRC");
    }
}

/// A length of a message, up to more than the longest.
pub fn message_length(g: &mut Rng) -> usize {
    match g.below(8) {
        0 => g.within(0, SHORTEST - 2),
        1..=2 => g.pick(&[SHORTEST - 1, SHORTEST, LONGEST, LONGEST + 1]),
        3 => g.within(LONGEST + 2, 70),
        _ => g.within(SHORTEST, LONGEST),
    }
}

/// The length of an output buffer for this many bytes on the line.
pub fn room(g: &mut Rng, needed: usize) -> usize {
    match g.below(4) {
        0 => needed - 1,
        1 => needed,
        2 => g.within(0, needed - 2),
        _ => g.within(needed + 1, needed + 70),
    }
}

// ---- streams ----
/// A stream of frames that pass and of frames with each fault, with bytes before the first flag, doubled flags and damage.
pub fn stream(g: &mut Rng, limit: usize) -> Vec<u8> {
    let noise = if g.chance(1, 50) { g.within(13, 600) } else { edge(g, 0, 12) };
    let mut line: Vec<u8> = bytes(g, noise).into_iter().filter(|&byte| byte != FLAG).collect();
    for _ in 0..g.within(0, 4) {
        let flags = if g.chance(1, 4) { g.within(2, 4) } else { 1 };
        line.extend(vec![FLAG; flags]);
        line.extend(piece(g, limit));
    }
    if g.chance(3, 4) {
        line.push(FLAG);
    }
    if g.chance(1, 8) {
        damage(g, &mut line);
    }
    line
}

/// What stands between two flags.
fn piece(g: &mut Rng, limit: usize) -> Vec<u8> {
    if g.chance(1, 12) {
        let length = g.within(1, 2 * limit);
        return bytes(g, length); // flags among them
    }
    let mut frame = frame_with_check_byte(g, limit);
    if let (true, Some(check)) = (g.chance(1, 3), frame.last_mut()) {
        *check ^= if g.chance(1, 2) { 1 << g.below(8) } else { g.within(1, 255) as u8 };
    }
    let mut line = escaped(g, &frame);
    if g.chance(1, 4) {
        line.push(ESCAPE);
    }
    line
}

/// Of any length, also too short and too long for a frame; in some cases nothing at all.
fn frame_with_check_byte(g: &mut Rng, limit: usize) -> Vec<u8> {
    let length = match g.below(12) {
        0 => return Vec::new(),
        1 => g.within(0, SHORTEST - 2),
        2 => SHORTEST - 1,
        3 => SHORTEST,
        4 => limit,
        5 => limit + 1,
        6 if g.chance(1, 8) => g.within(256, 600),
        6 => g.within(limit + 2, 2 * limit),
        _ => g.within(SHORTEST + 1, limit - 1),
    };
    let mut frame = message(g, length);
    frame.push(check_byte(&frame));
    frame
}

/// Flags and escapes are always escaped, other bytes occasionally.
fn escaped(g: &mut Rng, frame: &[u8]) -> Vec<u8> {
    let needless = g.pick(&[0, 0, 1, 8]);
    let mut line = Vec::new();
    for &byte in frame {
        // the byte that would have to be a flag after the escape cannot be escaped
        let may_be_escaped = byte != FLAG ^ ESCAPE_BIT;
        if byte == FLAG || byte == ESCAPE || (may_be_escaped && g.chance(needless, 16)) {
            line.extend([ESCAPE, byte ^ ESCAPE_BIT]);
        } else {
            line.push(byte);
        }
    }
    line
}

/// A bit is changed, or a byte lost, doubled or inserted.
fn damage(g: &mut Rng, line: &mut Vec<u8>) {
    if line.is_empty() {
        return;
    }
    let i = g.below(line.len());
    match g.below(4) {
        0 => {
            line.remove(i);
        }
        1 => line.insert(i, line[i]),
        2 => line.insert(i, byte(g)),
        _ => line[i] ^= 1 << g.below(8),
    }
}

/// Parts whose joining is the stream: all of it, single bytes, or any parts, some of them empty.
pub fn parts<'a>(g: &mut Rng, stream: &'a [u8]) -> Vec<&'a [u8]> {
    let longest = match g.below(4) {
        0 => return vec![stream],
        1 => return stream.chunks(1).collect(),
        2 => 4,
        _ => 80,
    };
    let mut parts = Vec::new();
    let mut rest = stream;
    while !rest.is_empty() {
        let (part, after) = rest.split_at(g.within(0, longest).min(rest.len()));
        parts.push(part);
        rest = after;
    }
    parts
}

// ---- receivers ----
/// A sound record with any bytes.
pub fn receiver(g: &mut Rng) -> Receiver {
    let limit = g.pick(&LIMITS);
    let phase = g.below(3) as u8;
    let count = match g.below(3) {
        _ if phase == 0 => 0,
        0 => g.within(0, 7),
        1 => g.within(limit as usize - 1, limit as usize + 2),
        _ => g.within(0, limit as usize + 2),
    };
    receiver_of(g, limit, phase, count as u8)
}

/// A record with these fields and any bytes. Those that were received often end with their check byte.
pub fn receiver_of(g: &mut Rng, limit: u8, phase: u8, count: u8) -> Receiver {
    let mut record = Receiver { limit, phase, count, bytes: [0; 65] };
    let received = bytes(g, 65);
    record.bytes.copy_from_slice(&received);
    let kept = (count as usize).min(65);
    if kept > 0 && g.chance(1, 2) {
        record.bytes[kept - 1] = check_byte(&record.bytes[..kept - 1]);
    }
    record
}

/// Any record: the fields are often the nearest to those that the rule allows.
pub fn any_receiver(g: &mut Rng) -> Receiver {
    let limit = if g.chance(2, 3) { g.pick(&LIMITS) } else { near(g, &[0, 60, 61, 63, 65, 66, 255]) };
    let phase = if g.chance(2, 3) { g.below(3) as u8 } else { near(g, &[3, 4, 255]) };
    let highest = limit.saturating_add(2);
    let count = if g.chance(1, 2) { g.within(0, highest as usize) as u8 } else { near(g, &[0, 1, highest, 255]) };
    let count = if g.chance(1, 6) { highest.saturating_add(1) } else { count };
    receiver_of(g, limit, phase, count)
}

fn near(g: &mut Rng, values: &[u8]) -> u8 {
    if g.chance(1, 4) {
        g.byte()
    } else {
        g.pick(values)
    }
}
