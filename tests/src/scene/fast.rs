//! The compiler's rules implemented for speed and without allocation, as the
//! benchmark's baseline, behind the C boundary of include/grelfint.h. `sessions`
//! compares it with the plain reference.
use grelfint::raw::{CompileAnswer, NodeSet};
use std::slice::{from_raw_parts, from_raw_parts_mut};

/// The refusal for a step's first bad part; 0 for a good step.
#[inline]
fn step_refusal(s: &[u8]) -> u8 {
    match s[0] {
        0..=2 => bad_part(s[1] < 32, s[2] <= 100, s[3] != 0x80),
        3 => bad_part(s[1] < 48, true, s[3] == 0),
        4 => bad_part(s[1] < 192, true, s[3] == 0),
        _ => 81,
    }
}

/// One test for a good step; which part is bad is asked only after it.
#[inline]
fn bad_part(target: bool, value: bool, time: bool) -> u8 {
    match (target, value) {
        _ if target & value & time => 0,
        (false, _) => 82,
        (_, false) => 83,
        _ => 84,
    }
}

/// The bytes of a scene's steps, or the refusal (6 or 7).
#[inline]
fn steps_of(book: &[u8], scene: usize) -> Result<&[u8], u8> {
    let Some(&n) = book.first() else { return Err(6) };
    let n = n as usize;
    if n > 16 || book.len() < 1 + 3 * n {
        return Err(6);
    }
    let mut end = 1 + 3 * n;
    let mut body = 0..0;
    for (i, c) in book[1..1 + 3 * n].chunks_exact(3).enumerate() {
        if c[2] > 64 || (c[0] as usize | (c[1] as usize) << 8) != end {
            return Err(6);
        }
        let next = end + 4 * c[2] as usize;
        if i == scene {
            body = end..next;
        }
        end = next;
    }
    if end != book.len() {
        return Err(6);
    }
    if scene >= n {
        return Err(7);
    }
    Ok(&book[body])
}

/// Writes the entry that joins as many of the first steps as the rule allows with
/// at most `ENTRY` bytes of PData.
/// Returns the entry's length and the number of step bytes consumed.
#[inline]
fn first_entry<const ENTRY: usize>(steps: &[u8], h: [u8; 2], e: &mut [u8; 64]) -> (usize, usize) {
    let kind = steps[0];
    let lamps = kind <= 2;
    let mut size = if lamps { 4 } else { 1 }; // bytes of the entry's PData
    e[5] = if lamps { 0 } else { steps[1] };
    e[6..9].fill(0);
    let mut taken = 0;
    let mut before = 0u8;
    for s in steps.chunks_exact(4) {
        let more = if lamps && s[3] != 0 { 2 } else { 1 };
        if taken != 0 {
            let follows = if lamps { s[1] > before } else { s[1] == before + 1 };
            if s[0] != kind || !follows || size + more > ENTRY {
                break;
            }
        }
        before = s[1];
        if lamps {
            e[5 + (s[1] / 8) as usize] |= 1 << (s[1] % 8);
        }
        if more == 2 {
            e[5 + size] = s[2] | 0x80;
            e[6 + size] = s[3];
        } else {
            e[5 + size] = s[2];
        }
        size += more;
        taken += 4;
    }
    let (pnum, pcmd) = match kind {
        3 => (5, 1),
        4 => (3, 1),
        k => (0x71, k),
    };
    e[..5].copy_from_slice(&[5 + size as u8, pnum, pcmd, h[0], h[1]]);
    (5 + size, taken)
}

/// The requests, one after the other, and the length of each. A request is `FRONT`
/// bytes and a list of at most `LIST`, closing zero included.
struct Requests<const FRONT: usize, const LIST: usize> {
    bytes: [u8; 2048],
    used: usize,
    lengths: [u8; 64],
    count: usize,
    /// Bytes in the last request's list so far.
    list: usize,
}

impl<const FRONT: usize, const LIST: usize> Requests<FRONT, LIST> {
    /// Appends an entry to the last request, or opens a new one if it does not fit.
    #[inline]
    fn add(&mut self, entry: &[u8], front: &[u8; FRONT]) {
        if self.count == 0 || self.list + entry.len() + 1 > LIST {
            self.close();
            self.bytes[self.used..self.used + FRONT].copy_from_slice(front);
            self.used += FRONT;
            self.count += 1;
            self.list = 0;
        }
        self.bytes[self.used..self.used + entry.len()].copy_from_slice(entry);
        self.used += entry.len();
        self.list += entry.len();
    }

    /// Writes the closing zero and the length of the last request, if there is one.
    #[inline]
    fn close(&mut self) {
        if self.count != 0 {
            self.bytes[self.used] = 0;
            self.used += 1;
            self.lengths[self.count - 1] = (FRONT + self.list + 1) as u8;
        }
    }
}

#[inline]
fn refused(refusal: u8, step: u8) -> CompileAnswer {
    CompileAnswer { refusal, step, length: 0 }
}

/// # Safety
/// Each pointer and length is a slice; the output does not overlap the book.
#[inline(never)]
pub unsafe extern "C" fn compile(
    book: *const u8,
    book_length: usize,
    scene: usize,
    address: u16,
    hwpid: u16,
    out: *mut u8,
    out_length: usize,
) -> CompileAnswer {
    let (book, out) = (from_raw_parts(book, book_length), from_raw_parts_mut(out, out_length));
    if address.wrapping_sub(1) > 238 && address != 255 {
        return refused(1, 0);
    }
    let (a, h) = (address.to_le_bytes(), hwpid.to_le_bytes());
    compile_with::<6, 50, 56>(&[a[0], a[1], 2, 5, h[0], h[1]], book, scene, out)
}

/// # Safety
/// As for `compile`.
#[inline(never)]
pub unsafe extern "C" fn compile_selected(
    book: *const u8,
    book_length: usize,
    scene: usize,
    nodes: NodeSet,
    hwpid: u16,
    out: *mut u8,
    out_length: usize,
) -> CompileAnswer {
    let (book, out) = (from_raw_parts(book, book_length), from_raw_parts_mut(out, out_length));
    if nodes.bits[0] & 1 != 0 || nodes.bits == [0; 30] {
        return refused(1, 0);
    }
    let h = hwpid.to_le_bytes();
    let mut front = [0; 36];
    front[..6].copy_from_slice(&[0xFF, 0, 2, 0x0B, h[0], h[1]]);
    front[6..].copy_from_slice(&nodes.bits);
    compile_with::<36, 20, 26>(&front, book, scene, out)
}

/// One pass over the steps: the output starts with the lengths, which are not
/// known before, so the requests are first built in a scratch buffer. The front
/// of a request is its header and what comes before the list.
#[inline(always)]
fn compile_with<const FRONT: usize, const ENTRY: usize, const LIST: usize>(
    front: &[u8; FRONT],
    book: &[u8],
    scene: usize,
    out: &mut [u8],
) -> CompileAnswer {
    let steps = match steps_of(book, scene) {
        Ok(steps) => steps,
        Err(refusal) => return refused(refusal, 0),
    };
    for (i, s) in steps.chunks_exact(4).enumerate() {
        let refusal = step_refusal(s);
        if refusal != 0 {
            return refused(refusal, i as u8);
        }
    }
    if out.len() < 4096 {
        return refused(9, 0);
    }
    let hwpid = [front[4], front[5]];
    let mut r = Requests::<FRONT, LIST> { bytes: [0; 2048], used: 0, lengths: [0; 64], count: 0, list: 0 };
    let mut rest = steps;
    let mut entry = [0u8; 64];
    while !rest.is_empty() {
        let (size, taken) = first_entry::<ENTRY>(rest, hwpid, &mut entry);
        r.add(&entry[..size], front);
        rest = &rest[taken..];
    }
    r.close();
    let (count, used) = (r.count, r.used);
    out[0] = count as u8;
    out[1..1 + count].copy_from_slice(&r.lengths[..count]);
    out[1 + count..1 + count + used].copy_from_slice(&r.bytes[..used]);
    CompileAnswer { refusal: 0, step: 0, length: 1 + count + used }
}
