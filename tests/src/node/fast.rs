//! The reference's rules implemented for speed and without allocation, as the
//! benchmark's baseline, behind the C boundary of include/grelfint.h: nodes and
//! answers by value, slices as pointers and lengths. `sessions` compares it with
//! the plain reference.
use grelfint::raw::{Lamp, LevelsAnswer, Node, NodeAnswer, RequestAnswer};
use std::slice::{from_raw_parts, from_raw_parts_mut};

fn sound(node: &Node) -> bool {
    let s = &node.settings;
    if s.address.wrapping_sub(1) > 238 || s.lamp_count.wrapping_sub(1) > 31 {
        return false;
    }
    if !matches!(s.step, 1 | 2 | 4 | 5 | 10 | 20 | 25 | 50 | 100) {
        return false;
    }
    let mut bad = false;
    for l in &node.lamps {
        bad |= (l.level > 100) | (l.seconds > 7620) | ((l.level == 0) & (l.seconds != 0));
    }
    for l in &node.lamps[s.lamp_count as usize..] {
        bad |= (l.level != 0) | (l.seconds != 0);
    }
    !bad
}

#[inline(never)]
pub extern "C" fn tick(mut node: Node) -> NodeAnswer {
    if !sound(&node) {
        return NodeAnswer { refusal: 1, node };
    }
    for l in node.lamps.iter_mut() {
        let left = l.seconds.saturating_sub(1);
        if l.seconds != 0 && left == 0 {
            l.level = 0;
        }
        l.seconds = left;
    }
    NodeAnswer { refusal: 0, node }
}

/// Multiplying by it, and dropping 16 bits, divides by the step.
#[inline]
fn inverse_of(step: u32) -> u32 {
    65536 / step + 1
}

/// The smallest multiple of the step that is not below the lamp's level.
#[inline]
fn actual_level(lamp: &Lamp, step: u32, inverse: u32) -> u8 {
    ((((lamp.level as u32 + step - 1) * inverse) >> 16) * step) as u8
}

#[inline(never)]
pub extern "C" fn actual_levels(node: Node) -> LevelsAnswer {
    let mut levels = [0; 32];
    if !sound(&node) {
        return LevelsAnswer { refusal: 1, levels };
    }
    let step = node.settings.step as u32;
    let inverse = inverse_of(step);
    // lamps from the count on have level 0
    for (actual, lamp) in levels.iter_mut().zip(&node.lamps) {
        *actual = actual_level(lamp, step, inverse);
    }
    LevelsAnswer { refusal: 0, levels }
}

struct Memories<'a> {
    eeprom: &'a mut [u8; 192],
    external: &'a mut [u8; 16384],
}

/// What a request reports besides ErrN and its data.
#[derive(Default)]
struct Marks {
    load: bool,
    reason: u8,
    place: u8,
    /// A selective batch for other nodes: not answered.
    not_selected: bool,
}

#[inline]
fn refusal(node: &Node, frame: &[u8], eeprom: &[u8], external: &[u8], response: &[u8]) -> u8 {
    if !sound(node) {
        1
    } else if frame.len() < 6 || frame.len() > 62 {
        2
    } else if response.len() < 64 {
        3
    } else if eeprom.len() != 192 || external.len() != 16384 {
        4
    } else {
        0
    }
}

/// # Safety
/// Each pointer and length is a slice; those that are written overlap no other.
#[inline(never)]
pub unsafe extern "C" fn handle_request(
    node: Node,
    frame: *const u8,
    frame_length: usize,
    eeprom: *mut u8,
    eeprom_length: usize,
    external: *mut u8,
    external_length: usize,
    response: *mut u8,
    response_length: usize,
) -> RequestAnswer {
    request(
        node,
        from_raw_parts(frame, frame_length),
        from_raw_parts_mut(eeprom, eeprom_length),
        from_raw_parts_mut(external, external_length),
        from_raw_parts_mut(response, response_length),
    )
}

#[inline(always)]
fn request(mut node: Node, frame: &[u8], eeprom: &mut [u8], external: &mut [u8], response: &mut [u8]) -> RequestAnswer {
    let refusal = refusal(&node, frame, eeprom, external, response);
    if refusal != 0 {
        return RequestAnswer { refusal, ..RequestAnswer::zeros(node) };
    }
    let nadr = u16::from_le_bytes([frame[0], frame[1]]);
    let broadcast = nadr == 0xFF;
    if !broadcast && nadr != node.settings.address {
        return RequestAnswer::zeros(node);
    }
    let mut memories = Memories { eeprom: eeprom.try_into().unwrap(), external: external.try_into().unwrap() };
    let mut scratch = [0u8; 56];
    let data: &mut [u8; 56] = if broadcast { &mut scratch } else { (&mut response[8..64]).try_into().unwrap() };
    let mut marks = Marks::default();
    let (error, data_length) = match one(&mut node, &mut memories, &frame[2..6], &frame[6..], Some(data), &mut marks) {
        Ok(length) => (0, length),
        Err(error) => (error, 0),
    };
    let mut length = 0;
    if !broadcast && !marks.not_selected {
        let s = &node.settings;
        let (a, h) = (s.address.to_le_bytes(), s.hwpid.to_le_bytes());
        response[..8].copy_from_slice(&[a[0], a[1], frame[2], frame[3] | 0x80, h[0], h[1], error, s.dpa_value]);
        length = 8 + data_length;
    }
    let Marks { load, reason, place, .. } = marks;
    RequestAnswer { refusal: 0, length, load, addressed: true, reason, place, node }
}

/// `data` is none for an entry of a list, whose answer is not sent.
#[inline]
fn one(
    node: &mut Node,
    m: &mut Memories,
    head: &[u8],
    p: &[u8],
    data: Option<&mut [u8; 56]>,
    marks: &mut Marks,
) -> Result<usize, u8> {
    let hwpid = u16::from_le_bytes([head[2], head[3]]);
    if hwpid != node.settings.hwpid && hwpid != 0xFFFF {
        return Err(7);
    }
    match (head[0], head[1]) {
        (0x71, c @ 0..=2) => lights(node, c, p, data),
        (0x71, 0x3E) if p.is_empty() => {
            if let Some(data) = data {
                data[0] = node.settings.lamp_count;
            }
            Ok(1)
        }
        (0x71, 0x3E) => Err(5),
        (0x03, 0) => read(&m.eeprom[..], 1, 55, p, data),
        (0x05, 0) => read(&node.ram[..], 1, 48, p, data),
        (0x04, 2) => read(&m.external[..], 2, 54, p, data),
        (0x03, 1) => write(&mut m.eeprom[..], 1, 55, p),
        (0x05, 1) => write(&mut node.ram[..], 1, 48, p),
        (0x04, 3) => write(&mut m.external[..], 2, 54, p),
        (0x02, c) => {
            let Some(data) = data else { return Err(3) };
            match c {
                0x05 if p.is_empty() => Err(5),
                0x05 => run_list(node, m, p, 0, marks),
                0x0A => code_check(m, p, data, &mut marks.load),
                0x0B => selective_batch(node, m, p, marks),
                _ => Err(2),
            }
        }
        (0x03, _) | (0x04, _) | (0x05, _) | (0x71, _) => Err(2),
        _ => Err(3),
    }
}

#[inline]
fn at(width: usize, p: &[u8]) -> usize {
    if width == 1 {
        p[0] as usize
    } else {
        p[0] as usize | (p[1] as usize) << 8
    }
}

#[inline]
fn read(bytes: &[u8], width: usize, longest: usize, p: &[u8], data: Option<&mut [u8; 56]>) -> Result<usize, u8> {
    if p.len() != width + 1 || p[width] as usize > longest {
        return Err(5);
    }
    let start = at(width, p);
    let length = p[width] as usize;
    if start >= bytes.len() || start + length > bytes.len() {
        return Err(4);
    }
    if let Some(data) = data {
        data[..length].copy_from_slice(&bytes[start..start + length]);
    }
    Ok(length)
}

#[inline]
fn write(bytes: &mut [u8], width: usize, longest: usize, p: &[u8]) -> Result<usize, u8> {
    if p.len() < width + 1 || p.len() - width > longest {
        return Err(5);
    }
    let start = at(width, p);
    let from = &p[width..];
    if start >= bytes.len() || start + from.len() > bytes.len() {
        return Err(4);
    }
    bytes[start..start + from.len()].copy_from_slice(from);
    Ok(0)
}

/// Whether the bytes are exactly `count` valid entries.
#[inline]
fn entries_good(entries: &[u8], count: usize) -> bool {
    let mut i = 0;
    for _ in 0..count {
        let Some(&b) = entries.get(i) else { return false };
        let power = b & 0x7F;
        if power > 100 && power != 127 {
            return false;
        }
        i += 1;
        if b >= 0x80 {
            let Some(&t) = entries.get(i) else { return false };
            if t & 0x7F == 0 {
                return false;
            }
            i += 1;
        }
    }
    i == entries.len()
}

fn lights(node: &mut Node, pcmd: u8, p: &[u8], mut data: Option<&mut [u8; 56]>) -> Result<usize, u8> {
    let Some((bitmap, entries)) = p.split_first_chunk::<4>() else { return Err(6) };
    let mask = u32::from_le_bytes(*bitmap);
    let ones = mask.count_ones() as usize;
    if !entries_good(entries, ones) {
        return Err(6);
    }
    let count = node.settings.lamp_count as usize;
    let step = node.settings.step as u32;
    let inverse = inverse_of(step);
    let mut rest = mask;
    let mut i = 0;
    let mut k = 0;
    while rest != 0 {
        let lamp = rest.trailing_zeros() as usize;
        rest &= rest - 1;
        let b = entries[i];
        i += 1;
        let mut seconds = 0;
        if b >= 0x80 {
            let t = entries[i];
            i += 1;
            seconds = if t >= 0x80 { (t & 0x7F) as u16 } else { 60 * t as u16 };
        }
        let l = &mut node.lamps[lamp];
        if let Some(data) = data.as_deref_mut() {
            // an unimplemented lamp has level 0
            data[k] = actual_level(l, step, inverse);
            k += 1;
        }
        if lamp < count {
            change(l, pcmd, b & 0x7F, seconds);
        }
    }
    Ok(ones)
}

/// `seconds` is 0 exactly for an entry without a time byte: every valid time is at least 1.
#[inline]
fn change(l: &mut Lamp, pcmd: u8, power: u8, seconds: u16) {
    if power == 127 {
        if seconds != 0 && l.level != 0 {
            l.seconds = seconds;
        }
        return;
    }
    l.level = match pcmd {
        0 => power,
        1 => (l.level + power).min(100),
        _ => l.level.saturating_sub(power),
    };
    l.seconds = if l.level == 0 { 0 } else { seconds };
}

/// Reason and place of a list's first fault; zeros for a sound list.
#[inline]
fn list_fault(list: &[u8]) -> (u8, usize) {
    let mut i = 0;
    while let Some(&l) = list.get(i) {
        match l {
            0 if i + 1 == list.len() => return (0, 0),
            0 => return (4, i + 1),
            1..=4 => return (1, i),
            _ if i + l as usize > list.len() => return (2, i),
            _ => i += l as usize,
        }
    }
    (3, i)
}

fn selective_batch(node: &mut Node, m: &mut Memories, p: &[u8], marks: &mut Marks) -> Result<usize, u8> {
    let Some((nodes, list)) = p.split_first_chunk::<30>() else { return Err(5) };
    if list.is_empty() {
        return Err(5);
    }
    let address = node.settings.address as usize;
    marks.not_selected = nodes[address / 8] >> (address % 8) & 1 == 0;
    if marks.not_selected {
        return Ok(0);
    }
    run_list(node, m, list, nodes.len(), marks)
}

/// `before` is the number of bytes in PData before the list.
fn run_list(node: &mut Node, m: &mut Memories, list: &[u8], before: usize, marks: &mut Marks) -> Result<usize, u8> {
    let (reason, place) = list_fault(list);
    if reason != 0 {
        (marks.reason, marks.place) = (reason, (before + place) as u8);
        return Err(6);
    }
    let mut i = 0;
    while list[i] != 0 {
        let entry = &list[i..i + list[i] as usize];
        let _ = one(node, m, &entry[1..5], &entry[5..], None, &mut Marks::default());
        i += entry.len();
    }
    Ok(0)
}

fn code_check(m: &Memories, p: &[u8], data: &mut [u8; 56], load: &mut bool) -> Result<usize, u8> {
    let Ok(p): Result<&[u8; 7], _> = p.try_into() else { return Err(5) };
    let address = u16::from_le_bytes([p[1], p[2]]) as usize;
    let length = u16::from_le_bytes([p[3], p[4]]) as usize;
    let sum = u16::from_le_bytes([p[5], p[6]]);
    if p[0] & 0xFC != 0 {
        return Err(1);
    }
    let bad = if p[0] & 2 == 0 { !length.is_multiple_of(64) } else { !length.is_multiple_of(20) };
    if length == 0 || bad {
        return Err(6);
    }
    if address + length > 16384 {
        return Err(4);
    }
    let first = if p[0] & 2 == 0 { 1 } else { 3 };
    let (low, high) = sums_after((first, 0), &m.external[address..address + length]);
    let same = u16::from_le_bytes([low, high]) == sum;
    data[0] = same as u8;
    *load = same && p[0] & 1 != 0;
    Ok(1)
}

/// The low and the high sum after these bytes, from any two sums before them. The sums of an image fit in 64 bits, so
/// they are reduced only once.
#[inline(never)]
pub fn sums_after((low, high): (u8, u8), bytes: &[u8]) -> (u8, u8) {
    const COLUMNS: usize = 64;
    const ROWS: usize = 22; // the most for which 255 * (1 + 2 + ... + ROWS) fits in 16 bits
    let (mut low, mut high) = (low as u64, high as u64);
    for table in bytes.chunks(ROWS * COLUMNS) {
        let rows = table.chunks_exact(COLUMNS);
        let rest = rows.remainder();
        // each column has sums of its own, so that the compiler can use vectors
        let (mut lows, mut highs) = ([0u16; COLUMNS], [0u16; COLUMNS]);
        for row in rows {
            for ((l, h), &b) in lows.iter_mut().zip(&mut highs).zip(row) {
                *l += b as u16;
                *h += *l;
            }
        }
        // the high sum has a byte once for each byte from it to the end: COLUMNS times for each row from its own on,
        // less the bytes before it in its row
        let (mut sum, mut weighted) = (0u32, 0u32);
        for (before, (&l, &h)) in lows.iter().zip(&highs).enumerate() {
            sum += l as u32;
            weighted += COLUMNS as u32 * h as u32 - before as u32 * l as u32;
        }
        high += (table.len() - rest.len()) as u64 * low + weighted as u64;
        low += sum as u64;
        for &b in rest {
            low += b as u64;
            high += low;
        }
    }
    (reduced(low), reduced(high))
}

/// The byte that additions with end-around carry lead to: 0 only for 0, else 1 to 255.
#[inline]
pub fn reduced(sum: u64) -> u8 {
    if sum == 0 {
        0
    } else {
        ((sum - 1) % 255 + 1) as u8
    }
}
