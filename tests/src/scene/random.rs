//! Random books: mostly valid, often at a limit, and occasionally with each kind
//! of fault.
use crate::board::book_of;
use crate::node::reference::EEPROM_SIZE;
use crate::rng::{edge, Rng};

/// `runs` in 200 steps continue the step before, so that some entries reach their size limit.
fn step(g: &mut Rng, before: Option<[u8; 4]>, bad: usize, runs: usize, timed: usize) -> [u8; 4] {
    let time = |g: &mut Rng| if !g.chance(timed, 100) { 0 } else { g.within(1, 127) as u8 | g.pick(&[0, 0x80]) };
    let mut step = match before {
        // a step that may join the entry before
        Some(b) if g.chance(runs, 200) => match b[0] {
            0..=2 => {
                let t = b[1] as usize + if g.chance(runs, 200) { 1 } else { g.within(0, 4) };
                [b[0], if t < 32 { t } else { g.below(4) } as u8, g.within(0, 100) as u8, time(g)]
            }
            k => {
                let size = if k == 3 { 48 } else { EEPROM_SIZE };
                let t = b[1] as usize + 1;
                [k, if t < size { t } else { g.below(4) } as u8, g.byte(), 0]
            }
        },
        _ => match g.below(7) {
            0 => [3, g.below(48) as u8, g.byte(), 0],
            1 => [4, g.below(EEPROM_SIZE) as u8, g.byte(), 0],
            k => [(k % 3) as u8, g.below(32) as u8, g.within(0, 100) as u8, time(g)],
        },
    };
    if bad > 0 && g.chance(1, bad) {
        if g.chance(1, 2) {
            let parts = [(); 4].map(|_| g.chance(1, 3));
            step = step_with(g, parts);
        } else {
            spoil_step(g, &mut step);
        }
    }
    step
}

fn spoil_step(g: &mut Rng, step: &mut [u8; 4]) {
    match g.below(6) {
        0 => step[0] = g.pick(&[5, 6, 255]),
        1 => step[1] = g.pick(&[32, 48, 191, 192, 255]),
        2 => step[2] = g.pick(&[101, 127, 128, 255]),
        3 => step[3] = 0x80,
        4 => step[3] = g.byte(),
        _ => step[g.below(4)] = g.byte(),
    }
}

/// A step with these parts bad: kind, target, value, time. With a bad kind nothing tells whether another part is bad:
/// the others are any bytes.
pub fn step_with(g: &mut Rng, bad: [bool; 4]) -> [u8; 4] {
    if bad[0] {
        return [edge(g, 5, 255) as u8, g.byte(), g.byte(), g.byte()];
    }
    let kind = g.below(if bad[2] { 3 } else { 5 }) as u8; // a memory step has no bad value
    let (targets, highest) = match kind {
        3 => (48, 255),
        4 => (EEPROM_SIZE, 255),
        _ => (32, 100),
    };
    let target = if bad[1] { edge(g, targets, 255) } else { edge(g, 0, targets - 1) };
    let value = if bad[2] { edge(g, highest + 1, 255) } else { edge(g, 0, highest) };
    let time = match (kind, bad[3]) {
        (0..=2, true) => 0x80,
        (0..=2, false) => g.pick(&[0, 1, 0x7F, 0x81, 0xFF]),
        (_, true) => edge(g, 1, 255),
        (_, false) => 0,
    };
    [kind, target as u8, value as u8, time as u8]
}

/// A random scene; about one step in `bad` may be bad (0: none).
pub fn scene(g: &mut Rng, bad: usize) -> Vec<[u8; 4]> {
    let length = match g.below(6) {
        0 => 0,
        1 => 64,
        2 => g.within(1, 3),
        _ => g.within(1, 64),
    };
    let runs = g.pick(&[60, 150, 198, 200]);
    let timed = g.pick(&[0, 50, 50, 90, 100]);
    let mut steps: Vec<[u8; 4]> = Vec::new();
    if runs == 200 {
        steps.push([g.below(5) as u8, g.below(4) as u8, g.within(0, 100) as u8, 0]);
    }
    while steps.len() < length {
        let step = step(g, steps.last().copied(), bad, runs, timed);
        steps.push(step);
    }
    steps.truncate(length);
    steps
}

pub fn book(g: &mut Rng) -> Vec<u8> {
    let n = match g.below(12) {
        0 => 0,
        1 => 16,
        _ => g.within(1, 5),
    };
    let bad = if g.chance(1, 4) { g.pick(&[80, 80, 8, 2]) } else { 0 };
    let scenes: Vec<Vec<[u8; 4]>> = (0..n).map(|_| scene(g, bad)).collect();
    let mut book = book_of(&scenes);
    if g.chance(1, 10) {
        spoil_book(g, &mut book, n);
    }
    book
}

fn spoil_book(g: &mut Rng, book: &mut Vec<u8>, n: usize) {
    match g.below(7) {
        0 => book.clear(),
        1 => {
            book.pop();
        }
        2 => book.push(g.byte()),
        3 => book[0] = g.pick(&[0, 1, 15, 16, 17, 255]),
        4 if n > 0 => {
            let i = 1 + g.below(3 * n);
            book[i] = if g.chance(1, 2) { g.byte() } else { book[i] ^ 1 };
        }
        5 => book.truncate(g.within(0, book.len())),
        _ => {
            let i = g.below(book.len());
            book[i] = g.byte();
        }
    }
}
