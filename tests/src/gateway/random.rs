//! Random gateways, and calls on them: often at a limit, and with each kind of
//! refusal; and records that break the rule.
use super::reference::{
    is_bonded, nadr, BROADCAST, FIRST_NODE, HEADER, LAST_NODE, LATEST, LONGEST, LONGEST_WAIT, QUEUE, ROOM,
};
use super::sides::{Call, Request};
use crate::board::frame_of;
use crate::rng::{edge, Rng};
use grelfint::raw::{Gateway, SendQueue, Waiting};

/// PData lengths at the limits of the slots.
pub const SLOT_LIMITS: [usize; 6] = [0, 16, 17, 40, 41, 56];

// ---- records ----
/// A sound record: its requests need not be to bonded nodes.
pub fn gateway(g: &mut Rng) -> Gateway {
    let mut bonds = [0; 32];
    let density = g.pick(&[0, 1, 8, 16]);
    for address in FIRST_NODE..=LAST_NODE {
        if g.chance(density, 16) {
            bonds[address as usize / 8] |= 1 << (address % 8);
        }
    }
    let mut queue = SendQueue {
        last: last(g),
        next: 0,
        network: g.below(2) as u8,
        dpa_value: g.byte(),
        count: edge(g, 0, QUEUE) as u8,
        places: [Waiting::ZERO; QUEUE],
    };
    queue.next = match g.below(6) {
        0 => 0,
        1 => g.within(0, queue.last as usize) as u64,
        2 => queue.last,
        3 => queue.last + LONGEST_WAIT,
        _ => queue.last + g.within(1, 3000) as u64,
    };
    for place in &mut queue.places[..queue.count as usize] {
        *place = waiting(g);
    }
    Gateway { bonds, queue }
}

fn last(g: &mut Rng) -> u64 {
    match g.below(8) {
        0 => 0,
        1 => LATEST,
        2 => LATEST - g.within(1, 3000) as u64,
        3 => g.within(0, LATEST as usize) as u64,
        4 => (1 << 32) - g.within(0, 3000) as u64, // soon over 32 bits
        _ => g.within(1, 100_000) as u64,
    }
}

fn waiting(g: &mut Rng) -> Waiting {
    let address = if g.chance(1, 4) { BROADCAST } else { edge(g, FIRST_NODE as usize, LAST_NODE as usize) as u16 };
    let length = frame_length(g);
    let Request { frame, hops, response_hops, delay } = request(g, address, length);
    let mut place = Waiting { delay, length: length as u8, hops, response_hops, frame: [0; LONGEST] };
    place.frame[..length].copy_from_slice(&frame);
    place
}

/// A clause of the rule of a gateway record.
#[derive(Clone, Copy, PartialEq, Eq, PartialOrd, Ord, Debug)]
pub enum Clause {
    /// Address 0 is bonded.
    BondOf0,
    /// An address from 240 on is bonded.
    BondFrom240,
    Network,
    Count,
    ShortFrame,
    LongFrame,
    Nadr,
    /// A byte that is not zero after a waiting request.
    AfterFrame,
    /// A place from the count on that is not zero.
    FreePlace,
    Last,
    Next,
}

impl Clause {
    pub const EVERY: [Clause; 11] = [
        Clause::BondOf0,
        Clause::BondFrom240,
        Clause::Network,
        Clause::Count,
        Clause::ShortFrame,
        Clause::LongFrame,
        Clause::Nadr,
        Clause::AfterFrame,
        Clause::FreePlace,
        Clause::Last,
        Clause::Next,
    ];
}

/// The record, which is sound, with this clause broken and no other.
pub fn breaking(g: &mut Rng, gateway: &Gateway, clause: Clause) -> Gateway {
    let mut broken = *gateway;
    let queue = &mut broken.queue;
    match clause {
        Clause::BondOf0 => broken.bonds[0] |= 1,
        Clause::BondFrom240 => broken.bonds[g.within(30, 31)] |= 1 << g.below(8),
        Clause::Network => queue.network = over(g, 1),
        Clause::Count => {
            for place in &mut queue.places[queue.count as usize..] {
                *place = waiting(g);
            }
            queue.count = over(g, QUEUE as u8);
        }
        Clause::FreePlace => {
            queue.count = queue.count.min(QUEUE as u8 - 1);
            queue.places[queue.count as usize..].fill(Waiting::ZERO);
            let place = g.within(queue.count as usize, QUEUE - 1);
            spoil(g, &mut queue.places[place]);
        }
        Clause::Last => {
            queue.last = g.pick(&[LATEST + 1, LATEST + 2, 2 * LATEST, 1 << 63, u64::MAX - LONGEST_WAIT, u64::MAX]);
            queue.next = queue.next.min(queue.last);
        }
        Clause::Next => {
            let over = g.pick(&[1, 2, 1000, 1 << 32, LATEST]);
            queue.next = if g.chance(1, 6) { u64::MAX } else { queue.last + LONGEST_WAIT + over };
        }
        Clause::ShortFrame | Clause::LongFrame | Clause::Nadr | Clause::AfterFrame => {
            if queue.count == 0 {
                queue.places[0] = waiting(g);
                queue.count = 1;
            }
            let place = g.below(queue.count as usize);
            break_waiting(g, &mut queue.places[place], clause);
        }
    }
    broken
}

/// A number above the highest that is allowed, often the next one.
fn over(g: &mut Rng, highest: u8) -> u8 {
    match g.below(4) {
        0 => highest + 1,
        1 => 255,
        _ => g.within(highest as usize + 1, 255) as u8,
    }
}

/// One field, which is zero, or one byte of the frame.
fn spoil(g: &mut Rng, place: &mut Waiting) {
    let number = 1 + g.below(255) as u8;
    match g.below(6) {
        0 => place.delay = if g.chance(1, 2) { number as u16 } else { (number as u16) << 8 },
        1 => place.length = number,
        2 => place.hops = number,
        3 => place.response_hops = number,
        _ => place.frame[edge(g, 0, LONGEST - 1)] = number,
    }
}

fn break_waiting(g: &mut Rng, place: &mut Waiting, clause: Clause) {
    match clause {
        Clause::ShortFrame => {
            // at least one byte, and NADR of one byte: with none it would be 0
            place.length = edge(g, 1, HEADER - 1) as u8;
            place.frame[place.length as usize..].fill(0);
        }
        Clause::LongFrame => place.length = over(g, LONGEST as u8),
        Clause::Nadr => {
            let address = no_node(g, nadr(&place.frame));
            let address = if address == BROADCAST { 0 } else { address };
            place.frame[..2].copy_from_slice(&address.to_le_bytes());
        }
        _ => {
            place.length = place.length.min(LONGEST as u8 - 1);
            place.frame[place.length as usize..].fill(0);
            place.frame[edge(g, place.length as usize, LONGEST - 1)] = 1 + g.below(255) as u8;
        }
    }
}

// ---- calls ----
/// Any call; its inputs are often at a limit of this record.
pub fn call(g: &mut Rng, gateway: &Gateway) -> Call {
    match g.below(24) {
        0..=2 => Call::Bond(address(g, &gateway.bonds, false)),
        3..=4 => Call::Unbond(address(g, &gateway.bonds, true)),
        5 if g.chance(1, 3) => Call::ClearBonds,
        5..=6 => Call::BondCount,
        7 => Call::BondBitmap,
        8..=15 => {
            let address = if g.chance(1, 5) { BROADCAST } else { address(g, &gateway.bonds, true) };
            let length = any_frame_length(g);
            Call::Send { request: request(g, address, length), time: time(g, &gateway.queue) }
        }
        _ => Call::Release { time: time(g, &gateway.queue) },
    }
}

/// Bytes of room for a confirmation.
pub fn room(g: &mut Rng) -> usize {
    match g.below(12) {
        0 => ROOM - 1,
        1 => g.pick(&[0, 10, 11, 12]),
        2 => g.within(0, ROOM - 2),
        3 => g.within(ROOM + 1, 300),
        _ => ROOM,
    }
}

/// A time before, at and after the last one given and the earliest release, and at the limit.
fn time(g: &mut Rng, queue: &SendQueue) -> u64 {
    let SendQueue { last, next, .. } = *queue;
    match g.below(32) {
        0 => last.saturating_sub(1),
        1 => g.within(0, last as usize) as u64,
        2..=5 => last,
        6..=7 => last + 1,
        8..=10 => next.saturating_sub(1),
        11..=17 => next,
        18..=19 => next + 1,
        20..=21 => next + g.within(1, 3000) as u64,
        22..=23 => last + g.within(1, 300) as u64,
        24 => last + g.within(0, LONGEST_WAIT as usize) as u64,
        25 if g.chance(1, 4) => LATEST,
        26 if g.chance(1, 2) => g.pick(&[LATEST + 1, LATEST + 2, 1 << 63, u64::MAX]),
        27 if g.chance(1, 4) => g.pick(&[0, LATEST - 1, 1 << 32]),
        _ => last.max(next),
    }
}

/// The address of a node that is bonded or one that is not, or any other address.
fn address(g: &mut Rng, bonds: &[u8; 32], bonded: bool) -> u16 {
    let of_kind = |bonded| (FIRST_NODE..=LAST_NODE).filter(move |&node| is_bonded(bonds, node) == bonded);
    let any = edge(g, FIRST_NODE as usize, LAST_NODE as usize) as u16;
    let bonded = if g.chance(1, 8) { !bonded } else { bonded };
    let nodes: Vec<u16> = of_kind(bonded).collect();
    let node = if nodes.is_empty() || g.chance(1, 6) { any } else { g.pick(&nodes) };
    if g.chance(1, 10) {
        no_node(g, node)
    } else {
        node
    }
}

/// An address outside the nodes; if it has a high byte, the low one is often this node's.
fn no_node(g: &mut Rng, node: u16) -> u16 {
    match g.below(8) {
        0 => 0,
        1 => 240,
        2 => g.within(240, 254) as u16,
        3 => 255,
        4..=5 => node | g.pick(&[0x0100, 0x8000, 0xFF00]),
        6 => 0x00FF | g.pick(&[0x0100, 0x8000, 0xFF00]),
        _ => g.word() | 0x0100,
    }
}

fn frame_length(g: &mut Rng) -> usize {
    if g.chance(1, 2) {
        HEADER + g.pick(&SLOT_LIMITS)
    } else {
        g.within(HEADER, LONGEST)
    }
}

/// Of a frame or of bytes that are none.
fn any_frame_length(g: &mut Rng) -> usize {
    match g.below(24) {
        0 => HEADER - 1,
        1 => LONGEST + 1,
        2 => g.pick(&[0, 1, 2, 64, 255, 256 + HEADER]),
        _ => frame_length(g),
    }
}

/// A request of this many bytes, with any PData.
pub fn request(g: &mut Rng, address: u16, length: usize) -> Request {
    let mut pdata = vec![0; length.saturating_sub(HEADER)];
    g.fill(&mut pdata);
    let mut frame = frame_of(address, g.byte(), g.byte(), g.word(), &pdata);
    frame.truncate(length);
    let [hops, response_hops] = [(); 2].map(|_| if g.chance(1, 3) { g.pick(&[0, 1, 255]) } else { g.byte() });
    let delay = if g.chance(1, 3) { g.pick(&[0, 1, 255, 256, 0xFFFF]) } else { g.word() };
    Request { frame, hops, response_hops, delay }
}
