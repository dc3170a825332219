//! The gateway's rules in ordinary Rust without allocation, with the C boundary
//! of include/grelfint.h: the benchmark's yardstick. The test `gateway` compares
//! it with the reference.
use super::reference::{is_node, BROADCAST, HEADER, LATEST, LONGEST, LONGEST_PDATA, LONGEST_WAIT, QUEUE, ROOM};
use grelfint::raw::{BitmapAnswer, BondAnswer, CountAnswer, Gateway, GatewayAnswer, ReleaseAnswer, SendQueue, Waiting};
use std::slice::{from_raw_parts, from_raw_parts_mut};

// ---- records ----
fn sound(gateway: &Gateway) -> bool {
    let Gateway { bonds, queue } = gateway;
    let bonds_are_sound = bonds[0] & 1 == 0 && bonds[30] == 0 && bonds[31] == 0;
    let times_are_sound = queue.last <= LATEST && queue.next <= queue.last + LONGEST_WAIT;
    let Some((waiting, free)) = queue.places.split_at_checked(queue.count as usize) else { return false };
    bonds_are_sound
        && times_are_sound
        && queue.network <= 1
        && waiting.iter().all(is_request)
        && free.iter().all(|place| *place == Waiting::ZERO)
}

fn is_request(place: &Waiting) -> bool {
    let length = place.length as usize;
    (HEADER..=LONGEST).contains(&length) && can_be_sent_to(nadr(&place.frame)) && are_zero(&place.frame[length..])
}

fn can_be_sent_to(nadr: u16) -> bool {
    is_node(nadr) || nadr == BROADCAST
}

/// Without an early end, so that many bytes are tested at once.
fn are_zero(bytes: &[u8]) -> bool {
    bytes.iter().fold(0, |all, byte| all | byte) == 0
}

fn nadr(frame: &[u8]) -> u16 {
    u16::from_le_bytes([frame[0], frame[1]])
}

fn accepts_time(queue: &SendQueue, time: u64) -> bool {
    (queue.last..=LATEST).contains(&time)
}

#[inline(never)]
pub extern "C" fn start(lp: bool, dpa_value: u8) -> Gateway {
    let queue = SendQueue { last: 0, next: 0, network: lp as u8, dpa_value, count: 0, places: [Waiting::ZERO; QUEUE] };
    Gateway { bonds: [0; 32], queue }
}

// ---- bonds ----
/// The byte and the bit of an address, which is below 256.
fn place_of(address: u16) -> (usize, u8) {
    (address as usize / 8, 1 << (address % 8))
}

fn is_bonded(bonds: &[u8; 32], address: u16) -> bool {
    let (byte, bit) = place_of(address);
    is_node(address) && bonds[byte] & bit != 0
}

fn count(bonds: &[u8; 32]) -> u8 {
    bonds.iter().map(|byte| byte.count_ones() as u8).sum()
}

#[inline(never)]
pub extern "C" fn bond(mut gateway: Gateway, address: u16) -> BondAnswer {
    if !sound(&gateway) {
        return BondAnswer { refusal: 1, count: 0, gateway };
    }
    if !is_node(address) || is_bonded(&gateway.bonds, address) {
        return BondAnswer { refusal: 12, count: 0, gateway };
    }
    let (byte, bit) = place_of(address);
    gateway.bonds[byte] |= bit;
    BondAnswer { refusal: 0, count: count(&gateway.bonds), gateway }
}

#[inline(never)]
pub extern "C" fn unbond(mut gateway: Gateway, address: u16) -> BondAnswer {
    if !sound(&gateway) {
        return BondAnswer { refusal: 1, count: 0, gateway };
    }
    if !is_bonded(&gateway.bonds, address) {
        return BondAnswer { refusal: 12, count: 0, gateway };
    }
    let (byte, bit) = place_of(address);
    gateway.bonds[byte] &= !bit;
    BondAnswer { refusal: 0, count: count(&gateway.bonds), gateway }
}

#[inline(never)]
pub extern "C" fn clear_bonds(mut gateway: Gateway) -> BondAnswer {
    if !sound(&gateway) {
        return BondAnswer { refusal: 1, count: 0, gateway };
    }
    gateway.bonds = [0; 32];
    BondAnswer { refusal: 0, count: 0, gateway }
}

#[inline(never)]
pub extern "C" fn bond_count(gateway: Gateway) -> CountAnswer {
    if !sound(&gateway) {
        return CountAnswer { refusal: 1, count: 0 };
    }
    CountAnswer { refusal: 0, count: count(&gateway.bonds) }
}

#[inline(never)]
pub extern "C" fn bond_bitmap(gateway: Gateway) -> BitmapAnswer {
    if !sound(&gateway) {
        return BitmapAnswer { refusal: 1, bitmap: [0; 32] };
    }
    BitmapAnswer { refusal: 0, bitmap: gateway.bonds }
}

// ---- send queue ----
/// # Safety
/// The pointer and the length are a slice.
#[inline(never)]
pub unsafe extern "C" fn send(
    mut gateway: Gateway,
    frame: *const u8,
    frame_length: usize,
    hops: u8,
    response_hops: u8,
    delay: u16,
    time: u64,
) -> GatewayAnswer {
    let refusal = put(&mut gateway, from_raw_parts(frame, frame_length), hops, response_hops, delay, time);
    GatewayAnswer { refusal, gateway }
}

/// The refusal; the gateway is changed if it is 0.
#[inline(always)]
fn put(gateway: &mut Gateway, frame: &[u8], hops: u8, response_hops: u8, delay: u16, time: u64) -> u8 {
    if !sound(gateway) {
        return 1;
    }
    if !(HEADER..=LONGEST).contains(&frame.len()) {
        return 2;
    }
    let nadr = nadr(frame);
    if nadr != BROADCAST && !is_bonded(&gateway.bonds, nadr) {
        return 12;
    }
    let queue = &mut gateway.queue;
    if queue.count as usize == QUEUE {
        return 13;
    }
    if !accepts_time(queue, time) {
        return 14;
    }
    let place = &mut queue.places[queue.count as usize]; // free, and so all zero
    (place.length, place.hops, place.response_hops, place.delay) = (frame.len() as u8, hops, response_hops, delay);
    place.frame[..frame.len()].copy_from_slice(frame);
    queue.count += 1;
    queue.last = time;
    0
}

/// # Safety
/// The pointer and the length are a slice.
#[inline(never)]
pub unsafe extern "C" fn release(mut gateway: Gateway, time: u64, out: *mut u8, out_length: usize) -> ReleaseAnswer {
    let out = from_raw_parts_mut(out, out_length);
    if !sound(&gateway) {
        return ReleaseAnswer { refusal: 1, ..ReleaseAnswer::zeros(gateway) };
    }
    if out.len() < ROOM {
        return ReleaseAnswer { refusal: 3, ..ReleaseAnswer::zeros(gateway) };
    }
    let queue = &mut gateway.queue;
    if !accepts_time(queue, time) {
        return ReleaseAnswer { refusal: 14, ..ReleaseAnswer::zeros(gateway) };
    }
    queue.last = time;
    if time < queue.next || queue.count == 0 {
        return ReleaseAnswer::zeros(gateway);
    }
    let released = queue.places[0];
    let length = released.length as usize;
    let slot = slot(length - HEADER, queue.network);
    let response_hops = if nadr(&released.frame) == BROADCAST { None } else { Some(released.response_hops) };
    out[..HEADER].copy_from_slice(&released.frame[..HEADER]);
    out[HEADER..11].copy_from_slice(&[0xFF, queue.dpa_value, released.hops, slot, response_hops.unwrap_or(0)]);

    let there = (released.hops as u64 + 1) * slot as u64 * 10;
    let back = response_hops.map_or(0, |hops| (hops as u64 + 1) * self::slot(LONGEST_PDATA, queue.network) as u64 * 10);
    queue.next = time + there + released.delay as u64 + back;
    queue.places.copy_within(1.., 0);
    queue.places[QUEUE - 1] = Waiting::ZERO;
    queue.count -= 1;
    ReleaseAnswer { refusal: 0, released: true, length: 11, frame_length: length, frame: released.frame, gateway }
}

/// In units of 10 ms.
fn slot(pdata: usize, network: u8) -> u8 {
    let std = match pdata {
        0..=16 => 4,
        17..=40 => 5,
        _ => 6,
    };
    std + 4 * network
}
