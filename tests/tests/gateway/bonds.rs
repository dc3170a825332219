//! Bonds (000, 3.2).
use crate::station::{request, Station, ALL_BONDS, DPA_VALUE};
use grelfint::raw::{Gateway, SendQueue, Waiting};
use grelfint_tests::gateway::sides::{Call, Side};
use grelfint_tests::on_every_side;

on_every_side! { gateway [
    new_gateways,
    addresses_that_can_be_bonded,
    bonded_once,
    bit_of_each_address,
    all_bonds,
    clearing_bonds,
    bonds_and_queue_are_apart,
] }

fn new_gateways(side: Side) {
    for (lp, network) in [(false, 0), (true, 1)] {
        for dpa_value in [0, 1, 255] {
            let queue = SendQueue { last: 0, next: 0, network, dpa_value, count: 0, places: [Waiting::ZERO; 8] };
            assert_eq!((side.start)(lp, dpa_value), Gateway { bonds: [0; 32], queue });
        }
    }
}

fn addresses_that_can_be_bonded(side: Side) {
    let mut station = Station::new(side, false);
    for address in (240..=512).chain([0, 0x01EF, 0x8001, 0xFF00, 0xFFFE, 0xFFFF]) {
        station.refuse(Call::Bond(address), 12);
        station.refuse(Call::Unbond(address), 12);
    }
    assert_eq!(station.accept(Call::Bond(1)), Some(1));
    assert_eq!(station.accept(Call::Bond(239)), Some(2));
    assert_eq!(station.accept(Call::Bond(2)), Some(3));
    // a high byte is not ignored
    for address in [257, 0x01EF, 0x8001] {
        station.refuse(Call::Bond(address), 12);
        station.refuse(Call::Unbond(address), 12);
    }
}

fn bonded_once(side: Side) {
    let mut station = Station::new(side, false);
    for address in [1, 7, 8, 128, 239] {
        station.refuse(Call::Unbond(address), 12);
        assert_eq!(station.accept(Call::Bond(address)), Some(1));
        station.refuse(Call::Bond(address), 12);
        assert_eq!(station.accept(Call::Unbond(address)), Some(0));
        station.refuse(Call::Unbond(address), 12);
        assert_eq!(station.accept(Call::Bond(address)), Some(1));
        assert_eq!(station.accept(Call::Unbond(address)), Some(0));
    }
}

/// 000, 3.2.4: address 0 at bit 0 of the first byte, address 1 at bit 1, and so on.
fn bit_of_each_address(side: Side) {
    for (address, byte, bits) in [(1, 0, 0x02), (7, 0, 0x80), (8, 1, 0x01), (20, 2, 0x10), (239, 29, 0x80)] {
        let mut station = Station::new(side, false);
        station.accept(Call::Bond(address));
        let mut bitmap = [0; 32];
        bitmap[byte] = bits;
        assert_eq!((station.bitmap(), station.count()), (bitmap, 1), "{address}");
        assert_eq!(station.gateway.bonds, bitmap);
    }
}

/// Each node is added, and then removed, in an order that jumps.
fn all_bonds(side: Side) {
    let mut station = Station::new(side, true);
    let mut bitmap = [0u8; 32];
    let order = |i: u16| (i * 100) % 239 + 1;
    for i in 0..239 {
        assert_eq!(station.accept(Call::Bond(order(i))), Some(i as u8 + 1));
        bitmap[order(i) as usize / 8] ^= 1 << (order(i) % 8);
        assert_eq!((station.bitmap(), station.count()), (bitmap, i as u8 + 1));
    }
    assert_eq!(bitmap, ALL_BONDS);
    for address in 0..=256 {
        station.refuse(Call::Bond(address), 12);
    }
    for i in 0..239 {
        assert_eq!(station.accept(Call::Unbond(order(i))), Some(238 - i as u8));
        bitmap[order(i) as usize / 8] ^= 1 << (order(i) % 8);
        assert_eq!((station.bitmap(), station.count()), (bitmap, 238 - i as u8));
    }
    assert_eq!(station.gateway, (side.start)(true, DPA_VALUE));
}

fn clearing_bonds(side: Side) {
    let mut station = Station::new(side, false);
    let new = station.gateway;
    assert_eq!(station.accept(Call::ClearBonds), Some(0)); // there is none
    for address in 1..=239 {
        station.accept(Call::Bond(address));
    }
    assert_eq!(station.accept(Call::ClearBonds), Some(0));
    assert_eq!((station.bitmap(), station.count()), ([0; 32], 0));
    assert_eq!(station.gateway, new);
    for address in [1, 239] {
        station.refuse(Call::Unbond(address), 12);
        station.accept(Call::Bond(address));
    }
}

/// The bonds stay when requests come and go, and the queue when bonds do.
fn bonds_and_queue_are_apart(side: Side) {
    let mut station = Station::with_node_5(side);
    for address in [1, 239] {
        station.accept(Call::Bond(address));
    }
    let bonds = station.gateway.bonds;
    for i in 0..8 {
        station.send(&request(if i < 4 { 5 } else { 239 }, i, 1, 2, 3), 50);
    }
    station.release(50).expect("the first request is due");
    assert_eq!(station.release(60), None);
    assert_eq!(station.gateway.bonds, bonds);
    let queue = station.gateway.queue;
    assert_eq!((queue.last, queue.count), (60, 7));
    for call in [Call::Bond(6), Call::Unbond(5), Call::BondCount, Call::BondBitmap, Call::ClearBonds, Call::Bond(5)] {
        station.accept(call);
        assert_eq!(station.gateway.queue, queue);
    }
}
