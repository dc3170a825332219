//! Refusals, and records that keep or break the rule.
use crate::station::{every_call, request, to_node_5, Station, ALL_BONDS};
use grelfint::raw::{BitmapAnswer, BondAnswer, Gateway, GatewayAnswer, ReleaseAnswer, SendQueue, Waiting};
use grelfint_tests::buffers::GUARD;
use grelfint_tests::gateway::random::Clause;
use grelfint_tests::gateway::reference::{BROADCAST, LATEST, LONGEST_WAIT};
use grelfint_tests::gateway::seen::clauses_broken_in;
use grelfint_tests::gateway::sides::{Call, Side, REFERENCE};
use grelfint_tests::on_every_side;
use grelfint_tests::records::varied_gateway;

on_every_side! { gateway [
    every_field_of_a_gateway,
    room_for_a_confirmation,
    order_of_refusals,
    broken_records,
    sound_records,
] }

/// No field, place or byte takes the place of another.
fn every_field_of_a_gateway(side: Side) {
    let before = varied_gateway();
    assert_eq!((side.bond_bitmap)(before), BitmapAnswer { refusal: 0, bitmap: before.bonds });
    let mut after = before;
    after.bonds[0] |= 1 << 2;
    assert_eq!((side.bond)(before, 2), BondAnswer { refusal: 0, count: 76, gateway: after });
    assert_eq!((side.unbond)(after, 2), BondAnswer { refusal: 0, count: 75, gateway: before });
    after.bonds = [0; 32];
    assert_eq!((side.clear_bonds)(before), BondAnswer { refusal: 0, count: 0, gateway: after });

    let (time, sent) = (before.queue.next, request(1, 30, 0x21, 0x22, 0x2324));
    let mut frame = [0; 62];
    frame[..36].copy_from_slice(&sent.frame);
    let mut after = before;
    after.queue.places[7] = Waiting { delay: 0x2324, length: 36, hops: 0x21, response_hops: 0x22, frame };
    (after.queue.count, after.queue.last) = (8, time);
    assert_eq!(
        (side.send)(before, &sent.frame, 0x21, 0x22, 0x2324, time),
        GatewayAnswer { refusal: 0, gateway: after }
    );

    let released = before.queue.places[0];
    let mut after = before;
    after.queue.places.copy_within(1.., 0);
    // (0x31 + 1) × 80 + 0x1100 + (0x41 + 1) × 100
    (after.queue.count, after.queue.last, after.queue.next) = (6, time, time + 14_952);
    let mut out = [0xEE; 64];
    let want = ReleaseAnswer {
        refusal: 0,
        released: true,
        length: 11,
        frame_length: 20,
        frame: released.frame,
        gateway: after,
    };
    assert_eq!((side.release)(before, time, &mut out), want);
    assert_eq!(out[..11], [&released.frame[..6], &[0xFF, 0x65, 0x31, 8, 0x41]].concat());
    assert_eq!(out[11..], [0xEE; 53]);
}

fn room_for_a_confirmation(side: Side) {
    let empty = Station::with_node_5(side).gateway;
    let mut station = Station::with_node_5(side);
    station.send(&to_node_5(2), 0);
    let due = station.gateway;
    station.send(&to_node_5(3), 0);
    station.release_it(&to_node_5(2), 0);
    let early = station.gateway;
    for (gateway, released) in [(empty, false), (due, true), (early, false)] {
        for room in [0, 1, 10, 11, 12, 62, 63, 64, 65, 300] {
            let mut out = vec![0xEE; room + GUARD];
            let answer = (side.release)(gateway, 5, &mut out[..room]);
            assert_eq!((answer.refusal, answer.released), if room < 64 { (3, false) } else { (0, released) });
            if room < 64 {
                assert_eq!(answer, ReleaseAnswer { refusal: 3, ..ReleaseAnswer::zeros(gateway) });
            }
            let written = if answer.released { 11 } else { 0 };
            assert_eq!(answer.length, written);
            assert!(out[written..].iter().all(|&byte| byte == 0xEE), "room {room}");
        }
    }
}

/// Every set of refusals that can apply to one call: the first of them is given.
fn order_of_refusals(side: Side) {
    let has = |faults: u32, fault: u32| faults >> fault & 1 == 1;
    for faults in 0..32 {
        let mut station = Station::with_node_5(side);
        for _ in 0..if has(faults, 3) { 8 } else { 7 } {
            station.send(&to_node_5(1), 100);
        }
        if has(faults, 0) {
            station.gateway.queue.network = 2;
        }
        let mut sent = to_node_5(0);
        if has(faults, 1) {
            sent.frame.truncate(5);
        }
        if has(faults, 2) {
            sent.frame[0] = 6;
        }
        let call = Call::Send { request: sent, time: if has(faults, 4) { 99 } else { 100 } };
        match [1, 2, 12, 13, 14].get(faults.trailing_zeros() as usize) {
            Some(refusal) => station.refuse(call, *refusal),
            None => assert_eq!(station.accept(call), None),
        }
    }
    for faults in 0..8 {
        for waiting in [false, true] {
            let mut station = Station::with_node_5(side);
            station.accept(Call::Release { time: 100 });
            if waiting {
                station.send(&to_node_5(1), 100);
            }
            if has(faults, 0) {
                station.gateway.queue.network = 2;
            }
            let mut out = vec![0xEE; if has(faults, 1) { 63 } else { 64 }];
            let answer = (side.release)(station.gateway, if has(faults, 2) { 99 } else { 100 }, &mut out);
            let refusal = [1, 3, 14].get(faults.trailing_zeros() as usize).copied().unwrap_or(0);
            if refusal == 0 {
                assert_eq!((answer.refusal, answer.released), (0, waiting));
            } else {
                assert_eq!(answer, ReleaseAnswer { refusal, ..ReleaseAnswer::zeros(station.gateway) });
                assert!(out.iter().all(|&byte| byte == 0xEE), "written though refused");
            }
        }
    }
    let mut broken = Station::with_node_5(side);
    broken.gateway.queue.network = 2;
    for call in [Call::Bond(5), Call::Bond(240), Call::Unbond(6), Call::Unbond(0)] {
        broken.refuse(call, 1);
    }
}

/// Three requests wait, of 6, 30 and 62 bytes, the last for all nodes; one was released.
fn usual_record(side: Side) -> Gateway {
    let mut station = Station::with_node_5(side);
    for address in [1, 100, 239] {
        station.accept(Call::Bond(address));
    }
    for (address, pdata) in [(5, 3), (5, 0), (239, 24), (BROADCAST, 56)] {
        station.send(&request(address, pdata, 1, 2, 3), 1000);
    }
    station.release(1000).expect("the first request");
    station.gateway
}

/// The record with eight requests.
fn full_record(side: Side) -> Gateway {
    let mut gateway = usual_record(side);
    let [oldest, ..] = gateway.queue.places;
    gateway.queue.places[3..].fill(oldest);
    gateway.queue.count = 8;
    gateway
}

/// Each clause broken alone: every call refuses the record and hands it back as it is.
fn broken_records(side: Side) {
    let mut records: Vec<(Clause, Gateway)> = Vec::new();
    let mut add = |clause, record: Gateway, change: &dyn Fn(&mut Gateway)| {
        let mut record = record;
        change(&mut record);
        records.push((clause, record));
    };
    let (usual, full) = (usual_record(side), full_record(side));
    add(Clause::BondOf0, usual, &|r| r.bonds[0] |= 1);
    for address in 240..256 {
        add(Clause::BondFrom240, usual, &|r| r.bonds[address / 8] |= 1 << (address % 8));
    }
    for number in [2, 3, 128, 255] {
        add(Clause::Network, usual, &|r| r.queue.network = number);
    }
    for number in [9, 10, 16, 128, 255] {
        add(Clause::Count, full, &|r| r.queue.count = number);
    }
    for (record, waiting) in [(usual, 3), (full, 8)] {
        for i in 0..waiting {
            let shorten = |r: &mut Gateway, length: u8| {
                r.queue.places[i].length = length;
                r.queue.places[i].frame[length as usize..].fill(0);
            };
            for length in 1..6 {
                add(Clause::ShortFrame, record, &|r| shorten(r, length));
            }
            for length in [63, 64, 127, 128, 255] {
                add(Clause::LongFrame, record, &|r| r.queue.places[i].length = length);
            }
            for address in [0u16, 240, 241, 254, 0x0100, 0x0101, 0x01EF, 0x01FF, 0x8005, 0xFF00, 0xFFFF] {
                add(Clause::Nadr, record, &|r| r.queue.places[i].frame[..2].copy_from_slice(&address.to_le_bytes()));
            }
            for length in [6, 40, 61] {
                for byte in length..62 {
                    add(Clause::AfterFrame, record, &|r| {
                        shorten(r, length);
                        r.queue.places[i].frame[byte as usize] = if byte % 2 == 0 { 1 } else { 0x80 };
                    });
                }
            }
        }
    }
    for i in 3..8 {
        add(Clause::FreePlace, usual, &|r| r.queue.places[i].delay = 1);
        add(Clause::FreePlace, usual, &|r| r.queue.places[i].delay = 0x0100);
        add(Clause::FreePlace, usual, &|r| r.queue.places[i].length = 6);
        add(Clause::FreePlace, usual, &|r| r.queue.places[i].hops = 1);
        add(Clause::FreePlace, usual, &|r| r.queue.places[i].response_hops = 1);
        add(Clause::FreePlace, usual, &|r| r.queue.places[i] = r.queue.places[0]);
        for byte in 0..62 {
            add(Clause::FreePlace, usual, &|r| r.queue.places[i].frame[byte] = if byte % 2 == 0 { 1 } else { 0x80 });
        }
    }
    for last in [LATEST + 1, LATEST + 2, 1 << 41, 1 << 63, u64::MAX - LONGEST_WAIT, u64::MAX] {
        for next in [0, LATEST, last] {
            add(Clause::Last, usual, &|r| (r.queue.last, r.queue.next) = (last, next));
        }
    }
    for last in [0, 1, 1000, LATEST] {
        for next in [last + LONGEST_WAIT + 1, last + LONGEST_WAIT + 2, 1 << 63, u64::MAX] {
            add(Clause::Next, usual, &|r| (r.queue.last, r.queue.next) = (last, next));
        }
    }
    for (clause, gateway) in &records {
        assert_eq!(clauses_broken_in(gateway), [*clause]);
    }
    // and everything that a record can break
    let place = Waiting { delay: 0xFFFF, length: 255, hops: 255, response_hops: 255, frame: [0xFF; 62] };
    let places = [place; 8];
    let queue = SendQueue { last: u64::MAX, next: u64::MAX, network: 255, dpa_value: 255, count: 255, places };
    let all_ones = Gateway { bonds: [0xFF; 32], queue };
    let no_frames = Gateway { queue: SendQueue { count: 8, ..(side.start)(false, 0).queue }, ..usual };
    for gateway in records.into_iter().map(|(_, gateway)| gateway).chain([all_ones, no_frames]) {
        let station = Station { side, gateway };
        for time in [0, 5000, LATEST] {
            for call in every_call(time) {
                station.refuse(call, 1);
            }
        }
    }
}

/// Records at the limits of the rule, which no call refuses with 1.
fn sound_records(side: Side) {
    let (usual, full) = (usual_record(side), full_record(side));
    let mut records = vec![usual, full, (side.start)(false, 0), (side.start)(true, 255)];
    for record in [usual, full] {
        for (last, next) in [
            (0, 0),
            (0, LONGEST_WAIT),
            (LATEST, 0), // long ago
            (LATEST, LATEST - 1),
            (LATEST, LATEST + LONGEST_WAIT),
        ] {
            records.push(Gateway { queue: SendQueue { last, next, ..record.queue }, ..record });
        }
        for bonds in [ALL_BONDS, [0; 32]] {
            // requests need no bond once they wait
            records.push(Gateway { bonds, ..record });
        }
        for address in [1, 2, 239, BROADCAST] {
            for length in [6, 7, 61, 62] {
                for byte in [0, 0xFF] {
                    // zeros may be bytes of a frame too
                    let mut frame = [0; 62];
                    frame[..length as usize].fill(byte);
                    frame[..2].copy_from_slice(&u16::to_le_bytes(address));
                    let mut changed = record;
                    changed.queue.places[record.queue.count as usize - 1] =
                        Waiting { delay: 65_535, length, hops: 255, response_hops: 255, frame };
                    records.push(changed);
                }
            }
        }
    }
    for gateway in records {
        for call in every_call(LATEST) {
            let mut out = [0; 64];
            let answer = side.call(gateway, &call, &mut out);
            assert_ne!(answer.refusal(), 1, "{call:?} {gateway:?}");
            assert_eq!(answer, REFERENCE.call(gateway, &call, &mut [0; 64]), "{call:?} {gateway:?}");
        }
    }
}
