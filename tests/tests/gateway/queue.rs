//! The send queue (003): waiting, order, requests and times.
use crate::station::{request, to_node_5, Station, DPA_VALUE};
use grelfint::raw::{Gateway, ReleaseAnswer, SendQueue, Waiting};
use grelfint_tests::gateway::reference::{nadr, BROADCAST, LATEST, LONGEST_WAIT};
use grelfint_tests::gateway::sides::{Call, Request, Side};
use grelfint_tests::on_every_side;

on_every_side! { gateway [
    first_release_at_any_time,
    guide_example,
    wait_for_each_slot,
    wait_for_hops_and_delay,
    broadcasts,
    exactly_when_due,
    wait_runs_from_the_release,
    order_of_arrival,
    eight_requests,
    places_of_a_record,
    places_used_again,
    lengths_of_a_request,
    addresses_of_a_request,
    removed_bonds_withdraw_nothing,
    times_that_are_accepted,
    every_release_takes_the_time,
    refused_calls_take_no_time,
    last_time_of_all,
] }

// ---- waiting ----
fn first_release_at_any_time(side: Side) {
    for time in [0, 1, 99, 1 << 32, LATEST] {
        let mut station = Station::with_node_5(side);
        assert_eq!(station.release(0), None); // no request is waiting
        station.send(&to_node_5(3), 0);
        station.release_it(&to_node_5(3), time);
    }
}

/// Document 01's example, hops 2 and 3, 5 bytes of PData, delay 20, has 340 ms with a response in a slot of 50 ms; with
/// the longest, 60 ms, it is 40 more.
fn guide_example(side: Side) {
    let mut station = Station::with_node_5(side);
    let [first, second] = [request(5, 5, 2, 3, 20), to_node_5(0)];
    station.send(&first, 10);
    station.send(&second, 11);
    let (frame, confirmation) = station.release(1000).expect("the first request");
    assert_eq!(frame, [0x05, 0x00, 0x71, 0x00, 0x71, 0x24, 1, 2, 3, 4, 5]);
    assert_eq!(confirmation, [0x05, 0x00, 0x71, 0x00, 0x71, 0x24, 0xFF, DPA_VALUE, 2, 4, 3]);
    assert_eq!(station.gateway.queue.next, 1380);
    station.release_not_before(&second, 1380);
}

/// One hop to the node and two back, delay 7. By hand, in an STD network with less than 17 bytes of PData:
/// (1 + 1) × 40 + 7 + (2 + 1) × 60 = 267.
fn wait_for_each_slot(side: Side) {
    for (lp, pdata, slot, wait) in [
        (false, [0, 1, 16], 4, 267),
        (false, [17, 30, 40], 5, 287),
        (false, [41, 50, 56], 6, 307),
        (true, [0, 1, 16], 8, 467),
        (true, [17, 30, 40], 9, 487),
        (true, [41, 50, 56], 10, 507),
    ] {
        for pdata in pdata {
            let mut station = Station::new(side, lp);
            station.accept(Call::Bond(5));
            let next = to_node_5(56); // its length does not matter
            station.send(&request(5, pdata, 1, 2, 7), 0);
            station.send(&next, 0);
            let (_, confirmation) = station.release(5000).expect("the first request");
            assert_eq!(confirmation[8..], [1, slot, 2]);
            assert_eq!(station.gateway.queue.next, 5000 + wait, "{lp} {pdata}");
            station.release_not_before(&next, 5000 + wait);
        }
    }
}

/// In an STD network without PData: (hops + 1) × 40 + delay + (response hops + 1) × 60. At last the longest of all.
fn wait_for_hops_and_delay(side: Side) {
    for (hops, response_hops, delay, wait) in [
        (0, 0, 0, 100),
        (9, 0, 0, 460),
        (0, 9, 0, 640),
        (254, 0, 0, 10_260),
        (255, 0, 0, 10_300),
        (0, 255, 0, 15_400),
        (0, 0, 1, 101),
        (0, 0, 256, 356),
        (0, 0, 65_535, 65_635),
    ] {
        let mut station = Station::with_node_5(side);
        station.send(&request(5, 0, hops, response_hops, delay), 0);
        station.send(&to_node_5(1), 0);
        let (_, confirmation) = station.release(77).expect("the first request");
        assert_eq!(confirmation[8..], [hops, 4, response_hops]);
        station.release_not_before(&to_node_5(1), 77 + wait);
    }
    let mut station = Station::new(side, true);
    station.accept(Call::Bond(5));
    station.send(&request(5, 56, 255, 255, 65_535), 0);
    station.send(&to_node_5(0), 0);
    station.release(77).expect("the first request");
    assert_eq!(station.gateway.queue.next, 77 + LONGEST_WAIT);
    station.release_not_before(&to_node_5(0), 77 + LONGEST_WAIT);
}

/// They need no bond. Nothing comes back: no wait for it, and 0 for the response hops in the confirmation.
fn broadcasts(side: Side) {
    for (lp, pdata, slot, wait) in [
        (false, 0, 4, 87),
        (false, 17, 5, 107),
        (false, 56, 6, 127),
        (true, 16, 8, 167),
        (true, 40, 9, 187),
        (true, 41, 10, 207),
    ] {
        let mut station = Station::new(side, lp);
        for _ in 0..2 {
            station.send(&request(BROADCAST, pdata, 1, 2, 7), 0);
        }
        let (frame, confirmation) = station.release(300).expect("the first request");
        assert_eq!(frame, request(BROADCAST, pdata, 0, 0, 0).frame);
        assert_eq!(confirmation, [0xFF, 0, 0x71, 0, 0x71, 0x24, 0xFF, DPA_VALUE, 1, slot, 0]);
        assert_eq!(station.gateway.queue.next, 300 + wait);
        station.release_not_before(&request(BROADCAST, pdata, 0, 0, 0), 300 + wait);
    }
    // (255 + 1) × 100 + 65,535
    let mut station = Station::new(side, true);
    station.send(&request(BROADCAST, 56, 255, 255, 65_535), 0);
    station.release(0).expect("the request");
    assert_eq!(station.gateway.queue.next, 91_135);
}

/// The wait is over at its last millisecond, however often it was too early; later is no fault.
fn exactly_when_due(side: Side) {
    for late in [0, 1, 1000] {
        let mut station = Station::with_node_5(side);
        for pdata in 0..3 {
            station.send(&to_node_5(pdata), 20);
        }
        station.release_it(&to_node_5(0), 20);
        for early in [20, 20, 21, 70, 118, 119, 119] {
            assert_eq!(station.release(early), None);
        }
        station.release_it(&to_node_5(1), 120 + late);
        station.release_not_before(&to_node_5(2), 220 + late);
    }
}

/// Neither when a request was sent nor when it could have been released counts, but when the one before was released.
fn wait_runs_from_the_release(side: Side) {
    let mut station = Station::with_node_5(side);
    station.send(&to_node_5(0), 0);
    station.release_it(&to_node_5(0), 500);
    station.send(&to_node_5(1), 550);
    station.send(&to_node_5(2), 900);
    station.release_it(&to_node_5(1), 1000);
    assert_eq!(station.gateway.queue.next, 1100);
    // an empty queue does not forget
    station.release_not_before(&to_node_5(2), 1100);
    assert_eq!(station.release(1150), None);
    station.send(&to_node_5(3), 1160);
    station.release_not_before(&to_node_5(3), 1200);
}

// ---- order and places ----
fn order_of_arrival(side: Side) {
    let mut station = Station::with_node_5(side);
    station.accept(Call::Bond(6));
    // different nodes and broadcasts, the longest and the shortest
    let requests: Vec<Request> = [(6, 56), (5, 0), (5, 20), (255, 56), (6, 1), (255, 0), (5, 55), (6, 0)]
        .into_iter()
        .enumerate()
        .map(|(i, (address, pdata))| request(address, pdata, i as u8, 10 + i as u8, 100 * i as u16))
        .collect();
    for sent in &requests {
        station.send(sent, 1);
    }
    for (i, sent) in requests.iter().enumerate() {
        let time = station.gateway.queue.next.max(1);
        let (frame, confirmation) = station.release(time).expect("one is due");
        assert_eq!(frame, sent.frame);
        let response_hops = if nadr(&frame) == BROADCAST { 0 } else { 10 + i as u8 };
        assert_eq!((confirmation[8], confirmation[10]), (i as u8, response_hops));
        assert_eq!(station.gateway.queue.count as usize, 7 - i);
    }
    assert_eq!(station.release(1_000_000), None);
}

fn eight_requests(side: Side) {
    let mut station = Station::with_node_5(side);
    for pdata in 0..8 {
        station.send(&to_node_5(pdata), 4);
    }
    let ninth = Call::Send { request: to_node_5(8), time: 4 };
    station.refuse(ninth.clone(), 13);
    station.refuse(Call::Send { request: request(BROADCAST, 0, 0, 0, 0), time: 5 }, 13);
    station.release_it(&to_node_5(0), 4);
    station.accept(ninth);
    station.refuse(Call::Send { request: to_node_5(9), time: 4 }, 13);
    for pdata in 1..9 {
        station.release_not_before(&to_node_5(pdata), 4 + 100 * pdata as u64);
    }
}

/// The oldest request is in the first place; what is not used is zero. A request is kept as it was given, the response
/// hops of a broadcast too.
fn places_of_a_record(side: Side) {
    let place = |request: &Request| {
        let mut frame = [0; 62];
        frame[..request.frame.len()].copy_from_slice(&request.frame);
        let Request { hops, response_hops, delay, .. } = *request;
        Waiting { delay, length: request.frame.len() as u8, hops, response_hops, frame }
    };
    let mut station = Station::with_node_5(side);
    let mut want = station.gateway;
    let requests = [(5, 56), (5, 0), (BROADCAST, 30)]
        .map(|(address, pdata)| request(address, pdata, 1 + pdata as u8, 2 * pdata as u8, 3000 + pdata as u16));
    for (i, request) in requests.iter().enumerate() {
        station.send(request, 70 + i as u64);
        want.queue.places[i] = place(request);
        (want.queue.count, want.queue.last) = (i as u8 + 1, 70 + i as u64);
        assert_eq!(station.gateway, want);
    }
    // (57 + 1) × 60 + 3056 + (112 + 1) × 60, and (1 + 1) × 40 + 3000 + (0 + 1) × 60
    for (i, wait) in [13_316, 3_140].into_iter().enumerate() {
        let time = 20_000 * (i as u64 + 1);
        station.release_it(&requests[i], time);
        want.queue.places.copy_within(1.., 0);
        want.queue.count -= 1;
        (want.queue.last, want.queue.next) = (time, time + wait);
        assert_eq!(station.gateway, want);
    }
}

/// Forty requests pass through the queue, long and short ones by turns, with one to eight waiting.
fn places_used_again(side: Side) {
    for most in 1..=8 {
        let mut station = Station::with_node_5(side);
        let requests: Vec<Request> = (0..40).map(|i| request(5, (i * 37) % 57, i as u8, 0, 9)).collect();
        let mut sent = 0;
        for i in 0..requests.len() {
            let time = station.gateway.queue.next;
            while sent < requests.len() && sent < i + most {
                station.send(&requests[sent], time);
                sent += 1;
            }
            station.release_it(&requests[i], time);
        }
        assert_eq!(station.gateway.queue.places, [Waiting::ZERO; 8]);
    }
}

// ---- requests ----
fn lengths_of_a_request(side: Side) {
    let mut station = Station::with_node_5(side);
    let of_length = |length: usize| {
        let mut frame = [5, 0, 0x71, 0, 0xFF, 0xFF].to_vec();
        frame.resize(length, 0xAB);
        Request { frame, hops: 0, response_hops: 0, delay: 0 }
    };
    for length in [0, 1, 2, 5, 63, 64, 128, 255, 256, 256 + 6, 65_536 + 6] {
        station.refuse(Call::Send { request: of_length(length), time: 0 }, 2);
    }
    for length in [6, 7, 61, 62] {
        station.send(&of_length(length), 0);
    }
    for length in [6, 7, 61, 62] {
        let time = station.gateway.queue.next;
        station.release_it(&of_length(length), time);
    }
}

/// All bonded nodes and all nodes at once, but no other address.
fn addresses_of_a_request(side: Side) {
    let mut station = Station::with_node_5(side);
    for address in [1, 239] {
        station.accept(Call::Bond(address));
    }
    let unbonded = [0, 2, 4, 6, 238];
    let reserved = 240..=254;
    let with_high_byte = [0x0100, 0x0101, 0x0105, 0x01EF, 0x01FF, 0x0500, 0x8005, 0xEF00, 0xFF00, 0xFF05, 0xFFFF];
    for address in unbonded.into_iter().chain(reserved).chain(with_high_byte) {
        station.refuse(Call::Send { request: request(address, 4, 0, 0, 0), time: 0 }, 12);
    }
    for address in [1, 5, 239, BROADCAST] {
        station.send(&request(address, 4, 0, 0, 0), 0);
    }
    for address in [1, 5, 239, BROADCAST] {
        let time = station.gateway.queue.next;
        station.release_it(&request(address, 4, 0, 0, 0), time);
    }
}

fn removed_bonds_withdraw_nothing(side: Side) {
    for remove in [Call::Unbond(5), Call::ClearBonds] {
        let mut station = Station::with_node_5(side);
        station.accept(Call::Bond(6));
        for address in [6, 5, 5] {
            station.send(&request(address, 1, 0, 0, 0), 0);
        }
        let queue = station.gateway.queue;
        station.accept(remove);
        assert_eq!(station.gateway.queue, queue);
        station.refuse(Call::Send { request: to_node_5(1), time: 0 }, 12);
        for (i, address) in [6, 5, 5].into_iter().enumerate() {
            let (frame, confirmation) = station.release(100 * i as u64).expect("it is still there");
            assert_eq!(frame, request(address, 1, 0, 0, 0).frame);
            assert_eq!(confirmation, [address as u8, 0, 0x71, 0, 0x71, 0x24, 0xFF, DPA_VALUE, 0, 4, 0]);
        }
        station.accept(Call::Bond(if station.gateway.bonds[0] == 0 { 6 } else { 5 }));
    }
}

// ---- times ----
/// Not before the last one given, and not above 2^40, for a send and for a release.
fn times_that_are_accepted(side: Side) {
    let calls = |time| [Call::Send { request: to_node_5(0), time }, Call::Release { time }];
    for last in [1, 2, 1000, (1 << 32) + 5, LATEST - 1, LATEST] {
        for by_send in [false, true] {
            let mut station = Station::with_node_5(side);
            station.accept(if by_send {
                Call::Send { request: to_node_5(1), time: last }
            } else {
                Call::Release { time: last }
            });
            assert_eq!(station.gateway.queue.last, last);
            for time in [0, last - 1, last / 2, LATEST + 1, LATEST + 2, 1 << 41, 1 << 63, u64::MAX] {
                for call in calls(time) {
                    station.refuse(call, 14);
                }
            }
            for time in [last, last.max(LATEST - 1), LATEST] {
                for call in calls(time) {
                    let mut out = [0; 64];
                    assert_eq!(side.call(station.gateway, &call, &mut out).refusal(), 0, "{call:?}");
                }
            }
        }
    }
}

/// Released, too early or nothing to release: the time is the last one given from then on.
fn every_release_takes_the_time(side: Side) {
    let mut station = Station::with_node_5(side);
    assert_eq!(station.release(30), None); // none waiting
    assert_eq!(station.gateway.queue, SendQueue { last: 30, ..(side.start)(false, DPA_VALUE).queue });
    station.refuse(Call::Send { request: to_node_5(0), time: 29 }, 14);
    station.send(&to_node_5(0), 30);
    station.send(&to_node_5(1), 30);
    station.release_it(&to_node_5(0), 40);
    station.refuse(Call::Release { time: 39 }, 14);
    let before = station.gateway;
    assert_eq!(station.release(130), None); // too early
    assert_eq!(station.gateway, Gateway { queue: SendQueue { last: 130, ..before.queue }, ..before });
    station.refuse(Call::Send { request: to_node_5(2), time: 129 }, 14);
    station.refuse(Call::Release { time: 129 }, 14);
    station.release_it(&to_node_5(1), 140);
}

/// After calls that were refused with a later time, an earlier one is accepted.
fn refused_calls_take_no_time(side: Side) {
    let mut station = Station::with_node_5(side);
    let long = Request { frame: vec![5; 63], ..to_node_5(0) };
    for (request, time, refusal) in [(long, 900, 2), (request(6, 0, 0, 0, 0), 900, 12), (to_node_5(0), LATEST + 1, 14)]
    {
        station.refuse(Call::Send { request, time }, refusal);
    }
    for pdata in 0..8 {
        station.send(&to_node_5(pdata), 10);
    }
    station.refuse(Call::Send { request: to_node_5(8), time: 900 }, 13);
    station.refuse(Call::Release { time: LATEST + 1 }, 14);
    let mut out = [0xEE; 63];
    let refused = (side.release)(station.gateway, 900, &mut out);
    assert_eq!(refused, ReleaseAnswer { refusal: 3, ..ReleaseAnswer::zeros(station.gateway) });
    station.release_it(&to_node_5(0), 10);
}

/// At 2^40 a release still works, but no second one: the next would be later.
fn last_time_of_all(side: Side) {
    let mut station = Station::with_node_5(side);
    for pdata in 0..3 {
        station.send(&to_node_5(pdata), LATEST);
    }
    station.release_it(&to_node_5(0), LATEST);
    let queue = station.gateway.queue;
    assert_eq!((queue.last, queue.next, queue.count), (LATEST, LATEST + 100, 2));
    assert_eq!(station.release(LATEST), None);
    for time in [LATEST + 1, LATEST + 100, LATEST + 101] {
        station.refuse(Call::Release { time }, 14);
    }
    assert_eq!(station.gateway.queue, queue);
    // a bond can still be added, and requests until the queue is full
    station.accept(Call::Bond(6));
    for pdata in 3..9 {
        station.send(&to_node_5(pdata), LATEST);
    }
    station.refuse(Call::Send { request: to_node_5(9), time: LATEST }, 13);
    assert_eq!(station.release(LATEST), None);
}
