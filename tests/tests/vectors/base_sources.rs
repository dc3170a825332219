//! The sources of document 01: the light standard's step table and examples (001),
//! the confirmation's timing (003), and the guide's batch and confirmation
//! examples (000).
use grelfint::raw::{FrcAnswer, Node};
use grelfint_tests::board::Board;
use grelfint_tests::on_every_side;
use grelfint_tests::records::lamp;
use grelfint_tests::sides::Side;

on_every_side! { node [
    light_standard_step_table,
    light_standard_examples,
    light_standard_rules,
    guide_confirmation_example,
    timeslot_table,
    uart_example_of_the_confirmation,
    guide_batch_example,
    guide_batch_selects_by_profile,
    guide_pulse_batch,
] }

// ---- the light standard (001) ----
fn light_standard_step_table(side: Side) {
    // 2.2: command, requested, actual, reported previous power
    let table = [
        (0, 15, 15, 20, 0),
        (1, 6, 21, 30, 20),
        (2, 10, 11, 20, 30),
        (2, 9, 2, 10, 20),
        (2, 100, 0, 0, 10),
        (1, 0, 0, 0, 0),
    ];
    let mut b = Board::started(side, 1, 10);
    for (pcmd, value, requested, actual, previous) in table {
        assert_eq!(b.take(0x71, pcmd, &[1, 0, 0, 0, value]), (0, vec![previous]));
        assert_eq!(b.node.lamps[0].level, requested);
        // a request that keeps the level reports the actual one
        assert_eq!(b.take(0x71, 0, &[1, 0, 0, 0, 127]), (0, vec![actual]));
        assert_eq!(b.node.lamps[0].level, requested);
    }
}

fn light_standard_examples(side: Side) {
    let mut b = Board::started(side, 3, 1);
    // Enumerate lights
    assert_eq!(b.take(0x71, 0x3E, &[]), (0, vec![3]));
    // Set 1st light to 10% and 3rd light to 100% for 2 minutes
    assert_eq!(b.take(0x71, 0, &[5, 0, 0, 0, 0x0A, 0xE4, 2]), (0, vec![0, 0]));
    assert_eq!(b.lamps(3), [(10, 0), (0, 0), (100, 120)]);
    // Read FRC Light On/Off for the 2nd light: off
    let frc = |node: Node, command, lamp, stuck, alarm| (side.frc)(node, command, &[0x71, lamp], stuck, alarm);
    let value = |value| FrcAnswer { refusal: 0, value };
    assert_eq!(frc(b.node, 0x10, 1, 0, 0), value(2));
    // Increase 1st light by +10% for 3 minutes and 2nd light by +50%
    assert_eq!(b.take(0x71, 1, &[3, 0, 0, 0, 0x8A, 3, 0x32]), (0, vec![10, 0]));
    assert_eq!(b.lamps(3), [(20, 180), (50, 0), (100, 120)]);
    assert_eq!(frc(b.node, 0x10, 1, 0, 0), value(3));
    // 3.1 a closed relay reports on; 3.2 alarm; 3.3 not implemented
    let dark = Board::started(side, 3, 1).node;
    assert_eq!(frc(dark, 0x10, 1, 0b010, 0), value(3));
    assert_eq!(frc(dark, 0x10, 1, 0b101, 0), value(2));
    assert_eq!(frc(dark, 0x11, 2, 0, 0b100), value(3));
    assert_eq!(frc(dark, 0x11, 2, 0, 0b011), value(2));
    assert_eq!(frc(dark, 0x10, 3, u32::MAX, u32::MAX), value(1));
    assert_eq!(frc(dark, 0x12, 1, u32::MAX, u32::MAX), value(1));
}

fn light_standard_rules(side: Side) {
    // 2.1: the full bitmap sets all lights without knowing their count
    let mut b = Board::started(side, 3, 1);
    let mut pdata = vec![0xFF; 4];
    pdata.extend_from_slice(&[40; 32]);
    assert_eq!(b.take(0x71, 0, &pdata), (0, vec![0; 32]));
    assert_eq!(b.lamps(4), [(40, 0), (40, 0), (40, 0), (0, 0)]);
    // 0x81-0xFF: seconds; 1-127 minutes; after the time the light is at 0 %
    assert_eq!(b.take(0x71, 0, &[3, 0, 0, 0, 0xBC, 0x82, 0xBC, 0x7F]), (0, vec![40, 40]));
    assert_eq!(b.lamps(2), [(60, 2), (60, 7620)]);
    b.node = (side.tick)(b.node).node;
    assert_eq!(b.lamps(2), [(60, 1), (60, 7619)]);
    assert_eq!((side.tick_in_place)(&mut b.node), 0);
    assert_eq!(b.lamps(2), [(0, 0), (60, 7618)]);
    // "Previously set ON timing is disabled"; 127 keeps; time ignored at 0 %
    assert_eq!(b.take(0x71, 0, &[2, 0, 0, 0, 127]), (0, vec![60]));
    assert_eq!(b.lamps(2), [(0, 0), (60, 7618)]);
    assert_eq!(b.take(0x71, 0, &[2, 0, 0, 0, 60]), (0, vec![60]));
    assert_eq!(b.lamps(2), [(0, 0), (60, 0)]);
    assert_eq!(b.take(0x71, 0, &[2, 0, 0, 0, 0x80, 5]), (0, vec![60]));
    assert_eq!(b.node.lamps[1], lamp(0, 0));
    // 101-126 and times 00 and 80: ERROR_DATA; a wrong length too
    for bad in [
        &[1, 0, 0, 0, 126][..],
        &[1, 0, 0, 0, 0x8A, 0],
        &[1, 0, 0, 0, 0x8A, 0x80],
        &[1, 0, 0, 0],
        &[1, 0, 0, 0, 1, 1],
        &[1, 0, 0],
    ] {
        assert_eq!(b.take(0x71, 0, bad), (6, vec![]), "{bad:?}");
    }
}

// ---- confirmation and timing (003 and the guide, 2.6.2) ----
fn guide_confirmation_example(side: Side) {
    // 000, example 3: LED on at node 0x0A, DPA value 7, hops 6, slot 4, response hops 6
    let mut out = [0xEE; 64];
    let a = (side.confirm)(&[0x0A, 0, 7, 1, 0xFF, 0xFF], 7, 6, 6, false, &mut out);
    assert_eq!((a.refusal, a.length), (0, 11));
    assert_eq!(out[..11], [0x0A, 0, 7, 1, 0xFF, 0xFF, 0xFF, 7, 6, 4, 6]);
    assert!(out[11..].iter().all(|&b| b == 0xEE));
    // unequal hops: the hops come before the timeslot, the response hops after it
    let a = (side.confirm)(&[0x0A, 0, 7, 1, 0xFF, 0xFF], 7, 2, 3, false, &mut out);
    assert_eq!((a.refusal, a.length), (0, 11));
    assert_eq!(out[8..11], [2, 4, 3]);
    // broadcast: the response hops are 0
    let a = (side.confirm)(&[0xFF, 0, 7, 1, 0xFF, 0xFF], 7, 6, 6, true, &mut out);
    assert_eq!((a.refusal, a.length), (0, 11));
    assert_eq!(out[..11], [0xFF, 0, 7, 1, 0xFF, 0xFF, 0xFF, 7, 6, 8, 0]);
}

fn timeslot_table(side: Side) {
    for (length, std, lp) in [(0, 40, 80), (16, 40, 80), (17, 50, 90), (40, 50, 90), (41, 60, 100), (56, 60, 100)] {
        assert_eq!((side.timeslot)(length, false).slot as u32 * 10, std);
        assert_eq!((side.timeslot)(length, true).slot as u32 * 10, lp);
    }
    assert_eq!((side.timeslot)(57, false).refusal, 5);
}

fn uart_example_of_the_confirmation(side: Side) {
    // 003: a request of 5 bytes in slots of 40 ms, a delay of 20 ms, a response in slots of 40, 50 or 60 ms
    for (q, r) in [(2u8, 3u8), (0, 0), (5, 9), (255, 255)] {
        for (answer, slot) in [(16, 40), (20, 50), (41, 60)] {
            let want = (q as u32 + 1) * 40 + 20 + (r as u32 + 1) * slot;
            assert_eq!((side.earliest_send)(q, 5, 20, r, answer, false, false).milliseconds, want);
        }
    }
    // document 01: 340 ms; a broadcast omits the last term but still tests its length
    assert_eq!((side.earliest_send)(2, 5, 20, 3, 20, false, false).milliseconds, 340);
    assert_eq!((side.earliest_send)(2, 5, 20, 3, 20, false, true).milliseconds, 140);
    assert_eq!((side.earliest_send)(2, 5, 20, 3, 57, false, true).refusal, 5);
}

// ---- the guide's batch (000, 3.4.11) ----
/// The guide's list. This node has no LEDs or IO, so every entry is an error,
/// and the batch itself succeeds.
const GUIDE_BATCH: [u8; 29] = [
    5, 6, 1, 0x34, 0x12, //
    5, 7, 1, 0x78, 0x56, //
    8, 9, 1, 0xFF, 0xFF, 0xFF, 0xC8, 0x00, //
    5, 6, 0, 0x34, 0x12, //
    5, 7, 0, 0x78, 0x56, //
    0,
];

fn guide_batch_example(side: Side) {
    let mut b = Board::started(side, 3, 1);
    let before = b.node;
    let mut frame = vec![0xFF, 0, 2, 5, 0xFF, 0xFF];
    frame.extend_from_slice(&GUIDE_BATCH);
    assert_eq!(b.frame(&frame), (vec![], false)); // broadcast: no answer
    assert_eq!(b.node, before);
    // own address: the general response to a writing request, no error
    assert_eq!(b.take(2, 5, &GUIDE_BATCH), (0, vec![]));
    assert_eq!(b.node, before);
    // without the closing zero, or with a byte after it: nothing runs
    assert_eq!(b.take(2, 5, &GUIDE_BATCH[..28]), (6, vec![]));
    let mut longer = GUIDE_BATCH.to_vec();
    longer.push(0);
    assert_eq!(b.take(2, 5, &longer), (6, vec![]));
}

/// The same structure with this node's lamps: on for HWPID 0x1234, on for HWPID
/// 0x5678, a time for all, off again for 0x1234.
fn guide_batch_selects_by_profile(side: Side) {
    for (hwpid, want) in [(0x1234u16, [(0u8, 0u16), (0, 0), (30, 60)]), (0x5678, [(0, 0), (70, 0), (30, 60)])] {
        let mut b = Board::started(side, 3, 1);
        b.node.settings.hwpid = hwpid;
        let list = [
            10, 0x71, 0, 0x34, 0x12, 1, 0, 0, 0, 70, //
            10, 0x71, 0, 0x78, 0x56, 2, 0, 0, 0, 70, //
            11, 0x71, 0, 0xFF, 0xFF, 4, 0, 0, 0, 0x9E, 1, //
            10, 0x71, 0, 0x34, 0x12, 1, 0, 0, 0, 0, //
            0,
        ];
        let mut frame = vec![0xFF, 0, 2, 5, 0xFF, 0xFF];
        frame.extend_from_slice(&list);
        assert_eq!(b.frame(&frame), (vec![], false));
        assert_eq!(b.lamps(3), want);
    }
}

fn guide_pulse_batch(side: Side) {
    // 000, acknowledged broadcast: 5,7,3,ffff, 5,6,3,ffff, 0
    let mut b = Board::started(side, 3, 1);
    let before = b.node;
    assert_eq!(b.take(2, 5, &[5, 7, 3, 0xFF, 0xFF, 5, 6, 3, 0xFF, 0xFF, 0]), (0, vec![]));
    assert_eq!(b.node, before);
}
