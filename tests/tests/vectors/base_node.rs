//! Document 01: its worked examples (those marked P are also proved, but cheap to
//! run), the requests that are for a node, settings, actual levels, and views.
use crate::common::*;
use grelfint::raw::{FrcAnswer, LevelsAnswer, Node, NodeAnswer, RequestAnswer, Settings};
use grelfint_tests::board::{frame_of, Board, Lengths};
use grelfint_tests::node::code::checksum;
use grelfint_tests::node::reference::EXTERNAL_SIZE;
use grelfint_tests::on_every_side;
use grelfint_tests::records::{lamp, varied_node, SETTINGS};
use grelfint_tests::sides::Side;

on_every_side! { node [
    external_read_at_the_end,
    level_100_is_accepted_101_is_not,
    one_bad_entry_changes_no_lamp,
    batch_first_entry_is_not_all,
    addressed_by_nadr,
    addressed_despite_an_error,
    refused_answers_nothing_else,
    checksums,
    batches_of_one_byte_and_of_a_short_entry,
    compiled_scene,
    every_field_of_a_node,
    settings_in_range,
    settings_out_of_range,
    broken_nodes,
    actual_levels_of_the_lamps,
    views_of_the_memories,
] }

// ---- worked examples, and related rules ----
fn external_read_at_the_end(side: Side) {
    let mut b = Board::started(side, 3, 1);
    b.external[0x3FFF] = 0x5C;
    assert_eq!(b.take(4, 2, &[0xFF, 0x3F, 1]), (0, vec![0x5C]));
    assert_eq!(b.take(4, 2, &[0xFF, 0x3F, 2]), (4, vec![]));
}

fn level_100_is_accepted_101_is_not(side: Side) {
    let mut b = Board::started(side, 1, 1);
    assert_eq!(b.take(0x71, 0, &[1, 0, 0, 0, 0x65]), (6, vec![]));
    assert_eq!(b.lamps(1), [(0, 0)]);
    assert_eq!(b.take(0x71, 0, &[1, 0, 0, 0, 0x64]), (0, vec![0]));
    assert_eq!(b.lamps(1), [(100, 0)]);
    assert_eq!(b.take(0x71, 0, &[1, 0, 0, 0, 0x80, 0x80]), (6, vec![]));
    assert_eq!(b.lamps(1), [(100, 0)]);
}

fn one_bad_entry_changes_no_lamp(side: Side) {
    // raise nine lamps with an invalid eighth power byte: no lamp changes
    let mut b = Board::started(side, 9, 1);
    let good = [0xFF, 1, 0, 0, 10, 10, 10, 10, 10, 10, 10, 10, 10];
    let mut bad = good;
    bad[4 + 7] = 101;
    assert_eq!(b.take(0x71, 1, &bad), (6, vec![]));
    assert_eq!(b.lamps(9), [(0, 0); 9]);
    assert_eq!(b.take(0x71, 1, &good), (0, vec![0; 9]));
    assert_eq!(b.lamps(9), [(10, 0); 9]);
}

fn batch_first_entry_is_not_all(side: Side) {
    // document 01, "Strength of the contracts": a set on lamp 0, then a raise on lamp 1
    let mut b = Board::started(side, 3, 1);
    let list = [10, 0x71, 0, 0xFF, 0xFF, 1, 0, 0, 0, 10, 10, 0x71, 1, 0xFF, 0xFF, 2, 0, 0, 0, 20, 0];
    assert_eq!(b.take(2, 5, &list), (0, vec![]));
    assert_eq!(b.lamps(3), [(10, 0), (20, 0), (0, 0)]);
}

// ---- "Taking a request": which frames are for this node ----
/// Sets lamp 0 of a node to 10.
fn set_frame(nadr: u16, hwpid: u16) -> Vec<u8> {
    frame_of(nadr, 0x71, 0, hwpid, &[1, 0, 0, 0, 10])
}

fn addressed_by_nadr(side: Side) {
    let other = [2u16, 0x0101, 0x0100, 0, 0xFF00, 0x01FF, 0xFFFF].map(|nadr| (nadr, 0, false, 0));
    for (nadr, length, addressed, level) in [(1, 9, true, 10), (0x00FF, 0, true, 10)].into_iter().chain(other) {
        let mut b = Board::started(side, 3, 1);
        let a = b.request(b.node, &set_frame(nadr, 0xFFFF), Lengths::USUAL);
        assert_eq!((a.refusal, a.length, a.addressed), (0, length, addressed), "NADR {nadr:04X}");
        assert_eq!(a.node.lamps[0].level, level, "NADR {nadr:04X}");
    }
}

fn addressed_despite_an_error(side: Side) {
    for (nadr, length) in [(1, 8), (0x00FF, 0)] {
        let mut b = Board::started(side, 3, 1);
        let a = b.request(b.node, &set_frame(nadr, 0x1234), Lengths::USUAL); // ErrN 7
        let want = RequestAnswer { length, addressed: true, ..RequestAnswer::zeros(b.node) };
        assert_eq!(a, want, "NADR {nadr:04X}");
    }
}

/// A set and a batch with a broken list, in calls that are refused.
fn refused_answers_nothing_else(side: Side) {
    let usual = Lengths::USUAL;
    let set_and_batch = |nadr| [set_frame(nadr, 0xFFFF), frame_of(nadr, 2, 5, 0xFFFF, &[4, 0])];
    for frame in [1, 0x00FF].into_iter().flat_map(set_and_batch) {
        let mut b = Board::started(side, 3, 1);
        let mut broken = b.node;
        broken.settings.step = 3;
        let mut long = frame.clone();
        long.resize(63, 0);
        for (refusal, node, frame, lent) in [
            (1, broken, &frame[..], usual),
            (2, b.node, &frame[..5], usual),
            (2, b.node, &long[..], usual),
            (3, b.node, &frame[..], Lengths { response: 63, ..usual }),
            (4, b.node, &frame[..], Lengths { eeprom: 191, ..usual }),
        ] {
            let a = b.request(node, frame, lent);
            assert_eq!(a, RequestAnswer { refusal, ..RequestAnswer::zeros(node) }, "{frame:02X?}");
        }
    }
}

// ---- marked P ----
#[test]
fn checksums_of_the_reference() {
    let sums = [
        (1, vec![0], 0x0101),
        (1, vec![0xFF], 0x0101),
        (1, vec![0xFE], 0xFFFF),
        (1, vec![0; 64], 0x4001),
        (3, vec![0; 20], 0x3C03),
    ];
    for (first, bytes, sum) in sums {
        assert_eq!(checksum(first, &bytes), sum, "{bytes:?} from {first}");
    }
}

fn checksums(side: Side) {
    // flags 0: blocks of 64, start value 1; flags 2: blocks of 20, start value 3
    let mut b = Board::started(side, 3, 1);
    assert_eq!(b.take(2, 0x0A, &[0, 0, 0, 64, 0, 0x01, 0x40]), (0, vec![1]));
    assert_eq!(b.take(2, 0x0A, &[0, 0, 0, 64, 0, 0x00, 0x40]), (0, vec![0]));
    assert_eq!(b.take(2, 0x0A, &[2, 0, 0, 20, 0, 0x03, 0x3C]), (0, vec![1]));
    // the load mark needs flag bit 0 and a match
    let (_, load) = b.frame(&[1, 0, 2, 0x0A, 0xFF, 0xFF, 1, 0, 0, 64, 0, 0x01, 0x40]);
    assert!(load);
    let (_, load) = b.frame(&[1, 0, 2, 0x0A, 0xFF, 0xFF, 1, 0, 0, 64, 0, 0x02, 0x40]);
    assert!(!load);
    let (bytes, load) = b.frame(&[0xFF, 0, 2, 0x0A, 0xFF, 0xFF, 1, 0, 0, 64, 0, 0x01, 0x40]);
    assert!(load && bytes.is_empty());
    // FE from start value 1 gives 0xFFFF; adding FF to a sum of FF leaves it at FF
    b.external[..64].fill(0xFF);
    b.external[0] = 0xFE;
    assert_eq!(b.take(2, 0x0A, &[0, 0, 0, 64, 0, 0xFF, 0xFF]), (0, vec![1]));
}

fn batches_of_one_byte_and_of_a_short_entry(side: Side) {
    let mut b = Board::started(side, 3, 1);
    assert_eq!(b.take(2, 5, &[0]), (0, vec![]));
    assert_eq!(b.take(2, 5, &[4, 0]), (6, vec![]));
    assert_eq!(b.take(2, 5, &[]), (5, vec![]));
    assert_eq!(b.take(2, 5, &[0, 0]), (6, vec![]));
}

fn compiled_scene(side: Side) {
    let book = [1, 4, 0, 2, 0, 0, 0x0A, 0, 0, 2, 0x64, 2];
    let want = [1, 0x13, 1, 0, 2, 5, 0xFF, 0xFF, 0x0C, 0x71, 0, 0xFF, 0xFF, 5, 0, 0, 0, 0x0A, 0xE4, 2, 0];
    let mut out = vec![0xEE; 4096];
    let a = (side.compile_default)(&book, 0, 1, &mut out);
    assert_eq!((a.refusal, a.step, a.length), (0, 0, want.len()));
    assert_eq!(out[..want.len()], want);
    assert!(out[want.len()..].iter().all(|&b| b == 0xEE));
    let mut b = Board::started(side, 3, 1);
    let (bytes, _) = b.frame(&out[2..21]);
    assert_eq!(bytes, [1, 0, 2, 0x85, 0x71, 0x24, 0, 7]);
    assert_eq!(b.lamps(3), [(10, 0), (0, 0), (100, 120)]);
    // a scene of 0 steps, an empty book, steps on the same lamp
    assert_eq!((side.compile_default)(&[1, 4, 0, 0], 0, 255, &mut out).length, 1);
    assert_eq!(out[0], 0);
    assert_eq!((side.compile_default)(&[0], 0, 1, &mut out).refusal, 7);
    assert_eq!((side.compile_default)(&[], 0, 1, &mut out).refusal, 6);
    let twice = [1, 4, 0, 2, 0, 0, 10, 0, 0, 0, 20, 0];
    let a = (side.compile)(&twice, 0, 255, 0x2471, &mut out);
    let want = [
        1, 27, 0xFF, 0, 2, 5, 0x71, 0x24, 10, 0x71, 0, 0x71, 0x24, 1, 0, 0, 0, 10, 10, 0x71, 0, 0x71, 0x24, 1, 0, 0, 0,
        20, 0,
    ];
    assert_eq!((a.refusal, &out[..a.length]), (0, &want[..]));
}

// ---- "Node and lamps" ----
/// No field, lamp or byte of RAM takes the place of another.
fn every_field_of_a_node(side: Side) {
    let node = varied_node();
    let settings = node.settings;
    assert_eq!((side.start)(settings), NodeAnswer { refusal: 0, node: Node { settings, ..Node::ZERO } });
    let mut after = node;
    after.lamps.iter_mut().for_each(|lamp| lamp.seconds -= 1);
    assert_eq!((side.tick)(node), NodeAnswer { refusal: 0, node: after });
    let mut lent = [node; 3];
    assert_eq!(((side.tick_in_place)(&mut lent[1]), lent), (0, [node, after, node]));
    let levels = node.lamps.map(|lamp| lamp.level.div_ceil(5) * 5);
    assert_eq!((side.actual_levels)(node), LevelsAnswer { refusal: 0, levels });

    let b = Board { node, ..Board::started(side, 32, 5) };
    let mut set = node;
    set.lamps[9] = lamp(11, 13);
    let mut written = node;
    written.ram[9..11].copy_from_slice(&[11, 13]);
    for ([pnum, pcmd], pdata, data, node) in [
        ([0x71, 0x3E], &[][..], &[32][..], node),
        ([0x71, 0], &[0, 2, 0, 0, 0x80 | 11, 0x80 | 13], &[levels[9]], set),
        ([5, 0], &[0, 48], &node.ram, node),
        ([5, 1], &[9, 11, 13], &[], written),
    ] {
        let response = [&[0xC3, 0, pnum, 0x80 | pcmd, 0x34, 0x12, 0, 0x65], data].concat();
        let want = RequestAnswer { addressed: true, ..RequestAnswer::zeros(node) };
        assert_answered(&b, &frame_of(0xC3, pnum, pcmd, 0x1234, pdata), &response, want);
    }
}

fn settings_in_range(side: Side) {
    let addresses = [1, 2, 239].map(|address| Settings { address, ..SETTINGS });
    let counts = [1, 2, 32].map(|lamp_count| Settings { lamp_count, ..SETTINGS });
    let steps = [1, 2, 4, 5, 10, 20, 25, 50, 100].map(|step| Settings { step, ..SETTINGS });
    let others = [0, 0xFFFF].map(|hwpid| Settings { hwpid, dpa_value: hwpid as u8, ..SETTINGS });
    for settings in addresses.into_iter().chain(counts).chain(steps).chain(others) {
        assert_eq!((side.start)(settings), NodeAnswer { refusal: 0, node: Node { settings, ..Node::ZERO } });
    }
}

fn settings_out_of_range(side: Side) {
    let addresses = [0, 240, 255, 256, 257, 0xFFFF].map(|address| Settings { address, ..SETTINGS });
    let counts = [0, 33, 255].map(|lamp_count| Settings { lamp_count, ..SETTINGS });
    let steps = [0, 3, 6, 8, 99, 101, 200, 255].map(|step| Settings { step, ..SETTINGS });
    for settings in addresses.into_iter().chain(counts).chain(steps) {
        assert_eq!((side.start)(settings), NodeAnswer { refusal: 1, node: Node::ZERO }, "{settings:?}");
    }
}

/// Each breaks the node rule in one way. The calls that have a node alone refuse it and leave it as it was.
fn broken_nodes(side: Side) {
    let mut sound = Board::started(side, 3, 10).node;
    sound.lamps[0] = lamp(15, 1);
    let mut broken = [sound; 7];
    broken[0].settings.address = 240;
    broken[1].settings.lamp_count = 33;
    broken[2].settings.step = 3;
    broken[3].lamps[1].level = 101;
    broken[4].lamps[0].seconds = 7621;
    broken[5].lamps[1].seconds = 1;
    broken[6].lamps[3].level = 1;
    for node in broken.into_iter().chain([Node::ZERO]) {
        assert_eq!((side.tick)(node), NodeAnswer { refusal: 1, node });
        let mut lent = node;
        assert_eq!(((side.tick_in_place)(&mut lent), lent), (1, node));
        assert_eq!((side.actual_levels)(node), LevelsAnswer { refusal: 1, levels: [0; 32] });
        assert_eq!((side.frc)(node, 0x10, &[0x71, 0], 1, 1), FrcAnswer { refusal: 1, value: 0 });
    }
}

/// The light standard's levels, 0 and 100; then the same at other steps. Lamps from the count on have none.
fn actual_levels_of_the_lamps(side: Side) {
    let requested = [15, 21, 11, 2, 0, 1, 99, 100];
    for (step, actual) in [
        (1, requested),
        (4, [16, 24, 12, 4, 0, 4, 100, 100]),
        (10, [20, 30, 20, 10, 0, 10, 100, 100]),
        (25, [25, 25, 25, 25, 0, 25, 100, 100]),
        (100, [100, 100, 100, 100, 0, 100, 100, 100]),
    ] {
        for first in [0, 24] {
            let mut node = Board::started(side, 8 + first as u8, step).node;
            let mut levels = [0; 32];
            assert_eq!((side.actual_levels)(node), LevelsAnswer { refusal: 0, levels });
            for (i, level) in requested.into_iter().enumerate() {
                node.lamps[first + i] = lamp(level, if level == 0 { 0 } else { 7620 });
            }
            levels[first..first + 8].copy_from_slice(&actual);
            assert_eq!((side.actual_levels)(node), LevelsAnswer { refusal: 0, levels }, "step {step}");
        }
    }
}

// ---- "Memories": reading in place ----
fn views_of_the_memories(side: Side) {
    let (eeprom, external) = ([3; 192], vec![4; EXTERNAL_SIZE + 1]);
    for (pnum, start, count, refusal) in [
        (3, 0, 55, 0),
        (3, 0, 56, 15),
        (3, 191, 1, 0),
        (3, 191, 2, 16),
        (3, 192, 0, 16),
        (3, 191, 0, 0),
        (3, usize::MAX, 1, 16),
        (3, usize::MAX, 56, 15),
        (4, 0, 54, 0),
        (4, 0, 55, 15),
        (4, 0x3FFF, 1, 0),
        (4, 0x3FFF, 2, 16),
        (4, 0x4000, 0, 16),
        (5, 0, 1, 10),
        (2, usize::MAX, usize::MAX, 10),
    ] {
        let view = |eeprom: &[u8], external: &[u8]| (side.view_status)(eeprom, external, pnum, start, count);
        assert_eq!(view(&eeprom, &external[1..]), refusal, "PNUM {pnum}, {count} bytes from {start} on");
        assert_eq!(view(&eeprom[1..], &external[1..]), 4);
        assert_eq!(view(&eeprom, &external), 4);
    }
}
