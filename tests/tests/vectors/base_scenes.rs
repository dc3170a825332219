//! Document 01, "Scenes": scenes that are compiled for a node, which handles the
//! requests; and the step machine of the reference.
use crate::common::*;
use grelfint::raw::{CompileAnswer, Node, Settings};
use grelfint_tests::board::{book_of, frame_of, Board};
use grelfint_tests::on_every_side;
use grelfint_tests::records::lamp;
use grelfint_tests::scene::reference::{bad_part, do_step, executes};
use grelfint_tests::sides::{Side, REFERENCE};

on_every_side! { node [
    scene_for_the_nodes_own_profile,
    scenes_one_after_the_other,
    scene_of_every_kind_of_step,
    scene_of_several_requests,
    scene_without_steps,
    refusals_for_an_address,
] }

// ---- compiled for a node, which handles the requests ----
/// Compiles a scene for the address and profile of a board's node; the output is these bytes, then what was there. The
/// node answers each request without an error. Of the memories only EEPROM changes, at these bytes.
#[track_caller]
fn assert_handled(board: &mut Board, book: &[u8], scene: usize, after: Node, eeprom: &[(usize, u8)], output: &[u8]) {
    let mut end = board.clone();
    for &(at, byte) in eeprom {
        end.eeprom[at] = byte;
    }
    let Settings { address, hwpid, dpa_value, .. } = board.node.settings;
    let mut out = [0xEE; ROOM + 1];
    let answer = (board.side.compile)(book, scene, address, hwpid, &mut out[..ROOM]);
    assert_eq!(answer, CompileAnswer { refusal: 0, step: 0, length: output.len() });
    assert_eq!(out[..output.len()], *output);
    assert!(out[output.len()..].iter().all(|&byte| byte == 0xEE), "a byte after the output changed");
    let (lengths, mut rest) = output[1..].split_at(output[0].into());
    for &length in lengths {
        let (request, after) = rest.split_at(length.into());
        assert_eq!(board.frame(request), (frame_of(address, 2, 0x85, hwpid, &[0, dpa_value]), false));
        rest = after;
    }
    assert_eq!((board.node, rest), (after, &[][..]));
    assert!(board.eeprom == end.eeprom && board.external == end.external, "memories");
}

/// The book of the worked example, for the node's own profile.
fn scene_for_the_nodes_own_profile(side: Side) {
    let book = [1, 4, 0, 2, 0, 0, 0x0A, 0, 0, 2, 0x64, 2];
    let output = [1, 0x13, 1, 0, 2, 5, 0x71, 0x24, 0x0C, 0x71, 0, 0x71, 0x24, 5, 0, 0, 0, 0x0A, 0xE4, 2, 0];
    let mut b = Board::started(side, 3, 1);
    let mut after = b.node;
    after.lamps[0] = lamp(10, 0);
    after.lamps[2] = lamp(100, 120);
    assert_handled(&mut b, &book, 0, after, &[], &output);
    // another address and profile; lamp 2 is not there, but in the request
    let mut b = Board::started(side, 1, 1);
    (b.node.settings.address, b.node.settings.hwpid) = (239, 0xFFFF);
    let mut after = b.node;
    after.lamps[0].level = 10;
    let output = [1, 0x13, 239, 0, 2, 5, 0xFF, 0xFF, 0x0C, 0x71, 0, 0xFF, 0xFF, 5, 0, 0, 0, 0x0A, 0xE4, 2, 0];
    assert_handled(&mut b, &book, 0, after, &[], &output);
}

/// Each scene starts from the node that the last one left: a raise, the same again, and a lower by more than there is.
fn scenes_one_after_the_other(side: Side) {
    let book = book_of(&[vec![[1, 0, 60, 0x85]], vec![[2, 0, 70, 0], [2, 1, 1, 1]]]);
    let mut b = Board::started(side, 2, 10);
    let entry = |pcmd, last: &[u8]| {
        let pdata = [&[5 + last.len() as u8, 0x71, pcmd, 0x71, 0x24], last, &[0]].concat();
        [&[1, 6 + pdata.len() as u8, 1, 0, 2, 5, 0x71, 0x24], &pdata[..]].concat()
    };
    for level in [60, 100] {
        let mut after = b.node;
        after.lamps[0] = lamp(level, 5);
        assert_handled(&mut b, &book, 0, after, &[], &entry(1, &[1, 0, 0, 0, 0x80 | 60, 0x85]));
    }
    let mut after = b.node;
    after.lamps[0] = lamp(30, 0);
    assert_handled(&mut b, &book, 1, after, &[], &entry(2, &[3, 0, 0, 0, 70, 0x81, 1]));
}

/// Lamps, RAM and EEPROM; steps on memories join if the target is larger by 1.
fn scene_of_every_kind_of_step(side: Side) {
    let steps =
        [[0, 1, 50, 0], [1, 1, 5, 0x81], [2, 1, 10, 0], [3, 0, 7, 0], [3, 47, 8, 0], [4, 190, 9, 0], [4, 191, 10, 0]];
    let mut b = Board::started(side, 3, 1);
    let mut after = b.node;
    after.lamps[1] = lamp(45, 0);
    (after.ram[0], after.ram[47]) = (7, 8);
    let output = [
        &[1, 60, 1, 0, 2, 5, 0x71, 0x24][..],
        &[10, 0x71, 0, 0x71, 0x24, 2, 0, 0, 0, 50],
        &[11, 0x71, 1, 0x71, 0x24, 2, 0, 0, 0, 0x85, 0x81],
        &[10, 0x71, 2, 0x71, 0x24, 2, 0, 0, 0, 10],
        &[7, 5, 1, 0x71, 0x24, 0, 7],
        &[7, 5, 1, 0x71, 0x24, 47, 8],
        &[8, 3, 1, 0x71, 0x24, 190, 9, 10],
        &[0],
    ];
    assert_handled(&mut b, &book_of(&[steps.to_vec()]), 0, after, &[(190, 9), (191, 10)], &output.concat());
}

/// Steps on one lamp do not join: five entries of ten bytes fill a list. All of them run, in their order.
fn scene_of_several_requests(side: Side) {
    let steps = vec![[1, 0, 1, 0]; 64];
    let entry = [10, 0x71, 1, 0x71, 0x24, 1, 0, 0, 0, 1];
    let request = |entries| [&[1, 0, 2, 5, 0x71, 0x24], &entry.repeat(entries)[..], &[0]].concat();
    let output = [&[13], &[57; 12][..], &[47], &request(5).repeat(12), &request(4)].concat();
    let mut b = Board::started(side, 1, 1);
    let mut after = b.node;
    after.lamps[0].level = 64;
    assert_handled(&mut b, &book_of(&[steps]), 0, after, &[], &output);
}

fn scene_without_steps(side: Side) {
    let mut b = Board::started(side, 3, 1);
    b.node.lamps[1] = lamp(7, 8);
    let node = b.node;
    assert_handled(&mut b, &book_of(&[vec![[0, 0, 1, 0]], vec![]]), 1, node, &[], &[0]);
}

/// Each refusal alone, and with every later one. No byte is written.
fn refusals_for_an_address(side: Side) {
    let good = book_of(&[vec![[0, 0, 10, 0], [4, 5, 6, 0]]]);
    let bad_step = book_of(&[vec![[0, 0, 10, 0], [4, 192, 6, 0]]]);
    let malformed = [&bad_step[..], &[0]].concat();
    let assert_refused = |book: &[u8], scene, address, room, refusal, step| {
        let mut out = [0xEE; ROOM];
        let answer = (side.compile)(book, scene, address, 0x2471, &mut out[..room]);
        assert_eq!(answer, CompileAnswer { refusal, step, length: 0 }, "{book:02X?}, {scene}, {address}, {room}");
        assert!(out.iter().all(|&byte| byte == 0xEE), "output");
    };
    for address in [0, 240, 254, 256, 0xFF01, 0xFFFF] {
        assert_refused(&good, 0, address, ROOM, 1, 0);
        assert_refused(&malformed, 1, address, 0, 1, 0);
    }
    for address in [1, 239, 255] {
        for room in [ROOM, 0] {
            for scene in [0, 1] {
                assert_refused(&malformed, scene, address, room, 6, 0);
                assert_refused(&[], scene, address, room, 6, 0);
            }
            for scene in [1, 16, 256, usize::MAX] {
                assert_refused(&bad_step, scene, address, room, 7, 0);
            }
            assert_refused(&[0], 0, address, room, 7, 0);
            assert_refused(&bad_step, 0, address, room, 82, 1);
        }
        for room in [0, 1, 100, ROOM - 1] {
            assert_refused(&good, 0, address, room, 9, 0);
        }
    }
}

// ---- the step machine of the reference ----
/// The two rules, each by itself from document 01, over all steps.
#[test]
fn machine_executes_exactly_what_the_compiler_accepts() {
    for kind in 0..=255 {
        for target in 0..=255 {
            for value in 0..=255 {
                let differs = |&time: &u8| {
                    let step = [kind, target, value, time];
                    executes(step) != bad_part(step).is_none()
                };
                assert_eq!((0..=255).find(differs), None, "{kind} {target} {value}");
            }
        }
    }
}

/// A good step changes its target to these numbers, and nothing else. A bad one changes nothing.
#[test]
fn steps_of_the_machine() {
    enum Change {
        Lamp(u8, u16),
        Ram,
        Eeprom,
        Nothing,
    }
    use Change::*;
    for ([kind, target, value, time], change) in [
        ([0, 1, 0, 0x83], Lamp(0, 0)),
        ([0, 1, 100, 0], Lamp(100, 0)),
        ([0, 1, 7, 0x01], Lamp(7, 60)),
        ([1, 1, 59, 0x7F], Lamp(99, 7620)),
        ([1, 1, 60, 0x81], Lamp(100, 1)),
        ([1, 1, 100, 0xFF], Lamp(100, 127)),
        ([2, 1, 39, 0xFF], Lamp(1, 127)),
        ([2, 1, 40, 0xFF], Lamp(0, 0)),
        ([2, 1, 100, 0], Lamp(0, 0)),
        ([3, 47, 255, 0], Ram),
        ([4, 191, 255, 0], Eeprom),
        // lamps that are not there
        ([0, 2, 50, 0], Nothing),
        ([1, 31, 50, 0x81], Nothing),
        // bad steps
        ([0, 1, 101, 0], Nothing),
        ([1, 1, 255, 0], Nothing),
        ([2, 1, 40, 0x80], Nothing),
        ([0, 32, 50, 0], Nothing),
        ([3, 48, 1, 0], Nothing),
        ([4, 192, 1, 0], Nothing),
        ([3, 1, 77, 1], Nothing),
        ([4, 1, 77, 0x80], Nothing),
        ([5, 1, 50, 0], Nothing),
        ([255, 1, 50, 0], Nothing),
    ] {
        let mut board = board_with(REFERENCE, 1, &[(30, 20), (40, 10)]);
        let mut want = board.clone();
        match change {
            Lamp(level, seconds) => want.node.lamps[target as usize] = lamp(level, seconds),
            Ram => want.node.ram[target as usize] = value,
            Eeprom => want.eeprom[target as usize] = value,
            Nothing => {}
        }
        let mut parts = board.parts();
        do_step(&mut parts, [kind, target, value, time]);
        assert_eq!(parts.node, want.node, "{kind} {target} {value} {time}");
        assert!(board.eeprom == want.eeprom && board.external == want.external, "{kind} {target} {value} {time}");
    }
}
