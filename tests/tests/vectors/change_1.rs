//! Document 02, change 1/12: broken lists and bad steps.
use crate::common::*;
use grelfint::raw::{CompileAnswer, RequestAnswer};
use grelfint_tests::board::{book_of, frame_of, Board};
use grelfint_tests::on_every_side;
use grelfint_tests::sides::Side;

on_every_side! { node [
    broken_lists,
    lists_broken_after_whole_entries,
    lists_broken_at_the_longest_pdata,
    first_fault_of_a_list,
    faults_of_entries_are_not_reported,
    other_errors_have_no_reason,
    another_nodes_broken_list,
    each_bad_part_of_a_step,
    first_bad_part_of_a_step,
    memory_steps,
    first_bad_step_of_a_scene,
    bad_steps_with_a_short_buffer,
] }

// ---- where the list of a batch is broken ----
fn assert_broken(side: Side, list: &[u8], reason: u8, place: u8) {
    assert_answer(side, [2, 5], 0xFFFF, list, 6, (reason, place));
}

fn broken_lists(side: Side) {
    assert_broken(side, &[4, 0], 1, 0);
    assert_broken(side, &[3], 1, 0);
    assert_broken(side, &[5, 0x71, 0x3E, 0xFF], 2, 0);
    assert_broken(side, &[5, 0x71, 0x3E, 0xFF, 0xFF], 3, 5);
    assert_broken(side, &[0, 0], 4, 1);
}

/// Lists of entries that set lamp 0 to 10, with other bytes after them. None of the entries runs.
fn lists_broken_after_whole_entries(side: Side) {
    for whole in [1, 2, 5] {
        let entries = [10, 0x71, 0, 0xFF, 0xFF, 1, 0, 0, 0, 10].repeat(whole);
        let place = entries.len() as u8;
        let broken = |rest: &[u8], reason, place| assert_broken(side, &[&entries, rest].concat(), reason, place);
        broken(&[4, 0], 1, place);
        broken(&[1], 1, place);
        broken(&[5, 0x71, 0x3E, 0xFF], 2, place);
        broken(&[], 3, place);
        broken(&[0, 0], 4, place + 1);
    }
}

/// Lists of 56 bytes, broken at their last byte, at their end and by an entry that is too long for any list.
fn lists_broken_at_the_longest_pdata(side: Side) {
    let shortest = [5, 0x71, 0x3E, 0xFF, 0xFF].repeat(11);
    assert_broken(side, &[&shortest[..], &[1]].concat(), 1, 55);
    assert_broken(side, &[&shortest[..], &[5]].concat(), 2, 55);
    assert_broken(side, &[&shortest[..50], &[6, 0x71, 0x3E, 0xFF, 0xFF, 0]].concat(), 3, 56);
    assert_broken(side, &[&shortest[..45], &[9, 0x71, 0x3E, 0xFF, 0xFF, 0, 0, 0, 0, 0, 9]].concat(), 4, 55);
    let mut longest = vec![57, 0x71, 0x3E, 0xFF, 0xFF];
    longest.resize(56, 0);
    assert_broken(side, &longest, 2, 0);
    longest[0] = 255;
    assert_broken(side, &longest, 2, 0);
    longest[0] = 56;
    assert_broken(side, &longest, 3, 56);
}

fn first_fault_of_a_list(side: Side) {
    // a length under 5 comes before the end of PData; 5 is long enough
    for length in 1..=4 {
        assert_broken(side, &[length], 1, 0);
    }
    assert_broken(side, &[5], 2, 0);
    // bytes after the fault are not read
    assert_broken(side, &[4, 0, 0, 0, 0, 0], 1, 0);
    assert_broken(side, &[4, 0xFF, 5], 1, 0);
    assert_broken(side, &[8, 0x71, 0x3E, 0xFF, 0xFF, 4, 0], 2, 0);
    assert_broken(side, &[0, 4], 4, 1);
    assert_broken(side, &[0, 5, 0x71, 0x3E, 0xFF, 0xFF, 0], 4, 1);
    // the bytes of an entry are not read as a list
    assert_broken(side, &[6, 0x71, 0x3E, 0xFF, 0xFF, 4, 0, 0], 4, 7);
}

fn faults_of_entries_are_not_reported(side: Side) {
    // an error of data length, an invalid level, a wrong HWPID, a batch with a broken list
    let entries: [&[u8]; 4] = [
        &[6, 0x71, 0x3E, 0xFF, 0xFF, 0],
        &[10, 0x71, 0, 0xFF, 0xFF, 1, 0, 0, 0, 0x65],
        &[10, 0x71, 0, 0x34, 0x12, 1, 0, 0, 0, 10],
        &[7, 2, 5, 0xFF, 0xFF, 4, 0],
    ];
    for entry in entries {
        assert_no_reason(side, [2, 5], 0xFFFF, &[entry, &[0]].concat(), 0);
    }
    assert_no_reason(side, [2, 5], 0xFFFF, &[&entries.concat()[..], &[0]].concat(), 0);
}

fn other_errors_have_no_reason(side: Side) {
    let broken = [4, 0];
    assert_no_reason(side, [2, 5], 0xFFFF, &[0], 0); // a sound list
    assert_no_reason(side, [2, 5], 0xFFFF, &[], 5);
    assert_no_reason(side, [2, 5], 0x1234, &broken, 7);
    assert_no_reason(side, [2, 6], 0xFFFF, &broken, 2);
    assert_no_reason(side, [6, 5], 0xFFFF, &broken, 3);
    assert_no_reason(side, [2, 0x0A], 0xFFFF, &broken, 5);
    assert_no_reason(side, [2, 0x0A], 0xFFFF, &[0, 0, 0, 1, 0, 0, 0], 6); // a length of 1 is no multiple of 64
    assert_no_reason(side, [0x71, 0], 0xFFFF, &broken, 6);
    assert_no_reason(side, [0x71, 0x3E], 0xFFFF, &broken, 5);
    assert_no_reason(side, [5, 0], 0xFFFF, &[48, 0], 4);
}

fn another_nodes_broken_list(side: Side) {
    for nadr in [2, 0x0101, 0xFF00] {
        let b = Board::started(side, 3, 1);
        assert_answered(&b, &frame_of(nadr, 2, 5, 0xFFFF, &[4, 0]), &[], RequestAnswer::zeros(b.node));
    }
}

// ---- the bad part of a step ----
/// Compiles a scene of these steps with both calls, and compares the whole answer; no byte is written.
fn assert_bad(side: Side, steps: &[[u8; 4]], room: usize, refusal: u8, step: u8) {
    let book = book_of(&[steps.to_vec()]);
    let mut out = vec![0xEE; room];
    let want = CompileAnswer { refusal, step, length: 0 };
    assert_eq!((side.compile)(&book, 0, 1, 0x2471, &mut out), want, "{steps:02X?}");
    assert_eq!((side.compile_default)(&book, 0, 1, &mut out), want, "{steps:02X?}");
    assert!(out.iter().all(|&b| b == 0xEE));
}

fn assert_bad_step(side: Side, step: [u8; 4], refusal: u8) {
    assert_bad(side, &[step], 4096, refusal, 0);
}

/// Compiles a scene of one step for node 1: one request with this entry.
fn assert_good_step(side: Side, step: [u8; 4], entry: &[u8]) {
    assert_lists(side, &[step], &[[entry, &[0]].concat()]);
}

fn each_bad_part_of_a_step(side: Side) {
    for kind in [5, 6, 0x80, 255] {
        assert_bad_step(side, [kind, 0, 0, 0], 81);
    }
    for kind in 0..=2 {
        assert_bad_step(side, [kind, 32, 100, 0xFF], 82);
        assert_bad_step(side, [kind, 255, 0, 0], 82);
        assert_bad_step(side, [kind, 31, 101, 0xFF], 83);
        assert_bad_step(side, [kind, 0, 255, 0], 83);
        assert_bad_step(side, [kind, 31, 100, 0x80], 84);
        assert_bad_step(side, [kind, 0, 0, 0x80], 84);
        assert_good_step(side, [kind, 31, 100, 0xFF], &[11, 0x71, kind, 0xFF, 0xFF, 0, 0, 0, 0x80, 0xE4, 0xFF]);
    }
}

fn first_bad_part_of_a_step(side: Side) {
    assert_bad_step(side, [5, 255, 255, 0x80], 81);
    assert_bad_step(side, [0, 32, 101, 0x80], 82);
    assert_bad_step(side, [0, 32, 101, 0], 82);
    assert_bad_step(side, [0, 32, 0, 0x80], 82);
    assert_bad_step(side, [0, 0, 101, 0x80], 83);
}

fn memory_steps(side: Side) {
    assert_good_step(side, [3, 47, 255, 0], &[7, 5, 1, 0xFF, 0xFF, 47, 255]);
    assert_good_step(side, [4, 191, 255, 0], &[7, 3, 1, 0xFF, 0xFF, 191, 255]);
    for (kind, size) in [(3, 48), (4, 192)] {
        assert_bad_step(side, [kind, size, 0, 0], 82);
        assert_bad_step(side, [kind, 255, 255, 1], 82);
        for time in [1, 0x80, 0x81, 255] {
            assert_bad_step(side, [kind, size - 1, 255, time], 84);
        }
    }
}

fn first_bad_step_of_a_scene(side: Side) {
    let good = [0, 0, 10, 0];
    assert_bad(side, &[good, [3, 0, 255, 0], [1, 0, 101, 0]], 4096, 83, 2);
    // the second bad step has a part that comes earlier
    assert_bad(side, &[good, [0, 0, 0, 0x80], [5, 0, 0, 0]], 4096, 84, 1);
    let mut longest = vec![good; 64];
    longest[63] = [4, 192, 0, 0];
    assert_bad(side, &longest, 4096, 82, 63);
}

fn bad_steps_with_a_short_buffer(side: Side) {
    let good = [0, 0, 10, 0];
    for room in [0, 4095] {
        for (bad, refusal) in [([5, 0, 0, 0], 81), ([0, 32, 0, 0], 82), ([0, 0, 101, 0], 83), ([0, 0, 0, 0x80], 84)] {
            assert_bad(side, &[good, bad], room, refusal, 1);
        }
        assert_bad(side, &[good], room, 9, 0);
    }
}
