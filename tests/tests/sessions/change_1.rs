//! Document 02, change 1/12: broken lists and bad steps.
use crate::TESTED;
use grelfint::raw::{CompileAnswer, NodeSet, RequestAnswer};
use grelfint_tests::board::{frame_of, selective_pdata, with_address, Lengths};
use grelfint_tests::node::random::{self, BATCH_LIST, SELECTIVE_LIST};
use grelfint_tests::node::reference::{DATA, HWPID, NODE_SET};
use grelfint_tests::node::seen::BrokenList;
use grelfint_tests::node::session::Session;
use grelfint_tests::scene::random::{scene, step_with};
use grelfint_tests::scene::reference::Step;
use grelfint_tests::scene::seen::Compiled;
use grelfint_tests::scene::session::{SceneCall, To, ROOM};
use grelfint_tests::sides::LIBRARY;

/// A list that is built to break for this reason after `whole` whole entries, in a batch and in a selective batch
/// that selects this node or does not. With a wrong HWPID, ErrN 7 and no reason are expected.
fn broken_list(s: &mut Session, reason: u8, whole: usize, nadr: u16, right_hwpid: bool) {
    let (g, node) = (&mut s.g, s.boards.plain.node);
    let own = node.settings.address;
    let hwpid = if right_hwpid { g.pick(&[node.settings.hwpid, 0xFFFF]) } else { random::wrong_hwpid(g, &node) };
    let (list, place) = random::broken_list(g, &node, reason, whole, BATCH_LIST);
    let (shorter, place_in_it) = random::broken_list(g, &node, reason, whole, SELECTIVE_LIST);
    let nodes = random::node_set(g, own);
    let selective = |selected| selective_pdata(with_address(nodes, own, selected), &shorter);
    let nothing = RequestAnswer { addressed: true, ..RequestAnswer::zeros(node) };
    let error = RequestAnswer { length: if nadr == 0x00FF { 0 } else { 8 }, ..nothing };
    for (pcmd, pdata, want) in [
        (5, list, RequestAnswer { reason, place, ..error }),
        (0x0B, selective(true), RequestAnswer { reason, place: NODE_SET as u8 + place_in_it, ..error }),
        (0x0B, selective(false), nothing),
    ] {
        let frame = frame_of(nadr, 2, pcmd, hwpid, &pdata);
        let (errn, want) = if right_hwpid { (DATA, want) } else { (HWPID, error) };
        s.take_built(&frame, errn, want);
    }
}

/// A list broken in each way: after no, one and several whole entries, to this node and to all nodes, with a right
/// and a wrong HWPID.
fn lists_broken_in_each_way(s: &mut Session) {
    for reason in 1..=4 {
        for whole in [0, 1, s.g.within(2, 8)] {
            for nadr in [s.boards.plain.node.settings.address, 0x00FF] {
                broken_list(s, reason, whole, nadr, true);
                broken_list(s, reason, whole, nadr, false);
            }
        }
    }
}

/// Every length byte after the start of PData, with every number of bytes up to the end.
fn length_bytes_after(s: &mut Session, pcmd: u8, start: &[u8]) {
    for length in 0..=255u8 {
        for end in start.len() + 1..=56 {
            let mut pdata = [start, &[length]].concat();
            pdata.resize(end, s.g.pick(&[0, 1, 5, 0xFF]));
            let nadr = s.g.pick(&[s.boards.plain.node.settings.address, 0x00FF]);
            _ = s.take(&frame_of(nadr, 2, pcmd, 0xFFFF, &pdata), Lengths::USUAL);
        }
    }
}

/// A scene whose first bad step follows random good ones and has these bad parts: kind, target, value, time. The
/// first bad part is reported, whatever is bad after it and however short the output buffer is.
fn bad_step(s: &mut Session, selective: bool, bad: [bool; 4], room: usize) {
    let g = &mut s.g;
    let mut steps = scene(g, 0);
    steps.truncate(63);
    let number = steps.len() as u8;
    steps.push(step_with(g, bad));
    steps.append(&mut scene(g, 2));
    steps.truncate(64);
    let to = To::good(g, selective);
    let call = SceneCall::only(g, to, &steps, room);
    let first = bad.iter().position(|&part| part).expect("a bad part") as u8;
    s.compile_built(&call, CompileAnswer { refusal: 81 + first, step: number, length: 0 });
}

/// Lists of both kinds of batch that break in each way: every side finds the fault where the generator put it, if the node
/// is selected.
#[test]
fn broken_lists() {
    let boards = 200;
    for side in TESTED {
        let mut s = Session::new("broken_lists", side);
        s.run(boards, 1, lists_broken_in_each_way);
        s.report();
        s.seen.broken_lists.assert_each(BrokenList::every(), 3 * boards as u64);
    }
}

/// Every length byte, first in the list and after one and two entries, with every number of bytes up to the end, in a
/// batch and in a selective batch.
#[test]
fn every_length_byte() {
    let entry = [5, 0x71, 0x3E, 0xFF, 0xFF];
    for side in TESTED {
        let mut s = Session::new("every_length_byte", side);
        let own = s.boards.plain.node.settings.address;
        let selecting = NodeSet::from_iter([own]).bits;
        for (pcmd, before) in [(5, &[][..]), (0x0B, &selecting)] {
            for whole in 0..=2 {
                length_bytes_after(&mut s, pcmd, &[before, &entry.repeat(whole)].concat());
            }
        }
    }
}

/// Steps with every set of bad parts, with a sufficient and with a short output buffer, in both modes.
#[test]
fn first_bad_part_of_the_first_bad_step() {
    let mut s = Session::new("first_bad_part_of_the_first_bad_step", LIBRARY);
    s.run(200, 1, |s| {
        for set in 1..16u8 {
            let bad = [1, 2, 4, 8].map(|bit| set & bit != 0);
            for room in [ROOM, ROOM - 1, 0] {
                bad_step(s, false, bad, room);
                bad_step(s, true, bad, room);
            }
        }
    });
    s.seen.scenes.compiled.assert_each(Compiled::bad_steps(), 200);
}

/// Every byte in each part of a step of each kind, and every unknown kind.
#[test]
fn every_byte_of_a_step() {
    let mut s = Session::new("every_byte_of_a_step", LIBRARY);
    let mut compile = |step: Step| {
        let selective = s.g.chance(1, 2);
        let to = To::good(&mut s.g, selective);
        let call = SceneCall::only(&mut s.g, to, &[step], ROOM);
        s.compile(&call).0.refusal
    };
    for byte in 0..=255 {
        assert_eq!(compile([byte, 0, 0, 0]), if byte <= 4 { 0 } else { 81 });
        for kind in 0..=4 {
            let is_lamp = kind <= 2;
            let targets = match kind {
                3 => 48,
                4 => 192,
                _ => 32,
            };
            for (step, is_bad, refusal) in [
                ([kind, byte, 0, 0], byte >= targets, 82),
                ([kind, 0, byte, 0], is_lamp && byte > 100, 83),
                ([kind, 0, 0, byte], if is_lamp { byte == 0x80 } else { byte != 0 }, 84),
            ] {
                assert_eq!(compile(step), if is_bad { refusal } else { 0 }, "{step:?}");
            }
        }
    }
}
