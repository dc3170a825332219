//! Document 02, change 3/12: selective batches and scenes for chosen nodes.
use crate::common::*;
use grelfint::raw::{CompileAnswer, NodeSet, RequestAnswer};
use grelfint_tests::board::{book_of, frame_of, selective_pdata, Board};
use grelfint_tests::on_every_side;
use grelfint_tests::sides::Side;
use std::slice::from_ref;

on_every_side! { node [
    selective_batch_for_nodes_1_and_9,
    selected_by_the_bit_of_the_address,
    selective_batch_of_memories,
    not_selected_tests_nothing_further,
    selective_batch_without_a_list,
    selective_batch_with_a_broken_list,
    selective_lists_at_the_longest_pdata,
    errors_before_the_selection,
    address_0_selects_no_node,
    batches_inside_lists,
    other_os_commands,
    another_nodes_selective_batch,
    compiled_for_chosen_nodes,
    compiled_for_chosen_nodes_of_a_profile,
    no_request_for_chosen_nodes,
    longest_memory_entries_for_chosen_nodes,
    longest_lamp_entries_for_chosen_nodes,
    longest_lists_for_chosen_nodes,
    longest_entries_and_lists_for_one_node,
    longest_output_for_chosen_nodes,
    node_sets_of_the_compiler,
    refusals_for_chosen_nodes,
    scene_for_two_of_four_nodes,
] }

// ---- selective batch ----
const NODES_1_AND_9: [u8; 30] =
    [2, 2, 0, 0, 0, 0, 0, 0, 0, 0, 0, 0, 0, 0, 0, 0, 0, 0, 0, 0, 0, 0, 0, 0, 0, 0, 0, 0, 0, 0];
/// Document 01's compiled example: lamp 0 to 10, lamp 2 to 100 for two minutes.
const LIST: [u8; 13] = [0x0C, 0x71, 0, 0xFF, 0xFF, 5, 0, 0, 0, 0x0A, 0xE4, 2, 0];
const LAMPS_AFTER_LIST: [LevelAndSeconds; 3] = [(10, 0), (0, 0), (100, 120)];
const LIT: [LevelAndSeconds; 3] = [(40, 0), (50, 30), (0, 0)];

/// A node with this address and these lamps.
fn node_at(side: Side, address: u16, lamps: &[LevelAndSeconds; 3]) -> Board {
    let mut b = board_with(side, 1, lamps);
    b.node.settings.address = address;
    b
}

/// Sends a selective batch at the node's own address and at broadcast: no answer, and nothing changes.
fn assert_not_selected(board: &Board, pdata: &[u8]) {
    let want = RequestAnswer { addressed: true, ..RequestAnswer::zeros(board.node) };
    for nadr in [board.node.settings.address, 0x00FF] {
        assert_answered(board, &frame_of(nadr, 2, 0x0B, 0xFFFF, pdata), &[], want);
    }
}

/// Sends the list to these nodes, at the node's own address and at broadcast: it is executed, and the first is answered.
fn assert_selected(board: &Board, nodes: &[u8; 30]) {
    let mut after = node_at(board.side, board.node.settings.address, &LAMPS_AFTER_LIST).node;
    after.lamps[1] = board.node.lamps[1];
    assert_outcome(board, [2, 0x0B], 0xFFFF, &[&nodes[..], &LIST].concat(), Outcome::success(after));
}

fn selective_batch_for_nodes_1_and_9(side: Side) {
    let frame = |nadr| [&[nadr, 0, 2, 0x0B, 0xFF, 0xFF], &NODES_1_AND_9[..], &LIST].concat();
    for own in [1, 9] {
        for (nadr, response) in [(own, vec![own, 0, 2, 0x8B, 0x71, 0x24, 0, 7]), (0xFF, vec![])] {
            let mut b = node_at(side, own as u16, &[(0, 0); 3]);
            assert_eq!(b.frame(&frame(nadr)), (response, false));
            assert_eq!(b.lamps(3), LAMPS_AFTER_LIST);
        }
    }
    for own in [2, 8, 10, 239] {
        for nadr in [own, 0xFF] {
            let mut b = node_at(side, own as u16, &LIT);
            assert_eq!(b.frame(&frame(nadr)), (vec![], false));
            assert_eq!(b.lamps(3), LIT);
        }
    }
}

/// By the bit alone and among all others; without it, neither the rest of its byte nor all other bits select the node.
fn selected_by_the_bit_of_the_address(side: Side) {
    for (address, byte, bit) in [
        (1, 0, 0x02),
        (2, 0, 0x04),
        (7, 0, 0x80),
        (8, 1, 0x01),
        (15, 1, 0x80),
        (16, 2, 0x01),
        (30, 3, 0x40),
        (127, 15, 0x80),
        (128, 16, 0x01),
        (231, 28, 0x80),
        (232, 29, 0x01),
        (238, 29, 0x40),
        (239, 29, 0x80),
    ] {
        let b = node_at(side, address, &LIT);
        let mut nodes = [0; 30];
        nodes[byte] = bit;
        assert_selected(&b, &nodes);
        nodes[byte] = !bit;
        assert_not_selected(&b, &[&nodes[..], &LIST].concat());
        nodes = [0xFF; 30];
        assert_selected(&b, &nodes);
        nodes[byte] = !bit;
        assert_not_selected(&b, &[&nodes[..], &LIST].concat());
    }
}

/// One entry for each memory; the second entry has an error, and the third still runs.
fn selective_batch_of_memories(side: Side) {
    let list = [7, 3, 1, 0xFF, 0xFF, 191, 3, 7, 5, 1, 0xFF, 0xFF, 48, 5, 8, 4, 3, 0xFF, 0xFF, 0xFF, 0x3F, 4, 0];
    let mut b = Board::started(side, 3, 1);
    let before = b.node;
    assert_eq!(b.take(2, 0x0B, &selective_pdata(NodeSet::from_iter([1, 2]), &list)), (0, vec![]));
    assert_eq!((b.eeprom[191], b.external[0x3FFF], b.node), (3, 4, before));
    let mut b = Board::started(side, 3, 1);
    assert_eq!(
        b.frame(&frame_of(1, 2, 0x0B, 0xFFFF, &selective_pdata(NodeSet::from_iter([2]), &list))),
        (vec![], false)
    );
    assert_eq!((b.eeprom[191], b.external[0x3FFF], b.node), (0, 0, before));
}

/// Not even the list: a broken one is no error.
fn not_selected_tests_nothing_further(side: Side) {
    let lists: [&[u8]; 9] = [
        &LIST,
        &[0],
        &[4, 0],
        &[3],
        &[5, 0x71, 0x3E, 0xFF],
        &[5, 0x71, 0x3E, 0xFF, 0xFF],
        &[0, 0],
        &[0xFF; 26],
        &[10, 0x71, 0, 0xFF, 0xFF, 1, 0, 0, 0, 10, 4, 0],
    ];
    for list in lists {
        for nodes in
            [NodeSet::from_iter([]), NodeSet::from_iter([2, 9]), NodeSet::from_iter(2..240), NodeSet::from_iter([0])]
        {
            assert_not_selected(&node_at(side, 1, &LIT), &selective_pdata(nodes, list));
        }
    }
}

/// Under 31 bytes: ErrN 5, whether or not the bytes that are there select the node.
fn selective_batch_without_a_list(side: Side) {
    for byte in [0x00, 0xFF] {
        for length in [0, 1, 2, 7, 29, 30] {
            assert_no_reason(side, [2, 0x0B], 0xFFFF, &vec![byte; length], 5);
        }
    }
    let b = Board::started(side, 3, 1);
    assert_outcome(&b, [2, 0x0B], 0xFFFF, &[&NODES_1_AND_9[..], &[0]].concat(), Outcome::success(b.node));
    assert_not_selected(&node_at(side, 2, &[(0, 0); 3]), &[&NODES_1_AND_9[..], &[0]].concat());
}

/// The place counts in PData, which has thirty bytes before the list.
fn assert_broken_selective(side: Side, list: &[u8], reason: u8, place: u8) {
    for nodes in [NodeSet::from_iter([1]), NodeSet::from_iter(0..240)] {
        assert_answer(side, [2, 0x0B], 0xFFFF, &selective_pdata(nodes, list), 6, (reason, place));
    }
}

fn selective_batch_with_a_broken_list(side: Side) {
    assert_broken_selective(side, &[4, 0], 1, 30);
    assert_broken_selective(side, &[3], 1, 30);
    assert_broken_selective(side, &[5, 0x71, 0x3E, 0xFF], 2, 30);
    assert_broken_selective(side, &[5, 0x71, 0x3E, 0xFF, 0xFF], 3, 35);
    assert_broken_selective(side, &[0, 0], 4, 31);
    let entry = [10, 0x71, 0, 0xFF, 0xFF, 1, 0, 0, 0, 10];
    let after = |whole, rest: &[u8]| [&entry.repeat(whole)[..], rest].concat();
    assert_broken_selective(side, &after(1, &[4, 0]), 1, 40);
    assert_broken_selective(side, &after(1, &[5, 0x71, 0x3E, 0xFF]), 2, 40);
    assert_broken_selective(side, &after(1, &[]), 3, 40);
    assert_broken_selective(side, &after(1, &[0, 0]), 4, 41);
    assert_broken_selective(side, &after(2, &[1]), 1, 50);
    assert_broken_selective(side, &after(2, &[]), 3, 50);
}

/// Lists of 26 bytes.
fn selective_lists_at_the_longest_pdata(side: Side) {
    let shortest = [5, 0x71, 0x3E, 0xFF, 0xFF].repeat(5);
    assert_no_reason(side, [2, 0x0B], 0xFFFF, &[&NODES_1_AND_9[..], &shortest, &[0]].concat(), 0);
    assert_broken_selective(side, &[&shortest[..], &[1]].concat(), 1, 55);
    assert_broken_selective(side, &[&shortest[..], &[5]].concat(), 2, 55);
    assert_broken_selective(side, &[&shortest[..20], &[6, 0x71, 0x3E, 0xFF, 0xFF, 0]].concat(), 3, 56);
    assert_broken_selective(side, &[&shortest[..15], &[9, 0x71, 0x3E, 0xFF, 0xFF, 0, 0, 0, 0, 0, 9]].concat(), 4, 55);
    for (length, reason, place) in [(26, 3, 56), (27, 2, 30), (255, 2, 30)] {
        let mut list = vec![length, 0x71, 0x3E, 0xFF, 0xFF];
        list.resize(26, 0);
        assert_broken_selective(side, &list, reason, place);
    }
}

/// A wrong HWPID, an unknown PNUM and an unknown PCMD are answered by every node, whatever PData is.
fn errors_before_the_selection(side: Side) {
    let [selected, not_selected] = [[1], [2]].map(|nodes| selective_pdata(NodeSet::from_iter(nodes), &[4, 0]));
    for pdata in [&selected[..], &not_selected, &[], &[0; 30]] {
        assert_no_reason(side, [2, 0x0B], 0x1234, pdata, 7);
        assert_no_reason(side, [6, 0x0B], 0xFFFF, pdata, 3);
        assert_no_reason(side, [0, 0x0B], 0xFFFF, pdata, 3);
        assert_no_reason(side, [3, 0x0B], 0xFFFF, pdata, 2);
        assert_no_reason(side, [0x71, 0x0B], 0xFFFF, pdata, 2);
    }
}

fn address_0_selects_no_node(side: Side) {
    for address in [1, 8, 239] {
        let b = node_at(side, address, &LIT);
        assert_not_selected(&b, &selective_pdata(NodeSet::from_iter([0]), &LIST));
        assert_selected(&b, &NodeSet::from_iter([0, address]).bits);
    }
}

/// Entries with PNUM 02 are errors in lists of both kinds, and the entry after them runs.
fn batches_inside_lists(side: Side) {
    let all = NodeSet::from_iter(0..240);
    let write = [7, 5, 1, 0xFF, 0xFF, 0, 9, 0]; // a list: RAM byte 0 becomes 9
    let set = [10, 0x71, 0, 0xFF, 0xFF, 2, 0, 0, 0, 20, 0]; // lamp 1 to 20
    let b = Board::started(side, 3, 1);
    let mut after = b.node;
    after.lamps[1].level = 20;
    let success = Outcome::success(after);
    for [low, high] in [0xFFFF_u16, 0x2471, 0x1234].map(u16::to_le_bytes) {
        let before_set = |pcmd, pdata: &[u8]| [&[5 + pdata.len() as u8, 2, pcmd, low, high], pdata, &set].concat();
        let matching = [1, 0, 0, 64, 0, 0x01, 0x40]; // of 64 zeros, asking to load them
        for list in [
            before_set(5, &write),
            before_set(0x0A, &matching),
            before_set(0x0B, &all.bits[..10]),
            before_set(0x0B, &[]),
        ] {
            assert_outcome(&b, [2, 5], 0xFFFF, &list, success);
            assert_outcome(&b, [2, 0x0B], 0xFFFF, &selective_pdata(all, &list), success);
        }
        assert_outcome(&b, [2, 5], 0xFFFF, &before_set(0x0B, &selective_pdata(all, &write)), success);
    }
}

/// Only batch, code check and selective batch are known.
fn other_os_commands(side: Side) {
    let selecting = selective_pdata(NodeSet::from_iter([1]), &[0]);
    for pcmd in (0..=255).filter(|pcmd| ![0x05, 0x0A, 0x0B].contains(pcmd)) {
        for pdata in [&selecting[..], &[0], &[]] {
            assert_no_reason(side, [2, pcmd], 0xFFFF, pdata, 2);
        }
    }
}

/// NADR comes before the selection.
fn another_nodes_selective_batch(side: Side) {
    let b = Board::started(side, 3, 1);
    for nadr in [2, 0x0101, 0xFF00, 0] {
        for list in [&LIST[..], &[4, 0], &[]] {
            let pdata = selective_pdata(NodeSet::from_iter([1]), list);
            assert_answered(&b, &frame_of(nadr, 2, 0x0B, 0xFFFF, &pdata), &[], RequestAnswer::zeros(b.node));
        }
    }
}

// ---- scenes for chosen nodes ----
/// Document 01's book.
const BOOK: [u8; 12] = [1, 4, 0, 2, 0, 0, 0x0A, 0, 0, 2, 0x64, 2];

/// Compiles the first scene of a book for chosen nodes, with both calls if the HWPID is the wildcard, and compares the
/// whole answer and buffer.
fn assert_chosen(side: Side, book: &[u8], nodes: NodeSet, hwpid: u16, want: &[u8]) {
    let answer = CompileAnswer { refusal: 0, step: 0, length: want.len() };
    let mut end = want.to_vec();
    end.resize(4200, 0xEE);
    let mut out = vec![0xEE; 4200];
    assert_eq!((side.compile_selected)(book, 0, nodes, hwpid, &mut out), answer);
    assert_eq!(out, end);
    if hwpid == 0xFFFF {
        out.fill(0xEE);
        assert_eq!((side.compile_selected_default)(book, 0, nodes, &mut out), answer);
        assert_eq!(out, end);
    }
}

/// Compiles these steps for nodes 1 and 9: a request for each list.
fn assert_chosen_lists(side: Side, steps: &[[u8; 4]], lists: &[Vec<u8>]) {
    let front = [&[0xFF, 0, 2, 0x0B, 0xFF, 0xFF], &NODES_1_AND_9[..]].concat();
    let book = book_of(&[steps.to_vec()]);
    assert_chosen(side, &book, NodeSet { bits: NODES_1_AND_9 }, 0xFFFF, &output_of(&front, lists));
}

fn compiled_for_chosen_nodes(side: Side) {
    let want = [
        0x01, 0x31, // one request of 49 bytes
        0xFF, 0x00, 0x02, 0x0B, 0xFF, 0xFF, // to broadcast, selective batch
        0x02, 0x02, 0, 0, 0, 0, 0, 0, 0, 0, 0, 0, 0, 0, 0, // nodes 1 and 9
        0, 0, 0, 0, 0, 0, 0, 0, 0, 0, 0, 0, 0, 0, 0, //
        0x0C, 0x71, 0x00, 0xFF, 0xFF, 0x05, 0x00, 0x00, 0x00, 0x0A, 0xE4, 0x02, // set of lamps 0 and 2
        0x00,
    ];
    assert_chosen(side, &BOOK, NodeSet::from_iter([1, 9]), 0xFFFF, &want);
}

/// The HWPID is in the request and in each entry.
fn compiled_for_chosen_nodes_of_a_profile(side: Side) {
    let book = book_of(&[vec![[0, 0, 10, 0], [3, 47, 0xAB, 0]]]);
    let want = [
        1, 54, 0xFF, 0, 2, 0x0B, 0x71, 0x24, //
        0, 0, 0, 0, 0, 0, 0, 0, 0, 0, 0, 0, 0, 0, 0, 0, 0, 0, 0, 0, 0, 0, 0, 0, 0, 0, 0, 0, 0, 0x80, // node 239
        10, 0x71, 0, 0x71, 0x24, 1, 0, 0, 0, 10, //
        7, 5, 1, 0x71, 0x24, 47, 0xAB, //
        0,
    ];
    assert_chosen(side, &book, NodeSet::from_iter([239]), 0x2471, &want);
}

fn no_request_for_chosen_nodes(side: Side) {
    assert_chosen(side, &[1, 4, 0, 0], NodeSet::from_iter([1]), 0xFFFF, &[0]);
    assert_chosen(side, &[1, 4, 0, 0], NodeSet::from_iter(1..240), 0x2471, &[0]);
}

/// PData of 20 bytes: an address and nineteen values.
fn longest_memory_entries_for_chosen_nodes(side: Side) {
    for (kind, pnum) in [(3, 5), (4, 3)] {
        let steps: Vec<[u8; 4]> = (0..20).map(|i| [kind, i, 0x40 + i, 0]).collect();
        let values: Vec<u8> = (0x40..0x53).collect();
        let longest = [&[25, pnum, 1, 0xFF, 0xFF, 0], &values[..], &[0]].concat();
        assert_chosen_lists(side, &steps[..19], from_ref(&longest));
        assert_chosen_lists(side, &steps, &[longest, vec![7, pnum, 1, 0xFF, 0xFF, 19, 0x53, 0]]);
    }
}

/// PData of 20 bytes: a bitmap and sixteen powers, some of which may be times.
fn longest_lamp_entries_for_chosen_nodes(side: Side) {
    for kind in 0..=2 {
        let steps: Vec<[u8; 4]> = (0..17).map(|lamp| [kind, lamp, 10, 0]).collect();
        let longest = [&[25, 0x71, kind, 0xFF, 0xFF, 0xFF, 0xFF, 0, 0], &[10; 16][..], &[0]].concat();
        assert_chosen_lists(side, &steps[..16], from_ref(&longest));
        assert_chosen_lists(side, &steps, &[longest, vec![10, 0x71, kind, 0xFF, 0xFF, 0, 0, 1, 0, 10, 0]]);
        // seven lamps with a time and one without: 19 bytes, to which a byte can be added, but not two
        let mut steps: Vec<[u8; 4]> = (0..7).map(|lamp| [kind, lamp, 10, 2]).collect();
        steps.extend([[kind, 7, 10, 0], [kind, 8, 10, 0]]);
        let entry =
            |length, more| [&[length, 0x71, kind, 0xFF, 0xFF, 0xFF, more, 0, 0], &[0x8A, 2].repeat(7)[..]].concat();
        assert_chosen_lists(side, &steps, &[[&entry(25, 1)[..], &[10, 10, 0]].concat()]);
        steps[8][3] = 2;
        let next = vec![11, 0x71, kind, 0xFF, 0xFF, 0, 1, 0, 0, 0x8A, 2, 0];
        assert_chosen_lists(side, &steps, &[[&entry(24, 0)[..], &[10, 0]].concat(), next]);
    }
}

/// Lists of 12 + 13 + 1 bytes and of 7 + 7 + 7 + 1 bytes; 13 + 13 + 1 and a fourth 7 are too many.
fn longest_lists_for_chosen_nodes(side: Side) {
    let raise = [[1, 0, 5, 2], [1, 1, 5, 2]];
    let raise_entry = [13, 0x71, 1, 0xFF, 0xFF, 3, 0, 0, 0, 0x85, 2, 0x85, 2];
    let set_entry = |length| vec![length, 0x71, 0, 0xFF, 0xFF, 3, 0, 0, 0, 0x8A, 2];
    let steps = [[0, 0, 10, 2], [0, 1, 10, 0], raise[0], raise[1]];
    assert_chosen_lists(side, &steps, &[[&set_entry(12)[..], &[10], &raise_entry, &[0]].concat()]);
    let steps = [[0, 0, 10, 2], [0, 1, 10, 2], raise[0], raise[1]];
    let lists = [[&set_entry(13)[..], &[0x8A, 2, 0]].concat(), [&raise_entry[..], &[0]].concat()];
    assert_chosen_lists(side, &steps, &lists);

    let steps: Vec<[u8; 4]> = (0..4).map(|i| [4, 2 * i, i, 0]).collect();
    let entries: Vec<u8> = (0..3).flat_map(|i| [7, 3, 1, 0xFF, 0xFF, 2 * i, i]).collect();
    let three = [&entries[..], &[0]].concat();
    assert_chosen_lists(side, &steps[..3], from_ref(&three));
    assert_chosen_lists(side, &steps, &[three, vec![7, 3, 1, 0xFF, 0xFF, 6, 3, 0]]);
}

/// For one node an entry's PData has at most 50 bytes and a list 56, which 28 + 28 + 1 bytes pass.
fn longest_entries_and_lists_for_one_node(side: Side) {
    let run = |first: u8, count: u8| (first..first + count).map(|i| [4, i, i, 0]);
    let entry = |first: u8, count: u8| {
        let values: Vec<u8> = (first..first + count).collect();
        [&[6 + count, 3, 1, 0xFF, 0xFF, first], &values[..]].concat()
    };
    let closed = |entries: &[Vec<u8>]| [&entries.concat()[..], &[0]].concat();
    let steps: Vec<[u8; 4]> = run(0, 50).collect();
    assert_lists(side, &steps[..49], &[closed(&[entry(0, 49)])]);
    assert_lists(side, &steps, &[closed(&[entry(0, 49)]), closed(&[entry(49, 1)])]);
    let steps: Vec<[u8; 4]> = run(0, 21).chain(run(30, 22)).collect();
    assert_lists(side, &steps, &[closed(&[entry(0, 21), entry(30, 22)])]);
    let steps: Vec<[u8; 4]> = run(0, 22).chain(run(30, 22)).collect();
    assert_lists(side, &steps, &[closed(&[entry(0, 22)]), closed(&[entry(30, 22)])]);
}

/// Sixty-four steps that cannot be joined, two in a request: the most requests and bytes that there can be.
fn longest_output_for_chosen_nodes(side: Side) {
    let entry = [11, 0x71, 0, 0xFF, 0xFF, 1, 0, 0, 0, 0x8A, 2];
    let list = [&entry[..], &entry, &[0]].concat();
    assert_chosen_lists(side, &[[0, 0, 10, 2]; 64], &vec![list; 32]);
}

/// Compiles for chosen nodes with both calls, and compares the whole answer; no byte is written.
fn assert_refused(side: Side, book: &[u8], scene: usize, nodes: NodeSet, room: usize, refusal: u8, step: u8) {
    let want = CompileAnswer { refusal, step, length: 0 };
    let mut out = vec![0xEE; room];
    assert_eq!((side.compile_selected)(book, scene, nodes, 0x2471, &mut out), want, "{nodes:02X?}");
    assert_eq!((side.compile_selected_default)(book, scene, nodes, &mut out), want, "{nodes:02X?}");
    assert!(out.iter().all(|&b| b == 0xEE));
}

fn node_sets_of_the_compiler(side: Side) {
    for nodes in [
        NodeSet::from_iter([]),
        NodeSet::from_iter([0]),
        NodeSet::from_iter([0, 1]),
        NodeSet::from_iter([0, 239]),
        NodeSet::from_iter(0..240),
    ] {
        assert_refused(side, &BOOK, 0, nodes, 4096, 1, 0);
    }
    for nodes in [
        NodeSet::from_iter([1]),
        NodeSet::from_iter([7]),
        NodeSet::from_iter([8]),
        NodeSet::from_iter([239]),
        NodeSet::from_iter(1..240),
    ] {
        let front = [&[1, 0x31, 0xFF, 0, 2, 0x0B, 0xFF, 0xFF], &nodes.bits[..]].concat();
        assert_chosen(side, &BOOK, nodes, 0xFFFF, &[&front[..], &LIST].concat());
    }
}

/// A call with every fault, of which the first is mended each time.
fn refusals_for_chosen_nodes(side: Side) {
    let nodes = NodeSet::from_iter([1, 9]);
    let bad = book_of(&[vec![[0, 0, 10, 0], [0, 32, 101, 0x80]]]);
    let cut = &bad[..bad.len() - 1];
    assert_refused(side, cut, 1, NodeSet::from_iter([]), 0, 1, 0);
    assert_refused(side, cut, 1, NodeSet::from_iter([0, 1]), 0, 1, 0);
    assert_refused(side, cut, 1, nodes, 0, 6, 0);
    assert_refused(side, &bad, 1, nodes, 0, 7, 0);
    assert_refused(side, &bad, 0, nodes, 0, 82, 1);
    assert_refused(side, &BOOK, 0, nodes, 0, 9, 0);
    assert_refused(side, &BOOK, 0, nodes, 4095, 9, 0);
    assert_refused(side, &[1, 4, 0, 0], 0, nodes, 4095, 9, 0);
    assert_refused(side, &[], 0, nodes, 4096, 6, 0);
    assert_refused(side, &[0], 0, nodes, 4096, 7, 0);
    for (step, refusal) in [([5, 0, 0, 0], 81), ([0, 32, 0, 0], 82), ([0, 0, 101, 0], 83), ([0, 0, 0, 0x80], 84)] {
        assert_refused(side, &book_of(&[vec![[0, 0, 10, 0], step]]), 0, nodes, 4096, refusal, 1);
    }
}

/// Two requests, of which every node gets both. Nodes 1 and 9 are chosen, and node 9 has another profile than the scene.
fn scene_for_two_of_four_nodes(side: Side) {
    let steps = [[0, 0, 10, 2], [0, 1, 20, 2], [1, 0, 5, 0], [1, 2, 100, 0x85], [4, 7, 0xAB, 0]];
    let mut out = vec![0xEE; 4096];
    let answer = (side.compile_selected)(&book_of(&[steps.to_vec()]), 0, NodeSet::from_iter([1, 9]), 0x2471, &mut out);
    assert_eq!((answer.refusal, out[0]), (0, 2));
    let after = [(15, 0), (20, 120), (100, 5)];
    let requests = [&out[3..3 + out[1] as usize], &out[3 + out[1] as usize..answer.length]];
    for (address, hwpid, lamps, byte) in
        [(1, 0x2471, after, 0xAB), (9, 0x1234, LIT, 0), (2, 0x2471, LIT, 0), (10, 0x1234, LIT, 0)]
    {
        let mut b = node_at(side, address, &LIT);
        b.node.settings.hwpid = hwpid;
        for request in requests {
            assert_eq!(b.frame(request), (vec![], false), "node {address}");
        }
        assert_eq!(b.lamps(3), lamps, "node {address}");
        assert_eq!(b.eeprom[7], byte, "node {address}");
    }
}
