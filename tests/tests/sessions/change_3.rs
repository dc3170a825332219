//! Document 02, change 3/12: selective batches and scenes for chosen nodes.
use crate::TESTED;
use grelfint::raw::{NodeSet, RequestAnswer};
use grelfint_tests::board::{frame_of, selective_pdata, with_address, Lengths};
use grelfint_tests::buffers::hex;
use grelfint_tests::node::random::{self, SELECTIVE_LIST};
use grelfint_tests::node::reference::NODE_SET;
use grelfint_tests::node::seen::SelectiveBatch;
use grelfint_tests::node::session::{differences, Session};
use grelfint_tests::scene::random::scene;
use grelfint_tests::scene::seen::Taker;
use grelfint_tests::scene::session::{SceneCall, To, ROOM};
use grelfint_tests::sides::LIBRARY;

/// A selected node acts as for a batch of the same list: only PCMD in the response and the place differ.
fn same_as_batch(s: &mut Session) {
    let (g, node) = (&mut s.g, s.boards.plain.node);
    let own = node.settings.address;
    let nadr = g.pick(&[own, 0x00FF]);
    let (hwpid, list) = (random::hwpid(g, &node), random::any_list(g, &node, SELECTIVE_LIST));
    let nodes = with_address(random::node_set(g, own), own, true);
    let frame = frame_of(nadr, 2, 0x0B, hwpid, &selective_pdata(nodes, &list));
    let mut batch = s.boards.tested.clone();
    let mut want = batch.request(node, &frame_of(nadr, 2, 5, hwpid, &list), Lengths::USUAL);
    if want.length > 0 {
        batch.response[3] = 0x8B;
    }
    if want.reason != 0 {
        want.place += NODE_SET as u8;
    }
    let answer = s.take(&frame, Lengths::USUAL);
    let fault = differences(&s.boards.tested, &batch);
    s.expect(answer == want && fault.is_empty(), || {
        format!("{fault}not as for a batch: {answer:?}\nexpected {want:?}\nframe {}", hex(&frame))
    });
}

/// Whether a node with this address executes a selective batch for these nodes: whether a byte of RAM changes.
fn is_selected(s: &mut Session, address: u16, nodes: NodeSet) -> bool {
    let mut node = s.boards.plain.node;
    node.settings.address = address;
    let list = [7, 5, 1, 0xFF, 0xFF, 0, node.ram[0] ^ 1, 0];
    let nadr = s.g.pick(&[address, 0x00FF]);
    let frame = frame_of(nadr, 2, 0x0B, 0xFFFF, &selective_pdata(nodes, &list));
    s.request(node, &frame, Lengths::USUAL).node.ram[0] != node.ram[0]
}

/// A node that is not selected stays as it was and answers nothing, at its own address too.
fn not_selected(s: &mut Session) {
    let (g, node) = (&mut s.g, s.boards.plain.node);
    let own = node.settings.address;
    let nodes = with_address(random::node_set(g, own), own, false);
    let mut list = random::any_list(g, &node, SELECTIVE_LIST);
    list.resize(list.len().max(1), 0);
    let (nadr, hwpid) = (g.pick(&[own, 0x00FF]), g.pick(&[node.settings.hwpid, 0xFFFF]));
    let frame = frame_of(nadr, 2, 0x0B, hwpid, &selective_pdata(nodes, &list));
    let before = s.boards.tested.clone();
    let answer = s.take(&frame, Lengths::USUAL);
    let fault = differences(&s.boards.tested, &before);
    let want = RequestAnswer { addressed: true, ..RequestAnswer::zeros(node) };
    s.expect(answer == want && fault.is_empty(), || {
        format!("{fault}not selected: {answer:?}\nexpected {want:?}\nframe {}", hex(&frame))
    });
}

/// One scene, compiled once for chosen nodes, is taken by several nodes.
fn chosen_nodes(s: &mut Session) {
    let g = &mut s.g;
    let (nodes, steps) = (random::network(g), scene(g, 0));
    let to = To::Nodes(random::good_node_set(g, &nodes));
    let mut call = SceneCall::only(g, to, &steps, ROOM);
    if g.chance(2, 3) {
        (call.hwpid, call.left_out) = (nodes[0].settings.hwpid, false);
    }
    let (answer, out) = s.compile(&call);
    s.expect(answer.refusal == 0, || format!("{answer:?}\n{}", call.inputs(&s.boards.plain)));
    for node in nodes {
        s.new_boards();
        s.set_node(node);
        s.take_scene(&call, &out, answer.length);
    }
}

/// What a selected node does is what it does for a batch; a node that is not selected does nothing.
#[test]
fn selective_batches() {
    for side in TESTED {
        let mut s = Session::new("selective_batches", side);
        s.run(200, 50, |s| {
            same_as_batch(s);
            not_selected(s);
        });
        s.report();
        s.seen.selective.assert_each(SelectiveBatch::every_with_list(), 200);
    }
}

/// A node is selected by the bit of its address, whatever the 239 others are.
#[test]
fn every_address_and_bit() {
    for side in TESTED {
        let mut s = Session::new("every_address_and_bit", side);
        for address in 1..240 {
            for bit in 0..240 {
                let alone = NodeSet::from_iter([bit]);
                let all_others = NodeSet::from_iter((0..240).filter(|&other| other != bit));
                assert_eq!(is_selected(&mut s, address, alone), address == bit, "node {address}, bit {bit}");
                assert_eq!(
                    is_selected(&mut s, address, all_others),
                    address != bit,
                    "node {address}, all but bit {bit}"
                );
            }
        }
    }
}

/// Of several nodes that get the same requests, the chosen ones that accept the profile end as the step machine, and the others stay as
/// they were.
#[test]
fn one_scene_for_chosen_nodes() {
    for side in TESTED {
        let mut s = Session::new("one_scene_for_chosen_nodes", side);
        s.run(1, 3000, chosen_nodes);
        s.report();
        s.seen.scenes.takers.assert_each(Taker::every(), 300);
    }
}

/// A set of one address is in the request as it came, unless the address is 0.
#[test]
fn every_set_of_one_address() {
    let mut s = Session::new("every_set_of_one_address", LIBRARY);
    for address in 0..240 {
        let nodes = NodeSet::from_iter([address]);
        let call = SceneCall::only(&mut s.g, To::Nodes(nodes), &[[0, 0, 1, 0]], ROOM);
        let (answer, out) = s.compile(&call);
        if address == 0 {
            assert_eq!(answer.refusal, 1);
        } else {
            assert_eq!(out[..8], [1, 6 + 30 + 11, 0xFF, 0, 2, 0x0B, 0xFF, 0xFF]);
            assert_eq!(out[8..38], nodes.bits);
        }
    }
}
