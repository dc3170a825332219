//! Random calls of the compiler on the tested side, on the reference and on the
//! fast implementation; and nodes that take the requests of a scene.
use super::random;
use super::reference::{do_step, read_book, Step};
use super::seen::{Profile, Taker};
use crate::board::{book_of, Board, Lengths};
use crate::buffers::{difference, hex, Input, GUARD};
use crate::node::random as node_random;
use crate::node::reference::{do_list, names};
use crate::node::session::{memories, rows, Session};
use crate::rng::Rng;
use crate::sides::{Side, FAST, REFERENCE};
use grelfint::raw::{CompileAnswer, Node, NodeSet, RequestAnswer};

pub struct SceneCall {
    pub book: Vec<u8>,
    pub scene: usize,
    pub to: To,
    /// 0xFFFF if `left_out`.
    pub hwpid: u16,
    pub left_out: bool,
    pub room: usize,
    pub out: Vec<u8>,
}

/// For whom a scene is compiled, which is also the compiler's mode.
#[derive(Clone, Copy, Debug)]
pub enum To {
    Address(u16),
    Nodes(NodeSet),
}

impl To {
    /// An address or nodes, mostly with this node; the compiler refuses a few.
    pub fn random(g: &mut Rng, node: &Node) -> To {
        let selective = g.chance(1, 2);
        if g.chance(1, 14) {
            return To::bad(g, selective);
        }
        if selective {
            return To::Nodes(node_random::good_node_set(g, &[*node]));
        }
        To::Address(match g.below(13) {
            0 => g.within(1, 239) as u16,
            1..=4 => 255,
            _ => node.settings.address,
        })
    }

    /// All nodes in the first mode, any nodes in the second.
    pub fn good(g: &mut Rng, selective: bool) -> To {
        if selective {
            To::Nodes(node_random::good_node_set(g, &[]))
        } else {
            To::Address(255)
        }
    }

    /// Refused with 1.
    pub fn bad(g: &mut Rng, selective: bool) -> To {
        if selective {
            To::Nodes(node_random::bad_node_set(g))
        } else {
            To::Address(g.pick(&[0u16, 240, 254, 256, 0xFF00, 0xFFFF, 511]))
        }
    }

    pub fn nodes(&self) -> Option<&NodeSet> {
        match self {
            To::Address(_) => None,
            To::Nodes(nodes) => Some(nodes),
        }
    }

    pub fn names(&self, node: &Node) -> bool {
        let own = node.settings.address;
        match self {
            To::Address(address) => *address == 255 || *address == own,
            To::Nodes(nodes) => names(&nodes.bits, own),
        }
    }

    fn is_broadcast(&self) -> bool {
        !matches!(self, To::Address(1..=239))
    }
}

/// The least output buffer that is not refused.
pub const ROOM: usize = 4096;

impl SceneCall {
    pub fn random(g: &mut Rng, node: &Node) -> SceneCall {
        let book = random::book(g);
        let count = book.first().copied().unwrap_or(0) as usize;
        let scene = match g.below(14) {
            0 => g.pick(&[count, 16, 255, 256, usize::MAX]),
            _ => g.below(count.clamp(1, 16)),
        };
        let to = To::random(g, node);
        let left_out = g.chance(1, 3);
        let hwpid = if left_out { 0xFFFF } else { node_random::hwpid(g, node) };
        let room = match g.below(12) {
            0 => g.within(0, ROOM - 1),
            1 => ROOM - 1,
            2 => g.within(ROOM, 4200),
            _ => ROOM,
        };
        SceneCall { book, scene, hwpid, left_out, ..SceneCall::only(g, to, &[], room) }
    }

    /// Compiles the one scene of a book, with the wildcard.
    pub fn only(g: &mut Rng, to: To, steps: &[Step], room: usize) -> SceneCall {
        let mut out = vec![0; room + GUARD];
        g.fill(&mut out);
        let book = book_of(&[steps.to_vec()]);
        SceneCall { book, scene: 0, to, hwpid: 0xFFFF, left_out: g.chance(1, 2), room, out }
    }

    /// With these faults: book, scene, target of the last step, room. The other steps are good; returns the number of the
    /// last one.
    pub fn faulty(g: &mut Rng, to: To, [book, scene, step, room]: [bool; 4]) -> (SceneCall, u8) {
        let mut steps = random::scene(g, 0);
        steps.truncate(63);
        let number = steps.len() as u8;
        steps.push(random::step_with(g, [false, step, false, false]));
        let room = if room { g.within(0, ROOM - 1) } else { ROOM };
        let mut call = SceneCall::only(g, to, &steps, room);
        if book {
            call.book.push(0);
        }
        if scene {
            call.scene = g.pick(&[1, 16, usize::MAX]);
        }
        (call, number)
    }

    /// A side's answer and the output buffer after the call. The book is passed separately, so that it may be guarded.
    fn compile(&self, side: Side, book: &[u8]) -> (CompileAnswer, Vec<u8>) {
        let mut out = self.out.clone();
        let room = &mut out[..self.room];
        let answer = match (self.to, self.left_out) {
            (To::Address(address), false) => (side.compile)(book, self.scene, address, self.hwpid, room),
            (To::Address(address), true) => (side.compile_default)(book, self.scene, address, room),
            (To::Nodes(nodes), false) => (side.compile_selected)(book, self.scene, nodes, self.hwpid, room),
            (To::Nodes(nodes), true) => (side.compile_selected_default)(book, self.scene, nodes, room),
        };
        (answer, out)
    }

    pub fn is_for(&self, node: &Node) -> bool {
        self.to.names(node) && Profile::of(self.hwpid, node) != Profile::Other
    }

    /// Where the list starts in a compiled request.
    fn list_start(&self) -> usize {
        6 + self.to.nodes().map_or(0, |nodes| nodes.bits.len())
    }

    /// The board after the step machine has done the scene's steps.
    fn stepped(&self, before: &Board) -> Board {
        let mut end = before.clone();
        let mut parts = end.parts();
        for &step in &read_book(&self.book).expect("compiled")[self.scene] {
            do_step(&mut parts, step);
        }
        end.node = parts.node;
        end
    }

    pub fn inputs(&self, before: &Board) -> String {
        let SceneCall { book, scene, to, hwpid, left_out, room, out } = self;
        format!(
            "scene {scene}, to {to:02X?}, HWPID {hwpid:04X}, left out {left_out}, room {room}\n\
             book ({}) {}\n{:?}\n{}\noutput buffer{}",
            book.len(),
            hex(book),
            before.node,
            memories(before),
            rows(out)
        )
    }
}

/// The requests in a compiled scene, and the scene's total length.
fn requests_in(out: &[u8]) -> (Vec<&[u8]>, usize) {
    let count = out[0] as usize;
    let mut at = 1 + count;
    let mut requests = Vec::new();
    for &length in &out[1..1 + count] {
        requests.push(&out[at..at + length as usize]);
        at += length as usize;
    }
    (requests, at)
}

impl Session {
    /// Compiles a random scene and, if it is for the boards' node or for chosen nodes, sends it the requests.
    pub fn scene(&mut self) {
        let call = SceneCall::random(&mut self.g, &self.boards.plain.node);
        let (answer, out) = self.compile(&call);
        if answer.refusal == 0 && (call.is_for(&self.boards.plain.node) || call.to.nodes().is_some()) {
            self.take_scene(&call, &out, answer.length);
        }
    }

    /// Compiles a scene on all sides.
    pub fn compile(&mut self, call: &SceneCall) -> (CompileAnswer, Vec<u8>) {
        let lent = Input::new(&call.book);
        let (a, out) = call.compile(self.boards.tested.side, lent.part());
        let (b, want) = call.compile(REFERENCE, &call.book);
        let (c, quick) = call.compile(FAST, &call.book);
        self.count(b.refusal);
        let fault = difference("output", &out, &want) + &lent.difference("book");
        let inputs = || call.inputs(&self.boards.plain);
        self.agree(self.boards.tested.side.name, [&a, &b], &fault, inputs);
        self.expect(a.refusal != 8, || format!("refusal 8, which no call has\n{}", inputs()));
        self.agree(FAST.name, [&c, &b], &difference("output", &quick, &want), inputs);
        self.seen.scenes.compile(call.to.nodes(), b.refusal, call.room < ROOM);
        if b.refusal == 0 {
            let lists: Vec<&[u8]> = requests_in(&out).0.iter().map(|frame| &frame[call.list_start()..]).collect();
            self.seen.scenes.lists(call.to.nodes().is_some(), &lists);
        }
        (b, out)
    }

    /// Compiles a scene that is built for this answer.
    pub fn compile_built(&mut self, call: &SceneCall, want: CompileAnswer) {
        let (answer, _) = self.compile(call);
        self.expect(answer == want, || {
            format!("built for {want:?}, answer {answer:?}\n{}", call.inputs(&self.boards.plain))
        });
    }

    /// A node that the scene is for takes every request and every entry, and ends as the step machine leaves it. Any
    /// other node stays as it was.
    pub fn take_scene(&mut self, call: &SceneCall, out: &[u8], length: usize) {
        let before = self.boards.plain.clone();
        let obeys = call.is_for(&before.node);
        let end = if obeys { call.stepped(&before) } else { before.clone() };
        let (requests, bytes) = requests_in(out);
        self.expect(bytes == length, || format!("length {length} of {bytes} bytes\n{}", call.inputs(&before)));
        for (i, frame) in requests.iter().enumerate() {
            if obeys {
                let errors = do_list(&mut self.boards.plain.clone().parts(), &frame[call.list_start()..]);
                let sound = matches!(&errors, Ok(list) if !list.is_empty() && list.iter().all(|&e| e == 0));
                self.expect(sound, || format!("request {i}: entries {errors:?}\n{}", call.inputs(&before)));
            }
            let a = self.take(frame, Lengths::USUAL);
            let response = &self.boards.tested.response;
            let taken = if call.to.is_broadcast() { a.length == 0 } else { a.length == 8 && response[6] == 0 };
            let unchanged = response[a.length..] == before.response[a.length..];
            let want = RequestAnswer { length: a.length, addressed: true, ..RequestAnswer::zeros(a.node) };
            self.expect(a == want && taken && unchanged, || format!("request {i}: {a:?}\n{}", call.inputs(&before)));
        }
        let same = self.boards.tested.eeprom == end.eeprom && self.boards.tested.external == end.external;
        self.expect(self.boards.tested.node == end.node && same, || {
            format!(
                "{}\nlibrary  {:?}\nexpected {:?}\nEEPROM   {}\nexpected {}\n{}",
                if obeys { "the step machine ends in another state" } else { "not for this node, which changed" },
                self.boards.tested.node,
                end.node,
                hex(&self.boards.tested.eeprom),
                hex(&end.eeprom),
                call.inputs(&before)
            )
        });
        if call.to.nodes().is_some() {
            let (selected, profile) = (call.to.names(&before.node), Profile::of(call.hwpid, &before.node));
            self.seen.scenes.takers.add(Taker { selected, profile });
        }
    }
}
