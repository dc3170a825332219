//! Random calls of a node on the tested side and on the reference. After every
//! call the whole answer and every whole buffer are compared, with the guard bytes
//! after it, including buffers that are only read.
use super::random;
use super::reference::{self as r, EEPROM_SIZE, EXTERNAL_SIZE};
use super::seen::Seen;
use crate::board::{Board, Lengths};
use crate::buffers::{difference, hex, Input, GUARD};
use crate::gateway::reference as timing;
use crate::rng::{seed, Rng};
use crate::session;
use crate::sides::{Side, REFERENCE};
use grelfint::raw::{Lamp, Node, RequestAnswer, Settings};
use std::hint::black_box;

pub type Session = session::Session<Seen, Boards>;

/// Placed before and after a record that a call writes.
const GUARD_NODE: Node = Node {
    settings: Settings { address: 0xA5A5, hwpid: 0xA5A5, dpa_value: 0xA5, lamp_count: 0xA5, step: 0xA5 },
    lamps: [Lamp { level: 0xA5, seconds: 0xA5A5 }; 32],
    ram: [0xA5; 48],
};

/// The same node and memories on the tested side and on the reference.
pub struct Boards {
    pub tested: Board,
    pub plain: Board,
}

impl Boards {
    fn random(g: &mut Rng, side: Side) -> Boards {
        let node = random::node(g);
        let tested = random::board(g, side, node);
        let plain = Board { side: REFERENCE, ..tested.clone() };
        Boards { tested, plain }
    }
}

// ---- text of a failure ----
/// Rows of 32 bytes, without those that repeat the row before.
pub fn rows(bytes: &[u8]) -> String {
    let mut text = String::new();
    let mut before: &[u8] = &[];
    for (i, row) in bytes.chunks(32).enumerate() {
        if row != before {
            text += &format!("\n  {:5}: {}", 32 * i, hex(row));
        }
        before = row;
    }
    text
}

pub fn memories(b: &Board) -> String {
    format!(
        "EEPROM before {}\nresponse buffer before {}\n\
         external memory before (a row left out repeats the one before){}",
        hex(&b.eeprom),
        hex(&b.response),
        rows(&b.external)
    )
}

pub fn differences(tested: &Board, plain: &Board) -> String {
    difference("EEPROM", &tested.eeprom, &plain.eeprom)
        + &difference("external memory", &tested.external, &plain.external)
        + &difference("response buffer", &tested.response, &plain.response)
}

// ---- calls ----
impl Session {
    pub fn new(test: &str, side: Side) -> Session {
        let seed = seed(test);
        let mut g = Rng::new(seed);
        let boards = Boards::random(&mut g, side);
        session::Session::on(format!("{test}, {}", side.name), seed, g, boards)
    }

    /// Starts over with another random node and other memories.
    pub fn new_boards(&mut self) {
        self.boards = Boards::random(&mut self.g, self.boards.tested.side);
    }

    /// Makes `calls` calls on each of `boards` new boards.
    pub fn run(&mut self, boards: usize, calls: usize, call: fn(&mut Session)) {
        for _ in 0..boards {
            self.new_boards();
            for _ in 0..calls {
                call(self);
            }
        }
    }

    pub fn set_node(&mut self, node: Node) {
        self.boards.tested.node = node;
        self.boards.plain.node = node;
    }

    /// Writes external memory, the same on both boards.
    pub fn write_external<T>(&mut self, write: impl FnOnce(&mut Rng, &mut [u8]) -> T) -> T {
        let written = write(&mut self.g, &mut self.boards.plain.external[..EXTERNAL_SIZE]);
        self.boards.tested.external.copy_from_slice(&self.boards.plain.external);
        written
    }

    pub fn random_frame(&mut self) -> Vec<u8> {
        let node = self.boards.plain.node;
        self.write_external(|g, external| random::frame(g, &node, external))
    }

    pub fn count(&mut self, refusal: u8) {
        self.calls += 1;
        self.seen.refusals.add(refusal);
    }

    /// One request to `node`, which may differ from the boards' node.
    pub fn request(&mut self, node: Node, frame: &[u8], lent: Lengths) -> RequestAnswer {
        let before = self.boards.plain.clone();
        let sent = Input::new(frame);
        let a = self.boards.tested.request(node, sent.part(), lent);
        let b = self.boards.plain.request(node, frame, lent);
        self.count(b.refusal);
        let fault = differences(&self.boards.tested, &self.boards.plain) + &sent.difference("frame");
        self.agree(self.boards.tested.side.name, [&a, &b], &fault, || {
            format!(
                "{node:?}\nframe ({}) {}\nlent {lent:?}\n{}\nresponse {}\nexpected {}",
                frame.len(),
                hex(frame),
                memories(&before),
                hex(&self.boards.tested.response),
                hex(&self.boards.plain.response)
            )
        });
        let errn = (b.length >= 8).then(|| self.boards.plain.response[6]);
        self.seen.request(Board { node, ..before }, frame, &b, errn);
        b
    }

    /// One request to the boards' node, which is then updated.
    pub fn take(&mut self, frame: &[u8], lent: Lengths) -> RequestAnswer {
        let answer = self.request(self.boards.plain.node, frame, lent);
        self.set_node(answer.node);
        answer
    }

    /// Takes a frame that is built to fail with this ErrN, if any is sent, and to answer this.
    pub fn take_built(&mut self, frame: &[u8], errn: u8, want: RequestAnswer) {
        let answer = self.take(frame, Lengths::USUAL);
        self.expect(answer == want && (want.length == 0 || self.boards.plain.response[6] == errn), || {
            format!("built for ErrN {errn}, {want:?}\nanswer {answer:?}\nframe {}", hex(frame))
        });
    }

    /// A random frame and random buffer lengths; occasionally, or `often`, lengths that are refused.
    pub fn random_request(&mut self, node: Node, often: bool) {
        let mut frame = self.random_frame();
        let g = &mut self.g;
        if g.chance(1, if often { 3 } else { 50 }) {
            match g.below(3) {
                0 => frame.truncate(g.within(0, 6)),
                1 => frame.resize(g.within(61, 66), 0),
                _ => frame.resize(g.within(63, 400), 0),
            }
        }
        let lent = random::lengths(g, often);
        if node == self.boards.plain.node {
            _ = self.take(&frame, lent);
        } else {
            _ = self.request(node, &frame, lent);
        }
    }

    pub fn tick(&mut self, node: Node) -> Node {
        let side = self.boards.tested.side;
        let b = r::tick(node);
        self.count(b.refusal);
        let a = (side.tick)(node);
        self.agree(side.name, [&a, &b], "", || format!("tick of {node:?}"));
        let mut lent = [GUARD_NODE, node, GUARD_NODE];
        let refusal = (side.tick_in_place)(&mut lent[1]);
        let want = (b.refusal, [GUARD_NODE, b.node, GUARD_NODE]);
        self.agree(side.name, [&(refusal, lent), &want], "", || format!("tick in place of {node:?}"));
        b.node
    }

    pub fn actual_levels(&mut self, node: Node) {
        let side = self.boards.tested.side;
        let (a, b) = ((side.actual_levels)(node), r::actual_levels(node));
        self.count(b.refusal);
        self.agree(side.name, [&a, &b], "", || format!("actual levels of {node:?}"));
        self.seen.levels.add(b.refusal);
    }

    pub fn start(&mut self) {
        let mut s = random::settings(&mut self.g);
        if self.g.chance(1, 2) {
            s = random::broken(&mut self.g, Node { settings: s, ..Node::ZERO }).settings;
        }
        let side = self.boards.tested.side;
        let (a, b) = ((side.start)(s), r::start(s));
        self.count(b.refusal);
        self.agree(side.name, [&a, &b], "", || format!("start of {s:?}"));
    }

    pub fn frc(&mut self, node: Node) {
        let g = &mut self.g;
        let command = if g.chance(5, 6) { g.pick(&[0x10, 0x11]) } else { g.byte() };
        let mut data = vec![0x71, g.byte()];
        if g.chance(1, 2) {
            data[1] = g.below(node.settings.lamp_count.clamp(1, 32) as usize) as u8 | g.byte() & 0xE0;
        }
        match g.below(12) {
            0 => data.truncate(g.within(0, 1)),
            1 => data[0] = g.byte(),
            2 | 3 => data.extend_from_slice(&[g.byte(), 0x71, g.byte()]),
            _ => {}
        }
        let (stuck, alarm) = (g.long() & g.long(), g.long());
        let lent = Input::new(&data);
        let side = self.boards.tested.side;
        let a = (side.frc)(node, command, lent.part(), stuck, alarm);
        let b = r::frc(node, command, &data, stuck, alarm);
        self.count(b.refusal);
        self.agree(side.name, [&a, &b], &lent.difference("user data"), || {
            format!("frc {command:02X}, user data {}, stuck {stuck:08X}, alarm {alarm:08X}, {node:?}", hex(&data))
        });
    }

    pub fn view_status(&mut self, lent: Lengths, pnum: u8, start: usize, length: usize) {
        let view = |b: &Board| {
            (b.side.view_status)(&b.eeprom[..lent.eeprom], &b.external[..lent.external], pnum, start, length)
        };
        let (a, b) = (view(&self.boards.tested), view(&self.boards.plain));
        self.count(b);
        let fault = differences(black_box(&self.boards.tested), &self.boards.plain);
        self.agree(self.boards.tested.side.name, [&a, &b], &fault, || {
            format!("view with {lent:?}, PNUM {pnum}, start {start}, length {length}\n{}", memories(&self.boards.plain))
        });
    }

    pub fn random_view(&mut self) {
        let g = &mut self.g;
        let lent = random::lengths(g, false);
        let pnum = if g.chance(5, 6) { g.pick(&[3, 4]) } else { g.byte() };
        let size = if pnum == 3 { EEPROM_SIZE } else { EXTERNAL_SIZE };
        let length = if g.chance(1, 6) { g.pick(&[53, 54, 55, 56, 57, 0, usize::MAX]) } else { g.within(0, 54) };
        let start = match g.below(6) {
            0 => g.within(size - 60, size + 3),
            1 => g.pick(&[usize::MAX, usize::MAX - 3, 1 << 32, 65_535, 65_536]),
            _ => g.within(0, size - 1),
        };
        self.view_status(lent, pnum, start, length);
    }

    pub fn confirm(&mut self) {
        let mut frame = self.random_frame();
        let g = &mut self.g;
        if g.chance(1, 8) {
            frame.resize(g.within(0, 80), 7);
        }
        let room = if g.chance(1, 6) { g.within(0, 64) } else { g.within(64, 120) };
        let (value, hops, back, lp) = (g.byte(), g.byte(), g.byte(), g.chance(1, 2));
        let mut before = vec![0; room + GUARD];
        g.fill(&mut before);
        let (mut out, mut want) = (before.clone(), before.clone());
        let lent = Input::new(&frame);
        let side = self.boards.tested.side;
        let a = (side.confirm)(lent.part(), value, hops, back, lp, &mut out[..room]);
        let b = timing::confirm(&frame, value, hops, back, lp, &mut want[..room]);
        self.count(b.refusal);
        let fault = difference("confirmation", &out, &want) + &lent.difference("frame");
        self.agree(side.name, [&a, &b], &fault, || {
            format!(
                "confirm, DpaValue {value}, hops {hops}, response hops {back}, lp {lp}, room {room}\n\
                 frame ({}) {}\nbuffer before {}\nafter {}\nexpected {}",
                frame.len(),
                hex(&frame),
                hex(&before),
                hex(&out),
                hex(&want)
            )
        });
    }

    pub fn timing(&mut self) {
        let length = |g: &mut Rng| match g.below(8) {
            0 => g.within(55, 60),
            1 => g.pick(&[usize::MAX, 256, 1 << 32, 16, 17, 40, 41]),
            _ => g.within(0, 56),
        };
        let g = &mut self.g;
        let (p, q) = (length(g), length(g));
        let (hops, back, delay) = (g.byte(), g.byte(), g.word());
        let (lp, broadcast) = (g.chance(1, 2), g.chance(1, 3));
        let sums = |side: Side| ((side.timeslot)(p, lp), (side.earliest_send)(hops, p, delay, back, q, lp, broadcast));
        let side = self.boards.tested.side;
        let (a, b) = (sums(side), sums(REFERENCE));
        self.count(b.0.refusal);
        self.count(b.1.refusal);
        self.agree(side.name, [&a, &b], "", || {
            format!(
                "timing, hops {hops}, request {p}, delay {delay}, response hops {back}, response {q}, lp {lp}, \
                 broadcast {broadcast}"
            )
        });
    }
}
