//! One simulated evening, all through the C interface: a gateway and three nodes
//! (02, change 6/12). Scenes of a small book are compiled for one node, for all
//! nodes and for chosen ones. Their requests wait in the send queue; each is
//! released as soon as it may be, framed for the serial line, received by every
//! node in parts of odd sizes and handled; a response travels back in the same
//! way. A clock of milliseconds drives it all, with a tick of the nodes each second.
//!
//! Ticks fall between the requests of a scene, so a scene is not compared as a
//! whole. Each request keeps the steps that are in it; when it is released, the
//! step machine of every node that it is for executes these steps. After every
//! frame and every tick each node, its lamps and its memories are equal to those
//! of its step machine; a node that a request is not for stays as it was.
use grelfint::raw::{self, Gateway, NodeSet, Receiver};
use grelfint_tests::board::{book_of, Board, Lengths};
use grelfint_tests::gateway::reference::{earliest_send, nadr, timeslot, BROADCAST};
use grelfint_tests::node::reference::{self, NODE_SET};
use grelfint_tests::scene::reference::{do_step, Step};
use grelfint_tests::sides::{LIBRARY, REFERENCE};
use std::collections::VecDeque;

const HWPID: u16 = 0x2471;
const DPA_VALUE: u8 = 7;

/// Address, lamps, and the way: hops, response hops, and the node's own delay.
const NODES: [(u16, u8, (u8, u8, u16)); 3] = [(3, 32, (1, 1, 0)), (17, 8, (4, 5, 30)), (100, 1, (2, 3, 20))];
const TO_ALL: (u8, u8, u16) = (5, 5, 10);

/// The scenes of the book: light with times, more light for a while, notes in EEPROM, and one that takes more requests
/// than the queue has places. Times of 80 hex plus a number are seconds.
const EVENING: usize = 0;
const WORK: usize = 1;
const NOTES: usize = 2;
const LONG: usize = 3;

fn scenes() -> Vec<Vec<Step>> {
    let evening = (0..8).map(|lamp| [0, lamp, 100 - 9 * lamp, 0x83 + 2 * lamp]).collect();
    let work = vec![[1, 0, 30, 0x84], [1, 3, 15, 0], [2, 3, 5, 0x89], [1, 7, 100, 0x01], [2, 0, 7, 0x86]];
    let notes = (0..60).map(|i| [4, 100 + i, 3 * i, 0]).chain([[0, 1, 1, 0]]).collect();
    let long = (0..64).map(|i| [i % 3, (5 * i) % 32, 1 + i, if i % 4 == 0 { 0 } else { 0x82 + i % 8 }]).collect();
    vec![evening, work, notes, long]
}

/// A node on the library, and its step machine.
struct Bay {
    library: Board,
    machine: Board,
    receiver: Receiver,
}

impl Bay {
    fn new(address: u16, lamp_count: u8) -> Bay {
        let mut library = Board::started(LIBRARY, lamp_count, 5);
        library.node.settings.address = address;
        let machine = Board { side: REFERENCE, ..library.clone() };
        Bay { library, machine, receiver: raw::uart_receiver(false) }
    }

    fn tick(&mut self) {
        for board in [&mut self.library, &mut self.machine] {
            let answer = (board.side.tick)(board.node);
            assert_eq!(answer.refusal, 0);
            board.node = answer.node;
        }
        self.compare();
    }

    /// The response.
    fn handle(&mut self, request: &Request) -> Vec<u8> {
        let Bay { library, machine, .. } = self;
        let answer = library.request(library.node, &request.frame, Lengths::USUAL);
        assert_eq!(answer.refusal, 0);
        library.node = answer.node;
        if request.nodes.contains(&machine.node.settings.address) {
            let mut parts = machine.parts();
            request.steps.iter().for_each(|&step| do_step(&mut parts, step));
            machine.node = parts.node;
        }
        self.compare();
        self.library.response[..answer.length].to_vec()
    }

    fn compare(&self) {
        let Bay { library, machine, .. } = self;
        assert_eq!(library.node, machine.node);
        assert!(library.eeprom == machine.eeprom && library.external == machine.external, "memories");
    }
}

/// A request of a scene.
struct Request {
    frame: Vec<u8>,
    /// Those that it was compiled from.
    steps: Vec<Step>,
    /// The nodes that it is for.
    nodes: Vec<u16>,
}

impl Request {
    fn is_broadcast(&self) -> bool {
        nadr(&self.frame) == BROADCAST
    }

    /// Hops, response hops and delay.
    fn way(&self) -> (u8, u8, u16) {
        NODES.iter().find(|node| node.0 == nadr(&self.frame)).map_or(TO_ALL, |node| node.2)
    }
}

/// How many steps are in a compiled request: the selected lamps, or the bytes that are written.
fn steps_in(frame: &[u8]) -> usize {
    let list = if frame[3] == 0x0B { &frame[6 + NODE_SET..] } else { &frame[6..] };
    let steps = |entry: &reference::Request| match entry.pnum {
        0x71 => reference::read_lamp_entries(entry.pdata).expect("lamps").len(),
        _ => entry.pdata.len() - 1,
    };
    reference::read_list(list).expect("a list").iter().map(steps).sum()
}

struct House {
    lp: bool,
    now: u64,
    gateway: Gateway,
    receiver: Receiver,
    bays: Vec<Bay>,
    /// Not yet accepted by the gateway.
    outbox: VecDeque<Request>,
    waiting: VecDeque<Request>,
    /// The earliest next release, by the papers' formula.
    earliest: u64,
    released: usize,
}

impl House {
    fn new(lp: bool) -> House {
        let mut gateway = raw::gateway_start(lp, DPA_VALUE);
        for (bonds, (address, ..)) in (1..).zip(NODES) {
            let answer = raw::bond(gateway, address);
            assert_eq!((answer.refusal, answer.count), (0, bonds));
            gateway = answer.gateway;
        }
        House {
            lp,
            now: 0,
            gateway,
            receiver: raw::uart_receiver(true),
            bays: NODES.map(|(address, lamps, _)| Bay::new(address, lamps)).into(),
            outbox: VecDeque::new(),
            waiting: VecDeque::new(),
            earliest: 0,
            released: 0,
        }
    }

    /// Compiles a scene for these nodes: with an address, that of the node or of all; without one, by choosing them.
    fn order(&mut self, scene: usize, address: Option<u16>, nodes: &[u16]) {
        let scenes = scenes();
        let book = book_of(&scenes);
        let mut out = [0; 4096];
        let answer = match address {
            Some(address) => raw::compile(&book, scene, address, HWPID, &mut out),
            None => raw::compile_selected(&book, scene, NodeSet::from_iter(nodes.iter().copied()), HWPID, &mut out),
        };
        assert_eq!(answer.refusal, 0);
        let (lengths, mut frames) = out[1..answer.length].split_at(out[0] as usize);
        let mut steps = &scenes[scene][..];
        for &length in lengths {
            let (frame, later_frames) = frames.split_at(length as usize);
            let (here, later_steps) = steps.split_at(steps_in(frame));
            self.outbox.push_back(Request { frame: frame.to_vec(), steps: here.to_vec(), nodes: nodes.to_vec() });
            (frames, steps) = (later_frames, later_steps);
        }
        assert!(frames.is_empty() && steps.is_empty());
    }

    /// Each millisecond, and a tick each second.
    fn run(&mut self, milliseconds: u64) {
        for _ in 0..milliseconds {
            if self.now.is_multiple_of(1000) {
                self.bays.iter_mut().for_each(Bay::tick);
            }
            self.fill_queue();
            self.release();
            self.now += 1;
        }
    }

    /// A full queue has room again after a release. A node without a bond is bonded again.
    fn fill_queue(&mut self) {
        while let Some(request) = self.outbox.front() {
            let (hops, response_hops, delay) = request.way();
            let answer = raw::send(self.gateway, &request.frame, hops, response_hops, delay, self.now);
            self.gateway = answer.gateway;
            match answer.refusal {
                0 => self.waiting.extend(self.outbox.pop_front()),
                12 => self.gateway = raw::bond(self.gateway, nadr(&request.frame)).gateway,
                refusal => return assert_eq!((refusal, self.waiting.len()), (13, 8)),
            }
        }
    }

    /// A release is tried every millisecond, so the oldest request goes as soon as it may, and not sooner.
    fn release(&mut self) {
        let mut out = [0; 64];
        let answer = raw::release(self.gateway, self.now, &mut out);
        self.gateway = answer.gateway;
        let due = self.now >= self.earliest && !self.waiting.is_empty();
        assert_eq!((answer.refusal, answer.released), (0, due), "at {} ms", self.now);
        if !due {
            return;
        }
        let request = self.waiting.pop_front().expect("one is waiting");
        self.released += 1;
        assert_eq!(answer.frame[..answer.frame_length], request.frame);

        let (hops, response_hops, delay) = request.way();
        let (pdata, broadcast) = (request.frame.len() - 6, request.is_broadcast());
        let slot = timeslot(pdata, self.lp).slot;
        let back = if broadcast { 0 } else { response_hops };
        let confirmation = [&request.frame[..6], &[0xFF, DPA_VALUE, hops, slot, back]].concat();
        assert_eq!(out[..answer.length], confirmation);
        let wait = earliest_send(hops, pdata, delay, response_hops, 56, self.lp, broadcast);
        self.earliest = self.now + wait.milliseconds as u64;
        self.deliver(&request);
    }

    /// Every node receives the frame and handles it. The answer is a success, ErrN 0 and no data, but for a broadcast.
    fn deliver(&mut self, request: &Request) {
        let line = framed(&request.frame);
        let mut responses = Vec::new();
        for bay in &mut self.bays {
            assert_eq!(receive(&mut bay.receiver, &line), request.frame);
            responses.push(bay.handle(request));
        }
        responses.retain(|response| !response.is_empty());
        let success = [&request.frame[..3], &[request.frame[3] | 0x80, 0x71, 0x24, 0, DPA_VALUE]].concat();
        assert_eq!(responses, if request.is_broadcast() { vec![] } else { vec![success] });
        for response in responses {
            assert_eq!(receive(&mut self.receiver, &framed(&response)), response);
        }
    }
}

fn framed(message: &[u8]) -> Vec<u8> {
    let mut line = [0; 132];
    let answer = raw::uart_frame(message, &mut line);
    assert_eq!(answer.refusal, 0);
    line[..answer.length].to_vec()
}

/// The only frame in a line that comes in parts of 1, 7, 3, 13 and 5 bytes, by turns.
fn receive(receiver: &mut Receiver, mut line: &[u8]) -> Vec<u8> {
    let mut events = Vec::new();
    let mut sizes = [1, 7, 3, 13, 5].into_iter().cycle();
    while let (false, Some(size)) = (line.is_empty(), sizes.next()) {
        let (mut part, later) = line.split_at(size.min(line.len()));
        while !part.is_empty() {
            let answer = raw::uart_receive(*receiver, part);
            assert_eq!(answer.refusal, 0);
            if answer.event != 0 {
                events.push((answer.event, answer.frame[..answer.length].to_vec()));
            }
            *receiver = answer.receiver;
            part = &part[answer.taken..];
        }
        line = later;
    }
    let [(1, frame)] = &events[..] else { panic!("not one frame: {events:?}") };
    frame.clone()
}

#[test]
fn evening() {
    for lp in [false, true] {
        let mut house = House::new(lp);
        for round in 0..8 {
            house.order(EVENING, Some(BROADCAST), &[3, 17, 100]);
            house.order(LONG, Some(17), &[17]);
            house.run(700);
            // eight requests for node 17 wait and stay; for the others it is bonded again
            assert!(house.waiting.len() == 8 && house.waiting.iter().all(|request| request.nodes == [17]));
            house.gateway = raw::unbond(house.gateway, 17).gateway;
            house.order(EVENING, None, &[3, 100]);
            house.run(20_000);
            assert_eq!(raw::bond_count(house.gateway).count, 3);

            // what waits reaches nodes without a bond too
            house.order(NOTES, Some(100), &[100]);
            house.order(WORK, Some(3), &[3]);
            house.run(1);
            assert_eq!(house.waiting.len(), 2);
            house.gateway = raw::clear_bonds(house.gateway).gateway;
            house.run(5000);
            assert_eq!(raw::bond_count(house.gateway).count, 0);

            house.order(LONG, None, &[17, 100]);
            house.order(WORK, Some(17), &[17]);
            house.order(NOTES, None, &[3]);
            // not a whole number of seconds, so that ticks fall elsewhere in the next round
            house.run(40_000 + 137 * round);
            assert_eq!(raw::bond_bitmap(house.gateway).bitmap[..3], [0, 0, 1 << (17 - 16)]);
            for address in [3, 100] {
                house.gateway = raw::bond(house.gateway, address).gateway;
            }
        }
        assert!(house.outbox.is_empty() && house.waiting.is_empty());
        println!("evening, lp {lp}: {} requests in {} simulated ms", house.released, house.now);
    }
}
