//! The gateway: document 01's confirmation and waiting; change 6/12 of document
//! 02 with the bonds of section 3.2 of document 000; implemented as plainly as
//! possible, without regard to speed. A sound record is read as a model, a set of
//! addresses and a queue of requests; the call changes the model, which is then
//! written as a record again.
use grelfint::raw::{
    BitmapAnswer, BondAnswer, CountAnswer, Gateway, GatewayAnswer, LengthAnswer, ReleaseAnswer, SendAnswer, SendQueue,
    SlotAnswer, Waiting,
};
use std::collections::{BTreeSet, VecDeque};

/// NADR of a request to all nodes.
pub const BROADCAST: u16 = 0x00FF;

pub const FIRST_NODE: u16 = 1;
pub const LAST_NODE: u16 = 239;

/// Requests that can wait.
pub const QUEUE: usize = 8;

/// The bytes of a request, of which six are not PData.
pub const HEADER: usize = 6;
pub const LONGEST: usize = 62;

pub const LONGEST_PDATA: usize = 56;

/// The fewest bytes of room for a confirmation.
pub const ROOM: usize = 64;

/// The latest time that can be given.
pub const LATEST: u64 = 1 << 40;

/// Two ways of 256 hops in slots of 100 ms, and the longest delay.
pub const LONGEST_WAIT: u64 = 116_735;

// ---- confirmation and waiting ----
fn slot(pdata_length: usize, lp: bool) -> u8 {
    let std = if pdata_length < 17 {
        4
    } else if pdata_length <= 40 {
        5
    } else {
        6
    };
    if lp {
        std + 4
    } else {
        std
    }
}

pub fn timeslot(pdata_length: usize, lp: bool) -> SlotAnswer {
    if pdata_length > 56 {
        return SlotAnswer { refusal: 5, slot: 0 };
    }
    SlotAnswer { refusal: 0, slot: slot(pdata_length, lp) }
}

pub fn confirm(frame: &[u8], dpa_value: u8, hops: u8, response_hops: u8, lp: bool, out: &mut [u8]) -> LengthAnswer {
    if frame.len() < 6 || frame.len() > 62 {
        return LengthAnswer { refusal: 2, length: 0 };
    }
    if out.len() < 64 {
        return LengthAnswer { refusal: 3, length: 0 };
    }
    out[..6].copy_from_slice(&frame[..6]);
    out[6] = 0xFF;
    out[7] = dpa_value;
    out[8] = hops;
    out[9] = slot(frame.len() - 6, lp);
    out[10] = if nadr(frame) == BROADCAST { 0 } else { response_hops };
    LengthAnswer { refusal: 0, length: 11 }
}

pub fn earliest_send(
    hops: u8,
    request_length: usize,
    delay: u16,
    response_hops: u8,
    response_length: usize,
    lp: bool,
    broadcast: bool,
) -> SendAnswer {
    if request_length > 56 || response_length > 56 {
        return SendAnswer { refusal: 5, milliseconds: 0 };
    }
    let there = (hops as u32 + 1) * slot(request_length, lp) as u32 * 10;
    let back = (response_hops as u32 + 1) * slot(response_length, lp) as u32 * 10;
    let milliseconds = there + delay as u32 + if broadcast { 0 } else { back };
    SendAnswer { refusal: 0, milliseconds }
}

// ---- records ----
pub fn is_node(address: u16) -> bool {
    (FIRST_NODE..=LAST_NODE).contains(&address)
}

/// The first two bytes of a frame, low byte first.
pub fn nadr(frame: &[u8]) -> u16 {
    frame[0] as u16 + 256 * frame[1] as u16
}

/// Address 0 at bit 0 of byte 0, address 1 at bit 1 of byte 0, and so on up to 255.
pub fn is_bonded(bonds: &[u8; 32], address: u16) -> bool {
    bonds[address as usize / 8] >> (address % 8) & 1 == 1
}

fn waiting_rule(place: &Waiting) -> bool {
    let length = place.length as usize;
    if !(HEADER..=LONGEST).contains(&length) {
        return false;
    }
    let address = nadr(&place.frame);
    if !is_node(address) && address != BROADCAST {
        return false;
    }
    place.frame[length..].iter().all(|&byte| byte == 0)
}

pub fn gateway_rule(gateway: &Gateway) -> bool {
    for address in 0..=255 {
        if is_bonded(&gateway.bonds, address) && !is_node(address) {
            return false;
        }
    }
    let queue = &gateway.queue;
    if queue.network > 1 || queue.count as usize > QUEUE {
        return false;
    }
    for (i, place) in queue.places.iter().enumerate() {
        let good = if i < queue.count as usize { waiting_rule(place) } else { *place == Waiting::ZERO };
        if !good {
            return false;
        }
    }
    queue.last <= LATEST && queue.next <= queue.last + LONGEST_WAIT
}

/// What a sound record says.
struct Model {
    lp: bool,
    dpa_value: u8,
    bonded: BTreeSet<u16>,
    /// The oldest is in front.
    waiting: VecDeque<Request>,
    last: u64,
    next: u64,
}

struct Request {
    frame: Vec<u8>,
    hops: u8,
    response_hops: u8,
    delay: u16,
}

impl Model {
    /// None for a record that breaks the rule.
    fn read(gateway: &Gateway) -> Option<Model> {
        if !gateway_rule(gateway) {
            return None;
        }
        let queue = &gateway.queue;
        Some(Model {
            lp: queue.network == 1,
            dpa_value: queue.dpa_value,
            bonded: (0..=255).filter(|&address| is_bonded(&gateway.bonds, address)).collect(),
            waiting: queue.places[..queue.count as usize].iter().map(Request::read).collect(),
            last: queue.last,
            next: queue.next,
        })
    }

    fn write(&self) -> Gateway {
        let mut bonds = [0; 32];
        for &address in &self.bonded {
            bonds[address as usize / 8] |= 1 << (address % 8);
        }
        let mut places = [Waiting::ZERO; QUEUE];
        for (place, request) in places.iter_mut().zip(&self.waiting) {
            *place = request.write();
        }
        let queue = SendQueue {
            last: self.last,
            next: self.next,
            network: self.lp as u8,
            dpa_value: self.dpa_value,
            count: self.waiting.len() as u8,
            places,
        };
        Gateway { bonds, queue }
    }

    /// A time before the last one given, or above the limit.
    fn refuses_time(&self, time: u64) -> bool {
        time < self.last || time > LATEST
    }
}

impl Request {
    fn read(place: &Waiting) -> Request {
        let Waiting { delay, length, hops, response_hops, frame } = *place;
        Request { frame: frame[..length as usize].to_vec(), hops, response_hops, delay }
    }

    fn write(&self) -> Waiting {
        let Request { ref frame, hops, response_hops, delay } = *self;
        let mut place = Waiting { delay, length: frame.len() as u8, hops, response_hops, frame: [0; LONGEST] };
        place.frame[..frame.len()].copy_from_slice(frame);
        place
    }

    /// Milliseconds from its release to the earliest next one, with the longest response.
    fn wait(&self, lp: bool) -> u64 {
        let broadcast = nadr(&self.frame) == BROADCAST;
        let pdata = self.frame.len() - HEADER;
        let SendAnswer { refusal, milliseconds } =
            earliest_send(self.hops, pdata, self.delay, self.response_hops, LONGEST_PDATA, lp, broadcast);
        assert_eq!(refusal, 0);
        milliseconds as u64
    }
}

pub fn start(lp: bool, dpa_value: u8) -> Gateway {
    let model = Model { lp, dpa_value, bonded: BTreeSet::new(), waiting: VecDeque::new(), last: 0, next: 0 };
    model.write()
}

// ---- bonds ----
/// Any change of the bonds; if it says no, the refusal is 12.
fn change_bonds(gateway: Gateway, change: impl FnOnce(&mut BTreeSet<u16>) -> bool) -> BondAnswer {
    let Some(mut model) = Model::read(&gateway) else { return BondAnswer { refusal: 1, count: 0, gateway } };
    if !change(&mut model.bonded) {
        return BondAnswer { refusal: 12, count: 0, gateway };
    }
    BondAnswer { refusal: 0, count: model.bonded.len() as u8, gateway: model.write() }
}

pub fn bond(gateway: Gateway, address: u16) -> BondAnswer {
    change_bonds(gateway, |bonded| is_node(address) && bonded.insert(address))
}

/// Only addresses of nodes are ever bonded.
pub fn unbond(gateway: Gateway, address: u16) -> BondAnswer {
    change_bonds(gateway, |bonded| bonded.remove(&address))
}

pub fn clear_bonds(gateway: Gateway) -> BondAnswer {
    change_bonds(gateway, |bonded| {
        bonded.clear();
        true
    })
}

pub fn bond_count(gateway: Gateway) -> CountAnswer {
    match Model::read(&gateway) {
        Some(model) => CountAnswer { refusal: 0, count: model.bonded.len() as u8 },
        None => CountAnswer { refusal: 1, count: 0 },
    }
}

pub fn bond_bitmap(gateway: Gateway) -> BitmapAnswer {
    match Model::read(&gateway) {
        Some(model) => BitmapAnswer { refusal: 0, bitmap: model.write().bonds },
        None => BitmapAnswer { refusal: 1, bitmap: [0; 32] },
    }
}

// ---- send queue ----
pub fn send(gateway: Gateway, frame: &[u8], hops: u8, response_hops: u8, delay: u16, time: u64) -> GatewayAnswer {
    let refused = |refusal| GatewayAnswer { refusal, gateway };
    let Some(mut model) = Model::read(&gateway) else { return refused(1) };
    if frame.len() < HEADER || frame.len() > LONGEST {
        return refused(2);
    }
    let address = nadr(frame);
    if address != BROADCAST && !model.bonded.contains(&address) {
        return refused(12);
    }
    if model.waiting.len() == QUEUE {
        return refused(13);
    }
    if model.refuses_time(time) {
        return refused(14);
    }
    model.waiting.push_back(Request { frame: frame.to_vec(), hops, response_hops, delay });
    model.last = time;
    GatewayAnswer { refusal: 0, gateway: model.write() }
}

pub fn release(gateway: Gateway, time: u64, out: &mut [u8]) -> ReleaseAnswer {
    let refused = |refusal| ReleaseAnswer { refusal, ..ReleaseAnswer::zeros(gateway) };
    let Some(mut model) = Model::read(&gateway) else { return refused(1) };
    if out.len() < ROOM {
        return refused(3);
    }
    if model.refuses_time(time) {
        return refused(14);
    }
    model.last = time;
    if time < model.next {
        return ReleaseAnswer::zeros(model.write());
    }
    let Some(request) = model.waiting.pop_front() else { return ReleaseAnswer::zeros(model.write()) };
    let Request { frame: released, hops, response_hops, .. } = &request;
    let confirmed = confirm(released, model.dpa_value, *hops, *response_hops, model.lp, out);
    assert_eq!(confirmed.refusal, 0);
    model.next = time + request.wait(model.lp);
    let mut frame = [0; LONGEST];
    frame[..released.len()].copy_from_slice(released);
    ReleaseAnswer {
        refusal: 0,
        released: true,
        length: confirmed.length,
        frame_length: released.len(),
        frame,
        gateway: model.write(),
    }
}
