//! Counts of what the calls of a gateway did. What a call did follows from its
//! inputs and the record before it.
use super::random::{Clause, SLOT_LIMITS};
use super::reference::{
    is_bonded, is_node, nadr, BROADCAST, FIRST_NODE, HEADER, LAST_NODE, LATEST, LONGEST, LONGEST_WAIT, QUEUE, ROOM,
};
use super::sides::{Answer, Call};
use crate::counts::{Counts, EITHER};
use grelfint::raw::{Gateway, Waiting};

#[derive(Default, Debug)]
pub struct Seen {
    pub outcomes: Counts<(Kind, Outcome)>,
    /// Two refusals that applied to a call.
    pub faults: Counts<(Kind, u8, u8)>,
    /// Of the calls whose record and frame were good.
    pub addresses: Counts<(Kind, Address)>,
    /// Of the calls that were decided by their time.
    pub times: Counts<(Kind, Time)>,
    /// The times of releases that were not refused, with a request waiting.
    pub due: Counts<Due>,
    /// Released requests, at the limits of the slots.
    pub released: Counts<Released>,
    /// How many requests were waiting before a released one when it was sent.
    pub before: Counts<usize>,
    pub records: Counts<(Kind, Record)>,
}

#[derive(Clone, Copy, PartialEq, Eq, PartialOrd, Ord, Debug)]
pub enum Kind {
    Bond,
    Unbond,
    ClearBonds,
    BondCount,
    BondBitmap,
    Send,
    Release,
}

impl Kind {
    pub const EVERY: [Kind; 7] =
        [Kind::Bond, Kind::Unbond, Kind::ClearBonds, Kind::BondCount, Kind::BondBitmap, Kind::Send, Kind::Release];

    pub fn of(call: &Call) -> Kind {
        match call {
            Call::Bond(_) => Kind::Bond,
            Call::Unbond(_) => Kind::Unbond,
            Call::ClearBonds => Kind::ClearBonds,
            Call::BondCount => Kind::BondCount,
            Call::BondBitmap => Kind::BondBitmap,
            Call::Send { .. } => Kind::Send,
            Call::Release { .. } => Kind::Release,
        }
    }

    /// In the order of the tests.
    fn refusals(self) -> &'static [u8] {
        match self {
            Kind::Bond | Kind::Unbond => &[1, 12],
            Kind::ClearBonds | Kind::BondCount | Kind::BondBitmap => &[1],
            Kind::Send => &[1, 2, 12, 13, 14],
            Kind::Release => &[1, 3, 14],
        }
    }

    /// Every two of its refusals.
    pub fn every_two_faults() -> impl Iterator<Item = (Kind, u8, u8)> {
        let of = |kind: Kind| pairs(kind.refusals()).map(move |(first, second)| (kind, first, second));
        Kind::EVERY.into_iter().flat_map(of)
    }
}

fn pairs(faults: &[u8]) -> impl Iterator<Item = (u8, u8)> + '_ {
    faults.iter().enumerate().flat_map(|(i, &first)| faults[i + 1..].iter().map(move |&second| (first, second)))
}

#[derive(Clone, Copy, PartialEq, Eq, PartialOrd, Ord, Debug)]
pub enum Outcome {
    Refused(u8),
    Released,
    TooEarly,
    NoneWaiting,
    /// Of any other call that was not refused.
    Done,
}

impl Outcome {
    pub fn every() -> impl Iterator<Item = (Kind, Outcome)> {
        let of = |kind: Kind| {
            let done: &[Outcome] = match kind {
                Kind::Release => &[Outcome::Released, Outcome::TooEarly, Outcome::NoneWaiting],
                _ => &[Outcome::Done],
            };
            let refused = kind.refusals().iter().map(|&refusal| Outcome::Refused(refusal));
            refused.chain(done.iter().copied()).map(move |outcome| (kind, outcome))
        };
        Kind::EVERY.into_iter().flat_map(of)
    }

    fn of(before: &Gateway, answer: &Answer) -> Outcome {
        match answer {
            _ if answer.refusal() != 0 => Outcome::Refused(answer.refusal()),
            Answer::Release(release) if release.released => Outcome::Released,
            Answer::Release(_) if before.queue.count == 0 => Outcome::NoneWaiting,
            Answer::Release(_) => Outcome::TooEarly,
            _ => Outcome::Done,
        }
    }
}

/// The refusals that apply, in the order of the tests; `room` is that of a release.
pub fn faults(gateway: &Gateway, call: &Call, room: usize) -> Vec<u8> {
    let bonded = |address: u16| is_node(address) && is_bonded(&gateway.bonds, address);
    let bad_time = |time: u64| time < gateway.queue.last || time > LATEST;
    let mut faults = Vec::new();
    let mut add = |applies, refusal| {
        if applies {
            faults.push(refusal);
        }
    };
    add(!clauses_broken_in(gateway).is_empty(), 1);
    match call {
        Call::Bond(address) => add(!is_node(*address) || bonded(*address), 12),
        Call::Unbond(address) => add(!bonded(*address), 12),
        Call::Send { request, time } => {
            let frame = &request.frame;
            add(!(HEADER..=LONGEST).contains(&frame.len()), 2);
            add(frame.len() < 2 || nadr(frame) != BROADCAST && !bonded(nadr(frame)), 12);
            add(gateway.queue.count as usize >= QUEUE, 13);
            add(bad_time(*time), 14);
        }
        Call::Release { time } => {
            add(room < ROOM, 3);
            add(bad_time(*time), 14);
        }
        Call::ClearBonds | Call::BondCount | Call::BondBitmap => {}
    }
    faults
}

/// The clauses of the rule that a record breaks.
pub fn clauses_broken_in(gateway: &Gateway) -> Vec<Clause> {
    let Gateway { bonds, queue } = gateway;
    let (waiting, free) = queue.places.split_at(QUEUE.min(queue.count as usize));
    let any = |fault: fn(&Waiting) -> bool| waiting.iter().any(fault);
    let broken = |clause: &Clause| match clause {
        Clause::BondOf0 => is_bonded(bonds, 0),
        Clause::BondFrom240 => (LAST_NODE + 1..=255).any(|address| is_bonded(bonds, address)),
        Clause::Network => queue.network > 1,
        Clause::Count => queue.count as usize > QUEUE,
        Clause::ShortFrame => any(|place| (place.length as usize) < HEADER),
        Clause::LongFrame => any(|place| place.length as usize > LONGEST),
        Clause::Nadr => any(|place| !is_node(nadr(&place.frame)) && nadr(&place.frame) != BROADCAST),
        Clause::AfterFrame => any(|place| place.frame.iter().skip(place.length as usize).any(|&byte| byte != 0)),
        Clause::FreePlace => free.iter().any(|place| *place != Waiting::ZERO),
        Clause::Last => queue.last > LATEST,
        Clause::Next => queue.next > queue.last.saturating_add(LONGEST_WAIT),
    };
    Clause::EVERY.into_iter().filter(broken).collect()
}

/// A record by what is wrong with it.
#[derive(Clone, Copy, PartialEq, Eq, PartialOrd, Ord, Debug)]
pub enum Record {
    Sound,
    Broken(Clause),
    Several,
}

impl Record {
    fn every(kind: Kind) -> impl Iterator<Item = (Kind, Record)> {
        let broken = Clause::EVERY.into_iter().map(Record::Broken);
        [Record::Sound, Record::Several].into_iter().chain(broken).map(move |record| (kind, record))
    }

    fn of(gateway: &Gateway) -> Record {
        match clauses_broken_in(gateway)[..] {
            [] => Record::Sound,
            [clause] => Record::Broken(clause),
            _ => Record::Several,
        }
    }
}

/// An address that was given, by its place among the addresses.
#[derive(Clone, Copy, PartialEq, Eq, PartialOrd, Ord, Debug)]
pub struct Address {
    place: Place,
    /// Its low byte is the address of a bonded node.
    bonded: bool,
}

#[derive(Clone, Copy, PartialEq, Eq, PartialOrd, Ord, Debug)]
enum Place {
    Zero,
    First,
    Between,
    Last,
    Reserved,
    All,
    /// With a high byte that is not 0; the low byte is a node's.
    HighByte,
    /// The same with low byte FF.
    HighByteOfAll,
}

impl Address {
    pub fn every() -> impl Iterator<Item = Address> {
        let nodes = [Place::First, Place::Between, Place::Last, Place::HighByte];
        let bonded = nodes.map(|place| EITHER.map(|bonded| Address { place, bonded }));
        let others = [Place::Zero, Place::Reserved, Place::All, Place::HighByteOfAll];
        bonded.into_iter().flatten().chain(others.map(|place| Address { place, bonded: false }))
    }

    fn of(bonds: &[u8; 32], address: u16) -> Address {
        let low = address % 256;
        let place = match address {
            0 => Place::Zero,
            FIRST_NODE => Place::First,
            LAST_NODE => Place::Last,
            _ if is_node(address) => Place::Between,
            240..=254 => Place::Reserved,
            BROADCAST => Place::All,
            _ if low == BROADCAST => Place::HighByteOfAll,
            _ => Place::HighByte,
        };
        Address { place, bonded: is_bonded(bonds, low) }
    }
}

/// A time beside the last one given and the limit.
#[derive(Clone, Copy, PartialEq, Eq, PartialOrd, Ord, Debug)]
pub enum Time {
    Before,
    OneBefore,
    Same,
    After,
    Limit,
    OneOver,
    Over,
}

impl Time {
    pub const EVERY: [Time; 7] =
        [Time::Before, Time::OneBefore, Time::Same, Time::After, Time::Limit, Time::OneOver, Time::Over];

    fn of(last: u64, time: u64) -> Time {
        match time {
            _ if time > LATEST + 1 => Time::Over,
            _ if time == LATEST + 1 => Time::OneOver,
            _ if time == LATEST => Time::Limit,
            _ if time > last => Time::After,
            _ if time == last => Time::Same,
            _ if time + 1 == last => Time::OneBefore,
            _ => Time::Before,
        }
    }
}

/// The time of a release beside the earliest one.
#[derive(Clone, Copy, PartialEq, Eq, PartialOrd, Ord, Debug)]
pub enum Due {
    Early,
    OneEarly,
    Exactly,
    OneLate,
    Late,
}

impl Due {
    pub const EVERY: [Due; 5] = [Due::Early, Due::OneEarly, Due::Exactly, Due::OneLate, Due::Late];

    fn of(next: u64, time: u64) -> Due {
        match time {
            _ if time + 1 < next => Due::Early,
            _ if time < next => Due::OneEarly,
            _ if time == next => Due::Exactly,
            _ if time == next + 1 => Due::OneLate,
            _ => Due::Late,
        }
    }
}

/// A released request.
#[derive(Clone, Copy, PartialEq, Eq, PartialOrd, Ord, Debug)]
pub struct Released {
    lp: bool,
    /// Bytes of PData.
    pdata: usize,
    to: Receiver,
}

#[derive(Clone, Copy, PartialEq, Eq, PartialOrd, Ord, Debug)]
enum Receiver {
    AllNodes,
    BondedNode,
    /// Its bond was removed.
    OtherNode,
}

impl Released {
    pub fn every() -> impl Iterator<Item = Released> {
        let receivers = [Receiver::AllNodes, Receiver::BondedNode, Receiver::OtherNode];
        let with = move |(lp, pdata)| receivers.map(|to| Released { lp, pdata, to });
        EITHER.into_iter().flat_map(|lp| SLOT_LIMITS.map(|pdata| (lp, pdata))).flat_map(with)
    }

    fn of(gateway: &Gateway, frame: &[u8]) -> Released {
        let to = match nadr(frame) {
            BROADCAST => Receiver::AllNodes,
            address if is_bonded(&gateway.bonds, address) => Receiver::BondedNode,
            _ => Receiver::OtherNode,
        };
        Released { lp: gateway.queue.network == 1, pdata: frame.len() - HEADER, to }
    }
}

impl Seen {
    pub fn call(&mut self, before: &Gateway, call: &Call, room: usize, answer: &Answer) {
        let kind = Kind::of(call);
        self.outcomes.add((kind, Outcome::of(before, answer)));
        self.records.add((kind, Record::of(before)));
        let faults = faults(before, call, room);
        for (first, second) in pairs(&faults) {
            self.faults.add((kind, first, second));
        }
        let address = match call {
            Call::Bond(address) | Call::Unbond(address) => Some(*address),
            Call::Send { request, .. } if !faults.contains(&2) => Some(nadr(&request.frame)),
            _ => None,
        };
        if let (Some(address), false) = (address, faults.contains(&1)) {
            self.addresses.add((kind, Address::of(&before.bonds, address)));
        }
        let (Call::Send { time, .. } | Call::Release { time }) = call else { return };
        if faults.first().is_none_or(|&refusal| refusal == 14) {
            self.times.add((kind, Time::of(before.queue.last, *time)));
        }
        if let (Answer::Release(release), true, 1..) = (answer, faults.is_empty(), before.queue.count) {
            self.due.add(Due::of(before.queue.next, *time));
            let frame = &release.frame[..release.frame_length];
            if release.released && SLOT_LIMITS.contains(&(frame.len() - HEADER)) {
                self.released.add(Released::of(before, frame));
            }
        }
    }

    /// Every case of a call, at least this often.
    pub fn assert_every_case(&self, least: u64) {
        self.outcomes.assert_each(Outcome::every(), least);
        self.faults.assert_each(Kind::every_two_faults(), least);
        for kind in [Kind::Bond, Kind::Unbond, Kind::Send] {
            self.addresses.assert_each(Address::every().map(|address| (kind, address)), least);
        }
        for kind in [Kind::Send, Kind::Release] {
            self.times.assert_each(Time::EVERY.map(|time| (kind, time)), least);
        }
        self.due.assert_each(Due::EVERY, least);
        self.released.assert_each(Released::every(), least);
        self.before.assert_each(0..QUEUE, least);
        self.records.assert_each(Kind::EVERY.into_iter().flat_map(Record::every), least);
    }
}
