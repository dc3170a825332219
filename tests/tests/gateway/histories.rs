//! Random histories, each call on the record that the last one left, compared with
//! the reference call by call: the whole answer with the record, and whole buffers
//! with the guard bytes after them. Over each history a separate account of what
//! was sent and released checks the order, the spacing and the number of bonds.
use grelfint::raw::{Gateway, ReleaseAnswer, SendQueue, Waiting};
use grelfint_tests::gateway::random::{self, Clause};
use grelfint_tests::gateway::reference::{nadr, BROADCAST, LATEST};
use grelfint_tests::gateway::seen::clauses_broken_in;
use grelfint_tests::gateway::session::Session;
use grelfint_tests::gateway::sides::{Answer, Call, Request};
use std::collections::{BTreeSet, VecDeque};

/// Calls at random, each on the record that the last one left, and some on a broken copy of it. Then what is waiting
/// is released as soon as it may be.
fn history(s: &mut Session) {
    let mut gateway = if s.g.chance(1, 2) { s.start() } else { random::gateway(&mut s.g) };
    let mut account = Account::of(&gateway);
    for _ in 0..s.g.within(20, 100) {
        let call = random::call(&mut s.g, &gateway);
        let room = random::room(&mut s.g);
        if s.g.chance(1, 8) {
            let broken = broken(s, &gateway);
            let clear = s.g.chance(1, 8); // rare otherwise
            s.call(broken, if clear { &Call::ClearBonds } else { &call }, room);
        }
        follow(s, &mut account, &mut gateway, &call, room);
    }
    let waiting = account.waiting.len();
    for released in 1..=waiting {
        let time = gateway.queue.next.max(gateway.queue.last);
        if time > LATEST {
            break;
        }
        follow(s, &mut account, &mut gateway, &Call::Release { time }, 64);
        s.expect(account.waiting.len() == waiting - released, || format!("not released: {gateway:?}"));
    }
}

fn broken(s: &mut Session, gateway: &Gateway) -> Gateway {
    let clause = s.g.pick(&Clause::EVERY);
    let broken = random::breaking(&mut s.g, gateway, clause);
    let came = clauses_broken_in(&broken);
    s.expect(came == [clause], || format!("{clause:?} broken alone, but {came:?} are: {broken:?}"));
    if s.g.chance(1, 8) {
        let mut both = broken;
        both.bonds[31] |= 1;
        both.queue.network |= 2;
        return both;
    }
    broken
}

/// One call of a history; the account has to agree with its answer.
fn follow(s: &mut Session, account: &mut Account, gateway: &mut Gateway, call: &Call, room: usize) {
    let before = *gateway;
    let (answer, out) = s.call(before, call, room);
    if answer.refusal() == 0 {
        *gateway = answer.gateway().unwrap_or(before);
        let fault = account.fault_after(call, &answer, &out, gateway);
        s.expect(fault.is_none(), || {
            format!("{}\n{answer:?}\n{account:?}\ninputs: {before:?}\n{call:?}", fault.unwrap_or_default())
        });
        if let Answer::Release(ReleaseAnswer { released: true, .. }) = answer {
            s.seen.before.add(account.last_before);
        }
    }
}

/// What was bonded, sent and released in a history, apart from the records.
#[derive(Debug)]
struct Account {
    lp: bool,
    dpa_value: u8,
    bonded: BTreeSet<u16>,
    waiting: VecDeque<Sent>,
    releases: usize,
    /// How many requests were waiting before the last released one when it was sent.
    last_before: usize,
    last: u64,
    /// The earliest next release: from the last one, by the papers' formula.
    earliest: u64,
}

#[derive(Debug)]
struct Sent {
    request: Request,
    /// Requests that were waiting when it was sent.
    before: usize,
    /// Releases before it was sent.
    releases: usize,
}

impl Account {
    fn of(gateway: &Gateway) -> Account {
        let Gateway { bonds, queue } = gateway;
        let sent = |(before, place): (usize, &Waiting)| {
            let Waiting { delay, length, hops, response_hops, ref frame } = *place;
            let request = Request { frame: frame[..length as usize].to_vec(), hops, response_hops, delay };
            Sent { request, before, releases: 0 }
        };
        Account {
            lp: queue.network == 1,
            dpa_value: queue.dpa_value,
            bonded: addresses_in(bonds),
            waiting: queue.places[..queue.count as usize].iter().enumerate().map(sent).collect(),
            releases: 0,
            last_before: 0,
            last: queue.last,
            earliest: queue.next,
        }
    }

    /// Takes in a call that was not refused. Returns the first thing that is not as it should be.
    fn fault_after(&mut self, call: &Call, answer: &Answer, out: &[u8], after: &Gateway) -> Option<&'static str> {
        let fault = match (call, answer) {
            (Call::Bond(address), Answer::Bond(_)) => (!self.bonded.insert(*address)).then_some("bonded twice"),
            (Call::Unbond(address), Answer::Bond(_)) => (!self.bonded.remove(address)).then_some("was not bonded"),
            (Call::ClearBonds, Answer::Bond(_)) => {
                self.bonded.clear();
                None
            }
            (Call::BondCount, Answer::Count(count)) => {
                (count.count as usize != self.bonded.len()).then_some("number of bonds")
            }
            (Call::BondBitmap, Answer::Bitmap(bitmap)) => {
                (addresses_in(&bitmap.bitmap) != self.bonded).then_some("bitmap")
            }
            (Call::Send { request, time }, Answer::Send(_)) => {
                let (request, before) = (request.clone(), self.waiting.len());
                self.waiting.push_back(Sent { request, before, releases: self.releases });
                self.last = *time;
                None
            }
            (Call::Release { time }, Answer::Release(release)) => self.fault_of_release(*time, release, out),
            _ => Some("the answer of another call"),
        };
        let miscounted = matches!(answer, Answer::Bond(bond) if bond.count as usize != self.bonded.len());
        fault
            .or(miscounted.then_some("number of bonds after the call"))
            .or((addresses_in(&after.bonds) != self.bonded).then_some("bonds of the record"))
            .or((!self.has_queue(&after.queue)).then_some("queue of the record"))
    }

    /// Released exactly if one waits and the time has come: the oldest, after exactly those that were waiting before it.
    fn fault_of_release(&mut self, time: u64, release: &ReleaseAnswer, out: &[u8]) -> Option<&'static str> {
        self.last = time;
        if self.waiting.is_empty() || time < self.earliest {
            return release.released.then_some("released without a request or too early");
        }
        if !release.released {
            return Some("not released, but due");
        }
        let Sent { request, before, releases } = self.waiting.pop_front()?;
        let pdata = request.frame.len() - 6;
        let (slot, longest_slot) = if self.lp { (8, 100) } else { (4, 60) };
        let slot = slot + (pdata > 16) as u8 + (pdata > 40) as u8;
        let back = if nadr(&request.frame) == BROADCAST { None } else { Some(request.response_hops) };
        let there = (1 + request.hops as u64) * slot as u64 * 10;
        self.earliest = time + there + request.delay as u64 + back.map_or(0, |hops| (1 + hops as u64) * longest_slot);
        let others = self.releases - releases;
        self.releases += 1;
        self.last_before = before;

        let confirmation = [0xFF, self.dpa_value, request.hops, slot, back.unwrap_or(0)];
        if release.frame[..release.frame_length] != request.frame {
            Some("not the oldest request, byte for byte")
        } else if others != before || before > 7 {
            Some("not after exactly those that were waiting before it")
        } else if out[..6] != request.frame[..6] || out[6..11] != confirmation {
            Some("confirmation")
        } else {
            None
        }
    }

    fn has_queue(&self, queue: &SendQueue) -> bool {
        let is_in = |(sent, place): (&Sent, &Waiting)| {
            let Request { frame, hops, response_hops, delay } = &sent.request;
            place.frame[..frame.len()] == frame[..]
                && (place.length as usize, place.hops, place.response_hops, place.delay)
                    == (frame.len(), *hops, *response_hops, *delay)
        };
        (queue.count as usize, queue.last, queue.next) == (self.waiting.len(), self.last, self.earliest)
            && (queue.network, queue.dpa_value) == (self.lp as u8, self.dpa_value)
            && self.waiting.iter().zip(&queue.places).all(is_in)
    }
}

/// The addresses of a bitmap.
fn addresses_in(bitmap: &[u8; 32]) -> BTreeSet<u16> {
    (0..256).filter(|&address| bitmap[address as usize / 8] & 1 << (address % 8) != 0).collect()
}

/// Calls of all kinds over one gateway, with good and bad inputs, from a new gateway or from any sound record.
#[test]
fn random_histories() {
    let mut s = Session::new("random_histories");
    for _ in 0..4000 {
        history(&mut s);
    }
    s.report();
    s.seen.assert_every_case(30);
}
