//! A gateway of one side, and requests for it.
use grelfint::raw::{BitmapAnswer, CountAnswer, Gateway, ReleaseAnswer};
use grelfint_tests::board::frame_of;
use grelfint_tests::buffers::GUARD;
use grelfint_tests::gateway::sides::{Answer, Call, Request, Side};

pub const DPA_VALUE: u8 = 7;

/// Each call starts from the record that the last one left.
pub struct Station {
    pub side: Side,
    pub gateway: Gateway,
}

impl Station {
    pub fn new(side: Side, lp: bool) -> Station {
        Station { side, gateway: (side.start)(lp, DPA_VALUE) }
    }

    /// In an STD network, with node 5 bonded.
    pub fn with_node_5(side: Side) -> Station {
        let mut station = Station::new(side, false);
        station.accept(Call::Bond(5));
        station
    }

    /// The call with 64 bytes of room, none of which it writes.
    pub fn call(&self, call: &Call) -> Answer {
        let mut out = [0xEE; 64 + GUARD];
        let answer = self.side.call(self.gateway, call, &mut out[..64]);
        assert_eq!(out, [0xEE; 64 + GUARD], "bytes written by {call:?}");
        answer
    }

    #[track_caller]
    pub fn refuse(&self, call: Call, refusal: u8) {
        assert_eq!(self.call(&call), call.refused(refusal, self.gateway), "{call:?}");
    }

    /// Returns the number of bonds after a call that changes them.
    #[track_caller]
    pub fn accept(&mut self, call: Call) -> Option<u8> {
        let answer = self.call(&call);
        assert_eq!(answer.refusal(), 0, "{call:?}");
        self.gateway = answer.gateway().unwrap_or(self.gateway);
        match answer {
            Answer::Bond(bond) => Some(bond.count),
            _ => None,
        }
    }

    #[track_caller]
    pub fn send(&mut self, request: &Request, time: u64) {
        self.accept(Call::Send { request: request.clone(), time });
    }

    /// The released frame and its confirmation; none if nothing is released.
    #[track_caller]
    pub fn release(&mut self, time: u64) -> Option<(Vec<u8>, Vec<u8>)> {
        let mut out = [0xEE; 64 + GUARD];
        let answer = (self.side.release)(self.gateway, time, &mut out[..64]);
        self.gateway = answer.gateway;
        assert_eq!(answer.refusal, 0);
        assert!(out[answer.length..].iter().all(|&byte| byte == 0xEE), "written after the confirmation");
        if !answer.released {
            assert_eq!(answer, ReleaseAnswer::zeros(answer.gateway));
            return None;
        }
        assert_eq!(answer.length, 11);
        let (frame, after) = answer.frame.split_at(answer.frame_length);
        assert!(after.iter().all(|&byte| byte == 0), "bytes after the frame");
        Some((frame.to_vec(), out[..11].to_vec()))
    }

    /// Releases this request.
    #[track_caller]
    pub fn release_it(&mut self, request: &Request, time: u64) {
        let (frame, _) = self.release(time).expect("a request is due");
        assert_eq!(frame, request.frame);
    }

    /// Nothing can be released one millisecond before this time; then this request is.
    #[track_caller]
    pub fn release_not_before(&mut self, request: &Request, time: u64) {
        assert_eq!(self.release(time - 1), None, "too early");
        self.release_it(request, time);
    }

    pub fn count(&self) -> u8 {
        let CountAnswer { refusal, count } = (self.side.bond_count)(self.gateway);
        assert_eq!(refusal, 0);
        count
    }

    pub fn bitmap(&self) -> [u8; 32] {
        let BitmapAnswer { refusal, bitmap } = (self.side.bond_bitmap)(self.gateway);
        assert_eq!(refusal, 0);
        bitmap
    }
}

/// To this address, with PData of 1, 2, 3 and so on.
pub fn request(address: u16, pdata: usize, hops: u8, response_hops: u8, delay: u16) -> Request {
    let pdata: Vec<u8> = (1..=pdata as u8).collect();
    Request { frame: frame_of(address, 0x71, 0, 0x2471, &pdata), hops, response_hops, delay }
}

/// To node 5, of any length; the wait after it is 100 ms up to 16 bytes of PData.
pub fn to_node_5(pdata: usize) -> Request {
    request(5, pdata, 0, 0, 0)
}

/// Every kind of call, with inputs that a gateway with node 5 bonded and one without requests accept from time 0 on.
pub fn every_call(time: u64) -> [Call; 7] {
    let request = to_node_5(2);
    [
        Call::Bond(6),
        Call::Unbond(5),
        Call::ClearBonds,
        Call::BondCount,
        Call::BondBitmap,
        Call::Send { request, time },
        Call::Release { time },
    ]
}

/// Nodes 1 to 239.
pub const ALL_BONDS: [u8; 32] = {
    let mut bonds = [0xFF; 32];
    (bonds[0], bonds[30], bonds[31]) = (0xFE, 0, 0);
    bonds
};
