//! One type for the calls of the gateway, filled by the library, the methods of
//! its bindings, the reference and the plain implementation, so that a test is
//! written once; and one for a call with its inputs, so that a test can make every
//! kind of call.
use super::{bindings, plain, reference};
use crate::boundary::{release_by, send_by};
use crate::buffers::Input;
use grelfint::raw::{self, BitmapAnswer, BondAnswer, CountAnswer, Gateway, GatewayAnswer, ReleaseAnswer};

#[derive(Clone, Copy)]
pub struct Side {
    pub name: &'static str,
    pub start: fn(bool, u8) -> Gateway,
    pub bond: fn(Gateway, u16) -> BondAnswer,
    pub unbond: fn(Gateway, u16) -> BondAnswer,
    pub clear_bonds: fn(Gateway) -> BondAnswer,
    pub bond_count: fn(Gateway) -> CountAnswer,
    pub bond_bitmap: fn(Gateway) -> BitmapAnswer,
    pub send: fn(Gateway, &[u8], u8, u8, u16, u64) -> GatewayAnswer,
    pub release: fn(Gateway, u64, &mut [u8]) -> ReleaseAnswer,
}

pub const LIBRARY: Side = Side {
    name: "library",
    start: raw::gateway_start,
    bond: raw::bond,
    unbond: raw::unbond,
    clear_bonds: raw::clear_bonds,
    bond_count: raw::bond_count,
    bond_bitmap: raw::bond_bitmap,
    send: raw::send,
    release: raw::release,
};

pub const REFERENCE: Side = Side {
    name: "reference",
    start: reference::start,
    bond: reference::bond,
    unbond: reference::unbond,
    clear_bonds: reference::clear_bonds,
    bond_count: reference::bond_count,
    bond_bitmap: reference::bond_bitmap,
    send: reference::send,
    release: reference::release,
};

pub const BINDINGS: Side = Side {
    name: "bindings",
    start: bindings::start,
    bond: bindings::bond,
    unbond: bindings::unbond,
    clear_bonds: bindings::clear_bonds,
    bond_count: bindings::bond_count,
    bond_bitmap: bindings::bond_bitmap,
    send: bindings::send,
    release: bindings::release,
};

pub const PLAIN: Side = Side {
    name: "plain",
    start: |lp, dpa_value| plain::start(lp, dpa_value),
    bond: |gateway, address| plain::bond(gateway, address),
    unbond: |gateway, address| plain::unbond(gateway, address),
    clear_bonds: |gateway| plain::clear_bonds(gateway),
    bond_count: |gateway| plain::bond_count(gateway),
    bond_bitmap: |gateway| plain::bond_bitmap(gateway),
    send: |gateway, frame, hops, response_hops, delay, time| {
        send_by(plain::send, gateway, frame, hops, response_hops, delay, time)
    },
    release: |gateway, time, out| release_by(plain::release, gateway, time, out),
};

/// A request as it is handed to a gateway.
#[derive(Clone, PartialEq, Eq, Debug)]
pub struct Request {
    pub frame: Vec<u8>,
    pub hops: u8,
    pub response_hops: u8,
    pub delay: u16,
}

/// A call on a gateway.
#[derive(Clone, Debug)]
pub enum Call {
    Bond(u16),
    Unbond(u16),
    ClearBonds,
    BondCount,
    BondBitmap,
    Send { request: Request, time: u64 },
    Release { time: u64 },
}

/// The answer of a call of any kind.
#[derive(Clone, Copy, PartialEq, Eq, Debug)]
pub enum Answer {
    Bond(BondAnswer),
    Count(CountAnswer),
    Bitmap(BitmapAnswer),
    Send(GatewayAnswer),
    Release(ReleaseAnswer),
}

impl Side {
    /// A frame has guard bytes after it. Only a release is lent `out`.
    pub fn call(&self, gateway: Gateway, call: &Call, out: &mut [u8]) -> Answer {
        match call {
            Call::Bond(address) => Answer::Bond((self.bond)(gateway, *address)),
            Call::Unbond(address) => Answer::Bond((self.unbond)(gateway, *address)),
            Call::ClearBonds => Answer::Bond((self.clear_bonds)(gateway)),
            Call::BondCount => Answer::Count((self.bond_count)(gateway)),
            Call::BondBitmap => Answer::Bitmap((self.bond_bitmap)(gateway)),
            Call::Send { request: Request { frame, hops, response_hops, delay }, time } => {
                let lent = Input::new(frame);
                let answer = (self.send)(gateway, lent.part(), *hops, *response_hops, *delay, *time);
                let fault = lent.difference("frame");
                assert!(fault.is_empty(), "{}: {fault}inputs: {gateway:?}\n{call:?}", self.name);
                Answer::Send(answer)
            }
            Call::Release { time } => Answer::Release((self.release)(gateway, *time, out)),
        }
    }
}

impl Call {
    /// The whole answer of this call if it is refused.
    pub fn refused(&self, refusal: u8, gateway: Gateway) -> Answer {
        match self {
            Call::Bond(_) | Call::Unbond(_) | Call::ClearBonds => {
                Answer::Bond(BondAnswer { refusal, count: 0, gateway })
            }
            Call::BondCount => Answer::Count(CountAnswer { refusal, count: 0 }),
            Call::BondBitmap => Answer::Bitmap(BitmapAnswer { refusal, bitmap: [0; 32] }),
            Call::Send { .. } => Answer::Send(GatewayAnswer { refusal, gateway }),
            Call::Release { .. } => Answer::Release(ReleaseAnswer { refusal, ..ReleaseAnswer::zeros(gateway) }),
        }
    }
}

impl Answer {
    pub fn refusal(&self) -> u8 {
        match self {
            Answer::Bond(answer) => answer.refusal,
            Answer::Count(answer) => answer.refusal,
            Answer::Bitmap(answer) => answer.refusal,
            Answer::Send(answer) => answer.refusal,
            Answer::Release(answer) => answer.refusal,
        }
    }

    /// None from the calls that only read the gateway.
    pub fn gateway(&self) -> Option<Gateway> {
        match self {
            Answer::Bond(answer) => Some(answer.gateway),
            Answer::Count(_) | Answer::Bitmap(_) => None,
            Answer::Send(answer) => Some(answer.gateway),
            Answer::Release(answer) => Some(answer.gateway),
        }
    }
}
