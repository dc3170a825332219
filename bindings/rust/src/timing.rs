//! Confirmations, and how long a request keeps the network busy.
use crate::numbered::numbered;
use crate::refusal::accepted;
use crate::{raw, Refusal};

numbered! {
    /// The type of a network.
    pub enum Network {
        Std = NETWORK_STD, "STD";
        StdLp = NETWORK_STD_LP, "STD+LP";
    }
}

impl Network {
    pub(crate) fn is_lp(self) -> bool {
        self == Network::StdLp
    }
}

/// The way to a node and back.
#[derive(Clone, Copy, Debug, PartialEq, Eq)]
pub struct Route {
    /// Hops of the request.
    pub hops: u8,
    /// Hops of the response.
    pub response_hops: u8,
    /// What the node needs to prepare its response, in ms.
    pub delay: u16,
}

/// The timeslot for a length of PData, in units of [`SLOT_MS`](crate::SLOT_MS): 4,
/// 5 or 6, and 4 more in an STD+LP network.
///
/// Refusals: [`Refusal::PData`].
pub fn timeslot(pdata_length: usize, network: Network) -> Result<u8, Refusal> {
    let answer = raw::timeslot(pdata_length, network.is_lp());
    accepted(answer.refusal).map(|()| answer.slot)
}

/// Milliseconds from the confirmation to the earliest next send. The lengths are
/// those of PData. With `broadcast` the response adds no time, but its length is
/// still tested.
///
/// Refusals: [`Refusal::PData`].
pub fn earliest_send(
    route: Route,
    request_length: usize,
    response_length: usize,
    network: Network,
    broadcast: bool,
) -> Result<u32, Refusal> {
    let Route { hops, response_hops, delay } = route;
    let answer =
        raw::earliest_send(hops, request_length, delay, response_hops, response_length, network.is_lp(), broadcast);
    accepted(answer.refusal).map(|()| answer.milliseconds)
}

/// The gateway's confirmation of a request frame. To all nodes (NADR 0x00FF) the
/// response hops are written as 0.
///
/// Answer: the confirmation, which is the front of `out`; only it is written.
/// Refusals: [`Refusal::Frame`], [`Refusal::Response`] if `out` has fewer than 64
/// bytes.
pub fn confirm<'a>(
    frame: &[u8],
    dpa_value: u8,
    hops: u8,
    response_hops: u8,
    network: Network,
    out: &'a mut [u8],
) -> Result<&'a [u8], Refusal> {
    let answer = raw::confirm(frame, dpa_value, hops, response_hops, network.is_lp(), out);
    accepted(answer.refusal).map(|()| &out[..answer.length])
}
