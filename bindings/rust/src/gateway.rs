//! The gateway: its bonds, and the requests that it paces.
use crate::refusal::accepted;
use crate::timing::Route;
use crate::{raw, Frame, Gateway, Network, Refusal, BONDS};

/// A request that a gateway has released, to be sent now.
#[derive(Clone, Copy, Debug, PartialEq, Eq)]
pub struct Released<'a> {
    /// The request.
    pub frame: Frame,
    /// As [`confirm`](crate::timing::confirm) writes it.
    pub confirmation: &'a [u8],
}

impl Gateway {
    /// Starts a gateway without bonds or requests, and with both times 0.
    /// `dpa_value` goes into the confirmations.
    #[must_use]
    pub fn start(network: Network, dpa_value: u8) -> Gateway {
        raw::gateway_start(network.is_lp(), dpa_value)
    }

    /// Adds the bond of a node, and returns the number of bonds.
    ///
    /// Refusals: [`Refusal::Node`] for a gateway that is not sound,
    /// [`Refusal::Address`] for one that is not 1 to 239 or already bonded.
    pub fn bond(&mut self, address: u16) -> Result<u8, Refusal> {
        self.bonded(raw::bond(*self, address))
    }

    /// Removes the bond of a node, and returns the number of bonds. Requests to it
    /// that already wait stay.
    ///
    /// Refusals: [`Refusal::Node`], [`Refusal::Address`] for a node without a bond.
    pub fn unbond(&mut self, address: u16) -> Result<u8, Refusal> {
        self.bonded(raw::unbond(*self, address))
    }

    /// Removes all bonds. Requests that wait stay.
    ///
    /// Refusals: [`Refusal::Node`].
    pub fn clear_bonds(&mut self) -> Result<(), Refusal> {
        self.bonded(raw::clear_bonds(*self)).map(|_| ())
    }

    fn bonded(&mut self, answer: raw::BondAnswer) -> Result<u8, Refusal> {
        accepted(answer.refusal)?;
        *self = answer.gateway;
        Ok(answer.count)
    }

    /// The number of bonded nodes.
    ///
    /// Refusals: [`Refusal::Node`].
    pub fn bond_count(&self) -> Result<u8, Refusal> {
        let answer = raw::bond_count(*self);
        accepted(answer.refusal).map(|()| answer.count)
    }

    /// The bonded nodes: bit `a % 8` of byte `a / 8` is set for node `a`.
    ///
    /// Refusals: [`Refusal::Node`].
    pub fn bond_bitmap(&self) -> Result<[u8; BONDS], Refusal> {
        let answer = raw::bond_bitmap(*self);
        accepted(answer.refusal).map(|()| answer.bitmap)
    }

    /// Hands in a request, which the gateway keeps until it is released, in order
    /// of arrival. `time` is the present, in ms.
    ///
    /// Refusals: [`Refusal::Node`], [`Refusal::Frame`], [`Refusal::Address`] if NADR
    /// is neither a bonded node nor 0x00FF, [`Refusal::Full`], [`Refusal::Time`].
    pub fn send(&mut self, frame: &[u8], route: Route, time: u64) -> Result<(), Refusal> {
        let Route { hops, response_hops, delay } = route;
        let answer = raw::send(*self, frame, hops, response_hops, delay, time);
        accepted(answer.refusal)?;
        *self = answer.gateway;
        Ok(())
    }

    /// Releases the oldest request that waits, if `time`, the present in ms, is not
    /// before `queue.next`: the time of the last release, plus the earliest send time
    /// after that request with the longest response. The first may be released at
    /// any time. If it is too early, or if no request waits, there is none, and only
    /// the time is recorded.
    ///
    /// Refusals: [`Refusal::Node`], [`Refusal::Response`] if `out` has fewer than 64
    /// bytes, even if nothing is released, [`Refusal::Time`]. Written: this gateway,
    /// and the confirmation to the front of `out`.
    pub fn release<'a>(&mut self, time: u64, out: &'a mut [u8]) -> Result<Option<Released<'a>>, Refusal> {
        let answer = raw::release(*self, time, out);
        accepted(answer.refusal)?;
        *self = answer.gateway;
        Ok(answer.released.then(|| Released {
            frame: Frame::new(&answer.frame, answer.frame_length),
            confirmation: &out[..answer.length],
        }))
    }
}
