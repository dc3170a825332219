//! The node: its second, its lamps, and requests.
use crate::numbered::{known, numbered};
use crate::refusal::accepted;
use crate::{raw, Node, Refusal, Settings};
use crate::{AT_DATA, AT_ERRN, ERRN_NONE, LAMPS, REASON_NONE};
use core::error::Error;

numbered! {
    /// An error in a request, which its response reports as ErrN. A response
    /// without an error has [`ERRN_NONE`] there. At a gateway,
    /// `ErrN::try_from(frame[AT_ERRN])` reads it from a response that was received.
    pub enum ErrN {
        Fail = ERRN_FAIL, "the request failed";
        Pcmd = ERRN_PCMD, "unknown PCMD";
        Pnum = ERRN_PNUM, "unknown PNUM";
        Addr = ERRN_ADDR, "an address outside the memory";
        DataLen = ERRN_DATA_LEN, "a wrong length of PData";
        Data = ERRN_DATA, "wrong PData";
        Hwpid = ERRN_HWPID, "another HWPID";
    }
}

impl Error for ErrN {}

numbered! {
    /// The two-bit answer to an FRC command.
    pub enum FrcValue {
        NotImplemented = FRC_NOT_IMPLEMENTED, "not implemented";
        No = FRC_NO, "no";
        Yes = FRC_YES, "yes";
    }
}

numbered! {
    /// Why the list of a batch cannot be read.
    pub enum ListReason {
        Short = REASON_SHORT, "an entry with a length of 1 to 4";
        PastEnd = REASON_PAST_END, "an entry that reaches past the end of PData";
        Unclosed = REASON_UNCLOSED, "no closing zero";
        Trailing = REASON_TRAILING, "bytes after the closing zero";
    }
}

/// Where the list of a batch, or of a selective batch for this node, cannot be
/// read. The response has ErrN 6; after a broadcast this is the only sign.
#[derive(Clone, Copy, Debug, PartialEq, Eq)]
pub struct ListFault {
    /// The first fault from the start of the list.
    pub reason: ListReason,
    /// Its offset in PData: of the entry's length byte, of the first byte after
    /// the closing zero, or without one the length of PData.
    pub place: u8,
}

/// What a node did with a request.
#[derive(Clone, Copy, Debug, PartialEq, Eq)]
pub struct Handled<'a> {
    /// To be sent; none for a broadcast, for a frame to another node, and for a
    /// selective batch whose node set does not name this node.
    pub response: Option<Response<'a>>,
    /// NADR is this node's address or the broadcast address. It tells a broadcast
    /// from a frame for another node, which both have no response. The request may
    /// still have an error, or be a selective batch that does not name this node.
    pub addressed: bool,
    /// A code check matched and asked to load the code.
    pub load: bool,
    /// Where the list of a batch cannot be read.
    pub fault: Option<ListFault>,
}

/// The response to a request.
#[derive(Clone, Copy, Debug, PartialEq, Eq)]
pub struct Response<'a> {
    bytes: &'a [u8],
}

impl<'a> Response<'a> {
    /// All of its bytes, to be sent.
    #[must_use]
    pub fn bytes(&self) -> &'a [u8] {
        self.bytes
    }

    /// Its data, or the error that it reports.
    pub fn data(&self) -> Result<&'a [u8], ErrN> {
        match self.bytes[AT_ERRN] {
            ERRN_NONE => Ok(&self.bytes[AT_DATA..]),
            number => Err(known(number)),
        }
    }
}

impl Node {
    /// Starts a node; every lamp and RAM byte is 0.
    ///
    /// Refusals: [`Refusal::Node`].
    pub fn start(settings: Settings) -> Result<Node, Refusal> {
        let answer = raw::start(settings);
        accepted(answer.refusal).map(|()| answer.node)
    }

    /// One second passes: every running timer drops by a second, and a lamp whose
    /// timer reaches 0 goes to level 0.
    ///
    /// Refusals: [`Refusal::Node`].
    pub fn tick(&mut self) -> Result<(), Refusal> {
        accepted(raw::tick_in_place(self))
    }

    /// The actual level of each lamp: the smallest multiple of the dimming step
    /// that is not below the requested level. 0 from the lamp count on.
    ///
    /// Refusals: [`Refusal::Node`].
    pub fn actual_levels(&self) -> Result<[u8; LAMPS], Refusal> {
        let answer = raw::actual_levels(*self);
        accepted(answer.refusal).map(|()| answer.levels)
    }

    /// The answer to an FRC command. [`FRC_ON`](crate::FRC_ON) asks whether a lamp
    /// is on: its actual level is not 0, or its bit in `stuck` is set.
    /// [`FRC_ALARM`](crate::FRC_ALARM) asks whether its bit in `alarm` is set. Bit i
    /// of both masks belongs to lamp i. `user_data` is 0x71, then the lamp in the
    /// low five bits of a byte.
    ///
    /// Refusals: [`Refusal::Node`].
    pub fn frc(&self, command: u8, user_data: &[u8], stuck: u32, alarm: u32) -> Result<FrcValue, Refusal> {
        let answer = raw::frc(*self, command, user_data, stuck, alarm);
        accepted(answer.refusal).map(|()| known(answer.value))
    }

    /// Handles a request `frame`: NADR, PNUM, PCMD, HWPID, and up to 56 bytes of
    /// PData. An error in the request itself is not a refusal: the response reports
    /// it.
    ///
    /// Refusals: [`Refusal::Node`], [`Refusal::Frame`], [`Refusal::Response`],
    /// [`Refusal::Memory`]. Written: this node, `eeprom` and `external` as the
    /// request asks, and the front of `response`, where [`Handled::response`] is.
    pub fn handle_request<'a>(
        &mut self,
        frame: &[u8],
        eeprom: &mut [u8],
        external: &mut [u8],
        response: &'a mut [u8],
    ) -> Result<Handled<'a>, Refusal> {
        let raw::RequestAnswer { refusal, length, load, addressed, reason, place, node } =
            raw::handle_request(*self, frame, eeprom, external, response);
        accepted(refusal)?;
        *self = node;
        Ok(Handled {
            response: (length > 0).then(|| Response { bytes: &response[..length] }),
            addressed,
            load,
            fault: (reason != REASON_NONE).then(|| ListFault { reason: known(reason), place }),
        })
    }
}
