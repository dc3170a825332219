//! One type for the calls of the serial line, filled by the library, the methods
//! of its bindings, the reference, and the plain and the fast implementation, so
//! that a test is written once.
use super::reference::Event;
use super::{bindings, fast, plain, reference};
use crate::boundary::{uart_frame_by, uart_receive_by};
use grelfint::raw::{self, LengthAnswer, ReceiveAnswer, Receiver};

#[derive(Clone, Copy)]
pub struct Side {
    pub name: &'static str,
    pub receiver: fn(bool) -> Receiver,
    pub receive: fn(Receiver, &[u8]) -> ReceiveAnswer,
    pub frame: fn(&[u8], &mut [u8]) -> LengthAnswer,
}

pub const LIBRARY: Side =
    Side { name: "library", receiver: raw::uart_receiver, receive: raw::uart_receive, frame: raw::uart_frame };

pub const REFERENCE: Side =
    Side { name: "reference", receiver: reference::receiver, receive: reference::receive, frame: reference::frame };

pub const BINDINGS: Side =
    Side { name: "bindings", receiver: bindings::receiver, receive: bindings::receive, frame: bindings::frame };

pub const PLAIN: Side = Side {
    name: "plain",
    receiver: |gateway| plain::receiver(gateway),
    receive: |receiver, bytes| uart_receive_by(plain::receive, receiver, bytes),
    frame: |message, out| uart_frame_by(plain::frame, message, out),
};

pub const FAST: Side = Side {
    name: "fast",
    receiver: |gateway| plain::receiver(gateway),
    receive: |receiver, bytes| uart_receive_by(fast::receive, receiver, bytes),
    frame: |message, out| uart_frame_by(fast::frame, message, out),
};

/// The event of an answer; everything that is not of that event is 0.
pub fn event_of(a: &ReceiveAnswer) -> Option<Event> {
    assert!(a.frame[a.length..].iter().all(|&byte| byte == 0), "bytes after the frame: {a:?}");
    match (a.event, a.cause, a.length) {
        (0, 0, 0) => None,
        (1, 0, length) => Some(Event::Frame(a.frame[..length].to_vec())),
        (2, cause @ 1..=4, 0) => Some(Event::Drop(cause)),
        _ => panic!("an answer of no kind: {a:?}"),
    }
}
