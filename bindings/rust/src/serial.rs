//! Messages on the serial line between a gateway and its module.
use crate::numbered::{known, numbered};
use crate::refusal::accepted;
use crate::{raw, Frame, Receiver, Refusal, EVENT_FRAME, EVENT_NONE};

numbered! {
    /// Why a frame was dropped: the first that applies.
    pub enum DropCause {
        TooLong = CAUSE_TOO_LONG, "more bytes than the receiver's limit";
        Cut = CAUSE_CUT, "a flag right after an escape";
        Short = CAUSE_SHORT, "fewer than 6 bytes";
        CheckByte = CAUSE_CHECK_BYTE, "a wrong check byte";
    }
}

/// What ended with a flag.
#[derive(Clone, Copy, Debug, PartialEq, Eq)]
pub enum Event {
    /// A frame, without its check byte.
    Frame(Frame),
    /// A frame that was dropped.
    Dropped(DropCause),
}

/// What came out of a part of the stream.
#[derive(Clone, Copy, Debug, PartialEq, Eq)]
pub struct Received {
    /// Bytes that were used: at least 1 of a part that is not empty. Those after
    /// them are for the next call.
    pub taken: usize,
    /// None if all bytes were taken and no frame has ended.
    pub event: Option<Event>,
}

impl Receiver {
    /// A gateway's receiver, for messages of up to 64 bytes. It waits for its first
    /// flag.
    #[must_use]
    pub fn at_gateway() -> Receiver {
        raw::uart_receiver(true)
    }

    /// A node's receiver, for messages of up to 62 bytes. It waits for its first
    /// flag.
    #[must_use]
    pub fn at_node() -> Receiver {
        raw::uart_receiver(false)
    }

    /// Receives the next bytes of the stream, any number of them, up to the first
    /// flag that completes or drops a frame. How the stream is cut into parts
    /// changes neither frames nor drops.
    ///
    /// ```
    /// use grelfint::serial::{frame, Event};
    /// use grelfint::{Receiver, Refusal, UART_FRAMED};
    ///
    /// /// Prints what a part of the stream leads to.
    /// fn read(receiver: &mut Receiver, part: &[u8]) -> Result<(), Refusal> {
    ///     let mut rest = part;
    ///     while !rest.is_empty() {
    ///         let received = receiver.receive(rest)?;
    ///         rest = &rest[received.taken..];
    ///         match received.event {
    ///             Some(Event::Frame(frame)) => println!("frame {frame:?}"),
    ///             Some(Event::Dropped(cause)) => println!("dropped: {cause}"),
    ///             None => {}
    ///         }
    ///     }
    ///     Ok(())
    /// }
    ///
    /// let mut line = [0; UART_FRAMED];
    /// let line = frame(b"a message", &mut line)?;
    /// let mut receiver = Receiver::at_gateway();
    /// for part in line.chunks(4) {
    ///     read(&mut receiver, part)?;
    /// }
    /// # Ok::<(), Refusal>(())
    /// ```
    ///
    /// Refusals: [`Refusal::Node`] for a receiver that is not sound.
    pub fn receive(&mut self, bytes: &[u8]) -> Result<Received, Refusal> {
        let answer = raw::uart_receive(*self, bytes);
        accepted(answer.refusal)?;
        *self = answer.receiver;
        let event = match answer.event {
            EVENT_NONE => None,
            EVENT_FRAME => Some(Event::Frame(Frame::new(&answer.frame, answer.length))),
            _ => Some(Event::Dropped(known(answer.cause))),
        };
        Ok(Received { taken: answer.taken, event })
    }
}

/// Frames a message of 6 to 64 bytes: flag, message, check byte, flag. A node's
/// receiver drops messages of 63 and 64 bytes.
///
/// Answer: the framed message, which is the front of `out`; only it is written.
/// Refusals: [`Refusal::Frame`], [`Refusal::Framed`].
/// [`UART_FRAMED`](crate::UART_FRAMED) bytes are enough for every message.
pub fn frame<'a>(message: &[u8], out: &'a mut [u8]) -> Result<&'a [u8], Refusal> {
    let answer = raw::uart_frame(message, out);
    accepted(answer.refusal).map(|()| &out[..answer.length])
}
