//! The guide's example (000, 2.3.2), a receiver of one side, and what stands on a
//! line.
use grelfint::raw::{LengthAnswer, ReceiveAnswer, Receiver};
use grelfint_tests::buffers::GUARD;
use grelfint_tests::uart::reference::{check_byte, escaped, Event, FLAG};
use grelfint_tests::uart::sides::{event_of, Side};

/// Write bytes 7E and 7D at RAM address 0 of node 2F.
pub const GUIDE_MESSAGE: [u8; 9] = [0x2F, 0x00, 0x05, 0x01, 0xFF, 0xFF, 0x00, 0x7E, 0x7D];
pub const GUIDE_CHECK_BYTE: u8 = 0x7E;
pub const GUIDE_LINE: [u8; 15] =
    [0x7E, 0x2F, 0x00, 0x05, 0x01, 0xFF, 0xFF, 0x00, 0x7D, 0x5E, 0x7D, 0x5D, 0x7D, 0x5E, 0x7E];

/// A receiver of one side.
pub struct Line {
    pub side: Side,
    pub receiver: Receiver,
}

impl Line {
    pub fn new(side: Side, limit: u8) -> Line {
        Line { side, receiver: (side.receiver)(limit == 64) }
    }

    /// After the first flag.
    pub fn open(side: Side, limit: u8) -> Line {
        let mut line = Line::new(side, limit);
        assert_eq!(line.take(&[FLAG]), []);
        line
    }

    /// One call; the receiver is updated.
    pub fn call(&mut self, bytes: &[u8]) -> ReceiveAnswer {
        let answer = (self.side.receive)(self.receiver, bytes);
        assert_eq!(answer.refusal, 0);
        self.receiver = answer.receiver;
        answer
    }

    /// The frames and drops of these bytes, which are handed in until they are used up.
    pub fn take(&mut self, bytes: &[u8]) -> Vec<Event> {
        let mut events = Vec::new();
        let mut rest = bytes;
        while !rest.is_empty() {
            let answer = self.call(rest);
            assert!(answer.taken > 0, "no byte taken");
            events.extend(event_of(&answer));
            rest = &rest[answer.taken..];
        }
        events
    }

    pub fn record(&self) -> (u8, u8, u8) {
        (self.receiver.limit, self.receiver.phase, self.receiver.count)
    }
}

/// 1, 2, 3 and so on: neither flags nor escapes.
pub fn plain(length: usize) -> Vec<u8> {
    (1..=length as u8).collect()
}

/// A message and its check byte, as they stand between flags.
pub fn with_check_byte(message: &[u8]) -> Vec<u8> {
    escaped(&[message, &[check_byte(message)]].concat())
}

pub fn with_wrong_check_byte(message: &[u8]) -> Vec<u8> {
    escaped(&[message, &[check_byte(message) ^ 1]].concat())
}

/// What these bytes lead to between two flags.
pub fn between_flags(side: Side, limit: u8, bytes: &[u8]) -> Vec<Event> {
    let mut line = Line::open(side, limit);
    let events = line.take(&[bytes, &[FLAG]].concat());
    assert_eq!(line.record(), (limit, 1, 0));
    events
}

pub fn frame_of(message: &[u8]) -> Vec<Event> {
    vec![Event::Frame(message.to_vec())]
}

pub fn drop_for(cause: u8) -> Vec<Event> {
    vec![Event::Drop(cause)]
}

/// The answer, and the bytes that a buffer of this length has afterwards.
pub fn send(side: Side, message: &[u8], room: usize) -> (LengthAnswer, Vec<u8>) {
    let mut out = vec![0xEE; room + GUARD];
    let answer = (side.frame)(message, &mut out[..room]);
    let guard = out.split_off(room);
    assert_eq!(guard, [0xEE; GUARD]);
    (answer, out)
}
