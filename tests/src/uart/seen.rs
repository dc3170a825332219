//! Counts of what the calls of the serial line did. What a call did follows from
//! its inputs and the reference.
use super::random::LIMITS;
use super::reference::{check_byte, framed, Piece, Stream, ESCAPE, ESCAPE_BIT, FLAG, LONGEST, SHORTEST};
use crate::counts::{Counts, EITHER};
use grelfint::raw::{ReceiveAnswer, Receiver};

#[derive(Default, Debug)]
pub struct Seen {
    pub received: Counts<Received>,
    pub frames: Counts<Frame>,
    pub escaped: Counts<Escaped>,
    pub records: Counts<Record>,
    pub sent: Counts<Sent>,
    /// Check bytes that were sent with an escape.
    pub escaped_checks: Counts<u8>,
}

/// A call of the receiver that was not refused.
#[derive(Clone, Copy, PartialEq, Eq, PartialOrd, Ord, Debug)]
pub struct Received {
    /// Before the call.
    phase: u8,
    part: Part,
    event: u8,
    /// Bytes of the part were left.
    rest: bool,
}

#[derive(Clone, Copy, PartialEq, Eq, PartialOrd, Ord, Debug)]
enum Part {
    Empty,
    OneByte,
    Several,
}

impl Part {
    fn of(part: &[u8]) -> Part {
        match part.len() {
            0 => Part::Empty,
            1 => Part::OneByte,
            _ => Part::Several,
        }
    }
}

impl Received {
    pub fn every() -> impl Iterator<Item = Received> {
        let parts = [Part::Empty, Part::OneByte, Part::Several].into_iter();
        let with =
            |(phase, part)| (0..=2).flat_map(move |event| EITHER.map(|rest| Received { phase, part, event, rest }));
        parts.flat_map(|part| (0..=2).map(move |phase| (phase, part))).flat_map(with).filter(Received::is_possible)
    }

    /// Bytes are left only after an event; one byte leads to an event after the first flag, to a frame in phase 1.
    fn is_possible(&self) -> bool {
        match (self.part, self.event) {
            (_, 0) => !self.rest,
            (Part::Empty, _) => false,
            (Part::OneByte, event) => !self.rest && self.phase != 0 && (event == 2 || self.phase == 1),
            (Part::Several, _) => true,
        }
    }
}

/// What stood between two flags at a receiver with this limit.
#[derive(Clone, Copy, PartialEq, Eq, PartialOrd, Ord, Debug)]
pub struct Frame {
    limit: u8,
    length: Length,
    cut: bool,
    checks: bool,
}

/// Of a message, check byte not counted; nothing is no check byte either.
#[derive(Clone, Copy, PartialEq, Eq, PartialOrd, Ord, Debug)]
enum Length {
    Nothing,
    Short,
    OneUnder,
    Shortest,
    Between,
    Longest,
    OneOver,
    Long,
}

impl Length {
    const EVERY: [Length; 8] = [
        Length::Nothing,
        Length::Short,
        Length::OneUnder,
        Length::Shortest,
        Length::Between,
        Length::Longest,
        Length::OneOver,
        Length::Long,
    ];

    fn of(message: usize, limit: usize) -> Length {
        match message {
            _ if message > limit + 1 => Length::Long,
            _ if message == limit + 1 => Length::OneOver,
            _ if message == limit => Length::Longest,
            _ if message > SHORTEST => Length::Between,
            _ if message == SHORTEST => Length::Shortest,
            _ if message == SHORTEST - 1 => Length::OneUnder,
            _ => Length::Short,
        }
    }
}

impl Frame {
    fn of(piece: &Piece, limit: u8) -> Frame {
        let length = match piece.bytes.len() {
            0 => Length::Nothing,
            bytes => Length::of(bytes - 1, limit as usize),
        };
        Frame { limit, length, cut: piece.cut, checks: piece.checks() }
    }

    pub fn every() -> impl Iterator<Item = Frame> {
        let at = |limit| {
            let of = move |length| {
                let with = move |cut| EITHER.map(|checks| Frame { limit, length, cut, checks });
                EITHER.into_iter().flat_map(with)
            };
            Length::EVERY.into_iter().flat_map(of)
        };
        LIMITS.into_iter().flat_map(at).filter(|frame| frame.length != Length::Nothing || !frame.checks)
    }
}

/// What an escape and the byte after it, which is no flag, stood for.
#[derive(Clone, Copy, PartialEq, Eq, PartialOrd, Ord, Debug)]
pub enum Escaped {
    Flag,
    Escape,
    /// Two escapes in a row.
    Doubled,
    /// A byte that need not be escaped.
    Other,
}

impl Escaped {
    pub const EVERY: [Escaped; 4] = [Escaped::Flag, Escaped::Escape, Escaped::Doubled, Escaped::Other];

    fn of(next: u8) -> Escaped {
        match (next, next ^ ESCAPE_BIT) {
            (_, FLAG) => Escaped::Flag,
            (_, ESCAPE) => Escaped::Escape,
            (ESCAPE, _) => Escaped::Doubled,
            _ => Escaped::Other,
        }
    }
}

/// A record by what is wrong with it.
#[derive(Clone, Copy, PartialEq, Eq, PartialOrd, Ord, Debug)]
pub enum Record {
    Sound,
    Limit,
    Phase,
    Count,
    /// A count in phase 0 that another phase could have.
    CountInPhase0,
    Several,
}

impl Record {
    pub const EVERY: [Record; 6] =
        [Record::Sound, Record::Limit, Record::Phase, Record::Count, Record::CountInPhase0, Record::Several];

    pub fn of(r: &Receiver) -> Record {
        let limit = !LIMITS.contains(&r.limit);
        let count = r.count as usize > r.limit as usize + 2;
        match (limit, r.phase > 2, count, r.phase == 0 && r.count != 0) {
            (false, false, false, false) => Record::Sound,
            (true, false, false, false) => Record::Limit,
            (false, true, false, false) => Record::Phase,
            (false, false, true, false) => Record::Count,
            (false, false, false, true) => Record::CountInPhase0,
            _ => Record::Several,
        }
    }
}

/// A call of the sender.
#[derive(Clone, Copy, PartialEq, Eq, PartialOrd, Ord, Debug)]
pub struct Sent {
    length: Length,
    room: Room,
}

/// The output buffer beside the bytes on the line.
#[derive(Clone, Copy, PartialEq, Eq, PartialOrd, Ord, Debug)]
enum Room {
    Less,
    OneLess,
    Exact,
    More,
}

impl Sent {
    fn of(message: &[u8], room: usize) -> Sent {
        let needed = framed(message).len();
        let room = match room {
            _ if room > needed => Room::More,
            _ if room == needed => Room::Exact,
            _ if room + 1 == needed => Room::OneLess,
            _ => Room::Less,
        };
        Sent { length: Length::of(message.len(), LONGEST), room }
    }

    pub fn every() -> impl Iterator<Item = Sent> {
        let lengths = Length::EVERY.into_iter().filter(|&length| length != Length::Nothing);
        let with = |length| [Room::Less, Room::OneLess, Room::Exact, Room::More].map(|room| Sent { length, room });
        lengths.flat_map(with)
    }
}

impl Seen {
    pub fn received(&mut self, before: &Receiver, part: &[u8], answer: &ReceiveAnswer) {
        if answer.refusal == 0 {
            let rest = answer.taken < part.len();
            self.received.add(Received { phase: before.phase, part: Part::of(part), event: answer.event, rest });
        }
    }

    /// Counts the frames of a whole stream, and its escapes.
    pub fn stream(&mut self, limit: u8, line: &[u8]) {
        for piece in &Stream::read(line).ended {
            self.frames.add(Frame::of(piece, limit));
        }
        for line in line.split(|&byte| byte == FLAG).skip(1) {
            let mut rest = line.iter();
            while rest.by_ref().any(|&byte| byte == ESCAPE) {
                if let Some(&next) = rest.next() {
                    self.escaped.add(Escaped::of(next));
                }
            }
        }
    }

    pub fn sent(&mut self, message: &[u8], room: usize, refusal: u8) {
        self.sent.add(Sent::of(message, room));
        let check = check_byte(message);
        if refusal == 0 && (check == FLAG || check == ESCAPE) {
            self.escaped_checks.add(check);
        }
    }
}
