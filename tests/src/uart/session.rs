//! Random calls of the serial line on each tested side and on the reference.
use super::random;
use super::reference::{escaped, framed, Event, Stream, ESCAPE, FLAG, TOO_LONG};
use super::seen::{Record, Seen};
use super::sides::{event_of, Side, BINDINGS, FAST, LIBRARY, PLAIN, REFERENCE};
use crate::buffers::{difference, hex, Input, GUARD};
use crate::session;
use grelfint::raw::{ReceiveAnswer, Receiver};

/// The sides that are compared with the reference.
const TESTED: [Side; 4] = [LIBRARY, BINDINGS, PLAIN, FAST];

pub type Session = session::Session<Seen>;

impl Session {
    fn new_receiver(&mut self) -> Receiver {
        let gateway = self.g.chance(1, 2);
        let want = (REFERENCE.receiver)(gateway);
        for side in TESTED {
            let came = (side.receiver)(gateway);
            self.agree(side.name, [&came, &want], "", || format!("receiver, gateway {gateway}"));
        }
        want
    }

    fn receive(&mut self, receiver: Receiver, part: &[u8]) -> ReceiveAnswer {
        let want = (REFERENCE.receive)(receiver, part);
        for side in TESTED {
            let lent = Input::new(part);
            let answer = (side.receive)(receiver, lent.part());
            let fault = lent.difference("part");
            self.agree(side.name, [&answer, &want], &fault, || {
                format!("{receiver:?}\npart ({}) {}", part.len(), hex(part))
            });
        }
        self.calls += 1;
        self.seen.received(&receiver, part, &want);
        want
    }

    /// Hands each part in until it is used up, an empty one once. Returns the frames and drops, and the last record.
    fn receive_all(&mut self, start: Receiver, parts: &[&[u8]]) -> (Vec<Event>, Receiver) {
        let mut receiver = start;
        let mut events = Vec::new();
        for part in parts {
            let mut rest = *part;
            loop {
                let answer = self.receive(receiver, rest);
                self.expect(answer.refusal == 0 && (answer.taken > 0 || rest.is_empty()), || {
                    format!("no progress: {answer:?}\ninputs: {receiver:?}\npart {}", hex(rest))
                });
                receiver = answer.receiver;
                events.extend(event_of(&answer));
                rest = &rest[answer.taken..];
                if rest.is_empty() {
                    break;
                }
            }
        }
        (events, receiver)
    }

    /// The parts lead to what the whole stream is read as.
    pub fn receive_stream(&mut self, start: Receiver, parts: &[&[u8]]) {
        let line = [line_before(&start), parts.concat()].concat();
        let limit = start.limit as usize;
        let whole = Stream::read(&line);
        let want = (whole.events(limit), whole.receiver_after(limit, start.bytes));
        let came = self.receive_all(start, parts);
        self.expect(came == want, || {
            let parts: Vec<String> = parts.iter().map(|part| hex(part)).collect();
            format!("came {came:?}\nwhole stream {want:?}\ninputs: {start:?}\nparts {parts:?}")
        });
    }

    /// A stream under random cuts, from a new receiver or from any sound record.
    pub fn random_stream(&mut self) {
        let start = if self.g.chance(1, 2) { self.new_receiver() } else { random::receiver(&mut self.g) };
        let stream = random::stream(&mut self.g, start.limit as usize);
        let parts = random::parts(&mut self.g, &stream);
        self.receive_stream(start, &parts);
        self.seen.stream(start.limit, &[line_before(&start), stream].concat());
    }

    /// A call with any record: refused exactly if it breaks the rule.
    pub fn random_record(&mut self) {
        let receiver = random::any_receiver(&mut self.g);
        let stream = random::stream(&mut self.g, 62);
        let part = if self.g.chance(1, 4) { &[][..] } else { &stream };
        let answer = self.receive(receiver, part);
        let record = Record::of(&receiver);
        self.seen.records.add(record);
        let want = if record == Record::Sound { 0 } else { 1 };
        self.expect(answer.refusal == want, || format!("{record:?}, {answer:?}\ninputs: {receiver:?}"));
    }

    /// The bytes on the line, or none if the call is refused.
    fn frame(&mut self, message: &[u8], room: usize) -> Option<Vec<u8>> {
        let mut before = vec![0; room + GUARD];
        self.g.fill(&mut before);
        let mut out = before.clone();
        let want = (REFERENCE.frame)(message, &mut out[..room]);
        for side in TESTED {
            let lent = Input::new(message);
            let mut tested = before.clone();
            let answer = (side.frame)(lent.part(), &mut tested[..room]);
            let fault = difference("output", &tested, &out) + &lent.difference("message");
            self.agree(side.name, [&answer, &want], &fault, || {
                format!("message ({}) {}\nroom {room}, output before {}", message.len(), hex(message), hex(&before))
            });
        }
        self.calls += 1;
        self.seen.sent(message, room, want.refusal);
        (want.refusal == 0).then(|| out[..want.length].to_vec())
    }

    /// A message into a buffer of any length; what was written is received again.
    pub fn random_message(&mut self) {
        let length = random::message_length(&mut self.g);
        let message = random::message(&mut self.g, length);
        let room = random::room(&mut self.g, framed(&message).len());
        if let Some(line) = self.frame(&message, room) {
            let start = random::receiver(&mut self.g);
            self.comes_back(start, &message, &line);
        }
    }

    /// The opening flag ends what the receiver has; then exactly the message comes out, or its drop if it is too long.
    pub fn comes_back(&mut self, start: Receiver, message: &[u8], line: &[u8]) {
        let (mut want, _) = self.receive_all(start, &[&[FLAG]]);
        let fits = message.len() <= start.limit as usize;
        want.push(if fits { Event::Frame(message.to_vec()) } else { Event::Drop(TOO_LONG) });
        let (came, after) = self.receive_all(start, &[line]);
        let good = came == want && (after.limit, after.phase, after.count) == (start.limit, 1, 0);
        self.expect(good, || {
            format!("came {came:?}\nexpected {want:?}\n{after:?}\ninputs: {start:?}\nmessage {}", hex(message))
        });
    }
}

/// A stream that leads to this record, apart from the bytes that it has from its count on.
fn line_before(r: &Receiver) -> Vec<u8> {
    if r.phase == 0 {
        return Vec::new();
    }
    let count = r.count as usize;
    let mut frame = r.bytes[..count.min(r.limit as usize + 1)].to_vec();
    frame.resize(count, 0); // the last byte of a frame that is too long is not kept
    let escape = if r.phase == 2 { &[ESCAPE][..] } else { &[] };
    [&[FLAG], &escaped(&frame)[..], escape].concat()
}
