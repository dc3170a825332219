//! Random calls of a gateway on each tested side and on the reference.
use super::seen::{faults, Seen};
use super::sides::{Answer, Call, Side, BINDINGS, LIBRARY, PLAIN, REFERENCE};
use crate::buffers::{difference, hex, GUARD};
use crate::session;
use grelfint::raw::Gateway;

/// The sides that are compared with the reference.
const TESTED: [Side; 3] = [LIBRARY, BINDINGS, PLAIN];

pub type Session = session::Session<Seen>;

impl Session {
    pub fn start(&mut self) -> Gateway {
        let (lp, dpa_value) = (self.g.chance(1, 2), self.g.byte());
        let want = (REFERENCE.start)(lp, dpa_value);
        for side in TESTED {
            let came = (side.start)(lp, dpa_value);
            self.agree(side.name, [&came, &want], "", || format!("start, lp {lp}, DpaValue {dpa_value}"));
        }
        want
    }

    /// The answer, and the room for a confirmation after the call.
    pub fn call(&mut self, gateway: Gateway, call: &Call, room: usize) -> (Answer, Vec<u8>) {
        let mut before = vec![0; room + GUARD];
        self.g.fill(&mut before);
        let mut out = before.clone();
        let want = REFERENCE.call(gateway, call, &mut out[..room]);
        for side in TESTED {
            let mut tested = before.clone();
            let answer = side.call(gateway, call, &mut tested[..room]);
            let fault = difference("output", &tested, &out);
            self.agree(side.name, [&answer, &want], &fault, || {
                format!("{gateway:?}\n{call:?}\nroom {room}, output before {}", hex(&before))
            });
        }
        self.calls += 1;
        self.seen.call(&gateway, call, room, &want);
        // the first refusal that applies, if any; then nothing else happens
        let refusal = faults(&gateway, call, room).first().copied();
        let good = match refusal {
            Some(refusal) => want == call.refused(refusal, gateway) && out == before,
            None => want.refusal() == 0,
        };
        self.expect(good, || format!("refusal {refusal:?}, {want:?}\ninputs: {gateway:?}\n{call:?}\nroom {room}"));
        out.truncate(room);
        (want, out)
    }
}
