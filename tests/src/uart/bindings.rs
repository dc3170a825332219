//! The calls of the serial line through the methods of the bindings, with the
//! answers of the C interface.
use crate::bindings::written;
use grelfint::raw::{LengthAnswer, ReceiveAnswer, Receiver};
use grelfint::serial::{self, Event};

pub fn receiver(gateway: bool) -> Receiver {
    if gateway {
        Receiver::at_gateway()
    } else {
        Receiver::at_node()
    }
}

pub fn receive(mut receiver: Receiver, bytes: &[u8]) -> ReceiveAnswer {
    let result = receiver.receive(bytes);
    let mut answer = ReceiveAnswer::zeros(receiver);
    match result {
        Ok(received) => {
            answer.taken = received.taken;
            match received.event {
                None => {}
                Some(Event::Frame(frame)) => {
                    (answer.event, answer.length) = (1, frame.len());
                    answer.frame[..frame.len()].copy_from_slice(&frame);
                }
                Some(Event::Dropped(cause)) => (answer.event, answer.cause) = (2, cause.into()),
            }
        }
        Err(refusal) => answer.refusal = refusal.into(),
    }
    answer
}

pub fn frame(message: &[u8], out: &mut [u8]) -> LengthAnswer {
    let buffer = out.as_ptr();
    written(serial::frame(message, out), buffer)
}
