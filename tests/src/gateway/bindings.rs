//! The calls of the gateway through the methods of the bindings, with the answers
//! of the C interface.
use crate::bindings::{refusal_of, written};
use grelfint::raw::{
    BitmapAnswer, BondAnswer, CountAnswer, Gateway, GatewayAnswer, LengthAnswer, ReleaseAnswer, SendAnswer, SlotAnswer,
};
use grelfint::timing::{self, Network, Route};
use grelfint::Refusal;

fn network(lp: bool) -> Network {
    if lp {
        Network::StdLp
    } else {
        Network::Std
    }
}

pub fn confirm(frame: &[u8], dpa_value: u8, hops: u8, response_hops: u8, lp: bool, out: &mut [u8]) -> LengthAnswer {
    let buffer = out.as_ptr();
    written(timing::confirm(frame, dpa_value, hops, response_hops, network(lp), out), buffer)
}

pub fn timeslot(pdata_length: usize, lp: bool) -> SlotAnswer {
    match timing::timeslot(pdata_length, network(lp)) {
        Ok(slot) => SlotAnswer { refusal: 0, slot },
        Err(refusal) => SlotAnswer { refusal: refusal.into(), slot: 0 },
    }
}

pub fn earliest_send(
    hops: u8,
    request_length: usize,
    delay: u16,
    response_hops: u8,
    response_length: usize,
    lp: bool,
    broadcast: bool,
) -> SendAnswer {
    let route = Route { hops, response_hops, delay };
    match timing::earliest_send(route, request_length, response_length, network(lp), broadcast) {
        Ok(milliseconds) => SendAnswer { refusal: 0, milliseconds },
        Err(refusal) => SendAnswer { refusal: refusal.into(), milliseconds: 0 },
    }
}

pub fn start(lp: bool, dpa_value: u8) -> Gateway {
    Gateway::start(network(lp), dpa_value)
}

fn bonded(gateway: Gateway, result: Result<u8, Refusal>) -> BondAnswer {
    match result {
        Ok(count) => BondAnswer { refusal: 0, count, gateway },
        Err(refusal) => BondAnswer { refusal: refusal.into(), count: 0, gateway },
    }
}

pub fn bond(mut gateway: Gateway, address: u16) -> BondAnswer {
    let result = gateway.bond(address);
    bonded(gateway, result)
}

pub fn unbond(mut gateway: Gateway, address: u16) -> BondAnswer {
    let result = gateway.unbond(address);
    bonded(gateway, result)
}

pub fn clear_bonds(mut gateway: Gateway) -> BondAnswer {
    let result = gateway.clear_bonds();
    bonded(gateway, result.map(|()| 0))
}

pub fn bond_count(gateway: Gateway) -> CountAnswer {
    match gateway.bond_count() {
        Ok(count) => CountAnswer { refusal: 0, count },
        Err(refusal) => CountAnswer { refusal: refusal.into(), count: 0 },
    }
}

pub fn bond_bitmap(gateway: Gateway) -> BitmapAnswer {
    match gateway.bond_bitmap() {
        Ok(bitmap) => BitmapAnswer { refusal: 0, bitmap },
        Err(refusal) => BitmapAnswer { refusal: refusal.into(), bitmap: [0; 32] },
    }
}

pub fn send(mut gateway: Gateway, frame: &[u8], hops: u8, response_hops: u8, delay: u16, time: u64) -> GatewayAnswer {
    let refusal = refusal_of(gateway.send(frame, Route { hops, response_hops, delay }, time));
    GatewayAnswer { refusal, gateway }
}

pub fn release(mut gateway: Gateway, time: u64, out: &mut [u8]) -> ReleaseAnswer {
    let buffer = out.as_ptr();
    let result = gateway.release(time, out);
    let mut answer = ReleaseAnswer::zeros(gateway);
    match result {
        Ok(None) => {}
        Ok(Some(released)) => {
            answer.released = true;
            answer.length = written(Ok(released.confirmation), buffer).length;
            answer.frame_length = released.frame.len();
            answer.frame[..released.frame.len()].copy_from_slice(&released.frame);
        }
        Err(refusal) => answer.refusal = refusal.into(),
    }
    answer
}
