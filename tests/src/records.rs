//! The records that tests start from. A test names only the fields that matter
//! to it, so that a new field is an edit of this file.
use grelfint::raw::{Gateway, Lamp, Node, SendQueue, Settings, Waiting};
use std::array::from_fn;

/// Those of document 01's examples: node 1, three lamps, dimming step 1.
pub const SETTINGS: Settings = Settings { address: 1, hwpid: 0x2471, dpa_value: 7, lamp_count: 3, step: 1 };

pub const fn lamp(level: u8, seconds: u16) -> Lamp {
    Lamp { level, seconds }
}

/// A sound node whose fields, lamps and bytes of RAM all differ, and are not 0: it shows if two of them are exchanged or
/// one is lost.
pub fn varied_node() -> Node {
    let settings = Settings { address: 0xC3, hwpid: 0x1234, dpa_value: 0x65, lamp_count: 32, step: 5 };
    let lamps = from_fn(|i| lamp(100 - 2 * i as u8, 300 + 217 * i as u16));
    let ram = from_fn(|i| 0x81 + i as u8);
    Node { settings, lamps, ram }
}

/// A sound gateway, with seven requests, in an STD+LP network, whose fields, places and bytes of bonds all differ, and are
/// not 0 where they need not be. Node 1 is bonded, and node 2 is not.
pub fn varied_gateway() -> Gateway {
    let bonds = from_fn(|i| if i < 30 { 2 + 2 * i as u8 } else { 0 });
    let place = |i: u8| {
        let length = 20 + i;
        let frame = from_fn(|k| match k {
            0 => 0x51 + i,
            1 => 0,
            _ if k < length as usize => 0x80 + i + 3 * k as u8,
            _ => 0,
        });
        Waiting { delay: 0x1100 + i as u16, length, hops: 0x31 + i, response_hops: 0x41 + i, frame }
    };
    let places = from_fn(|i| if i < 7 { place(i as u8) } else { Waiting::ZERO });
    let last = 0x01_0203_0405;
    Gateway { bonds, queue: SendQueue { last, next: last + 1000, network: 1, dpa_value: 0x65, count: 7, places } }
}
