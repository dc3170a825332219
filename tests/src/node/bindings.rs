//! The calls of a node through the methods of the bindings, with the answers of
//! the C interface: what a method returns, and what it leaves of a node, is put
//! into the same records again.
use crate::bindings::refusal_of;
use grelfint::memory;
use grelfint::node::Response;
use grelfint::raw::{FrcAnswer, LevelsAnswer, Node, NodeAnswer, RequestAnswer, Settings};

pub fn start(settings: Settings) -> NodeAnswer {
    match Node::start(settings) {
        Ok(node) => NodeAnswer { refusal: 0, node },
        Err(refusal) => NodeAnswer { refusal: refusal.into(), node: Node::ZERO },
    }
}

pub fn tick(mut node: Node) -> NodeAnswer {
    let refusal = tick_in_place(&mut node);
    NodeAnswer { refusal, node }
}

pub fn tick_in_place(node: &mut Node) -> u8 {
    refusal_of(node.tick())
}

pub fn actual_levels(node: Node) -> LevelsAnswer {
    match node.actual_levels() {
        Ok(levels) => LevelsAnswer { refusal: 0, levels },
        Err(refusal) => LevelsAnswer { refusal: refusal.into(), levels: [0; 32] },
    }
}

pub fn handle_request(
    mut node: Node,
    frame: &[u8],
    eeprom: &mut [u8],
    external: &mut [u8],
    response: &mut [u8],
) -> RequestAnswer {
    let buffer = response.as_ptr();
    match node.handle_request(frame, eeprom, external, response) {
        Ok(handled) => RequestAnswer {
            refusal: 0,
            length: handled.response.map_or(0, |response| response_length(response, buffer)),
            load: handled.load,
            addressed: handled.addressed,
            reason: handled.fault.map_or(0, |fault| fault.reason.into()),
            place: handled.fault.map_or(0, |fault| fault.place),
            node,
        },
        Err(refusal) => RequestAnswer { refusal: refusal.into(), ..RequestAnswer::zeros(node) },
    }
}

/// Bytes of a response at the front of this buffer. Its data, or its error, is that of its bytes.
fn response_length(response: Response, buffer: *const u8) -> usize {
    let bytes = response.bytes();
    assert_eq!(bytes.as_ptr(), buffer, "not the front of the buffer");
    match response.data() {
        Ok(data) => assert_eq!((bytes[6], &bytes[8..]), (0, data)),
        Err(error) => assert_eq!((bytes[6], bytes.len()), (error.into(), 8)),
    }
    bytes.len()
}

/// The part of the memory that a view returns is the one that was asked for.
pub fn view_status(eeprom: &[u8], external: &[u8], pnum: u8, start: usize, count: usize) -> u8 {
    match memory::view(eeprom, external, pnum, start, count) {
        Ok(part) => {
            let memory = if pnum == 3 { eeprom } else { external };
            assert_eq!(part.as_ptr_range(), memory[start..start + count].as_ptr_range(), "another part");
            0
        }
        Err(refusal) => refusal.into(),
    }
}

pub fn frc(node: Node, command: u8, user_data: &[u8], stuck: u32, alarm: u32) -> FrcAnswer {
    match node.frc(command, user_data, stuck, alarm) {
        Ok(value) => FrcAnswer { refusal: 0, value: value.into() },
        Err(refusal) => FrcAnswer { refusal: refusal.into(), value: 0 },
    }
}
