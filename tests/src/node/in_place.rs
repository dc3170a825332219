//! c/in_place.c: requests that change the node through a pointer, with a safe
//! wrapper, and the same call with the node by value.
use grelfint::raw::{Node, RequestAnswer};

/// A `RequestAnswer` without the node.
#[repr(C)]
#[derive(Clone, Copy, Debug, PartialEq, Eq)]
pub struct Answer {
    pub refusal: u8,
    pub length: usize,
    pub load: bool,
    pub addressed: bool,
    pub reason: u8,
    pub place: u8,
}

extern "C" {
    fn in_place_request(
        node: *mut Node,
        frame: *const u8,
        frame_length: usize,
        eeprom: *mut u8,
        eeprom_length: usize,
        external: *mut u8,
        external_length: usize,
        response: *mut u8,
        response_length: usize,
    ) -> Answer;
}

#[inline(always)]
pub fn request(node: &mut Node, frame: &[u8], eeprom: &mut [u8], external: &mut [u8], response: &mut [u8]) -> Answer {
    // SAFETY: as for the functions in boundary.rs; the node is borrowed for the call
    unsafe {
        in_place_request(
            node,
            frame.as_ptr(),
            frame.len(),
            eeprom.as_mut_ptr(),
            eeprom.len(),
            external.as_mut_ptr(),
            external.len(),
            response.as_mut_ptr(),
            response.len(),
        )
    }
}

pub fn handle_request(
    mut node: Node,
    frame: &[u8],
    eeprom: &mut [u8],
    external: &mut [u8],
    response: &mut [u8],
) -> RequestAnswer {
    let Answer { refusal, length, load, addressed, reason, place } =
        request(&mut node, frame, eeprom, external, response);
    RequestAnswer { refusal, length, load, addressed, reason, place, node }
}
