//! What the benchmark times and `instructions` counts: a node, requests to it,
//! and a book.
use crate::board::{code_check_pdata, frame_of, Board};
use crate::node::code::CodeType;
use crate::node::reference::EXTERNAL_SIZE;
use crate::sides::Side;
use grelfint::raw::NodeSet;

/// Node 1 with 32 lit lamps and dimming step 10.
pub fn board(side: Side) -> Board {
    let mut b = Board::started(side, 32, 10);
    for (i, lamp) in b.node.lamps.iter_mut().enumerate() {
        lamp.level = 1 + 3 * i as u8;
        lamp.seconds = 1000;
    }
    for (i, byte) in b.external.iter_mut().enumerate() {
        *byte = ((i as u32).wrapping_mul(2_654_435_761) >> 24) as u8;
    }
    b
}

/// A request for the first lamps; the lower half of them gets a time.
pub fn lamp_frame(pcmd: u8, lamps: u32) -> Vec<u8> {
    let mask = if lamps == 32 { u32::MAX } else { (1 << lamps) - 1 };
    let mut frame = vec![1, 0, 0x71, pcmd, 0xFF, 0xFF];
    frame.extend_from_slice(&mask.to_le_bytes());
    for i in 0..lamps as usize {
        if i < lamps as usize / 2 {
            frame.extend_from_slice(&[0x80 | 40, 0x85]);
        } else {
            frame.push(30);
        }
    }
    assert!(frame.len() <= 62);
    frame
}

/// Lamp entries of eleven bytes and the closing zero; five of them are 56 bytes of PData.
pub fn batch(entries: u8) -> Vec<u8> {
    let mut frame = vec![1, 0, 2, 5, 0xFF, 0xFF];
    for i in 0..entries {
        frame.extend_from_slice(&[11, 0x71, i % 3, 0x71, 0x24, 1 << i, 0, 0, 0, 0x80 | 20, 0x8A]);
    }
    frame.push(0);
    frame
}

/// The thirty nodes for which a scene is compiled in the second mode; node 1 is one of them.
pub fn thirty_nodes() -> NodeSet {
    NodeSet::from_iter((1..240).step_by(8))
}

/// Two lamp entries of twelve and thirteen bytes and the closing zero after the nodes: 56 bytes of PData.
pub fn full_selective_batch() -> Vec<u8> {
    let mut frame = vec![1, 0, 2, 0x0B, 0xFF, 0xFF];
    frame.extend_from_slice(&thirty_nodes().bits);
    frame.extend_from_slice(&[12, 0x71, 0, 0x71, 0x24, 3, 0, 0, 0, 0x80 | 20, 0x8A, 30]);
    frame.extend_from_slice(&[13, 0x71, 1, 0x71, 0x24, 12, 0, 0, 0, 0x80 | 20, 0x8A, 0x80 | 30, 2]);
    frame.push(0);
    assert_eq!(frame.len(), 62);
    frame
}

pub fn scene_of_64() -> Vec<u8> {
    let mut book = vec![1, 4, 0, 64];
    for i in 0..64u8 {
        let step = match i / 16 {
            0 => [0, i % 32, 50, 0x85],
            1 => [1, i % 8, 5, 0],
            2 => [4, 100 + i, i, 0],
            _ => [3 * (i % 2), i % 32, 7, 0],
        };
        book.extend_from_slice(&step);
    }
    book
}

/// A code check of all external memory that matches.
pub fn code_check(external: &[u8]) -> Vec<u8> {
    let sum = CodeType::Handler.checksum(external);
    frame_of(1, 2, 0x0A, 0xFFFF, &code_check_pdata(CodeType::Handler.flag(), 0, EXTERNAL_SIZE, sum))
}
