//! A node with its memories and response buffer, run on one of the sides; frames
//! built from their fields; code images built for their checksum; books built
//! from steps.
use crate::node::code::CodeType;
use crate::node::reference::{Parts, EEPROM_SIZE, EXTERNAL_SIZE};
use crate::records::SETTINGS;
use crate::sides::Side;
use grelfint::raw::{Node, NodeSet, RequestAnswer, Settings};

#[derive(Clone)]
pub struct Board {
    pub side: Side,
    pub node: Node,
    pub eeprom: Vec<u8>,
    pub external: Vec<u8>,
    pub response: Vec<u8>,
}

/// How many bytes of each buffer are passed to a call.
#[derive(Clone, Copy, Debug)]
pub struct Lengths {
    pub eeprom: usize,
    pub external: usize,
    pub response: usize,
}

impl Lengths {
    pub const USUAL: Lengths = Lengths { eeprom: EEPROM_SIZE, external: EXTERNAL_SIZE, response: 64 };
}

impl Board {
    /// A fresh node with these settings and those of `SETTINGS`, and memories of zeros.
    pub fn started(side: Side, lamp_count: u8, step: u8) -> Board {
        let settings = Settings { lamp_count, step, ..SETTINGS };
        let a = (side.start)(settings);
        assert_eq!(a.refusal, 0);
        assert_eq!(a.node, Node { settings, ..Node::ZERO });
        let (eeprom, external) = (vec![0; EEPROM_SIZE], vec![0; EXTERNAL_SIZE]);
        Board { side, node: a.node, eeprom, external, response: vec![0xEE; 64] }
    }

    /// The call itself; the board's node is not updated.
    pub fn request(&mut self, node: Node, frame: &[u8], lent: Lengths) -> RequestAnswer {
        (self.side.handle_request)(
            node,
            frame,
            &mut self.eeprom[..lent.eeprom],
            &mut self.external[..lent.external],
            &mut self.response[..lent.response],
        )
    }

    /// The answer and the response bytes of a frame for this node or for all nodes.
    fn send(&mut self, frame: &[u8]) -> (RequestAnswer, Vec<u8>) {
        self.response.fill(0xEE);
        let a = self.request(self.node, frame, Lengths::USUAL);
        assert_eq!((a.refusal, a.addressed), (0, true));
        assert!(self.response[a.length..].iter().all(|&b| b == 0xEE), "a byte after the response changed");
        self.node = a.node;
        (a, self.response[..a.length].to_vec())
    }

    /// The response bytes and the load mark of a frame for this node or for all nodes.
    pub fn frame(&mut self, frame: &[u8]) -> (Vec<u8>, bool) {
        let (a, bytes) = self.send(frame);
        (bytes, a.load)
    }

    /// ErrN and data of a request to this node with HWPID 0xFFFF.
    pub fn take(&mut self, pnum: u8, pcmd: u8, pdata: &[u8]) -> (u8, Vec<u8>) {
        let (a, bytes) = self.send(&frame_of(1, pnum, pcmd, 0xFFFF, pdata));
        assert_eq!(bytes[..6], [1, 0, pnum, pcmd | 0x80, 0x71, 0x24]);
        assert_eq!(bytes[7], 7);
        if matches!((pnum, pcmd, bytes[6]), (2, 5 | 0x0B, 6)) {
            assert!((1..=4).contains(&a.reason), "a broken list with reason {}", a.reason);
        } else {
            assert_eq!((a.reason, a.place), (0, 0), "not a broken list");
        }
        (bytes[6], bytes[8..].to_vec())
    }

    /// The node, and the memories without guard bytes.
    pub fn parts(&mut self) -> Parts<'_> {
        Parts {
            node: self.node,
            eeprom: &mut self.eeprom[..EEPROM_SIZE],
            external: &mut self.external[..EXTERNAL_SIZE],
        }
    }

    pub fn lamps(&self, n: usize) -> Vec<(u8, u16)> {
        self.node.lamps[..n].iter().map(|l| (l.level, l.seconds)).collect()
    }
}

pub fn frame_of(nadr: u16, pnum: u8, pcmd: u8, hwpid: u16, pdata: &[u8]) -> Vec<u8> {
    let mut frame = nadr.to_le_bytes().to_vec();
    frame.extend_from_slice(&[pnum, pcmd]);
    frame.extend_from_slice(&hwpid.to_le_bytes());
    frame.extend_from_slice(pdata);
    frame
}

/// The same set, but with or without this address.
pub fn with_address(mut nodes: NodeSet, address: u16, named: bool) -> NodeSet {
    if named {
        nodes.insert(address);
    } else {
        nodes.remove(address);
    }
    nodes
}

/// PData of a selective batch.
pub fn selective_pdata(nodes: NodeSet, list: &[u8]) -> Vec<u8> {
    [&nodes.bits[..], list].concat()
}

/// PData of a code check.
pub fn code_check_pdata(flags: u8, address: usize, length: usize, sum: u16) -> Vec<u8> {
    let [address, length] = [address, length].map(|number| (number as u16).to_le_bytes());
    [&[flags], &address[..], &length, &sum.to_le_bytes()].concat()
}

/// Sets the last two bytes of an image so that it has this checksum, whose bytes are both 1 to 255.
pub fn set_checksum(code: CodeType, image: &mut [u8], sum: u16) {
    let end = image.len() - 2;
    let [low, high] = sum.to_le_bytes().map(i32::from);
    let [low_before, high_before] = code.checksum(&image[..end]).to_le_bytes().map(i32::from);
    // modulo 255, the last bytes a and b lead to low = low_before + a + b and
    // high = high_before + (low_before + a) + low
    let a = (high - low - high_before - low_before).rem_euclid(255);
    let b = (low - low_before - a).rem_euclid(255);
    image[end..].copy_from_slice(&[a as u8, b as u8]);
}

/// A well-formed book with these scenes.
pub fn book_of(scenes: &[Vec<[u8; 4]>]) -> Vec<u8> {
    let mut book = vec![scenes.len() as u8];
    let mut at = 1 + 3 * scenes.len();
    for s in scenes {
        book.extend_from_slice(&(at as u16).to_le_bytes());
        book.push(s.len() as u8);
        at += 4 * s.len();
    }
    for step in scenes.iter().flatten() {
        book.extend_from_slice(step);
    }
    book
}
