//! Random nodes, boards and frames: mostly valid, often at a limit, and
//! occasionally with each kind of fault.
use super::code::CodeType;
use super::reference::{self, EEPROM_SIZE, EXTERNAL_SIZE, NODE_SET};
use crate::board::{code_check_pdata, frame_of, selective_pdata, set_checksum, with_address, Board, Lengths};
use crate::buffers::GUARD;
use crate::records::lamp;
use crate::rng::{edge, Rng};
use crate::sides::Side;
use grelfint::raw::{Node, NodeSet, Settings};

/// How much longer than the memory a slice passed for it may be.
pub const EXCESS: usize = 64;
/// The longest response buffer passed to a call.
const RESPONSE: usize = 300;

/// A board of random bytes, with guard bytes after each buffer.
pub fn board(g: &mut Rng, side: Side, node: Node) -> Board {
    let mut eeprom = vec![0; EEPROM_SIZE + EXCESS + GUARD];
    let mut external = vec![0; EXTERNAL_SIZE + EXCESS + GUARD];
    let mut response = vec![0; RESPONSE + GUARD];
    g.fill(&mut eeprom);
    if g.chance(3, 4) {
        g.fill(&mut external);
    } else {
        external.fill(g.pick(&[0x00, 0xFF, 0xFE]));
    }
    g.fill(&mut response);
    Board { side, node, eeprom, external, response }
}

pub fn settings(g: &mut Rng) -> Settings {
    Settings {
        address: if g.chance(1, 8) { g.pick(&[1u16, 239]) } else { g.within(1, 239) as u16 },
        hwpid: if g.chance(1, 8) { g.pick(&[0u16, 0xFFFF, 0x00FF]) } else { g.word() },
        dpa_value: g.byte(),
        lamp_count: if g.chance(1, 4) { g.pick(&[1u8, 3, 9, 32]) } else { g.within(1, 32) as u8 },
        step: g.pick(&reference::STEPS),
    }
}

pub fn node(g: &mut Rng) -> Node {
    let settings = settings(g);
    let mut node = reference::start(settings).node;
    if g.chance(1, 4) {
        return node;
    }
    for i in 0..settings.lamp_count as usize {
        let level = if g.chance(1, 2) { g.pick(&[0u8, 0, 1, 99, 100]) } else { g.within(0, 100) as u8 };
        let seconds = match g.below(5) {
            0..=1 => 0,
            2 => g.within(1, 3),
            3 => g.within(0, 7620),
            _ => g.pick(&[1, 2, 60, 7619, 7620]),
        } as u16;
        node.lamps[i] = lamp(level, if level == 0 { 0 } else { seconds });
    }
    g.fill(&mut node.ram);
    node
}

/// Two to six nodes with different addresses; several have the profile of the first.
pub fn network(g: &mut Rng) -> Vec<Node> {
    let mut nodes = vec![node(g)];
    for _ in 0..g.within(1, 5) {
        let mut next = node(g);
        while nodes.iter().any(|n| n.settings.address == next.settings.address) {
            next.settings.address = g.within(1, 239) as u16;
        }
        if g.chance(1, 2) {
            next.settings.hwpid = nodes[0].settings.hwpid;
        }
        nodes.push(next);
    }
    nodes
}

/// A sound node with one or two fields changed, usually to an invalid value; the
/// changes include the nearest valid values, so the node may stay sound.
pub fn broken(g: &mut Rng, mut node: Node) -> Node {
    for _ in 0..g.within(1, 2) {
        let any = g.below(32);
        let above = node.settings.lamp_count as usize;
        match g.below(9) {
            0 => node.settings.address = g.pick(&[0u16, 240, 255, 256, 257, 0xFFFF, 1, 239]),
            1 => node.settings.lamp_count = g.pick(&[0u8, 33, 255, 32, 1]),
            2 => node.settings.step = g.byte(),
            3 => node.settings.step = g.pick(&[0u8, 3, 101, 200, 255]),
            4 => node.lamps[any].level = g.pick(&[100u8, 101, 127, 255]),
            5 => node.lamps[any].seconds = g.pick(&[7620u16, 7621, 0xFFFF, 0x8000]),
            6 => node.lamps[any] = lamp(0, g.within(1, 7620) as u16),
            7 if above < 32 => node.lamps[g.within(above, 31)].level = g.within(1, 100) as u8,
            8 if above < 32 => node.lamps[g.within(above, 31)] = lamp(0, 1),
            _ => node.lamps[31].seconds = g.word(),
        }
    }
    node
}

// ---- requests ----
fn time_byte(g: &mut Rng) -> u8 {
    if g.chance(1, 60) {
        return g.pick(&[0x00, 0x80]);
    }
    let low = if g.chance(1, 3) { g.pick(&[1, 2, 127]) } else { g.within(1, 127) } as u8;
    low | if g.chance(1, 2) { 0x80 } else { 0 }
}

/// The low seven bits of a power byte: many keep the level, a few are invalid.
fn power(g: &mut Rng) -> u8 {
    let power = match g.below(120) {
        0 => g.within(101, 126),
        1..=36 => reference::KEEP as usize,
        37..=49 => 0,
        50..=59 => 100,
        _ => g.within(0, 100),
    };
    power as u8
}

fn lamp_pdata(g: &mut Rng, count: u8, limit: usize) -> Vec<u8> {
    if limit < 4 {
        return vec![0; limit];
    }
    let inside = if count >= 32 { u32::MAX } else { (1u32 << count) - 1 };
    let mut mask = match g.below(8) {
        0 => u32::MAX,
        1 => g.long(),
        2 => g.long() & g.long(),
        3 => inside,
        4 => 0,
        5 => 1 << g.below(32),
        _ => g.long() & inside,
    };
    // half of the requests leave room for time bytes
    let most = if g.chance(1, 2) { limit - 4 } else { (limit - 4).div_ceil(2) };
    while mask.count_ones() as usize > most {
        mask &= if g.chance(1, 2) { mask - 1 } else { !(1 << mask.ilog2()) };
    }
    let mut room = limit - 4 - mask.count_ones() as usize;
    let mut pdata = mask.to_le_bytes().to_vec();
    for _ in 0..mask.count_ones() {
        let power = power(g);
        if room > 0 && g.chance(1, 2) {
            room -= 1;
            pdata.push(power | 0x80);
            pdata.push(time_byte(g));
        } else {
            pdata.push(power);
        }
    }
    pdata
}

fn memory_pdata(g: &mut Rng, pnum: u8, reading: bool, limit: usize) -> Vec<u8> {
    let (width, size, longest) = match pnum {
        3 => (1, EEPROM_SIZE, 55),
        4 => (2, EXTERNAL_SIZE, 54),
        _ => (1, 48, 48),
    };
    if limit <= width {
        return vec![0; limit];
    }
    let most = if reading { longest } else { longest.min(limit - width) };
    let mut length = g.within(if reading { 0 } else { 1 }, most);
    if g.chance(1, 4) {
        length = most;
    }
    let mut start = if g.chance(1, 4) { size - length } else { g.within(0, size - length) };
    if g.chance(1, 12) {
        start = g.within(size - length, size + 2);
    }
    if g.chance(1, 40) {
        start = g.word() as usize;
    }
    if reading && g.chance(1, 16) {
        length = g.pick(&[longest, longest + 1, 255, 56]);
    }
    let mut pdata = vec![start as u8];
    if width == 2 {
        pdata.push((start >> 8) as u8);
    }
    if reading {
        pdata.push(length as u8);
    } else {
        let mut data = vec![0; length];
        g.fill(&mut data);
        pdata.extend_from_slice(&data);
    }
    pdata
}

/// Makes a small change somewhere in the bytes.
fn change(g: &mut Rng, bytes: &mut Vec<u8>) {
    match g.below(6) {
        0 => {
            bytes.pop();
        }
        1 => bytes.push(g.byte()),
        2 if !bytes.is_empty() => {
            let i = g.below(bytes.len());
            bytes[i] = g.byte();
        }
        3 if !bytes.is_empty() => {
            let i = g.below(bytes.len());
            bytes[i] ^= 1 << g.below(8);
        }
        4 => bytes.truncate(g.within(0, bytes.len())),
        _ => bytes.push(0),
    }
}

/// PNUM, PCMD and PData of a request that is also allowed inside a list.
fn plain_request(g: &mut Rng, node: &Node, limit: usize) -> (u8, u8, Vec<u8>) {
    let (pnum, pcmd, mut pdata) = match g.below(100) {
        0..=49 => (0x71, g.below(3) as u8, lamp_pdata(g, node.settings.lamp_count, limit)),
        50..=53 => (0x71, 0x3E, Vec::new()),
        54..=62 => (3, 0, memory_pdata(g, 3, true, limit)),
        63..=71 => (3, 1, memory_pdata(g, 3, false, limit)),
        72..=76 => (4, 2, memory_pdata(g, 4, true, limit)),
        77..=82 => (4, 3, memory_pdata(g, 4, false, limit)),
        83..=87 => (5, 0, memory_pdata(g, 5, true, limit)),
        88..=93 => (5, 1, memory_pdata(g, 5, false, limit)),
        _ => {
            let pnum = if g.chance(2, 3) { g.pick(&[2, 3, 4, 5, 0x71]) } else { g.byte() };
            let pcmd = if g.chance(1, 2) { g.pick(&[0, 1, 2, 3, 5, 0x0A, 0x0B, 0x3E, 0x80, 0x81]) } else { g.byte() };
            let mut data = vec![0; g.within(0, limit.min(12))];
            g.fill(&mut data);
            (pnum, pcmd, data)
        }
    };
    if g.chance(1, 14) {
        change(g, &mut pdata);
    }
    pdata.truncate(limit);
    (pnum, pcmd, pdata)
}

pub fn hwpid(g: &mut Rng, node: &Node) -> u16 {
    match g.below(24) {
        0 => g.word(),
        1 => node.settings.hwpid ^ (1 << g.below(16)),
        2..=12 => node.settings.hwpid,
        _ => 0xFFFF,
    }
}

/// A HWPID that this node does not accept.
pub fn wrong_hwpid(g: &mut Rng, node: &Node) -> u16 {
    loop {
        let hwpid = g.word();
        if hwpid != node.settings.hwpid && hwpid != 0xFFFF {
            return hwpid;
        }
    }
}

/// An entry of at most `room` bytes, which are at least five.
fn entry(g: &mut Rng, node: &Node, room: usize) -> Vec<u8> {
    let limit = if g.chance(1, 4) { room - 5 } else { (room - 5).min(g.within(0, 20)) };
    let (pnum, pcmd, pdata) =
        if g.chance(1, 20) { forbidden_request(g, node, limit) } else { plain_request(g, node, limit) };
    let mut entry = vec![5 + pdata.len() as u8, pnum, pcmd];
    entry.extend_from_slice(&hwpid(g, node).to_le_bytes());
    entry.extend_from_slice(&pdata);
    entry
}

/// A request that is not allowed inside a list. If the room allows, it would be right by itself, and the lists would set
/// lamp 0.
fn forbidden_request(g: &mut Rng, node: &Node, limit: usize) -> (u8, u8, Vec<u8>) {
    let list = [10, 0x71, 0, 0xFF, 0xFF, 1, 0, 0, 0, g.within(0, 100) as u8, 0];
    let (pcmd, mut pdata) = match g.below(3) {
        0 => (5, list.to_vec()),
        1 => (0x0A, code_check_pdata(0, 0, 64, g.word())),
        _ => (0x0B, selective_pdata(node_set(g, node.settings.address), &list)),
    };
    pdata.truncate(limit);
    (2, pcmd, pdata)
}

/// The most bytes of a batch's list.
pub const BATCH_LIST: usize = 56;
/// The most bytes of a selective batch's list.
pub const SELECTIVE_LIST: usize = BATCH_LIST - NODE_SET;

/// A list of at most `most` bytes; some are broken.
pub fn any_list(g: &mut Rng, node: &Node, most: usize) -> Vec<u8> {
    if g.chance(1, 8) {
        let (reason, whole) = (g.within(1, 4) as u8, g.within(0, 8));
        return broken_list(g, node, reason, whole, most).0;
    }
    let mut list = sound_list(g, node, most);
    if g.chance(1, 16) {
        spoil_list(g, &mut list);
    }
    list.truncate(most);
    list
}

/// A list of at most `most` bytes that can be read.
fn sound_list(g: &mut Rng, node: &Node, most: usize) -> Vec<u8> {
    let mut list = Vec::new();
    let wanted = g.within(0, 8);
    for _ in 0..wanted {
        let room = most - 1 - list.len();
        if room < 5 {
            break;
        }
        list.extend_from_slice(&entry(g, node, room));
    }
    list.push(0);
    list
}

/// A list of at most `most` bytes that breaks for this reason after `whole` whole entries, or as many as it can hold, and
/// the place of the fault in the list. Without its closing zero a list has at least one entry.
pub fn broken_list(g: &mut Rng, node: &Node, reason: u8, whole: usize, most: usize) -> (Vec<u8>, u8) {
    let (whole, fewest) = match reason {
        3 => (whole.max(1), 0),
        4 => (whole, 2),
        _ => (whole, 1),
    };
    let mut list = Vec::new();
    for left in (0..whole.min((most - fewest) / 5)).rev() {
        let room = most - list.len() - 5 * left - fewest;
        list.extend_from_slice(&entry(g, node, room));
    }
    let end = list.len();
    let room = most - end;
    let place = match reason {
        1 => {
            list.push(g.within(1, 4) as u8);
            list.extend_from_slice(&any_bytes(g, 0, room - 1));
            end
        }
        2 => {
            let rest = any_bytes(g, 0, room - 1);
            let there = 1 + rest.len();
            list.push(edge(g, 5.max(there + 1), 255) as u8);
            list.extend_from_slice(&rest);
            end
        }
        3 => end,
        _ => {
            list.push(0);
            list.extend_from_slice(&any_bytes(g, 1, room - 1));
            end + 1
        }
    };
    (list, place as u8)
}

/// Random bytes, many of them 0.
fn any_bytes(g: &mut Rng, least: usize, most: usize) -> Vec<u8> {
    let length = edge(g, least, most);
    (0..length).map(|_| if g.chance(1, 3) { 0 } else { g.byte() }).collect()
}

fn spoil_list(g: &mut Rng, list: &mut Vec<u8>) {
    match g.below(6) {
        0 => {
            list.pop(); // the closing zero is missing
        }
        1 => list.push(0),
        2 => list.push(g.byte()),
        3 => {
            let last = list.len() - 1;
            list[last] = g.within(1, 60) as u8; // an entry that cannot be read
        }
        4 => list[0] = g.within(0, 60) as u8,
        _ => change(g, list),
    }
}

/// No, one, several or all nodes, `own` in most of the sets; in some sets address 0, which is no node's.
pub fn node_set(g: &mut Rng, own: u16) -> NodeSet {
    let named = g.chance(3, 5);
    let zero = g.chance(1, 6);
    with_address(with_address(any_nodes(g), own, named), 0, zero)
}

/// A set that the compiler accepts, of one, several or all nodes; each of these nodes is in most of the sets.
pub fn good_node_set(g: &mut Rng, nodes: &[Node]) -> NodeSet {
    let mut set = any_nodes(g);
    for node in nodes {
        let named = g.chance(2, 3);
        set = with_address(set, node.settings.address, named);
    }
    if set == NodeSet::new() {
        set = NodeSet::from_iter([g.within(1, 239) as u16]);
    }
    set
}

/// A set that the compiler refuses: address 0, alone or with others, or nothing.
pub fn bad_node_set(g: &mut Rng) -> NodeSet {
    match g.below(4) {
        0 => NodeSet::new(),
        1 => NodeSet::from_iter([0]),
        _ => with_address(any_nodes(g), 0, true),
    }
}

/// No, one, several or all of the addresses 1 to 239.
fn any_nodes(g: &mut Rng) -> NodeSet {
    let count = match g.below(6) {
        0 => 0,
        1 => 1,
        2 => g.within(2, 10),
        3 => return NodeSet::from_iter(1..=239),
        _ => g.within(2, 200),
    };
    NodeSet::from_iter((0..count).map(|_| g.within(1, 239) as u16))
}

/// PData of a selective batch; some are too short to have a list.
fn any_selective_pdata(g: &mut Rng, node: &Node) -> Vec<u8> {
    let nodes = node_set(g, node.settings.address);
    match g.below(14) {
        0 => nodes.bits[..edge(g, 0, NODE_SET)].to_vec(),
        1 => selective_pdata(nodes, &[if g.chance(1, 2) { 0 } else { g.byte() }]),
        _ => selective_pdata(nodes, &any_list(g, node, SELECTIVE_LIST)),
    }
}

/// Where an image of a random length is in external memory: address and length.
pub fn image_place(g: &mut Rng, code: CodeType) -> (usize, usize) {
    let most = EXTERNAL_SIZE / code.unit();
    let units = match g.below(40) {
        0 => most,
        1..=2 => g.within(1, most),
        3..=15 => 1,
        _ => g.within(1, 10),
    };
    let length = units * code.unit();
    (edge(g, 0, EXTERNAL_SIZE - length), length)
}

/// Often changes an image: to bytes that are all extreme, and so that sums are 255 at its end and where its first unit
/// ends, after which the sums may be reduced.
pub fn prepare_image(g: &mut Rng, code: CodeType, image: &mut [u8]) {
    if g.chance(1, 6) {
        let pair = g.pick(&[[0, 0], [0xFF, 0xFF], [0, 0xFF], [0xFF, 0], [0xFE, 0xFE], [1, 1]]);
        for (i, byte) in image.iter_mut().enumerate() {
            *byte = pair[i % 2];
        }
    }
    if image.len() > code.unit() && g.chance(1, 2) {
        set_checksum(code, &mut image[..code.unit()], sums_of_255(g));
    }
    if g.chance(1, 2) {
        set_checksum(code, image, sums_of_255(g));
    }
}

/// A checksum in which the low sum, the high sum or both are 255.
fn sums_of_255(g: &mut Rng) -> u16 {
    let other = g.within(1, 255) as u8;
    u16::from_le_bytes(g.pick(&[[255, other], [other, 255], [255, 255]]))
}

/// The checksum with one 255 in it or both as 0, which a remainder modulo 255 would give.
fn with_0_for_255(g: &mut Rng, sum: u16) -> u16 {
    let [low, high] = sum.to_le_bytes();
    u16::from_le_bytes(g.pick(&[[low % 255, high], [low, high % 255], [low % 255, high % 255]]))
}

/// PData of a code check, whose image is prepared in external memory.
fn any_code_check_pdata(g: &mut Rng, external: &mut [u8]) -> Vec<u8> {
    let code = g.pick(&CodeType::EVERY);
    let mut flags = code.flag() | g.below(2) as u8;
    let (mut address, mut length) = image_place(g, code);
    let image = &mut external[address..address + length];
    prepare_image(g, code, image);
    let mut sum = code.checksum(image);
    match g.below(24) {
        0 => flags |= 1 << g.within(2, 7),
        1 => length = g.pick(&[0, 1, 63, 65, 20, 64, 320, 0xFFFF, 0xFFC0]),
        2 => address = g.pick(&[0, EXTERNAL_SIZE - length + 1, 0xFFFF, 0x8000, EXTERNAL_SIZE]),
        3..=6 => sum ^= 1 << g.below(16),
        7 => sum = g.word(),
        8..=14 => sum = with_0_for_255(g, sum),
        _ => {}
    }
    let mut pdata = code_check_pdata(flags, address, length, sum);
    if g.chance(1, 16) {
        change(g, &mut pdata);
    }
    pdata
}

/// A frame; the image of a code check is prepared in external memory.
pub fn frame(g: &mut Rng, node: &Node, external: &mut [u8]) -> Vec<u8> {
    let own = node.settings.address;
    let nadr = match g.below(40) {
        0 => own | 0x0100,
        1 => own.swap_bytes(),
        2 => g.pick(&[0u16, 0xFF00, 0x01FF, 0xFFFF, 240, 0x00FC]),
        3 => g.word(),
        4..=10 => 0x00FF,
        _ => own,
    };
    let (pnum, pcmd, mut pdata) = match g.below(16) {
        0..=2 => (2, 5, any_list(g, node, BATCH_LIST)),
        3..=7 => (2, 0x0B, any_selective_pdata(g, node)),
        8..=9 => (2, 0x0A, any_code_check_pdata(g, external)),
        _ => plain_request(g, node, 56),
    };
    pdata.truncate(56);
    frame_of(nadr, pnum, pcmd, hwpid(g, node), &pdata)
}

/// Buffer lengths for a call; occasionally, or `often`, lengths that it refuses.
pub fn lengths(g: &mut Rng, often: bool) -> Lengths {
    let odd = |g: &mut Rng| if often { g.chance(1, 3) } else { g.chance(1, 60) };
    let eeprom = if odd(g) { g.pick(&[0, 1, 191, 193, 256, 48]) } else { EEPROM_SIZE };
    let external = if odd(g) { g.pick(&[0, 1, 16_383, 16_385, 192, 8192]) } else { EXTERNAL_SIZE };
    let response = if odd(g) {
        g.within(0, 64)
    } else if g.chance(1, 5) {
        g.within(64, RESPONSE)
    } else {
        64
    };
    Lengths { eeprom, external, response }
}
