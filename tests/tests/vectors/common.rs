//! What the examples share: nodes with some lamps lit, and comparisons of whole answers.
use grelfint::raw::{CompileAnswer, Node, RequestAnswer};
use grelfint_tests::board::{book_of, frame_of, Board, Lengths};
use grelfint_tests::records::lamp;
use grelfint_tests::sides::Side;

pub const ROOM: usize = 4096;

/// What a request answers and leaves.
#[derive(Clone, Copy)]
pub struct Outcome<'a> {
    pub errn: u8,
    pub data: &'a [u8],
    pub reason: u8,
    pub place: u8,
    pub node: Node,
}

impl Outcome<'_> {
    /// Success without data.
    pub fn success(node: Node) -> Outcome<'static> {
        Outcome { errn: 0, data: &[], reason: 0, place: 0, node }
    }
}

/// Sends a frame that writes no memory, and compares the whole answer and all buffers. The length is that of the response.
pub fn assert_answered(board: &Board, frame: &[u8], response: &[u8], want: RequestAnswer) {
    let (mut b, mut end) = (board.clone(), board.clone());
    let a = b.request(b.node, frame, Lengths::USUAL);
    assert_eq!(a, RequestAnswer { length: response.len(), ..want }, "{frame:02X?}");
    end.response[..response.len()].copy_from_slice(response);
    assert_eq!(b.response, end.response, "{frame:02X?}");
    assert!(b.eeprom == end.eeprom && b.external == end.external, "a memory changed");
}

/// Sends a request that writes no memory, at the node's own address and at broadcast.
pub fn assert_outcome(board: &Board, [pnum, pcmd]: [u8; 2], hwpid: u16, pdata: &[u8], want: Outcome) {
    let Outcome { errn, data, reason, place, node } = want;
    let own = node.settings.address;
    let response = [&[own as u8, 0, pnum, pcmd | 0x80, 0x71, 0x24, errn, 7], data].concat();
    let want = RequestAnswer { addressed: true, reason, place, ..RequestAnswer::zeros(node) };
    for (nadr, sent) in [(own, &response[..]), (0x00FF, &[])] {
        assert_answered(board, &frame_of(nadr, pnum, pcmd, hwpid, pdata), sent, want);
    }
}

/// Sends a started node a request that changes nothing and whose answer has no data.
pub fn assert_answer(side: Side, command: [u8; 2], hwpid: u16, pdata: &[u8], errn: u8, (reason, place): (u8, u8)) {
    let b = Board::started(side, 3, 1);
    assert_outcome(&b, command, hwpid, pdata, Outcome { errn, reason, place, ..Outcome::success(b.node) });
}

/// Any error, or 0 for success, without a reason.
pub fn assert_no_reason(side: Side, command: [u8; 2], hwpid: u16, pdata: &[u8], errn: u8) {
    assert_answer(side, command, hwpid, pdata, errn, (0, 0));
}

/// The output for these lists, each in a request that starts with `front`.
pub fn output_of(front: &[u8], lists: &[Vec<u8>]) -> Vec<u8> {
    let mut output = vec![lists.len() as u8];
    output.extend(lists.iter().map(|list| (front.len() + list.len()) as u8));
    for list in lists {
        output.extend([front, list].concat());
    }
    output
}

/// Compiles these steps for node 1, and compares the whole answer and buffer: a request for each list.
pub fn assert_lists(side: Side, steps: &[[u8; 4]], lists: &[Vec<u8>]) {
    let want = output_of(&[1, 0, 2, 5, 0xFF, 0xFF], lists);
    let mut out = vec![0xEE; 4096];
    let a = (side.compile_default)(&book_of(&[steps.to_vec()]), 0, 1, &mut out);
    assert_eq!(a, CompileAnswer { refusal: 0, step: 0, length: want.len() }, "{steps:02X?}");
    assert_eq!(out[..want.len()], want);
    assert!(out[want.len()..].iter().all(|&b| b == 0xEE));
}

pub type LevelAndSeconds = (u8, u16);

/// A started node but for these lamps, which are all that it has.
pub fn board_with(side: Side, step: u8, lamps: &[LevelAndSeconds]) -> Board {
    let mut b = Board::started(side, lamps.len() as u8, step);
    for (place, &(level, seconds)) in b.node.lamps.iter_mut().zip(lamps) {
        *place = lamp(level, seconds);
    }
    b
}
