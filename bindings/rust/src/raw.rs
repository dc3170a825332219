//! The C interface as it is: the records and functions of `include/grelfint.h`,
//! and for each function `grelfint_NAME` a safe `NAME` that takes a slice for a
//! pointer and a length. The header says what a call answers, when it refuses and
//! what it writes. `refusal` in an answer is 0, or the number of the refusal.
//!
//! All unsafe code of the crate is in this module.
use crate::{BONDS, FRAME, LAMPS, NODE_SET, QUEUE, RAM, UART_FRAME};

// ---- the node ----
/// What a node is started with.
#[repr(C)]
#[derive(Clone, Copy, Debug, PartialEq, Eq)]
pub struct Settings {
    /// 1 to 239.
    pub address: u16,
    /// The hardware profile.
    pub hwpid: u16,
    /// For the responses.
    pub dpa_value: u8,
    /// 1 to 32.
    pub lamp_count: u8,
    /// The dimming step, one of [`DIMMING_STEPS`](crate::DIMMING_STEPS).
    pub step: u8,
}

/// A lamp.
#[repr(C)]
#[derive(Clone, Copy, Debug, PartialEq, Eq)]
pub struct Lamp {
    /// The requested level, 0 to 100.
    pub level: u8,
    /// Seconds left, 0 for no timer.
    pub seconds: u16,
}

/// A lamp node without its memories, from [`Node::start`]. A caller stores it
/// between calls. It is sound if its settings are in range, no level is over 100,
/// no timer is over 7,620 seconds or runs at level 0, and all lamps from the lamp
/// count on are zero; every call refuses a node that is not.
#[repr(C)]
#[derive(Clone, Copy, Debug, PartialEq, Eq)]
pub struct Node {
    /// As it was started.
    pub settings: Settings,
    /// Only the first `settings.lamp_count` are there.
    pub lamps: [Lamp; LAMPS],
    /// Its RAM.
    pub ram: [u8; RAM],
}

impl Node {
    /// What a refused `start` returns. It is not sound.
    pub const ZERO: Node = Node {
        settings: Settings { address: 0, hwpid: 0, dpa_value: 0, lamp_count: 0, step: 0 },
        lamps: [Lamp { level: 0, seconds: 0 }; LAMPS],
        ram: [0; RAM],
    };
}

/// Of `start` and `tick`.
#[repr(C)]
#[must_use = "the answer holds the node afterwards"]
#[derive(Clone, Copy, Debug, PartialEq, Eq)]
pub struct NodeAnswer {
    /// 0, or the refusal.
    pub refusal: u8,
    /// Afterwards.
    pub node: Node,
}

/// Of `actual_levels`.
#[repr(C)]
#[must_use = "the answer holds the levels"]
#[derive(Clone, Copy, Debug, PartialEq, Eq)]
pub struct LevelsAnswer {
    /// 0, or the refusal.
    pub refusal: u8,
    /// 0 from the lamp count on.
    pub levels: [u8; LAMPS],
}

/// Of `handle_request`.
#[repr(C)]
#[must_use = "the answer holds the node afterwards"]
#[derive(Clone, Copy, Debug, PartialEq, Eq)]
pub struct RequestAnswer {
    /// 0, or the refusal.
    pub refusal: u8,
    /// Bytes of the response; 0 if there is none to send.
    pub length: usize,
    /// A code check matched and asked to load the code.
    pub load: bool,
    /// Not refused, and NADR is this node's address or the broadcast address. The
    /// request may still have an error, or be a selective batch that does not name
    /// this node.
    pub addressed: bool,
    /// Why the list of a batch cannot be read, or 0.
    pub reason: u8,
    /// The offset of that fault in PData.
    pub place: u8,
    /// Afterwards.
    pub node: Node,
}

impl RequestAnswer {
    /// Every number 0, every flag false.
    pub fn zeros(node: Node) -> RequestAnswer {
        RequestAnswer { refusal: 0, length: 0, load: false, addressed: false, reason: 0, place: 0, node }
    }
}

/// Of `frc`.
#[repr(C)]
#[must_use = "the answer holds the value"]
#[derive(Clone, Copy, Debug, PartialEq, Eq)]
pub struct FrcAnswer {
    /// 0, or the refusal.
    pub refusal: u8,
    /// 1 not implemented, 2 no, 3 yes.
    pub value: u8,
}

// ---- timing, and lengths of what was written ----
/// Of `confirm` and `uart_frame`.
#[repr(C)]
#[must_use = "the answer says whether the buffer was written"]
#[derive(Clone, Copy, Debug, PartialEq, Eq)]
pub struct LengthAnswer {
    /// 0, or the refusal.
    pub refusal: u8,
    /// Bytes that were written.
    pub length: usize,
}

/// Of `timeslot`.
#[repr(C)]
#[must_use = "the answer holds the timeslot"]
#[derive(Clone, Copy, Debug, PartialEq, Eq)]
pub struct SlotAnswer {
    /// 0, or the refusal.
    pub refusal: u8,
    /// In units of [`SLOT_MS`](crate::SLOT_MS).
    pub slot: u8,
}

/// Of `earliest_send`.
#[repr(C)]
#[must_use = "the answer holds the wait"]
#[derive(Clone, Copy, Debug, PartialEq, Eq)]
pub struct SendAnswer {
    /// 0, or the refusal.
    pub refusal: u8,
    /// From the confirmation to the earliest next send.
    pub milliseconds: u32,
}

// ---- scenes ----
/// A set of nodes: bit `a % 8` of byte `a / 8` is set if it names address `a`.
#[repr(C)]
#[derive(Clone, Copy, Debug, PartialEq, Eq, Default)]
pub struct NodeSet {
    /// A bit for each address, 0 to 239.
    pub bits: [u8; NODE_SET],
}

/// Of the calls that compile a scene.
#[repr(C)]
#[must_use = "the answer says whether the buffer was written"]
#[derive(Clone, Copy, Debug, PartialEq, Eq)]
pub struct CompileAnswer {
    /// 0, or the refusal.
    pub refusal: u8,
    /// The first bad step, with refusals 81 to 84.
    pub step: u8,
    /// Bytes of the output.
    pub length: usize,
}

// ---- serial line ----
/// A receiver on the serial line, from [`Receiver::at_gateway`] or
/// [`Receiver::at_node`]. A caller stores it between calls and need not look
/// inside.
#[repr(C)]
#[derive(Clone, Copy, Debug, PartialEq, Eq)]
pub struct Receiver {
    /// The longest message: 64 at a gateway, 62 at a node.
    pub limit: u8,
    /// 0 before the first flag, 1 in a frame, 2 after an escape.
    pub phase: u8,
    /// Bytes of this frame so far, with its check byte; it stops at limit + 2.
    pub count: u8,
    /// Byte k of the frame is `bytes[k]`, for k up to the limit.
    pub bytes: [u8; UART_FRAME + 1],
}

/// Of `uart_receive`.
#[repr(C)]
#[must_use = "the answer holds the receiver afterwards"]
#[derive(Clone, Copy, Debug, PartialEq, Eq)]
pub struct ReceiveAnswer {
    /// 0, or the refusal.
    pub refusal: u8,
    /// 0 all bytes taken and no frame yet, 1 a frame, 2 a frame that was dropped.
    pub event: u8,
    /// Why it was dropped, or 0.
    pub cause: u8,
    /// Bytes that were used.
    pub taken: usize,
    /// Bytes of the frame, without its check byte.
    pub length: usize,
    /// The frame, then zeros.
    pub frame: [u8; UART_FRAME],
    /// For the next call.
    pub receiver: Receiver,
}

impl ReceiveAnswer {
    /// Every number and every byte of the frame 0.
    pub fn zeros(receiver: Receiver) -> ReceiveAnswer {
        ReceiveAnswer { refusal: 0, event: 0, cause: 0, taken: 0, length: 0, frame: [0; UART_FRAME], receiver }
    }
}

// ---- gateway ----
/// A request that waits at a gateway.
#[repr(C)]
#[derive(Clone, Copy, Debug, PartialEq, Eq)]
pub struct Waiting {
    /// What the node needs to prepare its response, in ms.
    pub delay: u16,
    /// Bytes of the request.
    pub length: u8,
    /// Hops of the request.
    pub hops: u8,
    /// Hops of the response.
    pub response_hops: u8,
    /// The request, then zeros.
    pub frame: [u8; FRAME],
}

impl Waiting {
    /// A free place.
    pub const ZERO: Waiting = Waiting { delay: 0, length: 0, hops: 0, response_hops: 0, frame: [0; FRAME] };
}

/// The send queue of a gateway: requests on their way to the network. Times are
/// in ms, from any moment that the caller chooses.
#[repr(C)]
#[derive(Clone, Copy, Debug, PartialEq, Eq)]
pub struct SendQueue {
    /// The time of the last send or release, refused ones not counted.
    pub last: u64,
    /// The earliest time of the next release.
    pub next: u64,
    /// 0 STD, 1 STD+LP.
    pub network: u8,
    /// For the confirmations.
    pub dpa_value: u8,
    /// Requests that wait.
    pub count: u8,
    /// These requests, the oldest first; then zeros.
    pub places: [Waiting; QUEUE],
}

/// A gateway, from [`Gateway::start`]. A caller stores it between calls.
#[repr(C)]
#[derive(Clone, Copy, Debug, PartialEq, Eq)]
pub struct Gateway {
    /// Bit `a % 8` of byte `a / 8` is set if node `a` is bonded.
    pub bonds: [u8; BONDS],
    /// The requests that wait, and the times.
    pub queue: SendQueue,
}

/// Of the calls that change bonds.
#[repr(C)]
#[must_use = "the answer holds the gateway afterwards"]
#[derive(Clone, Copy, Debug, PartialEq, Eq)]
pub struct BondAnswer {
    /// 0, or the refusal.
    pub refusal: u8,
    /// Bonded nodes after the call.
    pub count: u8,
    /// Afterwards.
    pub gateway: Gateway,
}

/// Of `bond_count`.
#[repr(C)]
#[must_use = "the answer holds the number of bonds"]
#[derive(Clone, Copy, Debug, PartialEq, Eq)]
pub struct CountAnswer {
    /// 0, or the refusal.
    pub refusal: u8,
    /// Bonded nodes.
    pub count: u8,
}

/// Of `bond_bitmap`.
#[repr(C)]
#[must_use = "the answer holds the bonds"]
#[derive(Clone, Copy, Debug, PartialEq, Eq)]
pub struct BitmapAnswer {
    /// 0, or the refusal.
    pub refusal: u8,
    /// As in a gateway.
    pub bitmap: [u8; BONDS],
}

/// Of `send`.
#[repr(C)]
#[must_use = "the answer holds the gateway afterwards"]
#[derive(Clone, Copy, Debug, PartialEq, Eq)]
pub struct GatewayAnswer {
    /// 0, or the refusal.
    pub refusal: u8,
    /// Afterwards.
    pub gateway: Gateway,
}

/// Of `release`.
#[repr(C)]
#[must_use = "the answer holds the gateway afterwards"]
#[derive(Clone, Copy, Debug, PartialEq, Eq)]
pub struct ReleaseAnswer {
    /// 0, or the refusal.
    pub refusal: u8,
    /// False if it is too early or if no request waits.
    pub released: bool,
    /// Bytes of the confirmation.
    pub length: usize,
    /// Bytes of the released request.
    pub frame_length: usize,
    /// The request, then zeros.
    pub frame: [u8; FRAME],
    /// Afterwards.
    pub gateway: Gateway,
}

impl ReleaseAnswer {
    /// Nothing is released: every number and every byte of the frame 0.
    pub fn zeros(gateway: Gateway) -> ReleaseAnswer {
        ReleaseAnswer { refusal: 0, released: false, length: 0, frame_length: 0, frame: [0; FRAME], gateway }
    }
}

// Documented in the header.
#[allow(missing_docs)]
extern "C" {
    pub fn grelfint_start(settings: Settings) -> NodeAnswer;
    pub fn grelfint_tick(node: Node) -> NodeAnswer;
    pub fn grelfint_tick_in_place(node: *mut Node) -> u8;
    pub fn grelfint_actual_levels(node: Node) -> LevelsAnswer;
    pub fn grelfint_handle_request(
        node: Node,
        frame: *const u8,
        frame_length: usize,
        eeprom: *mut u8,
        eeprom_length: usize,
        external: *mut u8,
        external_length: usize,
        response: *mut u8,
        response_length: usize,
    ) -> RequestAnswer;
    pub fn grelfint_view_status(
        eeprom: *const u8,
        eeprom_length: usize,
        external: *const u8,
        external_length: usize,
        pnum: u8,
        start: usize,
        count: usize,
    ) -> u8;
    pub fn grelfint_frc(
        node: Node,
        command: u8,
        user_data: *const u8,
        user_data_length: usize,
        stuck: u32,
        alarm: u32,
    ) -> FrcAnswer;
    pub fn grelfint_confirm(
        frame: *const u8,
        frame_length: usize,
        dpa_value: u8,
        hops: u8,
        response_hops: u8,
        lp: bool,
        out: *mut u8,
        out_length: usize,
    ) -> LengthAnswer;
    pub fn grelfint_timeslot(pdata_length: usize, lp: bool) -> SlotAnswer;
    pub fn grelfint_earliest_send(
        hops: u8,
        request_length: usize,
        delay: u16,
        response_hops: u8,
        response_length: usize,
        lp: bool,
        broadcast: bool,
    ) -> SendAnswer;
    pub fn grelfint_compile(
        book: *const u8,
        book_length: usize,
        scene: usize,
        address: u16,
        hwpid: u16,
        out: *mut u8,
        out_length: usize,
    ) -> CompileAnswer;
    pub fn grelfint_compile_default(
        book: *const u8,
        book_length: usize,
        scene: usize,
        address: u16,
        out: *mut u8,
        out_length: usize,
    ) -> CompileAnswer;
    pub fn grelfint_compile_selected(
        book: *const u8,
        book_length: usize,
        scene: usize,
        nodes: NodeSet,
        hwpid: u16,
        out: *mut u8,
        out_length: usize,
    ) -> CompileAnswer;
    pub fn grelfint_compile_selected_default(
        book: *const u8,
        book_length: usize,
        scene: usize,
        nodes: NodeSet,
        out: *mut u8,
        out_length: usize,
    ) -> CompileAnswer;
    pub fn grelfint_gateway_start(lp: bool, dpa_value: u8) -> Gateway;
    pub fn grelfint_bond(gateway: Gateway, address: u16) -> BondAnswer;
    pub fn grelfint_unbond(gateway: Gateway, address: u16) -> BondAnswer;
    pub fn grelfint_clear_bonds(gateway: Gateway) -> BondAnswer;
    pub fn grelfint_bond_count(gateway: Gateway) -> CountAnswer;
    pub fn grelfint_bond_bitmap(gateway: Gateway) -> BitmapAnswer;
    pub fn grelfint_send(
        gateway: Gateway,
        frame: *const u8,
        frame_length: usize,
        hops: u8,
        response_hops: u8,
        delay: u16,
        time: u64,
    ) -> GatewayAnswer;
    pub fn grelfint_release(gateway: Gateway, time: u64, out: *mut u8, out_length: usize) -> ReleaseAnswer;
    pub fn grelfint_uart_receiver(gateway: bool) -> Receiver;
    pub fn grelfint_uart_receive(receiver: Receiver, bytes: *const u8, bytes_length: usize) -> ReceiveAnswer;
    pub fn grelfint_uart_frame(frame: *const u8, frame_length: usize, out: *mut u8, out_length: usize) -> LengthAnswer;
}

// SAFETY, for each of the functions below: a slice is passed as its pointer,
// which is never null, and its own length. It is borrowed until the call returns,
// and the call keeps no pointer. A slice that the call writes is borrowed
// exclusively, so it overlaps no other. The records are those of the header, and
// every value of theirs gets an answer.

/// `grelfint_start`.
pub fn start(settings: Settings) -> NodeAnswer {
    unsafe { grelfint_start(settings) }
}

/// `grelfint_tick`.
pub fn tick(node: Node) -> NodeAnswer {
    unsafe { grelfint_tick(node) }
}

/// `grelfint_tick_in_place`.
#[must_use = "this is the refusal"]
pub fn tick_in_place(node: &mut Node) -> u8 {
    unsafe { grelfint_tick_in_place(node) }
}

/// `grelfint_actual_levels`.
pub fn actual_levels(node: Node) -> LevelsAnswer {
    unsafe { grelfint_actual_levels(node) }
}

/// `grelfint_handle_request`.
pub fn handle_request(
    node: Node,
    frame: &[u8],
    eeprom: &mut [u8],
    external: &mut [u8],
    response: &mut [u8],
) -> RequestAnswer {
    unsafe {
        grelfint_handle_request(
            node,
            frame.as_ptr(),
            frame.len(),
            eeprom.as_mut_ptr(),
            eeprom.len(),
            external.as_mut_ptr(),
            external.len(),
            response.as_mut_ptr(),
            response.len(),
        )
    }
}

/// `grelfint_view_status`.
#[must_use = "this is the refusal"]
pub fn view_status(eeprom: &[u8], external: &[u8], pnum: u8, start: usize, count: usize) -> u8 {
    unsafe {
        grelfint_view_status(eeprom.as_ptr(), eeprom.len(), external.as_ptr(), external.len(), pnum, start, count)
    }
}

/// `grelfint_frc`.
pub fn frc(node: Node, command: u8, user_data: &[u8], stuck: u32, alarm: u32) -> FrcAnswer {
    unsafe { grelfint_frc(node, command, user_data.as_ptr(), user_data.len(), stuck, alarm) }
}

/// `grelfint_confirm`.
pub fn confirm(frame: &[u8], dpa_value: u8, hops: u8, response_hops: u8, lp: bool, out: &mut [u8]) -> LengthAnswer {
    let room = out.len();
    unsafe { grelfint_confirm(frame.as_ptr(), frame.len(), dpa_value, hops, response_hops, lp, out.as_mut_ptr(), room) }
}

/// `grelfint_timeslot`.
pub fn timeslot(pdata_length: usize, lp: bool) -> SlotAnswer {
    unsafe { grelfint_timeslot(pdata_length, lp) }
}

/// `grelfint_earliest_send`.
pub fn earliest_send(
    hops: u8,
    request_length: usize,
    delay: u16,
    response_hops: u8,
    response_length: usize,
    lp: bool,
    broadcast: bool,
) -> SendAnswer {
    unsafe { grelfint_earliest_send(hops, request_length, delay, response_hops, response_length, lp, broadcast) }
}

/// `grelfint_compile`.
pub fn compile(book: &[u8], scene: usize, address: u16, hwpid: u16, out: &mut [u8]) -> CompileAnswer {
    unsafe { grelfint_compile(book.as_ptr(), book.len(), scene, address, hwpid, out.as_mut_ptr(), out.len()) }
}

/// `grelfint_compile_default`.
pub fn compile_default(book: &[u8], scene: usize, address: u16, out: &mut [u8]) -> CompileAnswer {
    unsafe { grelfint_compile_default(book.as_ptr(), book.len(), scene, address, out.as_mut_ptr(), out.len()) }
}

/// `grelfint_compile_selected`.
pub fn compile_selected(book: &[u8], scene: usize, nodes: NodeSet, hwpid: u16, out: &mut [u8]) -> CompileAnswer {
    unsafe { grelfint_compile_selected(book.as_ptr(), book.len(), scene, nodes, hwpid, out.as_mut_ptr(), out.len()) }
}

/// `grelfint_compile_selected_default`.
pub fn compile_selected_default(book: &[u8], scene: usize, nodes: NodeSet, out: &mut [u8]) -> CompileAnswer {
    unsafe { grelfint_compile_selected_default(book.as_ptr(), book.len(), scene, nodes, out.as_mut_ptr(), out.len()) }
}

/// `grelfint_gateway_start`.
#[must_use = "this is the gateway"]
pub fn gateway_start(lp: bool, dpa_value: u8) -> Gateway {
    unsafe { grelfint_gateway_start(lp, dpa_value) }
}

/// `grelfint_bond`.
pub fn bond(gateway: Gateway, address: u16) -> BondAnswer {
    unsafe { grelfint_bond(gateway, address) }
}

/// `grelfint_unbond`.
pub fn unbond(gateway: Gateway, address: u16) -> BondAnswer {
    unsafe { grelfint_unbond(gateway, address) }
}

/// `grelfint_clear_bonds`.
pub fn clear_bonds(gateway: Gateway) -> BondAnswer {
    unsafe { grelfint_clear_bonds(gateway) }
}

/// `grelfint_bond_count`.
pub fn bond_count(gateway: Gateway) -> CountAnswer {
    unsafe { grelfint_bond_count(gateway) }
}

/// `grelfint_bond_bitmap`.
pub fn bond_bitmap(gateway: Gateway) -> BitmapAnswer {
    unsafe { grelfint_bond_bitmap(gateway) }
}

/// `grelfint_send`.
pub fn send(gateway: Gateway, frame: &[u8], hops: u8, response_hops: u8, delay: u16, time: u64) -> GatewayAnswer {
    unsafe { grelfint_send(gateway, frame.as_ptr(), frame.len(), hops, response_hops, delay, time) }
}

/// `grelfint_release`.
pub fn release(gateway: Gateway, time: u64, out: &mut [u8]) -> ReleaseAnswer {
    unsafe { grelfint_release(gateway, time, out.as_mut_ptr(), out.len()) }
}

/// `grelfint_uart_receiver`.
#[must_use = "this is the receiver"]
pub fn uart_receiver(gateway: bool) -> Receiver {
    unsafe { grelfint_uart_receiver(gateway) }
}

/// `grelfint_uart_receive`.
pub fn uart_receive(receiver: Receiver, bytes: &[u8]) -> ReceiveAnswer {
    unsafe { grelfint_uart_receive(receiver, bytes.as_ptr(), bytes.len()) }
}

/// `grelfint_uart_frame`.
pub fn uart_frame(message: &[u8], out: &mut [u8]) -> LengthAnswer {
    unsafe { grelfint_uart_frame(message.as_ptr(), message.len(), out.as_mut_ptr(), out.len()) }
}
