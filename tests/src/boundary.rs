//! Calls through a function with the C signature of a library call, so that the
//! benchmark times every side behind the same boundary. A slice is passed as a
//! pointer and a length.
use grelfint::raw::{
    self, BondAnswer, CompileAnswer, CountAnswer, Gateway, GatewayAnswer, LengthAnswer, Node, NodeSet, ReceiveAnswer,
    Receiver, ReleaseAnswer, RequestAnswer,
};

/// The type of `grelfint_handle_request`.
pub type HandleRequest =
    unsafe extern "C" fn(Node, *const u8, usize, *mut u8, usize, *mut u8, usize, *mut u8, usize) -> RequestAnswer;

/// The type of `grelfint_compile`.
pub type Compile = unsafe extern "C" fn(*const u8, usize, usize, u16, u16, *mut u8, usize) -> CompileAnswer;

/// The type of `grelfint_compile_selected`.
pub type CompileSelected = unsafe extern "C" fn(*const u8, usize, usize, NodeSet, u16, *mut u8, usize) -> CompileAnswer;

/// The type of `grelfint_uart_receive`.
pub type UartReceive = unsafe extern "C" fn(Receiver, *const u8, usize) -> ReceiveAnswer;

/// The type of `grelfint_uart_frame`.
pub type UartFrame = unsafe extern "C" fn(*const u8, usize, *mut u8, usize) -> LengthAnswer;

/// The type of `grelfint_bond` and `grelfint_unbond`.
pub type Bond = unsafe extern "C" fn(Gateway, u16) -> BondAnswer;

/// The type of `grelfint_bond_count`.
pub type BondCount = unsafe extern "C" fn(Gateway) -> CountAnswer;

/// The type of `grelfint_send`.
pub type Send = unsafe extern "C" fn(Gateway, *const u8, usize, u8, u8, u16, u64) -> GatewayAnswer;

/// The type of `grelfint_release`.
pub type Release = unsafe extern "C" fn(Gateway, u64, *mut u8, usize) -> ReleaseAnswer;

pub const HANDLE_REQUEST: HandleRequest = raw::grelfint_handle_request;
pub const UART_RECEIVE: UartReceive = raw::grelfint_uart_receive;
pub const UART_FRAME: UartFrame = raw::grelfint_uart_frame;
pub const BOND: Bond = raw::grelfint_bond;
pub const UNBOND: Bond = raw::grelfint_unbond;
pub const BOND_COUNT: BondCount = raw::grelfint_bond_count;
pub const SEND: Send = raw::grelfint_send;
pub const RELEASE: Release = raw::grelfint_release;

// SAFETY, for each function below: every slice outlives the call, mutable ones
// have no alias, and the lengths passed are those of the slices. The function
// passed is one of the library or of a side that follows the same rules.

#[inline(always)]
pub fn handle_request_by(
    function: HandleRequest,
    node: Node,
    frame: &[u8],
    eeprom: &mut [u8],
    external: &mut [u8],
    response: &mut [u8],
) -> RequestAnswer {
    unsafe {
        function(
            node,
            frame.as_ptr(),
            frame.len(),
            eeprom.as_mut_ptr(),
            eeprom.len(),
            external.as_mut_ptr(),
            external.len(),
            response.as_mut_ptr(),
            response.len(),
        )
    }
}

#[inline(always)]
pub fn compile_by(
    function: Compile,
    book: &[u8],
    scene: usize,
    address: u16,
    hwpid: u16,
    out: &mut [u8],
) -> CompileAnswer {
    unsafe { function(book.as_ptr(), book.len(), scene, address, hwpid, out.as_mut_ptr(), out.len()) }
}

#[inline(always)]
pub fn compile_selected_by(
    function: CompileSelected,
    book: &[u8],
    scene: usize,
    nodes: NodeSet,
    hwpid: u16,
    out: &mut [u8],
) -> CompileAnswer {
    unsafe { function(book.as_ptr(), book.len(), scene, nodes, hwpid, out.as_mut_ptr(), out.len()) }
}

#[inline(always)]
pub fn uart_receive_by(function: UartReceive, receiver: Receiver, bytes: &[u8]) -> ReceiveAnswer {
    unsafe { function(receiver, bytes.as_ptr(), bytes.len()) }
}

#[inline(always)]
pub fn uart_frame_by(function: UartFrame, message: &[u8], out: &mut [u8]) -> LengthAnswer {
    unsafe { function(message.as_ptr(), message.len(), out.as_mut_ptr(), out.len()) }
}

#[inline(always)]
pub fn bond_by(function: Bond, gateway: Gateway, address: u16) -> BondAnswer {
    unsafe { function(gateway, address) }
}

#[inline(always)]
pub fn bond_count_by(function: BondCount, gateway: Gateway) -> CountAnswer {
    unsafe { function(gateway) }
}

#[inline(always)]
pub fn send_by(
    function: Send,
    gateway: Gateway,
    frame: &[u8],
    hops: u8,
    response_hops: u8,
    delay: u16,
    time: u64,
) -> GatewayAnswer {
    unsafe { function(gateway, frame.as_ptr(), frame.len(), hops, response_hops, delay, time) }
}

#[inline(always)]
pub fn release_by(function: Release, gateway: Gateway, time: u64, out: &mut [u8]) -> ReleaseAnswer {
    unsafe { function(gateway, time, out.as_mut_ptr(), out.len()) }
}
