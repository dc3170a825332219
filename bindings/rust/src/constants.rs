//! The sizes, offsets and numbers of the C header, with its names but for the
//! prefix `GRELFINT_`.

// ---- counts ----
/// Lamps of a node record; a node has 1 to 32 of them.
pub const LAMPS: usize = 32;
/// The most scenes of a book.
pub const SCENES: usize = 16;
/// The most steps of a scene.
pub const STEPS: usize = 64;
/// Requests that a gateway can hold.
pub const QUEUE: usize = 8;

// ---- sizes in bytes ----
/// A node's RAM.
pub const RAM: usize = 48;
/// A node's EEPROM.
pub const EEPROM: usize = 192;
/// A node's external memory.
pub const EXTERNAL: usize = 16_384;
/// The longest block that a request reads from or writes to RAM.
pub const RAM_BLOCK: usize = 48;
/// The longest block that a request reads from or writes to EEPROM.
pub const EEPROM_BLOCK: usize = 55;
/// The longest block that a request reads from or writes to external memory.
pub const EXTERNAL_BLOCK: usize = 54;
/// A request without PData: NADR, PNUM, PCMD and HWPID. It is the shortest.
pub const FRAME_HEADER: usize = 6;
/// The longest PData.
pub const PDATA: usize = 56;
/// The longest request.
pub const FRAME: usize = 62;
/// A response without data.
pub const RESPONSE_HEADER: usize = 8;
/// The least buffer for a response or a confirmation.
pub const RESPONSE: usize = 64;
/// A confirmation.
pub const CONFIRMATION: usize = 11;
/// An entry of a list without PData: its length, PNUM, PCMD and HWPID.
pub const ENTRY_HEADER: usize = 5;
/// The bitmap of lamps in PData: lamp 0 is bit 0 of its first byte.
pub const BITMAP: usize = 4;
/// The longest book.
pub const BOOK: usize = 4145;
/// A scene's entry in the contents of a book: offset and number of steps.
pub const BOOK_LOCATION: usize = 3;
/// A step: kind, target, value and time.
pub const BOOK_STEP: usize = 4;
/// The least buffer for a compiled scene.
pub const COMPILED: usize = 4096;
/// A node set: a bit for each address, 0 to 239.
pub const NODE_SET: usize = 30;
/// The bonds of a gateway: a bit for each address, 0 to 255.
pub const BONDS: usize = 32;
/// The longest message on the serial line.
pub const UART_FRAME: usize = 64;
/// Room for every framed message: 2 flags, and 65 bytes of which each may be escaped.
pub const UART_FRAMED: usize = 132;

// ---- offsets in a frame ----
/// NADR, low byte first.
pub const AT_NADR: usize = 0;
/// PNUM.
pub const AT_PNUM: usize = 2;
/// PCMD.
pub const AT_PCMD: usize = 3;
/// HWPID, low byte first.
pub const AT_HWPID: usize = 4;
/// PData of a request.
pub const AT_PDATA: usize = 6;
/// ErrN of a response.
pub const AT_ERRN: usize = 6;
/// DpaValue of a response or a confirmation.
pub const AT_DPA_VALUE: usize = 7;
/// The data of a response.
pub const AT_DATA: usize = 8;
/// The hops in a confirmation.
pub const AT_HOPS: usize = 8;
/// The timeslot in a confirmation, in units of [`SLOT_MS`].
pub const AT_TIMESLOT: usize = 9;
/// The response hops in a confirmation.
pub const AT_RESPONSE_HOPS: usize = 10;

// ---- refusals ----
/// The call was not refused.
pub const OK: u8 = 0;
/// A record that is not sound, settings, an address or a node set out of range.
pub const REFUSED_NODE: u8 = 1;
/// The length of a frame.
pub const REFUSED_FRAME: u8 = 2;
/// The room for a response or a confirmation.
pub const REFUSED_RESPONSE: u8 = 3;
/// The size of a memory.
pub const REFUSED_MEMORY: u8 = 4;
/// A length of PData.
pub const REFUSED_PDATA: u8 = 5;
/// A malformed scene book.
pub const REFUSED_BOOK: u8 = 6;
/// The number of a scene.
pub const REFUSED_SCENE: u8 = 7;
/// The kind of a step.
pub const REFUSED_STEP_KIND: u8 = 81;
/// The target of a step.
pub const REFUSED_STEP_TARGET: u8 = 82;
/// The value of a step.
pub const REFUSED_STEP_VALUE: u8 = 83;
/// The time of a step.
pub const REFUSED_STEP_TIME: u8 = 84;
/// The room for a compiled scene.
pub const REFUSED_OUTPUT: u8 = 9;
/// A view of neither memory.
pub const REFUSED_VIEW: u8 = 10;
/// The room for a framed message.
pub const REFUSED_FRAMED: u8 = 11;
/// An address at a gateway.
pub const REFUSED_ADDRESS: u8 = 12;
/// A full gateway.
pub const REFUSED_FULL: u8 = 13;
/// A time at a gateway.
pub const REFUSED_TIME: u8 = 14;
/// The length of a view.
pub const REFUSED_BLOCK: u8 = 15;
/// The range of a view.
pub const REFUSED_RANGE: u8 = 16;

// ---- ErrN of a response ----
/// No error.
pub const ERRN_NONE: u8 = 0;
/// FAIL.
pub const ERRN_FAIL: u8 = 1;
/// An unknown PCMD.
pub const ERRN_PCMD: u8 = 2;
/// An unknown PNUM.
pub const ERRN_PNUM: u8 = 3;
/// An address outside a memory.
pub const ERRN_ADDR: u8 = 4;
/// A wrong length of PData.
pub const ERRN_DATA_LEN: u8 = 5;
/// Wrong PData.
pub const ERRN_DATA: u8 = 6;
/// Another HWPID.
pub const ERRN_HWPID: u8 = 7;

// ---- peripherals and their commands ----
/// The operating system: batches and the code check.
pub const PNUM_OS: u8 = 0x02;
/// EEPROM.
pub const PNUM_EEPROM: u8 = 0x03;
/// External memory.
pub const PNUM_EXTERNAL: u8 = 0x04;
/// RAM.
pub const PNUM_RAM: u8 = 0x05;
/// Lamps.
pub const PNUM_LIGHTS: u8 = 0x71;
/// A list of requests.
pub const PCMD_OS_BATCH: u8 = 0x05;
/// Compares the checksum of an image in external memory.
pub const PCMD_OS_CODE_CHECK: u8 = 0x0A;
/// A list of requests for the nodes of a set.
pub const PCMD_OS_SELECTIVE_BATCH: u8 = 0x0B;
/// Reads EEPROM.
pub const PCMD_EEPROM_READ: u8 = 0;
/// Writes EEPROM.
pub const PCMD_EEPROM_WRITE: u8 = 1;
/// Reads external memory.
pub const PCMD_EXTERNAL_READ: u8 = 2;
/// Writes external memory.
pub const PCMD_EXTERNAL_WRITE: u8 = 3;
/// Reads RAM.
pub const PCMD_RAM_READ: u8 = 0;
/// Writes RAM.
pub const PCMD_RAM_WRITE: u8 = 1;
/// Sets lamps to a level.
pub const PCMD_LIGHTS_SET: u8 = 0;
/// Raises the levels of lamps.
pub const PCMD_LIGHTS_RAISE: u8 = 1;
/// Lowers the levels of lamps.
pub const PCMD_LIGHTS_LOWER: u8 = 2;
/// The number of lamps.
pub const PCMD_LIGHTS_ENUMERATE: u8 = 0x3E;
/// The bit that a response sets in the PCMD of its request.
pub const PCMD_RESPONSE: u8 = 0x80;

// ---- addresses and profiles ----
/// NADR of a request to all nodes.
pub const NADR_BROADCAST: u16 = 0x00FF;
/// The last address of a node; the first is 1.
pub const ADDRESS_MAX: u16 = 239;
/// HWPID that every node accepts.
pub const HWPID_ANY: u16 = 0xFFFF;

// ---- FRC ----
/// The FRC command that asks whether a lamp is on.
pub const FRC_ON: u8 = 0x10;
/// The FRC command that asks for a lamp's alarm.
pub const FRC_ALARM: u8 = 0x11;
/// The FRC value of a question that the node does not answer.
pub const FRC_NOT_IMPLEMENTED: u8 = 1;
/// The FRC value for no.
pub const FRC_NO: u8 = 2;
/// The FRC value for yes.
pub const FRC_YES: u8 = 3;

// ---- lamps ----
/// The highest level.
pub const LEVEL_MAX: u8 = 100;
/// The longest time of a lamp, in seconds.
pub const SECONDS_MAX: u16 = 7620;
/// The power that keeps a lamp's level.
pub const POWER_KEEP: u8 = 127;
/// The bit of a power byte after which a time byte follows.
pub const POWER_TIMED: u8 = 0x80;
/// The bit of a time byte that counts seconds, not minutes.
pub const TIME_SECONDS: u8 = 0x80;
/// The dimming steps that a node can have.
pub const DIMMING_STEPS: [u8; 9] = [1, 2, 4, 5, 10, 20, 25, 50, 100];

// ---- lists that cannot be read ----
/// The list can be read, or there is none.
pub const REASON_NONE: u8 = 0;
/// An entry with a length of 1 to 4.
pub const REASON_SHORT: u8 = 1;
/// An entry that reaches past the end of PData.
pub const REASON_PAST_END: u8 = 2;
/// No closing zero.
pub const REASON_UNCLOSED: u8 = 3;
/// Bytes after the closing zero.
pub const REASON_TRAILING: u8 = 4;

// ---- kinds of steps ----
/// Sets a lamp to a level.
pub const KIND_SET: u8 = 0;
/// Raises the level of a lamp.
pub const KIND_RAISE: u8 = 1;
/// Lowers the level of a lamp.
pub const KIND_LOWER: u8 = 2;
/// Writes a byte of RAM.
pub const KIND_RAM: u8 = 3;
/// Writes a byte of EEPROM.
pub const KIND_EEPROM: u8 = 4;

// ---- serial line ----
/// All bytes were taken and no frame has ended.
pub const EVENT_NONE: u8 = 0;
/// A frame.
pub const EVENT_FRAME: u8 = 1;
/// A frame that was dropped.
pub const EVENT_DROPPED: u8 = 2;
/// Nothing was dropped.
pub const CAUSE_NONE: u8 = 0;
/// More bytes than the receiver's limit.
pub const CAUSE_TOO_LONG: u8 = 1;
/// A flag right after an escape.
pub const CAUSE_CUT: u8 = 2;
/// Fewer than 6 bytes.
pub const CAUSE_SHORT: u8 = 3;
/// A wrong check byte.
pub const CAUSE_CHECK_BYTE: u8 = 4;

// ---- timing and gateway ----
/// The unit of timeslots, in ms.
pub const SLOT_MS: u32 = 10;
/// An STD network.
pub const NETWORK_STD: u8 = 0;
/// An STD+LP network.
pub const NETWORK_STD_LP: u8 = 1;
/// The latest time at a gateway, in ms.
pub const TIME_MAX: u64 = 1 << 40;
/// The longest wait between two releases, in ms.
pub const WAIT_MAX: u64 = 116_735;
