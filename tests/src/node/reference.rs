//! A node: document 01, "Exact rules and what to build", with changes 1/12 to
//! 4/12 of document 02, implemented as plainly as possible, without regard to
//! speed. Headings name document 01's sections.
use super::code::CodeType;
use grelfint::raw::{FrcAnswer, Lamp, LevelsAnswer, Node, NodeAnswer, RequestAnswer, Settings};

// ---- Frames: ErrN ----
pub const FAIL: u8 = 1;
pub const PCMD: u8 = 2;
pub const PNUM: u8 = 3;
pub const ADDR: u8 = 4;
pub const DATA_LEN: u8 = 5;
pub const DATA: u8 = 6;
pub const HWPID: u8 = 7;

pub const RAM_SIZE: usize = 48;
pub const EEPROM_SIZE: usize = 192;
pub const EXTERNAL_SIZE: usize = 16_384;
pub const STEPS: [u8; 9] = [1, 2, 4, 5, 10, 20, 25, 50, 100];

pub fn word(low: u8, high: u8) -> u16 {
    low as u16 + 256 * high as u16
}

pub fn low(word: u16) -> u8 {
    (word % 256) as u8
}

pub fn high(word: u16) -> u8 {
    (word / 256) as u8
}

// ---- Node and lamps ----
pub fn settings_in_range(s: &Settings) -> bool {
    s.address >= 1 && s.address <= 239 && s.lamp_count >= 1 && s.lamp_count <= 32 && STEPS.contains(&s.step)
}

pub fn node_rule(node: &Node) -> bool {
    if !settings_in_range(&node.settings) {
        return false;
    }
    for (i, lamp) in node.lamps.iter().enumerate() {
        if lamp.level > 100 || lamp.seconds > 7620 {
            return false;
        }
        if lamp.level == 0 && lamp.seconds != 0 {
            return false;
        }
        if i >= node.settings.lamp_count as usize && (lamp.level != 0 || lamp.seconds != 0) {
            return false;
        }
    }
    true
}

/// The smallest multiple of the step not below the requested level.
pub fn actual_level(level: u8, step: u8) -> u8 {
    let mut multiple = 0u16;
    while multiple < level as u16 {
        multiple += step as u16;
    }
    multiple as u8
}

pub fn start(settings: Settings) -> NodeAnswer {
    if !settings_in_range(&settings) {
        return NodeAnswer { refusal: 1, node: Node::ZERO };
    }
    NodeAnswer { refusal: 0, node: Node { settings, ..Node::ZERO } }
}

pub fn tick(node: Node) -> NodeAnswer {
    if !node_rule(&node) {
        return NodeAnswer { refusal: 1, node };
    }
    let mut after = node;
    for lamp in after.lamps.iter_mut() {
        if lamp.seconds != 0 {
            lamp.seconds -= 1;
            if lamp.seconds == 0 {
                lamp.level = 0;
            }
        }
    }
    NodeAnswer { refusal: 0, node: after }
}

pub fn tick_in_place(node: &mut Node) -> u8 {
    let answer = tick(*node);
    *node = answer.node;
    answer.refusal
}

pub fn actual_levels(node: Node) -> LevelsAnswer {
    if !node_rule(&node) {
        return LevelsAnswer { refusal: 1, levels: [0; 32] };
    }
    let mut levels = [0; 32];
    let lamps = &node.lamps[..node.settings.lamp_count as usize];
    for (level, lamp) in levels.iter_mut().zip(lamps) {
        *level = actual_level(lamp.level, node.settings.step);
    }
    LevelsAnswer { refusal: 0, levels }
}

// ---- Taking a request ----
/// The node record and the two memories passed with it.
pub struct Parts<'a> {
    pub node: Node,
    pub eeprom: &'a mut [u8],
    pub external: &'a mut [u8],
}

/// A request without its address, or an entry of a list.
pub struct Request<'a> {
    pub pnum: u8,
    pub pcmd: u8,
    pub hwpid: u16,
    pub pdata: &'a [u8],
}

/// The answer's data and the load mark, or the error: ErrN alone, or a `RequestError`.
type DataOr<E> = Result<(Vec<u8>, bool), E>;
type DataOrError = DataOr<u8>;

/// ErrN and, if the list is broken, the reason and the place in PData; else 0 and 0.
#[derive(Debug)]
pub struct RequestError {
    pub errn: u8,
    pub reason: u8,
    pub place: u8,
}

impl From<u8> for RequestError {
    fn from(errn: u8) -> RequestError {
        RequestError { errn, reason: 0, place: 0 }
    }
}

pub fn handle_request(
    node: Node,
    frame: &[u8],
    eeprom: &mut [u8],
    external: &mut [u8],
    response: &mut [u8],
) -> RequestAnswer {
    let nothing_done = |refusal| RequestAnswer { refusal, ..RequestAnswer::zeros(node) };
    if !node_rule(&node) {
        return nothing_done(1);
    }
    if frame.len() < 6 || frame.len() > 62 {
        return nothing_done(2);
    }
    if response.len() < 64 {
        return nothing_done(3);
    }
    if eeprom.len() != EEPROM_SIZE || external.len() != EXTERNAL_SIZE {
        return nothing_done(4);
    }
    let nadr = word(frame[0], frame[1]);
    if nadr != node.settings.address && nadr != 0x00FF {
        return nothing_done(0); // not mine
    }
    let request = request_in(frame);
    let mut parts = Parts { node, eeprom, external };
    let Some(done) = do_request(&mut parts, &request) else {
        return RequestAnswer { addressed: true, ..nothing_done(0) }; // not selected
    };
    let (RequestError { errn, reason, place }, data, load) = match done {
        Ok((data, load)) => (RequestError::from(0), data, load), // ErrN 0: none
        Err(error) => (error, Vec::new(), false),
    };
    let mut length = 0;
    if nadr != 0x00FF {
        let bytes = response_bytes(&node.settings, request.pnum, request.pcmd, errn, &data);
        length = bytes.len();
        response[..length].copy_from_slice(&bytes);
    }
    RequestAnswer { refusal: 0, length, load, addressed: true, reason, place, node: parts.node }
}

/// The request in a frame of at least 6 bytes.
pub fn request_in(frame: &[u8]) -> Request<'_> {
    Request { pnum: frame[2], pcmd: frame[3], hwpid: word(frame[4], frame[5]), pdata: &frame[6..] }
}

fn response_bytes(s: &Settings, pnum: u8, pcmd: u8, errn: u8, data: &[u8]) -> Vec<u8> {
    let mut bytes = vec![low(s.address), high(s.address), pnum, pcmd | 0x80];
    bytes.extend_from_slice(&[low(s.hwpid), high(s.hwpid), errn, s.dpa_value]);
    bytes.extend_from_slice(data);
    bytes
}

pub fn wrong_hwpid(node: &Node, request: &Request) -> bool {
    request.hwpid != node.settings.hwpid && request.hwpid != 0xFFFF
}

/// None for a selective batch that does not select this node: there is no answer, whatever NADR is.
fn do_request(parts: &mut Parts, request: &Request) -> Option<DataOr<RequestError>> {
    if wrong_hwpid(&parts.node, request) {
        return Some(Err(HWPID.into()));
    }
    let list_done = match (request.pnum, request.pcmd) {
        (0x02, 0x05) => do_batch(parts, request.pdata),
        (0x02, 0x0B) => do_selective_batch(parts, request.pdata)?,
        _ => return Some(do_without_list(parts, request).map_err(RequestError::from)),
    };
    Some(list_done.map(|_| (Vec::new(), false)))
}

fn do_without_list(parts: &mut Parts, request: &Request) -> DataOrError {
    match (request.pnum, request.pcmd) {
        (0x02, 0x0A) => code_check(parts, request.pdata),
        (0x02, _) => Err(PCMD),
        _ => do_peripheral(parts, request),
    }
}

/// An entry of a list.
pub fn do_entry(parts: &mut Parts, entry: &Request) -> DataOrError {
    if wrong_hwpid(&parts.node, entry) {
        return Err(HWPID);
    }
    if entry.pnum == 0x02 {
        return Err(PNUM); // document 01 only requires some error
    }
    do_peripheral(parts, entry)
}

/// Memories and lights: allowed in a request and in an entry of a list.
fn do_peripheral(parts: &mut Parts, request: &Request) -> DataOrError {
    let Request { pnum, pcmd, pdata, .. } = *request;
    match pnum {
        0x03 | 0x05 => match pcmd {
            0x00 => memory_read(parts, pnum, 1, pdata),
            0x01 => memory_write(parts, pnum, 1, pdata),
            _ => Err(PCMD),
        },
        0x04 => match pcmd {
            0x02 => memory_read(parts, pnum, 2, pdata),
            0x03 => memory_write(parts, pnum, 2, pdata),
            _ => Err(PCMD),
        },
        0x71 => match pcmd {
            0x00..=0x02 => lights(parts, pcmd, pdata),
            0x3E if pdata.is_empty() => Ok((vec![parts.node.settings.lamp_count], false)),
            0x3E => Err(DATA_LEN),
            _ => Err(PCMD),
        },
        _ => Err(PNUM),
    }
}

// ---- Memories ----
fn memory<'a>(parts: &'a mut Parts, pnum: u8) -> &'a mut [u8] {
    match pnum {
        0x03 => &mut parts.eeprom[..],
        0x04 => &mut parts.external[..],
        _ => &mut parts.node.ram[..],
    }
}

fn longest_block(pnum: u8) -> usize {
    match pnum {
        0x03 => 55,
        0x04 => 54,
        _ => 48,
    }
}

fn start_address(width: usize, pdata: &[u8]) -> usize {
    if width == 1 {
        pdata[0] as usize
    } else {
        word(pdata[0], pdata[1]) as usize
    }
}

fn memory_read(parts: &mut Parts, pnum: u8, width: usize, pdata: &[u8]) -> DataOrError {
    if pdata.len() != width + 1 {
        return Err(DATA_LEN);
    }
    let start = start_address(width, pdata);
    let length = pdata[width] as usize;
    if length > longest_block(pnum) {
        return Err(DATA_LEN);
    }
    let bytes = memory(parts, pnum);
    if start >= bytes.len() || start + length > bytes.len() {
        return Err(ADDR);
    }
    Ok((bytes[start..start + length].to_vec(), false))
}

fn memory_write(parts: &mut Parts, pnum: u8, width: usize, pdata: &[u8]) -> DataOrError {
    if pdata.len() < width + 1 {
        return Err(DATA_LEN);
    }
    let start = start_address(width, pdata);
    let data = &pdata[width..];
    if data.len() > longest_block(pnum) {
        return Err(DATA_LEN);
    }
    let bytes = memory(parts, pnum);
    if start >= bytes.len() || start + data.len() > bytes.len() {
        return Err(ADDR);
    }
    bytes[start..start + data.len()].copy_from_slice(data);
    Ok((Vec::new(), false))
}

pub fn view_status(eeprom: &[u8], external: &[u8], pnum: u8, start: usize, length: usize) -> u8 {
    if eeprom.len() != EEPROM_SIZE || external.len() != EXTERNAL_SIZE {
        return 4;
    }
    if pnum != 0x03 && pnum != 0x04 {
        return 10;
    }
    if length > longest_block(pnum) {
        return 15;
    }
    let size = if pnum == 0x03 { EEPROM_SIZE } else { EXTERNAL_SIZE };
    if start >= size || start + length > size {
        return 16;
    }
    0
}

// ---- Lights ----
/// Seconds given by a time byte; none for an invalid one.
fn seconds_of(time: u8) -> Option<u16> {
    match time {
        0x00 | 0x80 => None,
        0x01..=0x7F => Some(60 * time as u16),
        0x81..=0xFF => Some((time & 0x7F) as u16),
    }
}

/// The low seven bits of a power byte that requests the level that the lamp has.
pub const KEEP: u8 = 127;

/// One selected lamp: its index, the low seven bits of its power byte, and the
/// seconds if there is a time byte.
pub struct Entry {
    pub lamp: usize,
    pub power: u8,
    pub seconds: Option<u16>,
}

pub fn read_lamp_entries(pdata: &[u8]) -> Option<Vec<Entry>> {
    if pdata.len() < 4 {
        return None;
    }
    let mut entries = Vec::new();
    let mut at = 4;
    for lamp in 0..32 {
        if pdata[lamp / 8] & (1 << (lamp % 8)) == 0 {
            continue;
        }
        let byte = *pdata.get(at)?;
        at += 1;
        let power = byte & 0x7F;
        if power > 100 && power != KEEP {
            return None;
        }
        let mut seconds = None;
        if byte & 0x80 != 0 {
            let time = *pdata.get(at)?;
            at += 1;
            seconds = Some(seconds_of(time)?);
        }
        entries.push(Entry { lamp, power, seconds });
    }
    if at != pdata.len() {
        return None;
    }
    Some(entries)
}

fn lights(parts: &mut Parts, pcmd: u8, pdata: &[u8]) -> DataOrError {
    let Some(entries) = read_lamp_entries(pdata) else { return Err(DATA) };
    let settings = parts.node.settings;
    let mut previous = Vec::new();
    for entry in entries {
        if entry.lamp >= settings.lamp_count as usize {
            previous.push(0);
            continue;
        }
        let lamp = &mut parts.node.lamps[entry.lamp];
        previous.push(actual_level(lamp.level, settings.step));
        change_lamp(lamp, pcmd, &entry);
    }
    Ok((previous, false))
}

/// What an entry changes of an implemented lamp.
fn change_lamp(lamp: &mut Lamp, pcmd: u8, entry: &Entry) {
    if entry.power != KEEP {
        lamp.level = new_level(pcmd, lamp.level, entry.power);
        lamp.seconds = if lamp.level == 0 { 0 } else { entry.seconds.unwrap_or(0) };
        return;
    }
    // the level stays, and without a time the seconds too
    if let (Some(seconds), 1..) = (entry.seconds, lamp.level) {
        lamp.seconds = seconds;
    }
}

/// 0 set, 1 raise, 2 lower, trimmed to 0 to 100.
fn new_level(pcmd: u8, level: u8, power: u8) -> u8 {
    let sum = match pcmd {
        0 => power as i32,
        1 => level as i32 + power as i32,
        _ => level as i32 - power as i32,
    };
    sum.clamp(0, 100) as u8
}

// ---- OS ----
/// The entries of a list, or its first fault in reading order.
pub fn read_list(list: &[u8]) -> Result<Vec<Request<'_>>, RequestError> {
    let broken = |reason, place: usize| Err(RequestError { errn: DATA, reason, place: place as u8 });
    let mut entries = Vec::new();
    let mut at = 0;
    loop {
        if at == list.len() {
            return broken(3, list.len()); // no closing zero
        }
        let length = list[at] as usize;
        if length == 0 {
            break;
        }
        if length < 5 {
            return broken(1, at);
        }
        if at + length > list.len() {
            return broken(2, at);
        }
        let e = &list[at..at + length];
        entries.push(Request { pnum: e[1], pcmd: e[2], hwpid: word(e[3], e[4]), pdata: &e[5..] });
        at += length;
    }
    let after_zero = at + 1; // the zero is at `at`
    if after_zero < list.len() {
        return broken(4, after_zero);
    }
    Ok(entries)
}

/// The ErrN of each entry, which is never sent, or the error of the request.
type EntryErrors = Result<Vec<u8>, RequestError>;

fn do_batch(parts: &mut Parts, pdata: &[u8]) -> EntryErrors {
    if pdata.is_empty() {
        return Err(DATA_LEN.into());
    }
    do_list(parts, pdata)
}

/// Bytes of PData before the list of a selective batch: the selected nodes.
pub const NODE_SET: usize = 30;

/// Whether a node set names this address, which is below 240.
pub fn names(nodes: &[u8], address: u16) -> bool {
    nodes[address as usize / 8] & (1 << (address % 8)) != 0
}

/// None if the node is not selected; the list is then not read.
fn do_selective_batch(parts: &mut Parts, pdata: &[u8]) -> Option<EntryErrors> {
    if pdata.len() < NODE_SET + 1 {
        return Some(Err(DATA_LEN.into()));
    }
    let (nodes, list) = pdata.split_at(NODE_SET);
    if !names(nodes, parts.node.settings.address) {
        return None;
    }
    let in_pdata = |e: RequestError| RequestError { place: e.place + NODE_SET as u8, ..e };
    Some(do_list(parts, list).map_err(in_pdata))
}

/// A place in the error counts in the list.
pub fn do_list(parts: &mut Parts, list: &[u8]) -> EntryErrors {
    let entries = read_list(list)?;
    let mut errors = Vec::new();
    for entry in entries {
        errors.push(match do_entry(parts, &entry) {
            Ok(_) => 0,
            Err(error) => error,
        });
    }
    Ok(errors)
}

/// A code check without an error.
pub struct CodeCheck {
    pub code: CodeType,
    /// Flag bit 0: load the code if the checksum matches.
    pub load: bool,
    pub address: usize,
    pub length: usize,
    pub sum: u16,
}

/// The code check in PData, or ErrN.
pub fn read_code_check(pdata: &[u8]) -> Result<CodeCheck, u8> {
    if pdata.len() != 7 {
        return Err(DATA_LEN);
    }
    let flags = pdata[0];
    let address = word(pdata[1], pdata[2]) as usize;
    let length = word(pdata[3], pdata[4]) as usize;
    let sum = word(pdata[5], pdata[6]);
    if flags & 0xFC != 0 {
        return Err(FAIL);
    }
    let code = if flags & 2 == 0 { CodeType::Handler } else { CodeType::PlugIn };
    if length == 0 || !length.is_multiple_of(code.unit()) {
        return Err(DATA);
    }
    if address + length > EXTERNAL_SIZE {
        return Err(ADDR);
    }
    Ok(CodeCheck { code, load: flags & 1 != 0, address, length, sum })
}

impl CodeCheck {
    pub fn image<'a>(&self, external: &'a [u8]) -> &'a [u8] {
        &external[self.address..self.address + self.length]
    }
}

fn code_check(parts: &mut Parts, pdata: &[u8]) -> DataOrError {
    let check = read_code_check(pdata)?;
    let matches = check.code.checksum(check.image(parts.external)) == check.sum;
    Ok((vec![matches as u8], matches && check.load))
}

// ---- FRC ----
pub fn frc(node: Node, command: u8, user_data: &[u8], stuck: u32, alarm: u32) -> FrcAnswer {
    if !node_rule(&node) {
        return FrcAnswer { refusal: 1, value: 0 };
    }
    let none = FrcAnswer { refusal: 0, value: 1 };
    if command != 0x10 && command != 0x11 {
        return none;
    }
    if user_data.len() < 2 || user_data[0] != 0x71 {
        return none;
    }
    let lamp = (user_data[1] & 0x1F) as usize;
    if lamp >= node.settings.lamp_count as usize {
        return none;
    }
    let bit = |mask: u32| mask & (1u32 << lamp) != 0;
    let yes = if command == 0x10 {
        actual_level(node.lamps[lamp].level, node.settings.step) != 0 || bit(stuck)
    } else {
        bit(alarm)
    };
    FrcAnswer { refusal: 0, value: if yes { 3 } else { 2 } }
}
