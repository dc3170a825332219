//! A lamp node from its start to a scene. It prints the lines of `node.expected`.
use grelfint::scene::compile;
use grelfint::{
    Node, Refusal, Settings, ADDRESS_MAX, BITMAP, COMPILED, EEPROM, EXTERNAL, HWPID_ANY, KIND_EEPROM, KIND_SET, LAMPS,
    NADR_BROADCAST, PCMD_LIGHTS_LOWER, PCMD_LIGHTS_RAISE, PCMD_LIGHTS_SET, PCMD_OS_BATCH, PNUM_LIGHTS, PNUM_OS,
    POWER_TIMED, RESPONSE, TIME_SECONDS,
};
use std::error::Error;

const ADDRESS: u16 = 1;
const HWPID: u16 = 0x2471;
const LAMP_COUNT: u8 = 3;

/// A node with the memories that its firmware keeps.
struct Board {
    node: Node,
    eeprom: [u8; EEPROM],
    external: [u8; EXTERNAL],
}

impl Board {
    fn new() -> Result<Board, Refusal> {
        let settings = Settings { address: ADDRESS, hwpid: HWPID, dpa_value: 0, lamp_count: LAMP_COUNT, step: 10 };
        Ok(Board { node: Node::start(settings)?, eeprom: [0; EEPROM], external: [0; EXTERNAL] })
    }

    /// Has the node handle a request, and prints what comes back.
    fn handle(&mut self, title: &str, frame: &[u8]) -> Result<(), Refusal> {
        let mut buffer = [0; RESPONSE];
        let handled = self.node.handle_request(frame, &mut self.eeprom, &mut self.external, &mut buffer)?;
        let mut reply = match handled.response.map(|response| response.data()) {
            Some(Ok(data)) => format!("data {data:?}"),
            Some(Err(error)) => format!("error: {error}"),
            None if handled.addressed => "no response".to_string(),
            None => "for another node".to_string(),
        };
        if let Some(fault) = handled.fault {
            reply += &format!(" ({} at byte {})", fault.reason, fault.place);
        }
        self.print(title, &reply)
    }

    /// A line, with the requested and the actual level of each lamp.
    fn print(&self, title: &str, text: &str) -> Result<(), Refusal> {
        let lamps = &self.node.lamps[..LAMP_COUNT.into()];
        let requested: Vec<u8> = lamps.iter().map(|lamp| lamp.level).collect();
        let actual = &self.node.actual_levels()?[..lamps.len()];
        println!("{title:<14}{text:<54}{requested:?} -> {actual:?}");
        Ok(())
    }
}

/// A request with a HWPID that every node accepts.
fn request(nadr: u16, pnum: u8, pcmd: u8, pdata: &[u8]) -> Vec<u8> {
    [&nadr.to_le_bytes(), &[pnum, pcmd][..], &HWPID_ANY.to_le_bytes(), pdata].concat()
}

/// The same as an entry of a batch: its length comes first, and there is no NADR.
fn entry(pnum: u8, pcmd: u8, pdata: &[u8]) -> Vec<u8> {
    let mut entry = request(0, pnum, pcmd, pdata)[1..].to_vec();
    entry[0] = entry.len() as u8;
    entry
}

/// PData for one lamp: a bitmap of the lamps, then a power byte.
fn one_lamp(lamp: u8, power: u8) -> [u8; BITMAP + 1] {
    [1 << lamp, 0, 0, 0, power]
}

/// A book with one scene: lamp 0 at 30 for 20 seconds, lamp 1 at a level, and a note in EEPROM.
fn book(level: u8) -> Vec<u8> {
    let steps = [[KIND_SET, 0, 30, TIME_SECONDS | 20], [KIND_SET, 1, level, 0], [KIND_EEPROM, 5, 0xAA, 0]];
    let contents = [1, 4, 0, steps.len() as u8]; // one scene, which starts at byte 4
    [&contents, &steps.concat()[..]].concat()
}

/// A scene, compiled for this node and handled request by request; then one with a bad step, which has no requests.
fn scenes(board: &mut Board) -> Result<(), Box<dyn Error>> {
    let mut out = [0; COMPILED];
    for frame in compile(&book(75), 0, ADDRESS, HWPID, &mut out)?.requests() {
        board.handle("scene", frame)?;
    }
    println!("EEPROM byte 5 is {:02X}", board.eeprom[5]);
    if let Err(refused) = compile(&book(101), 0, ADDRESS, HWPID, &mut out) {
        board.print("bad scene", &format!("refused: {refused}"))?;
    }
    Ok(())
}

fn main() -> Result<(), Box<dyn Error>> {
    let mut board = Board::new()?;

    // Lamp 0 to 25, and lamp 2 to 90. The data of the response are the actual levels before.
    let pdata = [0b101, 0, 0, 0, 25, 90];
    board.handle("set", &request(ADDRESS, PNUM_LIGHTS, PCMD_LIGHTS_SET, &pdata))?;

    // Two requests in one: raise lamp 1 by 42, then lower lamp 0 by 5. Without its end the list is not executed at all.
    let raise = entry(PNUM_LIGHTS, PCMD_LIGHTS_RAISE, &one_lamp(1, 42));
    let lower = entry(PNUM_LIGHTS, PCMD_LIGHTS_LOWER, &one_lamp(0, 5));
    let list = [&raise[..], &lower, &[0]].concat();
    board.handle("batch", &request(ADDRESS, PNUM_OS, PCMD_OS_BATCH, &list))?;
    board.handle("broken batch", &request(ADDRESS, PNUM_OS, PCMD_OS_BATCH, &list[..raise.len()]))?;

    // All lamps of all nodes up by 10. A node does this without a response.
    let pdata = [&[0xFF; BITMAP][..], &[10; LAMPS]].concat();
    board.handle("broadcast", &request(NADR_BROADCAST, PNUM_LIGHTS, PCMD_LIGHTS_RAISE, &pdata))?;
    board.handle("other node", &request(ADDRESS_MAX, PNUM_LIGHTS, PCMD_LIGHTS_SET, &one_lamp(0, 0)))?;

    // A second later the time of lamp 2 is over.
    let pdata = [0b100, 0, 0, 0, POWER_TIMED | 50, TIME_SECONDS | 1];
    board.handle("timed", &request(ADDRESS, PNUM_LIGHTS, PCMD_LIGHTS_SET, &pdata))?;
    board.node.tick()?;
    board.print("tick", "")?;

    // A refused call changes nothing.
    match board.handle("cut frame", &[1, 0, PNUM_LIGHTS]) {
        Err(refusal @ Refusal::Frame) => board.print("cut frame", &format!("refused: {refusal}"))?,
        other => other?,
    }

    scenes(&mut board)
}
