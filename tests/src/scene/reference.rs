//! Scenes: document 01 with changes 1/12 and 3/12 of document 02, implemented as
//! plainly as possible, without regard to speed.
use crate::node::reference::{
    actual_level, high, low, names, start, word, Parts, EEPROM_SIZE, EXTERNAL_SIZE, RAM_SIZE,
};
use crate::records::SETTINGS;
use grelfint::raw::{CompileAnswer, Lamp, NodeSet, Settings};

// ---- books ----
pub type Step = [u8; 4]; // kind, target, value, time

/// The scenes of a book; none if it is malformed.
pub fn read_book(book: &[u8]) -> Option<Vec<Vec<Step>>> {
    let count = *book.first()? as usize;
    if count > 16 || book.len() < 1 + 3 * count {
        return None;
    }
    let mut scenes = Vec::new();
    let mut at = 1 + 3 * count;
    for i in 0..count {
        let offset = word(book[1 + 3 * i], book[2 + 3 * i]) as usize;
        let steps = book[3 + 3 * i] as usize;
        if steps > 64 || offset != at || at + 4 * steps > book.len() {
            return None;
        }
        let body = &book[at..at + 4 * steps];
        scenes.push(body.chunks(4).map(|s| [s[0], s[1], s[2], s[3]]).collect());
        at += 4 * steps;
    }
    if at != book.len() {
        return None;
    }
    Some(scenes)
}

// ---- the step machine ----
/// Whether the step machine executes a step. Any other step changes nothing. `bad_part` is not asked: it is the compiler's
/// rule, and the compiler may refuse a step that the machine executes.
pub fn executes(step: Step) -> bool {
    let [kind, target, value, time] = step;
    match kind {
        0..=2 => target < 32 && value <= 100 && matches!(time, 0x00..=0x7F | 0x81..=0xFF),
        3 => (target as usize) < RAM_SIZE && time == 0,
        4 => (target as usize) < EEPROM_SIZE && time == 0,
        _ => false,
    }
}

/// One step. It shares no arithmetic with `lights`, because the two are compared.
pub fn do_step(parts: &mut Parts, step: Step) {
    if !executes(step) {
        return;
    }
    let [kind, target, value, time] = step;
    match kind {
        3 => parts.node.ram[target as usize] = value,
        4 => parts.eeprom[target as usize] = value,
        _ => {
            if target < parts.node.settings.lamp_count {
                do_lamp_step(&mut parts.node.lamps[target as usize], kind, value, time);
            }
        }
    }
}

fn do_lamp_step(lamp: &mut Lamp, kind: u8, value: u8, time: u8) {
    if kind == 0 {
        lamp.level = value;
    } else if kind == 1 {
        lamp.level = if lamp.level >= 100 - value { 100 } else { lamp.level + value };
    } else {
        lamp.level = lamp.level.saturating_sub(value);
    }
    lamp.seconds = if time == 0 || lamp.level == 0 {
        0
    } else if time <= 0x7F {
        time as u16 * 60
    } else {
        (time - 0x80) as u16
    };
}

// ---- the compiler ----
/// The refusal for the first bad part of a step; none for a good step.
pub fn bad_part(step: Step) -> Option<u8> {
    let [kind, target, value, time] = step;
    if kind > 4 {
        return Some(81);
    }
    let is_lamp = kind <= 2;
    let targets = match kind {
        3 => RAM_SIZE,
        4 => EEPROM_SIZE,
        _ => 32,
    };
    if target as usize >= targets {
        return Some(82);
    }
    if is_lamp && value > 100 {
        return Some(83);
    }
    let time_is_bad = if is_lamp { time == 0x80 } else { time != 0 };
    if time_is_bad {
        return Some(84);
    }
    None
}

/// What the compiler's two modes differ in.
struct Mode {
    nadr: u16,
    pcmd: u8,
    /// The bytes of PData before the list.
    before_list: Vec<u8>,
    /// The most bytes of an entry's PData.
    entry_limit: usize,
    /// The most bytes of a list, closing zero included.
    list_limit: usize,
}

impl Mode {
    fn batch(address: u16) -> Mode {
        Mode { nadr: address, pcmd: 0x05, before_list: Vec::new(), entry_limit: 50, list_limit: 56 }
    }

    fn selective_batch(nodes: &NodeSet) -> Mode {
        Mode { nadr: 0x00FF, pcmd: 0x0B, before_list: nodes.bits.to_vec(), entry_limit: 20, list_limit: 26 }
    }
}

/// Groups the steps into entries by the joining rule.
fn join(steps: &[Step], entry_limit: usize) -> Vec<Vec<Step>> {
    let mut entries: Vec<Vec<Step>> = Vec::new();
    for &step in steps {
        if let Some(entry) = entries.last_mut() {
            let before = entry[entry.len() - 1];
            let follows = if step[0] <= 2 { step[1] > before[1] } else { step[1] as usize == before[1] as usize + 1 };
            let mut longer = entry.clone();
            longer.push(step);
            if step[0] == before[0] && follows && entry_pdata(&longer).len() <= entry_limit {
                *entry = longer;
                continue;
            }
        }
        entries.push(vec![step]);
    }
    entries
}

fn entry_pdata(steps: &[Step]) -> Vec<u8> {
    let mut pdata = Vec::new();
    if steps[0][0] <= 2 {
        let mut bitmap = [0u8; 4];
        for s in steps {
            bitmap[s[1] as usize / 8] |= 1 << (s[1] % 8);
        }
        pdata.extend_from_slice(&bitmap);
        for s in steps {
            if s[3] == 0 {
                pdata.push(s[2]);
            } else {
                pdata.push(s[2] | 0x80);
                pdata.push(s[3]);
            }
        }
    } else {
        pdata.push(steps[0][1]);
        for s in steps {
            pdata.push(s[2]);
        }
    }
    pdata
}

fn entry_bytes(steps: &[Step], hwpid: u16) -> Vec<u8> {
    let (pnum, pcmd) = match steps[0][0] {
        3 => (0x05, 0x01),
        4 => (0x03, 0x01),
        kind => (0x71, kind),
    };
    let pdata = entry_pdata(steps);
    let mut bytes = vec![5 + pdata.len() as u8, pnum, pcmd, low(hwpid), high(hwpid)];
    bytes.extend_from_slice(&pdata);
    bytes
}

/// The requests of a scene, all of whose steps are good.
fn requests(steps: &[Step], mode: &Mode, hwpid: u16) -> Vec<Vec<u8>> {
    let mut lists: Vec<Vec<u8>> = Vec::new();
    for entry in join(steps, mode.entry_limit) {
        let bytes = entry_bytes(&entry, hwpid);
        match lists.last_mut() {
            // there is room for the closing zero too
            Some(list) if list.len() + bytes.len() < mode.list_limit => list.extend_from_slice(&bytes),
            _ => lists.push(bytes),
        }
    }
    let mut all = Vec::new();
    for list in lists {
        let mut request = vec![low(mode.nadr), high(mode.nadr), 0x02, mode.pcmd, low(hwpid), high(hwpid)];
        request.extend_from_slice(&mode.before_list);
        request.extend_from_slice(&list);
        request.push(0);
        all.push(request);
    }
    all
}

fn refused(refusal: u8, step: u8) -> CompileAnswer {
    CompileAnswer { refusal, step, length: 0 }
}

pub fn compile(book: &[u8], scene: usize, address: u16, hwpid: u16, out: &mut [u8]) -> CompileAnswer {
    if !((1..=239).contains(&address) || address == 255) {
        return refused(1, 0);
    }
    compile_in(&Mode::batch(address), book, scene, hwpid, out)
}

pub fn compile_selected(book: &[u8], scene: usize, nodes: NodeSet, hwpid: u16, out: &mut [u8]) -> CompileAnswer {
    let named: Vec<u16> = (0..240).filter(|&address| names(&nodes.bits, address)).collect();
    if named.is_empty() || named.contains(&0) {
        return refused(1, 0);
    }
    compile_in(&Mode::selective_batch(&nodes), book, scene, hwpid, out)
}

/// All refusals but 1, which depends on the mode, and the output.
fn compile_in(mode: &Mode, book: &[u8], scene: usize, hwpid: u16, out: &mut [u8]) -> CompileAnswer {
    let Some(scenes) = read_book(book) else { return refused(6, 0) };
    if scene >= scenes.len() {
        return refused(7, 0);
    }
    let steps = &scenes[scene];
    for (i, &step) in steps.iter().enumerate() {
        if let Some(refusal) = bad_part(step) {
            return refused(refusal, i as u8);
        }
    }
    if out.len() < 4096 {
        return refused(9, 0);
    }
    let list = requests(steps, mode, hwpid);
    let mut bytes = vec![list.len() as u8];
    for request in &list {
        bytes.push(request.len() as u8);
    }
    for request in &list {
        bytes.extend_from_slice(request);
    }
    out[..bytes.len()].copy_from_slice(&bytes);
    CompileAnswer { refusal: 0, step: 0, length: bytes.len() }
}

pub fn compile_default(book: &[u8], scene: usize, address: u16, out: &mut [u8]) -> CompileAnswer {
    compile(book, scene, address, 0xFFFF, out)
}

pub fn compile_selected_default(book: &[u8], scene: usize, nodes: NodeSet, out: &mut [u8]) -> CompileAnswer {
    compile_selected(book, scene, nodes, 0xFFFF, out)
}

/// What `sceneshow` prints for a book.
pub fn sceneshow(book: &[u8]) -> String {
    let refused = |number: u8| format!("refused {number}\n");
    if book.len() > 4145 {
        return refused(6);
    }
    let settings = Settings { dpa_value: 0, ..SETTINGS };
    let mut out = vec![0; 4096];
    let answer = compile_default(book, 0, 1, &mut out);
    if answer.refusal != 0 {
        return refused(answer.refusal);
    }
    let mut eeprom = [0; EEPROM_SIZE];
    let mut external = vec![0; EXTERNAL_SIZE];
    let mut parts = Parts { node: start(settings).node, eeprom: &mut eeprom, external: &mut external };
    for &step in &read_book(book).unwrap()[0] {
        do_step(&mut parts, step);
    }
    let mut text = String::from("lamp level actual left\n");
    for i in 0..3 {
        let lamp = parts.node.lamps[i];
        let actual = actual_level(lamp.level, settings.step);
        text += &format!("{} {} {} {}\n", i, lamp.level, actual, lamp.seconds);
    }
    text
}
