//! What the program should write, by its description and the reference.
use grelfint_tests::buffers::hex;
use grelfint_tests::gateway::reference::{earliest_send, timeslot};
use grelfint_tests::scene::reference::{bad_part, compile, read_book, Step};

/// What is asked of the program for the requests of a scene.
#[derive(Clone, Copy, PartialEq, Debug)]
pub struct Options {
    pub address: u8,
    pub hwpid: u16,
    pub hops: u8,
    pub lp: bool,
}

impl Options {
    pub const DEFAULT: Options = Options { address: 255, hwpid: 0xFFFF, hops: 0, lp: false };
}

/// `1 step`, `2 steps`.
pub fn counted(number: usize, noun: &str) -> String {
    format!("{number} {noun}{}", if number == 1 { "" } else { "s" })
}

/// Why these bytes are not a book.
pub fn fault_of(book: &[u8]) -> Option<String> {
    let length = book.len();
    if length > 4145 {
        return Some("more than 4145 bytes".to_string());
    }
    let Some(&count) = book.first() else { return Some("it is empty".to_string()) };
    if count > 16 {
        return Some(format!("it has {count} scenes, at most 16"));
    }
    let mut place = 1 + 3 * count as usize;
    if place > length {
        return Some(format!("the contents end at byte {place}, the book at byte {length}"));
    }
    for (k, location) in book[1..place].chunks(3).enumerate() {
        let (start, steps) = (location[0] as usize + 256 * location[1] as usize, location[2] as usize);
        if start != place {
            return Some(format!("scene {k} starts at byte {start}, not at byte {place}"));
        }
        if steps > 64 {
            return Some(format!("scene {k} has {steps} steps, at most 64"));
        }
        place += 4 * steps;
    }
    (place != length).then(|| format!("the scenes end at byte {place}, the book at byte {length}"))
}

pub fn step_text(step: Step) -> String {
    let [kind, target, value, time] = step;
    let fault = match (bad_part(step), kind) {
        (None, _) => None,
        (Some(81), _) => Some("bad kind: kinds are 0 to 4"),
        (Some(82), 3) => Some("bad target: RAM has bytes 0 to 47"),
        (Some(82), 4) => Some("bad target: EEPROM has bytes 0 to 191"),
        (Some(82), _) => Some("bad target: lamps are 0 to 31"),
        (Some(83), _) => Some("bad value: levels are 0 to 100"),
        (Some(84), 3 | 4) => Some("bad time: a memory step has none"),
        (Some(84), _) => Some("bad time: 80 is neither minutes nor seconds"),
        (Some(other), _) => panic!("no part has refusal {other}"),
    };
    if let Some(fault) = fault {
        return format!("{} {fault}", hex(&step));
    }
    let time = match time {
        0 => String::new(),
        1..=0x7F => format!(" for {time} min"),
        _ => format!(" for {} s", time - 0x80),
    };
    match kind {
        0 => format!("set lamp {target} to {value}{time}"),
        1 => format!("raise lamp {target} by {value}{time}"),
        2 => format!("lower lamp {target} by {value}{time}"),
        3 => format!("write {value:02X} to RAM byte {target}"),
        _ => format!("write {value:02X} to EEPROM byte {target}"),
    }
}

pub fn requests_text(book: &[u8], scene: u64, options: Options) -> String {
    let Options { address, hwpid, hops, lp } = options;
    let to = if address == 255 { "to all nodes".to_string() } else { format!("to node {address}") };
    let mut text = format!("scene {scene} {to}, HWPID {hwpid:04X}");
    let mut out = [0; 4096];
    let answer = compile(book, scene as usize, address.into(), hwpid, &mut out);
    match answer.refusal {
        0 => {}
        7 => return text + &format!(": refused 7, the book has {}\n", counted(book[0].into(), "scene")),
        refusal => return text + &format!(": refused {refusal} at step {}\n", answer.step),
    }
    let (lengths, mut rest) = out[1..answer.length].split_at(out[0].into());
    text += &format!(", {}\n", counted(lengths.len(), "request"));
    let mut sum = 0;
    for &length in lengths {
        let (request, after) = rest.split_at(length.into());
        let pdata = request.len() - 6;
        let slot = 10 * timeslot(pdata, lp).slot as u32;
        let next = earliest_send(hops, pdata, 0, hops, 0, lp, address == 255).milliseconds;
        text += &format!("  {length} bytes, slot {slot} ms, next send after {next} ms: {}\n", hex(request));
        sum += next;
        rest = after;
    }
    text + &format!("  {sum} ms in all\n")
}

pub fn dump_of(book: &[u8], scenes: &[u64], options: Options) -> String {
    let read = read_book(book);
    let fault = fault_of(book);
    assert_eq!(read.is_none(), fault.is_some(), "{fault:?}");
    if let Some(fault) = fault {
        return format!("refused 6: not a scene book: {fault}\n");
    }
    let read = read.expect("a book");
    let mut text = format!("book of {}, {}\n", counted(book.len(), "byte"), counted(read.len(), "scene"));
    for (k, steps) in read.iter().enumerate() {
        text += &format!("scene {k}, {}\n", counted(steps.len(), "step"));
        for (i, &step) in steps.iter().enumerate() {
            text += &format!("  {i} {}\n", step_text(step));
        }
        let answer = compile(book, k, 255, 0xFFFF, &mut [0; 4096]);
        if answer.refusal != 0 {
            text += &format!("  refused {} at step {}\n", answer.refusal, answer.step);
        }
    }
    if !scenes.is_empty() {
        text += "\n";
    }
    scenes.iter().fold(text, |text, &scene| text + &requests_text(book, scene, options))
}

// ---- arguments, as the description reads them ----
#[derive(PartialEq, Debug)]
pub enum Asked {
    Usage,
    Dump { options: Options, file: String, scenes: Vec<u64> },
}

/// Decimal digits, or `0x` and hexadecimal ones; at most this.
pub fn number(text: &str, most: u64) -> Option<u64> {
    let (digits, base) = text.strip_prefix("0x").map_or((text, 10), |digits| (digits, 16));
    let digits: Option<Vec<u32>> = digits.chars().map(|digit| digit.to_digit(base)).collect();
    let digits = digits.filter(|digits| !digits.is_empty())?;
    let value = digits.iter().try_fold(0u64, |value, &digit| value.checked_mul(base.into())?.checked_add(digit.into()));
    value.filter(|&value| value <= most)
}

/// What the arguments ask, or the number and the text of the first bad one.
pub fn asked(arguments: &[String]) -> Result<Asked, (usize, String)> {
    let bad = |at: usize| {
        let text = &arguments[at];
        (at + 1, if text.len() > 4096 { "too long".to_string() } else { text.clone() })
    };
    let (mut options, mut at) = (Options::DEFAULT, 0);
    while let Some(argument) = arguments.get(at).filter(|argument| argument.starts_with('-') && *argument != "-") {
        if argument == "-h" {
            return Ok(Asked::Usage);
        }
        if argument == "-l" {
            (options.lp, at) = (true, at + 1);
            continue;
        }
        if !["-a", "-p", "-n"].contains(&&argument[..]) {
            return Err(bad(at));
        }
        let text = arguments.get(at + 1).ok_or(bad(at))?;
        let value = number(text, if argument == "-p" { 0xFFFF } else { 255 }).ok_or(bad(at + 1))?;
        match &argument[..] {
            "-a" if matches!(value, 1..=239 | 255) => options.address = value as u8,
            "-p" => options.hwpid = value as u16,
            "-n" => options.hops = value as u8,
            _ => return Err(bad(at + 1)),
        }
        at += 2;
    }
    let file = arguments.get(at).map_or("-", |file| file).to_string();
    if file.len() > 4096 {
        return Err(bad(at));
    }
    let scenes = (at + 1..arguments.len()).map(|at| number(&arguments[at], u64::MAX).ok_or(bad(at)));
    Ok(Asked::Dump { options, file, scenes: scenes.collect::<Result<_, _>>()? })
}
