//! The stack that each call takes, by the machine code of the archive, compared
//! with what include/grelfint.h says. Counted are the return address, what a
//! function pushes and reserves or uses without that, and the same of the
//! functions that it calls; not memcpy, memmove and memset, which are the C
//! library's.
use std::collections::{BTreeMap, HashMap};
use std::path::PathBuf;
use std::process::Command;

/// The machine code of a function, by address.
type Code = BTreeMap<u64, Instruction>;

struct Instruction {
    name: String,
    operands: String,
    /// What its relocation names: the function that it calls.
    symbol: Option<String>,
}

fn root() -> PathBuf {
    PathBuf::from(env!("CARGO_MANIFEST_DIR")).join("..")
}

fn hex(text: &str) -> u64 {
    u64::from_str_radix(text, 16).unwrap_or_else(|_| panic!("no address: {text}"))
}

/// A line of objdump: `<name>:`, an instruction, or the relocation of the one before.
fn functions(listing: &str) -> HashMap<String, Code> {
    let mut functions = HashMap::new();
    let mut name = String::new();
    for line in listing.lines() {
        if let Some((_, rest)) = line.split_once(" <").filter(|_| line.ends_with(">:")) {
            name = rest.trim_end_matches(">:").to_string();
            functions.insert(name.clone(), Code::new());
            continue;
        }
        let Some((address, text)) = line.trim_start().split_once(":\t").or(line.trim_start().split_once(": ")) else {
            continue;
        };
        let Some(code) = functions.get_mut(&name) else { continue };
        if let Some((_, symbol)) = text.split_once("\t").filter(|(kind, _)| kind.starts_with("R_X86_64")) {
            let symbol = symbol.split_once("-0x").map_or(symbol, |(symbol, _)| symbol).trim_start_matches(".text.");
            let (_, last) = code.iter_mut().next_back().expect("a relocation follows its instruction");
            last.symbol = Some(symbol.to_string());
        } else if u64::from_str_radix(address, 16).is_ok() {
            let (operation, operands) = text.trim().split_once(' ').unwrap_or((text.trim(), ""));
            let operands = operands.trim().to_string();
            code.insert(hex(address), Instruction { name: operation.to_string(), operands, symbol: None });
        }
    }
    functions
}

impl Instruction {
    /// By how much it moves the stack pointer down.
    fn growth(&self) -> i64 {
        if self.name.starts_with("push") {
            return 8;
        }
        if self.name.starts_with("pop") && self.name != "popcnt" {
            return -8;
        }
        if !self.operands.ends_with(",%rsp") || self.name.starts_with("cmp") || self.name.starts_with("test") {
            return 0;
        }
        let immediate = || hex(self.operands.trim_start_matches("$0x").trim_end_matches(",%rsp")) as i64;
        match self.name.as_str() {
            "sub" => immediate(),
            "add" => -immediate(),
            _ => panic!("{} {}: moves the stack pointer in a way that is not known here", self.name, self.operands),
        }
    }

    /// How far below the stack pointer it reads or writes: a function that calls no other may use 128 bytes there.
    fn below(&self) -> i64 {
        let before = self.operands.split_once("(%rsp").map_or("", |(before, _)| before);
        before.rsplit_once("-0x").map_or(0, |(_, offset)| hex(offset) as i64)
    }

    /// A function of the same section, by its name in angle brackets.
    fn callee(&self) -> String {
        let (_, name) = self.operands.split_once('<').expect("a call by name");
        assert!(!name.contains('+'), "{}: a call of an unknown function", self.operands);
        name.trim_end_matches('>').to_string()
    }

    fn target(&self) -> u64 {
        hex(self.operands.split(' ').next().expect("an address"))
    }
}

/// A walk through the code of a function, on which every way is followed.
struct Walk<'a> {
    code: &'a Code,
    /// How far the stack pointer is below the return address, before each instruction.
    depths: BTreeMap<u64, i64>,
    /// Where to go on, and the depth there.
    open: Vec<(u64, i64)>,
    /// The depth at a jump through a table, which may lead to any place that no other way does.
    table: Option<i64>,
    deepest: i64,
    /// The functions that are called, and the depths there.
    calls: Vec<(String, i64)>,
}

impl Walk<'_> {
    /// The next instruction that was not visited.
    fn next(&mut self) -> Option<(u64, i64)> {
        while let Some((address, depth)) = self.open.pop() {
            match self.depths.insert(address, depth) {
                None => return Some((address, depth)),
                Some(known) => assert_eq!(known, depth, "two depths at {address:x}"),
            }
        }
        let missed = *self.code.keys().find(|address| !self.depths.contains_key(address))?;
        let depth = self.table?;
        self.depths.insert(missed, depth);
        Some((missed, depth))
    }

    /// Follows an instruction.
    fn step(&mut self, address: u64, depth: i64) {
        let instruction = &self.code[&address];
        let after = depth + instruction.growth();
        self.deepest = self.deepest.max(after).max(depth + instruction.below());
        let name = instruction.name.as_str();
        if name == "ret" {
            assert_eq!(depth, 0, "the stack pointer at the return, {address:x}");
        }
        match &instruction.symbol {
            Some(symbol) if name == "call" => self.calls.push((symbol.clone(), after)),
            // in place of a call and a return
            Some(symbol) if name.starts_with('j') => self.calls.push((symbol.clone(), after - 8)),
            None if name == "call" => self.calls.push((instruction.callee(), after)),
            None if name == "jmp" && instruction.operands.starts_with('*') => {
                assert!(self.table.is_none_or(|known| known == after), "two tables at two depths");
                self.table = Some(after);
            }
            None if name.starts_with('j') => self.open.push((instruction.target(), after)),
            _ => {}
        }
        if let Some((&next, _)) =
            self.code.range(address + 1..).next().filter(|_| !["ret", "ud2", "jmp"].contains(&name))
        {
            self.open.push((next, after));
        }
    }
}

/// The deepest place of a function below its return address, and the depth of each call of another function.
fn depths(code: &Code) -> (i64, Vec<(String, i64)>) {
    let open = vec![(*code.keys().next().expect("some code"), 0)];
    let mut walk = Walk { code, depths: BTreeMap::new(), open, table: None, deepest: 0, calls: Vec::new() };
    while let Some((address, depth)) = walk.next() {
        walk.step(address, depth);
    }
    (walk.deepest, walk.calls)
}

/// Calls itself for the rest of a list after each entry, which has at least 5 of the 56 bytes of PData: at most 12
/// calls are open at a time.
const RECURSIVE: &str = "batch::list::check_list";
const OPEN_CALLS: i64 = 12;

/// The stack of a function with its return address.
fn stack(name: &str, functions: &HashMap<String, Code>, path: &mut Vec<String>) -> i64 {
    assert!(!path.iter().any(|caller| caller == name), "{name} calls itself by way of another function");
    let Some(code) = functions.get(name) else {
        assert!(["memcpy", "memmove", "memset"].contains(&name), "{name} is not in the archive");
        return 0;
    };
    let (deepest, calls) = depths(code);
    let (own, others): (Vec<_>, Vec<_>) = calls.into_iter().partition(|(callee, _)| callee == name);
    let again = own.iter().map(|(_, depth)| (OPEN_CALLS - 1) * (8 + depth)).max();
    assert!(again.is_none() || name == RECURSIVE, "{name} calls itself");
    path.push(name.to_string());
    let called = others.iter().map(|(callee, depth)| depth + stack(callee, functions, path)).max();
    path.pop();
    again.unwrap_or(0) + 8 + deepest.max(called.unwrap_or(0))
}

/// The table in the header: pairs of a call, without `grelfint_`, and its bytes.
fn stated(header: &str) -> BTreeMap<String, i64> {
    let (_, text) = header.split_once("The stack that a call takes").expect("the heading of the table");
    let table = text.split("\n *\n").nth(1).expect("an empty line before and after the table");
    let words: Vec<&str> = table.split_whitespace().filter(|word| *word != "*").collect();
    let pairs = words.chunks(2).map(|pair| {
        let bytes = pair[1].replace(',', "").parse().unwrap_or_else(|_| panic!("{pair:?}: not a call and its bytes"));
        (format!("grelfint_{}", pair[0]), bytes)
    });
    pairs.collect()
}

#[test]
fn stack_as_stated() {
    let folder = std::env::var_os("GRELFINT_LIB_DIR").map_or_else(|| root().join("crates/grelfint/out"), PathBuf::from);
    let archive = folder.join("libgrelfint.a");
    let dump = Command::new("objdump").args(["-dr", "--no-show-raw-insn"]).arg(&archive).output().expect("objdump");
    assert!(dump.status.success(), "{}", String::from_utf8_lossy(&dump.stderr));
    let functions = functions(&String::from_utf8(dump.stdout).expect("text"));
    let calls = functions.keys().filter(|name| name.starts_with("grelfint_"));
    let measured: BTreeMap<String, i64> =
        calls.map(|name| (name.clone(), stack(name, &functions, &mut Vec::new()))).collect();
    for (name, bytes) in &measured {
        println!("{name} {bytes}");
    }
    let header = std::fs::read_to_string(root().join("include/grelfint.h")).expect("the header");
    assert_eq!(stated(&header), measured);
}
