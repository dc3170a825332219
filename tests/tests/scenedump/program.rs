//! The program as a process.
use crate::USAGE;
use std::ffi::OsStr;
use std::fs;
use std::io::{Read, Write};
use std::path::{Path, PathBuf};
use std::process::{Child, Command, ExitStatus, Stdio};
use std::thread;
use std::time::Duration;

pub fn program() -> PathBuf {
    let path = std::env::var_os("SCENEDUMP")
        .map_or_else(|| Path::new(env!("CARGO_MANIFEST_DIR")).join("../crates/scenedump/out/scenedump"), PathBuf::from);
    // the tests change the folder
    fs::canonicalize(&path).unwrap_or_else(|error| panic!("{}: {error}", path.display()))
}

/// Where the program runs, and where the books are.
pub fn folder() -> PathBuf {
    let folder = Path::new(env!("CARGO_TARGET_TMPDIR")).join("scenedump");
    fs::create_dir_all(&folder).expect("a folder");
    folder
}

/// Writes a book to a file of that folder, and returns its name.
pub fn file_of<'a>(name: &'a str, book: &[u8]) -> &'a str {
    fs::write(folder().join(name), book).expect("written");
    name
}

pub fn command<A: AsRef<OsStr>>(arguments: &[A]) -> Command {
    let mut command = Command::new(program());
    command.args(arguments).current_dir(folder());
    command.stdin(Stdio::null()).stdout(Stdio::piped()).stderr(Stdio::piped());
    command
}

/// What the program wrote to standard output and to standard error.
#[derive(PartialEq, Debug)]
pub struct Written {
    pub output: String,
    pub errors: String,
}

impl Written {
    pub fn output(text: impl Into<String>) -> Written {
        Written { output: text.into(), errors: String::new() }
    }

    pub fn errors(text: impl Into<String>) -> Written {
        Written { output: String::new(), errors: text.into() }
    }

    pub fn bad_argument(number: usize, text: &str) -> Written {
        Written::errors(format!("bad argument {number}: {text}\n{USAGE}"))
    }
}

pub fn text_of(mut from: impl Read) -> String {
    let mut bytes = Vec::new();
    from.read_to_end(&mut bytes).expect("read");
    String::from_utf8_lossy(&bytes).into_owned()
}

/// Reads what is left of both streams, if they are pipes, and waits.
pub fn end_of(mut child: Child) -> (Written, ExitStatus) {
    let output = child.stdout.take().map_or_else(String::new, text_of);
    let errors = child.stderr.take().map_or_else(String::new, text_of);
    (Written { output, errors }, child.wait().expect("a status"))
}

pub fn run_with<A: AsRef<OsStr>>(arguments: &[A], change: impl FnOnce(&mut Command)) -> Written {
    let mut command = command(arguments);
    change(&mut command);
    let (written, status) = end_of(command.spawn().expect("started"));
    assert!(status.success(), "{status}");
    written
}

/// Runs the program without standard input.
pub fn run<A: AsRef<OsStr>>(arguments: &[A]) -> Written {
    run_with(arguments, |_| ())
}

/// Writes `input` to standard input in pieces of `piece` bytes, with a pause after each.
pub fn run_on<A: AsRef<OsStr>>(arguments: &[A], input: &[u8], piece: usize, pause: Duration) -> Written {
    let mut child = command(arguments).stdin(Stdio::piped()).spawn().expect("started");
    let mut stdin = child.stdin.take().expect("a pipe");
    let input = input.to_vec();
    let writer = thread::spawn(move || {
        for part in input.chunks(piece) {
            // the program may end before it has read an overlong book
            if stdin.write_all(part).is_err() {
                return;
            }
            if !pause.is_zero() {
                thread::sleep(pause);
            }
        }
    });
    let (written, status) = end_of(child);
    writer.join().expect("written");
    assert!(status.success(), "{status}");
    written
}
