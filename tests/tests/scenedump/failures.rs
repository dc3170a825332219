//! Input and output that fail.
use crate::formatter::{dump_of, Options};
use crate::program::{command, end_of, file_of, folder, program, run, run_with, Written};
use crate::{longest, EXAMPLE, LISTED};
use std::fs::{self, File};
use std::os::fd::OwnedFd;
use std::os::unix::net::UnixDatagram;
use std::os::unix::process::ExitStatusExt;
use std::process::Command;

#[test]
fn files_that_cannot_be_read() {
    let book = file_of("a.book", &EXAMPLE);
    let (below, long) = (format!("{book}/b"), "n".repeat(256));
    for (name, reason) in [
        ("missing.book", "No such file or directory"),
        ("missing/a.book", "No such file or directory"),
        ("", "No such file or directory"),
        (".", "Is a directory"),
        ("/", "Is a directory"),
        (&below, "Not a directory"),
        (&long, "File name too long"),
        ("/proc/self/mem", "Input/output error"),
    ] {
        let want = Written::errors(format!("{name}: {reason}\n"));
        assert_eq!(run(&[name]), want);
        assert_eq!(run(&["-a", "1", name, "0", "1"]), want);
    }
}

#[test]
fn standard_input_that_cannot_be_read() {
    let unreadable = || File::options().append(true).create(true).open(folder().join("unreadable")).expect("opened");
    for arguments in [&[][..], &["-"], &["-l", "-", "0"]] {
        let written = run_with(arguments, |c| _ = c.stdin(unreadable()));
        assert_eq!(written, Written::errors("standard input: Bad file descriptor\n"), "{arguments:?}");
        let written = run_with(arguments, |c| _ = c.stdin(File::open(".").expect("opened")));
        assert_eq!(written, Written::errors("standard input: Is a directory\n"), "{arguments:?}");
    }
    // a file is named, so standard input does not matter
    let book = file_of("b.book", &EXAMPLE);
    assert_eq!(run_with(&[book], |c| _ = c.stdin(unreadable())), Written::output(LISTED));
}

#[test]
fn standard_output_that_cannot_be_written() {
    let (book, long) = (file_of("c.book", &EXAMPLE), file_of("d.book", &longest()));
    let bad = file_of("e.book", &[]);
    let full = || File::options().write(true).open("/dev/full").expect("opened");
    for arguments in [&[book][..], &[book, "0", "1"], &[bad], &["-h"], &[long], &[long, "0", "1", "2", "3", "4"]] {
        let written = run_with(arguments, |c| _ = c.stdout(full()));
        assert_eq!(written, Written::errors("standard output: No space left on device\n"), "{arguments:?}");
        let written = run_with(arguments, |c| _ = c.stdout(File::open("/dev/null").expect("opened")));
        assert_eq!(written, Written::errors("standard output: Bad file descriptor\n"), "{arguments:?}");
    }
    // what is written to standard error does not depend on standard output, nor the other way round
    assert_eq!(run_with(&["-x"], |c| _ = c.stdout(full())), Written::bad_argument(1, "-x"));
    let missing = Written::errors("missing.book: No such file or directory\n");
    assert_eq!(run_with(&["missing.book"], |c| _ = c.stdout(full())), missing);
    assert_eq!(run_with(&["-x"], |c| _ = c.stderr(full())), Written::output(""));
    assert_eq!(run_with(&[book], |c| _ = c.stderr(full())), Written::output(LISTED));
}

/// Several programs may share standard error, so the message about standard output is one write. Each write to this socket is a message of
/// its own.
#[test]
fn failed_output_is_reported_in_one_write() {
    let book = file_of("h.book", &EXAMPLE);
    for arguments in [&[book][..], &[book, "0"], &["-h"]] {
        let (ours, theirs) = UnixDatagram::pair().expect("a pair");
        let full = File::options().write(true).open("/dev/full").expect("opened");
        let status = command(arguments).stdout(full).stderr(OwnedFd::from(theirs)).status().expect("run");
        assert!(status.success(), "{status}");
        ours.set_nonblocking(true).expect("set");
        let mut message = [0; 128];
        let length = ours.recv(&mut message).expect("a message");
        assert_eq!(String::from_utf8_lossy(&message[..length]), "standard output: No space left on device\n", "{arguments:?}");
        let next = ours.recv(&mut message);
        assert!(!matches!(next, Ok(length) if length > 0), "{arguments:?}: a second write of {next:?} bytes");
    }
}

/// A file that may not grow past a limit gets what fits, and the rest is not lost silently.
#[test]
fn standard_output_that_becomes_full() {
    let (book, text) = (longest(), dump_of(&longest(), &[], Options::DEFAULT));
    let limited = "trap '' XFSZ; ulimit -f 8; exec \"$0\" \"$1\" > limited.txt";
    let mut shell = Command::new("sh");
    shell.args(["-c", limited]).arg(program()).arg(file_of("g.book", &book)).current_dir(folder());
    let output = shell.output().expect("run");
    assert!(output.status.success(), "{}", output.status);
    assert_eq!(String::from_utf8_lossy(&output.stderr), "standard output: File too large\n");
    let written = fs::read(folder().join("limited.txt")).expect("read");
    assert!(written.len() >= 4096 && written.len() < text.len(), "{} bytes", written.len());
    assert!(text.as_bytes().starts_with(&written), "not the start of the output");
}

/// The reader of a long output goes away: the program says so, or the signal of the pipe ends it.
#[test]
fn broken_pipe() {
    let book = file_of("f.book", &longest());
    let scenes: Vec<String> = (0..400).map(|i| (i % 16).to_string()).collect();
    let arguments = [vec![book.to_string()], scenes].concat();
    let mut child = command(&arguments).spawn().expect("started");
    drop(child.stdout.take());
    let (written, status) = end_of(child);
    const SIGPIPE: i32 = 13;
    if status.signal() != Some(SIGPIPE) {
        assert!(status.success(), "{status}");
        assert_eq!(written, Written::errors("standard output: Broken pipe\n"));
    }
}
