//! Good and bad arguments.
use crate::formatter::{asked, dump_of, Asked, Options};
use crate::program::{command, file_of, folder, run, run_on, Written};
use crate::{EXAMPLE, LISTED, USAGE};
use grelfint_tests::board::book_of;
use grelfint_tests::counts::Counts;
use grelfint_tests::rng::{seed, Rng};
use std::ffi::OsStr;
use std::fs;
use std::os::unix::ffi::OsStrExt;
use std::time::Duration;

#[test]
fn usage() {
    assert_eq!(run(&["-h"]), Written::output(USAGE));
    for arguments in [&["-h", "-h"][..], &["-h", "-x"], &["-l", "-a", "5", "-h", "-a"], &["-h", "no.book", "-1"]] {
        assert_eq!(run(arguments), Written::output(USAGE), "{arguments:?}");
    }
    let long = "1".repeat(4097);
    assert_eq!(run(&["-h", &long]), Written::output(USAGE));
}

/// The first bad argument is told, before the file is opened.
#[test]
fn bad_arguments() {
    let book = file_of("arguments.book", &EXAMPLE);
    for (arguments, number) in [
        (&["-x"][..], 1),
        (&["-ll"], 1),
        (&["-lh"], 1),
        (&["-a7"], 1),
        (&["--"], 1),
        (&["--help"], 1),
        (&["-H"], 1),
        (&["-1"], 1),
        (&["-a"], 1),
        (&["-l", "-p"], 2),
        (&["-a", "1", "-n"], 3),
        (&["-a", ""], 2),
        (&["-a", "-h"], 2),
        (&["-a", "-"], 2),
        (&["-a", "0"], 2),
        (&["-a", "240"], 2),
        (&["-a", "254"], 2),
        (&["-a", "256"], 2),
        (&["-a", "257"], 2),
        (&["-a", "511"], 2),
        (&["-a", "65537"], 2),
        (&["-a", "4294967297"], 2),
        (&["-a", "18446744073709551617"], 2),
        (&["-p", "65536"], 2),
        (&["-p", "0x10000"], 2),
        (&["-n", "256"], 2),
        (&["-n", "-1"], 2),
        (&["-n", "+1"], 2),
        (&["-n", " 1"], 2),
        (&["-n", "1 "], 2),
        (&["-n", "1.0"], 2),
        (&["-n", "0x"], 2),
        (&["-n", "0X1"], 2),
        (&["-n", "x1"], 2),
        (&["-n", "00x1"], 2),
        (&["-n", "0x1G"], 2),
        (&["-n", "1F"], 2),
        (&["-n", "1_0"], 2),
        (&["-n", "x", "-h"], 2),
        (&["-x", "-h"], 1),
        (&["-l", "-l", "-a", "1", "-a", "2", "-q"], 7),
        (&[book, "-l"], 2),
        (&[book, "-h"], 2),
        (&[book, "-"], 2),
        (&[book, ""], 2),
        (&[book, "0", "x"], 3),
        (&[book, "0", "0", "0x", "y"], 4),
        (&["-n", "1", book, "0", "18446744073709551616"], 5),
        (&[book, "0x10000000000000000"], 2),
        (&[book, "99999999999999999999999999999999999999999"], 2),
        (&["-", "-a", "1"], 2),
        (&["missing.book", "x"], 2),
        (&["", "x"], 2),
    ] {
        let want = Written::bad_argument(number, arguments[number - 1]);
        assert_eq!(run(arguments), want, "{arguments:?}");
        assert_eq!(run_on(arguments, &EXAMPLE, 100, Duration::ZERO), want, "{arguments:?}");
        let owned: Vec<String> = arguments.iter().map(|argument| argument.to_string()).collect();
        assert_eq!(asked(&owned), Err((number, arguments[number - 1].to_string())));
    }
}

#[test]
fn arguments_that_are_too_long() {
    let [longest, longer] = [4096, 4097].map(|length| "0".repeat(length));
    let dashes = format!("-{}", &longest);
    for (arguments, number) in [
        (&[&longer[..]][..], 1),
        (&["-a", &longer], 2),
        (&["-l", &dashes], 2),
        (&["arguments.book", "0", &longer], 3),
        (&["-", &"7".repeat(100_000)], 2),
    ] {
        assert_eq!(run(arguments), Written::bad_argument(number, "too long"), "argument {number}");
    }
    // as many digits as are allowed
    let book = file_of("digits.book", &EXAMPLE);
    let scene = format!("0x{}", &longest[2..]);
    for (hops, scene) in [(&longest, &scene), (&scene, &longest)] {
        let want = Written::output(dump_of(&EXAMPLE, &[0], Options::DEFAULT));
        assert_eq!(run(&["-n", hops, book, scene]), want);
    }
    let nines = "9".repeat(4096);
    assert_eq!(run(&[book, &nines]), Written::bad_argument(2, &nines));
    assert_eq!(run(&[&longest]), Written::errors(format!("{longest}: File name too long\n")));
}

/// Bytes that are not text are written as they came.
#[test]
fn arguments_of_any_bytes() {
    let output = command(&[OsStr::from_bytes(b"\xFF\x80")]).output().expect("run");
    assert_eq!((&output.stdout[..], &output.stderr[..]), (&b""[..], &b"\xFF\x80: No such file or directory\n"[..]));
    let output = command(&[OsStr::from_bytes(b"-\x01\xFE")]).output().expect("run");
    let want = [b"bad argument 1: -\x01\xFE\n", USAGE.as_bytes()].concat();
    assert_eq!((&output.stdout[..], &output.stderr[..]), (&b""[..], &want[..]));
    let name = OsStr::from_bytes(b"\xFF\x80.book");
    fs::write(folder().join(name), EXAMPLE).expect("written");
    // std opens only files with names in UTF-8; another one is read through standard input.
    let output = command(&[name]).output().expect("run");
    assert_eq!((&output.stdout[..], &output.stderr[..]), (&b""[..], &b"\xFF\x80.book: No such file or directory\n"[..]));
    let output = command(&["-"]).stdin(fs::File::open(folder().join(name)).expect("opened")).output().expect("run");
    assert_eq!((&output.stdout[..], &output.stderr[..]), (LISTED.as_bytes(), &b""[..]));
}

/// Random arguments, good and bad, are read as the description says.
#[test]
fn random_arguments() {
    let seed = seed("random_arguments");
    let mut g = Rng::new(seed);
    let book = file_of("random-arguments.book", &EXAMPLE);
    let other = book_of(&[vec![], vec![[9, 9, 9, 9]]]);
    let long = "5".repeat(4097);
    let good = [&["-a", "0xEF"][..], &["-a", "255"], &["-p", "65535"], &["-n", "00"], &["-l"], &[book], &["0"], &["1"]];
    let any = ["-a", "-p", "-n", "-h", "-", "", "-ll", "-a7", "--", "no.book", "7", "240", "256", "65536", "0x", &long];
    let mut seen = Counts::default();
    for _ in 0..2000 {
        let part = |g: &mut Rng| if g.chance(3, 4) { g.pick(&good).to_vec() } else { vec![g.pick(&any)] };
        let arguments: Vec<String> = (0..g.below(6)).flat_map(|_| part(&mut g)).map(str::to_string).collect();
        let (kind, want) = match asked(&arguments) {
            Err((number, text)) => ("bad", Written::bad_argument(number, &text)),
            Ok(Asked::Usage) => ("usage", Written::output(USAGE)),
            Ok(Asked::Dump { options, file, scenes }) => match &file[..] {
                "-" => ("input", Written::output(dump_of(&other, &scenes, options))),
                name if name == book => ("file", Written::output(dump_of(&EXAMPLE, &scenes, options))),
                name => ("missing", Written::errors(format!("{name}: No such file or directory\n"))),
            },
        };
        seen.add(kind);
        let got = run_on(&arguments, &other, 100, Duration::ZERO);
        assert_eq!(got, want, "seed {seed}, {arguments:?}");
    }
    seen.assert_each(["bad", "usage", "input", "file", "missing"], 20);
}
