//! Books by hand, and sizes and pieces of the input.
use crate::formatter::{dump_of, Options};
use crate::program::{command, end_of, file_of, run, run_on, run_with, Written};
use crate::{longest, EXAMPLE, LISTED};
use grelfint_tests::board::book_of;
use std::fs::File;
use std::io::Read;
use std::thread;
use std::time::Duration;

// ---- examples by hand ----
/// On standard input and in a file, with these arguments after it.
#[track_caller]
fn assert_dump(name: &str, book: &[u8], options: &[&str], scenes: &[&str], want: &str) {
    let want = Written::output(want);
    for file in [file_of(name, book), "-"] {
        let arguments = [options, &[file], scenes].concat();
        assert_eq!(run_on(&arguments, book, 1 << 16, Duration::ZERO), want, "{arguments:?}");
    }
    if scenes.is_empty() {
        assert_eq!(run_on(options, book, 1 << 16, Duration::ZERO), want, "{options:?}");
    }
}

#[test]
fn the_papers_book() {
    let name = "papers.book";
    assert_dump(name, &EXAMPLE, &[], &[], LISTED);
    let to_all = "
scene 0 to all nodes, HWPID FFFF, 1 request
  19 bytes, slot 40 ms, next send after 40 ms: FF 00 02 05 FF FF 0C 71 00 FF FF 05 00 00 00 0A E4 02 00
  40 ms in all
";
    assert_dump(name, &EXAMPLE, &[], &["0"], &format!("{LISTED}{to_all}"));
    let to_node_1 = "
scene 0 to node 1, HWPID 2471, 1 request
  19 bytes, slot 80 ms, next send after 480 ms: 01 00 02 05 71 24 0C 71 00 71 24 05 00 00 00 0A E4 02 00
  480 ms in all
";
    let options = ["-a", "1", "-p", "0x2471", "-n", "2", "-l"];
    assert_dump(name, &EXAMPLE, &options, &["0"], &format!("{LISTED}{to_node_1}"));
    let missing = "
scene 1 to node 239, HWPID 000A: refused 7, the book has 1 scene
scene 18446744073709551615 to node 239, HWPID 000A: refused 7, the book has 1 scene
";
    let options = ["-p", "10", "-a", "0xEF"];
    assert_dump(name, &EXAMPLE, &options, &["1", "0xffffFFFFffffFFFF"], &format!("{LISTED}{missing}"));
}

#[test]
fn every_kind_of_step() {
    let lamps = vec![[0, 31, 100, 0], [0, 0, 0, 0x01], [1, 9, 5, 0x7F], [1, 10, 50, 0x81], [2, 3, 1, 0xFF]];
    let memories = vec![[3, 0, 0, 0], [3, 47, 0xFF, 0], [4, 0, 0x0A, 0], [4, 191, 0xA0, 0]];
    let text = "\
book of 46 bytes, 3 scenes
scene 0, 5 steps
  0 set lamp 31 to 100
  1 set lamp 0 to 0 for 1 min
  2 raise lamp 9 by 5 for 127 min
  3 raise lamp 10 by 50 for 1 s
  4 lower lamp 3 by 1 for 127 s
scene 1, 0 steps
scene 2, 4 steps
  0 write 00 to RAM byte 0
  1 write FF to RAM byte 47
  2 write 0A to EEPROM byte 0
  3 write A0 to EEPROM byte 191

scene 2 to node 7, HWPID FFFF, 1 request
  35 bytes, slot 50 ms, next send after 90 ms: \
07 00 02 05 FF FF 07 05 01 FF FF 00 00 07 05 01 FF FF 2F FF 07 03 01 FF FF 00 0A 07 03 01 FF FF BF A0 00
  90 ms in all
scene 1 to node 7, HWPID FFFF, 0 requests
  0 ms in all
scene 3 to node 7, HWPID FFFF: refused 7, the book has 3 scenes
scene 1 to node 7, HWPID FFFF, 0 requests
  0 ms in all
";
    assert_dump("kinds.book", &book_of(&[lamps, vec![], memories]), &["-a", "7"], &["2", "1", "3", "1"], text);
}

/// The steps of one lamp do not join: five entries of ten bytes fill a request.
#[test]
fn several_requests() {
    let book = book_of(&[vec![[1, 0, 1, 0]; 6]]);
    let entry = " 0A 71 01 FF FF 01 00 00 00 01";
    let steps: String = (0..6).map(|i| format!("  {i} raise lamp 0 by 1\n")).collect();
    let text = format!(
        "book of 28 bytes, 1 scene\nscene 0, 6 steps\n{steps}\n\
         scene 0 to node 9, HWPID FFFF, 2 requests\n  \
         57 bytes, slot 60 ms, next send after 25600 ms: 09 00 02 05 FF FF{} 00\n  \
         17 bytes, slot 40 ms, next send after 20480 ms: 09 00 02 05 FF FF{entry} 00\n  \
         46080 ms in all\n",
        entry.repeat(5)
    );
    assert_dump("several.book", &book, &["-n", "255", "-a", "9"], &["0"], &text);
}

#[test]
fn small_books() {
    assert_dump("none.book", &[0], &[], &[], "book of 1 byte, 0 scenes\n");
    let refused = "scene 0 to all nodes, HWPID FFFF: refused 7, the book has 0 scenes\n";
    assert_dump("none.book", &[0], &[], &["0"], &format!("book of 1 byte, 0 scenes\n\n{refused}"));
    let one_step = "book of 8 bytes, 1 scene\nscene 0, 1 step\n  0 set lamp 1 to 2\n";
    assert_dump("step.book", &[1, 4, 0, 1, 0, 1, 2, 0], &[], &[], one_step);
}

#[test]
fn bad_steps() {
    let scene = vec![
        [0, 0, 1, 0],
        [0, 0, 1, 0x80],
        [5, 255, 255, 0x80],
        [255, 0, 0, 0],
        [0, 32, 101, 0x80],
        [3, 48, 0, 1],
        [4, 192, 0, 1],
        [1, 31, 101, 0x80],
        [3, 47, 255, 1],
        [4, 191, 255, 0x80],
        [4, 191, 255, 0],
    ];
    let text = "\
book of 55 bytes, 2 scenes
scene 0, 11 steps
  0 set lamp 0 to 1
  1 00 00 01 80 bad time: 80 is neither minutes nor seconds
  2 05 FF FF 80 bad kind: kinds are 0 to 4
  3 FF 00 00 00 bad kind: kinds are 0 to 4
  4 00 20 65 80 bad target: lamps are 0 to 31
  5 03 30 00 01 bad target: RAM has bytes 0 to 47
  6 04 C0 00 01 bad target: EEPROM has bytes 0 to 191
  7 01 1F 65 80 bad value: levels are 0 to 100
  8 03 2F FF 01 bad time: a memory step has none
  9 04 BF FF 80 bad time: a memory step has none
  10 write FF to EEPROM byte 191
  refused 84 at step 1
scene 1, 1 step
  0 lower lamp 2 by 3

scene 0 to all nodes, HWPID 0001: refused 84 at step 1
scene 1 to all nodes, HWPID 0001, 1 request
  17 bytes, slot 80 ms, next send after 160 ms: FF 00 02 05 01 00 0A 71 02 01 00 04 00 00 00 03 00
  160 ms in all
";
    let book = book_of(&[scene, vec![[2, 2, 3, 0]]]);
    assert_dump("bad-steps.book", &book, &["-l", "-n", "1", "-p", "1"], &["0", "1"], text);
}

/// Of a book with several faults the first is told, and scenes that are named change nothing.
#[test]
fn ill_formed_books() {
    let longest = longest();
    for (book, fault) in [
        (&[][..], "it is empty"),
        (&[17], "it has 17 scenes, at most 16"),
        (&[255; 4145], "it has 255 scenes, at most 16"),
        (&[1], "the contents end at byte 4, the book at byte 1"),
        (&[1, 9, 9], "the contents end at byte 4, the book at byte 3"),
        (&[16; 48], "the contents end at byte 49, the book at byte 48"),
        (&[1, 5, 0, 65], "scene 0 starts at byte 5, not at byte 4"),
        (&[1, 4, 1, 0], "scene 0 starts at byte 260, not at byte 4"),
        (&[1, 4, 0, 65], "scene 0 has 65 steps, at most 64"),
        (&[2, 7, 0, 255, 0, 0, 255], "scene 0 has 255 steps, at most 64"),
        (&[2, 7, 0, 64, 7, 0, 65], "scene 1 starts at byte 7, not at byte 263"),
        (&[2, 7, 0, 64, 7, 1, 65], "scene 1 has 65 steps, at most 64"),
        (&[2, 7, 0, 64, 7, 1, 64], "the scenes end at byte 519, the book at byte 7"),
        (&[0, 0], "the scenes end at byte 1, the book at byte 2"),
        (&EXAMPLE[..11], "the scenes end at byte 12, the book at byte 11"),
        (&[&longest[..], &[0]].concat(), "more than 4145 bytes"),
        (&[0xFF; 4146], "more than 4145 bytes"),
    ] {
        let text = format!("refused 6: not a scene book: {fault}\n");
        assert_dump("ill-formed.book", book, &[], &[], &text);
        assert_dump("ill-formed.book", book, &["-a", "1"], &["0", "99"], &text);
        assert_eq!(dump_of(book, &[0], Options::DEFAULT), text);
    }
}

// ---- sizes and pieces ----
#[test]
fn small_pieces() {
    let slow = Duration::from_millis(5);
    assert_eq!(run_on::<&str>(&[], &EXAMPLE, 1, slow), Written::output(LISTED));
    assert_eq!(run_on(&["-"], &EXAMPLE, 5, slow), Written::output(LISTED));
    let mut book = longest();
    let want = Written::output(dump_of(&book, &[15], Options::DEFAULT));
    for (piece, pause) in [(1, Duration::ZERO), (97, slow), (4096, slow), (4144, slow)] {
        assert_eq!(run_on(&["-", "15"], &book, piece, pause), want, "pieces of {piece}");
        assert_eq!(run_on(&["/dev/stdin", "15"], &book, piece, pause), want, "pieces of {piece} from a file");
    }
    book.push(0);
    let want = Written::output("refused 6: not a scene book: more than 4145 bytes\n");
    for piece in [1000, 4144, 4145] {
        assert_eq!(run_on(&["-", "15"], &book, piece, slow), want, "pieces of {piece}");
    }
}

#[test]
fn too_long_input() {
    let want = Written::output("refused 6: not a scene book: more than 4145 bytes\n");
    for length in [4146, 4147, 8192, 65_537, 1_000_000] {
        let book = vec![1; length];
        assert_eq!(run_on::<&str>(&[], &book, 1 << 16, Duration::ZERO), want, "{length} bytes");
        assert_eq!(run(&[file_of("too-long.book", &book), "0"]), want, "{length} bytes");
    }
    // they have no end
    assert_eq!(run(&["/dev/zero"]), want);
    assert_eq!(run_with::<&str>(&[], |c| _ = c.stdin(File::open("/dev/zero").expect("opened"))), want);
}

/// The scenes of the longest book many times over, which is more than a pipe holds, read slowly.
#[test]
fn long_output() {
    let book = longest();
    let scenes: Vec<u64> = (0..16).cycle().take(800).collect();
    let want = dump_of(&book, &scenes, Options::DEFAULT);
    assert!(want.len() > 1_000_000);
    let arguments: Vec<String> = scenes.iter().map(u64::to_string).collect();
    let arguments = [vec![file_of("longest.book", &book).to_string()], arguments].concat();
    assert!(run(&arguments) == Written::output(&want[..]), "output differs");

    let mut child = command(&arguments).spawn().expect("started");
    let mut stdout = child.stdout.take().expect("a pipe");
    let (mut output, mut part) = (Vec::new(), [0; 30_011]);
    while let count @ 1.. = stdout.read(&mut part).expect("read") {
        output.extend_from_slice(&part[..count]);
        thread::sleep(Duration::from_millis(2));
    }
    let (rest, status) = end_of(child);
    assert!(status.success() && rest == Written::output(""), "{status}, {rest:?}");
    assert!(output == want.as_bytes(), "output differs");
}
