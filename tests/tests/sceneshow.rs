//! Runs ../crates/sceneshow/out/sceneshow as a process and compares its output with the
//! reference. `SCENESHOW` selects another binary.
use grelfint_tests::board::book_of;
use grelfint_tests::rng::{seed, Rng};
use grelfint_tests::scene::reference;
use std::io::{Read, Write};
use std::path::PathBuf;
use std::process::{Command, Stdio};
use std::time::Duration;

fn program() -> PathBuf {
    match std::env::var("SCENESHOW") {
        Ok(path) => PathBuf::from(path),
        Err(_) => PathBuf::from(env!("CARGO_MANIFEST_DIR")).join("../crates/sceneshow/out/sceneshow"),
    }
}

/// Writes the book to standard input in pieces of `piece` bytes, with a pause after each.
fn run(book: &[u8], piece: usize, pause: Duration) -> String {
    let path = program();
    let mut child = Command::new(&path)
        .stdin(Stdio::piped())
        .stdout(Stdio::piped())
        .stderr(Stdio::piped())
        .spawn()
        .unwrap_or_else(|e| panic!("{}: {e}", path.display()));
    let mut stdin = child.stdin.take().unwrap();
    let bytes = book.to_vec();
    let writer = std::thread::spawn(move || {
        for part in bytes.chunks(piece) {
            // the program may exit before it has read an overlong book
            if stdin.write_all(part).and_then(|_| stdin.flush()).is_err() {
                return;
            }
            if !pause.is_zero() {
                std::thread::sleep(pause);
            }
        }
    });
    let mut text = String::new();
    child.stdout.take().unwrap().read_to_string(&mut text).expect("text");
    let mut errors = String::new();
    child.stderr.take().unwrap().read_to_string(&mut errors).expect("text");
    writer.join().unwrap();
    let status = child.wait().unwrap();
    assert!(errors.is_empty(), "standard error: {errors}");
    assert!(status.success(), "status {status}");
    text
}

fn check(name: &str, book: &[u8]) {
    let got = run(book, 1 << 16, Duration::ZERO);
    let want = reference::sceneshow(book);
    assert_eq!(got, want, "{name}, book ({}) {book:02X?}", book.len());
}

const EXAMPLE: [u8; 12] = [1, 4, 0, 2, 0, 0, 0x0A, 0, 0, 2, 0x64, 2];
const PRINTED: &str = "lamp level actual left\n0 10 10 0\n1 0 0 0\n2 100 100 120\n";

/// The longest valid book: 16 scenes of 64 steps.
fn longest() -> Vec<u8> {
    let steps: Vec<[u8; 4]> = (0..64u8)
        .map(|i| [i % 3, i % 5, (i as u16 * 7 % 101) as u8, if i % 4 == 0 { 0x80 | i | 1 } else { 0 }])
        .collect();
    let book = book_of(&vec![steps; 16]);
    assert_eq!(book.len(), 4145);
    book
}

#[test]
fn the_papers_book() {
    assert_eq!(run(&EXAMPLE, 100, Duration::ZERO), PRINTED);
    assert_eq!(reference::sceneshow(&EXAMPLE), PRINTED);
}

#[test]
fn valid_books() {
    check("no steps", &[1, 4, 0, 0]);
    check("two scenes", &book_of(&[vec![[0, 1, 50, 0], [1, 1, 60, 3], [2, 0, 9, 0]], vec![[9, 9, 9, 9]]]));
    check("memories", &book_of(&[vec![[3, 47, 255, 0], [4, 191, 255, 0], [0, 2, 1, 0xFF]]]));
    check("lamps beyond the count", &book_of(&[vec![[0, 3, 50, 0], [0, 31, 50, 0], [1, 0, 100, 0x7F]]]));
}

#[test]
fn empty_input_and_empty_book() {
    assert_eq!(run(&[], 1, Duration::ZERO), "refused 6\n");
    assert_eq!(run(&[0], 1, Duration::ZERO), "refused 7\n");
    assert_eq!(run(&[0, 0], 1, Duration::ZERO), "refused 6\n");
}

#[test]
fn damaged_books() {
    for cut in 0..EXAMPLE.len() {
        check("cut", &EXAMPLE[..cut]);
    }
    for i in 0..EXAMPLE.len() {
        for flip in [1, 0x80] {
            let mut book = EXAMPLE;
            book[i] ^= flip;
            check("flipped", &book);
        }
    }
    let mut longer = EXAMPLE.to_vec();
    longer.push(0);
    check("a byte after the end", &longer);
    check("17 scenes", &book_of(&vec![vec![[0, 0, 1, 0]]; 17]));
    check("65 steps", &book_of(&[vec![[0, 0, 1, 0]; 65]]));
}

/// The second step is bad, and in the last book every part of it.
#[test]
fn bad_steps() {
    for (bad, printed) in [
        ([5, 0, 1, 0], "refused 81\n"),
        ([0, 32, 1, 0], "refused 82\n"),
        ([3, 48, 255, 0], "refused 82\n"),
        ([4, 192, 255, 0], "refused 82\n"),
        ([0, 0, 101, 0], "refused 83\n"),
        ([0, 0, 1, 0x80], "refused 84\n"),
        ([3, 0, 255, 1], "refused 84\n"),
        ([5, 255, 255, 0x80], "refused 81\n"),
    ] {
        let book = book_of(&[vec![[0, 0, 1, 0], bad]]);
        assert_eq!(run(&book, 100, Duration::ZERO), printed, "{bad:?}");
        assert_eq!(reference::sceneshow(&book), printed, "{bad:?}");
    }
}

#[test]
fn the_longest_book_and_one_byte_more() {
    let mut book = longest();
    check("4,145 bytes", &book);
    book.push(0);
    assert_eq!(run(&book, 1 << 16, Duration::ZERO), "refused 6\n");
    for length in [4147, 8192, 70_000, 300_000] {
        book.resize(length, 1);
        assert_eq!(run(&book, 1 << 16, Duration::ZERO), "refused 6\n", "{length} bytes");
    }
}

#[test]
fn slow_pipe() {
    assert_eq!(run(&EXAMPLE, 1, Duration::from_millis(10)), PRINTED);
    let mut book = longest();
    let want = reference::sceneshow(&book);
    assert_eq!(run(&book, 97, Duration::from_millis(3)), want);
    assert_eq!(run(&book, 4096, Duration::from_millis(50)), want);
    book.push(0);
    assert_eq!(run(&book, 4145, Duration::from_millis(50)), "refused 6\n");
}

#[test]
fn random_books() {
    let seed = seed("random_books");
    let mut g = Rng::new(seed);
    for i in 0..300 {
        let scenes: Vec<Vec<[u8; 4]>> = (0..g.within(1, 4))
            .map(|_| {
                (0..g.within(0, 64))
                    .map(|_| match g.below(60) {
                        0 => [g.below(7) as u8, g.byte(), g.byte(), g.byte()],
                        1..=8 => [3 + g.below(2) as u8, g.below(48) as u8, g.byte(), 0],
                        _ => {
                            let time = if g.chance(1, 2) { 0 } else { g.within(1, 127) as u8 | g.pick(&[0, 0x80]) };
                            [g.below(3) as u8, g.below(5) as u8, g.within(0, 100) as u8, time]
                        }
                    })
                    .collect()
            })
            .collect();
        let mut book = book_of(&scenes);
        if g.chance(1, 6) {
            let at = g.below(book.len());
            book[at] = g.byte();
        }
        check(&format!("random_books: seed {seed}, book {i}"), &book);
    }
}
