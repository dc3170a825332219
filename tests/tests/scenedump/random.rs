//! Random books, sound, ill formed and damaged.
use crate::formatter::{dump_of, Options};
use crate::program::{file_of, run, run_on, Written};
use grelfint_tests::board::book_of;
use grelfint_tests::buffers::hex;
use grelfint_tests::counts::Counts;
use grelfint_tests::rng::{edge, seed, Rng};
use grelfint_tests::scene::random::scene;
use grelfint_tests::scene::reference::Step;
use std::time::Duration;

/// A number in one of its notations.
fn notation(g: &mut Rng, number: u64) -> String {
    let zeros = "0".repeat(if g.chance(1, 4) { g.within(1, 30) } else { 0 });
    match g.below(3) {
        0 => format!("0x{zeros}{number:x}"),
        1 => format!("0x{zeros}{number:X}"),
        _ => format!("{zeros}{number}"),
    }
}

fn random_options(g: &mut Rng) -> Options {
    Options {
        address: if g.chance(1, 3) { 255 } else { edge(g, 1, 239) as u8 },
        hwpid: if g.chance(1, 3) { 0xFFFF } else { g.word() },
        hops: if g.chance(1, 3) { 0 } else { edge(g, 0, 255) as u8 },
        lp: g.chance(1, 2),
    }
}

/// Arguments for these options in any order. A default may be left out; what is given twice counts the second time.
fn arguments_of(g: &mut Rng, options: Options) -> Vec<String> {
    let default = Options::DEFAULT;
    let mut groups: Vec<Vec<String>> = Vec::new();
    for (option, value, default, least) in [
        ("-a", options.address.into(), default.address.into(), 1),
        ("-p", options.hwpid.into(), default.hwpid.into(), 0),
        ("-n", options.hops.into(), default.hops.into(), 0),
    ] {
        let mut group = Vec::new();
        if value != default || g.chance(1, 2) {
            if g.chance(1, 5) {
                let other = g.within(least, 239) as u64;
                group.extend([option.to_string(), notation(g, other)]);
            }
            group.extend([option.to_string(), notation(g, value)]);
        }
        groups.push(group);
    }
    if options.lp {
        groups.push(vec!["-l".to_string(); g.within(1, 2)]);
    }
    let turn = g.below(groups.len());
    groups.rotate_left(turn);
    groups.concat()
}

/// Scenes that the book has, and now and then one that it does not have.
fn random_scenes(g: &mut Rng, count: usize) -> Vec<u64> {
    let bits = [8, 16, 31, 32, 63].map(|bit| 1u64 << bit);
    let any = |g: &mut Rng| match g.below(6) {
        0 => count as u64,
        1 => g.pick(&bits) + g.below(count + 1) as u64,
        2 => g.pick(&[16, 17, 255, u64::MAX, u64::MAX - 255]),
        _ => g.below(count.max(1)) as u64,
    };
    (0..g.below(5)).map(|_| any(g)).collect()
}

/// From a file and from standard input in pieces.
fn assert_dumped(g: &mut Rng, file: &str, book: &[u8]) -> String {
    let options = random_options(g);
    let scenes = random_scenes(g, book.first().map_or(0, |&count| count.into()));
    let mut arguments = arguments_of(g, options);
    let after_file: Vec<String> = scenes.iter().map(|&scene| notation(g, scene)).collect();
    let want = Written::output(dump_of(book, &scenes, options));
    let failure = |arguments: &[String]| format!("{arguments:?}, book ({}) {}", book.len(), hex(book));
    let named = [&arguments[..], &[file_of(file, book).to_string()], &after_file].concat();
    assert_eq!(run(&named), want, "{}", failure(&named));
    if !scenes.is_empty() || g.chance(1, 2) {
        arguments.push("-".to_string());
    }
    arguments.extend(after_file);
    let piece = g.pick(&[7, 97, 500, 4096, 1 << 16]);
    assert_eq!(run_on(&arguments, book, piece, Duration::ZERO), want, "{}", failure(&arguments));
    want.output
}

/// Counts which of these texts are in the output.
fn count_texts(seen: &mut Counts<&'static str>, texts: &[&'static str], output: &str) {
    texts.iter().filter(|text| output.contains(**text)).for_each(|text| seen.add(text));
}

#[test]
fn random_books() {
    const TEXTS: [&str; 23] = [
        " set lamp ",
        " raise lamp ",
        " lower lamp ",
        " min\n",
        " s\n",
        " to RAM byte ",
        " to EEPROM byte ",
        "bad kind: kinds are 0 to 4",
        "bad target: lamps are 0 to 31",
        "bad target: RAM has bytes 0 to 47",
        "bad target: EEPROM has bytes 0 to 191",
        "bad value: levels are 0 to 100",
        "bad time: 80 is neither minutes nor seconds",
        "bad time: a memory step has none",
        "  refused 81 at step ",
        "  refused 82 at step ",
        "  refused 83 at step ",
        "  refused 84 at step ",
        ": refused 7, the book has ",
        " to all nodes, ",
        " to node ",
        " 1 request\n",
        " 0 requests\n",
    ];
    let mut g = Rng::new(seed("random_books"));
    let mut seen = Counts::default();
    for _ in 0..400 {
        let bad = g.pick(&[0, 0, 80, 8, 2]);
        let count = edge(&mut g, 0, 16);
        let scenes: Vec<Vec<Step>> = (0..count).map(|_| scene(&mut g, bad)).collect();
        let output = assert_dumped(&mut g, "random.book", &book_of(&scenes));
        count_texts(&mut seen, &TEXTS, &output);
    }
    println!("random_books: {seen:?}");
    seen.assert_each(TEXTS, 10);
}

/// Ways in which bytes are not a book, in the order in which they are told.
const FAULTS: [&str; 7] = [
    "more than 4145 bytes",
    "it is empty",
    " scenes, at most 16",
    "the contents end at byte ",
    " starts at byte ",
    " steps, at most 64",
    "the scenes end at byte ",
];

/// Bytes with this fault as the first.
fn ill_formed(g: &mut Rng, fault: usize) -> Vec<u8> {
    let count = g.within(1, 16);
    let mut book = book_of(&(0..count).map(|_| scene(g, 8)).collect::<Vec<_>>());
    let (contents, scene) = (1 + 3 * count, g.below(count));
    let location = 1 + 3 * scene;
    match fault {
        0 => book.resize(g.pick(&[4146, 4147, 5000, 70_000]), 0),
        1 => book.clear(),
        2 => {
            book[0] = edge(g, 17, 255) as u8;
            book.truncate(g.within(1, book.len()));
        }
        3 => book.truncate(g.within(1, contents - 1)),
        4 => {
            let at = location + g.below(2);
            book[at] = if g.chance(1, 2) { book[at] ^ 1 << g.below(8) } else { book[at].wrapping_add(1) };
            book.truncate(g.within(contents, book.len()));
        }
        5 => {
            book[location + 2] = edge(g, 65, 255) as u8;
            book.truncate(g.within(contents, book.len()));
        }
        _ if book.len() > contents && g.chance(1, 2) => book.truncate(g.within(contents, book.len() - 1)),
        _ => book.extend(vec![0; g.within(1, 9)]),
    }
    book
}

#[test]
fn random_ill_formed_books() {
    let mut g = Rng::new(seed("random_ill_formed_books"));
    let mut seen = Counts::default();
    for (fault, text) in FAULTS.iter().enumerate() {
        for _ in 0..40 {
            let book = ill_formed(&mut g, fault);
            let output = assert_dumped(&mut g, "random-ill-formed.book", &book);
            // an extension may also make the book too long
            if fault < 6 {
                assert!(output.contains(text), "built for {text}: {output}");
            }
            count_texts(&mut seen, &FAULTS, &output);
        }
    }
    println!("random_ill_formed_books: {seen:?}");
    seen.assert_each(FAULTS, 20);
}

/// Any byte of a book set to any value, and a book cut anywhere.
#[test]
fn damaged_books() {
    let mut g = Rng::new(seed("damaged_books"));
    let book = book_of(&[vec![[0, 1, 50, 0x85]], vec![], vec![[3, 4, 5, 0], [4, 5, 6, 0]]]);
    for at in 0..book.len() {
        assert_dumped(&mut g, "damaged.book", &book[..at]);
        for byte in [0, 1, book[at] ^ 1, book[at] ^ 0x80, g.byte(), 255] {
            let mut damaged = book.clone();
            damaged[at] = byte;
            assert_dumped(&mut g, "damaged.book", &damaged);
        }
    }
}
