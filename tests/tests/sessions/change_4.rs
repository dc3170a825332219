//! Document 02, change 4/12: checksums of code images.
use crate::TESTED;
use grelfint::raw::RequestAnswer;
use grelfint_tests::board::{code_check_pdata, frame_of, set_checksum, Board, Lengths};
use grelfint_tests::node::code::{sums_after, CodeType};
use grelfint_tests::node::reference::EXTERNAL_SIZE;
use grelfint_tests::node::session::Session;
use grelfint_tests::node::{fast, random};
use grelfint_tests::rng::{seed, Rng};
use std::ops::Range;

/// A code image in external memory.
#[derive(Clone, Copy, Debug)]
struct Image {
    code: CodeType,
    address: usize,
    length: usize,
}

impl Image {
    fn range(self) -> Range<usize> {
        self.address..self.address + self.length
    }

    fn checksum(self, board: &Board) -> u16 {
        self.code.checksum(&board.external[self.range()])
    }
}

/// A code check that is built to match or not, with or without flag bit 0. It changes nothing.
fn code_check(s: &mut Session, image: Image, sum: u16, matches: bool) {
    let Image { code, address, length } = image;
    let load = s.g.chance(1, 2);
    let node = s.boards.plain.node;
    let pdata = code_check_pdata(code.flag() | load as u8, address, length, sum);
    let frame = frame_of(node.settings.address, 2, 0x0A, 0xFFFF, &pdata);
    let load = load && matches;
    s.take_built(&frame, 0, RequestAnswer { length: 9, load, addressed: true, ..RequestAnswer::zeros(node) });
    s.expect(s.boards.plain.response[8] == matches as u8, || format!("built for {matches}: {image:?}, {sum:04X}"));
}

/// The image's own checksum matches; those close to it do not.
fn close_checksums(s: &mut Session, image: Image) {
    let sum = image.checksum(&s.boards.plain);
    code_check(s, image, sum, true);
    let [low, high] = sum.to_le_bytes();
    let other_type = match image.code {
        CodeType::Handler => CodeType::PlugIn,
        CodeType::PlugIn => CodeType::Handler,
    };
    let close = [
        [low.wrapping_add(1), high],
        [low.wrapping_sub(1), high],
        [low, high.wrapping_add(1)],
        [low, high.wrapping_sub(1)],
        [low % 255, high % 255],
        [high, low],
        Image { code: other_type, ..image }.checksum(&s.boards.plain).to_le_bytes(),
    ];
    for wrong in close.map(u16::from_le_bytes) {
        if wrong != sum {
            code_check(s, image, wrong, false);
        }
    }
}

/// A random image with right and wrong checksums, then with one byte changed and with two bytes exchanged.
fn random_image(s: &mut Session) {
    let code = s.g.pick(&CodeType::EVERY);
    let (address, length) = random::image_place(&mut s.g, code);
    let image = Image { code, address, length };
    s.write_external(|g, external| random::prepare_image(g, code, &mut external[image.range()]));
    close_checksums(s, image);

    let sum = image.checksum(&s.boards.plain);
    let (i, j) = (address + s.g.below(length), address + s.g.below(length));
    let byte = s.g.byte();
    let [old, other] = [i, j].map(|at| s.boards.plain.external[at]);
    // the low sum sees every change but between 00 and FF
    s.write_external(|_, external| external[i] = byte);
    code_check(s, image, sum, byte % 255 == old % 255);
    s.write_external(|_, external| external[i] = old);
    // the high sum sees a byte as often as there are bytes from it to the end
    let seen = i.abs_diff(j) * old.abs_diff(other) as usize;
    s.write_external(|_, external| external.swap(i, j));
    code_check(s, image, sum, seen.is_multiple_of(255));
    s.write_external(|_, external| external.swap(i, j));
    exchanged_00_and_ff(s, image);
}

/// Every 00 in an image becomes FF and every FF becomes 00: the checksum stays.
fn exchanged_00_and_ff(s: &mut Session, image: Image) {
    let sum = image.checksum(&s.boards.plain);
    let exchanged = |b: &mut u8| {
        if b.is_multiple_of(255) {
            *b = !*b;
        }
    };
    s.write_external(|_, external| external[image.range()].iter_mut().for_each(exchanged));
    code_check(s, image, sum, true);
}

/// Tests images of each type of code in random bytes.
fn in_random_bytes(test: &'static str, images: impl Fn(&mut Session, CodeType)) {
    for side in TESTED {
        let mut s = Session::new(test, side);
        s.write_external(|g, external| g.fill(external));
        for code in CodeType::EVERY {
            images(&mut s, code);
        }
    }
}

/// Images of every length, at the start and at the end of external memory and between them.
#[test]
fn every_length_of_an_image() {
    in_random_bytes("every_length_of_an_image", |s, code| {
        for length in (code.unit()..=EXTERNAL_SIZE).step_by(code.unit()) {
            let last = EXTERNAL_SIZE - length;
            let between = s.g.within(0, last);
            for address in [0, last, between] {
                let image = Image { code, address, length };
                code_check(s, image, image.checksum(&s.boards.plain), true);
            }
            close_checksums(s, Image { code, address: between, length });
        }
    });
}

/// Images of one to four units at every address modulo 64 and modulo 20, up to both ends of external memory.
#[test]
fn every_start_of_an_image() {
    in_random_bytes("every_start_of_an_image", |s, code| {
        for offset in 0..320 {
            let length = code.unit() * s.g.within(1, 4);
            for address in [offset, EXTERNAL_SIZE - length - offset] {
                close_checksums(s, Image { code, address, length });
            }
        }
    });
}

/// Random images, many with sums of 255. A wrong checksum or a changed byte is noticed exactly when the sums differ.
#[test]
fn random_images() {
    for side in TESTED {
        let mut s = Session::new("random_images", side);
        s.run(100, 20, random_image);
        s.report();
        s.seen.assert_every_kind_of_code_check(10);
    }
}

/// Images of the greatest length, from bytes that give the largest and the smallest plain sums, and from others.
#[test]
fn extreme_images() {
    for side in TESTED {
        let mut s = Session::new("extreme_images", side);
        for bytes in [[0; 2], [0xFF; 2], [0, 0xFF], [0xFF, 0], [0xFE; 2], [0xFF, 0xFE], [1; 2], [0x80; 2], [0x7F, 0x80]]
        {
            for code in CodeType::EVERY {
                let length = EXTERNAL_SIZE / code.unit() * code.unit();
                let image = Image { code, address: EXTERNAL_SIZE - length, length };
                s.write_external(|_, external| external.copy_from_slice(&bytes.repeat(EXTERNAL_SIZE / 2)));
                close_checksums(&mut s, image);
                exchanged_00_and_ff(&mut s, image);
            }
        }
    }
}

/// Whether a code check with flag bit 0 matches; the load mark and the response agree.
fn matches(board: &mut Board, code: CodeType, length: usize, sum: u16) -> bool {
    let node = board.node;
    let pdata = code_check_pdata(code.flag() | 1, 0, length, sum);
    let answer = board.request(node, &frame_of(1, 2, 0x0A, 0xFFFF, &pdata), Lengths::USUAL);
    assert_eq!((answer.length, board.response[8]), (9, answer.load as u8));
    answer.load
}

/// Of all 65,536 checksums exactly one matches, for images with and without sums of 255.
#[test]
fn every_checksum() {
    for side in TESTED {
        let mut b = Board::started(side, 3, 1);
        for code in CodeType::EVERY {
            for (units, sum) in [(1, 0x12FF), (1, 0xFF34), (1, 0xFFFF), (1, 0x5678), (7, 0xFFFF), (7, 0x0101)] {
                let length = units * code.unit();
                set_checksum(code, &mut b.external[..length], sum);
                let matching: Vec<u16> = (0..=0xFFFF).filter(|&sum| matches(&mut b, code, length, sum)).collect();
                assert_eq!(matching, [sum], "{}, {code:?}, {units} units", side.name);
            }
        }
    }
}

/// Every pair of sums that there can be where a first unit ends, before a unit of zeros, of FFs and of random bytes.
#[test]
fn every_pair_of_sums_after_a_unit() {
    let mut g = Rng::new(seed("every_pair_of_sums_after_a_unit"));
    for side in TESTED {
        let mut b = Board::started(side, 3, 1);
        for code in CodeType::EVERY {
            let (unit, length) = (code.unit(), 2 * code.unit());
            g.fill(&mut b.external[..length]);
            let random = b.external[unit..length].to_vec();
            for (low, high) in (1..=255u8).flat_map(|low| (1..=255u8).map(move |high| (low, high))) {
                set_checksum(code, &mut b.external[..unit], u16::from_le_bytes([low, high]));
                for rest in [&vec![0; unit], &vec![0xFF; unit], &random] {
                    b.external[unit..length].copy_from_slice(rest);
                    let sum = code.checksum(&b.external[..length]);
                    assert!(matches(&mut b, code, length, sum), "{}, {code:?}, {low} {high}, {rest:?}", side.name);
                }
            }
        }
    }
}

/// The fast implementation adds up a block as the reference does byte by byte: from every pair of sums, also those that
/// no image leads to, and for every length up to more than 64 bytes.
#[test]
fn every_pair_of_sums_before_a_block() {
    let mut g = Rng::new(seed("every_pair_of_sums_before_a_block"));
    let mut random = [0; 70];
    g.fill(&mut random);
    for block in [[0; 70], [0xFF; 70], random] {
        for before in (0..=255).flat_map(|low| (0..=255).map(move |high| (low, high))) {
            let mut sums = before;
            for length in 0..=block.len() {
                assert_eq!(fast::sums_after(before, &block[..length]), sums, "{before:?}, {:02X?}", &block[..length]);
                sums = sums_after(sums, block.get(length).map_or(&[], std::slice::from_ref));
            }
        }
    }
}
