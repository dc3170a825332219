//! Document 02, change 4/12: checksums of code images.
use crate::common::*;
use grelfint::raw::RequestAnswer;
use grelfint_tests::board::{code_check_pdata, frame_of, set_checksum, Board};
use grelfint_tests::node::code::{sums_after, CodeType};
use grelfint_tests::node::reference::EXTERNAL_SIZE;
use grelfint_tests::on_every_side;
use grelfint_tests::sides::Side;

on_every_side! { node [
    sums_of_255,
    sums_of_255_after_several_blocks,
    sums_of_255_inside_an_image,
    checksums_of_all_external_memory,
    images_anywhere,
    changed_bytes,
    exchanged_bytes,
    errors_of_a_code_check,
] }

/// A sum of 0 stays 0 only over zeros, and a sum of 255 does not become 0.
#[test]
fn running_sums_of_the_reference() {
    for (before, byte, after) in [
        ((0, 0), 0x00, (0, 0)),
        ((0, 0), 0xFF, (255, 255)),
        ((255, 255), 0x00, (255, 255)),
        ((255, 255), 0xFF, (255, 255)),
        ((0, 255), 0x00, (0, 255)),
        ((0, 255), 0xFF, (255, 255)),
        ((255, 0), 0x00, (255, 255)),
        ((255, 0), 0xFF, (255, 255)),
        ((0, 0), 0x01, (64, 40)), // 1 + 2 + ... + 64 = 2080 = 8 * 255 + 40
        ((255, 255), 0x01, (64, 40)),
        ((0, 0), 0xFE, (191, 215)), // the opposite modulo 255: 255 - 64 and 255 - 40
    ] {
        assert_eq!(sums_after(before, &[byte; 64]), after, "64 times {byte:02X} from {before:?}");
        assert_eq!(sums_after(before, &[]), before);
    }
}

/// Zeros, but for these bytes at these indices.
fn zeros_but(length: usize, bytes: &[(usize, u8)]) -> Vec<u8> {
    let mut image = vec![0; length];
    for &(i, byte) in bytes {
        image[i] = byte;
    }
    image
}

/// Checks an image without and with flag bit 0, at the node's own address and at broadcast, and compares the whole answer
/// and all buffers. The load mark is set exactly on a match with flag bit 0.
fn assert_code_check(board: &Board, code: CodeType, address: usize, length: usize, sum: u16, matches: bool) {
    for flag in [0, 1] {
        let pdata = code_check_pdata(code.flag() | flag, address, length, sum);
        let response = [1, 0, 2, 0x8A, 0x71, 0x24, 0, 7, matches as u8];
        let load = matches && flag == 1;
        let want = RequestAnswer { load, addressed: true, ..RequestAnswer::zeros(board.node) };
        for (nadr, sent) in [(1, &response[..]), (0x00FF, &[])] {
            assert_answered(board, &frame_of(nadr, 2, 0x0A, 0xFFFF, &pdata), sent, want);
        }
    }
}

/// A node with this image at an address of external memory; the bytes around it are neither 00 nor FF.
fn with_image(side: Side, address: usize, image: &[u8]) -> Board {
    let mut b = Board::started(side, 3, 1);
    b.external.fill(0xA5);
    b.external[address..address + image.len()].copy_from_slice(image);
    b
}

/// The image matches this checksum, and none with a 0 in it: no sum of an image is 0.
fn assert_checksum(side: Side, code: CodeType, image: &[u8], sum: u16) {
    let b = with_image(side, 0, image);
    assert_code_check(&b, code, 0, image.len(), sum, true);
    let [low, high] = sum.to_le_bytes();
    for wrong in [[low, 0], [0, high], [0, 0]] {
        assert_code_check(&b, code, 0, image.len(), u16::from_le_bytes(wrong), false);
    }
}

/// Images of one unit whose low sum, high sum or both are 255.
fn sums_of_255(side: Side) {
    use CodeType::*;
    // 1 + FE = 255, and 255 + 255 is again 255
    assert_checksum(side, Handler, &zeros_but(64, &[(0, 0xFE)]), 0xFFFF);
    // low 1 for 63 bytes, so high 63; then low 255, which leaves high at 63
    assert_checksum(side, Handler, &zeros_but(64, &[(63, 0xFE)]), 0x3FFF);
    // high 63; then low 1 + 191 and high 63 + 192
    assert_checksum(side, Handler, &zeros_but(64, &[(63, 191)]), 0xFFC0);
    // high 62, 62 + 192 = 254, then low 192 + 64 - 255 = 1 and high 254 + 1
    assert_checksum(side, Handler, &zeros_but(64, &[(62, 191), (63, 64)]), 0xFF01);
    // 3 + FC = 255
    assert_checksum(side, PlugIn, &zeros_but(20, &[(0, 0xFC)]), 0xFFFF);
    // high 19 * 3 = 57, then low 255
    assert_checksum(side, PlugIn, &zeros_but(20, &[(19, 0xFC)]), 0x39FF);
    // high 57, then low 3 + 195 and high 57 + 198
    assert_checksum(side, PlugIn, &zeros_but(20, &[(19, 195)]), 0xFFC6);
    // FF for each 00
    assert_checksum(side, Handler, &[&[0xFE][..], &[0xFF; 63]].concat(), 0xFFFF);
    assert_checksum(side, Handler, &[&[0xFF; 63][..], &[0xFE]].concat(), 0x3FFF);
    assert_checksum(side, PlugIn, &[&[0xFF; 19][..], &[195]].concat(), 0xFFC6);
}

/// Images whose sums are 255 only at the end, for lengths up to all of external memory.
fn sums_of_255_after_several_blocks(side: Side) {
    // high 2 * 64 - 1 = 127, then low 255; high 127, then low 1 + 127 and high 127 + 128
    assert_checksum(side, CodeType::Handler, &zeros_but(128, &[(127, 0xFE)]), 0x7FFF);
    assert_checksum(side, CodeType::Handler, &zeros_but(128, &[(127, 127)]), 0xFF80);
    // high 79 * 3 = 237, then low 255; high 237, then low 3 + 15 and high 237 + 18
    assert_checksum(side, CodeType::PlugIn, &zeros_but(80, &[(79, 0xFC)]), 0xEDFF);
    assert_checksum(side, CodeType::PlugIn, &zeros_but(80, &[(79, 15)]), 0xFF12);
    for code in CodeType::EVERY {
        for units in [2, 3, 4, 5, 16, EXTERNAL_SIZE / code.unit()] {
            for fill in [0, 0xFF, 0x5A] {
                let mut image = vec![fill; units * code.unit()];
                for sum in [0x12FF, 0xFF12, 0xFFFF] {
                    set_checksum(code, &mut image, sum);
                    assert_checksum(side, code, &image, sum);
                }
            }
        }
    }
}

/// Images in which sums are 255 where the first 20 or 64 bytes end. Over zeros and FFs a low sum of 255 stays, and then
/// a high sum too.
fn sums_of_255_inside_an_image(side: Side) {
    // 255 and 255, then low 1 for 64 bytes: high 64
    let mut image = zeros_but(128, &[(0, 0xFE), (64, 1)]);
    assert_checksum(side, CodeType::Handler, &image, 0x4001);
    image[64] = 0;
    assert_checksum(side, CodeType::Handler, &image, 0xFFFF);
    // 255 and 63, which stay
    assert_checksum(side, CodeType::Handler, &zeros_but(128, &[(63, 0xFE)]), 0x3FFF);
    // 192 and 255, then high 64 * 192 = 12,288 = 48 * 255 + 48
    assert_checksum(side, CodeType::Handler, &zeros_but(128, &[(63, 191)]), 0x30C0);
    // 255 and 57, which stay; 198 and 255, then high 20 * 198 = 3,960 = 15 * 255 + 135
    assert_checksum(side, CodeType::PlugIn, &zeros_but(40, &[(19, 0xFC)]), 0x39FF);
    assert_checksum(side, CodeType::PlugIn, &zeros_but(40, &[(19, 195)]), 0x87C6);
    for code in CodeType::EVERY {
        let length = 6 * code.unit();
        for end in [20, 64] {
            for sum in [0x12FF, 0xFF12, 0xFFFF] {
                for rest in [0, 0xFF, 1, 0xFE] {
                    let mut image = vec![rest; length];
                    set_checksum(code, &mut image[..end], sum);
                    let stays = rest % 255 == 0 && sum & 0xFF == 0xFF;
                    assert_checksum(side, code, &image, if stays { sum } else { code.checksum(&image) });
                }
            }
        }
    }
}

fn checksums_of_all_external_memory(side: Side) {
    // 64s: 16,384 = 64 * 255 + 64 bytes; 20s: 819 units are 16,380 = 64 * 255 + 60 bytes
    let (all, most) = (EXTERNAL_SIZE, 16_380);
    for fill in [0, 0xFF] {
        assert_checksum(side, CodeType::Handler, &vec![fill; all], 0x4001); // high 64 * 1
        assert_checksum(side, CodeType::PlugIn, &vec![fill; most], 0xB403); // high 60 * 3
        assert_checksum(side, CodeType::Handler, &[fill, !fill].repeat(all / 2), 0x4001);
    }
    // low 1 + 64; high 64 * 1 + (1 + 2 + ... + 16,384), which is 64 + 32 * 65 = 2144 = 8 * 255 + 104
    assert_checksum(side, CodeType::Handler, &vec![1; all], 0x6841);
    // FE is the opposite of 1: low 1 - 64 = 192 - 255; high 64 - 32 * 65 = 24 - 8 * 255
    assert_checksum(side, CodeType::Handler, &vec![0xFE; all], 0x18C0);
    // 3 + FC = 255, and zeros leave both sums
    assert_checksum(side, CodeType::PlugIn, &zeros_but(most, &[(0, 0xFC)]), 0xFFFF);
    assert_checksum(side, CodeType::Handler, &zeros_but(all, &[(0, 0xFE)]), 0xFFFF);
}

/// The same image at addresses that are and are not multiples of its unit, up to the last one.
fn images_anywhere(side: Side) {
    for (code, length, last_byte, sum) in [(CodeType::Handler, 128, 0xFE, 0x7FFF), (CodeType::PlugIn, 80, 0xFC, 0xEDFF)]
    {
        let image = zeros_but(length, &[(length - 1, last_byte)]);
        let last = EXTERNAL_SIZE - length;
        for address in [0, 1, 19, 20, 21, 63, 64, 65, 255, 256, 4097, last - 1, last] {
            let b = with_image(side, address, &image);
            assert_code_check(&b, code, address, length, sum, true);
            // one byte before or after, and one unit less
            if address > 0 {
                assert_code_check(&b, code, address - 1, length, sum, false);
            }
            if address < last {
                assert_code_check(&b, code, address + 1, length, sum, false);
            }
            assert_code_check(&b, code, address, length - code.unit(), sum, false);
        }
    }
}

/// A changed byte is noticed at every place, unless it changes between 00 and FF.
fn changed_bytes(side: Side) {
    for (code, length, sum) in [(CodeType::Handler, 64, 0x4001), (CodeType::PlugIn, 20, 0x3C03)] {
        for i in 0..length {
            let image = |byte| with_image(side, 0, &zeros_but(length, &[(i, byte)]));
            assert_code_check(&image(0xFF), code, 0, length, sum, true);
            for byte in [0x01, 0x40, 0x80, 0xFE] {
                assert_code_check(&image(byte), code, 0, length, sum, false);
            }
        }
    }
}

/// Exchanging two bytes leaves the low sum. The high sum changes by their distance times their difference.
fn exchanged_bytes(side: Side) {
    for (i, j, a, b, noticed) in [
        (0, 1, 0x00, 0x01, true),
        (0, 63, 0x00, 0x01, true),
        (62, 63, 0x80, 0x7F, true),
        (0, 1, 0x00, 0xFF, false),   // 1 * 255
        (5, 56, 0x07, 0x02, false),  // 51 * 5 = 255
        (5, 55, 0x07, 0x02, true),   // 50 * 5
        (10, 27, 0x64, 0x55, false), // 17 * 15 = 255
        (10, 27, 0x64, 0x56, true),  // 17 * 14
    ] {
        let sum = CodeType::Handler.checksum(&zeros_but(64, &[(i, a), (j, b)]));
        let exchanged = with_image(side, 0, &zeros_but(64, &[(i, b), (j, a)]));
        assert_code_check(&exchanged, CodeType::Handler, 0, 64, sum, !noticed);
    }
}

/// The errors come before the checksum, which is right for as many zeros, in this order: 5, 1, 6, 4. There is no load mark.
fn errors_of_a_code_check(side: Side) {
    let b = Board::started(side, 3, 1);
    let error = |pdata: &[u8], errn| {
        assert_outcome(&b, [2, 0x0A], 0xFFFF, pdata, Outcome { errn, ..Outcome::success(b.node) });
    };
    let right = code_check_pdata(1, 0, 64, 0x4001);
    error(&right[..6], 5);
    error(&[&right[..], &[0]].concat(), 5);
    error(&code_check_pdata(0xFD, 0xFFFF, 1, 0x4001)[..6], 5);
    for flags in [4, 5, 8, 0x10, 0x20, 0x40, 0x80, 0xFD] {
        error(&code_check_pdata(flags, 0, 64, 0x4001), 1);
        error(&code_check_pdata(flags, 0xFFFF, 1, 0x4001), 1);
    }
    // the checksums of so many zeros
    for (flags, length, sum) in
        [(1, 0, 1), (1, 20, 0x1401), (1, 63, 0x3F01), (1, 65, 0x4101), (3, 0, 3), (3, 19, 0x3903), (3, 64, 0xC003)]
    {
        error(&code_check_pdata(flags, 0, length, sum), 6);
        error(&code_check_pdata(flags, 0xFFFF, length, sum), 6);
    }
    for (flags, address, length, sum) in [
        (1, EXTERNAL_SIZE - 63, 64, 0x4001),
        (1, EXTERNAL_SIZE, 64, 0x4001),
        (1, 0xFFC0, 64, 0x4001),
        (1, 1, EXTERNAL_SIZE, 0x4001),
        (1, 0, 0xFFC0, 0xC001),
        (3, EXTERNAL_SIZE - 19, 20, 0x3C03),
        (3, 5, 16_380, 0xB403),
    ] {
        error(&code_check_pdata(flags, address, length, sum), 4);
    }
}
