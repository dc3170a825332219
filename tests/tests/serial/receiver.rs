//! Examples of the receiver.
use crate::line::{
    between_flags, drop_for, frame_of, plain, send, with_check_byte, with_wrong_check_byte, Line, GUIDE_CHECK_BYTE,
    GUIDE_LINE, GUIDE_MESSAGE,
};
use grelfint::raw::{ReceiveAnswer, Receiver};
use grelfint_tests::buffers::hex;
use grelfint_tests::on_every_side;
use grelfint_tests::uart::random::LIMITS;
use grelfint_tests::uart::reference::{
    check_byte, escaped, framed, Event, CUT, ESCAPE, ESCAPE_BIT, FLAG, LONGEST, SHORT, SHORTEST, TOO_LONG,
    WRONG_CHECK_BYTE,
};
use grelfint_tests::uart::sides::{event_of, Side};

on_every_side! { uart [
    guide_example_received,
    new_receivers,
    bytes_before_the_first_flag,
    flags_without_bytes,
    each_flag_ends_a_frame_and_opens_the_next,
    stops_at_each_frame_and_drop,
    every_byte_after_an_escape,
    cut_after_an_escape,
    longest_frames,
    escape_after_the_longest_frame,
    shortest_frames,
    every_check_byte,
    check_byte_by_masks,
    first_cause,
    count_stops,
    bytes_of_a_record,
    last_bytes_of_a_nodes_record,
    parts_of_a_frame,
    empty_parts,
    two_receivers_by_turns,
    broken_records,
    sound_records,
] }

fn guide_example_received(side: Side) {
    for limit in LIMITS {
        let mut line = Line::new(side, limit);
        let answer = line.call(&GUIDE_LINE);
        let mut frame = [0; 64];
        frame[..9].copy_from_slice(&GUIDE_MESSAGE);
        let mut bytes = [0; 65];
        bytes[..10].copy_from_slice(&[&GUIDE_MESSAGE[..], &[GUIDE_CHECK_BYTE]].concat());
        let receiver = Receiver { limit, phase: 1, count: 0, bytes };
        assert_eq!(answer, ReceiveAnswer { refusal: 0, event: 1, cause: 0, taken: 15, length: 9, frame, receiver });
        // byte by byte: the same frame at the last byte, and the same record
        let mut line = Line::new(side, limit);
        for byte in &GUIDE_LINE[..14] {
            assert_eq!(line.take(&[*byte]), []);
        }
        assert_eq!(line.call(&GUIDE_LINE[14..]), ReceiveAnswer { taken: 1, ..answer });
    }
}

fn new_receivers(side: Side) {
    assert_eq!((side.receiver)(true), Receiver { limit: 64, phase: 0, count: 0, bytes: [0; 65] });
    assert_eq!((side.receiver)(false), Receiver { limit: 62, phase: 0, count: 0, bytes: [0; 65] });
}

/// They are all skipped and do not change the record; an escape among them does not reach the flag.
fn bytes_before_the_first_flag(side: Side) {
    for limit in LIMITS {
        for noise in [&[0x00][..], &[ESCAPE], &[0x5E, 0xFF], &[ESCAPE, 0x5E, 0x2F], &[0x55; 300], &GUIDE_LINE[1..14]] {
            let mut line = Line::new(side, limit);
            let new = line.receiver;
            assert_eq!(line.call(noise), ReceiveAnswer { taken: noise.len(), ..ReceiveAnswer::zeros(new) });
            assert_eq!(line.take(&[FLAG]), []);
            assert_eq!(line.receiver, Receiver { phase: 1, ..new });
            assert_eq!(line.take(&GUIDE_LINE[1..]), frame_of(&GUIDE_MESSAGE));
            // the same in one part
            assert_eq!(Line::new(side, limit).take(&[noise, &GUIDE_LINE].concat()), frame_of(&GUIDE_MESSAGE));
        }
    }
}

fn flags_without_bytes(side: Side) {
    for limit in LIMITS {
        let mut line = Line::new(side, limit);
        let opened = Receiver { phase: 1, ..line.receiver };
        for flags in [1, 1, 2, 100] {
            assert_eq!(line.call(&vec![FLAG; flags]), ReceiveAnswer { taken: flags, ..ReceiveAnswer::zeros(opened) });
        }
        assert_eq!(line.take(&[&[FLAG; 3], &GUIDE_LINE[..], &[FLAG; 3]].concat()), frame_of(&GUIDE_MESSAGE));
    }
}

fn each_flag_ends_a_frame_and_opens_the_next(side: Side) {
    let [first, second] = [plain(6), plain(20)];
    let both = vec![Event::Frame(first.clone()), Event::Frame(second.clone())];
    let one_flag = [&[FLAG], &with_check_byte(&first)[..], &[FLAG], &with_check_byte(&second), &[FLAG]].concat();
    let two_flags = [framed(&first), framed(&second)].concat();
    assert_eq!(two_flags.len(), one_flag.len() + 1);
    for limit in LIMITS {
        assert_eq!(Line::new(side, limit).take(&one_flag), both);
        assert_eq!(Line::new(side, limit).take(&two_flags), both);
        // the flag that drops a frame opens the next one too
        let after_a_drop = [&[FLAG, 1, 2, 3], &two_flags[..]].concat();
        assert_eq!(Line::new(side, limit).take(&after_a_drop), [drop_for(SHORT), both.clone()].concat());
    }
}

/// Bytes after the flag are not taken, not even flags.
fn stops_at_each_frame_and_drop(side: Side) {
    let line = [&GUIDE_LINE[..], &[1, 2, FLAG, FLAG], &GUIDE_LINE[1..], &[ESCAPE, FLAG, 9, 9]].concat();
    for limit in LIMITS {
        let mut rest = &line[..];
        let mut receiver = Line::new(side, limit);
        for (taken, event) in [
            (15, Some(Event::Frame(GUIDE_MESSAGE.to_vec()))),
            (3, Some(Event::Drop(SHORT))),
            (15, Some(Event::Frame(GUIDE_MESSAGE.to_vec()))), // a flag without bytes before it
            (2, Some(Event::Drop(CUT))),
            (2, None),
        ] {
            let answer = receiver.call(rest);
            assert_eq!((answer.taken, event_of(&answer)), (taken, event));
            rest = &rest[taken..];
        }
        assert_eq!(receiver.record(), (limit, 1, 2));
    }
}

// ---- escapes ----
fn every_byte_after_an_escape(side: Side) {
    for limit in LIMITS {
        for byte in 0..=255 {
            let mut message = plain(7);
            message[3] = byte ^ ESCAPE_BIT;
            let rest = [&message[4..], &[check_byte(&message)]].concat();
            let bytes = [&[1, 2, 3, ESCAPE, byte], &escaped(&rest)[..]].concat();
            let want = if byte == FLAG { [drop_for(CUT), drop_for(SHORT)].concat() } else { frame_of(&message) };
            assert_eq!(between_flags(side, limit, &bytes), want, "escape and {byte:02X}");
        }
    }
}

/// A flag is never data: after an escape it ends the frame too, and opens the next.
fn cut_after_an_escape(side: Side) {
    for limit in LIMITS {
        assert_eq!(Line::new(side, limit).take(&[FLAG, ESCAPE, FLAG]), drop_for(CUT));
        assert_eq!(between_flags(side, limit, &[ESCAPE]), drop_for(CUT));
        for length in 0..=limit as usize {
            let bytes = [&with_check_byte(&plain(length))[..], &[ESCAPE]].concat();
            assert_eq!(between_flags(side, limit, &bytes), drop_for(CUT), "{length}");
        }
        // the next frame is not escaped
        let next = [&[ESCAPE, FLAG], &GUIDE_LINE[1..]].concat();
        assert_eq!(Line::open(side, limit).take(&next), [drop_for(CUT), frame_of(&GUIDE_MESSAGE)].concat());
        // two escapes are the byte 5D, which does not end with an escape
        assert_eq!(between_flags(side, limit, &[ESCAPE, ESCAPE]), drop_for(SHORT));
        assert_eq!(between_flags(side, limit, &[ESCAPE, ESCAPE, ESCAPE]), drop_for(CUT));
    }
}

// ---- lengths ----
/// The limit itself passes, the check byte not counted; one byte more is too long, and so are many.
fn longest_frames(side: Side) {
    for limit in LIMITS {
        let longest = limit as usize;
        for length in [longest - 1, longest] {
            assert_eq!(between_flags(side, limit, &with_check_byte(&plain(length))), frame_of(&plain(length)));
            let flags = vec![FLAG; length];
            assert_eq!(between_flags(side, limit, &with_check_byte(&flags)), frame_of(&flags));
        }
        for length in [longest + 1, longest + 2, longest + 3, 126, 254, 255] {
            let message: Vec<u8> = (0..length).map(|i| (i % 100) as u8).collect();
            assert_eq!(between_flags(side, limit, &with_check_byte(&message)), drop_for(TOO_LONG), "{length}");
        }
        for count in [256, 257, 260, 320, 65_536 + 7] {
            assert_eq!(between_flags(side, limit, &vec![0; count]), drop_for(TOO_LONG), "{count}");
        }
        // the frame after it passes
        let next = [&[FLAG], &[1; 70][..], &GUIDE_LINE].concat();
        assert_eq!(Line::new(side, limit).take(&next), [drop_for(TOO_LONG), frame_of(&GUIDE_MESSAGE)].concat());
    }
    let between = with_check_byte(&plain(63));
    assert_eq!(between_flags(side, 64, &between), frame_of(&plain(63)));
    assert_eq!(between_flags(side, 62, &between), drop_for(TOO_LONG));
}

/// An escape that waits for its byte does not count in the length.
fn escape_after_the_longest_frame(side: Side) {
    for limit in LIMITS {
        let longest = limit as usize;
        for (length, cause) in [(longest, CUT), (longest + 1, TOO_LONG), (longest + 2, TOO_LONG)] {
            let bytes = [&with_check_byte(&plain(length))[..], &[ESCAPE]].concat();
            assert_eq!(between_flags(side, limit, &bytes), drop_for(cause), "{length}");
        }
        // with its byte it does
        let bytes = [&with_check_byte(&plain(longest))[..], &[ESCAPE, 0]].concat();
        assert_eq!(between_flags(side, limit, &bytes), drop_for(TOO_LONG));
    }
}

fn shortest_frames(side: Side) {
    for limit in LIMITS {
        for length in 0..=5 {
            assert_eq!(between_flags(side, limit, &with_check_byte(&plain(length))), drop_for(SHORT), "{length}");
        }
        assert_eq!(between_flags(side, limit, &with_check_byte(&plain(6))), frame_of(&plain(6)));
        assert_eq!(between_flags(side, limit, &[0]), drop_for(SHORT));
        // six bytes on the line, the check byte among them
        assert_eq!(between_flags(side, limit, &[1, 2, 3, 4, 5, check_byte(&[1, 2, 3, 4, 5])]), drop_for(SHORT));
        // escapes on the line do not make it longer
        assert_eq!(between_flags(side, limit, &with_check_byte(&[FLAG; 5])), drop_for(SHORT));
    }
}

// ---- check byte ----
fn every_check_byte(side: Side) {
    for limit in LIMITS {
        for message in [&GUIDE_MESSAGE[..], &plain(6), &[0; 6], &[0xFF; 20], &plain(limit as usize)] {
            for check in 0..=255 {
                let bytes = escaped(&[message, &[check]].concat());
                let want = if check == check_byte(message) { frame_of(message) } else { drop_for(WRONG_CHECK_BYTE) };
                assert_eq!(between_flags(side, limit, &bytes), want, "{} {check:02X}", hex(message));
            }
        }
        let guide = escaped(&[&GUIDE_MESSAGE[..], &[GUIDE_CHECK_BYTE]].concat());
        assert_eq!(between_flags(side, limit, &guide), frame_of(&GUIDE_MESSAGE));
    }
}

/// The routine of 000, 13.1.1, which adds a mask for each bit of the byte and the CRC before it.
fn guide_check_byte(message: &[u8]) -> u8 {
    const MASKS: [u8; 8] = [0x5E, 0xBC, 0x61, 0xC2, 0x9D, 0x23, 0x46, 0x8C];
    message.iter().fold(0xFF, |crc, byte| {
        let bits = (0..8).filter(|bit| (crc ^ byte) >> bit & 1 == 1);
        bits.fold(0, |sum, bit| sum ^ MASKS[bit])
    })
}

fn check_byte_by_masks(side: Side) {
    assert_eq!(guide_check_byte(&GUIDE_MESSAGE), GUIDE_CHECK_BYTE);
    for length in SHORTEST..=LONGEST {
        for first in 0..=255 {
            let message: Vec<u8> = (0..length).map(|i| (first + 37 * i) as u8).collect();
            let check = escaped(&[guide_check_byte(&message)]);
            let (answer, out) = send(side, &message, 132);
            let end = answer.length - 1;
            assert_eq!(out[end - check.len()..end], check, "{}", hex(&message));
        }
    }
}

/// Where several causes hold, the first is given.
fn first_cause(side: Side) {
    for limit in LIMITS {
        let over = plain(limit as usize + 1);
        let cut = |bytes: Vec<u8>| [bytes, vec![ESCAPE]].concat();
        for (bytes, cause) in [
            (cut(with_wrong_check_byte(&over)), TOO_LONG),
            (cut(with_check_byte(&over)), TOO_LONG),
            (with_wrong_check_byte(&over), TOO_LONG),
            (cut(with_wrong_check_byte(&plain(3))), CUT),
            (cut(with_check_byte(&plain(3))), CUT),
            (cut(with_wrong_check_byte(&plain(20))), CUT),
            (cut(with_check_byte(&plain(20))), CUT),
            (with_wrong_check_byte(&plain(5)), SHORT),
            (with_wrong_check_byte(&plain(0)), SHORT),
            (with_wrong_check_byte(&plain(6)), WRONG_CHECK_BYTE),
        ] {
            assert_eq!(between_flags(side, limit, &bytes), drop_for(cause), "{}", hex(&bytes));
        }
    }
}

// ---- the record ----
/// The count includes the check byte and stops at limit + 2; escapes do not count.
fn count_stops(side: Side) {
    for limit in LIMITS {
        let mut line = Line::open(side, limit);
        for k in 1..=100 {
            assert_eq!(line.take(&[9]), []);
            assert_eq!(line.record(), (limit, 1, k.min(limit + 2)));
        }
        assert_eq!(line.take(&[ESCAPE]), []);
        assert_eq!(line.record(), (limit, 2, limit + 2));
        assert_eq!(line.take(&[9]), []);
        assert_eq!(line.record(), (limit, 1, limit + 2));
        // all in one part
        let mut line = Line::open(side, limit);
        assert_eq!(line.take(&[9; 300]), []);
        assert_eq!(line.record(), (limit, 1, limit + 2));
    }
}

/// Byte k of a frame is bytes[k], without escapes; a flag leaves all of them, and a later frame replaces the first ones.
fn bytes_of_a_record(side: Side) {
    for limit in LIMITS {
        let mut line = Line::open(side, limit);
        line.take(&[0x11, ESCAPE, 0x5D, 0x22, ESCAPE, 0x5E, ESCAPE]);
        let mut want = Receiver { limit, phase: 2, count: 4, bytes: [0; 65] };
        want.bytes[..4].copy_from_slice(&[0x11, 0x7D, 0x22, 0x7E]);
        assert_eq!(line.receiver, want);
        assert_eq!(line.take(&[FLAG]), drop_for(CUT));
        assert_eq!(line.receiver, Receiver { phase: 1, count: 0, ..want });
        line.take(&[0x33, 0x44]);
        want.bytes[..2].copy_from_slice(&[0x33, 0x44]);
        assert_eq!(line.receiver, Receiver { phase: 1, count: 2, ..want });
        assert_eq!(line.take(&[FLAG]), drop_for(SHORT));
        assert_eq!(line.receiver, Receiver { phase: 1, count: 0, ..want });
    }
}

/// bytes[limit] is the check byte of a longest frame; no byte is stored after it.
fn last_bytes_of_a_nodes_record(side: Side) {
    for limit in LIMITS {
        let last = limit as usize;
        let mut line = Line::open(side, limit);
        line.receiver.bytes = [0xEE; 65];
        line.take(&[&plain(last)[..], &[0x99, 0xAA, 0xBB, 0xCC]].concat());
        let mut want = [0xEE; 65];
        want[..last].copy_from_slice(&plain(last));
        want[last] = 0x99;
        assert_eq!(line.receiver.bytes, want);
        for (bytes, event) in [
            (with_check_byte(&plain(last)), Event::Frame(plain(last))),
            (escaped(&vec![FLAG; 3 * last]), Event::Drop(TOO_LONG)),
        ] {
            line.receiver = Receiver { limit, phase: 1, count: 0, bytes: [0xEE; 65] };
            assert_eq!(line.take(&[&bytes[..], &[FLAG]].concat()), [event]);
            assert!(line.receiver.bytes[last + 1..].iter().all(|&byte| byte == 0xEE));
        }
    }
}

/// Every way to cut the guide's example into three parts, also inside an escape.
fn parts_of_a_frame(side: Side) {
    for limit in LIMITS {
        let mut whole = Line::new(side, limit);
        whole.take(&GUIDE_LINE);
        for first in 0..=GUIDE_LINE.len() {
            for second in first..=GUIDE_LINE.len() {
                let mut line = Line::new(side, limit);
                let parts = [&GUIDE_LINE[..first], &GUIDE_LINE[first..second], &GUIDE_LINE[second..]];
                let events: Vec<Event> = parts.iter().flat_map(|part| line.take(part)).collect();
                assert_eq!(events, frame_of(&GUIDE_MESSAGE), "{first} {second}");
                assert_eq!(line.receiver, whole.receiver);
            }
        }
    }
}

fn empty_parts(side: Side) {
    for (limit, phase, count) in [(62, 0, 0), (64, 1, 0), (62, 1, 64), (64, 2, 0), (64, 2, 66)] {
        let receiver = Receiver { limit, phase, count, bytes: [0xA5; 65] };
        assert_eq!((side.receive)(receiver, &[]), ReceiveAnswer::zeros(receiver));
    }
}

/// All state is in the record: of two receivers, the second a byte later than the first, each gets the frame.
fn two_receivers_by_turns(side: Side) {
    for limit in LIMITS {
        let mut first = Line::new(side, limit);
        let mut second = Line::new(side, limit);
        let (mut events, mut later_events) = (Vec::new(), Vec::new());
        let mut before: &[u8] = &[];
        for byte in GUIDE_LINE.chunks(1).chain([&[][..]]) {
            events.extend(first.take(byte));
            later_events.extend(second.take(before));
            before = byte;
        }
        assert_eq!(events, frame_of(&GUIDE_MESSAGE));
        assert_eq!(later_events, events);
        assert_eq!(second.receiver, first.receiver);
    }
}

/// Refusal 1, zeros, and the record as it came: for each clause of the rule alone, with any bytes.
fn broken_records(side: Side) {
    for (limit, phase, count) in [
        (0, 1, 0),
        (61, 1, 0),
        (63, 1, 0),
        (65, 1, 0),
        (255, 1, 0),
        (62, 3, 0),
        (64, 3, 0),
        (64, 255, 0),
        (62, 1, 65),
        (62, 2, 66),
        (64, 1, 67),
        (64, 2, 255),
        (62, 0, 1),
        (64, 0, 1),
        (64, 0, 66),
        (255, 255, 255),
    ] {
        let receiver = Receiver { limit, phase, count, bytes: [0xA5; 65] };
        let refused = ReceiveAnswer { refusal: 1, ..ReceiveAnswer::zeros(receiver) };
        for bytes in [&[][..], &[FLAG], &[0], &[ESCAPE], &GUIDE_LINE] {
            assert_eq!((side.receive)(receiver, bytes), refused, "{limit} {phase} {count} {}", hex(bytes));
        }
    }
}

/// Each record that the rule allows, and none other, is accepted.
fn sound_records(side: Side) {
    for limit in 0..=255 {
        for phase in 0..=3 {
            for count in 0..=255 {
                let receiver = Receiver { limit, phase, count, bytes: [0xA5; 65] };
                let sound = match (limit, phase) {
                    (62 | 64, 0) => count == 0,
                    (62, 1 | 2) => count <= 64,
                    (64, 1 | 2) => count <= 66,
                    _ => false,
                };
                let want = ReceiveAnswer { refusal: !sound as u8, ..ReceiveAnswer::zeros(receiver) };
                assert_eq!((side.receive)(receiver, &[]), want);
            }
        }
    }
}
