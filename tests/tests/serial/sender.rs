//! Examples of the sender, and of messages that come back.
use crate::line::{between_flags, drop_for, frame_of, plain, send, Line, GUIDE_LINE, GUIDE_MESSAGE};
use grelfint::raw::LengthAnswer;
use grelfint_tests::on_every_side;
use grelfint_tests::uart::random::{set_check_byte, LIMITS};
use grelfint_tests::uart::reference::{
    check_byte, escaped, framed, ESCAPE, ESCAPE_BIT, FLAG, LONGEST, SHORTEST, TOO_LONG, WRONG_CHECK_BYTE,
};
use grelfint_tests::uart::sides::Side;

on_every_side! { uart [
    guide_example_framed,
    lengths_of_a_message,
    room_for_a_message,
    length_before_room,
    longest_line,
    every_length_comes_back,
    damaged_bits,
] }

fn guide_example_framed(side: Side) {
    let mut out = [0xEE; 20];
    assert_eq!((side.frame)(&GUIDE_MESSAGE, &mut out), LengthAnswer { refusal: 0, length: 15 });
    assert_eq!(out[..15], GUIDE_LINE);
    assert_eq!(out[15..], [0xEE; 5]);
}

/// A refused call writes nothing.
fn assert_refused(side: Side, message: &[u8], room: usize, refusal: u8) {
    let want = (LengthAnswer { refusal, length: 0 }, vec![0xEE; room]);
    assert_eq!(send(side, message, room), want, "{} bytes, room {room}", message.len());
}

fn lengths_of_a_message(side: Side) {
    for length in [0, 1, 5, 65, 66, 100, 255, 256 + 6, 65_536 + 6] {
        assert_refused(side, &vec![1; length], 1000, 2);
    }
    for length in [6, 7, 62, 63, 64] {
        let (answer, out) = send(side, &vec![1; length], 1000);
        assert_eq!(answer, LengthAnswer { refusal: 0, length: length + 3 });
        assert_eq!(out[..length + 1], [&[FLAG], &vec![1; length][..]].concat());
        assert_eq!(out[length + 2], FLAG);
        assert_eq!(out[length + 3..], vec![0xEE; 1000 - length - 3]);
    }
}

/// One byte less than needed is refused; escapes need room too, that of the check byte included.
fn room_for_a_message(side: Side) {
    for (message, needed) in
        [(&GUIDE_MESSAGE[..], 15), (&plain(6), 9), (&[FLAG; 6], 15), (&[ESCAPE; 7], 17), (&plain(64), 67)]
    {
        assert_eq!(framed(message).len(), needed);
        for room in 0..needed {
            assert_refused(side, message, room, 11);
        }
        for more in [0, 1, 200] {
            let (answer, out) = send(side, message, needed + more);
            assert_eq!(answer, LengthAnswer { refusal: 0, length: needed });
            assert_eq!(out, [framed(message), vec![0xEE; more]].concat());
        }
    }
    for check in [FLAG, ESCAPE] {
        let mut message = plain(6);
        set_check_byte(&mut message, check);
        assert_refused(side, &message, 9, 11);
        let (answer, out) = send(side, &message, 10);
        assert_eq!(answer, LengthAnswer { refusal: 0, length: 10 });
        assert_eq!(out[7..], [ESCAPE, check ^ ESCAPE_BIT, FLAG]);
    }
}

fn length_before_room(side: Side) {
    for length in [0, 5, 65] {
        for room in [0, 1, 8, 68] {
            assert_refused(side, &vec![1; length], room, 2);
        }
    }
}

/// Two flags and 65 escaped bytes.
fn longest_line(side: Side) {
    let of_bits = |bits: u32| -> Vec<u8> {
        (0..LONGEST).map(|i| if bits >> (i % 32) & 1 == 1 { FLAG } else { ESCAPE }).collect()
    };
    let mut messages = (0..4096).map(of_bits);
    let message = messages.find(|m| [FLAG, ESCAPE].contains(&check_byte(m))).expect("a check byte that is escaped");
    assert_refused(side, &message, 131, 11);
    assert_eq!(send(side, &message, 132), (LengthAnswer { refusal: 0, length: 132 }, framed(&message)));
    assert_eq!(Line::new(side, 64).take(&framed(&message)), frame_of(&message));
}

/// Framed and received, each message from 6 bytes to the limit comes back; a longer one is dropped.
fn every_length_comes_back(side: Side) {
    for length in SHORTEST..=LONGEST {
        for message in [plain(length), vec![FLAG; length], vec![ESCAPE; length], vec![0; length], vec![0xFF; length]] {
            let (answer, out) = send(side, &message, 132);
            assert_eq!(answer.refusal, 0);
            for limit in LIMITS {
                let want = if length <= limit as usize { frame_of(&message) } else { drop_for(TOO_LONG) };
                assert_eq!(Line::new(side, limit).take(&out[..answer.length]), want);
            }
        }
    }
}

/// One damaged bit of the message or of the check byte is always noticed.
fn damaged_bits(side: Side) {
    for limit in LIMITS {
        for length in SHORTEST..=limit as usize {
            let message: Vec<u8> = (0..length).map(|i| (37 * i + length) as u8).collect();
            let frame = [&message[..], &[check_byte(&message)]].concat();
            assert_eq!(between_flags(side, limit, &escaped(&frame)), frame_of(&message));
            for bit in 0..8 * frame.len() {
                let mut damaged = frame.clone();
                damaged[bit / 8] ^= 1 << (bit % 8);
                assert_eq!(between_flags(side, limit, &escaped(&damaged)), drop_for(WRONG_CHECK_BYTE), "bit {bit}");
            }
        }
    }
}
