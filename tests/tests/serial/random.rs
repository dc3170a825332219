//! Random calls, compared with the reference call by call: the whole answer with
//! the record, and whole buffers with the guard bytes after them. For all cuts, the
//! frames and drops of all calls, and the last record, are those of the whole
//! stream, which the reference also reads without a receiver.
use grelfint_tests::uart::random::{self, LIMITS};
use grelfint_tests::uart::reference::{framed, ESCAPE, FLAG, LONGEST, SHORTEST};
use grelfint_tests::uart::seen::{Escaped, Frame, Received, Record, Sent};
use grelfint_tests::uart::session::Session;

/// Every limit, phase and count that the rule allows.
fn every_sound_record() -> impl Iterator<Item = (u8, u8, u8)> {
    LIMITS.into_iter().flat_map(|limit| {
        let in_frame = (1..=2).flat_map(move |phase| (0..=limit + 2).map(move |count| (limit, phase, count)));
        std::iter::once((limit, 0, 0)).chain(in_frame)
    })
}

/// Streams full of flags and escapes, with each kind of frame and drop, under random cuts.
#[test]
fn random_streams() {
    let mut s = Session::new("random_streams");
    for _ in 0..7000 {
        s.random_stream();
    }
    s.report();
    s.seen.received.assert_each(Received::every(), 30);
    s.seen.frames.assert_each(Frame::every(), 20);
    s.seen.escaped.assert_each(Escaped::EVERY, 1000);
}

/// Records that keep or break the rule, on empty parts too.
#[test]
fn random_records() {
    let mut s = Session::new("random_records");
    for _ in 0..20_000 {
        s.random_record();
    }
    s.report();
    s.seen.records.assert_each(Record::EVERY, 300);
}

/// Messages of every length up to 70 bytes, full of flags and escapes, into buffers of any length, and back.
#[test]
fn random_messages() {
    let mut s = Session::new("random_messages");
    for _ in 0..20_000 {
        s.random_message();
    }
    s.report();
    s.seen.sent.assert_each(Sent::every(), 100);
    s.seen.escaped_checks.assert_each([FLAG, ESCAPE], 500);
}

/// Every sound limit, phase and count with every byte, alone and before a flag.
#[test]
fn every_step() {
    let mut s = Session::new("every_step");
    for (limit, phase, count) in every_sound_record() {
        for byte in 0..=255 {
            let start = random::receiver_of(&mut s.g, limit, phase, count);
            s.receive_stream(start, &[&[byte]]);
            s.receive_stream(start, &[&[byte, FLAG]]);
        }
    }
}

/// From every sound limit, phase and count a framed message comes out, of every length.
#[test]
fn every_record_and_length() {
    let mut s = Session::new("every_record_and_length");
    for (limit, phase, count) in every_sound_record() {
        for length in SHORTEST..=LONGEST {
            let start = random::receiver_of(&mut s.g, limit, phase, count);
            let message = random::message(&mut s.g, length);
            s.comes_back(start, &message, &framed(&message));
        }
    }
}

/// Streams cut at every two places.
#[test]
fn every_cut() {
    let mut s = Session::new("every_cut");
    for _ in 0..6 {
        let start = random::receiver(&mut s.g);
        let mut stream = Vec::new();
        while stream.len() < 70 {
            stream.extend(random::stream(&mut s.g, start.limit as usize));
        }
        stream.truncate(70);
        for second in 0..=stream.len() {
            for first in 0..=second {
                s.receive_stream(start, &[&stream[..first], &stream[first..second], &stream[second..]]);
            }
        }
    }
}
