//! Document 02, change 2/12: keep with a time.
use crate::common::*;
use grelfint_tests::board::Board;
use grelfint_tests::on_every_side;
use grelfint_tests::sides::Side;

on_every_side! { node [
    keep_with_and_without_a_time,
    keep_reports_the_actual_level,
    keep_with_an_error,
    keep_of_unimplemented_lamps,
    keep_beside_levels,
    keep_among_the_entries_of_a_batch,
    kept_lamps_turn_off_on_time,
] }

/// Sends lamp entries as set, raise and lower, each by itself and in a batch; `after` are the lamps that they leave.
fn assert_each_command(b: &Board, pdata: &[u8], errn: u8, previous: &[u8], after: &[LevelAndSeconds]) {
    let success = Outcome::success(board_with(b.side, b.node.settings.step, after).node);
    for pcmd in 0..=2 {
        assert_outcome(b, [0x71, pcmd], 0xFFFF, pdata, Outcome { errn, data: previous, ..success });
        let list = [&[5 + pdata.len() as u8, 0x71, pcmd, 0xFF, 0xFF], pdata, &[0]].concat();
        assert_outcome(b, [2, 5], 0xFFFF, &list, success);
    }
}

/// Sends a keep entry for the first of two lamps; the second stays.
fn assert_keep(side: Side, step: u8, before: LevelAndSeconds, entry: &[u8], previous: u8, after: LevelAndSeconds) {
    let b = board_with(side, step, &[before, (70, 90)]);
    assert_each_command(&b, &[&[1, 0, 0, 0], entry].concat(), 0, &[previous], &[after, (70, 90)]);
}

fn keep_with_and_without_a_time(side: Side) {
    let table: [(LevelAndSeconds, &[u8], LevelAndSeconds); 24] = [
        // no timer
        ((40, 0), &[0xFF, 0x02], (40, 120)),
        ((40, 0), &[0xFF, 0x85], (40, 5)),
        ((40, 0), &[0x7F], (40, 0)),
        // a timer that is shorter than the time, as long, and longer
        ((40, 3), &[0xFF, 0x02], (40, 120)),
        ((40, 120), &[0xFF, 0x02], (40, 120)),
        ((40, 600), &[0xFF, 0x02], (40, 120)),
        ((40, 3), &[0xFF, 0x85], (40, 5)),
        ((40, 5), &[0xFF, 0x85], (40, 5)),
        ((40, 600), &[0xFF, 0x85], (40, 5)),
        ((40, 3), &[0x7F], (40, 3)),
        ((40, 600), &[0x7F], (40, 600)),
        // off
        ((0, 0), &[0xFF, 0x02], (0, 0)),
        ((0, 0), &[0xFF, 0x85], (0, 0)),
        ((0, 0), &[0x7F], (0, 0)),
        // the shortest and the longest times, levels and timers
        ((40, 0), &[0xFF, 0x01], (40, 60)),
        ((40, 0), &[0xFF, 0x7F], (40, 7620)),
        ((40, 0), &[0xFF, 0x81], (40, 1)),
        ((40, 0), &[0xFF, 0xFF], (40, 127)),
        ((1, 7620), &[0xFF, 0x81], (1, 1)),
        ((1, 7620), &[0x7F], (1, 7620)),
        ((100, 1), &[0xFF, 0x7F], (100, 7620)),
        ((100, 1), &[0x7F], (100, 1)),
        ((100, 7620), &[0xFF, 0x7F], (100, 7620)),
        ((0, 0), &[0xFF, 0x7F], (0, 0)),
    ];
    for (before, entry, after) in table {
        assert_keep(side, 1, before, entry, before.0, after);
    }
}

/// The requested level stays, even if it is no multiple of the dimming step.
fn keep_reports_the_actual_level(side: Side) {
    assert_keep(side, 10, (15, 0), &[0xFF, 0x02], 20, (15, 120));
    assert_keep(side, 10, (15, 30), &[0xFF, 0x85], 20, (15, 5));
    assert_keep(side, 10, (15, 30), &[0x7F], 20, (15, 30));
    assert_keep(side, 10, (20, 0), &[0xFF, 0x02], 20, (20, 120));
    assert_keep(side, 10, (0, 0), &[0xFF, 0x02], 0, (0, 0));
    assert_keep(side, 25, (26, 1), &[0xFF, 0x02], 50, (26, 120));
    assert_keep(side, 100, (1, 600), &[0xFF, 0x85], 100, (1, 5));
}

/// Each of these requests is ErrN 6, and no lamp changes.
fn keep_with_an_error(side: Side) {
    let table: [&[u8]; 11] = [
        // an invalid time, also after good entries and before good ones
        &[1, 0, 0, 0, 0xFF, 0x00],
        &[1, 0, 0, 0, 0xFF, 0x80],
        &[2, 0, 0, 0, 0xFF, 0x80],
        &[4, 0, 0, 0, 0xFF, 0x00],
        &[7, 0, 0, 0, 0xFF, 0x02, 0xFF, 0x85, 0xFF, 0x00],
        &[7, 0, 0, 0, 0x0A, 0x8A, 0x03, 0xFF, 0x80],
        &[7, 0, 0, 0, 0xFF, 0x00, 0xFF, 0x02, 0xFF, 0x02],
        // of an unimplemented lamp
        &[9, 0, 0, 0, 0xFF, 0x02, 0xFF, 0x80],
        // a missing time byte; a byte after keep without a time; power 126 with a time
        &[1, 0, 0, 0, 0xFF],
        &[1, 0, 0, 0, 0x7F, 0x02],
        &[3, 0, 0, 0, 0xFF, 0x02, 0xFE, 0x02],
    ];
    let lamps = [(40, 0), (50, 30), (0, 0)];
    for pdata in table {
        assert_each_command(&board_with(side, 1, &lamps), pdata, 6, &[], &lamps);
    }
}

fn keep_of_unimplemented_lamps(side: Side) {
    let lamps = [(40, 0), (50, 30)];
    let b = board_with(side, 1, &lamps);
    assert_each_command(&b, &[4, 0, 0, 0, 0xFF, 0x02], 0, &[0], &lamps);
    assert_each_command(&b, &[0, 0, 0, 0x80, 0xFF, 0x85], 0, &[0], &lamps);
    assert_each_command(&b, &[4, 0, 0, 0, 0x7F], 0, &[0], &lamps);
    assert_each_command(&b, &[6, 0, 0, 0, 0xFF, 0x02, 0xFF, 0x85], 0, &[50, 0], &[(40, 0), (50, 120)]);
}

/// Each entry in a request has its own effect.
fn keep_beside_levels(side: Side) {
    let before = [(40, 0), (50, 30), (0, 0), (60, 600), (70, 90)];
    let pdata = [0x1F, 0, 0, 0, 0xFF, 0x02, 0x7F, 0xFF, 0x85, 0x8A, 0x81, 0xFF, 0x83];
    for (pcmd, level) in [(0, 10), (1, 70), (2, 50)] {
        let mut b = board_with(side, 1, &before);
        assert_eq!(b.take(0x71, pcmd, &pdata), (0, vec![40, 50, 0, 60, 70]));
        assert_eq!(b.lamps(5), [(40, 120), (50, 30), (0, 0), (level, 1), (70, 3)]);
    }
}

/// Batches of the first entry, the first two and so on. Each entry finds the lamp that the one before left.
fn keep_among_the_entries_of_a_batch(side: Side) {
    let entries: [(&[u8], LevelAndSeconds); 5] = [
        (&[11, 0x71, 1, 0xFF, 0xFF, 1, 0, 0, 0, 0xFF, 0x02], (0, 0)),
        (&[11, 0x71, 0, 0xFF, 0xFF, 1, 0, 0, 0, 0xA8, 0x03], (40, 180)),
        (&[11, 0x71, 2, 0xFF, 0xFF, 1, 0, 0, 0, 0xFF, 0x85], (40, 5)),
        (&[11, 0x71, 0, 0xFF, 0xFF, 1, 0, 0, 0, 0xFF, 0x00], (40, 5)), // ErrN 6
        (&[11, 0x71, 0, 0xFF, 0xFF, 1, 0, 0, 0, 0xFF, 0x01], (40, 60)),
    ];
    let mut list = Vec::new();
    for (entry, lamp) in entries {
        list.extend_from_slice(entry);
        let want = Outcome::success(board_with(side, 1, &[lamp]).node);
        assert_outcome(&Board::started(side, 1, 1), [2, 5], 0xFFFF, &[&list[..], &[0]].concat(), want);
    }
}

/// The lamp has its level until the last of these ticks, and is then at 0.
fn kept_lamps_turn_off_on_time(side: Side) {
    let table: [(LevelAndSeconds, &[u8], usize); 6] = [
        ((40, 0), &[0xFF, 0x83], 3),
        ((40, 0), &[0xFF, 0x01], 60),
        ((40, 1), &[0xFF, 0x02], 120),
        ((40, 600), &[0xFF, 0x83], 3),
        ((40, 30), &[0xFF, 0x81], 1),
        ((40, 30), &[0x7F], 30),
    ];
    for (before, entry, ticks) in table {
        for pcmd in 0..=2 {
            let mut b = board_with(side, 1, &[before]);
            assert_eq!(b.take(0x71, pcmd, &[&[1, 0, 0, 0], entry].concat()), (0, vec![40]));
            for _ in 1..ticks {
                b.node = (side.tick)(b.node).node;
            }
            assert_eq!(b.lamps(1), [(40, 1)], "{entry:02X?}");
            b.node = (side.tick)(b.node).node;
            assert_eq!(b.lamps(1), [(0, 0)], "{entry:02X?}");
        }
    }
}
