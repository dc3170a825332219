//! Document 01: calls of all kinds, one after the other; then all inputs of a kind.
use grelfint::raw::CompileAnswer;
use grelfint_tests::board::Lengths;
use grelfint_tests::gateway::reference as timing;
use grelfint_tests::node::random::{self, EXCESS};
use grelfint_tests::node::reference::{EEPROM_SIZE, EXTERNAL_SIZE, STEPS};
use grelfint_tests::node::seen::{Requests, SetKind};
use grelfint_tests::node::session::Session;
use grelfint_tests::records::lamp;
use grelfint_tests::rng::number;
use grelfint_tests::scene::seen::{AtLimit, Compiled, Taker};
use grelfint_tests::scene::session::{SceneCall, To};
use grelfint_tests::sides::{Side, BINDINGS, FAST, IN_PLACE, LIBRARY};

fn random_call(s: &mut Session) {
    let own = s.boards.plain.node;
    let often = s.g.chance(1, 40);
    let faulty = often && s.g.chance(1, 2) || s.g.chance(1, 60);
    let node = if faulty { random::broken(&mut s.g, own) } else { own };
    match s.g.below(100) {
        0..=73 => s.random_request(node, often),
        74..=83 => {
            let after = s.tick(node);
            if node == own {
                s.set_node(after);
            }
        }
        84..=87 => s.frc(node),
        88 => s.actual_levels(node),
        89..=91 => s.random_view(),
        92..=93 => s.confirm(),
        94 => s.timing(),
        95 if s.g.chance(1, 2) => s.start(),
        _ => s.scene(),
    }
}

/// A call with these faults: address or nodes (1), book (6), scene (7), step (82), room (9). The first is told.
fn faulty_call(s: &mut Session, selective: bool, faults: [bool; 5]) {
    let [to, in_scene @ ..] = faults;
    let g = &mut s.g;
    let to = if to { To::bad(g, selective) } else { To::good(g, selective) };
    let (call, number) = SceneCall::faulty(g, to, in_scene);
    let Some(first) = faults.iter().position(|&fault| fault) else {
        let (answer, _) = s.compile(&call);
        s.expect(answer.refusal == 0, || format!("{answer:?} without a fault\n{}", call.inputs(&s.boards.plain)));
        return;
    };
    let refusal = [1, 6, 7, 82, 9][first];
    s.compile_built(&call, CompileAnswer { refusal, step: if refusal == 82 { number } else { 0 }, length: 0 });
}

/// So many random calls of all kinds on one side.
fn sessions(test: &'static str, side: Side, wanted: u64) {
    let mut s = Session::new(test, side);
    while s.calls < wanted {
        s.run(1, 400, random_call);
    }
    s.report();
    if wanted >= 100_000 {
        let refusals: Vec<u8> = s.seen.refusals.0.keys().copied().collect();
        assert_eq!(refusals, [0, 1, 2, 3, 4, 5, 6, 7, 9, 10, 15, 16, 81, 82, 83, 84]);
        let errors = s.seen.errors;
        assert!(errors.iter().all(|&n| n > 0), "an ErrN never seen: {errors:?}");
        assert!(s.seen.loads > 0);
        s.seen.assert_every_kind_of_request();
        assert!(errors[0] * 2 > errors.iter().sum::<u64>(), "valid requests are rare");
        s.seen.levels.assert_each([0, 1], wanted / 20_000);
    }
}

fn wanted_calls() -> u64 {
    number("GRELFINT_CALLS", 1_200_000)
}

#[test]
fn random_sessions() {
    sessions("random_sessions", LIBRARY, wanted_calls());
}

/// The methods of the bindings, for a share of the calls.
#[test]
fn random_sessions_of_the_bindings() {
    sessions("random_sessions_of_the_bindings", BINDINGS, wanted_calls() / 8);
}

/// The node's own address and 0x00FF are addressed, no other of the 65,536 values.
#[test]
fn every_nadr() {
    let mut s = Session::new("every_nadr", LIBRARY);
    let mut addressed = Vec::new();
    for nadr in 0..=0xFFFFu16 {
        let [low, high] = nadr.to_le_bytes();
        if s.take(&[low, high, 0x71, 0x3E, 0xFF, 0xFF], Lengths::USUAL).addressed {
            addressed.push(nadr);
        }
    }
    assert_eq!(addressed, [s.boards.plain.node.settings.address, 0x00FF]);
    assert_eq!(s.seen.requests, Requests { own: 1, broadcast: 1, other_node: 65_534, ..Requests::default() });
}

#[test]
fn every_pnum_and_pcmd() {
    let mut s = Session::new("every_pnum_and_pcmd", LIBRARY);
    for pnum in 0..=255u8 {
        for pcmd in 0..=255u8 {
            let mut pdata = vec![0; s.g.within(0, 9)];
            s.g.fill(&mut pdata);
            for nadr in [s.boards.plain.node.settings.address, 0x00FF] {
                let mut frame = nadr.to_le_bytes().to_vec();
                frame.extend_from_slice(&[pnum, pcmd, 0xFF, 0xFF]);
                frame.extend_from_slice(&pdata);
                _ = s.take(&frame, Lengths::USUAL);
            }
        }
    }
}

#[test]
fn every_length() {
    let mut s = Session::new("every_length", LIBRARY);
    for frame_length in 0..=80 {
        for response in 0..=80 {
            let mut frame = s.random_frame();
            frame.resize(frame_length, 0);
            _ = s.take(&frame, Lengths { response, ..Lengths::USUAL });
        }
    }
    for eeprom in 0..=EEPROM_SIZE + EXCESS {
        for external in [0, EXTERNAL_SIZE - 1, EXTERNAL_SIZE, EXTERNAL_SIZE + 1] {
            let lent = Lengths { eeprom, external, ..Lengths::USUAL };
            let frame = s.random_frame();
            _ = s.take(&frame, lent);
            s.view_status(lent, 3, 0, 1);
        }
    }
    for external in (0..=EXTERNAL_SIZE + EXCESS).step_by(61) {
        let frame = s.random_frame();
        _ = s.take(&frame, Lengths { external, ..Lengths::USUAL });
    }
}

/// Every power byte with every time byte, for set, raise and lower, at random
/// levels and steps.
#[test]
fn every_power_and_time() {
    let mut s = Session::new("every_power_and_time", LIBRARY);
    for pcmd in 0..3u8 {
        for power in 0..=255u8 {
            for time in 0..=255u8 {
                let mut node = random::node(&mut s.g);
                node.settings.lamp_count = node.settings.lamp_count.max(2);
                let mut frame = node.settings.address.to_le_bytes().to_vec();
                frame.extend_from_slice(&[0x71, pcmd, 0xFF, 0xFF, 2, 0, 0, 0, power]);
                if power >= 0x80 {
                    frame.push(time);
                } else if time > 1 {
                    break;
                }
                _ = s.request(node, &frame, Lengths::USUAL);
            }
        }
    }
}

#[test]
fn all_timing() {
    let l = LIBRARY;
    for lp in [false, true] {
        for p in 0..=300usize {
            assert_eq!((l.timeslot)(p, lp), timing::timeslot(p, lp), "timeslot {p} {lp}");
            for q in [0, 16, 17, 40, 41, 56, 57, 300] {
                for hops in [0u8, 1, 2, 127, 254, 255] {
                    for (delay, broadcast) in
                        [(0, false), (0, true), (20, false), (20, true), (0xFFFF, false), (0xFFFF, true)]
                    {
                        let back = 255 - hops;
                        assert_eq!(
                            (l.earliest_send)(hops, p, delay, back, q, lp, broadcast),
                            timing::earliest_send(hops, p, delay, back, q, lp, broadcast),
                            "earliest_send {hops} {p} {delay} {back} {q} {lp} {broadcast}"
                        );
                    }
                }
            }
        }
    }
}

#[test]
fn random_scenes() {
    for side in [LIBRARY, BINDINGS] {
        let mut s = Session::new("random_scenes", side);
        s.run(800, 50, |s| {
            s.scene();
            let node = random::node(&mut s.g);
            s.set_node(node);
        });
        s.report();
        s.seen.scenes.compiled.assert_each(Compiled::every(), 25);
        s.seen.scenes.compiled_sets.assert_each(SetKind::EVERY, 100);
        s.seen.scenes.at_limits.assert_each(AtLimit::every(), 100);
        s.seen.scenes.takers.assert_each(Taker::every(), 100);
    }
}

/// Every level at every step, on every lamp that is there; every level and step of a node that breaks the rule too.
#[test]
fn every_actual_level() {
    for side in [LIBRARY, BINDINGS, FAST] {
        let mut s = Session::new("every_actual_level", side);
        for step in 0..=255 {
            for level in 0..=255 {
                let mut node = random::node(&mut s.g);
                node.settings.step = step;
                let place = s.g.below(node.settings.lamp_count as usize);
                node.lamps[place] = lamp(level, 0);
                s.actual_levels(node);
                let answer = (side.actual_levels)(node);
                let is_sound = level <= 100 && STEPS.contains(&step);
                assert_eq!(answer.refusal, !is_sound as u8, "{node:?}");
                if is_sound {
                    assert_eq!(answer.levels[place], level.div_ceil(step) * step, "{node:?}");
                }
            }
        }
    }
}

/// Every set of faults of a call, in both modes.
#[test]
fn first_refusal_of_the_compiler() {
    for side in [LIBRARY, BINDINGS] {
        let mut s = Session::new("first_refusal_of_the_compiler", side);
        s.run(20, 1, |s| {
            for set in 0..32u8 {
                let faults = [1, 2, 4, 8, 16].map(|bit| set & bit != 0);
                faulty_call(s, false, faults);
                faulty_call(s, true, faults);
            }
        });
    }
}

/// An implementation that the benchmark times beside the library follows the same rules: requests and actual levels, some
/// of a node that breaks the node rule, and ticks.
fn agrees(test: &'static str, side: Side) {
    let mut s = Session::new(test, side);
    s.run(450, 300, |s| {
        let own = s.boards.plain.node;
        let node = if s.g.chance(1, 30) { random::broken(&mut s.g, own) } else { own };
        s.random_request(node, false);
        s.actual_levels(node);
        let after = s.tick(s.boards.plain.node);
        s.set_node(after);
    });
    s.seen.levels.assert_each([0, 1], 1000);
    s.seen.refusals.assert_each(0..=4, 1000);
    s.seen.assert_every_kind_of_request();
}

/// The fast compiler is compared in `Session::compile`.
#[test]
fn fast_agrees() {
    agrees("fast_agrees", FAST);
}

#[test]
fn in_place_agrees() {
    agrees("in_place_agrees", IN_PLACE);
}
