//! What the bindings add to the C interface: enums for its numbers, node sets,
//! and the requests of a compiled scene. Their calls are tested with those of the
//! library, as one more side.
use grelfint::node::{ErrN, FrcValue, ListReason};
use grelfint::scene::{compile, compile_selected};
use grelfint::serial::DropCause;
use grelfint::{Network, NodeSet, Refusal, SceneRefusal, UnknownNumber, COMPILED, NADR_BROADCAST};
use grelfint_tests::board::{book_of, Board};
use grelfint_tests::node::random;
use grelfint_tests::node::reference::{EEPROM_SIZE, EXTERNAL_SIZE};
use grelfint_tests::rng::{seed, Rng};
use grelfint_tests::scene::random::scene;
use grelfint_tests::scene::reference::do_step;
use grelfint_tests::sides::BINDINGS;
use std::collections::BTreeSet;
use std::fmt::{Debug, Display};
use std::panic::catch_unwind;

/// Every byte is the number of the case in this table, both ways, or of none. No two cases are displayed alike.
fn assert_numbers<T>(table: &[(u8, T)])
where
    T: TryFrom<u8, Error = UnknownNumber> + Into<u8> + Copy + PartialEq + Debug + Display,
{
    for byte in 0..=255 {
        let want = table.iter().find(|(number, _)| *number == byte).map(|(_, case)| *case);
        assert_eq!(T::try_from(byte), want.ok_or(UnknownNumber(byte)));
    }
    for &(number, case) in table {
        assert_eq!(case.into(), number);
    }
    let texts: BTreeSet<String> = table.iter().map(|(_, case)| case.to_string()).collect();
    assert!(texts.len() == table.len() && !texts.contains(""), "{texts:?}");
}

#[test]
fn numbers_of_refusals() {
    assert_numbers(&[
        (1, Refusal::Node),
        (2, Refusal::Frame),
        (3, Refusal::Response),
        (4, Refusal::Memory),
        (5, Refusal::PData),
        (6, Refusal::Book),
        (7, Refusal::Scene),
        (81, Refusal::StepKind),
        (82, Refusal::StepTarget),
        (83, Refusal::StepValue),
        (84, Refusal::StepTime),
        (9, Refusal::Output),
        (10, Refusal::View),
        (11, Refusal::Framed),
        (12, Refusal::Address),
        (13, Refusal::Full),
        (14, Refusal::Time),
        (15, Refusal::Block),
        (16, Refusal::Range),
    ]);
}

#[test]
fn numbers_of_errors() {
    assert_numbers(&[
        (1, ErrN::Fail),
        (2, ErrN::Pcmd),
        (3, ErrN::Pnum),
        (4, ErrN::Addr),
        (5, ErrN::DataLen),
        (6, ErrN::Data),
        (7, ErrN::Hwpid),
    ]);
}

#[test]
fn numbers_of_answers() {
    assert_numbers(&[(1, FrcValue::NotImplemented), (2, FrcValue::No), (3, FrcValue::Yes)]);
    assert_numbers(&[
        (1, ListReason::Short),
        (2, ListReason::PastEnd),
        (3, ListReason::Unclosed),
        (4, ListReason::Trailing),
    ]);
    assert_numbers(&[(1, DropCause::TooLong), (2, DropCause::Cut), (3, DropCause::Short), (4, DropCause::CheckByte)]);
    assert_numbers(&[(0, Network::Std), (1, Network::StdLp)]);
}

#[test]
fn refused_scenes_name_the_step() {
    let refusal = Refusal::StepValue;
    assert_eq!(SceneRefusal { refusal, step: Some(63) }.to_string(), format!("step 63: {refusal}"));
    assert_eq!(SceneRefusal { refusal, step: None }.to_string(), refusal.to_string());
}

/// A node that handles the requests of a scene, in the order of the iterator, ends as the step machine: a scene for this
/// node, for all nodes, and for a set of nodes.
#[test]
fn requests_of_a_scene() {
    let mut g = Rng::new(seed("requests_of_a_scene"));
    for _ in 0..300 {
        let (node, steps) = (random::node(&mut g), scene(&mut g, 0));
        let before = random::board(&mut g, BINDINGS, node);
        let mut end = before.clone();
        let mut parts = end.parts();
        steps.iter().for_each(|&step| do_step(&mut parts, step));
        end.node = parts.node;
        let (own, book) = (node.settings.address, book_of(&[steps]));
        let hwpid = g.pick(&[node.settings.hwpid, 0xFFFF]);
        let (mut out, nodes) = ([0; COMPILED], random::good_node_set(&mut g, &[node]));
        for mode in 0..3 {
            let compiled = match mode {
                0 => compile(&book, 0, own, hwpid, &mut out),
                1 => compile(&book, 0, NADR_BROADCAST, hwpid, &mut out),
                _ => compile_selected(&book, 0, &nodes, hwpid, &mut out),
            };
            let Board { mut node, mut eeprom, mut external, mut response, .. } = before.clone();
            for frame in compiled.expect("a good scene").requests() {
                let memories = (&mut eeprom[..EEPROM_SIZE], &mut external[..EXTERNAL_SIZE]);
                let handled = node.handle_request(frame, memories.0, memories.1, &mut response).expect("not refused");
                assert!(handled.addressed && !handled.load && handled.fault.is_none(), "{handled:?}");
                assert_eq!(handled.response.map(|response| response.data()), (mode == 0).then_some(Ok(&[][..])));
            }
            let as_stepped = mode < 2 || nodes.contains(own);
            let want = if as_stepped { &end } else { &before };
            assert!(node == want.node && eeprom == want.eeprom && external == want.external, "{book:02X?}, {node:?}");
        }
    }
}

/// Bit a % 8 of byte a / 8 for address a, whatever else is in the set.
#[test]
fn node_sets() {
    let all: NodeSet = (0..240).collect();
    assert_eq!(all.bits, [0xFF; 30]);
    assert_eq!((NodeSet::new(), NodeSet::default()), (NodeSet { bits: [0; 30] }, NodeSet::new()));
    for address in 0..240u16 {
        let mut bits = [0; 30];
        bits[address as usize / 8] = 1 << (address % 8);
        let mut one = NodeSet::new();
        one.insert(address);
        assert_eq!(one, NodeSet { bits });
        one.insert(address);
        assert_eq!(one, NodeSet::from_iter([address, address]));
        let mut others = all;
        others.remove(address);
        assert_eq!(others.bits, bits.map(|byte| !byte));
        others.remove(address);
        for other in (0..512).chain([0x8000, u16::MAX]) {
            assert_eq!(one.contains(other), other == address);
            assert_eq!(others.contains(other), other < 240 && other != address);
        }
        others.extend([address]);
        assert_eq!(others, all);
    }
}

/// No set has a bit for them.
#[test]
fn addresses_of_no_node() {
    for address in (240..600).chain([0x8001, u16::MAX]) {
        let mut all: NodeSet = (0..240).collect();
        all.remove(address);
        assert_eq!(all.bits, [0xFF; 30]);
        assert!(catch_unwind(move || all.insert(address)).is_err(), "{address} was inserted");
    }
}
