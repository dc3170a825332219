//! One type for the calls of a node, of the compiler and of timing, filled by the
//! library, the methods of its bindings, the plain reference, and the fast and the
//! in-place implementation, so that a test is written once.
use crate::boundary::{compile_by, compile_selected_by, handle_request_by};
use crate::node::in_place;
use crate::{gateway, node, scene};
use grelfint::raw::{self, *};

#[derive(Clone, Copy)]
#[allow(clippy::type_complexity)] // the calls have this many parameters
pub struct Side {
    pub name: &'static str,
    pub start: fn(Settings) -> NodeAnswer,
    pub tick: fn(Node) -> NodeAnswer,
    pub tick_in_place: fn(&mut Node) -> u8,
    pub actual_levels: fn(Node) -> LevelsAnswer,
    pub handle_request: fn(Node, &[u8], &mut [u8], &mut [u8], &mut [u8]) -> RequestAnswer,
    pub view_status: fn(&[u8], &[u8], u8, usize, usize) -> u8,
    pub frc: fn(Node, u8, &[u8], u32, u32) -> FrcAnswer,
    pub confirm: fn(&[u8], u8, u8, u8, bool, &mut [u8]) -> LengthAnswer,
    pub timeslot: fn(usize, bool) -> SlotAnswer,
    pub earliest_send: fn(u8, usize, u16, u8, usize, bool, bool) -> SendAnswer,
    pub compile: fn(&[u8], usize, u16, u16, &mut [u8]) -> CompileAnswer,
    pub compile_default: fn(&[u8], usize, u16, &mut [u8]) -> CompileAnswer,
    pub compile_selected: fn(&[u8], usize, NodeSet, u16, &mut [u8]) -> CompileAnswer,
    pub compile_selected_default: fn(&[u8], usize, NodeSet, &mut [u8]) -> CompileAnswer,
}

/// The calls of a node, of the compiler and of timing, from the modules that have them.
macro_rules! side_of {
    ($name:literal, $($node:ident)::+, $($scene:ident)::+, $($timing:ident)::+) => {
        Side {
            name: $name,
            start: $($node)::+::start,
            tick: $($node)::+::tick,
            tick_in_place: $($node)::+::tick_in_place,
            actual_levels: $($node)::+::actual_levels,
            handle_request: $($node)::+::handle_request,
            view_status: $($node)::+::view_status,
            frc: $($node)::+::frc,
            confirm: $($timing)::+::confirm,
            timeslot: $($timing)::+::timeslot,
            earliest_send: $($timing)::+::earliest_send,
            compile: $($scene)::+::compile,
            compile_default: $($scene)::+::compile_default,
            compile_selected: $($scene)::+::compile_selected,
            compile_selected_default: $($scene)::+::compile_selected_default,
        }
    };
}

pub const LIBRARY: Side = side_of!("library", raw, raw, raw);
pub const BINDINGS: Side = side_of!("bindings", node::bindings, scene::bindings, gateway::bindings);
pub const REFERENCE: Side = side_of!("reference", node::reference, scene::reference, gateway::reference);

/// Calls without a fast implementation are the reference's.
pub const FAST: Side = Side {
    name: "fast",
    tick: |node| node::fast::tick(node),
    tick_in_place: |node| {
        let answer = node::fast::tick(*node);
        *node = answer.node;
        answer.refusal
    },
    actual_levels: |node| node::fast::actual_levels(node),
    handle_request: |node, frame, eeprom, external, response| {
        handle_request_by(node::fast::handle_request, node, frame, eeprom, external, response)
    },
    compile: |book, scene, address, hwpid, out| compile_by(scene::fast::compile, book, scene, address, hwpid, out),
    compile_default: |book, scene, address, out| compile_by(scene::fast::compile, book, scene, address, 0xFFFF, out),
    compile_selected: |book, scene, nodes, hwpid, out| {
        compile_selected_by(scene::fast::compile_selected, book, scene, nodes, hwpid, out)
    },
    compile_selected_default: |book, scene, nodes, out| {
        compile_selected_by(scene::fast::compile_selected, book, scene, nodes, 0xFFFF, out)
    },
    ..REFERENCE
};

/// Requests only; all other calls are the reference's.
pub const IN_PLACE: Side = Side { name: "in place", handle_request: in_place::handle_request, ..REFERENCE };

/// Makes each example a test of every side of a folder, in a module for each; `node` has the scenes too.
#[macro_export]
macro_rules! on_every_side {
    (node $examples:tt) => {
        $crate::on_every_side! { @ on_library $crate::sides::LIBRARY, $examples }
        $crate::on_every_side! { @ on_bindings $crate::sides::BINDINGS, $examples }
        $crate::on_every_side! { @ on_reference $crate::sides::REFERENCE, $examples }
        $crate::on_every_side! { @ on_fast $crate::sides::FAST, $examples }
        $crate::on_every_side! { @ on_in_place $crate::sides::IN_PLACE, $examples }
    };
    (uart $examples:tt) => {
        $crate::on_every_side! { @ on_library $crate::uart::sides::LIBRARY, $examples }
        $crate::on_every_side! { @ on_bindings $crate::uart::sides::BINDINGS, $examples }
        $crate::on_every_side! { @ on_reference $crate::uart::sides::REFERENCE, $examples }
        $crate::on_every_side! { @ on_plain $crate::uart::sides::PLAIN, $examples }
        $crate::on_every_side! { @ on_fast $crate::uart::sides::FAST, $examples }
    };
    (gateway $examples:tt) => {
        $crate::on_every_side! { @ on_library $crate::gateway::sides::LIBRARY, $examples }
        $crate::on_every_side! { @ on_bindings $crate::gateway::sides::BINDINGS, $examples }
        $crate::on_every_side! { @ on_reference $crate::gateway::sides::REFERENCE, $examples }
        $crate::on_every_side! { @ on_plain $crate::gateway::sides::PLAIN, $examples }
    };
    (@ $module:ident $side:expr, [$($example:ident,)*]) => {
        mod $module {
            $(#[test] fn $example() { super::$example($side) })*
        }
    };
}
