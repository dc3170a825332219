//! Shared by the tests. Each part of the library has a folder: its reference,
//! written from the papers (document 01 with changes 1/12 to 6/12 of document 02)
//! and the decisions on open points; its calls through the methods of the
//! bindings; other implementations of its rules, for the benchmark; random
//! inputs, and counts of what they did; and random calls on the tested sides and
//! on the reference. Here is what the parts share.
pub mod bindings;
pub mod board;
pub mod boundary;
pub mod buffers;
pub mod counts;
pub mod records;
pub mod rng;
pub mod session;
pub mod sides;
pub mod work;

/// A node without its scenes.
pub mod node {
    pub mod bindings;
    pub mod code;
    pub mod fast;
    pub mod in_place;
    pub mod random;
    pub mod reference;
    pub mod seen;
    pub mod session;
}

/// Books, the compiler and the step machine.
pub mod scene {
    pub mod bindings;
    pub mod fast;
    pub mod random;
    pub mod reference;
    pub mod seen;
    pub mod session;
}

/// The serial line.
pub mod uart {
    pub mod bindings;
    pub mod fast;
    pub mod plain;
    pub mod random;
    pub mod reference;
    pub mod seen;
    pub mod session;
    pub mod sides;
}

/// The gateway: confirmation and timing, bonds and send queue.
pub mod gateway {
    pub mod bindings;
    pub mod plain;
    pub mod random;
    pub mod reference;
    pub mod seen;
    pub mod session;
    pub mod sides;
}
