//! The gateway (02, change 6/12): its bonds (000, 3.2) and its send queue (003).
//! First examples, on the library through its C interface and through the methods
//! of its bindings, on the reference and on the plain implementation, one or more
//! for each point of the rules. Then random histories of the library, of the
//! bindings and of the plain implementation. Each test prints its seed;
//! `GRELFINT_SEED` sets another. A failure prints all inputs.
mod bonds;
mod histories;
mod queue;
mod records;
mod station;
