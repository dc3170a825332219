//! The serial line (02, change 5/12). First examples, on the library through its
//! C interface and through the methods of its bindings, on the reference, and on
//! the plain and the fast implementation: the guide's (000, 2.3.2) and one or more
//! for each point of the rules. Then random calls of the library, of the bindings
//! and of both implementations. Each test prints its seed; `GRELFINT_SEED` sets
//! another. A failure prints all inputs.
mod line;
mod random;
mod receiver;
mod sender;
