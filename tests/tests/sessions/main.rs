//! Random calls through the C interface, compared with the plain reference:
//! document 01's, then those of the changes of document 02. Each test prints its
//! seed; `GRELFINT_SEED` sets another, and `GRELFINT_CALLS` the number of calls in
//! `random_sessions`. A failure prints all inputs. After every call the whole
//! answer and every whole buffer are compared, with the guard bytes after it,
//! including buffers that are only read.
mod base;
mod change_1;
mod change_3;
mod change_4;

use grelfint_tests::sides::{Side, FAST, IN_PLACE, LIBRARY};

/// The sides whose requests are compared with the reference's.
const TESTED: [Side; 3] = [LIBRARY, FAST, IN_PLACE];
