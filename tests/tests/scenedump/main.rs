//! Runs ../crates/scenedump/out/scenedump as a process, and compares what it writes with
//! texts by hand and with a formatter made from the description of the program
//! and the reference. `SCENEDUMP` selects another binary.
mod arguments;
mod books;
mod failures;
mod formatter;
mod program;
mod random;

use grelfint_tests::board::book_of;
use grelfint_tests::scene::reference::Step;

const USAGE: &str = "\
usage: scenedump [-a ADDRESS] [-p HWPID] [-n HOPS] [-l] [FILE [SCENE..]]
Lists the scenes of a book, and the requests of each SCENE.
  FILE        the scene book; none or -: standard input
  SCENE       a scene number
  -a ADDRESS  the node, 1 to 239, or 255 for all nodes (default 255)
  -p HWPID    the hardware profile, 0 to 65535 (default 0xFFFF)
  -n HOPS     the hops in either direction, 0 to 255 (default 0)
  -l          the network is STD+LP (default STD)
  -h          prints this text
Numbers are decimal, or hexadecimal after 0x.
";

const EXAMPLE: [u8; 12] = [1, 4, 0, 2, 0, 0, 0x0A, 0, 0, 2, 0x64, 2];
const LISTED: &str = "\
book of 12 bytes, 1 scene
scene 0, 2 steps
  0 set lamp 0 to 10
  1 set lamp 2 to 100 for 2 min
";

/// The longest book: 16 scenes of 64 steps.
fn longest() -> Vec<u8> {
    let time = |i: u8| if i.is_multiple_of(4) { 0x81 + i } else { 0 };
    let steps: Vec<Step> = (0..64u8).map(|i| [i % 3, i % 5, i, time(i)]).collect();
    let book = book_of(&vec![steps; 16]);
    assert_eq!(book.len(), 4145);
    book
}
