//! Instructions of calls of the library, counted by callgrind, not part of the
//! gate: `cargo run --release --offline --bin instructions` in `tests/`. It needs
//! valgrind. Each figure is of one call, from its first instruction to its last,
//! with all that it calls; the same archive gives the same figures again.
use grelfint_tests::board::Lengths;
use grelfint_tests::sides::LIBRARY;
use grelfint_tests::work::{batch, board, full_selective_batch, lamp_frame, scene_of_64, thirty_nodes};
use std::env;
use std::process::Command;

/// A name, the exported function whose instructions are counted, and a call of it.
type Work = (&'static str, &'static str, fn());

const WORK: [Work; 14] = [
    ("set, lamps: 1", "grelfint_handle_request", || request(&lamp_frame(0, 1))),
    ("set, lamps: 8", "grelfint_handle_request", || request(&lamp_frame(0, 8))),
    ("set, lamps: 32", "grelfint_handle_request", || request(&lamp_frame(0, 32))),
    ("raise, lamps: 1", "grelfint_handle_request", || request(&lamp_frame(1, 1))),
    ("raise, lamps: 8", "grelfint_handle_request", || request(&lamp_frame(1, 8))),
    ("raise, lamps: 32", "grelfint_handle_request", || request(&lamp_frame(1, 32))),
    ("batch, lamp entries: 1", "grelfint_handle_request", || request(&batch(1))),
    ("batch, lamp entries: 5", "grelfint_handle_request", || request(&batch(5))),
    ("selective batch, lamp entries: 2", "grelfint_handle_request", || request(&full_selective_batch())),
    ("compiling a scene of 64 steps", "grelfint_compile", || {
        assert_eq!((LIBRARY.compile)(&scene_of_64(), 0, 1, 0x2471, &mut [0; 4096]).refusal, 0);
    }),
    ("the same for thirty chosen nodes", "grelfint_compile_selected", || {
        assert_eq!((LIBRARY.compile_selected)(&scene_of_64(), 0, thirty_nodes(), 0x2471, &mut [0; 4096]).refusal, 0);
    }),
    ("tick", "grelfint_tick", || assert_eq!((LIBRARY.tick)(board(LIBRARY).node).refusal, 0)),
    ("tick in place", "grelfint_tick_in_place", || {
        assert_eq!((LIBRARY.tick_in_place)(&mut board(LIBRARY).node), 0);
    }),
    ("actual levels of 32 lamps", "grelfint_actual_levels", || {
        assert_eq!((LIBRARY.actual_levels)(board(LIBRARY).node).refusal, 0);
    }),
];

fn request(frame: &[u8]) {
    let mut board = board(LIBRARY);
    let answer = board.request(board.node, frame, Lengths::USUAL);
    assert_eq!((answer.refusal, board.response[6]), (0, 0), "refusal and ErrN");
}

/// Runs this program under callgrind with the name of the work.
fn counted((name, function, _): Work) -> u64 {
    let program = env::current_exe().expect("the path of this program");
    let output = Command::new("valgrind")
        .args(["--tool=callgrind", "--callgrind-out-file=/dev/null"])
        .arg(format!("--toggle-collect={function}"))
        .arg(program)
        .arg(name)
        .output()
        .expect("valgrind is installed");
    let printed = String::from_utf8_lossy(&output.stderr);
    assert!(output.status.success(), "{name}: {printed}");
    let figure = printed.split("Collected :").nth(1).and_then(|rest| rest.split_whitespace().next());
    figure.and_then(|figure| figure.parse().ok()).unwrap_or_else(|| panic!("{name}: no figure in: {printed}"))
}

fn main() {
    if let Some(name) = env::args().nth(1) {
        let (_, _, call) = WORK.into_iter().find(|work| work.0 == name).expect("the name of a work");
        return call();
    }
    for work in WORK {
        println!("{:<34}{:>8}", work.0, counted(work));
    }
}
