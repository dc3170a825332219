//! Benchmark, not part of the gate: `cargo run --release --offline` in `tests/`,
//! whose `.cargo/config.toml` aligns functions.
//! Measures the library against an implementation of the same rules in Rust for
//! speed (src/node/fast.rs, src/scene/fast.rs), which has the same C boundary, and requests also against
//! one in C that changes the node in place (c/in_place.c). On the serial line it
//! measures the library against ordinary Rust (src/uart/plain.rs) and against
//! Rust tuned for speed (src/uart/fast.rs), both with the same C boundary; at the
//! gateway against ordinary Rust (src/gateway/plain.rs), also with that boundary.
//! Then measures ways to compute a checksum against the loop that adds byte by
//! byte with carries.
//! `BENCH_BURSTS` sets the number of bursts for each figure.
use grelfint::raw::{CompileAnswer, Gateway, GatewayAnswer, Node, Receiver};
use grelfint_tests::board::{frame_of, Board, Lengths};
use grelfint_tests::boundary::{
    bond_by, bond_count_by, handle_request_by, release_by, send_by, uart_frame_by, uart_receive_by, Bond, BondCount,
    HandleRequest, Release, Send, UartFrame, UartReceive, BOND, BOND_COUNT, HANDLE_REQUEST, RELEASE, SEND, UART_FRAME,
    UART_RECEIVE, UNBOND,
};
use grelfint_tests::gateway;
use grelfint_tests::node::code::CodeType;
use grelfint_tests::node::{fast, in_place};
use grelfint_tests::sides::{Side, FAST, IN_PLACE, LIBRARY};
use grelfint_tests::uart;
use grelfint_tests::uart::reference::{ESCAPE, FLAG, FRAMED, LONGEST};
use grelfint_tests::work::{batch, board, code_check, full_selective_batch, lamp_frame, scene_of_64, thirty_nodes};
use std::hint::black_box;
use std::time::Instant;

/// Nanoseconds of a burst. The calls of one take this long together, so that few bursts are interrupted.
const BURST: f64 = 20_000.0;

/// Nanoseconds per call.
fn time(calls: u32, mut call: impl FnMut()) -> f64 {
    let began = Instant::now();
    for _ in 0..calls {
        call();
    }
    began.elapsed().as_nanos() as f64 / calls as f64
}

/// Nanoseconds per request by value.
fn time_request(b: &mut Board, function: HandleRequest, frame: &[u8], calls: u32) -> f64 {
    let node = b.node;
    time(calls, || {
        let (node, frame) = (*black_box(&node), black_box(frame));
        black_box(&handle_request_by(function, node, frame, &mut b.eeprom, &mut b.external, &mut b.response));
    })
}

/// Nanoseconds per request in place. The node is first copied into the record, so that each request starts from it.
fn time_in_place(b: &mut Board, frame: &[u8], calls: u32) -> f64 {
    let node = b.node;
    let mut lent = node;
    time(calls, || {
        lent = *black_box(&node);
        let frame = black_box(frame);
        let lent = black_box(&mut lent);
        black_box(&in_place::request(lent, frame, &mut b.eeprom, &mut b.external, &mut b.response));
    })
}

/// A call of the compiler: side, book, output.
trait Compile: Fn(Side, &[u8], &mut [u8]) -> CompileAnswer {}
impl<F: Fn(Side, &[u8], &mut [u8]) -> CompileAnswer> Compile for F {}

fn time_compile(compile: &impl Compile, side: Side, book: &[u8], out: &mut [u8], calls: u32) -> f64 {
    time(calls, || {
        black_box(&compile(side, black_box(book), out));
    })
}

fn time_tick(side: Side, node: Node, calls: u32) -> f64 {
    time(calls, || {
        black_box(&(side.tick)(*black_box(&node)));
    })
}

fn time_tick_in_place(side: Side, node: Node, calls: u32) -> f64 {
    let mut lent = node;
    time(calls, || {
        lent = *black_box(&node);
        black_box((side.tick_in_place)(black_box(&mut lent)));
    })
}

fn time_levels(side: Side, node: Node, calls: u32) -> f64 {
    time(calls, || {
        black_box(&(side.actual_levels)(*black_box(&node)));
    })
}

fn time_receive(function: UartReceive, receiver: Receiver, line: &[u8], calls: u32) -> f64 {
    time(calls, || {
        black_box(&uart_receive_by(function, *black_box(&receiver), black_box(line)));
    })
}

fn time_frame(function: UartFrame, message: &[u8], out: &mut [u8], calls: u32) -> f64 {
    time(calls, || {
        black_box(&uart_frame_by(function, black_box(message), out));
    })
}

/// Nanoseconds per call on a gateway.
fn time_on<A>(gateway: &Gateway, calls: u32, mut call: impl FnMut(Gateway) -> A) -> f64 {
    time(calls, || {
        black_box(&call(*black_box(gateway)));
    })
}

/// One burst in ten takes less.
fn low_quantile(mut times: Vec<f64>) -> f64 {
    times.sort_by(f64::total_cmp);
    times[times.len() / 10]
}

/// Calls a function with the stack `steps` frames of about 100 bytes lower.
#[inline(never)]
fn deeper(steps: usize, call: &mut dyn FnMut() -> f64) -> f64 {
    let frame = black_box([0u8; 64]);
    let result = if steps == 0 { call() } else { deeper(steps - 1, call) };
    black_box(&frame);
    result
}

/// Nanoseconds per call of each of `N` programs: a low quantile over short bursts, by turns. Other work on the machine
/// makes some bursts slower and none faster. The bursts start at 64 stack depths, because the addresses of the records
/// there matter, and a process gets others in each run. `run(program, calls)` times one burst.
fn time_bursts<const N: usize>(bursts: usize, mut run: impl FnMut(usize, u32) -> f64) -> [f64; N] {
    let calls: [u32; N] = std::array::from_fn(|program| {
        let once = [(); 4].map(|_| run(program, 250)).into_iter().fold(f64::MAX, f64::min);
        (BURST / once).clamp(1.0, 1000.0) as u32
    });
    let mut times = [(); N].map(|_| Vec::with_capacity(bursts));
    for burst in 0..bursts {
        for program in (burst..burst + N).map(|i| i % N) {
            times[program].push(deeper(burst / N % 64, &mut || run(program, calls[program])));
        }
    }
    times.map(low_quantile)
}

/// Measures the library, the Rust side and any further ones, and prints a row.
fn compare<const N: usize>(name: &str, bursts: usize, run: impl FnMut(usize, u32) -> f64) {
    let times = time_bursts::<N>(bursts, run);
    let columns = times.map(|time| format!("{time:>10.1}")).concat();
    let ratios: String = times[1..].iter().map(|time| format!("{:>10.2}", times[0] / time)).collect();
    println!("{name:<34}{columns:<30}{ratios}");
}

fn print_heading(bursts: usize) {
    println!("ns per call, the quantile 1/10 of {bursts} bursts of about {:.0} us, by turns", BURST / 1000.0);
    println!("each side has separate buffers: EEPROM 192, external memory 16,384, response 64, output 4,096 bytes,");
    println!("on the serial line an output of 132 bytes; all sides read the same line, from a new receiver by value;");
    println!(
        "each call starts from the same node with 32 lit lamps: by value, or copied into a record before the call"
    );
    println!("(C and tick in place; the tick in place of the Rust side stores what its tick by value returns)\n");
    print_columns("", ["library", "Rust", "C", "to Rust", "to C"]);
}

fn print_columns(rows: &str, columns: [&str; 5]) {
    println!("{rows:<34}{}", columns.map(|column| format!("{column:>10}")).concat());
}

fn compare_request(name: &str, bursts: usize, frame: &[u8]) {
    let mut boards = [LIBRARY, FAST, IN_PLACE].map(board);
    let answers = boards.each_mut().map(|b| b.request(b.node, frame, Lengths::USUAL));
    let [library, others @ ..] = &boards;
    assert!(answers.iter().all(|a| *a == answers[0]) && answers[0].refusal == 0, "{name}: answers differ");
    assert!(
        others.iter().all(|b| b.response == library.response) && library.response[6] == 0,
        "{name}: responses differ"
    );
    compare::<3>(name, bursts, |side, calls| match side {
        0 => time_request(&mut boards[0], HANDLE_REQUEST, frame, calls),
        1 => time_request(&mut boards[1], fast::handle_request, frame, calls),
        _ => time_in_place(&mut boards[2], frame, calls),
    });
}

fn compare_compile(name: &str, bursts: usize, book: &[u8], compile: impl Compile) {
    let sides = [LIBRARY, FAST];
    let mut outs = [vec![0; 4096], vec![0; 4096]];
    let [l, f] = [0, 1].map(|i| compile(sides[i], book, &mut outs[i]));
    assert!(l == f && l.refusal == 0 && outs[0] == outs[1], "{name}: sides differ");
    compare::<2>(name, bursts, |side, calls| time_compile(&compile, sides[side], book, &mut outs[side], calls));
}

fn compare_requests(bursts: usize) {
    for (name, pcmd) in [("set", 0), ("raise", 1)] {
        for lamps in [1, 8, 32] {
            compare_request(&format!("{name}, lamps: {lamps}"), bursts, &lamp_frame(pcmd, lamps));
        }
    }
    for entries in [1, 5] {
        compare_request(&format!("batch, lamp entries: {entries}"), bursts, &batch(entries));
    }
    compare_request("selective batch, lamp entries: 2", bursts, &full_selective_batch());
    compare_request("code check over 16,384 bytes", bursts, &code_check(&board(LIBRARY).external));
}

fn compare_compilers(bursts: usize) {
    compare_compile("compiling a scene of 64 steps", bursts, &scene_of_64(), |side, book, out| {
        (side.compile)(book, 0, 1, 0x2471, out)
    });
    let nodes = thirty_nodes();
    compare_compile("the same for thirty chosen nodes", bursts, &scene_of_64(), |side, book, out| {
        (side.compile_selected)(book, 0, nodes, 0x2471, out)
    });
}

/// Framing the longest message, and receiving it in one part at a new gateway.
fn compare_message(name: &str, bursts: usize, message: &[u8; LONGEST]) {
    let frames: [UartFrame; 3] = [UART_FRAME, uart::plain::frame, uart::fast::frame];
    let mut outs = [[0; FRAMED]; 3];
    let [l, p, f] = [0, 1, 2].map(|side| uart_frame_by(frames[side], message, &mut outs[side]));
    assert!(l == p && l == f && l.refusal == 0, "{name}: answers differ");
    assert!(outs[0] == outs[1] && outs[0] == outs[2], "{name}: framed bytes differ");
    compare::<3>(&format!("framing 64 bytes, {name}"), bursts, |side, calls| {
        time_frame(frames[side], message, &mut outs[side], calls)
    });

    let receives: [UartReceive; 3] = [UART_RECEIVE, uart::plain::receive, uart::fast::receive];
    let (receiver, line) = (uart::reference::receiver(true), &outs[0][..l.length]);
    let [l, p, f] = receives.map(|receive| uart_receive_by(receive, receiver, line));
    assert!(l == p && l == f && l.frame == *message, "{name}: frames differ");
    compare::<3>(&format!("receiving them, {name}"), bursts, |side, calls| {
        time_receive(receives[side], receiver, line, calls)
    });
}

/// Messages without a flag or an escape, and with sixteen of them; their check bytes are neither.
fn compare_serial_line(bursts: usize) {
    let plain: [u8; LONGEST] = std::array::from_fn(|i| 1 + i as u8);
    let escaped = std::array::from_fn(|i| match i % 8 {
        2 => FLAG,
        6 => ESCAPE,
        _ => plain[i],
    });
    for (message, escapes) in [(&plain, 0), (&escaped, 16)] {
        assert_eq!(uart::reference::framed(message).len(), LONGEST + 3 + escapes);
    }
    println!("\nserial line: Rust is ordinary Rust, byte by byte (src/uart/plain.rs);");
    println!("tuned is Rust tuned for speed, in blocks of 16 bytes (src/uart/fast.rs)");
    print_columns("", ["library", "Rust", "tuned", "to Rust", "to tuned"]);
    compare_message("plain", bursts, &plain);
    compare_message("1/4 escaped", bursts, &escaped);
}

/// A request of 30 bytes to a node.
fn request_to(address: u16) -> Vec<u8> {
    frame_of(address, 0x71, 0, 0xFFFF, &[1; 24])
}

/// A gateway with 80 bonds and four requests, the oldest of which may be released at any time.
fn busy_gateway() -> Gateway {
    let mut gateway = gateway::reference::start(false, 7);
    for address in (1..240).step_by(3) {
        gateway = gateway::reference::bond(gateway, address).gateway;
    }
    for address in [1, 4, 7, 10] {
        gateway = gateway::reference::send(gateway, &request_to(address), 2, 3, 20, 1000).gateway;
    }
    assert_eq!(gateway.queue.count, 4);
    gateway
}

fn compare_bonds(bursts: usize, gateway: &Gateway) {
    let bonds: [[Bond; 2]; 2] = [[BOND, UNBOND], [gateway::plain::bond, gateway::plain::unbond]];
    let both = |[bond, unbond]: [Bond; 2], gateway| {
        let bonded = bond_by(bond, gateway, black_box(120));
        (bonded.refusal, bonded.count, bond_by(unbond, bonded.gateway, black_box(120)))
    };
    let [l, p] = bonds.map(|functions| both(functions, *gateway));
    assert!(l == p && (l.0, l.1, l.2.refusal, l.2.count) == (0, 81, 0, 80) && l.2.gateway == *gateway);
    compare::<2>("adding a bond and removing it", bursts, |side, calls| {
        time_on(gateway, calls, |gateway| both(bonds[side], gateway))
    });

    let counts: [BondCount; 2] = [BOND_COUNT, gateway::plain::bond_count];
    let [l, p] = counts.map(|function| bond_count_by(function, *gateway));
    assert!(l == p && l.count == 80, "counting bonds: answers differ");
    compare::<2>("counting 80 bonds", bursts, |side, calls| {
        time_on(gateway, calls, |gateway| bond_count_by(counts[side], gateway))
    });
}

fn compare_send(name: &str, bursts: usize, gateway: &Gateway, address: u16, refusal: u8) {
    let sends: [Send; 2] = [SEND, gateway::plain::send];
    let frame = request_to(address);
    let send = |function, gateway| -> GatewayAnswer { send_by(function, gateway, black_box(&frame), 2, 3, 20, 2000) };
    let [l, p] = sends.map(|function| send(function, *gateway));
    assert!(l == p && l.refusal == refusal, "{name}: answers differ");
    compare::<2>(name, bursts, |side, calls| time_on(gateway, calls, |gateway| send(sends[side], gateway)));
}

fn compare_release(name: &str, bursts: usize, gateway: &Gateway, released: bool) {
    let releases: [Release; 2] = [RELEASE, gateway::plain::release];
    let mut outs = [[0; 64]; 2];
    let [l, p] = [0, 1].map(|side| release_by(releases[side], *gateway, 2000, &mut outs[side]));
    assert!(l == p && (l.refusal, l.released) == (0, released) && outs[0] == outs[1], "{name}: answers differ");
    compare::<2>(name, bursts, |side, calls| {
        time_on(gateway, calls, |gateway| release_by(releases[side], gateway, 2000, &mut outs[side]))
    });
}

/// A gateway by value with 80 bonds and four requests of 30 bytes.
fn compare_gateway(bursts: usize) {
    println!("\ngateway: each call starts from the same one, by value, with 80 bonds and four requests of 30 bytes;");
    println!("Rust is ordinary Rust (src/gateway/plain.rs)");
    print_columns("", ["library", "Rust", "", "to Rust", ""]);
    let due = busy_gateway();
    let mut early = due;
    early.queue.next = 2001;
    compare_bonds(bursts, &due);
    compare_send("sending a request of 30 bytes", bursts, &due, 13, 0);
    compare_send("the same to a node without a bond", bursts, &due, 14, 12);
    compare_release("releasing a request", bursts, &due, true);
    compare_release("releasing too early", bursts, &early, false);
}

fn compare_ticks(bursts: usize) {
    let node = board(LIBRARY).node;
    assert_eq!((LIBRARY.tick)(node), (FAST.tick)(node));
    let sides = [LIBRARY, FAST];
    compare::<2>("tick", bursts, |side, calls| time_tick(sides[side], node, calls));
    compare::<2>("tick in place", bursts, |side, calls| time_tick_in_place(sides[side], node, calls));
}

fn compare_levels(bursts: usize) {
    let node = board(LIBRARY).node;
    assert_eq!((LIBRARY.actual_levels)(node), (FAST.actual_levels)(node));
    let sides = [LIBRARY, FAST];
    compare::<2>("actual levels of 32 lamps", bursts, |side, calls| time_levels(sides[side], node, calls));
}

// ---- checksums from start value 1 ----
/// Document 01's rule as it stands.
fn byte_by_byte(bytes: &[u8]) -> u16 {
    let (mut low, mut high) = (1u8, 0u8);
    for &b in bytes {
        let (sum, carry) = low.overflowing_add(b);
        low = sum + carry as u8;
        let (sum, carry) = high.overflowing_add(low);
        high = sum + carry as u8;
    }
    u16::from_le_bytes([low, high])
}

/// Two additions for each byte; the sums are reduced after each block of 64 bytes.
fn plain_blocks(bytes: &[u8]) -> u16 {
    let (mut low, mut high) = (1u32, 0u32);
    for block in bytes.chunks_exact(64) {
        for &b in block {
            low += b as u32;
            high += low;
        }
        (low, high) = (reduced(low), reduced(high));
    }
    u16::from_le_bytes([low as u8, high as u8])
}

/// The bytes of a block are added up independently, each times its place from the end.
fn weighted_blocks(bytes: &[u8]) -> u16 {
    let (mut low, mut high) = (1u32, 0u32);
    for block in bytes.chunks_exact(64) {
        let (mut sum, mut weighted) = (0, 0);
        for (i, &b) in block.iter().enumerate() {
            sum += b as u32;
            weighted += (64 - i as u32) * b as u32;
        }
        (low, high) = (reduced(low + sum), reduced(high + 64 * low + weighted));
    }
    u16::from_le_bytes([low as u8, high as u8])
}

fn reduced(sum: u32) -> u32 {
    fast::reduced(sum as u64) as u32
}

fn fast_side(bytes: &[u8]) -> u16 {
    let (low, high) = fast::sums_after((1, 0), bytes);
    u16::from_le_bytes([low, high])
}

/// A way to compute a checksum, with its name.
type Checksum = (&'static str, fn(&[u8]) -> u16);

/// Each way to compute the checksum of the same 16,384 bytes, against the first.
fn compare_checksums(bursts: usize) {
    const CHECKSUMS: [Checksum; 4] = [
        ("byte by byte, with carries", byte_by_byte),
        ("plain sums of 64-byte blocks", plain_blocks),
        ("weighted sums of 64-byte blocks", weighted_blocks),
        ("fast side, sums of columns", fast_side),
    ];
    let mut library = board(LIBRARY);
    let frame = code_check(&library.external);
    for (name, checksum) in CHECKSUMS {
        assert_eq!(checksum(&library.external), CodeType::Handler.checksum(&library.external), "{name}");
    }
    let answer = library.request(library.node, &frame, Lengths::USUAL);
    assert_eq!((answer.refusal, library.response[8]), (0, 1), "the library's checksum");
    let times = time_bursts::<5>(bursts, |program, calls| match CHECKSUMS.get(program) {
        Some((_, checksum)) => time(calls, || {
            black_box(checksum(black_box(&library.external)));
        }),
        None => time_request(&mut library, HANDLE_REQUEST, &frame, calls),
    });
    println!("\nchecksum of the same 16,384 bytes; ratio = time / time byte by byte");
    let names = CHECKSUMS.map(|(name, _)| name).into_iter().chain(["library, a whole code check"]);
    for (name, time) in names.zip(times) {
        println!("{name:<34} {time:>10.1} ns   ratio {:>6.2}", time / times[0]);
    }
}

fn main() {
    let bursts = std::env::var("BENCH_BURSTS").ok().and_then(|v| v.parse().ok()).unwrap_or(3000);
    print_heading(bursts);
    compare_requests(bursts);
    compare_compilers(bursts);
    compare_ticks(bursts);
    compare_levels(bursts);
    compare_serial_line(bursts);
    compare_gateway(bursts);
    compare_checksums(bursts);
}
