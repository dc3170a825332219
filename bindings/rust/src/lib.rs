//! Grelfint: the proved software of a greenhouse lamp node on an IQRF mesh, with
//! its scene compiler, gateway and serial line, called from Rust.
//!
//! The code is a C static library, libgrelfint.a, for x86-64 Linux; this crate
//! declares its functions ([`raw`]) and gives them Rust's types: records with
//! methods, `Result` with a [`Refusal`], and slices. Nothing is allocated.
//!
//! # Linking
//! `rt lib` in the repository's crates/grelfint builds the archive, and the build
//! script finds it there. `GRELFINT_LIB_DIR` names another folder, as an absolute
//! path.
//!
//! # Example
//! ```
//! use grelfint::{Node, Refusal, Settings, EEPROM, EXTERNAL, RESPONSE};
//!
//! let mut node = Node::start(Settings { address: 1, hwpid: 0x2471, dpa_value: 0, lamp_count: 3, step: 1 })?;
//! let (mut eeprom, mut external, mut response) = ([0; EEPROM], [0; EXTERNAL], [0; RESPONSE]);
//!
//! // Set lamp 0 to 10, and lamp 2 to 100 for two minutes.
//! let frame = [1, 0, 0x71, 0, 0xFF, 0xFF, 0x05, 0, 0, 0, 0x0A, 0xE4, 0x02];
//! let handled = node.handle_request(&frame, &mut eeprom, &mut external, &mut response)?;
//! let response = handled.response.expect("the frame is for this node");
//! assert_eq!(response.data(), Ok(&[0, 0][..])); // the levels before
//! assert_eq!((node.lamps[2].level, node.lamps[2].seconds), (100, 120));
//!
//! // A refused call changes nothing.
//! let before = node;
//! assert_eq!(node.handle_request(&frame[..5], &mut eeprom, &mut external, &mut [0; RESPONSE]), Err(Refusal::Frame));
//! assert_eq!(node, before);
//! # Ok::<(), Refusal>(())
//! ```
//! `examples/node.rs` has batches, broadcasts and scenes too.
//!
//! # Refusals
//! Every call has an answer for every input. A refused call changes neither its
//! node, receiver or gateway nor any buffer. If several refusals apply, the first
//! in the order of [`Refusal`] is given. A function panics only if it says so, or
//! if the archive is of another version than this crate.
#![no_std]
#![deny(missing_docs)]
#![deny(unsafe_code)]

mod constants;
mod frame;
pub mod gateway;
pub mod memory;
pub mod node;
mod numbered;
#[allow(unsafe_code)]
pub mod raw;
mod refusal;
pub mod scene;
pub mod serial;
pub mod timing;

pub use constants::*;
pub use frame::Frame;
pub use node::ErrN;
pub use numbered::UnknownNumber;
pub use raw::{Gateway, Lamp, Node, NodeSet, Receiver, Settings};
pub use refusal::{Refusal, SceneRefusal};
pub use timing::Network;

/// The version of this crate, which is that of the C header.
pub const VERSION: &str = env!("CARGO_PKG_VERSION");
