//! Compiling the scenes of a book, and sets of nodes to compile them for.
use crate::{raw, NodeSet, SceneRefusal, ADDRESS_MAX, NODE_SET};

impl NodeSet {
    /// The empty set.
    #[must_use]
    pub const fn new() -> NodeSet {
        NodeSet { bits: [0; NODE_SET] }
    }

    /// Adds an address. The compiler refuses a set with address 0, which no node
    /// has.
    ///
    /// # Panics
    /// If the address is over 239.
    pub fn insert(&mut self, address: u16) {
        assert!(address <= ADDRESS_MAX, "no node has address {address}");
        self.bits[usize::from(address / 8)] |= 1 << (address % 8);
    }

    /// Removes an address, if it is there.
    pub fn remove(&mut self, address: u16) {
        if let Some(byte) = self.bits.get_mut(usize::from(address / 8)) {
            *byte &= !(1 << (address % 8));
        }
    }

    /// Whether the set names this address.
    #[must_use]
    pub fn contains(&self, address: u16) -> bool {
        self.bits.get(usize::from(address / 8)).is_some_and(|byte| byte & 1 << (address % 8) != 0)
    }
}

impl Extend<u16> for NodeSet {
    fn extend<I: IntoIterator<Item = u16>>(&mut self, addresses: I) {
        addresses.into_iter().for_each(|address| self.insert(address));
    }
}

impl FromIterator<u16> for NodeSet {
    fn from_iter<I: IntoIterator<Item = u16>>(addresses: I) -> NodeSet {
        let mut set = NodeSet::new();
        set.extend(addresses);
        set
    }
}

/// A compiled scene.
#[derive(Clone, Copy, Debug, PartialEq, Eq)]
pub struct Compiled<'a> {
    bytes: &'a [u8],
}

impl<'a> Compiled<'a> {
    /// As it was written: the number of requests, a length byte for each, and the
    /// requests.
    #[must_use]
    pub fn bytes(&self) -> &'a [u8] {
        self.bytes
    }

    /// The request frames, in the order in which they have to be handled. A scene
    /// without steps has none.
    pub fn requests(&self) -> impl ExactSizeIterator<Item = &'a [u8]> {
        let (lengths, mut rest) = self.bytes[1..].split_at(usize::from(self.bytes[0]));
        lengths.iter().map(move |&length| {
            let (request, after) = rest.split_at(usize::from(length));
            rest = after;
            request
        })
    }
}

/// What was written to `out`, or the refusal.
fn compiled(answer: raw::CompileAnswer, out: &[u8]) -> Result<Compiled<'_>, SceneRefusal> {
    SceneRefusal::accepted(answer.refusal, answer.step)?;
    Ok(Compiled { bytes: &out[..answer.length] })
}

/// Compiles a scene of a book into requests to an address (1 to 239, or 255 for
/// broadcast), with this HWPID in each request and entry.
///
/// Refusals: [`Refusal::Node`] for the address, [`Refusal::Book`],
/// [`Refusal::Scene`], [`Refusal::StepKind`] to [`Refusal::StepTime`] with the
/// step, [`Refusal::Output`]. Written: the front of `out`, which has at least
/// [`COMPILED`](crate::COMPILED) bytes.
///
/// [`Refusal::Node`]: crate::Refusal::Node
/// [`Refusal::Book`]: crate::Refusal::Book
/// [`Refusal::Scene`]: crate::Refusal::Scene
/// [`Refusal::StepKind`]: crate::Refusal::StepKind
/// [`Refusal::StepTime`]: crate::Refusal::StepTime
/// [`Refusal::Output`]: crate::Refusal::Output
pub fn compile<'a>(
    book: &[u8],
    scene: usize,
    address: u16,
    hwpid: u16,
    out: &'a mut [u8],
) -> Result<Compiled<'a>, SceneRefusal> {
    compiled(raw::compile(book, scene, address, hwpid, out), out)
}

/// [`compile`] with [`HWPID_ANY`](crate::HWPID_ANY), which every node accepts.
pub fn compile_default<'a>(
    book: &[u8],
    scene: usize,
    address: u16,
    out: &'a mut [u8],
) -> Result<Compiled<'a>, SceneRefusal> {
    compiled(raw::compile_default(book, scene, address, out), out)
}

/// Compiles a scene of a book into broadcasts to the nodes of a set (selective
/// batches), with this HWPID in each request and entry. A node that the set does
/// not name ignores them.
///
/// Refusals and what is written: as by [`compile`], but `Refusal::Node` for a set
/// that names address 0, or no node.
pub fn compile_selected<'a>(
    book: &[u8],
    scene: usize,
    nodes: &NodeSet,
    hwpid: u16,
    out: &'a mut [u8],
) -> Result<Compiled<'a>, SceneRefusal> {
    compiled(raw::compile_selected(book, scene, *nodes, hwpid, out), out)
}

/// [`compile_selected`] with [`HWPID_ANY`](crate::HWPID_ANY), which every node
/// accepts.
pub fn compile_selected_default<'a>(
    book: &[u8],
    scene: usize,
    nodes: &NodeSet,
    out: &'a mut [u8],
) -> Result<Compiled<'a>, SceneRefusal> {
    compiled(raw::compile_selected_default(book, scene, *nodes, out), out)
}
