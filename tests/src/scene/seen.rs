//! Counts of what the calls of the compiler did, and of the nodes that took a
//! scene.
use crate::counts::{Counts, EITHER};
use crate::node::reference as r;
use crate::node::seen::SetKind;
use grelfint::raw::{Node, NodeSet};

#[derive(Default, Debug)]
pub struct Seen {
    pub compiled: Counts<Compiled>,
    /// The sets that scenes were compiled for.
    pub compiled_sets: Counts<SetKind>,
    pub at_limits: Counts<AtLimit>,
    pub takers: Counts<Taker>,
}

/// A call of the compiler.
#[derive(PartialEq, Eq, PartialOrd, Ord, Debug)]
pub struct Compiled {
    /// For chosen nodes.
    pub selective: bool,
    pub refusal: u8,
    /// The output buffer is too short, whatever the refusal is.
    pub short: bool,
}

impl Compiled {
    pub fn every() -> impl Iterator<Item = Compiled> {
        let in_mode = |selective| {
            let with_any_room =
                [1, 6, 7, 81, 82, 83, 84].into_iter().flat_map(|refusal| EITHER.map(|short| (refusal, short)));
            let cases = with_any_room.chain([(0, false), (9, true)]);
            cases.map(move |(refusal, short)| Compiled { selective, refusal, short })
        };
        EITHER.into_iter().flat_map(in_mode)
    }

    pub fn bad_steps() -> impl Iterator<Item = Compiled> {
        Compiled::every().filter(|c| c.refusal >= 81)
    }
}

/// A limit of the compiler at which a scene was divided or not.
#[derive(Clone, Copy, PartialEq, Eq, PartialOrd, Ord, Debug)]
pub struct AtLimit {
    selective: bool,
    limit: Limit,
    /// False: an entry or a list has exactly this length. True: with the next step or entry it would be a byte longer.
    passed: bool,
}

#[derive(Clone, Copy, PartialEq, Eq, PartialOrd, Ord, Debug)]
enum Limit {
    /// Of an entry's PData.
    Entry,
    /// Of a list, closing zero included.
    List,
}

impl Limit {
    fn bytes(self, selective: bool) -> usize {
        match (self, selective) {
            (Limit::Entry, false) => 50,
            (Limit::List, false) => 56,
            (Limit::Entry, true) => 20,
            (Limit::List, true) => 26,
        }
    }
}

impl AtLimit {
    pub fn every() -> impl Iterator<Item = AtLimit> {
        let in_mode = |selective| {
            let of = move |limit| EITHER.map(|passed| AtLimit { selective, limit, passed });
            [Limit::Entry, Limit::List].into_iter().flat_map(of)
        };
        EITHER.into_iter().flat_map(in_mode)
    }
}

/// How many bytes longer an entry would be with the first step of the next one; none if that step cannot join it.
fn joining_bytes(entry: &r::Request, next: &r::Request) -> Option<usize> {
    if (entry.pnum, entry.pcmd) != (next.pnum, next.pcmd) {
        return None;
    }
    if entry.pnum != 0x71 {
        let end = entry.pdata[0] as usize + entry.pdata.len() - 1;
        return (next.pdata[0] as usize == end).then_some(1);
    }
    let [lamps, more] = [entry, next].map(|e| u32::from_le_bytes(*e.pdata.first_chunk().expect("a bitmap")));
    (lamps.leading_zeros() + more.trailing_zeros() >= 32).then_some(if next.pdata[4] >= 0x80 { 2 } else { 1 })
}

/// A node that takes a scene compiled for chosen nodes.
#[derive(PartialEq, Eq, PartialOrd, Ord, Debug)]
pub struct Taker {
    pub selected: bool,
    pub profile: Profile,
}

/// The HWPID of a scene, seen from a node.
#[derive(Clone, Copy, PartialEq, Eq, PartialOrd, Ord, Debug)]
pub enum Profile {
    Own,
    Wildcard,
    Other,
}

impl Profile {
    pub fn of(hwpid: u16, node: &Node) -> Profile {
        match hwpid {
            0xFFFF => Profile::Wildcard,
            own if own == node.settings.hwpid => Profile::Own,
            _ => Profile::Other,
        }
    }
}

impl Taker {
    pub fn every() -> impl Iterator<Item = Taker> {
        let profiles = [Profile::Own, Profile::Wildcard, Profile::Other].into_iter();
        profiles.flat_map(|profile| EITHER.map(|selected| Taker { selected, profile }))
    }
}

impl Seen {
    /// Counts a call of the compiler; `nodes` are the chosen ones, none if the scene is for an address.
    pub fn compile(&mut self, nodes: Option<&NodeSet>, refusal: u8, short: bool) {
        self.compiled.add(Compiled { selective: nodes.is_some(), refusal, short });
        if let Some(nodes) = nodes {
            self.compiled_sets.add(SetKind::of(&nodes.bits));
        }
    }

    /// Counts the limits that the lists of a compiled scene meet.
    pub fn lists(&mut self, selective: bool, lists: &[&[u8]]) {
        let entries: Vec<Vec<r::Request>> = lists.iter().map(|list| r::read_list(list).expect("compiled")).collect();
        for (i, list) in lists.iter().enumerate() {
            self.at_limit(selective, Limit::List, list.len());
            if let Some(next) = lists.get(i + 1) {
                self.past_limit(selective, Limit::List, list.len() + next[0] as usize);
            }
        }
        let entries: Vec<&r::Request> = entries.iter().flatten().collect();
        for (i, entry) in entries.iter().enumerate() {
            self.at_limit(selective, Limit::Entry, entry.pdata.len());
            if let Some(more) = entries.get(i + 1).and_then(|next| joining_bytes(entry, next)) {
                self.past_limit(selective, Limit::Entry, entry.pdata.len() + more);
            }
        }
    }

    fn at_limit(&mut self, selective: bool, limit: Limit, length: usize) {
        if length == limit.bytes(selective) {
            self.at_limits.add(AtLimit { selective, limit, passed: false });
        }
    }

    fn past_limit(&mut self, selective: bool, limit: Limit, length: usize) {
        if length == limit.bytes(selective) + 1 {
            self.at_limits.add(AtLimit { selective, limit, passed: true });
        }
    }
}
