//! Counts of what the calls of a session did. What a call did is told from its
//! inputs and the reference.
use super::code::CodeType;
use super::reference::{self as r, EXTERNAL_SIZE, NODE_SET};
use crate::board::Board;
use crate::counts::{Counts, EITHER};
use crate::scene;
use grelfint::raw::{Lamp, Node, RequestAnswer};

#[derive(Default, Debug)]
pub struct Seen {
    pub refusals: Counts<u8>,
    pub errors: [u64; 8],
    pub loads: u64,
    pub requests: Requests,
    pub broken_lists: Counts<BrokenList>,
    pub selective: Counts<SelectiveBatch>,
    /// Bytes of PData of selective batches, at the limits.
    pub selective_lengths: Counts<usize>,
    /// The sets of selective batches, and whether the node is selected.
    pub selective_sets: Counts<(SetKind, bool)>,
    pub forbidden_entries: Counts<ForbiddenEntry>,
    pub code_checks: Counts<CodeCheck>,
    pub code_places: Counts<CodePlace>,
    pub keeps: Counts<Keep>,
    pub keeps_in: Counts<(LampRequest, Keep)>,
    /// Refusals of `actual_levels`.
    pub levels: Counts<u8>,
    pub scenes: scene::seen::Seen,
}

/// Requests by outcome.
#[derive(Default, Debug, PartialEq)]
pub struct Requests {
    pub own: u64,
    pub broadcast: u64,
    /// A selective batch at the node's own address that does not select it.
    pub not_selected: u64,
    pub other_node: u64,
    pub refused: u64,
}

impl Requests {
    fn count(&mut self, a: &RequestAnswer, frame: &[u8]) {
        let kind = match (a.refusal, a.addressed, a.length) {
            (0, true, 8..) => &mut self.own,
            (0, true, 0) if is_broadcast(frame) => &mut self.broadcast,
            (0, true, 0) if frame[2..4] == [2, 0x0B] => &mut self.not_selected,
            (0, false, 0) => &mut self.other_node,
            (1.., false, 0) => &mut self.refused,
            _ => panic!("an answer of none of the five kinds: {a:?}"),
        };
        *kind += 1;
    }

    fn kinds(&self) -> [u64; 5] {
        [self.own, self.broadcast, self.not_selected, self.other_node, self.refused]
    }

    fn total(&self) -> u64 {
        self.kinds().iter().sum()
    }
}

fn is_broadcast(frame: &[u8]) -> bool {
    frame[..2] == [0xFF, 0]
}

/// How an entry or a lamp request is sent.
#[derive(Clone, Copy, PartialEq, Eq, PartialOrd, Ord, Debug)]
pub enum Way {
    Alone,
    Batch,
    SelectiveBatch,
}

impl Way {
    fn of(request: &r::Request) -> Way {
        match (request.pnum, request.pcmd) {
            (2, 5) => Way::Batch,
            (2, 0x0B) => Way::SelectiveBatch,
            _ => Way::Alone,
        }
    }
}

#[derive(PartialEq, Eq, PartialOrd, Ord, Debug)]
pub struct BrokenList {
    reason: u8,
    way: Way,
    broadcast: bool,
}

impl BrokenList {
    pub fn every() -> impl Iterator<Item = BrokenList> {
        let in_way =
            |way| (1..=4).flat_map(move |reason| EITHER.map(|broadcast| BrokenList { reason, way, broadcast }));
        [Way::Batch, Way::SelectiveBatch].into_iter().flat_map(in_way)
    }
}

/// A selective batch for this node or for all nodes. Short PData selects the node if the bytes that are there do.
#[derive(PartialEq, Eq, PartialOrd, Ord, Debug)]
pub struct SelectiveBatch {
    broadcast: bool,
    selected: bool,
    fault: SelectiveFault,
}

/// Bytes of PData: none, a set without and with a list, and the most.
const SELECTIVE_LIMITS: [usize; 4] = [0, NODE_SET, NODE_SET + 1, 56];

/// What is wrong with a selective batch, in the order of the tests.
#[derive(Clone, Copy, PartialEq, Eq, PartialOrd, Ord, Debug)]
enum SelectiveFault {
    Hwpid,
    Length,
    List,
    None,
}

impl SelectiveFault {
    fn of(node: &Node, request: &r::Request) -> SelectiveFault {
        if r::wrong_hwpid(node, request) {
            SelectiveFault::Hwpid
        } else if request.pdata.len() <= NODE_SET {
            SelectiveFault::Length
        } else if r::read_list(&request.pdata[NODE_SET..]).is_err() {
            SelectiveFault::List
        } else {
            SelectiveFault::None
        }
    }
}

impl SelectiveBatch {
    pub fn every() -> impl Iterator<Item = SelectiveBatch> {
        use SelectiveFault::*;
        let with = |fault| {
            let to = move |broadcast| EITHER.map(|selected| SelectiveBatch { broadcast, selected, fault });
            EITHER.into_iter().flat_map(to)
        };
        [Hwpid, Length, List, None].into_iter().flat_map(with)
    }

    /// Those whose selection is looked at.
    pub fn every_with_list() -> impl Iterator<Item = SelectiveBatch> {
        SelectiveBatch::every().filter(|b| b.fault >= SelectiveFault::List)
    }
}

/// A node set by what it names.
#[derive(Clone, Copy, PartialEq, Eq, PartialOrd, Ord, Debug)]
pub enum SetKind {
    Nothing,
    OnlyZero,
    ZeroAndNodes,
    OneNode,
    SeveralNodes,
    AllNodes,
}

impl SetKind {
    pub const EVERY: [SetKind; 6] = [
        SetKind::Nothing,
        SetKind::OnlyZero,
        SetKind::ZeroAndNodes,
        SetKind::OneNode,
        SetKind::SeveralNodes,
        SetKind::AllNodes,
    ];

    pub fn of(bits: &[u8; NODE_SET]) -> SetKind {
        let named: u32 = bits.iter().map(|b| b.count_ones()).sum();
        match (bits[0] & 1, named) {
            (0, 0) => SetKind::Nothing,
            (1, 1) => SetKind::OnlyZero,
            (1, _) => SetKind::ZeroAndNodes,
            (_, 1) => SetKind::OneNode,
            (_, 239) => SetKind::AllNodes,
            _ => SetKind::SeveralNodes,
        }
    }

    /// With whether a node is selected, as far as both are possible.
    fn every_selection() -> impl Iterator<Item = (SetKind, bool)> {
        let both = SetKind::EVERY.into_iter().flat_map(|kind| EITHER.map(|selected| (kind, selected)));
        both.filter(|&(kind, selected)| match kind {
            SetKind::Nothing | SetKind::OnlyZero => !selected,
            SetKind::AllNodes => selected,
            _ => true,
        })
    }
}

/// A batch, a code check or a selective batch as an entry of a list that was executed.
#[derive(PartialEq, Eq, PartialOrd, Ord, Debug)]
pub struct ForbiddenEntry {
    way: Way,
    pcmd: u8,
    wrong_hwpid: bool,
}

impl ForbiddenEntry {
    const PCMDS: [u8; 3] = [5, 0x0A, 0x0B];

    fn every() -> impl Iterator<Item = ForbiddenEntry> {
        let in_way = |way| {
            let with = move |pcmd| EITHER.map(|wrong_hwpid| ForbiddenEntry { way, pcmd, wrong_hwpid });
            ForbiddenEntry::PCMDS.into_iter().flat_map(with)
        };
        [Way::Batch, Way::SelectiveBatch].into_iter().flat_map(in_way)
    }
}

/// A code check by the sums of its image.
#[derive(PartialEq, Eq, PartialOrd, Ord, Debug)]
pub struct CodeCheck {
    code: CodeType,
    units: Units,
    /// Whether the low and the high sum are 255.
    full: [bool; 2],
    given: Given,
}

#[derive(Clone, Copy, PartialEq, Eq, PartialOrd, Ord, Debug)]
enum Units {
    One,
    Several,
    /// A sum is 255 where the first unit ends.
    SeveralAfter255,
}

/// The checksum in a request, compared with the image's.
#[derive(Clone, Copy, PartialEq, Eq, PartialOrd, Ord, Debug)]
enum Given {
    Right,
    /// Wrong only by a 0 for a 255.
    ZeroFor255,
    Wrong,
}

impl CodeCheck {
    fn of(check: &r::CodeCheck, image: &[u8], sum: u16) -> CodeCheck {
        let [sums, given] = [sum, check.sum].map(u16::to_le_bytes);
        let unit = check.code.unit();
        let units = if image.len() == unit {
            Units::One
        } else if check.code.checksum(&image[..unit]).to_le_bytes().contains(&255) {
            Units::SeveralAfter255
        } else {
            Units::Several
        };
        let given = if given == sums {
            Given::Right
        } else if given.map(|b| b % 255) == sums.map(|b| b % 255) {
            Given::ZeroFor255
        } else {
            Given::Wrong
        };
        CodeCheck { code: check.code, units, full: sums.map(|b| b == 255), given }
    }

    pub fn every() -> impl Iterator<Item = CodeCheck> {
        let units = || [Units::One, Units::Several, Units::SeveralAfter255].into_iter();
        let given = || [Given::Right, Given::ZeroFor255, Given::Wrong].into_iter();
        let full = || EITHER.into_iter().flat_map(|low| EITHER.map(|high| [low, high]));
        let of = move |code| {
            let with = move |units| {
                full().flat_map(move |full| given().map(move |given| CodeCheck { code, units, full, given }))
            };
            units().flat_map(with)
        };
        let all = CodeType::EVERY.into_iter().flat_map(of);
        all.filter(|check| check.given != Given::ZeroFor255 || check.full.contains(&true))
    }
}

/// A code check by the place of its image in external memory and by what decides the load mark.
#[derive(PartialEq, Eq, PartialOrd, Ord, Debug)]
pub struct CodePlace {
    code: CodeType,
    place: Place,
    load: bool,
    matches: bool,
}

#[derive(Clone, Copy, PartialEq, Eq, PartialOrd, Ord, Debug)]
enum Place {
    AtTheStart,
    Inside,
    AtTheEnd,
    /// Only 64s fill the memory.
    Whole,
}

impl CodePlace {
    fn of(check: &r::CodeCheck, matches: bool) -> CodePlace {
        let &r::CodeCheck { code, load, address, length, .. } = check;
        let place = match (address == 0, address + length == EXTERNAL_SIZE) {
            (true, false) => Place::AtTheStart,
            (false, false) => Place::Inside,
            (false, true) => Place::AtTheEnd,
            (true, true) => Place::Whole,
        };
        CodePlace { code, place, load, matches }
    }

    pub fn every() -> impl Iterator<Item = CodePlace> {
        let places = || [Place::AtTheStart, Place::Inside, Place::AtTheEnd, Place::Whole].into_iter();
        let of = move |code| {
            let at = move |place| {
                let with = move |load| EITHER.map(|matches| CodePlace { code, place, load, matches });
                EITHER.into_iter().flat_map(with)
            };
            places().flat_map(at)
        };
        let all = CodeType::EVERY.into_iter().flat_map(of);
        all.filter(|check| check.place != Place::Whole || check.code == CodeType::Handler)
    }
}

/// A keep entry that was executed on an implemented lamp.
#[derive(Clone, Copy, PartialEq, Eq, PartialOrd, Ord, Debug)]
pub struct Keep {
    with_time: bool,
    /// Before the entry.
    lamp: LampState,
}

#[derive(Clone, Copy, PartialEq, Eq, PartialOrd, Ord, Debug)]
enum LampState {
    Off,
    /// At a level, without a timer.
    Lit,
    Timed,
}

impl LampState {
    fn of(lamp: Lamp) -> LampState {
        match (lamp.level, lamp.seconds) {
            (0, _) => LampState::Off,
            (_, 0) => LampState::Lit,
            _ => LampState::Timed,
        }
    }
}

impl Keep {
    /// Those of a request that was executed on this node.
    fn all_in(request: &r::Request, node: &Node) -> Vec<Keep> {
        let lamps = &node.lamps[..node.settings.lamp_count as usize];
        let entries = r::read_lamp_entries(request.pdata).expect("executed").into_iter();
        let keeps = entries.filter(|e| e.power == r::KEEP && e.lamp < lamps.len());
        keeps.map(|e| Keep { with_time: e.seconds.is_some(), lamp: LampState::of(lamps[e.lamp]) }).collect()
    }

    fn every() -> impl Iterator<Item = Keep> {
        let states = [LampState::Off, LampState::Lit, LampState::Timed].into_iter();
        states.flat_map(|lamp| EITHER.map(|with_time| Keep { with_time, lamp }))
    }
}

/// How a set, raise or lower was sent.
#[derive(Clone, Copy, PartialEq, Eq, PartialOrd, Ord, Debug)]
pub struct LampRequest {
    pcmd: u8,
    way: Way,
    broadcast: bool,
}

impl LampRequest {
    fn every() -> impl Iterator<Item = LampRequest> {
        let in_way = |way| (0..=2).flat_map(move |pcmd| EITHER.map(|broadcast| LampRequest { pcmd, way, broadcast }));
        [Way::Alone, Way::Batch, Way::SelectiveBatch].into_iter().flat_map(in_way)
    }
}

/// The requests that a node executes one after the other for a request to it: those of the list, or the one itself.
fn executed<'a>(node: &Node, whole: r::Request<'a>) -> Vec<r::Request<'a>> {
    if r::wrong_hwpid(node, &whole) {
        return Vec::new();
    }
    let list = match Way::of(&whole) {
        Way::Alone => return vec![whole],
        Way::Batch => whole.pdata,
        Way::SelectiveBatch if whole.pdata.len() > NODE_SET && r::names(whole.pdata, node.settings.address) => {
            &whole.pdata[NODE_SET..]
        }
        Way::SelectiveBatch => return Vec::new(),
    };
    r::read_list(list).unwrap_or_default()
}

impl Seen {
    /// Counts a request to this board. ErrN is none if it was not sent.
    pub fn request(&mut self, before: Board, frame: &[u8], a: &RequestAnswer, errn: Option<u8>) {
        self.loads += a.load as u64;
        self.requests.count(a, frame);
        if let Some(errn) = errn {
            self.errors[errn as usize] += 1;
        }
        if !a.addressed {
            return;
        }
        let (request, broadcast) = (r::request_in(frame), is_broadcast(frame));
        let way = Way::of(&request);
        if a.reason != 0 {
            self.broken_lists.add(BrokenList { reason: a.reason, way, broadcast });
        }
        if way == Way::SelectiveBatch {
            self.selective_batch(&before.node, &request, broadcast);
        }
        if (request.pnum, request.pcmd) == (2, 0x0A) && !r::wrong_hwpid(&before.node, &request) {
            self.code_check(&before.external, &request);
        }
        self.entries(before, request, broadcast);
    }

    fn code_check(&mut self, external: &[u8], request: &r::Request) {
        if let Ok(check) = r::read_code_check(request.pdata) {
            let image = check.image(external);
            let sum = check.code.checksum(image);
            self.code_checks.add(CodeCheck::of(&check, image, sum));
            self.code_places.add(CodePlace::of(&check, check.sum == sum));
        }
    }

    fn selective_batch(&mut self, node: &Node, request: &r::Request, broadcast: bool) {
        let (address, pdata) = (node.settings.address, request.pdata);
        let selected = pdata.len() > address as usize / 8 && r::names(pdata, address);
        self.selective.add(SelectiveBatch { broadcast, selected, fault: SelectiveFault::of(node, request) });
        if SELECTIVE_LIMITS.contains(&pdata.len()) {
            self.selective_lengths.add(pdata.len());
        }
        if let Some(bits) = pdata.first_chunk() {
            self.selective_sets.add((SetKind::of(bits), selected));
        }
    }

    /// Counts what a request to this board executes.
    fn entries(&mut self, mut board: Board, whole: r::Request, broadcast: bool) {
        let way = Way::of(&whole);
        let mut parts = board.parts();
        for request in executed(&parts.node, whole) {
            let (node, pcmd) = (parts.node, request.pcmd);
            if way != Way::Alone && request.pnum == 2 && ForbiddenEntry::PCMDS.contains(&pcmd) {
                let wrong_hwpid = r::wrong_hwpid(&node, &request);
                self.forbidden_entries.add(ForbiddenEntry { way, pcmd, wrong_hwpid });
            }
            if r::do_entry(&mut parts, &request).is_err() || request.pnum != 0x71 || pcmd > 2 {
                continue;
            }
            for keep in Keep::all_in(&request, &node) {
                self.keeps.add(keep);
                self.keeps_in.add((LampRequest { pcmd, way, broadcast }, keep));
            }
        }
    }

    /// At least one request in twenty is of each kind; for a node that is not selected, one in fifty.
    pub fn assert_every_kind_of_request(&self) {
        let total = self.requests.total();
        let usual = Requests { not_selected: total, ..self.requests };
        assert!(usual.kinds().iter().all(|n| n * 20 > total), "a kind is rare: {:?}", self.requests);
        assert!(self.requests.not_selected * 50 > total, "a kind is rare: {:?}", self.requests);
        self.assert_every_kind_of_list(total);
        self.assert_every_kind_of_selective_batch(total);
        self.assert_every_kind_of_code_check(total / 20_000);
        self.assert_every_kind_of_keep(total);
    }

    /// At least one request in two thousand is a batch with a list broken in each way, one in four thousand such a
    /// selective batch. One in twenty thousand has an entry of each kind that is not allowed in a list.
    fn assert_every_kind_of_list(&self, requests: u64) {
        for (way, share) in [(Way::Batch, 2000), (Way::SelectiveBatch, 4000)] {
            self.broken_lists.assert_each(BrokenList::every().filter(|list| list.way == way), requests / share);
        }
        self.forbidden_entries.assert_each(ForbiddenEntry::every(), requests / 20_000);
    }

    /// At least one request in four thousand is a selective batch of each kind; one in a thousand has each kind of set and
    /// each limit of PData.
    fn assert_every_kind_of_selective_batch(&self, requests: u64) {
        self.selective.assert_each(SelectiveBatch::every(), requests / 4000);
        self.selective_sets.assert_each(SetKind::every_selection(), requests / 1000);
        self.selective_lengths.assert_each(SELECTIVE_LIMITS, requests / 1000);
    }

    /// At least this many code checks are of each kind.
    pub fn assert_every_kind_of_code_check(&self, least: u64) {
        self.code_checks.assert_each(CodeCheck::every(), least);
        self.code_places.assert_each(CodePlace::every(), least);
    }

    /// On average, at least one keep entry of each kind is executed in fifty requests, and for each way to send it one in
    /// four thousand, in selective batches one in twenty thousand.
    fn assert_every_kind_of_keep(&self, requests: u64) {
        self.keeps.assert_each(Keep::every(), requests / 50);
        for request in LampRequest::every() {
            let share = if request.way == Way::SelectiveBatch { 20_000 } else { 4000 };
            self.keeps_in.assert_each(Keep::every().map(|keep| (request, keep)), requests / share);
        }
    }
}
