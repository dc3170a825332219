//! Random calls on the tested sides and on the reference: what the sessions of a
//! node, of the serial line and of a gateway have alike. What each of them calls
//! is in the file of the same name in its folder.
use crate::rng::{seed, Rng};
use std::fmt::Debug;

pub struct Session<Seen, Boards = ()> {
    test: String,
    seed: u64,
    pub g: Rng,
    /// Calls so far; one on all sides counts once.
    pub calls: u64,
    /// What the calls did.
    pub seen: Seen,
    /// What the calls of a session change, if it is more than they return.
    pub boards: Boards,
}

impl<Seen: Default + Debug> Session<Seen> {
    pub fn new(test: &str) -> Session<Seen> {
        let seed = seed(test);
        Session::on(test.to_string(), seed, Rng::new(seed), ())
    }
}

impl<Seen: Default + Debug, Boards> Session<Seen, Boards> {
    /// With boards that the generator has made.
    pub fn on(test: String, seed: u64, g: Rng, boards: Boards) -> Session<Seen, Boards> {
        Session { test, seed, g, calls: 0, seen: Seen::default(), boards }
    }

    /// Fails the test if `good` is false.
    pub fn expect(&self, good: bool, fault: impl FnOnce() -> String) {
        if !good {
            let Session { test, seed, calls, .. } = self;
            panic!("{test}: seed {seed}, call {calls}\n{}", fault());
        }
    }

    /// Fails the test if a side has another answer than the reference, or a fault besides.
    pub fn agree<A: PartialEq + Debug>(
        &self,
        side: &str,
        [answer, want]: [&A; 2],
        fault: &str,
        inputs: impl FnOnce() -> String,
    ) {
        self.expect(answer == want && fault.is_empty(), || {
            format!("{side}: {fault}answer   {answer:?}\nexpected {want:?}\ninputs: {}", inputs())
        });
    }

    pub fn report(&self) {
        println!("{}: {} calls, {:?}", self.test, self.calls, self.seen);
    }
}
