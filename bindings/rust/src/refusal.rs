//! Why a call was refused.
use crate::numbered::{known, numbered};
use core::error::Error;
use core::fmt;

numbered! {
    /// Why a call was refused: the first of the reasons, in this order, that
    /// applies to it. A refused call changes nothing and writes no buffer.
    #[non_exhaustive]
    pub enum Refusal {
        Node = REFUSED_NODE, "a record that is not sound, or settings, an address or a node set out of range";
        Frame = REFUSED_FRAME, "a frame that is too short or too long";
        Response = REFUSED_RESPONSE, "fewer than 64 bytes for a response or confirmation";
        Memory = REFUSED_MEMORY, "EEPROM is not 192 bytes, or external memory not 16,384";
        PData = REFUSED_PDATA, "more than 56 bytes of PData";
        Book = REFUSED_BOOK, "a malformed scene book";
        Scene = REFUSED_SCENE, "the book has no scene with that number";
        StepKind = REFUSED_STEP_KIND, "a step with an unknown kind";
        StepTarget = REFUSED_STEP_TARGET, "a step with a target that is no lamp or outside its memory";
        StepValue = REFUSED_STEP_VALUE, "a lamp step with a value over 100";
        StepTime = REFUSED_STEP_TIME, "a step with an invalid time";
        Output = REFUSED_OUTPUT, "fewer than 4,096 bytes for a compiled scene";
        View = REFUSED_VIEW, "a view of neither memory";
        Framed = REFUSED_FRAMED, "the framed message does not fit into the buffer";
        Address = REFUSED_ADDRESS, "no address of a node, or one that is already bonded, or one that is not bonded";
        Full = REFUSED_FULL, "eight requests are waiting";
        Time = REFUSED_TIME, "a time before the last one given, or above 2^40";
        Block = REFUSED_BLOCK, "a view of more bytes than one request can transfer";
        Range = REFUSED_RANGE, "a view that starts or ends outside its memory";
    }
}

impl Error for Refusal {}

/// The refusal in an answer, as a result.
pub(crate) fn accepted(refusal: u8) -> Result<(), Refusal> {
    match refusal {
        crate::OK => Ok(()),
        number => Err(known(number)),
    }
}

/// Why a scene was refused and, if a step is bad, which one.
#[derive(Clone, Copy, Debug, PartialEq, Eq)]
pub struct SceneRefusal {
    /// The reason.
    pub refusal: Refusal,
    /// The number, from 0, of the first bad step; none for other reasons.
    pub step: Option<u8>,
}

impl SceneRefusal {
    /// The refusal and the step in an answer, as a result.
    pub(crate) fn accepted(refusal: u8, step: u8) -> Result<(), SceneRefusal> {
        accepted(refusal).map_err(|refusal| {
            use Refusal::{StepKind, StepTarget, StepTime, StepValue};
            let is_step = matches!(refusal, StepKind | StepTarget | StepValue | StepTime);
            SceneRefusal { refusal, step: is_step.then_some(step) }
        })
    }
}

impl fmt::Display for SceneRefusal {
    fn fmt(&self, f: &mut fmt::Formatter) -> fmt::Result {
        match self.step {
            Some(step) => write!(f, "step {step}: {}", self.refusal),
            None => self.refusal.fmt(f),
        }
    }
}

impl Error for SceneRefusal {}
