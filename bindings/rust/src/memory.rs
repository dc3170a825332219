//! Reading the memories in place.
use crate::refusal::accepted;
use crate::{raw, Refusal, PNUM_EEPROM};

/// The part of EEPROM (PNUM 3, at most 55 bytes) or of external memory (PNUM 4,
/// at most 54 bytes) from `start` on, `count` bytes long, without a request.
///
/// Refusals: [`Refusal::Memory`], [`Refusal::View`], [`Refusal::Block`],
/// [`Refusal::Range`].
pub fn view<'a>(
    eeprom: &'a [u8],
    external: &'a [u8],
    pnum: u8,
    start: usize,
    count: usize,
) -> Result<&'a [u8], Refusal> {
    accepted(raw::view_status(eeprom, external, pnum, start, count))?;
    let memory = if pnum == PNUM_EEPROM { eeprom } else { external };
    Ok(&memory[start..start + count])
}
