//! How large texts, step lists and cases may be.

use crate::text::{cause, Refusal};

/// The longest text a call reads.
pub const TEXT: usize = 1_048_576;
/// The most steps that may be lent as numbers.
pub const STEPS: usize = 1_048_576;

/// The most tuples that an `every` line's relation may have.
pub const EVERY_TUPLES: u32 = 8;

/// How many elements, atoms, actions and built steps a case may have.
#[derive(Clone, Copy, Debug, PartialEq, Eq)]
pub struct Limits {
    pub elements: u32,
    pub atoms: u32,
    pub actions: u32,
    pub steps: u32,
}

/// The limits of every call.
pub const USUAL: Limits =
    Limits { elements: 64, atoms: 1_048_576, actions: 4_194_304, steps: STEPS as u32 };
/// The first limits there were, which the desk program keeps.
pub const EARLY: Limits = Limits { elements: 16, atoms: 65_536, actions: 131_072, steps: 65_536 };

impl Limits {
    /// Refuses a case that has too many atoms or actions.
    pub(crate) fn admit(&self, atoms: u64, actions: u64) -> Result<(), Refusal> {
        if atoms > u64::from(self.atoms) || actions > u64::from(self.actions) {
            return Err(Refusal::new(cause::PROBLEM_SIZE, 0));
        }
        Ok(())
    }

    /// Refuses a case whose `every` line has too many tuples, or that could take too many steps.
    /// `once` is what is built once at the most, `round` what a round takes but for its marks.
    pub(crate) fn bound(&self, once: u64, round: u64, tuples: u64) -> Result<u32, Refusal> {
        let too_many = Refusal::new(cause::EVERY, 0);
        if tuples > u64::from(EVERY_TUPLES) {
            return Err(too_many);
        }
        let bound = once + (1 << tuples) * (round + tuples);
        let fits = bound <= u64::from(self.steps);
        fits.then_some(bound as u32).ok_or(too_many)
    }
}
