//! Many step lists for one case, in one call.

use crate::cases::{case, room};
use crate::ground::Problem;
use crate::limits::{self, USUAL};
use crate::plans::follow;
use crate::text::{cause, Refusal, Reply};

/// A list among the lent steps, and the reply to it; laid out as C lays it out.
#[repr(C)]
#[derive(Clone, Copy, Debug, Default, PartialEq, Eq)]
pub struct Try {
    pub first: u32,
    pub length: u32,
    pub number: u32,
    pub place: u64,
}

/// Tries every list from the initial state, which is left at the end. A case
/// that is refused leaves the records and the state alone.
pub fn tries(
    question: &[u8],
    site: &[u8],
    steps: &[u32],
    tries: &mut [Try],
    state: &mut [u64],
) -> Reply {
    tries_with(question, site, steps, tries, state).into()
}

fn tries_with(
    question: &[u8],
    site: &[u8],
    steps: &[u32],
    tries: &mut [Try],
    state: &mut [u64],
) -> Result<usize, Refusal> {
    let (question, structure) = case(question, site, &USUAL)?;
    let problem = Problem::new(&question, &structure, &USUAL)?;
    room(state.len(), problem.words())?;
    for record in tries {
        let list = one_list(steps, *record);
        let (number, place) = match list.and_then(|list| follow(&problem, list, state)) {
            Ok(count) => (0, count as u64),
            Err(refusal) => (refusal.number, refusal.place),
        };
        (record.number, record.place) = (number, place);
    }
    problem.initial(state);
    Ok(0)
}

/// The steps of a record's list, if it is short enough and all of it is lent.
fn one_list(steps: &[u32], record: Try) -> Result<&[u32], Refusal> {
    if record.length as usize > limits::STEPS {
        return Err(Refusal::new(cause::TOO_LONG, 0));
    }
    let first = u64::from(record.first);
    let end = first + u64::from(record.length);
    if end > steps.len() as u64 {
        return Err(Refusal { number: cause::SHORT_BUFFER, place: end });
    }
    Ok(&steps[first as usize..end as usize])
}
