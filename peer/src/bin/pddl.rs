//! Holds what is written as PDDL to the language: a reader that knows nothing of cases reads every domain and instance, follows every
//! plan, and has to agree with the checker on each step.
//!
//!     pddl [CASES] [SEED]

use peer::naming::drawn;
use peer::sample::{needs, Random, Sample};
use peer::strips::task;
use peer::trial::{argument, Calls, Other, LINKED};
use peer::{Refusal, Reply};
use std::process::ExitCode;

/// What a call writes, if it does.
fn text(write: impl Fn(&mut [u8]) -> Reply) -> Option<String> {
    let Reply::Refused(Refusal { number: 12, place }) = write(&mut []) else { return None };
    let mut out = vec![0; place as usize];
    let written = write(&mut out) == Reply::Accepted(place);
    String::from_utf8(out).ok().filter(|_| written)
}

/// How the checker ends: the steps it took, and whether the goal is reached.
fn checked(case: [&[u8]; 2], steps: &[u32], state: &mut [u64]) -> Option<(usize, bool)> {
    match Other.check(case, steps, state) {
        Reply::Accepted(count) => Some((count as usize, true)),
        Reply::Refused(Refusal { number: 14, place }) => Some((place as usize, false)),
        Reply::Refused(Refusal { number: 15, place }) => Some((place as usize, false)),
        Reply::Refused(_) => None,
    }
}

/// The sample's steps, each list that is one shorter, and those built from its picks.
fn lists(sample: &Sample, case: [&[u8]; 2], rooms: [usize; 3]) -> Vec<Vec<u32>> {
    let mut lists = vec![sample.lent_steps.clone()];
    let (mut state, mut steps) = (vec![0; rooms[1]], vec![0; rooms[2]]);
    if let Reply::Accepted(count) = Other.build_text(case, &sample.picks, &mut state, &mut steps) {
        steps.truncate(count as usize);
        lists.extend((0..steps.len().min(9)).map(|left_out| {
            let mut fewer = steps.clone();
            fewer.remove(left_out * 7 % steps.len());
            fewer
        }));
        lists.push(steps);
    }
    lists
}

/// Cases, lists of steps and steps that were followed.
type Count = [u64; 3];

fn hold(sample: &Sample, count: &mut Count) -> Result<(), String> {
    let case = [&sample.question[..], &sample.site[..]];
    let texts =
        [text(|out| Other.pddl_domain(case, out)), text(|out| Other.pddl_instance(case, out))];
    let ([Some(domain), Some(instance)], Some(rooms)) = (texts, needs(sample)) else {
        return Ok(());
    };
    let task = task(&domain, &instance)?;
    count[0] += 1;
    for steps in lists(sample, case, rooms) {
        let Some(told) = checked(case, &steps, &mut vec![0; rooms[1]]) else { continue };
        let plan = text(|out| Other.pddl_plan(case, &steps, out)).unwrap_or_default();
        let followed = task.follow(&plan)?;
        if followed != told {
            return Err(format!("{followed:?} by the language, {told:?} by the checker: {plan}"));
        }
        count[1] += 1;
        count[2] += told.0 as u64;
    }
    Ok(())
}

fn main() -> ExitCode {
    let (cases, seed) = (argument(1, 3_000), argument(2, 1));
    let (mut count, mut faults) = (Count::default(), 0);
    for number in 0..cases {
        let sample = drawn(&mut Random::new(seed << 32 | number));
        if let Err(what) = hold(&sample, &mut count) {
            faults += 1;
            println!("case {number}: {what}\n{}", sample.question.escape_ascii());
        }
    }
    let [read, lists, steps] = count;
    let whose = if LINKED { "the proved program" } else { "the peer, the library is not linked" };
    println!("pddl: {read} cases of {whose} read, {lists} plans followed, {steps} steps: {faults} faults");
    if faults == 0 {
        ExitCode::SUCCESS
    } else {
        ExitCode::FAILURE
    }
}
