//! The calls on a case. Each takes the texts themselves and the caller's
//! buffers; whatever is refused is refused before any buffer is written, save
//! that a plan that goes wrong leaves the state it had reached.

use crate::ground::{Action, Problem};
use crate::limits::{self, Limits, USUAL};
use crate::plans::{build as build_plan, follow, read_picks};
use crate::sheets::{self, pick_words, Question, Structure, Tables};
use crate::text::{cause, Refusal, Reply};
use crate::tree::Shape;

#[derive(Clone, Copy, Debug, PartialEq, Eq)]
pub struct Sizes {
    pub n: u64,
    pub atoms: u64,
    pub actions: u64,
    pub bound: u64,
}

/// Reads both sheets that every call begins with.
pub(crate) fn case<'t>(
    question: &'t [u8],
    site: &[u8],
    limits: &Limits,
) -> Result<(Question<'t>, Structure), Refusal> {
    let question = sheets::question(question)?;
    let structure = sheets::site(site, &question.signature, limits)?;
    Ok((question, structure))
}

pub fn sizes(question: &[u8], site: &[u8]) -> Result<Sizes, Refusal> {
    let (question, structure) = case(question, site, &USUAL)?;
    let problem = Problem::new(&question, &structure, &USUAL)?;
    Ok(Sizes {
        n: u64::from(problem.n),
        atoms: u64::from(problem.atoms),
        actions: u64::from(problem.actions()),
        bound: u64::from(problem.bound),
    })
}

/// The rule's formula as a part of the question; empty if that is refused.
pub fn rule_part(question: &[u8]) -> (&[u8], Option<Refusal>) {
    match sheets::question(question) {
        Ok(question) => (question.rule, None),
        Err(refusal) => (&[], Some(refusal)),
    }
}

/// What the action of this number does.
pub fn action(question: &[u8], site: &[u8], number: u64) -> Result<Action, Refusal> {
    let (question, structure) = case(question, site, &USUAL)?;
    let problem = Problem::new(&question, &structure, &USUAL)?;
    let small = u32::try_from(number).ok();
    let none = Refusal { number: cause::NO_ACTION, place: number };
    small.and_then(|number| problem.action(number)).ok_or(none)
}

/// The action of this number in numbers: its kind (set, begin-proof, `and`, `or`,
/// `exists`, `forall`, prove-goal, round-end, mark-in, mark-out, from 0), its relation or
/// node, its row, and its part, element or z.
pub fn action_details(question: &[u8], site: &[u8], number: u64) -> Result<[u64; 4], Refusal> {
    let found = action(question, site, number)?;
    let (question, structure) = case(question, site, &USUAL)?;
    let problem = Problem::new(&question, &structure, &USUAL)?;
    let every = question.signature.every().unwrap_or(0) as u32;
    let details = match found {
        Action::Set(set) => {
            let relation = question.signature.chosen().start as u32 + set.choose;
            [0, relation, set.row, 0]
        }
        Action::BeginProof => [1, 0, 0, 0],
        Action::Prove(prove) => {
            let kind = match problem.nodes[prove.node as usize].shape {
                Shape::And => 2,
                Shape::Or => 3,
                Shape::Exists => 4,
                Shape::Forall => 5,
            };
            [kind, prove.node, prove.row, prove.choice]
        }
        Action::ProveGoal => [6, 0, 0, 0],
        Action::RoundEnd => [7, 0, 0, 0],
        Action::MarkIn(row) => [8, every, row, 0],
        Action::MarkOut(row) => [9, every, row, 0],
    };
    Ok(details.map(u64::from))
}

/// The number of an action; nothing if the case has no such action.
pub fn action_number(
    question: &[u8],
    site: &[u8],
    action: &Action,
) -> Result<Option<u32>, Refusal> {
    let (question, structure) = case(question, site, &USUAL)?;
    Ok(Problem::new(&question, &structure, &USUAL)?.number(action))
}

pub(crate) fn lent_steps(steps: &[u32]) -> Result<&[u32], Refusal> {
    if steps.len() > limits::STEPS {
        return Err(Refusal::new(cause::TOO_LONG, 0));
    }
    Ok(steps)
}

pub(crate) fn room(length: usize, needed: usize) -> Result<(), Refusal> {
    if length < needed {
        return Err(Refusal::new(cause::SHORT_BUFFER, needed));
    }
    Ok(())
}

/// Checks a sheet of steps.
pub fn check_text(question: &[u8], site: &[u8], steps: &[u8], state: &mut [u64]) -> Reply {
    check_with(question, site, || sheets::steps(steps), state).into()
}

/// Checks lent steps.
pub fn check(question: &[u8], site: &[u8], steps: &[u32], state: &mut [u64]) -> Reply {
    check_with(question, site, || lent_steps(steps), state).into()
}

fn check_with<S: AsRef<[u32]>>(
    question: &[u8],
    site: &[u8],
    steps: impl FnOnce() -> Result<S, Refusal>,
    state: &mut [u64],
) -> Result<usize, Refusal> {
    let (question, structure) = case(question, site, &USUAL)?;
    let steps = steps()?;
    let problem = Problem::new(&question, &structure, &USUAL)?;
    room(state.len(), problem.words())?;
    follow(&problem, steps.as_ref(), state)
}

/// Checks a sheet of steps and writes the picks they set.
pub fn picks_text(
    question: &[u8],
    site: &[u8],
    steps: &[u8],
    picks: &mut [u64],
    state: &mut [u64],
) -> Reply {
    picks_with(question, site, || sheets::steps(steps), picks, state).into()
}

/// Checks lent steps and writes the picks they set.
pub fn picks(
    question: &[u8],
    site: &[u8],
    steps: &[u32],
    picks: &mut [u64],
    state: &mut [u64],
) -> Reply {
    picks_with(question, site, || lent_steps(steps), picks, state).into()
}

fn picks_with<S: AsRef<[u32]>>(
    question: &[u8],
    site: &[u8],
    steps: impl FnOnce() -> Result<S, Refusal>,
    picks: &mut [u64],
    state: &mut [u64],
) -> Result<usize, Refusal> {
    let (question, structure) = case(question, site, &USUAL)?;
    let steps = steps()?;
    let problem = Problem::new(&question, &structure, &USUAL)?;
    room(picks.len(), pick_words(&question.signature, structure.n))?;
    room(state.len(), problem.words())?;
    let count = follow(&problem, steps.as_ref(), state)?;
    read_picks(&problem, state, picks);
    Ok(count)
}

/// Builds the plan of a sheet of picks.
pub fn build_text(
    question: &[u8],
    site: &[u8],
    picks: &[u8],
    state: &mut [u64],
    steps: &mut [u32],
) -> Reply {
    build_sheet(question, site, picks, state, steps).into()
}

/// Builds the plan of lent picks.
pub fn build(
    question: &[u8],
    site: &[u8],
    picks: &[u64],
    state: &mut [u64],
    steps: &mut [u32],
) -> Reply {
    build_lent(question, site, picks, state, steps).into()
}

fn build_sheet(
    question: &[u8],
    site: &[u8],
    picks: &[u8],
    state: &mut [u64],
    steps: &mut [u32],
) -> Result<usize, Refusal> {
    let (question, structure) = case(question, site, &USUAL)?;
    let picks = sheets::picks(picks, &question.signature, &structure)?;
    let problem = Problem::new(&question, &structure, &USUAL)?;
    room(state.len(), problem.words())?;
    room(steps.len(), problem.bound as usize)?;
    write_plan(&problem, &picks, state, steps)
}

/// Lent picks can hold a spare bit, which is looked for after the lengths.
fn build_lent(
    question: &[u8],
    site: &[u8],
    picks: &[u64],
    state: &mut [u64],
    steps: &mut [u32],
) -> Result<usize, Refusal> {
    let (question, structure) = case(question, site, &USUAL)?;
    let problem = Problem::new(&question, &structure, &USUAL)?;
    room(picks.len(), pick_words(&question.signature, structure.n))?;
    room(state.len(), problem.words())?;
    room(steps.len(), problem.bound as usize)?;
    let picks = sheets::lent_picks(picks, &question.signature, structure.n)?;
    write_plan(&problem, &picks, state, steps)
}

/// Builds in buffers of its own, since a refusal must leave the caller's alone.
fn write_plan(
    problem: &Problem,
    picks: &Tables,
    state: &mut [u64],
    steps: &mut [u32],
) -> Result<usize, Refusal> {
    let plan = build_plan(problem, picks)?;
    state[..plan.state.len()].copy_from_slice(&plan.state);
    steps[..plan.steps.len()].copy_from_slice(&plan.steps);
    Ok(plan.steps.len())
}
