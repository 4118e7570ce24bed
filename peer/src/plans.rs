//! Following a plan step by step, and building one from picks.

use crate::ground::{
    add, holds, read_bits, Action, NodeAtoms, PartAtom, Problem, Set, Values, GOAL, PROOF,
};
use crate::sheets::{Signature, Structure, Tables};
use crate::text::{cause, Refusal};
use crate::tree::{Shape, Variables, NESTING_LIMIT};

/// Runs the steps in the lent state; a refusal leaves the state it was met in.
pub fn follow(problem: &Problem, steps: &[u32], state: &mut [u64]) -> Result<usize, Refusal> {
    problem.initial(state);
    for (index, &step) in steps.iter().enumerate() {
        let action = problem.action(step).ok_or(Refusal::new(cause::NO_ACTION, index))?;
        if !problem.take(action, state) {
            return Err(Refusal::new(cause::NOT_APPLICABLE, index));
        }
    }
    if !holds(state, GOAL) {
        return Err(Refusal::new(cause::NO_GOAL, steps.len()));
    }
    Ok(steps.len())
}

/// The tuples set on the way to this state, which no later step takes back.
pub fn read_picks(problem: &Problem, state: &[u64], picks: &mut [u64]) {
    let mut start = 0;
    for choose in 0..problem.question().signature.chosen().len() {
        let (first, tuples) = problem.chosen_tuples(choose);
        let end = start + tuples.div_ceil(64) as usize;
        read_bits(state, first, tuples, &mut picks[start..end]);
        start = end;
    }
}

/// A plan being built, kept apart from the caller's buffers until it is sure
/// that the rule is true.
pub struct Plan<'p> {
    problem: &'p Problem<'p>,
    pub state: Vec<u64>,
    pub steps: Vec<u32>,
}

/// Builds the plan of these picks if they meet their kinds and the rule.
pub fn build<'p>(problem: &'p Problem, picks: &Tables) -> Result<Plan<'p>, Refusal> {
    if let Some(choose) = broken_kind(&problem.question().signature, problem.structure(), picks) {
        return Err(Refusal::new(cause::KIND_BROKEN, choose));
    }
    let mut plan = Plan {
        problem,
        state: vec![0; problem.words()],
        steps: Vec::with_capacity(problem.bound as usize),
    };
    problem.initial(&mut plan.state);
    plan.set_picks(picks);
    plan.act(problem.begin_proof);
    debug_assert!(holds(&plan.state, PROOF));
    for value in 0..1 << problem.every_tuples() {
        plan.round(value)?;
    }
    Ok(plan)
}

impl Plan<'_> {
    /// Proves the rule beside one value of the `every` line's relation, then counts on.
    fn round(&mut self, value: u32) -> Result<(), Refusal> {
        for node in self.problem.nodes.iter().rev() {
            self.prove(node);
        }
        if !holds(&self.state, self.problem.root()) {
            return Err(Refusal::new(cause::RULE_FALSE, 0));
        }
        self.act(self.problem.finish);
        let outs = value.trailing_ones();
        (0..outs).for_each(|row| self.mark(Action::MarkOut(row)));
        if outs < self.problem.every_tuples() {
            self.mark(Action::MarkIn(outs));
        }
        Ok(())
    }

    fn mark(&mut self, mark: Action) {
        let step = self.problem.number(&mark);
        step.into_iter().for_each(|step| self.act(step));
    }

    fn set_picks(&mut self, picks: &Tables) {
        for choose in 0..self.problem.question().signature.chosen().len() {
            for row in rows(picks.relation(choose)) {
                let set = Action::Set(Set { choose: choose as u32, row });
                let step = self.problem.number(&set);
                step.into_iter().for_each(|step| self.act(step));
            }
        }
    }

    /// Takes a step that is known to be possible.
    fn act(&mut self, step: u32) {
        let taken = self
            .problem
            .action(step)
            .is_some_and(|action| self.problem.take(action, &mut self.state));
        debug_assert!(taken);
        self.steps.push(step);
    }

    /// Proves every true atom of a node once, in row order; the parts' atoms
    /// are settled by then, so one look at them decides.
    fn prove(&mut self, node: &NodeAtoms) {
        let (parts, extent) = (&self.problem.parts[node.parts.clone()], node.extent());
        match node.shape {
            Shape::And => self.prove_rows(node, |state, values| {
                parts.iter().all(|part| holds(state, part.at(values))).then_some(0)
            }),
            Shape::Or => self.prove_rows(node, |state, values| {
                let place = parts.iter().position(|part| holds(state, part.at(values)));
                place.map(|place| place as u32)
            }),
            Shape::Exists => self.prove_rows(node, |state, values| {
                let atom = parts[0].along(values, node.depth);
                extent.position(|element| holds(state, atom(element)))
            }),
            Shape::Forall => self.prove_chains(node, &parts[0]),
        }
    }

    /// Each row by the first part or least element that makes it true, of which the place is found.
    fn prove_rows(&mut self, node: &NodeAtoms, witness: impl Fn(&[u64], &Values) -> Option<u32>) {
        let mut values = Values::default();
        for row in 0..node.rows {
            if let Some(place) = witness(&self.state, &values) {
                add(&mut self.state, node.first_atom + row);
                self.steps.push(node.first_action + row * node.fan + place);
            }
            advance(&mut values, node.free, self.problem.n);
        }
    }

    /// A `forall` is true up to z for every z before the first failure.
    fn prove_chains(&mut self, node: &NodeAtoms, part: &PartAtom) {
        let (mut values, extent) = (Values::default(), node.extent());
        for row in 0..node.rows {
            let (state, atom) = (&mut self.state[..], part.along(&values, node.depth));
            let failure = extent.position(|element| !holds(state, atom(element)));
            let proved = failure.unwrap_or(node.fan);
            let own = node.first_atom + row * node.width;
            (0..proved).for_each(|place| add(state, own + extent.nth(place)));
            let step = node.first_action + row * node.fan;
            self.steps.extend(step..step + proved);
            advance(&mut values, node.free, self.problem.n);
        }
    }
}

/// Moves to the next row's values: the innermost free variable runs fastest.
fn advance(values: &mut Values, free: Variables, n: u32) {
    for depth in (0..NESTING_LIMIT).rev().filter(|depth| free >> depth & 1 == 1) {
        values[depth] += 1;
        if values[depth] < n {
            return;
        }
        values[depth] = 0;
    }
}

/// The rows whose bits are set, in order.
pub fn rows(words: &[u64]) -> impl Iterator<Item = u32> + '_ {
    words.iter().enumerate().flat_map(|(index, &word)| {
        let mut left = word;
        std::iter::from_fn(move || {
            let bit = (left != 0).then(|| left.trailing_zeros())?;
            left &= left - 1;
            Some(64 * index as u32 + bit)
        })
    })
}

/// The first `choose`, from 0, whose picks break its kind.
pub(crate) fn broken_kind(
    signature: &Signature,
    structure: &Structure,
    picks: &Tables,
) -> Option<usize> {
    let (chosen, n) = (signature.chosen_relations(), structure.n as u32);
    (0..chosen.len()).find(|&choose| {
        let kind = chosen[choose].kind;
        // The places that no further pick may have: outside the types, or taken.
        let [mut firsts, mut seconds] =
            chosen[choose].sorts.map(|sort| !structure.extent(sort).bits());
        kind.is_function()
            && rows(picks.relation(choose)).any(|row| {
                let first = 1 << (row / n);
                let second = 1 << (row % n);
                let broken = firsts & first != 0 || seconds & second != 0;
                firsts |= first;
                seconds |= if kind.is_injective() { second } else { 0 };
                broken
            })
    })
}
