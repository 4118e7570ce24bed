//! The grounded STRIPS problem: every atom and every action has a number, and
//! both are worked out from the layout instead of being listed.

use crate::limits::Limits;
use crate::records::Kind;
use crate::sheets::{Question, Structure};
use crate::text::Refusal;
use crate::tree::{Literal, Node, Part, Shape, Tree, Variables, NESTING_LIMIT};
use crate::types::{Extent, Members};
use std::ops::Range;

pub const GUESS: u32 = 0;
pub const PROOF: u32 = 1;
pub const GOAL: u32 = 2;

/// One element per variable in range, by depth.
pub type Values = [u32; NESTING_LIMIT];

/// A set action: which `choose`, from 0, and the row of its tuple.
#[derive(Clone, Copy, Debug, PartialEq, Eq)]
pub struct Set {
    pub choose: u32,
    pub row: u32,
}

/// A node's action: its preorder number, the row of its free variables' values,
/// and the part, element or z that is chosen (0 for `and`).
#[derive(Clone, Copy, Debug, PartialEq, Eq)]
pub struct Prove {
    pub node: u32,
    pub row: u32,
    pub choice: u32,
}

/// What an action needs, adds and removes, by the numbers of the atoms.
#[derive(Clone, Debug, Default)]
pub struct Effects {
    pub needs: Vec<u32>,
    pub adds: Vec<u32>,
    pub removes: Vec<u32>,
}

#[derive(Clone, Copy, Debug, PartialEq, Eq)]
pub enum Action {
    Set(Set),
    BeginProof,
    Prove(Prove),
    ProveGoal,
    /// Ends a round, in the place of prove-goal where there is an `every` line.
    RoundEnd,
    /// Puts the tuple of this row into the relation of the `every` line, or takes it out.
    MarkIn(u32),
    MarkOut(u32),
}

/// Where a relation's atoms lie: tuples, not-tuples, free-domain, free-range; or tuples, not-tuples, marks.
#[derive(Clone, Copy, Debug)]
struct RelationAtoms<'c> {
    kind: Kind,
    first: u32,
    tuples: u32,
    /// First set action; only for a `choose`.
    sets: u32,
    /// What the places of a kind with types may be.
    places: Option<[Extent<'c>; 2]>,
}

impl RelationAtoms<'_> {
    /// The row of a set action, counted from the relation's first.
    fn set_row(&self, number: u32, n: u32) -> u32 {
        let Some([firsts, seconds]) = self.places else { return number };
        firsts.nth(number / seconds.count()) * n + seconds.nth(number % seconds.count())
    }

    /// The set action of a row, if there is one, counted from the relation's first.
    fn set_number(&self, row: u32, n: u32) -> Option<u32> {
        let Some([firsts, seconds]) = self.places else {
            return (row < self.tuples).then_some(row);
        };
        Some(firsts.place(row / n)? * seconds.count() + seconds.place(row % n)?)
    }

    fn tuple(&self, row: u32) -> u32 {
        self.first + row
    }

    fn not_tuple(&self, row: u32) -> u32 {
        self.first + self.tuples + row
    }

    fn free_domain(&self, element: u32) -> u32 {
        self.first + 2 * self.tuples + element
    }

    fn free_range(&self, element: u32, n: u32) -> u32 {
        self.free_domain(n) + element
    }

    fn mark(&self, row: u32) -> u32 {
        self.first + 2 * self.tuples + row
    }

    /// How many atoms there are in all.
    fn count(&self, n: u32) -> u32 {
        let free = u32::from(self.kind.is_function()) + u32::from(self.kind.is_injective());
        2 * self.tuples + free * n
    }
}

/// The atom of a part: linear in the values of the variables in range.
#[derive(Clone, Copy, Debug)]
pub struct PartAtom {
    first: u32,
    strides: Values,
}

impl PartAtom {
    #[inline]
    pub fn at(&self, values: &Values) -> u32 {
        let [a, b, c, d] = self.strides;
        self.first + a * values[0] + b * values[1] + c * values[2] + d * values[3]
    }

    /// Its atom for each element of one variable, whose value here is 0.
    #[inline]
    pub fn along(&self, values: &Values, depth: usize) -> impl Fn(u32) -> u32 {
        let (first, stride) = (self.at(values), self.strides[depth]);
        move |element| first + element * stride
    }
}

/// Divides by multiplying. With 2^32 / by rounded up this is exact for every
/// action number (below 2^22) and every divisor in use (at most 64).
#[derive(Clone, Copy, Debug)]
pub struct Divisor {
    by: u32,
    inverse: u64,
}

impl Divisor {
    fn new(by: u32) -> Self {
        Divisor { by, inverse: (1u64 << 32).div_ceil(u64::from(by)) }
    }

    /// Quotient and remainder.
    #[inline]
    fn split(self, number: u32) -> (u32, u32) {
        let quotient = ((u64::from(number) * self.inverse) >> 32) as u32;
        (quotient, number - quotient * self.by)
    }
}

/// Where a node's atoms and actions lie.
#[derive(Clone, Debug)]
pub struct NodeAtoms<'c> {
    pub shape: Shape,
    pub depth: usize,
    /// What a quantifier goes through if its variable has a type.
    members: Option<&'c Members>,
    pub free: Variables,
    pub rows: u32,
    /// Atoms per row: n for `forall`, one for the others.
    pub width: u32,
    /// Actions per row.
    pub fan: u32,
    by_fan: Divisor,
    pub first_atom: u32,
    pub first_action: u32,
    pub parts: Range<usize>,
}

impl<'c> NodeAtoms<'c> {
    /// What a quantifier goes through.
    #[inline]
    pub fn extent(&self) -> Extent<'c> {
        Extent::of(self.members, self.fan)
    }

    /// The atom that stands for the node in its first row: of a `forall` the one at the greatest element.
    fn whole(&self) -> u32 {
        match self.shape {
            Shape::Forall => self.first_atom + self.extent().greatest(),
            _ => self.first_atom,
        }
    }
}

#[derive(Clone, Debug)]
pub struct Problem<'c> {
    question: &'c Question<'c>,
    structure: &'c Structure,
    relations: Vec<RelationAtoms<'c>>,
    pub nodes: Vec<NodeAtoms<'c>>,
    pub parts: Vec<PartAtom>,
    pub n: u32,
    by_n: Divisor,
    pub atoms: u32,
    pub begin_proof: u32,
    /// The number of prove-goal, or of the round's end.
    pub finish: u32,
    pub bound: u32,
    /// Where the nodes' atoms end.
    node_end: u32,
}

impl<'c> Problem<'c> {
    /// Numbers the atoms and actions of a case, or refuses it as too large.
    pub fn new(
        question: &'c Question,
        structure: &'c Structure,
        limits: &Limits,
    ) -> Result<Self, Refusal> {
        let mut problem = Problem {
            question,
            structure,
            relations: Vec::with_capacity(question.signature.relations.len()),
            nodes: Vec::with_capacity(question.tree.nodes.len()),
            parts: Vec::with_capacity(question.tree.parts.len()),
            n: structure.n as u32,
            by_n: Divisor::new(structure.n as u32),
            atoms: GOAL + 1,
            begin_proof: 0,
            finish: 0,
            bound: 0,
            node_end: 0,
        };
        let picks = problem.lay_relations();
        let node_atoms = problem.lay_nodes(&question.tree);
        problem.lay_every();
        limits.admit(problem.atoms.into(), problem.actions().into())?;
        problem.bound = limits.bound(picks + 1, node_atoms + 1, problem.every_tuples().into())?;
        problem.lay_parts(&question.tree);
        Ok(problem)
    }

    pub fn actions(&self) -> u32 {
        self.finish + 1 + 2 * self.every_tuples()
    }

    /// Where the atoms of the `every` line's relation lie.
    fn every(&self) -> Option<&RelationAtoms<'c>> {
        self.question.signature.every().map(|number| &self.relations[number])
    }

    /// How many tuples that relation has; none without such a line.
    pub fn every_tuples(&self) -> u32 {
        self.every().map_or(0, |every| every.tuples)
    }

    /// How many words a state takes.
    pub fn words(&self) -> usize {
        self.atoms.div_ceil(64) as usize
    }

    /// Also counts how many picks there can be.
    fn lay_relations(&mut self) -> u64 {
        let (chosen, mut picks) = (self.question.signature.chosen(), 0);
        let relations = &self.question.signature.relations[..chosen.end];
        for (number, relation) in relations.iter().enumerate() {
            let tuples = self.n.pow(relation.arity() as u32);
            let typed = relation.sorts.iter().any(Option::is_some);
            let places = typed.then(|| relation.sorts.map(|sort| self.structure.extent(sort)));
            let (kind, first, sets) = (relation.kind, self.atoms, self.begin_proof);
            if chosen.contains(&number) {
                self.begin_proof += self.structure.sets(relation) as u32;
                picks += u64::from(if kind.is_function() { self.n } else { tuples });
            }
            self.relations.push(RelationAtoms { kind, first, tuples, sets, places });
            self.atoms += self.relations[number].count(self.n);
        }
        picks
    }

    /// Also counts the nodes' atoms.
    fn lay_nodes(&mut self, tree: &Tree) -> u64 {
        let (first, mut action) = (self.atoms, self.begin_proof + 1);
        for node in &tree.nodes {
            let rows = self.n.pow(node.free.count_ones());
            let members = self.structure.members(node.sort);
            let width = if node.shape == Shape::Forall { self.n } else { 1 };
            let fan = match node.shape {
                Shape::And => 1,
                Shape::Or => node.parts.len() as u32,
                Shape::Exists | Shape::Forall => Extent::of(members, self.n).count(),
            };
            let Node { shape, depth, free, parts, .. } = node.clone();
            let (first_atom, first_action) = (self.atoms, action);
            self.nodes.push(NodeAtoms {
                shape,
                depth,
                members,
                free,
                rows,
                width,
                fan,
                first_atom,
                first_action,
                parts,
                by_fan: Divisor::new(fan),
            });
            self.atoms += rows * width;
            action += rows * fan;
        }
        self.finish = action;
        self.node_end = self.atoms;
        u64::from(self.node_end - first)
    }

    /// The relation of an `every` line comes after the nodes.
    fn lay_every(&mut self) {
        let Some(number) = self.question.signature.every() else { return };
        let relation = &self.question.signature.relations[number];
        let tuples = self.n.pow(relation.arity() as u32);
        let (kind, first, sets) = (relation.kind, self.atoms, self.begin_proof);
        self.relations.push(RelationAtoms { kind, first, tuples, sets, places: None });
        self.atoms += 3 * tuples;
    }

    fn lay_parts(&mut self, tree: &Tree) {
        for part in &tree.parts {
            let atom = match part {
                Part::Literal(literal) => self.literal_atom(literal),
                Part::Node(node) => self.node_atom(*node),
            };
            self.parts.push(atom);
        }
    }

    fn literal_atom(&self, literal: &Literal) -> PartAtom {
        let relation = &self.relations[literal.relation];
        let first = if literal.positive { relation.tuple(0) } else { relation.not_tuple(0) };
        let mut strides = Values::default();
        let mut stride = 1;
        for &depth in literal.places[..literal.arity].iter().rev() {
            strides[depth] += stride;
            stride *= self.n;
        }
        PartAtom { first, strides }
    }

    /// A node as a part of another.
    fn node_atom(&self, node: usize) -> PartAtom {
        let node = &self.nodes[node];
        let mut strides = Values::default();
        let mut stride = node.width;
        for depth in (0..NESTING_LIMIT).rev().filter(|depth| node.free >> depth & 1 == 1) {
            strides[depth] = stride;
            stride *= self.n;
        }
        PartAtom { first: node.whole(), strides }
    }

    /// The root's atom, which prove-goal needs.
    pub fn root(&self) -> u32 {
        self.nodes[0].whole()
    }

    /// What an action number stands for.
    pub fn action(&self, number: u32) -> Option<Action> {
        if number < self.begin_proof {
            let chosen = &self.relations[self.question.signature.chosen()];
            let choose = chosen.partition_point(|relation| relation.sets <= number) - 1;
            let row = chosen[choose].set_row(number - chosen[choose].sets, self.n);
            return Some(Action::Set(Set { choose: choose as u32, row }));
        }
        if number == self.begin_proof {
            return Some(Action::BeginProof);
        }
        if number < self.finish {
            let node = self.nodes.partition_point(|node| node.first_action <= number) - 1;
            let NodeAtoms { first_action, by_fan, members, .. } = self.nodes[node];
            let (row, place) = by_fan.split(number - first_action);
            let choice = members.map_or(place, |members| members.nth(place));
            return Some(Action::Prove(Prove { node: node as u32, row, choice }));
        }
        self.last_action(number - self.finish)
    }

    /// What comes after the nodes' actions: the end, then all mark-in, then all mark-out.
    fn last_action(&self, place: u32) -> Option<Action> {
        let tuples = self.every_tuples();
        match place {
            0 if tuples == 0 => Some(Action::ProveGoal),
            0 => Some(Action::RoundEnd),
            _ if place <= tuples => Some(Action::MarkIn(place - 1)),
            _ if place <= 2 * tuples => Some(Action::MarkOut(place - 1 - tuples)),
            _ => None,
        }
    }

    /// The number of an action, if the problem has it.
    pub fn number(&self, action: &Action) -> Option<u32> {
        match action {
            Action::Set(Set { choose, row }) => {
                let chosen = &self.relations[self.question.signature.chosen()];
                let relation = chosen.get(*choose as usize)?;
                relation.set_number(*row, self.n).map(|number| relation.sets + number)
            }
            Action::BeginProof => Some(self.begin_proof),
            Action::Prove(Prove { node, row, choice }) => {
                let node = self.nodes.get(*node as usize)?;
                let place = match node.shape {
                    Shape::Exists | Shape::Forall => node.extent().place(*choice)?,
                    Shape::And | Shape::Or => *choice,
                };
                let there = *row < node.rows && place < node.fan;
                there.then(|| node.first_action + row * node.fan + place)
            }
            Action::ProveGoal => (self.every_tuples() == 0).then_some(self.finish),
            Action::RoundEnd => (self.every_tuples() > 0).then_some(self.finish),
            Action::MarkIn(row) => (*row < self.every_tuples()).then(|| self.finish + 1 + row),
            Action::MarkOut(row) => {
                let tuples = self.every_tuples();
                (*row < tuples).then(|| self.finish + 1 + tuples + row)
            }
        }
    }

    /// The values a row of a node gives its free variables.
    #[inline]
    fn values(&self, free: Variables, mut row: u32) -> Values {
        let mut values = Values::default();
        for depth in (0..NESTING_LIMIT).rev() {
            if free >> depth & 1 == 1 {
                (row, values[depth]) = self.by_n.split(row);
            }
        }
        values
    }

    /// Writes what is initially true; spare bits of the last word are 0.
    pub fn initial(&self, state: &mut [u64]) {
        let state = &mut state[..self.words()];
        state.fill(0);
        add(state, GUESS);
        let given = self.question.signature.chosen().start;
        for (number, relation) in self.relations[..given].iter().enumerate() {
            let bits = self.structure.tables.relation(number);
            write_bits(state, relation.first, relation.tuples, |word| bits[word]);
            write_bits(state, relation.not_tuple(0), relation.tuples, |word| !bits[word]);
        }
        for relation in &self.relations[self.question.signature.chosen()] {
            let end = relation.first + relation.count(self.n);
            let first = relation.not_tuple(0);
            write_bits(state, first, end - first, |_| u64::MAX);
        }
        if let Some(every) = self.every() {
            write_bits(state, every.not_tuple(0), every.tuples, |_| u64::MAX);
        }
    }

    /// Takes one action if all it needs holds; otherwise nothing changes.
    #[inline]
    pub fn take(&self, action: Action, state: &mut [u64]) -> bool {
        match action {
            Action::Set(set) => self.take_set(set, state),
            Action::BeginProof => {
                let may = holds(state, GUESS);
                if may {
                    remove(state, GUESS);
                    add(state, PROOF);
                }
                may
            }
            Action::Prove(prove) => self.take_prove(prove, state),
            Action::ProveGoal => {
                let may = holds(state, self.root());
                if may {
                    add(state, GOAL);
                }
                may
            }
            Action::RoundEnd => self.take_round_end(state),
            Action::MarkIn(row) => self.take_mark(row, true, state),
            Action::MarkOut(row) => self.take_mark(row, false, state),
        }
    }

    /// Nothing that was proved stays, and the first tuple is marked.
    #[inline(never)]
    fn take_round_end(&self, state: &mut [u64]) -> bool {
        let Some(every) = self.every() else { return false };
        let may = holds(state, self.root());
        if may {
            remove(state, PROOF);
            (self.nodes[0].first_atom..self.node_end).for_each(|atom| remove(state, atom));
            add(state, every.mark(0));
        }
        may
    }

    /// Counts on: a tuple that is out goes in and the proof returns, one that is in goes out and the mark moves on.
    #[inline(never)]
    fn take_mark(&self, row: u32, goes_in: bool, state: &mut [u64]) -> bool {
        let Some(every) = self.every() else { return false };
        let (tuple, not_tuple, mark) = (every.tuple(row), every.not_tuple(row), every.mark(row));
        let (before, after) = if goes_in { (not_tuple, tuple) } else { (tuple, not_tuple) };
        let may = holds(state, mark) && holds(state, before);
        if may {
            remove(state, mark);
            remove(state, before);
            add(state, after);
            match (goes_in, row + 1 < every.tuples) {
                (true, _) => add(state, PROOF),
                (false, true) => add(state, every.mark(row + 1)),
                (false, false) => add(state, GOAL),
            }
        }
        may
    }

    fn take_set(&self, Set { choose, row }: Set, state: &mut [u64]) -> bool {
        let relation = &self.relations[self.question.signature.chosen().start + choose as usize];
        let (first, second) = self.by_n.split(row);
        let domain = relation.free_domain(first);
        let range = relation.free_range(second, self.n);
        let (function, injective) = (relation.kind.is_function(), relation.kind.is_injective());
        let may = holds(state, GUESS)
            && holds(state, relation.not_tuple(row))
            && (!function || holds(state, domain))
            && (!injective || holds(state, range));
        if may {
            remove(state, relation.not_tuple(row));
            if function {
                remove(state, domain);
            }
            if injective {
                remove(state, range);
            }
            add(state, relation.tuple(row));
        }
        may
    }

    #[inline]
    fn take_prove(&self, Prove { node, row, choice }: Prove, state: &mut [u64]) -> bool {
        let node = &self.nodes[node as usize];
        let mut values = self.values(node.free, row);
        let parts = &self.parts[node.parts.clone()];
        let own = node.first_atom + row * node.width;
        let (may, atom) = match node.shape {
            Shape::And => (parts.iter().all(|part| holds(state, part.at(&values))), own),
            Shape::Or => (holds(state, parts[choice as usize].at(&values)), own),
            Shape::Exists => {
                values[node.depth] = choice;
                (holds(state, parts[0].at(&values)), own)
            }
            Shape::Forall => {
                values[node.depth] = choice;
                let before = node.extent().before(choice);
                let before = before.is_none_or(|before| holds(state, own + before));
                (before && holds(state, parts[0].at(&values)), own + choice)
            }
        };
        let may = may && holds(state, PROOF);
        if may {
            add(state, atom);
        }
        may
    }

    /// What an action of a case without an `every` line needs, adds and removes.
    pub fn effects(&self, action: Action, into: &mut Effects) {
        let Effects { needs, adds, removes } = into;
        needs.clear();
        adds.clear();
        removes.clear();
        match action {
            Action::Set(Set { choose, row }) => {
                let relation =
                    &self.relations[self.question.signature.chosen().start + choose as usize];
                let (first, second) = self.by_n.split(row);
                removes.push(relation.not_tuple(row));
                if relation.kind.is_function() {
                    removes.push(relation.free_domain(first));
                }
                if relation.kind.is_injective() {
                    removes.push(relation.free_range(second, self.n));
                }
                needs.push(GUESS);
                needs.extend(&*removes);
                adds.push(relation.tuple(row));
            }
            Action::BeginProof => {
                needs.push(GUESS);
                adds.push(PROOF);
                removes.push(GUESS);
            }
            Action::Prove(prove) => self.prove_effects(prove, needs, adds),
            Action::ProveGoal => {
                needs.push(self.root());
                adds.push(GOAL);
            }
            Action::RoundEnd | Action::MarkIn(_) | Action::MarkOut(_) => (),
        }
    }

    fn prove_effects(&self, prove: Prove, needs: &mut Vec<u32>, adds: &mut Vec<u32>) {
        let Prove { node, row, choice } = prove;
        let node = &self.nodes[node as usize];
        let mut values = self.values(node.free, row);
        let parts = &self.parts[node.parts.clone()];
        let own = node.first_atom + row * node.width;
        needs.push(PROOF);
        match node.shape {
            Shape::And => needs.extend(parts.iter().map(|part| part.at(&values))),
            Shape::Or => needs.push(parts[choice as usize].at(&values)),
            Shape::Exists | Shape::Forall => {
                values[node.depth] = choice;
                needs.push(parts[0].at(&values));
            }
        }
        if node.shape == Shape::Forall {
            needs.extend(node.extent().before(choice).map(|before| own + before));
            adds.push(own + choice);
        } else {
            adds.push(own);
        }
    }

    /// The tuple atoms of one `choose`: first and how many.
    pub fn chosen_tuples(&self, choose: usize) -> (u32, u32) {
        let relation = &self.relations[self.question.signature.chosen().start + choose];
        (relation.first, relation.tuples)
    }

    pub fn question(&self) -> &'c Question<'c> {
        self.question
    }

    pub fn structure(&self) -> &'c Structure {
        self.structure
    }
}

#[inline]
pub fn holds(state: &[u64], atom: u32) -> bool {
    state[atom as usize / 64] >> (atom % 64) & 1 == 1
}

#[inline]
pub fn add(state: &mut [u64], atom: u32) {
    state[atom as usize / 64] |= 1 << (atom % 64);
}

#[inline]
pub fn remove(state: &mut [u64], atom: u32) {
    state[atom as usize / 64] &= !(1 << (atom % 64));
}

/// Adds `count` bits from atom `first` on, a word of the source at a time.
fn write_bits(state: &mut [u64], first: u32, count: u32, source: impl Fn(usize) -> u64) {
    let (start, shift) = (first as usize / 64, first % 64);
    for index in 0..count.div_ceil(64) as usize {
        let left = count - 64 * index as u32;
        let word = source(index) & if left < 64 { (1 << left) - 1 } else { u64::MAX };
        state[start + index] |= word << shift;
        if shift > 0 && word >> (64 - shift) != 0 {
            state[start + index + 1] |= word >> (64 - shift);
        }
    }
}

/// Copies `count` bits from atom `first` on into words of their own.
pub fn read_bits(state: &[u64], first: u32, count: u32, words: &mut [u64]) {
    let (start, shift) = (first as usize / 64, first % 64);
    for (index, word) in words.iter_mut().enumerate() {
        let left = count - 64 * index as u32;
        *word = state[start + index] >> shift;
        if shift > 0 && left > 64 - shift {
            *word |= state[start + index + 1] << (64 - shift);
        }
        if left < 64 {
            *word &= (1 << left) - 1;
        }
    }
}
