//! What a case measures: its tally, over the limits or not, and how far one
//! pick more or less can move the number of steps that are built.

use crate::cases::{case, room};
use crate::ground::Problem;
use crate::limits::USUAL;
use crate::sheets::{Question, Relation, Structure};
use crate::text::{cause, Refusal, Reply};
use crate::tree::{Part, Shape, Tree};

/// How many nodes, atoms and actions there are.
#[derive(Clone, Copy, Debug, PartialEq, Eq)]
pub struct Tally {
    pub nodes: u64,
    pub atoms: u64,
    pub actions: u64,
}

/// Counts in one walk of the tree; no limit is asked.
pub fn tally(question: &[u8], site: &[u8]) -> Result<Tally, Refusal> {
    let (question, structure) = case(question, site, &USUAL)?;
    Ok(tally_of(&question, &structure))
}

/// Refuses a case that has too many atoms or actions.
pub(crate) fn within_limits(question: &Question, structure: &Structure) -> Result<(), Refusal> {
    let Tally { atoms, actions, .. } = tally_of(question, structure);
    USUAL.admit(atoms, actions)?;
    let (signature, n) = (&question.signature, structure.n as u64);
    let Some(every) = signature.every() else { return Ok(()) };
    let tuples = |relation: &Relation| n.pow(relation.arity() as u32);
    let most = |relation: &Relation| if relation.kind.is_function() { n } else { tuples(relation) };
    let picks: u64 = signature.chosen_relations().iter().map(most).sum();
    let mut nodes = Tally { nodes: 0, atoms: 0, actions: 0 };
    visit(&question.tree, 0, structure, &mut nodes);
    USUAL.bound(picks + 1, nodes.atoms + 1, tuples(&signature.relations[every])).map(|_| ())
}

/// For the calls that take no `every` line.
pub(crate) fn without_every(question: &Question) -> Result<(), Refusal> {
    match question.signature.every() {
        Some(_) => Err(Refusal::new(cause::EVERY, 0)),
        None => Ok(()),
    }
}

fn tally_of(question: &Question, structure: &Structure) -> Tally {
    let n = structure.n as u64;
    let mut tally = Tally { nodes: 0, atoms: 3, actions: 2 };
    for (number, relation) in question.signature.relations.iter().enumerate() {
        let tuples = n.pow(relation.arity() as u32);
        if question.signature.every() == Some(number) {
            tally.atoms += 3 * tuples;
            tally.actions += 2 * tuples;
            continue;
        }
        let places =
            u64::from(relation.kind.is_function()) + u64::from(relation.kind.is_injective());
        tally.atoms += 2 * tuples + places * n;
        if question.signature.chosen().contains(&number) {
            tally.actions += structure.sets(relation) as u64;
        }
    }
    if !question.tree.nodes.is_empty() {
        visit(&question.tree, 0, structure, &mut tally);
    }
    tally
}

fn visit(tree: &Tree, number: usize, structure: &Structure, tally: &mut Tally) {
    let node = &tree.nodes[number];
    let n = structure.n as u64;
    let rows = n.pow(node.free.count_ones());
    let tried = u64::from(structure.extent(node.sort).count());
    let (atoms, actions) = match node.shape {
        Shape::Forall => (n, tried),
        Shape::Exists => (1, tried),
        Shape::And => (1, 1),
        Shape::Or => (1, node.parts.len() as u64),
    };
    tally.nodes += 1;
    tally.atoms += rows * atoms;
    tally.actions += rows * actions;
    for part in &tree.parts[node.parts.clone()] {
        if let Part::Node(below) = part {
            visit(tree, *below, structure, tally);
        }
    }
}

/// For each `choose`, 1 and the atoms of every node that has a literal of it
/// somewhere below.
pub fn allowances(question: &[u8], site: &[u8], out: &mut [u64]) -> Reply {
    allowances_with(question, site, out).into()
}

fn allowances_with(question: &[u8], site: &[u8], out: &mut [u64]) -> Result<usize, Refusal> {
    let (question, structure) = case(question, site, &USUAL)?;
    let problem = Problem::new(&question, &structure, &USUAL)?;
    without_every(&question)?;
    let chosen = question.signature.chosen();
    room(out.len(), chosen.len())?;
    for (entry, relation) in out.iter_mut().zip(chosen) {
        let mut moved = 1;
        for (number, node) in problem.nodes.iter().enumerate() {
            if mentions(&question.tree, number, relation) {
                moved += u64::from(node.rows) * u64::from(node.width);
            }
        }
        *entry = moved;
    }
    Ok(0)
}

fn mentions(tree: &Tree, number: usize, relation: usize) -> bool {
    tree.parts[tree.nodes[number].parts.clone()].iter().any(|part| match part {
        Part::Literal(literal) => literal.relation == relation,
        Part::Node(below) => mentions(tree, *below, relation),
    })
}
