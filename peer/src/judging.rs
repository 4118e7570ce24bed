//! Yes or no: whether the rule is true of picks. Every search is left as soon as
//! it is decided, and nothing is numbered or built: a literal is looked up among
//! the site's tuples or among the picks.

use crate::cases::{case, room};
use crate::limits::USUAL;
use crate::measures::within_limits;
use crate::plans::broken_kind;
use crate::sheets::{self, pick_words, Question, Structure, Tables};
use crate::text::{cause, Refusal, Reply};
use crate::tree::{Literal, Node, Part, Shape, Tree, NESTING_LIMIT};
use std::ops::Range;

/// Judges a sheet of picks.
pub fn judge_text(question: &[u8], site: &[u8], picks: &[u8]) -> Reply {
    judge_sheet(question, site, picks).into()
}

/// Judges lent picks.
pub fn judge(question: &[u8], site: &[u8], picks: &[u64]) -> Reply {
    judge_lent(question, site, picks).into()
}

fn judge_sheet(question: &[u8], site: &[u8], picks: &[u8]) -> Result<usize, Refusal> {
    let (question, structure) = case(question, site, &USUAL)?;
    let picks = sheets::picks(picks, &question.signature, &structure)?;
    within_limits(&question, &structure)?;
    verdict(&question, &structure, &picks)
}

fn judge_lent(question: &[u8], site: &[u8], picks: &[u64]) -> Result<usize, Refusal> {
    let (question, structure) = case(question, site, &USUAL)?;
    within_limits(&question, &structure)?;
    room(picks.len(), pick_words(&question.signature, structure.n))?;
    let picks = sheets::lent_picks(picks, &question.signature, structure.n)?;
    verdict(&question, &structure, &picks)
}

/// The kinds first, then the rule.
fn verdict(question: &Question, structure: &Structure, picks: &Tables) -> Result<usize, Refusal> {
    if let Some(choose) = broken_kind(&question.signature, structure, picks) {
        return Err(Refusal::new(cause::KIND_BROKEN, choose));
    }
    let every = question.signature.every().map(|number| question.signature.relations[number]);
    let tuples = every.map_or(0, |every| structure.n.pow(every.arity() as u32));
    let holds = |value: usize| {
        let (tree, n, chosen) = (&question.tree, structure.n, question.signature.chosen());
        Search { tree, n, structure, picks, sure: picks, chosen, value }
            .node(0, &mut [0; NESTING_LIMIT])
    };
    if !(0..1 << tuples).all(holds) {
        return Err(Refusal::new(cause::RULE_FALSE, 0));
    }
    Ok(0)
}

/// The values of the variables in range, by depth.
type Values = [usize; NESTING_LIMIT];

/// A rule's truth by picks; where some are open, by those that may be picked and
/// those that are.
pub(crate) struct Search<'c> {
    pub(crate) tree: &'c Tree,
    pub(crate) n: usize,
    pub(crate) structure: &'c Structure,
    /// For a tuple that is asked for.
    pub(crate) picks: &'c Tables,
    /// For one that must not be there.
    pub(crate) sure: &'c Tables,
    /// The numbers of the chosen relations.
    pub(crate) chosen: Range<usize>,
    /// The tuples of the `every` line's relation, a bit for each.
    pub(crate) value: usize,
}

impl Search<'_> {
    pub(crate) fn node(&self, number: usize, values: &mut Values) -> bool {
        let node = &self.tree.nodes[number];
        let parts = &self.tree.parts[node.parts.clone()];
        let mut at = |element| {
            values[node.depth] = element;
            self.part(&parts[0], values)
        };
        match node.shape {
            Shape::And => parts.iter().all(|part| self.part(part, values)),
            Shape::Or => parts.iter().any(|part| self.part(part, values)),
            _ if node.sort.is_some() => self.typed(node, &parts[0], values),
            Shape::Exists => (0..self.tries(node, &parts[0])).any(&mut at),
            Shape::Forall => (0..self.tries(node, &parts[0])).all(&mut at),
        }
    }

    /// A quantifier that goes through members; apart, so that the others' loops stay small.
    #[inline(never)]
    fn typed(&self, node: &Node, part: &Part, values: &mut Values) -> bool {
        let extent = self.structure.extent(node.sort);
        let tries = extent.count().min(self.tries(node, part) as u32);
        let mut at = |place| {
            values[node.depth] = extent.nth(place) as usize;
            self.part(part, values)
        };
        match node.shape {
            Shape::Exists => (0..tries).any(&mut at),
            _ => (0..tries).all(&mut at),
        }
    }

    fn part(&self, part: &Part, values: &mut Values) -> bool {
        match part {
            Part::Literal(literal) => self.literal(literal, values),
            Part::Node(number) => self.node(*number, values),
        }
    }

    /// How many elements a quantifier has to try at the most: one stands for all
    /// where its variable is not used.
    fn tries(&self, node: &Node, part: &Part) -> usize {
        let used = match part {
            Part::Literal(literal) => literal.variables(),
            Part::Node(number) => self.tree.nodes[*number].free,
        };
        if used >> node.depth & 1 == 1 {
            self.n
        } else {
            1
        }
    }

    fn literal(&self, literal: &Literal, values: &Values) -> bool {
        let places = &literal.places[..literal.arity];
        let row = places.iter().fold(0, |row, &depth| row * self.n + values[depth]);
        if literal.relation == self.chosen.end {
            return (self.value >> row & 1 == 1) == literal.positive;
        }
        let words = match literal.relation.checked_sub(self.chosen.start) {
            Some(choose) if literal.positive => self.picks.relation(choose),
            Some(choose) => self.sure.relation(choose),
            None => self.structure.tables.relation(literal.relation),
        };
        (words[row / 64] >> (row % 64) & 1 == 1) == literal.positive
    }
}
