//! Finding picks: the least that are of the declared kinds and make the rule
//! true, cells read as a binary number with the first the most significant. One
//! cell after another is decided, out before in; what is still open may be picked
//! where a tuple is asked for, and need not be where its opposite is. And whether
//! there are any, for rules that only ever want more.

use crate::cases::{case, room};
use crate::judging::Search;
use crate::limits::USUAL;
use crate::measures::{within_limits, without_every};
use crate::plans::broken_kind;
use crate::sheets::{pick_words, Question, Structure, Tables};
use crate::text::{cause, Refusal, Reply};
use crate::tree::{Part, NESTING_LIMIT};

/// More cells are not searched.
const CELL_LIMIT: usize = 20;

/// Writes the least picks.
pub fn find(question: &[u8], site: &[u8], picks: &mut [u64]) -> Reply {
    find_with(question, site, picks).into()
}

fn find_with(question: &[u8], site: &[u8], picks: &mut [u64]) -> Result<usize, Refusal> {
    let (question, structure) = case(question, site, &USUAL)?;
    within_limits(&question, &structure)?;
    without_every(&question)?;
    room(picks.len(), pick_words(&question.signature, structure.n))?;
    let cells = cells(&question, &structure)?;
    let chosen = question.signature.chosen_relations();
    let mut sure = Tables::new(chosen, structure.n);
    let mut open = sure.clone();
    cells.iter().for_each(|&[choose, row]| {
        open.insert(choose, row);
    });
    let mut finder = Finder { question: &question, structure: &structure, cells, open, sure };
    if !finder.decide(0) {
        return Err(Refusal::new(cause::NO_PICKS, 0));
    }
    sure = finder.sure;
    picks[..sure.words.len()].copy_from_slice(&sure.words);
    Ok(0)
}

/// Every tuple of every `choose`, by its relation's index and its row.
fn cells(question: &Question, structure: &Structure) -> Result<Vec<[usize; 2]>, Refusal> {
    let counts = question.signature.chosen_relations().iter();
    let counts: Vec<usize> =
        counts.map(|relation| structure.n.pow(relation.arity() as u32)).collect();
    if counts.iter().sum::<usize>() > CELL_LIMIT {
        return Err(Refusal::new(cause::TOO_MANY_CELLS, 0));
    }
    let rows = counts.iter().enumerate();
    Ok(rows.flat_map(|(choose, &count)| (0..count).map(move |row| [choose, row])).collect())
}

struct Finder<'c> {
    question: &'c Question<'c>,
    structure: &'c Structure,
    cells: Vec<[usize; 2]>,
    /// What may be picked still, and what is.
    open: Tables,
    sure: Tables,
}

impl Finder<'_> {
    /// Decides the cells from this one on; false where no choice will do.
    fn decide(&mut self, cell: usize) -> bool {
        if !self.may_hold() {
            return false;
        }
        let Some(&[choose, row]) = self.cells.get(cell) else { return true };
        self.open.remove(choose, row);
        if self.decide(cell + 1) {
            return true;
        }
        self.open.insert(choose, row);
        self.sure.insert(choose, row);
        if self.decide(cell + 1) {
            return true;
        }
        self.sure.remove(choose, row);
        false
    }

    fn may_hold(&self) -> bool {
        let search = Search {
            tree: &self.question.tree,
            n: self.structure.n,
            structure: self.structure,
            picks: &self.open,
            sure: &self.sure,
            chosen: self.question.signature.chosen(),
            value: 0,
        };
        broken_kind(&self.question.signature, self.structure, &self.sure).is_none()
            && search.node(0, &mut [0; NESTING_LIMIT])
    }
}

/// Whether some picks make the rule true, where each chosen relation is plain and
/// none is negated in the tree: all tuples picked are as good as any.
pub fn monotone(question: &[u8], site: &[u8]) -> Reply {
    monotone_with(question, site).into()
}

fn monotone_with(question: &[u8], site: &[u8]) -> Result<usize, Refusal> {
    let (question, structure) = case(question, site, &USUAL)?;
    within_limits(&question, &structure)?;
    let chosen = question.signature.chosen_relations();
    let first = question.signature.chosen().start;
    let negated = |part: &Part| matches!(part, Part::Literal(literal) if literal.relation >= first && !literal.positive);
    if question.signature.every().is_some()
        || chosen.iter().any(|relation| relation.kind.is_function())
        || question.tree.parts.iter().any(negated)
    {
        return Err(Refusal::new(cause::NOT_MONOTONE, 0));
    }
    let mut all = Tables::new(chosen, structure.n);
    all.words.fill(u64::MAX);
    let search = Search {
        tree: &question.tree,
        n: structure.n,
        structure: &structure,
        picks: &all,
        sure: &all,
        chosen: question.signature.chosen(),
        value: 0,
    };
    if !search.node(0, &mut [0; NESTING_LIMIT]) {
        return Err(Refusal::new(cause::NO_PICKS, 0));
    }
    Ok(0)
}
