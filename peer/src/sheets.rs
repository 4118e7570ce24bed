//! The four sheets: question, site, picks and steps.

use crate::formula::{is_relation_name, parse};
use crate::labels::{Element, Labels, Name};
use crate::limits::Limits;
use crate::records::{record, Choose, Kind, Record, Tuple};
use crate::text::{cause, limit, lines, Line, Refusal};
use crate::tree::{grow, Tree};
use crate::types::{Extent, Members, Sort};
use std::ops::Range;

const REL_LIMIT: usize = 8;
const TYPE_LIMIT: usize = 8;
const CHOOSE_LIMIT: usize = 4;

#[derive(Clone, Copy, Debug)]
pub struct Relation<'t> {
    pub name: &'t [u8],
    pub kind: Kind,
    /// What a function kind's first and second place may be.
    pub sorts: [Sort; 2],
}

impl<'t> Relation<'t> {
    /// One whose places may be any element.
    const fn new(name: &'t [u8], kind: Kind) -> Self {
        Relation { name, kind, sorts: [None; 2] }
    }

    pub fn arity(&self) -> usize {
        self.kind.arity()
    }
}

/// The five relations every site has, in the order of their numbers.
pub const BUILT_IN: [Relation<'static>; 5] = [
    Relation::new(b"EQ", Kind::Plain(2)),
    Relation::new(b"LT", Kind::Plain(2)),
    Relation::new(b"SUC", Kind::Plain(2)),
    Relation::new(b"ZERO", Kind::Plain(1)),
    Relation::new(b"MAX", Kind::Plain(1)),
];

/// All relations by number: built in, then `rel`, then `choose`, then `every`; and the types by theirs.
#[derive(Clone, Debug)]
pub struct Signature<'t> {
    pub relations: Vec<Relation<'t>>,
    pub types: Vec<&'t [u8]>,
    first_chosen: usize,
    /// Whether the last relation is that of an `every` line.
    has_every: bool,
}

impl<'t> Signature<'t> {
    fn new() -> Self {
        let (relations, types) = (BUILT_IN.to_vec(), Vec::new());
        Signature { relations, types, first_chosen: BUILT_IN.len(), has_every: false }
    }

    pub fn find(&self, name: &[u8]) -> Option<usize> {
        self.relations.iter().position(|relation| relation.name == name)
    }

    pub fn find_type(&self, name: &[u8]) -> Sort {
        self.types.iter().position(|&declared| declared == name).map(|number| number as u8)
    }

    /// Relation numbers of the `rel` lines.
    pub fn given(&self) -> Range<usize> {
        BUILT_IN.len()..self.first_chosen
    }

    /// Relation numbers of the `choose` lines.
    pub fn chosen(&self) -> Range<usize> {
        self.first_chosen..self.relations.len() - usize::from(self.has_every)
    }

    /// The number of the relation of the `every` line.
    pub fn every(&self) -> Option<usize> {
        self.has_every.then(|| self.relations.len() - 1)
    }

    pub fn chosen_relations(&self) -> &[Relation<'t>] {
        &self.relations[self.chosen()]
    }

    /// Relation numbers of the kinds that must be total.
    pub fn totals(&self) -> impl Iterator<Item = usize> + '_ {
        self.chosen().filter(|&number| self.relations[number].kind.is_total())
    }

    fn takes_rel(&self) -> bool {
        self.chosen().is_empty() && self.types.is_empty() && self.given().len() < REL_LIMIT
    }

    fn takes_type(&self) -> bool {
        self.chosen().is_empty() && self.types.len() < TYPE_LIMIT
    }

    fn takes_choose(&self) -> bool {
        self.chosen().len() < CHOOSE_LIMIT && !self.has_every
    }

    fn takes_every(&self) -> bool {
        !self.chosen().is_empty() && !self.has_every
    }

    fn admit_name(&self, line: &Line, name: &[u8]) -> Result<(), Refusal> {
        if !is_relation_name(name) || self.find(name).is_some() {
            return Err(line.refuse(cause::DECLARED_NAME));
        }
        Ok(())
    }

    fn declare_rel(&mut self, line: &Line, name: &'t [u8], arity: usize) -> Result<(), Refusal> {
        self.admit_name(line, name)?;
        self.relations.push(Relation::new(name, Kind::Plain(arity)));
        self.first_chosen += 1;
        Ok(())
    }

    fn declare_choose(&mut self, line: &Line, choose: &Choose<'t>) -> Result<(), Refusal> {
        self.admit_name(line, choose.name)?;
        let mut relation = Relation::new(choose.name, choose.kind);
        if let Some(types) = choose.types {
            relation.sorts = types.map(|name| self.find_type(name));
            if relation.sorts.contains(&None) {
                return Err(line.refuse(cause::TYPE));
            }
        }
        self.relations.push(relation);
        Ok(())
    }

    fn declare_every(&mut self, line: &Line, name: &'t [u8], arity: usize) -> Result<(), Refusal> {
        self.admit_name(line, name)?;
        self.relations.push(Relation::new(name, Kind::Plain(arity)));
        self.has_every = true;
        Ok(())
    }

    /// Only another type can have taken the name.
    fn declare_type(&mut self, line: &Line, name: &'t [u8]) -> Result<(), Refusal> {
        if !is_relation_name(name) {
            return Err(line.refuse(cause::DECLARED_NAME));
        }
        if self.find_type(name).is_some() {
            return Err(line.refuse(cause::TYPE));
        }
        self.types.push(name);
        Ok(())
    }
}

#[derive(Clone, Debug)]
pub struct Question<'t> {
    pub signature: Signature<'t>,
    /// The formula as a part of the question's own bytes.
    pub rule: &'t [u8],
    pub tree: Tree,
}

pub fn question(text: &[u8]) -> Result<Question<'_>, Refusal> {
    limit(text)?;
    let mut signature = Signature::new();
    let mut rule = None;
    for line in lines(text) {
        match (record(&line)?, &rule) {
            (Record::Rel { name, arity }, None) if signature.takes_rel() => {
                signature.declare_rel(&line, name, arity)?;
            }
            (Record::Type { name }, None) if signature.takes_type() => {
                signature.declare_type(&line, name)?;
            }
            (Record::Choose(choose), None) if signature.takes_choose() => {
                signature.declare_choose(&line, &choose)?;
            }
            (Record::Every { name, arity }, None) if signature.takes_every() => {
                signature.declare_every(&line, name, arity)?;
            }
            (Record::Rule { formula }, None) if !signature.chosen().is_empty() => {
                let tree = rule_tree(formula, &signature).map_err(|number| line.refuse(number))?;
                rule = Some((formula, tree));
            }
            _ => return Err(line.refuse(cause::RECORD_ORDER)),
        }
    }
    let (rule, tree) = rule.ok_or(Refusal::new(cause::RECORD_ORDER, text.len()))?;
    Ok(Question { signature, rule, tree })
}

fn rule_tree(text: &[u8], signature: &Signature) -> Result<Tree, u32> {
    grow(&parse(text).ok_or(cause::FORMULA_FORM)?, signature)
}

/// Tuples as bits in row order, each relation from a new word.
#[derive(Clone, Debug, Default)]
pub struct Tables {
    /// First word of each relation, and at last the number of words.
    starts: Vec<usize>,
    pub words: Vec<u64>,
}

impl Tables {
    pub fn new(relations: &[Relation], n: usize) -> Self {
        let mut tables = Tables { starts: vec![0], words: Vec::new() };
        for relation in relations {
            let words = n.pow(relation.arity() as u32).div_ceil(64);
            tables.words.resize(tables.words.len() + words, 0);
            tables.starts.push(tables.words.len());
        }
        tables
    }

    pub fn relation(&self, index: usize) -> &[u64] {
        &self.words[self.starts[index]..self.starts[index + 1]]
    }

    /// Adds a tuple; false if it was there before.
    pub(crate) fn insert(&mut self, index: usize, row: usize) -> bool {
        let word = &mut self.words[self.starts[index] + row / 64];
        let fresh = *word >> (row % 64) & 1 == 0;
        *word |= 1 << (row % 64);
        fresh
    }

    pub(crate) fn remove(&mut self, index: usize, row: usize) {
        self.words[self.starts[index] + row / 64] &= !(1 << (row % 64));
    }
}

/// A site: how many elements, what they are called, the members of each type, and the tuples of every static relation.
#[derive(Clone, Debug)]
pub struct Structure {
    pub n: usize,
    pub labels: Labels,
    pub members: Vec<Members>,
    pub tables: Tables,
}

impl Structure {
    fn label(&mut self, line: &Line, element: Element, name: Name) -> Result<(), Refusal> {
        // A name in the element's field is that element's label already, or no label at all.
        let Element::Number(element) = element else {
            return Err(line.refuse(cause::LABEL));
        };
        if element as usize >= self.n {
            return Err(line.refuse(cause::ELEMENT_RANGE));
        }
        if !self.labels.give(element, name) {
            return Err(line.refuse(cause::LABEL));
        }
        Ok(())
    }

    fn member(&mut self, line: &Line, sort: Sort, element: Element) -> Result<(), Refusal> {
        let sort = sort.ok_or(line.refuse(cause::TYPE))?;
        if self.is_outside(element) {
            return Err(line.refuse(cause::ELEMENT_RANGE));
        }
        let element = self.find(line, element)?;
        if !self.members[usize::from(sort)].insert(element) {
            return Err(line.refuse(cause::REPEATED));
        }
        Ok(())
    }

    fn is_outside(&self, element: Element) -> bool {
        matches!(element, Element::Number(number) if number as usize >= self.n)
    }

    /// The number of an element, which its name may stand for.
    fn find(&self, line: &Line, element: Element) -> Result<u32, Refusal> {
        match element {
            Element::Number(number) => Ok(number),
            Element::Name(name) => self.labels.find(name).ok_or(line.refuse(cause::LABEL)),
        }
    }

    /// What a variable of this sort goes through.
    pub fn extent(&self, sort: Sort) -> Extent<'_> {
        Extent::of(self.members(sort), self.n as u32)
    }

    /// How many set actions a `choose` has: one for each tuple that may be picked.
    pub fn sets(&self, relation: &Relation) -> usize {
        let [first, second] = relation.sorts.map(|sort| self.extent(sort).count() as usize);
        match relation.kind {
            Kind::Plain(arity) => self.n.pow(arity as u32),
            _ => first * second,
        }
    }

    /// The members of a sort that is not all elements.
    pub fn members(&self, sort: Sort) -> Option<&Members> {
        sort.map(|sort| &self.members[usize::from(sort)])
    }
}

/// The lines of a site after its size come in this order.
#[derive(Clone, Copy, Debug, PartialEq, Eq, PartialOrd, Ord)]
enum Stage {
    Labels,
    Members,
    Facts,
}

pub fn site(text: &[u8], signature: &Signature, limits: &Limits) -> Result<Structure, Refusal> {
    limit(text)?;
    let fixed = &signature.relations[..signature.first_chosen];
    let (mut structure, mut stage) = (None, Stage::Labels);
    for line in lines(text) {
        match (record(&line)?, &mut structure) {
            (Record::Size { n }, None) => {
                if !(1..=limits.elements).contains(&n) {
                    return Err(line.refuse(cause::ELEMENT_RANGE));
                }
                let members = vec![Members::default(); signature.types.len()];
                structure = Some(bare_structure(fixed, n as usize, members));
            }
            (Record::Label { element, name }, Some(structure)) if stage == Stage::Labels => {
                structure.label(&line, element, name)?;
            }
            (Record::Member { of, element }, Some(structure)) if stage <= Stage::Members => {
                stage = Stage::Members;
                structure.member(&line, signature.find_type(of), element)?;
            }
            (Record::Fact { name, tuple }, Some(structure)) => {
                stage = Stage::Facts;
                let given = &fixed[BUILT_IN.len()..];
                let (index, row) = place(&line, given, name, &tuple, structure)?;
                if !structure.tables.insert(BUILT_IN.len() + index, row) {
                    return Err(line.refuse(cause::REPEATED));
                }
            }
            _ => return Err(line.refuse(cause::RECORD_ORDER)),
        }
    }
    let memberless = |site: &Structure| site.members.iter().any(Members::is_empty);
    if structure.as_ref().is_some_and(memberless) {
        return Err(Refusal::new(cause::TYPE, 0));
    }
    structure.ok_or(Refusal::new(cause::RECORD_ORDER, text.len()))
}

/// The built-in tuples over n elements, and no facts yet.
fn bare_structure(fixed: &[Relation], n: usize, members: Vec<Members>) -> Structure {
    let mut tables = Tables::new(fixed, n);
    for first in 0..n {
        tables.insert(0, first * n + first);
        for second in first + 1..n {
            tables.insert(1, first * n + second);
        }
        if first + 1 < n {
            tables.insert(2, first * n + first + 1);
        }
    }
    tables.insert(3, 0);
    tables.insert(4, n - 1);
    Structure { n, labels: Labels::default(), members, tables }
}

/// Finds a tuple's relation among those its record may name, and its row.
fn place(
    line: &Line,
    relations: &[Relation],
    name: &[u8],
    tuple: &Tuple,
    structure: &Structure,
) -> Result<(usize, usize), Refusal> {
    let elements = tuple.elements();
    let index = relations
        .iter()
        .position(|relation| relation.name == name)
        .filter(|&index| relations[index].arity() == elements.len())
        .ok_or(line.refuse(cause::RELATION_USE))?;
    if elements.iter().any(|&element| structure.is_outside(element)) {
        return Err(line.refuse(cause::ELEMENT_RANGE));
    }
    let mut row = 0;
    for &element in elements {
        row = row * structure.n + structure.find(line, element)? as usize;
    }
    Ok((index, row))
}

pub fn picks(text: &[u8], signature: &Signature, structure: &Structure) -> Result<Tables, Refusal> {
    limit(text)?;
    let chosen = signature.chosen_relations();
    let mut tables = Tables::new(chosen, structure.n);
    for line in lines(text) {
        let Record::Pick { name, tuple } = record(&line)? else {
            return Err(line.refuse(cause::RECORD_ORDER));
        };
        let (index, row) = place(&line, chosen, name, &tuple, structure)?;
        if !tables.insert(index, row) {
            return Err(line.refuse(cause::REPEATED));
        }
    }
    Ok(tables)
}

pub fn steps(text: &[u8]) -> Result<Vec<u32>, Refusal> {
    limit(text)?;
    let mut steps = Vec::with_capacity(text.len() / 7);
    for line in lines(text) {
        let Record::Step { action } = record(&line)? else {
            return Err(line.refuse(cause::RECORD_ORDER));
        };
        steps.push(action);
    }
    Ok(steps)
}

/// Picks lent as bits, already long enough: only spare bits can be wrong.
pub fn lent_picks(lent: &[u64], signature: &Signature, n: usize) -> Result<Tables, Refusal> {
    let chosen = signature.chosen_relations();
    let mut tables = Tables::new(chosen, n);
    let needed = tables.words.len();
    tables.words.copy_from_slice(&lent[..needed]);
    for (index, relation) in chosen.iter().enumerate() {
        let used = n.pow(relation.arity() as u32) % 64;
        let last = tables.starts[index + 1] - 1;
        if used > 0 && tables.words[last] >> used != 0 {
            return Err(Refusal::new(cause::REPEATED, last));
        }
    }
    Ok(tables)
}

/// How many words the picks of a case take.
pub fn pick_words(signature: &Signature, n: usize) -> usize {
    let tuples = |relation: &Relation| n.pow(relation.arity() as u32);
    signature.chosen_relations().iter().map(|relation| tuples(relation).div_ceil(64)).sum()
}
