//! From the written rule to the tree that is proved: negation only at
//! literals, one variable per quantifier, totality of Fun and Inj added.

use crate::formula::{Form, Formula};
use crate::sheets::Signature;
use crate::text::cause;
use crate::types::Sort;
use std::ops::Range;

pub const FORM_LIMIT: usize = 64;
/// How many quantifiers nest, and so how many variables can be in range.
pub const NESTING_LIMIT: usize = 4;

#[derive(Clone, Copy, Debug, PartialEq, Eq)]
pub enum Shape {
    And,
    Or,
    Exists,
    Forall,
}

/// A relation, or its negation, of variables named by their depth: the number
/// of quantifiers around the one that binds them.
#[derive(Clone, Copy, Debug, PartialEq, Eq)]
pub struct Literal {
    pub relation: usize,
    pub positive: bool,
    pub places: [usize; 3],
    pub arity: usize,
}

#[derive(Clone, Copy, Debug, PartialEq, Eq)]
pub enum Part {
    Literal(Literal),
    /// The preorder number of a node.
    Node(usize),
}

/// Variables by depth, one bit each.
pub type Variables = u8;

#[derive(Clone, Debug)]
pub struct Node {
    pub shape: Shape,
    /// The depth of the variable a quantifier binds, and what that ranges over.
    pub depth: usize,
    pub sort: Sort,
    /// The variables that occur free in it.
    pub free: Variables,
    pub parts: Range<usize>,
}

/// Nodes in preorder, the root first; literals stand only among the parts.
#[derive(Clone, Debug, Default)]
pub struct Tree {
    pub nodes: Vec<Node>,
    pub parts: Vec<Part>,
}

/// Makes the tree of a written rule, or says by which number it is refused.
/// Each number is tried on the whole formula before the next.
pub fn grow(formula: &Formula, signature: &Signature) -> Result<Tree, u32> {
    let totals = signature.totals().count();
    let joined = if totals > 0 { 3 * totals + 1 } else { 0 };
    if formula.count() + joined > FORM_LIMIT || formula.nesting() > NESTING_LIMIT {
        return Err(cause::FORMULA_SIZE);
    }
    if !formula.forms().all(|form| relation_fits(form, signature)) {
        return Err(cause::RELATION_USE);
    }
    let (scope, tree) = (Vec::new(), Tree::default());
    let mut grower = Grower { formula, signature, scope, tree, undeclared: false };
    grower.root(totals).ok_or(cause::VARIABLE_SCOPE)?;
    if grower.undeclared {
        return Err(cause::TYPE);
    }
    Ok(grower.tree)
}

fn relation_fits(form: &Form, signature: &Signature) -> bool {
    let Form::Literal { name, variables } = form else {
        return true;
    };
    signature.find(name).is_some_and(|found| signature.relations[found].arity() == variables.len())
}

struct Grower<'a, 't> {
    formula: &'a Formula<'t>,
    signature: &'a Signature<'t>,
    /// Variables in range, outermost first.
    scope: Vec<&'t [u8]>,
    tree: Tree,
    /// Whether a type was met that no line declares.
    undeclared: bool,
}

impl Grower<'_, '_> {
    /// With total kinds the rule and each totality are parts of one `and`.
    fn root(&mut self, totals: usize) -> Option<()> {
        if totals == 0 {
            self.part(0, true)?;
            return Some(());
        }
        let node = self.begin(Shape::And, totals + 1);
        let rule = self.part(0, true)?;
        self.place(node, 0, rule);
        for (index, relation) in self.signature.totals().enumerate() {
            let total = self.totality(relation);
            self.place(node, index + 1, total);
        }
        self.finish(node);
        Some(())
    }

    /// "For all a some b with F(a,b)", each of its place's type.
    fn totality(&mut self, relation: usize) -> Part {
        let forall = self.begin(Shape::Forall, 1);
        let exists = self.begin(Shape::Exists, 1);
        self.tree.nodes[exists].depth = 1;
        let [first, second] = self.signature.relations[relation].sorts;
        self.tree.nodes[forall].sort = first;
        self.tree.nodes[exists].sort = second;
        let literal = Literal { relation, positive: true, places: [0, 1, 0], arity: 2 };
        self.place(exists, 0, Part::Literal(literal));
        self.finish(exists);
        self.place(forall, 0, Part::Node(exists));
        self.finish(forall);
        Part::Node(forall)
    }

    /// The part a written form becomes; negation is carried down to literals.
    fn part(&mut self, index: usize, positive: bool) -> Option<Part> {
        match self.formula.form(index) {
            Form::Not => self.part(index + 1, !positive),
            Form::Literal { name, variables } => {
                self.literal(name, variables, positive).map(Part::Literal)
            }
            Form::And => self.junction(index, [Shape::Or, Shape::And], positive, false),
            Form::Or => self.junction(index, [Shape::And, Shape::Or], positive, false),
            Form::Implies => self.junction(index, [Shape::And, Shape::Or], positive, true),
            Form::Exists(_) => self.quantifier(index, [Shape::Forall, Shape::Exists], positive),
            Form::Forall(_) => self.quantifier(index, [Shape::Exists, Shape::Forall], positive),
        }
    }

    /// `shapes` holds what stands for the form negated, and what unnegated.
    fn junction(
        &mut self,
        index: usize,
        shapes: [Shape; 2],
        positive: bool,
        first_negated: bool,
    ) -> Option<Part> {
        let formula = self.formula;
        let node = self.begin(shapes[usize::from(positive)], formula.parts(index).count());
        for (place, part) in formula.parts(index).enumerate() {
            let sign = positive != (first_negated && place == 0);
            let part = self.part(part, sign)?;
            self.place(node, place, part);
        }
        self.finish(node);
        Some(Part::Node(node))
    }

    fn quantifier(&mut self, index: usize, shapes: [Shape; 2], positive: bool) -> Option<Part> {
        let (Form::Exists(bound) | Form::Forall(bound)) = self.formula.form(index) else {
            return None;
        };
        if self.scope.contains(&bound.variable) {
            return None;
        }
        let node = self.begin(shapes[usize::from(positive)], 1);
        self.tree.nodes[node].depth = self.scope.len();
        if let Some(name) = bound.of {
            self.tree.nodes[node].sort = self.signature.find_type(name);
            self.undeclared |= self.tree.nodes[node].sort.is_none();
        }
        self.scope.push(bound.variable);
        let part = self.part(index + 1, positive)?;
        self.scope.pop();
        self.place(node, 0, part);
        self.finish(node);
        Some(Part::Node(node))
    }

    fn literal(&self, name: &[u8], range: &Range<usize>, positive: bool) -> Option<Literal> {
        let relation = self.signature.find(name)?;
        let mut places = [0; 3];
        for (place, variable) in places.iter_mut().zip(self.formula.variables(range)) {
            *place = self.scope.iter().position(|bound| bound == variable)?;
        }
        Some(Literal { relation, positive, places, arity: range.len() })
    }

    /// Gives the node its preorder number and room for its parts.
    fn begin(&mut self, shape: Shape, parts: usize) -> usize {
        let first = self.tree.parts.len();
        self.tree.parts.resize(first + parts, Part::Node(0));
        let parts = first..first + parts;
        self.tree.nodes.push(Node { shape, depth: 0, sort: None, free: 0, parts });
        self.tree.nodes.len() - 1
    }

    fn place(&mut self, node: usize, place: usize, part: Part) {
        let slot = self.tree.nodes[node].parts.start + place;
        self.tree.parts[slot] = part;
    }

    /// A node's free variables are known once its parts are there.
    fn finish(&mut self, node: usize) {
        let Node { shape, depth, parts, .. } = &self.tree.nodes[node];
        let mut free = 0;
        for part in &self.tree.parts[parts.clone()] {
            free |= match part {
                Part::Literal(literal) => literal.variables(),
                Part::Node(below) => self.tree.nodes[*below].free,
            };
        }
        if matches!(shape, Shape::Exists | Shape::Forall) {
            free &= !(1 << depth);
        }
        self.tree.nodes[node].free = free;
    }
}

impl Literal {
    pub fn variables(&self) -> Variables {
        self.places[..self.arity].iter().fold(0, |set, depth| set | 1 << depth)
    }
}
