//! Cases as PDDL: the domain and the instance of a case, and plans written
//! and read. Written from the layout that `docs/PDDL.md` fixes.

use crate::cases::{case, lent_steps, room};
use crate::ground::{holds, Action, Problem, Prove, Set};
use crate::limits::USUAL;
use crate::measures::without_every;
use crate::sheets::{self, Question, Relation, Structure};
use crate::text::{self, cause, lines, Line, Refusal, Reply};
use crate::tree::{Literal, Node, Part, Shape};

/// Writes the domain of a case.
pub fn pddl_domain(question: &[u8], site: &[u8], out: &mut [u8]) -> Reply {
    let mut written = || {
        let (question, structure) = untyped(question, site)?;
        Problem::new(&question, &structure, &USUAL)?;
        without_every(&question)?;
        put(&Words { question: &question, n: structure.n }.domain(), out)
    };
    written().into()
}

/// Writes the instance of a case.
pub fn pddl_instance(question: &[u8], site: &[u8], out: &mut [u8]) -> Reply {
    let mut written = || {
        let (question, structure) = untyped(question, site)?;
        let problem = Problem::new(&question, &structure, &USUAL)?;
        without_every(&question)?;
        put(&Words { question: &question, n: structure.n }.instance(&problem), out)
    };
    written().into()
}

/// Writes a sheet of steps as a plan.
pub fn pddl_plan_text(question: &[u8], site: &[u8], steps: &[u8], out: &mut [u8]) -> Reply {
    plan_with(question, site, || sheets::steps(steps), out).into()
}

/// Writes lent steps as a plan.
pub fn pddl_plan(question: &[u8], site: &[u8], steps: &[u32], out: &mut [u8]) -> Reply {
    plan_with(question, site, || lent_steps(steps), out).into()
}

fn plan_with<S: AsRef<[u32]>>(
    question: &[u8],
    site: &[u8],
    steps: impl FnOnce() -> Result<S, Refusal>,
    out: &mut [u8],
) -> Result<usize, Refusal> {
    let (question, structure) = case(question, site, &USUAL)?;
    let steps = steps()?;
    no_types(&question)?;
    let problem = Problem::new(&question, &structure, &USUAL)?;
    without_every(&question)?;
    let words = Words { question: &question, n: structure.n };
    let mut plan = String::new();
    for (index, &step) in steps.as_ref().iter().enumerate() {
        let action = problem.action(step).ok_or(Refusal::new(cause::NO_ACTION, index))?;
        words.step(&problem, action, &mut plan);
    }
    put(&plan, out)
}

/// Reads a plan's lines into step numbers.
pub fn pddl_read(question: &[u8], site: &[u8], plan: &[u8], steps: &mut [u32]) -> Reply {
    read_with(question, site, plan, steps).into()
}

fn read_with(
    question: &[u8],
    site: &[u8],
    plan: &[u8],
    steps: &mut [u32],
) -> Result<usize, Refusal> {
    let (question, structure) = case(question, site, &USUAL)?;
    text::limit(plan)?;
    let items: Result<Vec<_>, Refusal> = lines(plan).map(|line| items(&line)).collect();
    let items = items?;
    no_types(&question)?;
    let problem = Problem::new(&question, &structure, &USUAL)?;
    without_every(&question)?;
    room(steps.len(), items.len())?;
    let reader = Reader { problem: &problem, question: &question };
    let numbers: Result<Vec<u32>, Refusal> = items
        .iter()
        .map(|(place, words)| reader.step(words).ok_or(Refusal::new(cause::PDDL, *place)))
        .collect();
    let numbers = numbers?;
    steps[..numbers.len()].copy_from_slice(&numbers);
    Ok(numbers.len())
}

fn untyped<'t>(question: &'t [u8], site: &[u8]) -> Result<(Question<'t>, Structure), Refusal> {
    let (question, structure) = case(question, site, &USUAL)?;
    no_types(&question)?;
    Ok((question, structure))
}

fn no_types(question: &Question) -> Result<(), Refusal> {
    match question.signature.types.is_empty() {
        true => Ok(()),
        false => Err(Refusal::new(cause::PDDL, 0)),
    }
}

fn put(text: &str, out: &mut [u8]) -> Result<usize, Refusal> {
    room(out.len(), text.len())?;
    out[..text.len()].copy_from_slice(text.as_bytes());
    Ok(text.len())
}

/// A word and what follows it, in brackets.
fn bracket(word: &str, others: impl IntoIterator<Item = String>) -> String {
    others.into_iter().fold(format!("({word}"), |text, other| text + " " + &other) + ")"
}

fn parameters(range: std::ops::Range<usize>) -> impl Iterator<Item = String> {
    range.map(|place| format!("?x{place}"))
}

fn list(items: impl Iterator<Item = String>) -> String {
    format!("({})", items.collect::<Vec<_>>().join(" "))
}

fn shape_word(shape: Shape) -> &'static str {
    match shape {
        Shape::And => "and",
        Shape::Or => "or",
        Shape::Exists => "exists",
        Shape::Forall => "forall",
    }
}

/// The depths of the variables that are free in a node, outermost first.
fn depths(node: &Node) -> impl Iterator<Item = usize> + '_ {
    (0..8).filter(|depth| node.free >> depth & 1 == 1)
}

fn relation_name(relation: &Relation) -> String {
    String::from_utf8_lossy(relation.name).into()
}

/// An action of the domain: its name, parameters, and what it needs, adds and removes.
struct Schema {
    name: String,
    parameters: usize,
    needs: Vec<String>,
    adds: Vec<String>,
    removes: Vec<String>,
}

impl Schema {
    fn text(self) -> String {
        let gone = self.removes.into_iter().map(|fact| bracket("not", [fact]));
        format!(
            "  (:action {}\n    :parameters {}\n    :precondition {}\n    :effect {})\n",
            self.name,
            list(parameters(0..self.parameters)),
            bracket("and", self.needs),
            bracket("and", self.adds.into_iter().chain(gone)),
        )
    }
}

struct Words<'c> {
    question: &'c Question<'c>,
    n: usize,
}

impl Words<'_> {
    fn last(&self) -> String {
        format!("o{}", self.n - 1)
    }

    /// All relations, each with the words of its predicates and their numbers of places.
    fn relation_predicates(&self, relation: &Relation) -> Vec<(String, usize)> {
        let (name, arity) = (relation_name(relation), relation.arity());
        let mut found = vec![(format!("r_{name}"), arity), (format!("not-r_{name}"), arity)];
        if relation.kind.is_function() {
            found.push((format!("free_{name}_dom"), 1));
        }
        if relation.kind.is_injective() {
            found.push((format!("free_{name}_ran"), 1));
        }
        found
    }

    fn node_word(&self, node: usize) -> String {
        format!("holds_{}_{node}", shape_word(self.question.tree.nodes[node].shape))
    }

    fn predicates(&self) -> Vec<(String, usize)> {
        let mut all: Vec<(String, usize)> =
            ["guess", "proof", "holds_goal"].map(|word| (word.to_string(), 0)).into();
        let relations = &self.question.signature.relations;
        all.extend(relations.iter().flat_map(|relation| self.relation_predicates(relation)));
        for (number, node) in self.question.tree.nodes.iter().enumerate() {
            let more = usize::from(node.shape == Shape::Forall);
            all.push((self.node_word(number), node.free.count_ones() as usize + more));
        }
        all
    }

    fn domain(&self) -> String {
        let constants = if self.n == 1 { "o0".into() } else { format!("o0 {}", self.last()) };
        let mut text = format!("(define (domain case)\n  (:constants {constants})\n");
        text += "  (:predicates\n";
        for (word, places) in self.predicates() {
            text += &format!("    {}\n", bracket(&word, parameters(0..places)));
        }
        text += "  )\n";
        self.schemas().into_iter().for_each(|schema| text += &schema.text());
        text + ")\n"
    }

    fn schemas(&self) -> Vec<Schema> {
        let chosen = self.question.signature.chosen_relations();
        let mut all: Vec<Schema> =
            chosen.iter().map(|relation| self.set_schema(relation)).collect();
        all.push(Schema {
            name: "begin-proof".into(),
            parameters: 0,
            needs: vec!["(guess)".into()],
            adds: vec!["(proof)".into()],
            removes: vec!["(guess)".into()],
        });
        (0..self.question.tree.nodes.len()).for_each(|node| all.extend(self.node_schemas(node)));
        all.push(Schema {
            name: "prove-goal".into(),
            parameters: 0,
            needs: vec![self.node_fact(0, &[], None)],
            adds: vec!["(holds_goal)".into()],
            removes: vec![],
        });
        all
    }

    fn set_schema(&self, relation: &Relation) -> Schema {
        let (name, arity) = (relation_name(relation), relation.arity());
        let mut removes = vec![bracket(&format!("not-r_{name}"), parameters(0..arity))];
        if relation.kind.is_function() {
            removes.push(format!("(free_{name}_dom ?x0)"));
        }
        if relation.kind.is_injective() {
            removes.push(format!("(free_{name}_ran ?x1)"));
        }
        let mut needs = vec!["(guess)".to_string()];
        needs.extend(removes.iter().cloned());
        let adds = vec![bracket(&format!("r_{name}"), parameters(0..arity))];
        Schema { name: format!("set_{name}_true"), parameters: arity, needs, adds, removes }
    }

    /// A node's own atom at the terms of its free variables; a `forall` up to an element, the last if none is said.
    fn node_fact(&self, node: usize, terms: &[String], up_to: Option<String>) -> String {
        let forall = self.question.tree.nodes[node].shape == Shape::Forall;
        let end = forall.then(|| up_to.unwrap_or(self.last()));
        bracket(&self.node_word(node), terms.iter().cloned().chain(end))
    }

    /// A part of a node, whose own variable has this term.
    fn part_fact(&self, node: &Node, part: &Part, own: &str) -> String {
        let quantifies = matches!(node.shape, Shape::Exists | Shape::Forall);
        let term = |depth: usize| match quantifies && depth == node.depth {
            true => own.to_string(),
            false => format!("?x{}", depths(node).take_while(|&free| free < depth).count()),
        };
        match part {
            Part::Literal(Literal { relation, positive, places, arity }) => {
                let name = relation_name(&self.question.signature.relations[*relation]);
                let word = if *positive { format!("r_{name}") } else { format!("not-r_{name}") };
                bracket(&word, places[..*arity].iter().map(|&depth| term(depth)))
            }
            Part::Node(child) => {
                let free = depths(&self.question.tree.nodes[*child]);
                self.node_fact(*child, &free.map(term).collect::<Vec<_>>(), None)
            }
        }
    }

    fn node_schemas(&self, number: usize) -> Vec<Schema> {
        let node = &self.question.tree.nodes[number];
        let parts = &self.question.tree.parts[node.parts.clone()];
        let free = node.free.count_ones() as usize;
        let terms: Vec<String> = parameters(0..free).collect();
        let schema =
            |ending: &str, more: usize, needs: Vec<String>, up_to: Option<String>| Schema {
                name: format!("prove_{}_{number}{ending}", shape_word(node.shape)),
                parameters: free + more,
                needs: ["(proof)".to_string()].into_iter().chain(needs).collect(),
                adds: vec![self.node_fact(number, &terms, up_to)],
                removes: vec![],
            };
        let at = |part: &Part, own: &str| self.part_fact(node, part, own);
        match node.shape {
            Shape::And => {
                vec![schema("", 0, parts.iter().map(|part| at(part, "")).collect(), None)]
            }
            Shape::Or => {
                let each = parts.iter().enumerate();
                each.map(|(place, part)| schema(&format!("_{place}"), 0, vec![at(part, "")], None))
                    .collect()
            }
            Shape::Exists => {
                vec![schema("", 1, vec![at(&parts[0], &format!("?x{free}"))], None)]
            }
            Shape::Forall => {
                let [before, here] = [free, free + 1].map(|place| format!("?x{place}"));
                let next = vec![
                    format!("(r_SUC {before} {here})"),
                    self.node_fact(number, &terms, Some(before)),
                    at(&parts[0], &here),
                ];
                vec![
                    schema("_1", 0, vec![at(&parts[0], "o0")], Some("o0".into())),
                    schema("_2", 2, next, Some(here)),
                ]
            }
        }
    }

    /// The objects of a row, the first of them first.
    fn objects(&self, count: usize, mut row: u32) -> Vec<String> {
        let n = self.n as u32;
        let mut objects = vec![String::new(); count];
        for object in objects.iter_mut().rev() {
            *object = format!("o{}", row % n);
            row /= n;
        }
        objects
    }

    fn instance(&self, problem: &Problem) -> String {
        let objects = (1..self.n.saturating_sub(1)).map(|element| format!("o{element}"));
        let mut text = format!(
            "(define (problem site)\n  (:domain case)\n  {}\n  (:init\n    (guess)\n",
            bracket(":objects", objects)
        );
        let mut state = vec![0; problem.words()];
        problem.initial(&mut state);
        let mut atom = 3;
        for relation in &self.question.signature.relations {
            for (word, places) in self.relation_predicates(relation) {
                for row in 0..(self.n as u32).pow(places as u32) {
                    if holds(&state, atom + row) {
                        text += &format!("    {}\n", bracket(&word, self.objects(places, row)));
                    }
                }
                atom += (self.n as u32).pow(places as u32);
            }
        }
        text + "  )\n  (:goal (holds_goal))\n)\n"
    }

    fn step(&self, problem: &Problem, action: Action, plan: &mut String) {
        let line = match action {
            Action::Set(Set { choose, row }) => {
                let relation = &self.question.signature.chosen_relations()[choose as usize];
                let word = format!("set_{}_true", relation_name(relation));
                bracket(&word, self.objects(relation.arity(), row))
            }
            Action::BeginProof => "(begin-proof)".into(),
            Action::Prove(prove) => self.prove_step(problem, prove),
            _ => "(prove-goal)".into(),
        };
        *plan += &line;
        plan.push('\n');
    }

    fn prove_step(&self, problem: &Problem, Prove { node, row, choice }: Prove) -> String {
        let found = &problem.nodes[node as usize];
        let mut objects = self.objects(found.free.count_ones() as usize, row);
        let mut word = format!("prove_{}_{node}", shape_word(found.shape));
        match found.shape {
            Shape::And => (),
            Shape::Or => word += &format!("_{choice}"),
            Shape::Exists => objects.push(format!("o{choice}")),
            Shape::Forall if choice == 0 => word += "_1",
            Shape::Forall => {
                word += "_2";
                objects.extend([choice - 1, choice].map(|element| format!("o{element}")));
            }
        }
        bracket(&word, objects)
    }
}

/// The place of a line, and its items in small letters.
type Items = (usize, Vec<Vec<u8>>);

fn items(line: &Line) -> Result<Items, Refusal> {
    let refused = line.refuse(cause::LINE_FORM);
    let inner = line.bytes.strip_prefix(b"(").and_then(|rest| rest.strip_suffix(b")"));
    let inner = inner.filter(|_| line.ended).ok_or(refused)?;
    let is_item = |item: &[u8]| {
        let plain = |byte: &u8| byte.is_ascii_alphanumeric() || b"_-".contains(byte);
        !item.is_empty() && item.iter().all(plain)
    };
    let items: Vec<&[u8]> = inner.split(|&byte| byte == b' ').collect();
    if !items.iter().all(|item| is_item(item)) {
        return Err(refused);
    }
    Ok((line.place, items.iter().map(|item| item.to_ascii_lowercase()).collect()))
}

struct Reader<'c> {
    problem: &'c Problem<'c>,
    question: &'c Question<'c>,
}

impl Reader<'_> {
    fn step(&self, items: &[Vec<u8>]) -> Option<u32> {
        let (name, objects) = items.split_first()?;
        let n = self.problem.n;
        let objects: Option<Vec<u32>> = objects
            .iter()
            .map(|object| text::number(object.strip_prefix(b"o")?).filter(|&x| x < n))
            .collect();
        let action = self.action(std::str::from_utf8(name).ok()?, &objects?)?;
        self.problem.number(&action)
    }

    fn row(&self, objects: &[u32]) -> u32 {
        objects.iter().fold(0, |row, object| row * self.problem.n + object)
    }

    fn action(&self, name: &str, objects: &[u32]) -> Option<Action> {
        match name {
            "begin-proof" => return objects.is_empty().then_some(Action::BeginProof),
            "prove-goal" => return objects.is_empty().then_some(Action::ProveGoal),
            _ => (),
        }
        if let Some(inner) = name.strip_prefix("set_") {
            let wanted = inner.strip_suffix("_true")?.as_bytes();
            let chosen = self.question.signature.chosen_relations();
            let choose = chosen.iter().position(|one| one.name.eq_ignore_ascii_case(wanted))?;
            let fits = chosen[choose].arity() == objects.len();
            let set = Set { choose: choose as u32, row: self.row(objects) };
            return fits.then_some(Action::Set(set));
        }
        self.prove(name.strip_prefix("prove_")?, objects)
    }

    fn prove(&self, name: &str, objects: &[u32]) -> Option<Action> {
        let mut pieces = name.split('_');
        let (shape, number) = (pieces.next()?, text::number(pieces.next()?.as_bytes())?);
        let ending = pieces.next();
        let node = self.problem.nodes.get(number as usize)?;
        let free = node.free.count_ones() as usize;
        if shape != shape_word(node.shape) || pieces.next().is_some() || objects.len() < free {
            return None;
        }
        let (values, more) = objects.split_at(free);
        let choice = match (node.shape, ending, more) {
            (Shape::And, None, []) => 0,
            (Shape::Or, Some(part), []) => text::number(part.as_bytes())?,
            (Shape::Exists, None, [element]) => *element,
            (Shape::Forall, Some("1"), []) => 0,
            (Shape::Forall, Some("2"), [before, element]) if before + 1 == *element => *element,
            _ => return None,
        };
        Some(Action::Prove(Prove { node: number, row: self.row(values), choice }))
    }
}
