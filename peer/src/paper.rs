//! The proof on paper: the steps of a checked plan on pages of 60 lines of 72
//! columns.

use crate::cases::{case, lent_steps, room};
use crate::desk::split;
use crate::ground::{Action, Problem};
use crate::limits::USUAL;
use crate::plans::follow;
use crate::sheets::{self, Relation, Signature, Structure};
use crate::text::{cause, Refusal, Reply};
use crate::tree::Shape;
use crate::trial::Calls;

/// Lines of a page that have steps; one more has its number.
const STEP_LINES: usize = 59;
const COLUMNS: usize = 72;
/// Each line has its end byte.
pub const PAGE_BYTES: usize = (STEP_LINES + 1) * (COLUMNS + 1);

/// Columns for the elements.
const ELEMENT_COLUMNS: usize = 30;

/// Lays out one page of a sheet of steps.
pub fn page_text(
    question: &[u8],
    site: &[u8],
    steps: &[u8],
    page: u64,
    state: &mut [u64],
    out: &mut [u8],
) -> Reply {
    page_with(question, site, || sheets::steps(steps), page, state, out).into()
}

/// Lays out one page of lent steps.
pub fn page(
    question: &[u8],
    site: &[u8],
    steps: &[u32],
    page: u64,
    state: &mut [u64],
    out: &mut [u8],
) -> Reply {
    page_with(question, site, || lent_steps(steps), page, state, out).into()
}

fn page_with<S: AsRef<[u32]>>(
    question: &[u8],
    site: &[u8],
    steps: impl FnOnce() -> Result<S, Refusal>,
    page: u64,
    state: &mut [u64],
    out: &mut [u8],
) -> Result<usize, Refusal> {
    let (question, structure) = case(question, site, &USUAL)?;
    let steps = steps()?;
    let problem = Problem::new(&question, &structure, &USUAL)?;
    room(state.len(), problem.words())?;
    room(out.len(), PAGE_BYTES)?;
    follow(&problem, steps.as_ref(), state)?;
    let paper = Paper::new(&problem, &structure);
    let none = Refusal { number: cause::NO_ACTION, place: page };
    let printed = paper.page(steps.as_ref(), page).ok_or(none)?;
    out[..PAGE_BYTES].copy_from_slice(&printed);
    Ok(PAGE_BYTES)
}

/// All pages of a case that the desk takes: of its own steps, or of those built from its picks.
pub fn pages(program: &impl Calls, input: &[u8]) -> Vec<u8> {
    let (sheets, reply) = (split(input), program.desk(input));
    let lines = reply.split_inclusive(|&byte| byte == b'\n');
    let steps = lines.filter(|line| line.starts_with(b"step")).flatten().copied();
    let (steps, case) = (steps.collect::<Vec<u8>>(), [sheets.question, sheets.site]);
    let (mut state, mut page, mut all) = (vec![0; 1 << 10], vec![0; PAGE_BYTES], Vec::new());
    let mut number = 1;
    while let Reply::Accepted(_) = program.page_text(case, &steps, number, &mut state, &mut page) {
        all.extend(&page);
        number += 1;
    }
    all
}

/// Each element as it is printed: its label, or its number.
fn words(structure: &Structure) -> Vec<String> {
    let word = |element: u32| {
        structure.labels.name(element).map_or(element.to_string(), |name| name.to_string())
    };
    (0..structure.n as u32).map(word).collect()
}

/// The relation of an `every` line, where there is one.
fn last<'s>(signature: &'s Signature) -> &'s Relation<'s> {
    &signature.relations[signature.relations.len() - 1]
}

/// An action as it is printed, but for its number.
struct Shown {
    kind: &'static str,
    subject: String,
    elements: Vec<u32>,
    /// A slash and the part of an `or`.
    part: String,
}

struct Paper<'p> {
    problem: &'p Problem<'p>,
    words: Vec<String>,
    /// Elements without labels always fit: four free values and one more, of two digits each.
    named: bool,
}

impl<'p> Paper<'p> {
    fn new(problem: &'p Problem<'p>, structure: &Structure) -> Self {
        let words = words(structure);
        let named = words.iter().any(|word| word.len() > 2);
        Paper { problem, words, named }
    }

    /// The places of a row, the first of them first.
    fn places(&self, count: usize, mut row: u32) -> Vec<u32> {
        let mut places = vec![0; count];
        for place in places.iter_mut().rev() {
            (row, *place) = (row / self.problem.n, row % self.problem.n);
        }
        places
    }

    fn shown(&self, action: Action) -> Shown {
        let signature = &self.problem.question().signature;
        let bare = |kind| Shown { kind, subject: String::new(), elements: vec![], part: "".into() };
        match action {
            Action::Set(set) => {
                self.tuple("set", &signature.chosen_relations()[set.choose as usize], set.row)
            }
            Action::BeginProof => bare("begin-proof"),
            Action::Prove(prove) => {
                let node = &self.problem.nodes[prove.node as usize];
                let mut elements = self.places(node.free.count_ones() as usize, prove.row);
                let (mut kind, mut part) = ("and", String::new());
                match node.shape {
                    Shape::And => (),
                    Shape::Or => (kind, part) = ("or", format!("/{}", prove.choice)),
                    Shape::Exists => kind = "exists",
                    Shape::Forall => kind = "forall",
                }
                if matches!(node.shape, Shape::Exists | Shape::Forall) {
                    elements.push(prove.choice);
                }
                Shown { kind, subject: prove.node.to_string(), elements, part }
            }
            Action::ProveGoal => bare("prove-goal"),
            Action::RoundEnd => bare("round-end"),
            Action::MarkIn(row) => self.tuple("mark-in", last(signature), row),
            Action::MarkOut(row) => self.tuple("mark-out", last(signature), row),
        }
    }

    /// An action on one tuple.
    fn tuple(&self, kind: &'static str, relation: &Relation, row: u32) -> Shown {
        let subject = String::from_utf8_lossy(relation.name).into();
        Shown { kind, subject, elements: self.places(relation.arity(), row), part: "".into() }
    }

    /// The elements, each with what stands right after it; the part alone where there are none.
    fn units(&self, shown: &Shown) -> Vec<String> {
        let Some((&last, others)) = shown.elements.split_last() else {
            return vec![shown.part.clone()];
        };
        let mut units: Vec<String> =
            others.iter().map(|&element| format!("{},", self.words[element as usize])).collect();
        units.push(format!("{}{}", self.words[last as usize], shown.part));
        units
    }

    /// The units line by line, none of them cut.
    fn columns(&self, shown: &Shown) -> Vec<String> {
        let mut columns = vec![String::new()];
        for unit in self.units(shown) {
            match columns.last_mut() {
                Some(line) if line.len() + unit.len() <= ELEMENT_COLUMNS => line.push_str(&unit),
                _ => columns.push(unit),
            }
        }
        columns
    }

    fn lines(&self, index: usize, step: u32, action: Action) -> Vec<String> {
        let shown = self.shown(action);
        let Shown { kind, subject, .. } = &shown;
        let mut before = format!("{index:>7} {step:>7} {kind:<12} {subject:<12} ");
        let mut lines = Vec::new();
        for columns in self.columns(&shown) {
            lines.push(format!("{before:42}{columns:30}"));
            before.clear();
        }
        lines
    }

    /// How many lines an action takes: one, unless its elements are long.
    fn count(&self, action: Action) -> usize {
        match action {
            Action::BeginProof | Action::ProveGoal | Action::RoundEnd => 1,
            _ if !self.named => 1,
            _ => self.columns(&self.shown(action)).len(),
        }
    }

    /// The page of this number, from 1, if there is one.
    fn page(&self, steps: &[u32], page: u64) -> Option<Vec<u8>> {
        let first = usize::try_from(page.checked_sub(1)?).ok()?.checked_mul(STEP_LINES)?;
        let (mut before, mut lines) = (0, Vec::new());
        for (index, &step) in steps.iter().enumerate() {
            let action = self.problem.action(step)?;
            let count = self.count(action);
            if before + count > first {
                let skipped = first.saturating_sub(before);
                lines.extend(self.lines(index, step, action).into_iter().skip(skipped));
            }
            before += count;
            if lines.len() >= STEP_LINES {
                break;
            }
        }
        if lines.is_empty() {
            return None;
        }
        lines.resize(STEP_LINES, " ".repeat(COLUMNS));
        lines.push(format!("{page:>COLUMNS$}"));
        Some(lines.iter().flat_map(|line| line.bytes().chain([b'\n'])).collect())
    }
}
