//! The desk program: one case in, one reply out, both as text.

use crate::cases::{case, room};
use crate::ground::Problem;
use crate::labels::Labels;
use crate::limits::EARLY;
use crate::plans::{build, follow, read_picks, rows};
use crate::sheets::{self, Relation, Tables};
use crate::text::{cause, lines, Refusal};
use std::fmt::Arguments;
use std::io::Write;

/// The longest case the desk reads.
pub const INPUT_LIMIT: usize = 16_384;
/// The most steps the desk has room to build.
const STEP_ROOM: usize = 8_192;

/// The three sheets of one case; the last holds picks or steps.
pub(crate) struct Sheets<'t> {
    pub question: &'t [u8],
    pub site: &'t [u8],
    record: &'t [u8],
    planned: bool,
}

/// Answers one case with the whole text to print.
pub fn desk(input: &[u8]) -> Vec<u8> {
    answer(input)
        .unwrap_or_else(|Refusal { number, place }| format!("no\t{number}\t{place}\n").into_bytes())
}

fn answer(input: &[u8]) -> Result<Vec<u8>, Refusal> {
    if input.len() > INPUT_LIMIT {
        return Err(Refusal::new(cause::TOO_LONG, 0));
    }
    let sheets = split(input);
    if sheets.planned {
        checked(&sheets)
    } else {
        built(&sheets)
    }
}

/// Parts the input by its lines' first fields alone.
pub(crate) fn split(input: &[u8]) -> Sheets<'_> {
    let mut all = lines(input);
    let rule = all.find(|line| line.word() == b"rule");
    let question_end =
        rule.map_or(input.len(), |line| line.place + line.bytes.len() + usize::from(line.ended));
    let third = all.find(|line| matches!(line.word(), b"pick" | b"step"));
    let site_end = third.map_or(input.len(), |line| line.place);
    Sheets {
        question: &input[..question_end],
        site: &input[question_end..site_end],
        record: &input[site_end..],
        planned: third.is_some_and(|line| line.word() == b"step"),
    }
}

fn checked(sheets: &Sheets) -> Result<Vec<u8>, Refusal> {
    let (question, structure) = case(sheets.question, sheets.site, &EARLY)?;
    let steps = sheets::steps(sheets.record)?;
    let problem = Problem::new(&question, &structure, &EARLY)?;
    let mut state = vec![0; problem.words()];
    follow(&problem, &steps, &mut state)?;
    let mut picks = Tables::new(question.signature.chosen_relations(), structure.n);
    read_picks(&problem, &state, &mut picks.words);
    Ok(print(&problem, &structure.labels, &picks, &steps))
}

fn built(sheets: &Sheets) -> Result<Vec<u8>, Refusal> {
    let (question, structure) = case(sheets.question, sheets.site, &EARLY)?;
    let picks = sheets::picks(sheets.record, &question.signature, &structure)?;
    let problem = Problem::new(&question, &structure, &EARLY)?;
    room(STEP_ROOM, problem.bound as usize)?;
    let plan = build(&problem, &picks)?;
    Ok(print(&problem, &structure.labels, &picks, &plan.steps))
}

/// The sizes, all counts, the picks in atom order, the steps and their count.
fn print(problem: &Problem, labels: &Labels, picks: &Tables, steps: &[u32]) -> Vec<u8> {
    let mut output = Vec::new();
    let (n, atoms, actions) = (problem.n, problem.atoms, problem.actions());
    line(&mut output, format_args!("sizes\t{n}\t{atoms}\t{actions}\t{}", problem.bound));
    let chosen = problem.question().signature.chosen_relations();
    for (choose, relation) in chosen.iter().enumerate() {
        let count: u32 = picks.relation(choose).iter().map(|word| word.count_ones()).sum();
        line(&mut output, format_args!("count\t{}\t{count}", relation.name.escape_ascii()));
    }
    for (choose, relation) in chosen.iter().enumerate() {
        for row in rows(picks.relation(choose)) {
            print_pick(&mut output, labels, relation, row, n);
        }
    }
    for step in steps {
        line(&mut output, format_args!("step\t{step}"));
    }
    line(&mut output, format_args!("ok\t{}", steps.len()));
    output
}

/// A picked tuple, each element by its label if it has one.
fn print_pick(output: &mut Vec<u8>, labels: &Labels, relation: &Relation, row: u32, n: u32) {
    let mut text = format!("pick\t{}", relation.name.escape_ascii());
    let elements = [row / n / n, row / n % n, row % n];
    for &element in &elements[3 - relation.arity()..] {
        text += &labels.name(element).map_or(format!("\t{element}"), |name| format!("\t{name}"));
    }
    line(output, format_args!("{text}"));
}

fn line(output: &mut Vec<u8>, text: Arguments) {
    // Writing to a vector cannot fail.
    let _ = output.write_fmt(text);
    output.push(b'\n');
}
