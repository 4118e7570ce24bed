//! Each limit, met exactly and passed by one, with the answer that it must get.
//! The sizes were counted apart from both programs.

use crate::large::{long_list, long_names, long_text, planned, some, wide_facts, wide_picks};
use crate::limits::{STEPS, TEXT};
use crate::naming::{label_lines, renamed};
use crate::sample::Sample;
use crate::trial::{numbers, Call, Outcome, Rooms, CALLS};

/// A case, and calls on it with the lengths of their buffers and their answers.
pub struct Edge {
    pub name: &'static str,
    pub sample: Box<dyn Fn() -> Sample>,
    pub asked: Vec<(Call, Rooms, String)>,
}

/// What an outcome says at the front: the desk's first line, or number and place and what was found.
pub fn answer(outcome: &Outcome) -> String {
    if let Some(line) =
        outcome.printed.split(|&byte| byte == b'\n').next().filter(|l| !l.is_empty())
    {
        return String::from_utf8_lossy(line).replace('\t', " ");
    }
    let (number, place) = numbers(outcome.reply);
    outcome.found.iter().fold(format!("{number} {place}"), |line, found| format!("{line} {found}"))
}

fn edge(
    name: &'static str,
    sample: impl Fn() -> Sample + 'static,
    asked: &[(Call, Rooms, &str)],
) -> Edge {
    let asked = asked.iter().map(|&(call, rooms, answer)| (call, rooms, answer.into())).collect();
    Edge { name, sample: Box::new(sample), asked }
}

/// A case that every call refuses alike, and where lists to try keep the sevens they came with; but for PDDL, which is not written where
/// there is a type, and says so before the case's size is looked at.
fn refused(name: &'static str, sample: impl Fn() -> Sample + 'static, answer: &str) -> Edge {
    use Call::*;
    let kept = format!("{answer} 7 7 7 7 7 7");
    let typed = sample().question.windows(6).any(|part| part == b"\ntype\t");
    let told = |call| match call {
        Tries => kept.clone(),
        PddlDomain | PddlInstance | PddlPlanText | PddlPlan | PddlRead
            if typed && answer == "11 0" =>
        {
            "22 0".into()
        }
        _ => answer.into(),
    };
    let asked = CALLS.into_iter().filter(is_on_cases).map(|call| (call, NONE, told(call)));
    Edge { name, sample: Box::new(sample), asked: asked.collect() }
}

/// An `and` so many times over each `forall`, outermost first; the last ones over the inner part.
fn chain(ands: &[usize], inner: &str) -> String {
    let mut rule = inner.to_string();
    for (depth, &times) in ands.iter().enumerate().rev() {
        rule = format!("{}{rule}{}", "(and ".repeat(times), ")".repeat(times));
        if depth > 0 {
            let variable = ["?a", "?b", "?c", "?d"][depth - 1];
            rule = format!("(forall ({variable}) {rule})");
        }
    }
    rule
}

/// A case without facts: relations and chosen ones by arity, the latter T, U, V and W.
fn case(n: usize, rels: &[usize], chosen: &[usize], rule: &str) -> Sample {
    let mut question = String::new();
    for (number, arity) in rels.iter().enumerate() {
        question += &format!("rel\tR{number}\t{arity}\n");
    }
    for (name, arity) in ["T", "U", "V", "W"].iter().zip(chosen) {
        question += &format!("choose\t{name}\t{arity}\n");
    }
    question += &format!("rule\t{rule}\n");
    let site = format!("size\t{n}\n").into();
    Sample { question: question.into(), site, ..Sample::default() }
}

/// The same with a pick for each element, or for each pair.
fn picked(sample: Sample, n: usize, pairs: bool, pick: impl Fn(usize, usize) -> String) -> Sample {
    let rows = if pairs { n * n } else { n };
    let picks: String = (0..rows).map(|row| pick(row / n, row % n)).collect();
    Sample { picks: picks.into(), ..sample }
}

/// The same with an `every` line of this arity, which the rule does not name.
fn for_every(sample: Sample, arity: usize) -> Sample {
    let question = String::from_utf8_lossy(&sample.question);
    let question = question.replace("rule\t", &format!("every\tLOST\t{arity}\nrule\t"));
    Sample { question: question.into_bytes(), ..sample }
}

/// 256 rounds that all need nearly 4,096 steps, with so many `and` over all.
pub(crate) fn many_rounds(ands: usize) -> Sample {
    let sample = case(8, &[], &[3], &chain(&[ands, 5, 6, 6], "(T ?a ?b ?c)"));
    let each = |e: usize, f: usize| {
        (0..8).map(|g| format!("pick\tT\t{e}\t{f}\t{g}\n")).collect::<String>()
    };
    for_every(picked(sample, 8, true, each), 1)
}

/// 32 rounds, as many steps as a case at the desk may be bounded by.
fn desk_rounds(ands: usize) -> Sample {
    let rule = chain(&[ands, 0, 0, 0, 1], "(and (T ?a ?b ?c) (U ?b ?c ?d))");
    for_every(case(5, &[], &[3, 3, 1], &rule), 1)
}

fn each(n: usize) -> Sample {
    let sample = case(n, &[], &[1], "(forall (?y) (T ?y))");
    picked(sample, n, false, |_, e| format!("pick\tT\t{e}\n"))
}

/// The same with a label of 12 bytes for each element, picks that use it, and one line more.
fn named(n: usize, line: &str) -> Sample {
    let Sample { question, site, picks, .. } = each(n);
    let (site, picks) = (String::from_utf8_lossy(&site), String::from_utf8_lossy(&picks));
    let names = long_names(n);
    let site = format!("{site}{}{line}", label_lines(&names).concat()).into();
    let picks = renamed(&picks, &names, || true).into();
    Sample { question, site, picks, ..Sample::default() }
}

/// So many types with names of 12 bytes, each with as many members of 64 elements; a variable of this name has the first type.
fn sorted(types: usize, members: usize, variable: &str) -> Sample {
    let Sample { question, site, picks, .. } = each(64);
    let [question, site] = [question, site].map(|text| String::from_utf8_lossy(&text).to_string());
    let names: Vec<String> = long_names(types).into_iter().flatten().collect();
    let declared: String = names.iter().map(|name| format!("type\t{name}\n")).collect();
    let rule = question.replace("(?y)", &format!("({variable}:TERMINAL_000)"));
    let question = format!("{declared}{}", rule.replace("?y", variable)).into();
    let member = |name: &String| -> String {
        (0..members).map(|element| format!("member\t{name}\t{element}\n")).collect()
    };
    let site = format!("{site}{}", names.iter().map(member).collect::<String>()).into();
    Sample { question, site, picks, ..Sample::default() }
}

/// An injection from the last so many of 64 elements to as many, which both places have as their type.
fn from_last(members: usize) -> Sample {
    let types = "type\tDOOR\ntype\tGROUP\nchoose\tF\tInj\tDOOR\tGROUP\n";
    let question = format!("{types}rule\t(exists (?y) (EQ ?y ?y))\n").into();
    let (mut site, mut picks) = (String::from("size\t64\n"), String::new());
    for element in 64 - members..64 {
        site += &format!("member\tDOOR\t{element}\nmember\tGROUP\t{element}\n");
        picks += &format!("pick\tF\t{element}\t{element}\n");
    }
    Sample { question, site: site.into(), picks: picks.into(), ..Sample::default() }
}

/// Four total kinds, which take 13 forms, beside a rule of two forms and so many `and`.
fn four_total(ands: usize) -> Sample {
    let kinds = ["T", "U", "V", "W"].map(|name| format!("choose\t{name}\tFun\tDOOR\tDOOR\n"));
    let rule = format!("{}(EQ ?y ?y){}", "(and ".repeat(ands), ")".repeat(ands));
    let question = format!("type\tDOOR\n{}rule\t(exists (?y) {rule})\n", kinds.concat()).into();
    Sample { question, site: b"size\t2\nmember\tDOOR\t1\n".to_vec(), ..Sample::default() }
}

/// A literal with so many variables that the question has so many bytes.
fn long_question(bytes: usize) -> Sample {
    let empty = case(1, &[], &[1], "(T)").question.len();
    let room = bytes - empty;
    // A variable takes three bytes with its space; the last is longer by what is left.
    let rule = format!("(T{}{})", " ?a".repeat(room / 3), "a".repeat(room % 3));
    case(1, &[], &[1], &rule)
}

/// 63 elements: nearly all atoms are tuples.
fn many_atoms(ands: usize) -> Sample {
    let rule = chain(&[ands, 1], "(T ?a ?a ?a)");
    let sample = case(63, &[1, 1, 1, 2, 2, 2, 3], &[3], &rule);
    picked(sample, 63, false, |_, e| format!("pick\tT\t{e}\t{e}\t{e}\n"))
}

/// 24 elements: nearly all atoms are nodes', and all of those are proved.
fn many_proofs(ands: usize) -> Sample {
    let rule = chain(&[ands, 1, 1, 2, 1], "(and (T ?a ?b) (T ?c ?d))");
    let sample = case(24, &[1, 1, 2, 2, 2, 2, 2], &[2], &rule);
    picked(sample, 24, true, |e, f| format!("pick\tT\t{e}\t{f}\n"))
}

/// 60 elements: an `or` of 18 parts in every row of three variables.
fn many_actions(ands: usize) -> Sample {
    let rule = chain(&[ands, 0, 24, 0], &format!("(or{})", " (T ?a) (U ?b) (V ?c)".repeat(6)));
    let sample = case(60, &[], &[1, 1, 1, 1], &rule);
    picked(sample, 60, false, |_, e| format!("pick\tT\t{e}\n"))
}

/// The same with a kind from ten elements to six in the place of the last unary relation, and so with as many actions.
fn kind_actions(ands: usize) -> Sample {
    let Sample { question, site, picks, .. } = many_actions(ands);
    let [question, site] = [question, site].map(|text| String::from_utf8_lossy(&text).to_string());
    let question = question.replace("choose\tW\t1\n", "choose\tW\tPFun\tDOOR\tGROUP\n");
    let members = |name: &str, count: usize| -> String {
        (0..count).map(|element| format!("member\t{name}\t{element}\n")).collect()
    };
    let question = format!("type\tDOOR\ntype\tGROUP\n{question}").into();
    let site = format!("{site}{}{}", members("DOOR", 10), members("GROUP", 6)).into();
    Sample { question, site, picks, ..Sample::default() }
}

/// As many atoms, actions and steps as the desk takes, with so many of each kind of `and`.
fn desk_atoms(ands: usize) -> Sample {
    let sample = case(15, &[3; 8], &[3], &chain(&[ands, 13, 13], "(T ?a ?b ?b)"));
    picked(sample, 15, true, |e, f| format!("pick\tT\t{e}\t{f}\t{f}\n"))
}

fn desk_actions(ands: usize) -> Sample {
    let inner = "(or (T ?a) (U ?a ?b) (V ?b ?c) (W ?c ?d) (T ?d))";
    case(12, &[], &[1, 2, 2, 2], &chain(&[ands, 0, 6, 2, 0], inner))
}

fn desk_steps(ands: usize) -> Sample {
    let sample = case(15, &[], &[1, 1, 3, 3], &chain(&[ands, 3, 5], "(V ?a ?b ?b)"));
    picked(sample, 15, true, |e, f| format!("pick\tV\t{e}\t{f}\t{f}\n"))
}

fn desk_bytes(bytes: usize) -> Sample {
    let Sample { question, site, .. } = some();
    long_text(bytes - question.len() - site.len())
}

const NONE: Rooms = [0; 3];

/// Whether a call reads question and site first.
fn is_on_cases(call: &Call) -> bool {
    !matches!(call, Call::Rule | Call::DeskPicks | Call::DeskSteps)
}

fn elements() -> Vec<Edge> {
    use Call::*;
    let room = [1, 392, 130];
    vec![
        edge(
            "64 elements",
            || each(64),
            &[
                (Sizes, NONE, "0 0 64 25027 130 130"),
                (BuildText, room, "0 130"),
                (BuildText, [1, 391, 130], "12 392"),
                (JudgeText, NONE, "0 0"),
                (Action, [0, 0, 129], "0 0 6 0 0 0"),
                (Action, [0, 0, 130], "13 130"),
                (DeskPicks, NONE, "no 9 0"),
            ],
        ),
        refused("65 elements", || each(65), "9 0"),
    ]
}

/// The last line of a site of 64 labels begins at 1,406: 8 bytes for the size, 10 labels of 21 and 54 of 22.
fn labels() -> Vec<Edge> {
    use Call::*;
    let calls = [Sizes, CheckText, Check, PicksText, Picks, BuildText, Build, JudgeText, Judge];
    let refused = |answer: &'static str| calls.map(|call| (call, NONE, answer));
    vec![
        edge(
            "64 labels of 12 bytes",
            || named(64, ""),
            &[
                (Sizes, NONE, "0 0 64 25027 130 130"),
                (BuildText, [1, 392, 130], "0 130"),
                (JudgeText, NONE, "0 0"),
            ],
        ),
        edge("a label for element 64", || named(64, "label\t64\tA\n"), &refused("9 1406")),
        edge("a second label", || named(64, "label\t63\tA\n"), &refused("18 1406")),
        edge("a label of 13 bytes", || named(64, "label\t63\tTERMINAL_0063\n"), &refused("2 1406")),
        edge(
            "16 labels at the desk",
            || named(16, ""),
            &[(DeskPicks, NONE, "sizes 16 1651 34 34")],
        ),
        edge(
            "a second label at the desk",
            || named(16, "label\t15\tA\n"),
            &[(DeskPicks, NONE, "no 18 350"), (DeskSteps, NONE, "no 18 350")],
        ),
    ]
}

/// A `type` line takes 18 bytes, so the ninth, or the `choose` line after eight, begins at 144 and the rule at 155. A `member` line takes 22
/// bytes, or 23 for an element of two digits, so the 65th begins at 1,470.
fn types() -> Vec<Edge> {
    use Call::*;
    let room = [1, 392, 130];
    vec![
        edge(
            "8 types, 64 members each",
            || sorted(8, 64, "?abcdefg"),
            &[
                (Sizes, NONE, "0 0 64 25027 130 130"),
                (BuildText, room, "0 130"),
                (JudgeText, NONE, "0 0"),
            ],
        ),
        edge(
            "8 types, one member each",
            || sorted(8, 1, "?abcdefg"),
            &[
                (Sizes, NONE, "0 0 64 25027 67 130"),
                (Action, [0, 0, 65], "0 0 5 0 0 0"),
                (Action, [0, 0, 66], "0 0 6 0 0 0"),
                (BuildText, room, "0 67"),
                (BuildText, [1, 392, 129], "12 130"),
                (JudgeText, NONE, "0 0"),
            ],
        ),
        refused("9 types", || sorted(9, 1, "?abcdefg"), "3 144"),
        refused("a typed variable of 9 bytes", || sorted(8, 1, "?abcdefgh"), "5 155"),
        refused("types without members", || sorted(8, 0, "?abcdefg"), "19 0"),
        refused("65 members", || sorted(8, 65, "?abcdefg"), "9 1470"),
    ]
}

/// The rule of four kinds begins at 10 + 4 × 23.
fn kinds() -> Vec<Edge> {
    use Call::*;
    let room = [64, 521, 196];
    vec![
        edge(
            "a kind from 64 elements to 64",
            || from_last(64),
            &[
                (Sizes, NONE, "0 0 64 33285 8323 196"),
                (Action, [0, 0, 4_095], "0 0 0 5 4095 0"),
                (Action, [0, 0, 4_096], "0 0 1 0 0 0"),
                (BuildText, room, "0 196"),
                (JudgeText, NONE, "0 0"),
            ],
        ),
        edge(
            "a kind from one element to one",
            || from_last(1),
            &[
                (Sizes, NONE, "0 0 64 33285 133 196"),
                (Action, [0, 0, 0], "0 0 0 5 4095 0"),
                (Action, [0, 0, 1], "0 0 1 0 0 0"),
                (BuildText, room, "0 7"),
                (BuildText, [64, 521, 195], "12 196"),
                (Build, [63, 521, 196], "12 64"),
                (JudgeText, NONE, "0 0"),
            ],
        ),
        edge(
            "64 forms with four total kinds",
            || four_total(49),
            &[(Sizes, NONE, "0 0 2 191 119 126"), (JudgeText, NONE, "17 0")],
        ),
        refused("65 forms with four total kinds", || four_total(50), "6 102"),
    ]
}

fn kinds_of_many_actions() -> Vec<Edge> {
    use Call::*;
    vec![
        edge(
            "4,194,304 actions with a typed kind",
            || kind_actions(2),
            &[
                (Sizes, NONE, "0 0 60 551525 4194304 522304"),
                (Action, [0, 0, 180], "0 0 0 8 0 0"),
                (Action, [0, 0, 239], "0 0 0 8 545 0"),
                (BuildText, [60, 8_618, 522_304], "0 522124"),
                (JudgeText, NONE, "0 0"),
            ],
        ),
        refused("4,194,305 actions with a typed kind", || kind_actions(3), "11 0"),
    ]
}

fn bytes() -> Vec<Edge> {
    use Call::*;
    let (full, over) = (TEXT, TEXT + 1);
    let room = [4_096, 8_646, 266_307];
    let short = [1, 3, 0];
    vec![
        edge(
            "a question of 1,048,576 bytes",
            move || long_question(full),
            &[(Sizes, NONE, "7 11")],
        ),
        edge("a question of 1,048,577 bytes", move || long_question(over), &[(Sizes, NONE, "1 0")]),
        edge(
            "a site of 1,048,576 bytes",
            move || wide_facts(full),
            &[(Sizes, NONE, "0 0 64 557507 130 130")],
        ),
        edge("a site of 1,048,577 bytes", move || wide_facts(over), &[(Sizes, NONE, "1 0")]),
        edge(
            "picks of 1,048,576 bytes",
            move || wide_picks(full),
            &[(BuildText, room, "0 66776"), (JudgeText, NONE, "0 0")],
        ),
        edge(
            "picks of 1,048,577 bytes",
            move || wide_picks(over),
            &[(BuildText, room, "1 0"), (JudgeText, NONE, "1 0")],
        ),
        edge(
            "steps of 1,048,576 bytes",
            move || long_text(full),
            &[(CheckText, short, "0 149796"), (PicksText, short, "0 149796")],
        ),
        edge(
            "steps of 1,048,577 bytes",
            move || long_text(over),
            &[(CheckText, short, "1 0"), (PicksText, short, "1 0")],
        ),
    ]
}

fn steps() -> Vec<Edge> {
    use Call::*;
    let room = [1, 3, 0];
    vec![
        edge(
            "1,048,576 lent steps",
            || long_list(STEPS),
            &[
                (Check, room, "0 1048576"),
                (Picks, room, "0 1048576"),
                (Tries, room, "0 0 0 1048576 0 1048575 12 1048577"),
            ],
        ),
        edge(
            "1,048,577 lent steps",
            || long_list(STEPS + 1),
            &[(Check, room, "1 0"), (Picks, room, "1 0"), (Tries, room, "0 0 1 0 0 1048576 1 0")],
        ),
    ]
}

fn atoms() -> Vec<Edge> {
    use Call::*;
    let room = [4_096, 16_384, 250_176];
    let full = [9, 16_384, 1_038_591];
    vec![
        edge(
            "1,048,576 atoms of 63 elements",
            || many_atoms(1),
            &[
                (Sizes, NONE, "0 0 63 1048576 250176 250176"),
                (BuildText, room, "0 192"),
                (BuildText, [0, 16_383, 0], "12 16384"),
                (BuildText, [0, 16_384, 250_175], "12 250176"),
                (JudgeText, NONE, "0 0"),
                (Build, [3_906, 0, 0], "12 3907"),
            ],
        ),
        refused("1,048,577 atoms of 63 elements", || many_atoms(2), "11 0"),
        edge(
            "1,048,576 atoms of 24 elements, 1,038,591 steps",
            || planned(many_proofs(13)),
            &[
                (Sizes, NONE, "0 0 24 1048576 1038591 1038591"),
                (BuildText, full, "0 1038591"),
                (Build, full, "0 1038591"),
                (Build, [9, 16_384, 1_038_590], "12 1038591"),
                (Check, full, "0 1038591"),
                (Picks, full, "0 1038591"),
                // Its steps as a text are far too long.
                (CheckText, full, "1 0"),
                (JudgeText, NONE, "0 0"),
                (Judge, full, "0 0"),
                (Allowances, full, "0 0"),
            ],
        ),
        refused("1,048,577 atoms of 24 elements", || many_proofs(14), "11 0"),
    ]
}

fn actions() -> Vec<Edge> {
    use Call::*;
    let room = [4, 8_507, 522_304];
    vec![
        edge(
            "4,194,304 actions of 60 elements",
            || many_actions(2),
            &[
                (Sizes, NONE, "0 0 60 544385 4194304 522304"),
                (Action, [0, 0, 4_194_303], "0 0 6 0 0 0"),
                (Action, [0, 0, 4_194_304], "13 4194304"),
                (BuildText, room, "0 522124"),
                (JudgeText, NONE, "0 0"),
            ],
        ),
        refused("4,194,305 actions of 60 elements", || many_actions(3), "11 0"),
    ]
}

/// The desk's own limits, which no call has.
fn desk() -> Vec<Edge> {
    use Call::*;
    vec![
        edge("16 elements at the desk", || each(16), &[(DeskPicks, NONE, "sizes 16 1651 34 34")]),
        edge("17 elements at the desk", || each(17), &[(DeskPicks, NONE, "no 9 0")]),
        edge(
            "16,384 bytes at the desk",
            || desk_bytes(16_384),
            &[(DeskSteps, NONE, "sizes 5 184 12 8")],
        ),
        edge("16,385 bytes at the desk", || desk_bytes(16_385), &[(DeskSteps, NONE, "no 1 0")]),
        edge(
            "65,536 atoms at the desk",
            || desk_atoms(13),
            &[(DeskPicks, NONE, "sizes 15 65536 6750 6750")],
        ),
        edge("65,537 atoms at the desk", || desk_atoms(14), &[(DeskPicks, NONE, "no 11 0")]),
        edge(
            "131,072 actions at the desk",
            || desk_actions(6),
            &[(DeskPicks, NONE, "no 12 48128")],
        ),
        edge("131,073 actions at the desk", || desk_actions(7), &[(DeskPicks, NONE, "no 11 0")]),
        edge(
            "8,192 steps at the desk",
            || desk_steps(0),
            &[(DeskPicks, NONE, "sizes 15 16383 8192 8192")],
        ),
        edge("8,193 steps at the desk", || desk_steps(1), &[(DeskPicks, NONE, "no 12 8193")]),
    ]
}

/// 23: more than eight tuples, a bound above the limit of steps, or a call that takes no such case.
fn rounds() -> Vec<Edge> {
    use Call::*;
    let room = [8, 87, 1_048_321];
    vec![
        edge(
            "a bound of 1,048,321 steps in 256 rounds",
            || planned(many_rounds(4)),
            &[
                (Sizes, NONE, "0 0 8 5551 4614 1048321"),
                (BuildText, room, "0 1046783"),
                (Build, room, "0 1046783"),
                (Build, [8, 87, 1_048_320], "12 1048321"),
                (Check, room, "0 1046783"),
                (Picks, room, "0 1046783"),
                (JudgeText, NONE, "0 0"),
                (Action, [0, 0, 4_597], "0 0 7 0 0 0"),
                (Action, [0, 0, 4_605], "0 0 8 6 7 0"),
                (Action, [0, 0, 4_606], "0 0 9 6 0 0"),
                (Action, [0, 0, 4_614], "13 4614"),
                (Find, NONE, "23 0"),
                (Allowances, NONE, "23 0"),
                (Monotone, NONE, "24 0"),
            ],
        ),
        refused("a bound of 1,048,577 steps in 256 rounds", || many_rounds(5), "23 0"),
        refused("9 tuples of one element each", || for_every(each(9), 1), "23 0"),
        refused("9 tuples of two elements each", || for_every(each(3), 2), "23 0"),
        edge(
            "a bound of 65,536 steps at the desk",
            || desk_rounds(4),
            &[(DeskPicks, NONE, "no 12 65536")],
        ),
        edge(
            "a bound of 65,568 steps at the desk",
            || desk_rounds(5),
            &[(DeskPicks, NONE, "no 23 0")],
        ),
    ]
}

/// Every limit, at it and past it.
pub fn edges() -> Vec<Edge> {
    let forms = [elements(), labels(), types(), kinds(), bytes()];
    let sizes = [steps(), atoms(), actions(), kinds_of_many_actions(), rounds(), desk()];
    forms.into_iter().chain(sizes).flatten().collect()
}
