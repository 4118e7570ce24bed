//! Texts that are as long or as deep as they may be, and cases with the largest tables and plans.

use crate::edges::many_rounds;
use crate::large::{
    deep, facts, kind_zones, long_text, named_facts, named_picks, padded, planned, round,
    sorted_zones, wide_facts, wide_picks, zones,
};
use crate::limits;
use crate::sample::Sample;

/// How many brackets may be open together.
const OPEN: usize = 128;

/// A name, and the case that it stands for, made when it is wanted.
pub type Text = (String, Box<dyn Fn() -> Sample>);

/// A case of a rule alone, over one element, which is of the type that the rule may use.
fn ruled(rule: &str) -> Sample {
    let types = if rule.contains(':') { ["type\tT\n", "member\tT\t0\n"] } else { [""; 2] };
    let question = format!("{}choose\tT\t2\nrule\t{rule}\n", types[0]);
    let site = format!("size\t1\n{}", types[1]);
    Sample { question: question.into(), site: site.into(), ..Sample::default() }
}

/// As many copies of a part as fit a rule of so many bytes, between a head and a tail.
fn filled(bytes: usize, head: &str, part: &str, tail: &str) -> Sample {
    // Lines for a type, if the part has one, stand there too.
    let rest = ruled(if part.contains(':') { ":" } else { "" });
    let room = bytes - rest.question.len() - rest.site.len() - head.len() - tail.len();
    ruled(&format!("{head}{}{tail}", part.repeat(room / part.len())))
}

/// Something so many times inside itself.
fn nested(times: usize, head: &str, inner: &str, tail: &str) -> String {
    format!("{}{inner}{}", head.repeat(times), tail.repeat(times))
}

/// Lines of a case that fill so many bytes.
fn lined(bytes: usize, line: impl Fn(usize) -> String) -> Vec<u8> {
    let mut text = Vec::new();
    for row in 0.. {
        let line = line(row);
        if text.len() + line.len() > bytes {
            break;
        }
        text.extend(line.bytes());
    }
    text
}

const LEAF: &str = "(T ?a ?b)";

/// Forms that hold another one, with one bracket or two.
const FORMS: [(&str, &str, &str); 8] = [
    ("not", "(not ", ")"),
    ("and", "(and ", ")"),
    ("or, in a later part", "(or (T ?a ?b) ", ")"),
    ("implies", "(implies ", " (T ?a ?b))"),
    ("implies, in its end", "(implies (T ?a ?b) ", ")"),
    ("forall of one", "(forall (?a) ", ")"),
    ("exists of four", "(exists (?a ?b ?c ?d) ", ")"),
    ("forall of four with types", "(forall (?a:T ?b:T ?c:T ?d:T) ", ")"),
];

/// A rule of so many bytes, as a text.
fn long(name: &str, bytes: usize, [head, part, tail]: [&'static str; 3]) -> Text {
    (name.into(), Box::new(move || filled(bytes, head, part, tail)))
}

/// A rule alone, as a text.
fn rule(name: &str, rule: String) -> Text {
    (name.into(), Box::new(move || ruled(&rule)))
}

/// Rules that are long or deep, most of them refused for it.
fn rules(bytes: usize) -> Vec<Text> {
    let listed = ["(or (T ?a ?b)", " (forall (?a ?b) (T ?a ?b))", ")"];
    let sorted = ["(or (T ?a ?b)", " (forall (?a:T ?b:T) (T ?a ?b))", ")"];
    let parts = ["(forall (?a ?b) (and (T ?a ?b)", " (T ?a ?b)", "))"];
    let mut texts = vec![
        long("one long literal", bytes, ["(T ?a", " ?a", ")"]),
        long("one long and", bytes, parts),
        long("lists of two variables", bytes, listed),
        long("lists of two variables with types", bytes, sorted),
        long("brackets alone", bytes, ["", "(", ""]),
    ];
    for (name, head, tail) in FORMS {
        texts.push(long(&format!("{name}, never closed"), bytes, [head, head, ""]));
        // The last part has a bracket of its own.
        for brackets in [OPEN - 1, OPEN, OPEN + 1] {
            let inner = nested(brackets - 1, head, LEAF, tail);
            texts.push(rule(&format!("{name}, {brackets} open"), inner));
        }
    }
    texts
}

/// Rules of 64 forms, four of them quantified variables.
fn full_rules() -> Vec<Text> {
    let four = |inner: String| format!("(forall (?a ?b ?c ?d) {inner})");
    let quantified = "(exists (?a) (forall (?b) (exists (?c) (forall (?d) ";
    let sorted = format!("(exists (?a:T ?b ?c:T ?d:T) {})", nested(59, "(and ", LEAF, ")"));
    let rules = [
        ("59 ands under four with types", sorted),
        ("59 nots under four", four(nested(59, "(not ", LEAF, ")"))),
        ("59 ands under four", four(nested(59, "(and ", LEAF, ")"))),
        ("59 ands over four", nested(59, "(and ", &four(LEAF.into()), ")")),
        ("29 ors in a later part", four(nested(29, "(or (T ?a ?b) ", LEAF, ")"))),
        ("29 implications", four(nested(29, "(implies ", LEAF, " (T ?c ?d))"))),
        ("an and of 59", four(format!("(and{})", " (T ?a ?b)".repeat(59)))),
        (
            "59 nots under one and one",
            format!("{quantified}{}))))", nested(59, "(not ", LEAF, ")")),
        ),
    ];
    rules.map(|(name, inner)| rule(name, inner)).into()
}

/// A text of picks: three places of 16 elements.
fn picked(bytes: usize) -> Sample {
    let question = b"choose\tT\t3\nrule\t(exists (?a ?b ?c) (T ?a ?b ?c))\n".to_vec();
    let pick = |row| format!("pick\tT\t{}\t{}\t{}\n", row / 256 % 16, row / 16 % 16, row % 16);
    Sample {
        question,
        site: b"size\t16\n".to_vec(),
        picks: lined(bytes, pick),
        ..Sample::default()
    }
}

/// The bytes that the labels of 16 elements take.
const LABELS: usize = 400;

/// Labels, and picks that use them.
fn named(bytes: usize) -> Sample {
    let [named, _] = named_picks(bytes - LABELS, 16);
    named
}

/// Labels that nothing uses, picks by number and steps that set as many: what is printed is longer than what was read.
fn printed(bytes: usize) -> Sample {
    let room = bytes - LABELS;
    // Begin-proof, the three `exists` by the tuple (0, 0, 0), innermost first, and prove-goal.
    let end = [4_096, 4_369, 4_113, 4_097, 8_465].map(|step| format!("step\t{step}\n")).concat();
    let mut steps = lined(room - end.len(), |step| format!("step\t{step}\n"));
    steps.extend(end.bytes());
    Sample { site: named(bytes).site, steps, ..picked(room) }
}

/// What a desk input of so many bytes may hold besides a rule.
fn desk_cases(bytes: usize) -> Vec<Text> {
    // Question and site come before picks and steps.
    let rest = 64;
    vec![
        ("facts".into(), Box::new(move || facts(bytes / 1_024 - 1))),
        ("the largest plan".into(), Box::new(|| deep(7))),
        ("picks".into(), Box::new(move || picked(bytes - rest))),
        ("picks by label".into(), Box::new(move || named(bytes - rest))),
        ("picks printed by label".into(), Box::new(move || printed(bytes - rest))),
        ("steps".into(), Box::new(move || long_text(bytes - rest))),
    ]
}

/// What a call may be lent: full sheets, many elements, the largest tables, the longest plans.
fn wide_cases(bytes: usize) -> Vec<Text> {
    vec![
        ("facts of 16 elements".into(), Box::new(|| facts(64))),
        ("facts of 64 elements".into(), Box::new(move || wide_facts(bytes))),
        ("facts by label".into(), Box::new(move || named_facts(bytes)[0].clone())),
        ("picks of 16 elements".into(), Box::new(|| picked(65_536))),
        ("picks of 64 elements".into(), Box::new(move || wide_picks(bytes))),
        ("picks by label".into(), Box::new(move || named_picks(bytes, 64)[0].clone())),
        ("steps".into(), Box::new(move || long_text(bytes))),
        ("the largest tables".into(), Box::new(largest_tables)),
        ("a plan of 13 elements".into(), Box::new(|| deep(13))),
        ("the largest plan".into(), Box::new(|| deep(26))),
        ("the longest plan".into(), Box::new(|| padded(&deep(26), limits::STEPS))),
        ("zones of an airport".into(), Box::new(zones)),
        ("zones of an airport as a type".into(), Box::new(sorted_zones)),
        ("zones of an airport by a typed kind".into(), Box::new(kind_zones)),
        ("a round of an airport".into(), Box::new(round)),
        ("256 rounds of an `every` line".into(), Box::new(|| planned(many_rounds(4)))),
    ]
}

/// Twelve relations of three places over 64 elements: read in full, and too many atoms.
fn largest_tables() -> Sample {
    let mut question = String::new();
    for rel in 1..=8 {
        question += &format!("rel\tR{rel}\t3\n");
    }
    for choose in 1..=4 {
        question += &format!("choose\tC{choose}\t3\n");
    }
    question += "rule\t(exists (?x) (C4 ?x ?x ?x))\n";
    let lines = |word: &str, names: &[&str]| -> String {
        let line = |name: &&str| format!("{word}\t{name}\t63\t63\t63\n");
        names.iter().map(line).collect()
    };
    let site = lines("fact", &["R1", "R2", "R3", "R4", "R5", "R6", "R7", "R8"]);
    let picks = lines("pick", &["C1", "C2", "C3", "C4"]);
    let site = format!("size\t64\n{site}");
    Sample {
        question: question.into(),
        site: site.into(),
        picks: picks.into(),
        ..Sample::default()
    }
}

/// The same question with a site of 64 elements, and with full texts of picks and steps.
fn widened((name, text): Text, bytes: usize) -> Text {
    let wide = move || {
        let own = text();
        let site = String::from_utf8_lossy(&own.site).replace("size\t1\n", "size\t64\n");
        let (picks, steps) = (wide_picks(bytes).picks, long_text(bytes).steps);
        Sample { site: site.into(), picks, steps, ..own }
    };
    (format!("{name}, all else full"), Box::new(wide))
}

/// The texts that need the most stack, each sheet, or with `desk` all of them together, of at most so many bytes.
pub fn worst(bytes: usize, desk: bool) -> Vec<Text> {
    let questions = || rules(bytes).into_iter().chain(full_rules());
    if desk {
        return questions().chain(desk_cases(bytes)).collect();
    }
    let wide = questions().map(|text| widened(text, bytes));
    questions().chain(wide).chain(wide_cases(bytes)).collect()
}
