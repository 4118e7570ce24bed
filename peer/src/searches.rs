//! Questions for finding picks, most of them with 20 cells: what a helpdesk asks,
//! and what is dear to search.

use crate::sample::Sample;

const TWO_COLOURS: &str =
    "(forall (?x ?y) (implies (E ?x ?y) (or (and (T ?x) (not (T ?y))) (and (T ?y) (not (T ?x))))))";
const NO_TRIANGLE: &str = "(forall (?a ?b ?c) (implies (and (E ?a ?b) (E ?a ?c) (E ?b ?c)) (and (or (T ?a) (T ?b) (T ?c)) (or (not (T ?a)) (not (T ?b)) (not (T ?c))))))";
const NO_PROGRESSION: &str = "(forall (?x ?y ?z) (implies (P ?x ?y ?z) (and (or (T ?x) (T ?y) (T ?z)) (or (not (T ?x)) (not (T ?y)) (not (T ?z))))))";
const KERNEL: &str = "(and (forall (?x ?y) (implies (and (E ?x ?y) (T ?x)) (not (T ?y)))) (forall (?x) (or (T ?x) (exists (?y) (and (E ?x ?y) (T ?y))))))";
const LAST: &str = "(forall (?a ?b ?c ?d) (or (T ?a) (and (T ?b) (T ?c) (T ?d))))";
const NEVER: &str = "(exists (?x) (and (T ?x) (not (T ?x))))";

fn question(declared: &[&str], rule: &str, n: usize, facts: &[Vec<usize>]) -> Sample {
    let lines: String =
        declared.iter().map(|line| format!("{}\n", line.replace(' ', "\t"))).collect();
    let name = declared[0].split(' ').nth(1).unwrap_or_default();
    let fact = |places: &Vec<usize>| {
        let places: String = places.iter().map(|place| format!("\t{place}")).collect();
        format!("fact\t{name}{places}\n")
    };
    let facts: String = facts.iter().map(fact).collect();
    Sample {
        question: format!("{lines}rule\t{rule}\n").into_bytes(),
        site: format!("size\t{n}\n{facts}").into_bytes(),
        ..Sample::default()
    }
}

fn ring(n: usize) -> Vec<Vec<usize>> {
    (0..n).map(|x| vec![x, (x + 1) % n]).collect()
}

/// Some of all pairs of 20, by a fixed rule, both ways round.
fn graph(part: usize) -> Vec<Vec<usize>> {
    let pairs = (0..20).flat_map(|x| (0..x).map(move |y| [x, y]));
    let kept = pairs.filter(|[x, y]| (x * x * 7 + y * 13 + x * y) % 10 < part);
    kept.flat_map(|[x, y]| [vec![x, y], vec![y, x]]).collect()
}

/// Each with its name.
pub fn searches() -> Vec<(&'static str, Sample)> {
    let plain = ["rel E 2", "choose T 1"];
    let runs = (1..10).flat_map(|d| (0..20 - 2 * d).map(move |x| vec![x, x + d, x + 2 * d]));
    let runs: Vec<_> = runs.collect();
    let matching: Vec<_> = [[0, 3], [1, 0], [1, 2], [2, 1], [3, 2], [3, 0]].map(Vec::from).into();
    vec![
        ("find: two colours, ring of 20", question(&plain, TWO_COLOURS, 20, &ring(20))),
        ("find: two colours, ring of 19 (none)", question(&plain, TWO_COLOURS, 20, &ring(19))),
        ("find: kernel of a graph of 20", question(&plain, KERNEL, 20, &graph(2))),
        (
            "find: matching by Inj, 4",
            question(
                &["rel E 2", "choose F Inj"],
                "(forall (?x ?y) (implies (F ?x ?y) (E ?x ?y)))",
                4,
                &matching,
            ),
        ),
        (
            "find: no progression of three (none)",
            question(&["rel P 3", "choose T 1"], NO_PROGRESSION, 20, &runs),
        ),
        ("find: two parts without a triangle", question(&plain, NO_TRIANGLE, 20, &graph(4))),
        ("find: two parts without a triangle (none)", question(&plain, NO_TRIANGLE, 20, &graph(6))),
        ("find: four quantifiers, the last of all", question(&plain, LAST, 20, &[])),
        ("find: a bare contradiction (none)", question(&plain, NEVER, 20, &[])),
    ]
}

/// Rules that only ever want more, each with its name: one that some picks meet, one that none do.
pub fn wanting() -> Vec<(&'static str, Sample)> {
    let plain = ["rel E 2", "choose T 1"];
    let cover = "(forall (?x) (or (T ?x) (exists (?y) (and (E ?x ?y) (T ?y)))))";
    let never = "(exists (?x) (and (T ?x) (LT ?x ?x)))";
    vec![
        ("a cover of a graph of 20", question(&plain, cover, 20, &graph(2))),
        ("no picks of 20 will do", question(&plain, never, 20, &graph(2))),
    ]
}
