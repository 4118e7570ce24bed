//! Large cases whose plans are built, and sites full of facts.

use crate::limits::USUAL;
use crate::naming::{label_lines, renamed, Names};
use crate::sample::{needs, steps_text, Sample};
use crate::sheets;
use crate::text::Reply;
use crate::trial::{Calls, Peer};

const PATH_RULE: &str = "(forall (?x) (implies (not (MAX ?x)) (exists (?u ?y ?z) \
(and (E ?y ?z) (F ?x ?y) (SUC ?x ?u) (F ?u ?z)))))";
const DEEP_RULE: &str = "(forall (?a ?b ?c ?d) (or (D ?a ?b) (T ?c ?d)))";
const LAST_RULE: &str = "(exists (?a ?b ?c ?d) (and (D ?a ?b) (T ?c ?d)))";
const LOST_RULE: &str = "(or (exists (?a ?b) (and (LT ?a ?b) (LOST ?a) (LOST ?b))) \
(forall (?d) (exists (?c) (and (T ?d ?c) (not (LOST ?c))))))";
const ZONES_RULE: &str = "(and (forall (?x ?g) (implies (F ?x ?g) (GROUP ?g))) (forall (?x ?y) \
(implies (DOOR ?x ?y) (not (exists (?g) (and (F ?x ?g) (F ?y ?g)))))))";
const ROUND_RULE: &str = "(forall (?x ?u) (implies (SUC ?x ?u) (forall (?y) (implies (F ?x ?y) \
(exists (?z) (and (DOOR ?y ?z) (F ?u ?z)))))))";

const SORTED_RULE: &str =
    "(and (forall (?x:ZONE) (exists (?g:GROUP) (F ?x ?g))) (forall (?x:ZONE ?y:ZONE) \
(implies (DOOR ?x ?y) (not (exists (?g:GROUP) (and (F ?x ?g) (F ?y ?g)))))))";

const KIND_RULE: &str = "(forall (?x:ZONE ?y:ZONE) \
(implies (DOOR ?x ?y) (not (exists (?g:GROUP) (and (F ?x ?g) (F ?y ?g))))))";

/// A directed Hamiltonian path through so many vertices, a number that 7 does not divide, with half of all edges.
pub fn path(n: usize) -> Sample {
    let order: Vec<usize> = (0..n).map(|place| place * 7 % n).collect();
    let mut site = format!("size\t{n}\n");
    for (from, to) in (0..n * n).map(|row| (row / n, row % n)) {
        if (from * 5 + to * 3) % 2 == 0 || order.windows(2).any(|edge| edge == [from, to]) {
            site += &format!("fact\tE\t{from}\t{to}\n");
        }
    }
    let mut picks = String::new();
    for (place, vertex) in order.iter().enumerate() {
        picks += &format!("pick\tF\t{place}\t{vertex}\n");
    }
    let question = format!("rel\tE\t2\nchoose\tF\tInj\nrule\t{PATH_RULE}\n");
    filed(question, site, picks)
}

/// The doors of an airport of 64 zones, eight by eight: from each zone to all that touch it.
fn doors() -> String {
    let near = |one: usize, other: usize| one.abs_diff(other) <= 1;
    let mut site = String::from("size\t64\n");
    for (from, to) in (0..64 * 64).map(|row| (row / 64, row % 64)) {
        if from != to && near(from / 8, to / 8) && near(from % 8, to % 8) {
            site += &format!("fact\tDOOR\t{from}\t{to}\n");
        }
    }
    site
}

/// A card group of four for each zone of an airport, so that no door joins two zones of one group.
pub fn zones() -> Sample {
    let question = format!("rel\tDOOR\t2\nrel\tGROUP\t1\nchoose\tF\tFun\nrule\t{ZONES_RULE}\n");
    let groups: String = (0..4).map(|group| format!("fact\tGROUP\t{group}\n")).collect();
    let group = |zone: usize| zone / 8 % 2 * 2 + zone % 2;
    let picks = (0..64).map(|zone| format!("pick\tF\t{zone}\t{}\n", group(zone)));
    filed(question, doors() + &groups, picks.collect())
}

/// The same for 60 zones, six to a row, where zones and groups are types and the last four elements are the groups.
pub fn sorted_zones() -> Sample {
    of_sorts("PFun", SORTED_RULE)
}

/// The same with a kind that goes from zones to groups, so that the rule need not say that each zone has one.
pub fn kind_zones() -> Sample {
    of_sorts("Fun\tZONE\tGROUP", KIND_RULE)
}

fn of_sorts(kind: &str, rule: &str) -> Sample {
    let types = "type\tZONE\ntype\tGROUP\n";
    let question = format!("rel\tDOOR\t2\n{types}choose\tF\t{kind}\nrule\t{rule}\n");
    let near = |one: usize, other: usize| one.abs_diff(other) <= 1;
    let mut site = String::from("size\t64\n");
    for element in 0..64 {
        let name = if element < 60 { "ZONE" } else { "GROUP" };
        site += &format!("member\t{name}\t{element}\n");
    }
    for (from, to) in (0..60 * 60).map(|row| (row / 60, row % 60)) {
        if from != to && near(from / 6, to / 6) && near(from % 6, to % 6) {
            site += &format!("fact\tDOOR\t{from}\t{to}\n");
        }
    }
    let group = |zone: usize| 60 + zone / 6 % 2 * 2 + zone % 2;
    let picks = (0..60).map(|zone| format!("pick\tF\t{zone}\t{}\n", group(zone)));
    filed(question, site, picks.collect())
}

/// A round through all zones of an airport, by doors: row after row, every other row backwards.
pub fn round() -> Sample {
    let question = format!("rel\tDOOR\t2\nchoose\tF\tInj\nrule\t{ROUND_RULE}\n");
    let zone =
        |stop: usize| if (stop / 8).is_multiple_of(2) { stop } else { stop / 8 * 8 + 7 - stop % 8 };
    let picks = (0..64).map(|stop| format!("pick\tF\t{stop}\t{}\n", zone(stop)));
    filed(question, doors(), picks.collect())
}

/// Four nested quantifiers over a disjunction that nearly always holds; with 26 elements nearly as large as a case may be.
pub fn deep(n: usize) -> Sample {
    let mut site = format!("size\t{n}\n");
    let mut picks = String::new();
    for (first, second) in (0..n * n).map(|row| (row / n, row % n)) {
        if second != first {
            site += &format!("fact\tD\t{first}\t{second}\n");
        }
        picks += &format!("pick\tT\t{first}\t{second}\n");
    }
    let question = format!("rel\tD\t2\nchoose\tT\t2\nrule\t{DEEP_RULE}\n");
    filed(question, site, picks)
}

/// Eight cards, each door opened by two of them: whichever single card is lost, every door still opens. 256 rounds.
pub fn lost_cards() -> Sample {
    let question = format!("choose\tT\t2\nevery\tLOST\t1\nrule\t{LOST_RULE}\n");
    let picks = (0..8)
        .map(|door| format!("pick\tT\t{door}\t{door}\npick\tT\t{door}\t{}\n", (door + 3) % 8));
    filed(question, "size\t8\n".into(), picks.collect())
}

/// A relation of three places over 64 elements, of which few tuples are picked.
pub fn triples() -> Sample {
    let question = "choose\tT\t3\nrule\t(forall (?x) (exists (?y) (T ?x ?y ?x)))\n";
    let picks = (0..64).map(|x| format!("pick\tT\t{x}\t{}\t{x}\n", x * 5 % 64));
    filed(question.into(), "size\t64\n".into(), picks.collect())
}

/// So many elements, and no fact: what a call costs before anything is done.
pub fn bare(n: usize) -> Sample {
    let question = "choose\tT\t1\nrule\t(exists (?x) (T ?x))\n";
    filed(question.into(), format!("size\t{n}\n"), "pick\tT\t0\n".into())
}

/// A chain of `and`s under four quantifiers that speaks of two of their variables only, so that an evaluator asks it again and again.
pub fn slow_to_judge(n: usize) -> Sample {
    let chain = format!("{}(not (E ?c ?d)){}", "(and ".repeat(52), ")".repeat(52));
    let rule =
        format!("(forall (?a ?b ?c) (and (EQ ?a ?a) (EQ ?b ?b) (EQ ?c ?c) (forall (?d) {chain})))");
    filed(format!("rel\tE\t2\nchoose\tT\t1\nrule\t{rule}\n"), format!("size\t{n}\n"), String::new())
}

/// The same case with a label of twelve bytes for each element.
pub fn labelled(sample: &Sample) -> Sample {
    let site = String::from_utf8_lossy(&sample.site);
    let (size, facts) = site.split_once('\n').expect("a site's first line");
    let n: usize = size.split('\t').nth(1).and_then(|n| n.parse().ok()).expect("its size");
    let labels: String =
        (0..n).map(|element| format!("label\t{element}\tELEMENT_{element:04}\n")).collect();
    Sample { site: format!("{size}\n{labels}{facts}").into_bytes(), ..sample.clone() }
}

/// Four nested quantifiers that have one witness, the last of all.
pub fn last(n: usize) -> Sample {
    let question = format!("rel\tD\t2\nchoose\tT\t2\nrule\t{LAST_RULE}\n");
    let end = n - 1;
    let site = format!("size\t{n}\nfact\tD\t{end}\t{end}\n");
    filed(question, site, format!("pick\tT\t{end}\t{end}\n"))
}

/// The path of 15 with two vertices exchanged, so that its first edge is none.
pub fn broken_path() -> Sample {
    let path = path(15);
    let picks = String::from_utf8_lossy(&path.picks).replace("\t1\t7\n", "\t1\t13\n");
    picked(&path, picks.replace("\t4\t13\n", "\t4\t7\n"))
}

/// The case of [`deep`] without the first pick, so that the first row is false.
pub fn broken_deep(n: usize) -> Sample {
    let deep = deep(n);
    let picks = String::from_utf8_lossy(&deep.picks).replace("pick\tT\t0\t0\n", "");
    picked(&deep, picks)
}

/// The same case with other picks, as text and lent, and no steps.
fn picked(sample: &Sample, picks: String) -> Sample {
    let question = sheets::question(&sample.question).expect("an accepted question");
    let site = sheets::site(&sample.site, &question.signature, &USUAL).expect("an accepted site");
    let tables = sheets::picks(picks.as_bytes(), &question.signature, &site);
    let lent_picks = tables.expect("picks of their form").words;
    let (question, site) = (sample.question.clone(), sample.site.clone());
    Sample { question, site, picks: picks.into(), lent_picks, ..Sample::default() }
}

/// A case with its picks and its built steps, both as text and lent.
fn filed(question: String, site: String, picks: String) -> Sample {
    let (question, site, picks) = (question.into(), site.into(), picks.into());
    planned(Sample { question, site, picks, ..Sample::default() })
}

/// The same case with the plan of its picks.
pub fn planned(mut sample: Sample) -> Sample {
    let [words, state, steps] = needs(&sample).expect("an accepted case");
    let (mut state, mut steps) = (vec![0; state], vec![0; steps]);
    let case = [&sample.question[..], &sample.site[..]];
    let Reply::Accepted(count) = Peer.build_text(case, &sample.picks, &mut state, &mut steps)
    else {
        panic!("picks that do not meet their rule");
    };
    steps.truncate(count as usize);
    sample.lent_picks = vec![0; words];
    Peer.picks(case, &steps, &mut sample.lent_picks, &mut state);
    sample.steps = steps_text(&steps);
    sample.lent_steps = steps;
    sample
}

/// The same plan with proofs repeated before its last step, up to a length.
pub fn padded(sample: &Sample, length: usize) -> Sample {
    let mut steps = sample.lent_steps.clone();
    let goal = steps.pop().expect("a plan's last step");
    let proofs = steps[sample.lent_steps.len() / 2..].to_vec();
    let missing = length - 1 - steps.len();
    steps.extend(proofs.iter().cycle().take(missing));
    steps.push(goal);
    Sample { lent_steps: steps, ..sample.clone() }
}

/// A site of 16 elements that is close to this many kilobytes of facts, 64 at the most.
pub fn facts(kilobytes: usize) -> Sample {
    let mut site = String::from("size\t16\n");
    'rows: for row in 0..16 * 16 * 16 {
        for name in ["ROOM", "DOOR"] {
            let line = format!("fact\t{name}\t{}\t{}\t{}\n", row / 256, row / 16 % 16, row % 16);
            if site.len() + line.len() > kilobytes * 1_024 {
                break 'rows;
            }
            site += &line;
        }
    }
    let question = "rel\tROOM\t3\nrel\tDOOR\t3\nchoose\tT\t1\nrule\t(forall (?x) (T ?x))\n";
    Sample { question: question.into(), site: site.into(), ..Sample::default() }
}

/// A site of 64 elements and exactly so many bytes, of facts.
pub fn wide_facts(bytes: usize) -> Sample {
    let question = "rel\tDOOR\t2\nrel\tROOM\t3\nchoose\tT\t1\nrule\t(forall (?x) (T ?x))\n";
    let head = "size\t64\n";
    let fact = |first, row| format!("fact\tROOM\t{first}\t{}", two_of(row));
    let (long, short) = (|row| fact(first_of(row), row), |row| fact(0, row));
    let rest = bytes - head.len();
    let site = format!("{head}{}", exactly(rest, rest.div_ceil(19), long, short));
    Sample { question: question.into(), site: site.into(), ..Sample::default() }
}

/// Picks of three places over 64 elements, exactly so many bytes.
pub fn wide_picks(bytes: usize) -> Sample {
    let question = "choose\tT\t3\nrule\t(exists (?a ?b ?c) (T ?a ?b ?c))\n";
    let pick = |first, row| format!("pick\tT\t{first}\t{}", two_of(row));
    let (long, short) = (|row| pick(first_of(row), row), |row| pick(0, row));
    let picks = exactly(bytes, bytes.div_ceil(16), long, short);
    let site = b"size\t64\n".to_vec();
    Sample { question: question.into(), site, picks: picks.into(), ..Sample::default() }
}

/// A name of 12 bytes for each element, which differs from the others at its end alone.
pub fn long_names(n: usize) -> Names {
    (0..n).map(|element| Some(format!("TERMINAL_{element:03}"))).collect()
}

/// So many bytes of lines with three places each, once they are filled by names. Each tuple once where n is a power of 2.
fn spread(bytes: usize, head: &str, n: usize) -> String {
    let line = head.len() + "\tTERMINAL_000".len() * 3 + 1;
    let tuples = (0..bytes / line).map(|row| row * 40_503 % (n * n * n));
    tuples.map(|row| format!("{head}\t{}\t{}\t{}\n", row / n / n, row / n % n, row % n)).collect()
}

/// A site of close to so many bytes, of facts over 64 elements that all stand there by name; and the same facts by number.
pub fn named_facts(bytes: usize) -> [Sample; 2] {
    let question = "rel\tDOOR\t2\nrel\tROOM\t3\nchoose\tT\t1\nrule\t(forall (?x) (T ?x))\n";
    let (head, names) = ("size\t64\n", long_names(64));
    let labels = label_lines(&names).concat();
    let facts = spread(bytes - head.len() - labels.len(), "fact\tROOM", 64);
    let named = format!("{head}{labels}{}", renamed(&facts, &names, || true));
    [named, format!("{head}{facts}")].map(|site| Sample {
        question: question.into(),
        site: site.into(),
        ..Sample::default()
    })
}

/// Picks of three places over so many elements, close to so many bytes, that all stand there by name; and the same picks by number.
pub fn named_picks(bytes: usize, n: usize) -> [Sample; 2] {
    let question = "choose\tT\t3\nrule\t(exists (?a ?b ?c) (T ?a ?b ?c))\n";
    let names = long_names(n);
    let (site, picks) = (format!("size\t{n}\n"), spread(bytes, "pick\tT", n));
    let named = (site.clone() + &label_lines(&names).concat(), renamed(&picks, &names, || true));
    [named, (site, picks)].map(|(site, picks)| Sample {
        question: question.into(),
        site: site.into(),
        picks: picks.into(),
        ..Sample::default()
    })
}

/// An element of two digits, and two more at a line's end, all three fixed by the row.
fn first_of(row: usize) -> usize {
    10 + row / 54 / 54
}

fn two_of(row: usize) -> String {
    format!("{}\t{}\n", 10 + row / 54 % 54, 10 + row % 54)
}

/// So many lines of exactly so many bytes together: long ones, and before them as many as it takes that are a byte shorter.
pub fn exactly(
    bytes: usize,
    lines: usize,
    long: impl Fn(usize) -> String,
    short: impl Fn(usize) -> String,
) -> String {
    let shorter = lines * long(0).len() - bytes;
    (0..shorter).map(short).chain((shorter..lines).map(long)).collect()
}

/// The case of some tuple among five, whose plan goes on proving it for as long as is wanted: by element 0 (step 6) or 4 (step 10).
pub fn some() -> Sample {
    let question = b"choose\tT\t1\nrule\t(exists (?x) (T ?x))\n".to_vec();
    Sample { question, site: b"size\t5\n".to_vec(), ..Sample::default() }
}

/// Its plan as a text of exactly so many bytes, with as many steps as fit.
pub fn long_text(bytes: usize) -> Sample {
    let (head, tail) = ("step\t0\nstep\t4\nstep\t5\n", "step\t11\n");
    let rest = bytes - head.len() - tail.len();
    let middle = exactly(rest, rest / 7, |_| "step\t10\n".into(), |_| "step\t6\n".into());
    Sample { steps: format!("{head}{middle}{tail}").into(), ..some() }
}

/// Its plan as so many lent steps, the last two of which reach the goal.
pub fn long_list(steps: usize) -> Sample {
    let mut lent_steps = vec![6; steps];
    lent_steps[..3].copy_from_slice(&[0, 4, 5]);
    lent_steps[steps - 2..].fill(11);
    Sample { lent_steps, ..some() }
}
