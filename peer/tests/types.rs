//! Types: what each line about a type is answered, where 19 stands among the other numbers, and what a type leaves of a case.

use peer::sample::{needs, sound, Random, Sample};
use peer::trial::{run, Call, Peer, CALLS};
use peer::typing::typed;
use peer::{
    action, action_number, allowances, build_text, check, judge_text, rule_part, sizes, tally,
    Action, Prove, Refusal, Reply, Tally,
};

fn refused(number: u32, place: usize) -> Refusal {
    Refusal { number, place: place as u64 }
}

/// The number of a question's refusal, 0 for none; the place is that of the line marked by a bar.
fn question_number(question: &str) -> u32 {
    let place = question.find('|').unwrap_or_default();
    match rule_part(question.replace('|', "").as_bytes()).1 {
        None => 0,
        Some(Refusal { number, place: found }) => {
            assert_eq!(found, place as u64, "{question}");
            number
        }
    }
}

#[test]
fn a_type_has_its_place_and_form() {
    let rest = "choose\tT\t1\nrule\t(exists (?x) (T ?x))\n";
    let eight: String = (0..8).map(|type_| format!("type\tT{type_}\n")).collect();
    for (lines, number) in [
        ("type\tDOOR\n", 0),
        ("rel\tR\t1\ntype\tR\n", 0),
        ("type\tEQ\ntype\tT\ntype\tABCDEFGHIJ_2\n", 0),
        (&eight, 0),
        (&format!("{eight}|type\tT8\n"), 3),
        (&format!("{eight}|type\tT0\n"), 3),
        (&format!("{eight}|type\tdoor\n"), 3),
        (&format!("{eight}|type\n"), 2),
        ("|type\n", 2),
        ("|type\tDOOR\t1\n", 2),
        ("|type\t\n", 4),
        ("|type\tdoor\n", 4),
        ("|type\tABCDEFGHIJ_23\n", 4),
        ("type\tDOOR\n|type\tDOOR\n", 19),
        ("type\tDOOR\ntype\tZONE\n|type\tDOOR\n", 19),
        ("type\tDOOR\n|rel\tR\t1\n", 3),
        ("type\tDOOR\n|rel\tr\t1\n", 3),
        ("choose\tU\t1\n|type\tDOOR\n", 3),
        ("choose\tU\t1\n|type\tdoor\n", 3),
        ("|member\tDOOR\t0\n", 3),
        ("|member\tDOOR\t00\n", 2),
    ] {
        assert_eq!(question_number(&format!("{lines}{rest}")), number, "{lines}");
    }
}

#[test]
fn a_typed_variable_stands_in_a_list() {
    let rule = |rule: &str| question_number(&format!("type\tDOOR\nchoose\tT\t1\n|rule\t{rule}\n"));
    for (text, number) in [
        ("(exists (?x:DOOR) (T ?x))", 0),
        ("(forall (?x ?y:DOOR ?z) (T ?y))", 0),
        ("(exists (?abcdefg:DOOR) (T ?abcdefg))", 0),
        ("(exists (?abcdefgh:DOOR) (T ?abcdefgh))", 5),
        ("(exists (?x:ABCDEFGHIJ_23) (T ?x))", 5),
        ("(exists (?x:door) (T ?x))", 5),
        ("(exists (?x:) (T ?x))", 5),
        ("(exists (?x::DOOR) (T ?x))", 5),
        ("(exists (?x:DOOR:DOOR) (T ?x))", 5),
        ("(exists (?x :DOOR) (T ?x))", 5),
        ("(exists (?x: DOOR) (T ?x))", 5),
        ("(exists (:DOOR) (T ?x))", 5),
        ("(exists (?x) (T ?x:DOOR))", 5),
        ("(exists (?a:DOOR ?b:DOOR ?c:DOOR ?d:DOOR ?e:DOOR) (T ?a))", 5),
        ("(exists (?a:DOOR ?b:NOPE ?c:DOOR ?d:DOOR) (forall (?e) (T ?a)))", 6),
        ("(exists (?x:NOPE) (U ?x))", 7),
        ("(exists (?x:NOPE) (T ?y))", 8),
        ("(exists (?x:DOOR ?x:NOPE) (T ?x))", 8),
        ("(and (exists (?x:NOPE) (T ?x)) (exists (?y) (T ?x)))", 8),
        ("(exists (?x:NOPE) (T ?x))", 19),
        ("(exists (?x:T) (T ?x))", 19),
        ("(and (exists (?x:DOOR) (T ?x)) (not (forall (?y:ABCDEFGHIJ_2) (T ?y))))", 19),
    ] {
        assert_eq!(rule(text), number, "{text}");
    }
}

const QUESTION: &[u8] = b"rel\tD\t1\ntype\tDOOR\ntype\tZONE\nchoose\tT\t1\n\
rule\t(forall (?x:DOOR) (exists (?y:ZONE) (or (D ?y) (T ?x))))\n";

#[test]
fn members_stand_between_labels_and_facts() {
    let both = "member\tDOOR\t1\nmember\tZONE\tLOBBY\n";
    for (lines, number) in [
        (both, 0),
        ("member\tZONE\t2\nmember\tDOOR\t2\n", 0),
        ("|member\tDOOR\n", 2),
        ("|member\tDOOR\t0\t1\n", 2),
        ("|member\tDOOR\t00\n", 2),
        ("|member\tNOPE\tlobby\n", 2),
        ("|member\tdoor\tABCDEFGHIJ_23\n", 2),
        (&format!("{both}|label\t0\tHALL\n"), 3),
        (&format!("{both}fact\tD\t0\n|member\tDOOR\t0\n"), 3),
        (&format!("{both}fact\tD\t0\n|member\tNOPE\t9\n"), 3),
        (&format!("{both}|size\t3\n"), 3),
        ("|member\tNOPE\t0\n", 19),
        ("|member\tdoor\t0\n", 19),
        ("|member\t\t0\n", 19),
        ("|member\tD\t9\n", 19),
        ("|member\tNOPE\tHALL\n", 19),
        ("|member\tDOOR\t3\n", 9),
        ("|member\tDOOR\tHALL\n", 18),
        (&format!("{both}|member\tDOOR\t1\n"), 10),
        (&format!("{both}|member\tZONE\t2\n"), 10),
        (&format!("{both}|member\tZONE\tLOBBY\n"), 10),
        (&format!("{both}|fact\tDOOR\t1\n"), 7),
    ] {
        let site = format!("size\t3\nlabel\t2\tLOBBY\n{lines}");
        let place = site.find('|').unwrap_or_default();
        let found = sizes(QUESTION, site.replace('|', "").as_bytes());
        let wanted = if number == 0 { None } else { Some(refused(number, place)) };
        assert_eq!(found.err(), wanted, "{site}");
    }
    // Not before the size, and in no other sheet.
    assert_eq!(sizes(QUESTION, b"member\tDOOR\t0\nsize\t3\n"), Err(refused(3, 0)));
    let site = b"size\t3\nmember\tDOOR\t0\nmember\tZONE\t0\n";
    let judged = |picks: &[u8]| judge_text(QUESTION, site, picks);
    assert_eq!(judged(b"member\tDOOR\t1\n"), Reply::Refused(refused(3, 0)));
    assert_eq!(judged(b"type\tDOOR\n"), Reply::Refused(refused(3, 0)));
    assert_eq!(judged(b"type\tDOOR\t1\n"), Reply::Refused(refused(2, 0)));
}

#[test]
fn a_type_without_members_is_found_at_the_end() {
    for (site, refusal) in [
        ("size\t3\n", refused(19, 0)),
        ("size\t3\nmember\tDOOR\t0\n", refused(19, 0)),
        ("size\t3\nmember\tZONE\t0\nfact\tD\t0\n", refused(19, 0)),
        ("", refused(3, 0)),
        ("size\t3\nmember\tZONE\t0\nfact\tD\t3\n", refused(9, 21)),
    ] {
        assert_eq!(sizes(QUESTION, site.as_bytes()), Err(refusal), "{site}");
        // Before anything is said of the third input.
        let third = judge_text(QUESTION, site.as_bytes(), b"pick\n");
        assert_eq!(third, Reply::Refused(refusal), "{site}");
    }
    // Used or not.
    let unused = b"type\tDOOR\nchoose\tT\t1\nrule\t(exists (?x) (T ?x))\n";
    assert_eq!(sizes(unused, b"size\t1\n"), Err(refused(19, 0)));
    assert!(sizes(unused, b"size\t1\nmember\tDOOR\t0\n").is_ok());
}

/// Doors 1 and 3, zones 0 and 2, of five elements.
const SITE: &[u8] =
    b"size\t5\nmember\tDOOR\t3\nmember\tZONE\t2\nmember\tDOOR\t1\nmember\tZONE\t0\nfact\tD\t2\n";

#[test]
fn atoms_stay_and_actions_are_those_of_members() {
    let plain = String::from_utf8_lossy(QUESTION).replace("type\tDOOR\ntype\tZONE\n", "");
    let plain = plain.replace(":DOOR", "").replace(":ZONE", "");
    let all = sizes(plain.as_bytes(), b"size\t5\nfact\tD\t2\n").unwrap();
    let typed = sizes(QUESTION, SITE).unwrap();
    assert_eq!([typed.n, typed.atoms, typed.bound], [all.n, all.atoms, all.bound]);
    // Sets, begin-proof and prove-goal; two doors; for each element two zones; for each pair two parts.
    assert_eq!([all.actions, typed.actions], [7 + 5 + 25 + 50, 7 + 2 + 10 + 50]);
    let count = tally(QUESTION, SITE).unwrap();
    assert_eq!(count, Tally { nodes: 3, atoms: typed.atoms, actions: typed.actions });
    // 1, the `forall` 5, the `exists` 5, the `or` 25.
    let mut allowance = [0];
    assert_eq!(allowances(QUESTION, SITE, &mut allowance), Reply::Accepted(0));
    assert_eq!(allowance, [36]);
}

#[test]
fn actions_by_number_and_back() {
    let prove = |node, row, choice| Action::Prove(Prove { node, row, choice });
    for (number, wanted) in [
        (6, prove(0, 0, 1)),
        (7, prove(0, 0, 3)),
        (8, prove(1, 0, 0)),
        (9, prove(1, 0, 2)),
        (17, prove(1, 4, 2)),
        (18, prove(2, 0, 0)),
        (67, prove(2, 24, 1)),
    ] {
        assert_eq!(action(QUESTION, SITE, number), Ok(wanted));
        assert_eq!(action_number(QUESTION, SITE, &wanted), Ok(Some(number as u32)));
    }
    for none in [prove(0, 0, 0), prove(0, 0, 2), prove(1, 0, 1), prove(1, 0, 4), prove(1, 5, 0)] {
        assert_eq!(action_number(QUESTION, SITE, &none), Ok(None));
    }
    assert_eq!(action(QUESTION, SITE, 68), Ok(Action::ProveGoal));
    assert_eq!(action(QUESTION, SITE, 69), Err(refused(13, 69)));
}

#[test]
fn a_chain_goes_from_member_to_member() {
    let (mut state, mut steps) = (vec![0; 9], vec![0; 60]);
    let reply = build_text(QUESTION, SITE, b"pick\tT\t4\n", &mut state, &mut steps);
    let Reply::Accepted(count) = reply else { panic!("{reply:?}") };
    steps.truncate(count as usize);
    // The last steps: up to 1, up to 3, goal; the atoms at 0, 2 and 4 are never true.
    assert_eq!(steps[steps.len() - 3..], [6, 7, 68]);
    let atoms = sizes(QUESTION, SITE).unwrap().atoms as usize;
    let forall = atoms - 25 - 5 - 5;
    let true_up_to: Vec<bool> =
        (forall..forall + 5).map(|atom| state[atom / 64] >> (atom % 64) & 1 == 1).collect();
    assert_eq!(true_up_to, [false, true, false, true, false]);
    // Up to 3 needs up to 1.
    let early = [&steps[..steps.len() - 3], &[7, 6, 68]].concat();
    let reply = check(QUESTION, SITE, &early, &mut state);
    assert_eq!(reply, Reply::Refused(refused(14, steps.len() - 3)));
}

#[test]
fn a_type_of_all_elements_is_as_good_as_none() {
    let mut compared = 0;
    for seed in 0..3_000 {
        let random = &mut Random::new(seed << 22);
        let plain = sound(random);
        let Some(rooms) = needs(&plain) else { continue };
        let sample = of_all(&typed(random, &plain), &plain);
        compared += 1;
        for call in CALLS {
            if matches!(call, Call::Rule | Call::DeskPicks | Call::DeskSteps) || is_pddl(call) {
                continue;
            }
            let wanted = run(&Peer, call, &plain, rooms);
            assert_eq!(run(&Peer, call, &sample, rooms), wanted, "seed {seed}, {call:?}");
        }
    }
    assert!(compared > 2_000, "{compared} compared");
}

/// No PDDL is written of a case with a type.
fn is_pddl(call: Call) -> bool {
    use Call::*;
    matches!(call, PddlDomain | PddlInstance | PddlPlanText | PddlPlan | PddlRead)
}

/// The typed question with a site whose types have every element, and the steps of the case without types.
fn of_all(sample: &Sample, plain: &Sample) -> Sample {
    let question = String::from_utf8_lossy(&sample.question);
    let site = String::from_utf8_lossy(&plain.site);
    let (size, facts) = site.split_at(site.find('\n').unwrap() + 1);
    let n: usize = size.trim_end()[5..].parse().unwrap();
    let mut members = String::new();
    for name in question.lines().filter_map(|line| line.strip_prefix("type\t")) {
        (0..n).rev().for_each(|element| members += &format!("member\t{name}\t{element}\n"));
    }
    let site = format!("{size}{members}{facts}").into();
    Sample { question: sample.question.clone(), site, ..plain.clone() }
}
