//! Types of function kinds: what their lines are answered, which tuples may be set, and what is total.

use peer::{
    action, action_number, allowances, build, build_text, check, judge, judge_text, rule_part,
    sizes, tally, Action, Refusal, Reply, Set, Tally,
};

fn refused(number: u32, place: usize) -> Refusal {
    Refusal { number, place: place as u64 }
}

#[test]
fn two_types_may_follow_a_function_kind() {
    for (lines, number) in [
        ("choose\tF\tFun\tDOOR\tGROUP\n", 0),
        ("choose\tF\tPFun\tDOOR\tGROUP\nchoose\tG\tFun\n", 0),
        ("choose\tF\tInj\tDOOR\tDOOR\nchoose\tG\tPInj\tGROUP\tDOOR\n", 0),
        ("choose\tDOOR\tFun\tDOOR\tDOOR\n", 0),
        ("|choose\tF\tFun\tDOOR\n", 2),
        ("|choose\tF\tFun\t\n", 2),
        ("|choose\tF\tFun\tDOOR\tGROUP\tDOOR\n", 2),
        ("|choose\tF\tFun\tDOOR\tGROUP\t\n", 2),
        ("|choose\tF\t2\tDOOR\tGROUP\n", 2),
        ("|choose\tF\t2\tDOOR\n", 2),
        ("|choose\tF\tfun\tDOOR\tGROUP\n", 2),
        ("|choose\tf\tFun\tNOPE\n", 2),
        ("|choose\tF\tDOOR\tFun\tGROUP\n", 2),
        ("|choose\tF\tDOOR\tGROUP\n", 2),
        ("|choose\tf\tFun\tDOOR\tGROUP\n", 4),
        ("|choose\tEQ\tFun\tNOPE\tGROUP\n", 4),
        ("|choose\tR\tPInj\tdoor\tGROUP\n", 4),
        ("|choose\tF\tFun\tNOPE\tGROUP\n", 19),
        ("|choose\tF\tPFun\tDOOR\tNOPE\n", 19),
        ("|choose\tF\tInj\tDOOR\tdoor\n", 19),
        ("|choose\tF\tPInj\t\tDOOR\n", 19),
        ("|choose\tF\tFun\t\t\n", 19),
        ("|choose\tF\tFun\tR\tDOOR\n", 19),
        ("|choose\tF\tFun\tDOOR\tABCDEFGHIJ_23\n", 19),
        ("choose\tU\t1\n|choose\tF\tFun\tDOOR\tU\n", 19),
        (&format!("{FOUR}|choose\tf\tFun\tNOPE\tDOOR\n"), 3),
        (&format!("{FOUR}|choose\tF\tFun\tDOOR\n"), 2),
    ] {
        let head = "rel\tR\t1\ntype\tDOOR\ntype\tGROUP\n";
        let rest = if lines.starts_with(FOUR) { "" } else { "choose\tT\t1\n" };
        let question = format!("{head}{lines}{rest}rule\t(exists (?x) (T ?x))\n");
        let place = question.find('|').unwrap_or_default();
        let found = rule_part(question.replace('|', "").as_bytes()).1;
        let wanted = (number > 0).then_some(refused(number, place));
        assert_eq!(found, wanted, "{lines}");
    }
}

#[test]
fn no_choose_stands_behind_the_rule_or_in_a_site() {
    let late = b"choose\tT\t1\nrule\t(exists (?x) (T ?x))\nchoose\tF\tFun\tA\tB\n";
    assert_eq!(rule_part(late).1, Some(refused(3, 37)));
    assert_eq!(sizes(QUESTION, b"choose\tF\tFun\tA\tB\n").err(), Some(refused(3, 0)));
    assert_eq!(sizes(QUESTION, b"choose\tF\tFun\tA\n").err(), Some(refused(2, 0)));
}

const FOUR: &str = "choose\tT\t1\nchoose\tU\t1\nchoose\tV\tFun\tDOOR\tDOOR\nchoose\tW\t1\n";

const QUESTION: &[u8] = b"type\tDOOR\ntype\tGROUP\nchoose\tT\t1\nchoose\tF\tFun\tDOOR\tGROUP\n\
choose\tG\tPInj\tGROUP\tDOOR\nrule\t(forall (?x ?y) (not (G ?x ?y)))\n";

/// Doors 1, 2 and 4, groups 0 and 3, of five elements.
const SITE: &[u8] = b"size\t5\nmember\tDOOR\t4\nmember\tDOOR\t1\nmember\tDOOR\t2\n\
member\tGROUP\t3\nmember\tGROUP\t0\n";

#[test]
fn atoms_and_bound_stay_and_sets_are_those_of_the_types() {
    let plain = String::from_utf8_lossy(QUESTION).replace("\tDOOR\tGROUP", "");
    let plain = plain.replace("\tGROUP\tDOOR", "");
    let all = sizes(plain.as_bytes(), SITE).unwrap();
    let typed = sizes(QUESTION, SITE).unwrap();
    assert_eq!([typed.n, typed.atoms, typed.bound], [all.n, all.atoms, all.bound]);
    // Begin-proof and prove-goal; the joining `and`; two `forall`; totality's `forall` and `exists`.
    assert_eq!(all.actions, 5 + 25 + 25 + 2 + 1 + 5 + 25 + 5 + 25);
    assert_eq!(typed.actions, 5 + 6 + 6 + 2 + 1 + 5 + 25 + 3 + 5 * 2);
    let count = tally(QUESTION, SITE).unwrap();
    assert_eq!(count, Tally { nodes: 5, atoms: typed.atoms, actions: typed.actions });
    // 1 each; for F the `and`, totality's 5 and 5; for G the `and`, 5 and 25.
    let mut allowance = [0; 3];
    assert_eq!(allowances(QUESTION, SITE, &mut allowance), Reply::Accepted(0));
    assert_eq!(allowance, [1, 12, 32]);
}

#[test]
fn set_actions_by_number_and_back() {
    let set =
        |choose, first: u32, second: u32| Action::Set(Set { choose, row: 5 * first + second });
    let firsts = [set(0, 0, 4), set(1, 1, 0), set(1, 1, 3), set(1, 2, 0), set(1, 2, 3)];
    let more = [set(1, 4, 0), set(1, 4, 3), set(2, 0, 1), set(2, 0, 2), set(2, 0, 4)];
    let last = [set(2, 3, 1), set(2, 3, 2), set(2, 3, 4), Action::BeginProof];
    for (number, wanted) in (4..).zip(firsts.into_iter().chain(more).chain(last)) {
        assert_eq!(action(QUESTION, SITE, number), Ok(wanted));
        assert_eq!(action_number(QUESTION, SITE, &wanted), Ok(Some(number as u32)));
    }
    for (choose, first, second) in
        [(1, 0, 0), (1, 3, 0), (1, 1, 1), (1, 4, 4), (2, 1, 0), (2, 3, 3), (1, 5, 0), (2, 9, 1)]
    {
        let none = set(choose, first, second);
        assert_eq!(action_number(QUESTION, SITE, &none), Ok(None), "{none:?}");
    }
}

#[test]
fn free_places_stay_those_of_all_elements() {
    let mut state = [0; 6];
    assert_eq!(check(QUESTION, SITE, &[], &mut state), Reply::Refused(refused(15, 0)));
    // 3; EQ, LT and SUC 150, ZERO and MAX 20; T 10; F 50 and 5; G 50 and 10.
    let holds = |atom: usize| state[atom / 64] >> (atom % 64) & 1 == 1;
    let (f, g) = (183, 238);
    for (first, end, wanted) in
        [(f, f + 25, false), (f + 25, f + 55, true), (g, g + 25, false), (g + 25, g + 60, true)]
    {
        assert!((first..end).all(|atom| holds(atom) == wanted), "{first} to {end}");
    }
}

fn judged(picks: &str) -> Reply {
    let lines = picks.split(' ').filter(|pick| !pick.is_empty());
    let text: String = lines.map(|pick| format!("pick\t{}\n", pick.replace(',', "\t"))).collect();
    let reply = judge_text(QUESTION, SITE, text.as_bytes());
    let (mut state, mut steps) = ([7; 6], [7; 70]);
    let built = build_text(QUESTION, SITE, text.as_bytes(), &mut state, &mut steps);
    match reply {
        Reply::Accepted(_) => assert!(matches!(built, Reply::Accepted(_)), "{picks}"),
        _ => assert_eq!((built, state, steps), (reply, [7; 6], [7; 70]), "{picks}"),
    }
    reply
}

#[test]
fn a_pick_outside_breaks_its_kind() {
    for (picks, number, place) in [
        ("F,1,0 F,2,0 F,4,3", 0, 0),
        ("F,1,0 F,2,0 F,4,3 T,0", 0, 0),
        // No door may lack its group, and no group needs one.
        ("F,1,0 F,2,0", 17, 0),
        ("", 17, 0),
        ("F,1,0 F,2,0 F,4,3 G,0,4", 17, 0),
        // A first place outside, a second outside, both.
        ("F,1,0 F,2,0 F,4,3 F,0,3", 16, 1),
        ("F,1,0 F,2,0 F,4,4", 16, 1),
        ("F,0,1", 16, 1),
        ("G,1,0", 16, 2),
        ("G,3,3", 16, 2),
        // Two seconds, two firsts, or outside: by the first `choose`.
        ("G,1,0 F,1,0 F,1,3", 16, 1),
        ("G,0,1 G,0,2 F,3,0", 16, 1),
        ("F,1,0 F,2,0 F,4,3 G,0,1 G,3,1", 16, 2),
        ("F,1,0 F,2,0 F,4,3 G,0,1 G,0,2", 16, 2),
    ] {
        let wanted = match number {
            0 => Reply::Accepted(0),
            _ => Reply::Refused(refused(number, place)),
        };
        assert_eq!(judged(picks), wanted, "{picks}");
    }
}

#[test]
fn a_lent_bit_outside_the_types_is_no_spare_bit() {
    let doors = 1 << 5 | 1 << 10 | 1 << 23;
    for (picks, refusal) in [
        ([0, doors, 0], None),
        ([0, doors | 1, 0], Some(refused(16, 1))),
        ([0, doors | 1 << 24, 0], Some(refused(16, 1))),
        ([0, doors | 1 << 25, 0], Some(refused(10, 1))),
        ([0, doors, 1], Some(refused(16, 2))),
        ([0, doors | 1, 1 << 25], Some(refused(10, 2))),
        ([1 << 5, doors | 1, 0], Some(refused(10, 0))),
    ] {
        let reply = judge(QUESTION, SITE, &picks);
        assert_eq!(reply, refusal.map_or(Reply::Accepted(0), Reply::Refused), "{picks:?}");
        let (mut state, mut steps) = ([7; 6], [7; 70]);
        let built = build(QUESTION, SITE, &picks, &mut state, &mut steps);
        match refusal {
            None => assert!(matches!(built, Reply::Accepted(_)), "{built:?}"),
            Some(_) => assert_eq!((built, state, steps), (reply, [7; 6], [7; 70])),
        }
    }
}
