//! Tallies and allowances of small cases, counted by hand.

use peer::{allowances, tally, Refusal, Reply, Tally};

const SHEET: [&[u8]; 2] = [
    b"rel\tD\t1\nchoose\tT\t1\nrule\t(forall (?y) (or (D ?y) (T ?y)))\n",
    b"size\t2\nfact\tD\t0\n",
];
const TOTAL: [&[u8]; 2] = [b"choose\tF\tInj\nrule\t(forall (?x) (EQ ?x ?x))\n", b"size\t2\n"];
const DEEP: [&[u8]; 2] = [
    b"choose\tT\t1\nchoose\tS\t1\nrule\t(forall (?x) (implies (T ?x) (exists (?y) (or (LT ?x ?y) (S ?x)))))\n",
    b"size\t3\n",
];

fn allowed(case: [&[u8]; 2], room: usize) -> (Reply, Vec<u64>) {
    let mut out = vec![7; room];
    (allowances(case[0], case[1], &mut out), out)
}

#[test]
fn tallies() {
    let count = |case: [&[u8]; 2]| tally(case[0], case[1]);
    assert_eq!(count(SHEET), Ok(Tally { nodes: 2, atoms: 47, actions: 10 }));
    assert_eq!(count(TOTAL), Ok(Tally { nodes: 4, atoms: 54, actions: 15 }));
    assert_eq!(count([SHEET[0], b"size\t65\n"]), Err(Refusal { number: 9, place: 0 }));
}

#[test]
fn a_node_counts_for_what_is_anywhere_below_it() {
    assert_eq!(allowed(SHEET, 1), (Reply::Accepted(0), vec![5]));
    assert_eq!(allowed(TOTAL, 2), (Reply::Accepted(0), vec![6, 7]));
    assert_eq!(allowed(DEEP, 2), (Reply::Accepted(0), vec![7, 19]));
}

#[test]
fn a_short_buffer_is_left() {
    let refused = Reply::Refused(Refusal { number: 12, place: 2 });
    assert_eq!(allowed(DEEP, 1), (refused, vec![7]));
}
