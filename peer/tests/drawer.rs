//! The case drawer of the paper, and the cases filed in the repository.

use peer::{
    action, action_number, build, build_text, check, check_text, picks, rule_part, sizes, Action,
    Prove, Refusal, Reply, Set,
};

const SHEET_QUESTION: &[u8] = b"rel\tD\t1\nchoose\tT\t1\nrule\t(forall (?y) (or (D ?y) (T ?y)))\n";
const SHEET_SITE: &[u8] = b"size\t2\nfact\tD\t0\n";
const SAT: &[u8] = b"rel\tN\t2\nrel\tP\t2\nchoose\tT\t1\nrule\t(forall (?y) (exists (?x) \
(or (and (P ?x ?y) (T ?x)) (and (N ?x ?y) (not (T ?x))))))\n";
const SAT_SITE: &[u8] = b"size\t3\nfact\tN\t1\t0\nfact\tN\t0\t1\nfact\tN\t2\t1\nfact\tN\t0\t2\n\
fact\tP\t0\t0\nfact\tP\t2\t0\nfact\tP\t1\t2\n";
const ONE: &[u8] = b"choose\tT\t1\nrule\t(forall (?y) (T ?y))\n";
const ONE_SITE: &[u8] = b"size\t1\n";

fn refused(number: u32, place: u64) -> Reply {
    Reply::Refused(Refusal { number, place })
}

fn build_steps(question: &[u8], site: &[u8], picks: &[u8]) -> Result<Vec<u32>, Reply> {
    let (mut state, mut steps) = (vec![0; 1024], vec![0; 65_536]);
    match build_text(question, site, picks, &mut state, &mut steps) {
        Reply::Accepted(count) => {
            steps.truncate(count as usize);
            let mut again = vec![0; 1024];
            assert_eq!(check(question, site, &steps, &mut again), Reply::Accepted(count));
            assert_eq!(again, state);
            Ok(steps)
        }
        refusal => Err(refusal),
    }
}

fn check_steps(question: &[u8], site: &[u8], steps: &[u32]) -> Reply {
    check(question, site, steps, &mut [0; 1024])
}

fn sizes_of(question: &[u8], site: &[u8]) -> [u64; 4] {
    let sizes = sizes(question, site).expect("an accepted case");
    [sizes.n, sizes.atoms, sizes.actions, sizes.bound]
}

#[test]
fn the_sheet() {
    assert_eq!(sizes_of(SHEET_QUESTION, SHEET_SITE), [2, 47, 10, 8]);
    let steps = build_steps(SHEET_QUESTION, SHEET_SITE, b"pick\tT\t1\n").unwrap();
    assert_eq!(steps, [1, 2, 5, 8, 3, 4, 9]);
    assert_eq!(check_steps(SHEET_QUESTION, SHEET_SITE, &steps[..6]), refused(15, 6));
    let text = b"step\t1\nstep\t2\nstep\t5\nstep\t8\nstep\t3\nstep\t4\nstep\t9\n";
    assert_eq!(check_text(SHEET_QUESTION, SHEET_SITE, text, &mut [0; 1]), Reply::Accepted(7));
    let (rule, refusal) = rule_part(SHEET_QUESTION);
    assert_eq!((rule, refusal), (&SHEET_QUESTION[24..56], None));
}

#[test]
fn satisfiability() {
    assert_eq!(sizes_of(SAT, SAT_SITE), [3, 144, 53, 38]);
    assert_eq!(build_steps(SAT, SAT_SITE, b"").unwrap().len(), 16);
    assert_eq!(build_steps(SAT, SAT_SITE, b"pick\tT\t0\npick\tT\t1\n").unwrap().len(), 16);
    assert_eq!(build_steps(SAT, SAT_SITE, b"pick\tT\t0\n"), Err(refused(17, 0)));
}

#[test]
fn one_element() {
    assert_eq!(build_steps(ONE, ONE_SITE, b"pick\tT\t0\n").unwrap(), [0, 1, 2, 3]);
    assert_eq!(build_steps(ONE, ONE_SITE, b""), Err(refused(17, 0)));
    assert_eq!(check_steps(ONE, ONE_SITE, &[1, 0]), refused(14, 1));
    assert_eq!(check_steps(ONE, ONE_SITE, &[0, 0]), refused(14, 1));
    assert_eq!(check_steps(ONE, ONE_SITE, &[]), refused(15, 0));
    assert_eq!(check_steps(ONE, ONE_SITE, &[4]), refused(13, 0));
}

#[test]
fn injection() {
    let question = b"choose\tF\tInj\nrule\t(forall (?x) (EQ ?x ?x))\n";
    let (one, two) = (&b"pick\tF\t0\t0\n"[..], &b"pick\tF\t0\t0\npick\tF\t1\t0\n"[..]);
    assert_eq!(build_steps(question, b"size\t2\n", two), Err(refused(16, 0)));
    assert_eq!(build_steps(question, b"size\t2\n", one), Err(refused(17, 0)));
}

#[test]
fn limits() {
    let with = |parts: usize| {
        let parts = " (T ?x)".repeat(parts);
        format!("choose\tT\t1\nrule\t(forall (?x) (or{parts}))\n")
    };
    assert!(sizes(with(62).as_bytes(), b"size\t1\n").is_ok());
    let refusal = sizes(with(63).as_bytes(), b"size\t1\n").unwrap_err();
    assert_eq!(refusal, Refusal { number: 6, place: 11 });
    let five = b"choose\tT\t1\nrule\t(forall (?a ?b ?c ?d) (exists (?e) (T ?e)))\n";
    assert_eq!(sizes(five, b"size\t1\n").unwrap_err().number, 6);
    assert!(sizes(ONE, b"size\t64\n").is_ok());
    for size in [&b"size\t0\n"[..], b"size\t65\n"] {
        assert_eq!(sizes(ONE, size).unwrap_err(), Refusal { number: 9, place: 0 });
    }
}

#[test]
fn actions_by_number() {
    for number in 0..53 {
        let found = action(SAT, SAT_SITE, number).unwrap();
        assert_eq!(action_number(SAT, SAT_SITE, &found), Ok(Some(number as u32)));
    }
    let none = Refusal { number: 13, place: 53 };
    assert_eq!(action(SAT, SAT_SITE, 53), Err(none));
    assert_eq!(action(SAT, SAT_SITE, 2), Ok(Action::Set(Set { choose: 0, row: 2 })));
    let prove = Prove { node: 1, row: 2, choice: 1 };
    assert_eq!(action(SAT, SAT_SITE, 14), Ok(Action::Prove(prove)));
}

#[test]
fn short_buffers() {
    let (mut state, mut steps) = ([9; 3], [9; 38]);
    let mut reply = |picks: usize, words: usize, room: usize| {
        build(SAT, SAT_SITE, &[0][..picks], &mut state[..words], &mut steps[..room])
    };
    assert_eq!(reply(0, 0, 0), refused(12, 1));
    assert_eq!(reply(1, 2, 0), refused(12, 3));
    assert_eq!(reply(1, 3, 37), refused(12, 38));
    assert_eq!(reply(1, 3, 38), Reply::Accepted(16));
    assert!(steps[16..].iter().all(|&step| step == 9));
    assert_eq!(build(SAT, SAT_SITE, &[8], &mut [0; 3], &mut [0; 38]), refused(10, 0));
    assert_eq!(check(SAT, SAT_SITE, &vec![0; 1_048_577], &mut []), refused(1, 0));
}

#[test]
fn picks_read_back() {
    let (mut read, mut state) = ([7, 7], [0; 3]);
    let steps = build_steps(SAT, SAT_SITE, b"pick\tT\t1\npick\tT\t0\n").unwrap();
    assert_eq!(picks(SAT, SAT_SITE, &steps, &mut read, &mut state), Reply::Accepted(16));
    assert_eq!(read, [3, 7]);
    assert_eq!(picks(SAT, SAT_SITE, &steps[..15], &mut read, &mut state), refused(15, 15));
    assert_eq!(read, [3, 7]);
}

#[test]
fn path_of_fifteen_and_of_thirty_one() {
    let question = b"rel\tE\t2\nchoose\tF\tInj\nrule\t(forall (?x) (implies (not (MAX ?x)) \
(exists (?u ?y ?z) (and (E ?y ?z) (F ?x ?y) (SUC ?x ?u) (F ?u ?z)))))\n";
    assert_eq!(sizes_of(question, b"size\t15\n"), [15, 56_644, 105_363, 54_318]);
    assert_eq!(sizes_of(question, b"size\t31\n"), [31, 964_228, 1_879_843, 954_462]);
    assert_eq!(sizes(question, b"size\t32\n").unwrap_err(), Refusal { number: 11, place: 0 });
}
