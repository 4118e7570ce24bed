//! Yes or no: the order of refusals, and that building with room enough answers alike.

use peer::naming::drawn;
use peer::sample::{needs, Random};
use peer::{build_text, judge, judge_text, Refusal, Reply};

const SITE: &[u8] = b"size\t2\n";
const EACH: &[u8] = b"choose\tT\t1\nrule\t(forall (?x) (T ?x))\n";
const SOME: &[u8] = b"choose\tT\t1\nrule\t(exists (?x) (T ?x))\n";
const INJ: &[u8] = b"choose\tF\tInj\nrule\t(exists (?x) (F ?x ?x))\n";
const UNUSED: &[u8] = b"choose\tT\t1\nrule\t(forall (?x) (exists (?y) (not (T ?y))))\n";

const YES: Reply = Reply::Accepted(0);

fn no(number: u32, place: u64) -> Reply {
    Reply::Refused(Refusal { number, place })
}

#[test]
fn the_last_element_decides() {
    assert_eq!(judge_text(EACH, SITE, b"pick\tT\t0\npick\tT\t1\n"), YES);
    assert_eq!(judge_text(EACH, SITE, b"pick\tT\t0\n"), no(17, 0));
    assert_eq!(judge_text(SOME, SITE, b"pick\tT\t1\n"), YES);
    assert_eq!(judge_text(SOME, SITE, b""), no(17, 0));
}

#[test]
fn a_variable_that_is_not_used() {
    assert_eq!(judge(UNUSED, SITE, &[1]), YES);
    assert_eq!(judge(UNUSED, SITE, &[2]), YES);
    assert_eq!(judge(UNUSED, SITE, &[3]), no(17, 0));
}

#[test]
fn refusals_come_in_the_builders_order() {
    assert_eq!(judge(EACH, b"size\t0\n", &[]), no(9, 0));
    assert_eq!(judge(EACH, SITE, &[]), no(12, 1));
    assert_eq!(judge(EACH, SITE, &[4]), no(10, 0));
    assert_eq!(judge_text(EACH, SITE, b"pick\tT\t2\n"), no(9, 0));
    // Two seconds, and false; then neither total nor true.
    assert_eq!(judge(INJ, SITE, &[0b0100 | 0b0010 | 0b1000]), no(16, 0));
    assert_eq!(judge(INJ, SITE, &[0b0001]), no(17, 0));
    assert_eq!(judge(INJ, SITE, &[0b1001]), YES);
}

#[test]
fn too_large_a_case_is_no_yes() {
    let rule = "(forall (?a ?b ?c ?d) (or (T ?a ?b) (T ?c ?d)))";
    let question = format!("choose\tT\t2\nrule\t{rule}\n");
    assert_eq!(judge(question.as_bytes(), b"size\t32\n", &[u64::MAX; 16]), no(11, 0));
}

#[test]
fn building_with_room_enough_answers_alike() {
    for seed in 0..2_000 {
        let sample = drawn(&mut Random::new(seed));
        let [_, state, steps] = needs(&sample).unwrap_or_default();
        let (mut state, mut steps) = (vec![0; state], vec![0; steps]);
        let (question, site, picks) = (&sample.question, &sample.site, &sample.picks);
        let built = match build_text(question, site, picks, &mut state, &mut steps) {
            Reply::Accepted(_) => YES,
            refused => refused,
        };
        assert_eq!(judge_text(question, site, picks), built, "seed {seed}");
    }
}
