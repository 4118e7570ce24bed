//! Many step lists of the case ONE: each from the initial state, whatever the
//! others give.

use peer::{tries, Refusal, Reply, Try};

const QUESTION: &[u8] = b"choose\tT\t1\nrule\t(forall (?y) (T ?y))\n";
const SITE: &[u8] = b"size\t1\n";

fn asked(first: u32, length: u32) -> Try {
    Try { first, length, number: 7, place: 7 }
}

/// The number and place of each list, and the state that is left.
fn tried(steps: &[u32], lists: &[(u32, u32)]) -> (Vec<(u32, u64)>, Vec<u64>) {
    let mut records: Vec<Try> = lists.iter().map(|list| asked(list.0, list.1)).collect();
    let mut state = vec![7; 2];
    assert_eq!(tries(QUESTION, SITE, steps, &mut records, &mut state), Reply::Accepted(0));
    for (record, list) in records.iter().zip(lists) {
        assert_eq!((record.first, record.length), *list);
    }
    (records.iter().map(|record| (record.number, record.place)).collect(), state)
}

#[test]
fn each_list_starts_from_the_initial_state() {
    let (replies, state) = tried(&[0, 1, 2, 3, 4], &[(0, 4), (0, 2), (2, 2), (4, 1), (0, 4)]);
    assert_eq!(replies, [(0, 4), (15, 2), (14, 0), (13, 0), (0, 4)]);
    assert_eq!(state, [19273, 7]);
}

#[test]
fn lists_that_are_empty_too_long_or_outside() {
    let lists = [(0, 0), (2, 0), (3, 0), (1, 2), (u32::MAX, 4), (0, 1_048_576), (0, 1_048_577)];
    let (replies, state) = tried(&[0, 1], &lists);
    let sum = (12, u64::from(u32::MAX) + 4);
    assert_eq!(replies, [(15, 0), (15, 0), (12, 3), (12, 3), sum, (12, 1_048_576), (1, 0)]);
    assert_eq!(state, [19273, 7]);
    assert_eq!(tried(&[], &[]).1, [19273, 7]);
}

#[test]
fn a_refused_case_leaves_everything() {
    for (site, room, number, place) in [(SITE, 0, 12, 1), (b"size\t65\n", 1, 9, 0)] {
        let (mut records, mut state) = ([asked(0, 1)], vec![7; room]);
        let reply = tries(QUESTION, site, &[0], &mut records, &mut state);
        assert_eq!(reply, Reply::Refused(Refusal { number, place }));
        assert_eq!((records, state), ([asked(0, 1)], vec![7; room]));
    }
}
