//! Plans in layers: windows, ends, what disturbs, and layers built by trying each in turn.

use peer::ground::{holds, Effects, Problem};
use peer::limits::USUAL;
use peer::naming::drawn;
use peer::sample::{needs, Random};
use peer::sheets;
use peer::trial::{Calls, Lent, Peer};
use peer::{check_layers, window, Refusal, Reply, Window};

/// A sentence, and its window with n elements: [a n + b, c n + d].
struct Row {
    problem: &'static str,
    question: &'static str,
    ours: [u64; 4],
    /// What document 000's table 2 has.
    printed: [u64; 4],
}

const TABLE: [Row; 6] = [
    Row {
        problem: "SAT",
        question: "rel\tN\t2\nrel\tP\t2\nchoose\tT\t1\nrule\t(forall (?y) (exists (?x) (or (and (P ?x ?y) (T ?x)) \
                   (and (N ?x ?y) (not (T ?x))))))\n",
        ours: [1, 5, 1, 6],
        printed: [1, 5, 1, 6],
    },
    Row {
        problem: "3-colouring",
        question: "rel\tE\t2\nchoose\tR\t1\nchoose\tG\t1\nchoose\tB\t1\nrule\t(forall (?x ?y) (and (or (R ?x) (G ?x) (B ?x)) \
                   (or (not (E ?x ?y)) (and (or (not (R ?x)) (not (R ?y))) (or (not (G ?x)) (not (G ?y))) \
                   (or (not (B ?x)) (not (B ?y)))))))\n",
        ours: [2, 4, 2, 7],
        printed: [2, 4, 2, 7],
    },
    Row {
        problem: "3DM",
        question: "rel\tM\t3\nchoose\tF\tInj\nchoose\tG\tInj\nrule\t(forall (?x ?y ?z) (implies (and (F ?x ?y) (G ?y ?z)) (M ?x ?y ?z)))\n",
        ours: [3, 4, 3, 6],
        printed: [3, 4, 3, 6],
    },
    Row {
        problem: "k-colouring",
        question: "rel\tE\t2\nchoose\tF\tFun\nrule\t(forall (?x ?w) (implies (E ?x ?w) (forall (?y) (or (not (F ?x ?y)) (not (F ?w ?y))))))\n",
        ours: [2, 4, 3, 6],
        printed: [2, 4, 3, 6],
    },
    // The sentence as document 000 prints it: its lower end has a joining `and`, its upper end one node less than the table's.
    Row {
        problem: "directed Hamiltonian path",
        question: "rel\tE\t2\nchoose\tF\tInj\nrule\t(forall (?x) (implies (not (MAX ?x)) (exists (?u ?y ?z) (and (E ?y ?z) (F ?x ?y) \
                   (SUC ?x ?u) (F ?u ?z)))))\n",
        ours: [1, 4, 1, 9],
        printed: [1, 3, 1, 10],
    },
    // No sentence is printed for it; this is the one filed under `cases/`.
    Row {
        problem: "CLIQUE",
        question: "rel\tE\t2\nrel\tK\t1\nchoose\tF\tInj\nrule\t(forall (?x ?y) (implies (and (K ?x) (K ?y) (LT ?x ?y)) (exists (?u ?v) \
                   (and (F ?x ?u) (F ?y ?v) (E ?u ?v)))))\n",
        ours: [2, 5, 2, 8],
        printed: [2, 4, 3, 7],
    },
];

#[test]
fn windows_of_table_2() {
    for Row { problem, question, ours, printed } in TABLE {
        for n in [3, 5, 8, 11] {
            let [a, b, c, d] = ours;
            let site = format!("size\t{n}\n");
            let found = window(question.as_bytes(), site.as_bytes());
            assert_eq!(found, Ok(Window { lower: a * n + b, upper: c * n + d }), "{problem}, {n}");
        }
        let differs = ours != printed;
        assert_eq!(
            differs,
            ["directed Hamiltonian path", "CLIQUE"].contains(&problem),
            "{problem}"
        );
    }
}

const QUESTION: &[u8] =
    b"choose\tF\tPFun\nrule\t(forall (?x) (exists (?y) (or (F ?x ?y) (EQ ?x ?y))))\n";

#[test]
fn ends_that_fall_or_miss() {
    for (steps, ends, refused) in [
        (2, &[3, 3][..], Some((3, 1))),
        (2, &[3, 2], Some((3, 1))),
        (1, &[], Some((3, 0))),
        (0, &[], Some((15, 0))),
        (0, &[0, 0], Some((15, 2))),
    ] {
        let steps = vec![0; steps];
        let told = check_layers(QUESTION, b"size\t2\n", &steps, ends, &mut [0; 9]);
        let refused = refused.map(|(number, place)| Reply::Refused(Refusal { number, place }));
        assert_eq!(Some(told), refused);
    }
}

#[test]
fn steps_that_disturb_each_other() {
    // Two values for one first place, one step twice, and begin-proof beside a set step; each alone may be taken.
    for (steps, number) in [([0, 1], 14), ([0, 0], 14), ([0, 4], 14), ([0, 2], 15), ([9999, 0], 13)]
    {
        let told = check_layers(QUESTION, b"size\t2\n", &steps, &[2], &mut [0; 9]);
        let place = u64::from(number == 15);
        assert_eq!(told, Reply::Refused(Refusal { number, place }), "{steps:?}");
    }
}

/// The layers of a plan by the words of document 02: each step goes to the first layer that may still be taken with it.
fn by_trying(problem: &Problem, plan: &[u32]) -> Vec<Vec<u32>> {
    let effects = |step: u32| {
        let mut found = Effects::default();
        problem.effects(problem.action(step).expect("a built step"), &mut found);
        found
    };
    let apart = |a: &Effects, b: &Effects| {
        a.removes.iter().all(|atom| !b.needs.contains(atom) && !b.adds.contains(atom))
    };
    let mut layers: Vec<Vec<u32>> = Vec::new();
    for &step in plan {
        let own = effects(step);
        let mut state = vec![0; problem.words()];
        problem.initial(&mut state);
        let mut joined = layers.len();
        for (place, layer) in layers.iter().enumerate() {
            let others: Vec<Effects> = layer.iter().map(|&other| effects(other)).collect();
            let may = own.needs.iter().all(|&atom| holds(&state, atom));
            if may && others.iter().all(|other| apart(&own, other) && apart(other, &own)) {
                joined = place;
                break;
            }
            let taken = layer.iter().filter_map(|&other| problem.action(other));
            taken.for_each(|action| assert!(problem.take(action, &mut state)));
        }
        if joined == layers.len() {
            layers.push(Vec::new());
        }
        layers[joined].push(step);
    }
    layers
}

#[test]
fn built_layers_are_the_earliest() {
    let mut compared = 0;
    for number in 0..400 {
        let sample = drawn(&mut Random::new(number));
        let Some([_, words, bound]) = needs(&sample) else { continue };
        let case = [&sample.question[..], &sample.site[..]];
        let mut lent = Lent { state: vec![0; words], steps: vec![0; bound], ends: vec![0; 999] };
        let (mut state, mut steps) = (vec![0; words], vec![0; bound]);
        let Reply::Accepted(layers) = Peer.build_layers_text(case, &sample.picks, &mut lent) else {
            continue;
        };
        let Reply::Accepted(count) = Peer.build_text(case, &sample.picks, &mut state, &mut steps)
        else {
            panic!("the plain builder refuses");
        };
        if count > 300 {
            continue;
        }
        let question = sheets::question(case[0]).expect("a question");
        let structure = sheets::site(case[1], &question.signature, &USUAL).expect("a site");
        let problem = Problem::new(&question, &structure, &USUAL).expect("a problem");
        let tried = by_trying(&problem, &steps[..count as usize]);
        let ends: Vec<u32> = tried
            .iter()
            .scan(0, |sum, layer| {
                *sum += layer.len() as u32;
                Some(*sum)
            })
            .collect();
        assert_eq!(lent.ends[..layers as usize], ends);
        assert_eq!(lent.steps[..count as usize], tried.concat());
        compared += 1;
    }
    assert!(compared > 20, "{compared}");
}
