//! Labels: what each line with a label or an unusual element is answered, and that names are no more than other words for numbers.

use peer::desk::INPUT_LIMIT;
use peer::naming::{labelled, renamed};
use peer::sample::{desk_input, needs, sound, Random};
use peer::trial::{run, Call, Peer, CALLS};
use peer::typing::typed;
use peer::{build_text, check_text, desk, judge_text, sizes, Refusal, Reply};

const QUESTION: &[u8] = b"rel\tD\t1\nrel\tE\t2\nchoose\tT\t2\nrule\t(exists (?x ?y) (T ?x ?y))\n";
const SITE: &[u8] = b"size\t3\nlabel\t2\tLOBBY\nlabel\t0\tGATE_1\nfact\tD\tLOBBY\n";

/// The number of a site's refusal, 0 for none; the place is that of the last line.
fn site_number(site: &str) -> u32 {
    match sizes(QUESTION, site.as_bytes()) {
        Ok(_) => 0,
        Err(refusal) => {
            let place = site.trim_end_matches('\n').rfind('\n').map_or(0, |before| before + 1);
            assert_eq!(refusal.place, place as u64, "{site}");
            refusal.number
        }
    }
}

/// A site of three elements whose third is LOBBY, with more lines.
fn numbers(lines: &[(&str, u32)]) {
    for (line, number) in lines {
        assert_eq!(site_number(&format!("size\t3\nlabel\t2\tLOBBY\n{line}\n")), *number, "{line}");
    }
}

#[test]
fn a_label_has_its_form() {
    numbers(&[
        ("label\t0\tA", 0),
        ("label\t0\tABCDEFGHIJ_2", 0),
        ("label\t0\tABCDEFGHIJ_23", 2),
        ("label\t0\tlobby", 2),
        ("label\t0\tA-B", 2),
        ("label\t0\t", 2),
        ("label\t0\t1", 2),
        ("label\t0", 2),
        ("label", 2),
        ("label\t0\tA\tB", 2),
        ("label\t00\tA", 2),
        ("label\t\tA", 2),
        ("label\tA\t0", 2),
        ("label\t12345678\tA", 2),
    ]);
    // A label may be any relation's name.
    for name in ["D", "T", "EQ", "MAX", "NONE"] {
        assert_eq!(site_number(&format!("size\t3\nlabel\t0\t{name}\n")), 0);
    }
}

#[test]
fn a_label_is_one_to_one() {
    numbers(&[
        ("label\t2\tLOBBY", 18),
        ("label\t1\tLOBBY", 18),
        ("label\t2\tHALL", 18),
        ("label\tLOBBY\tHALL", 18),
        ("label\tLOBBY\tLOBBY", 18),
        ("label\tHALL\tHALL", 18),
        ("label\tHALL\tLOBBY", 18),
        ("label\t3\tLOBBY", 9),
        ("label\t3\tHALL", 9),
        ("label\t9999999\tHALL", 9),
        ("label\t1\tHALL\nlabel\t0\tGATE\nlabel\t0\tHALL", 18),
    ]);
}

#[test]
fn labels_stand_between_size_and_facts() {
    numbers(&[
        ("fact\tD\t0\nlabel\t0\tA", 3),
        ("fact\tD\t0\nlabel\t9\tA", 3),
        ("fact\tD\t0\nlabel\t2\tLOBBY", 3),
        ("fact\tD\t0\nlabel\t0\ta", 2),
        ("label\t0\tA\nsize\t3", 3),
    ]);
    assert_eq!(site_number("label\t0\tA\n"), 3);
    assert_eq!(site_number("label\t0\ta\n"), 2);
}

#[test]
fn facts_by_number_and_by_name() {
    numbers(&[
        ("fact\tD\tLOBBY", 0),
        ("fact\tE\tLOBBY\t0\nfact\tE\t0\tLOBBY\nfact\tE\tLOBBY\tLOBBY", 0),
        ("fact\tD\tHALL", 18),
        ("fact\tE\t0\tHALL", 18),
        ("fact\tE\tHALL\t3", 9),
        ("fact\tE\t3\tHALL", 9),
        ("fact\tD\t2\nfact\tD\tLOBBY", 10),
        ("fact\tD\tLOBBY\nfact\tD\tLOBBY", 10),
        ("fact\tE\t0\tLOBBY\nfact\tE\t0\t2", 10),
        ("fact\tD\tHALL\tHALL", 7),
        ("fact\tHALL\tHALL", 7),
        ("fact\tT\tLOBBY\tHALL", 7),
        ("fact\tHALL\thall", 2),
        ("fact\tHALL\tABCDEFGHIJ_23", 2),
        ("fact\tE\tHALL\t01", 2),
        ("fact\tE\tHALL\t", 2),
        ("fact\tD\tLOBBY\t0\t0\t0", 2),
    ]);
}

#[test]
fn picks_by_number_and_by_name() {
    let number = |picks: &str| match judge_text(QUESTION, SITE, picks.as_bytes()) {
        Reply::Accepted(_) => 0,
        Reply::Refused(Refusal { number, .. }) => number,
    };
    assert_eq!(number("pick\tT\tLOBBY\tGATE_1\n"), 0);
    assert_eq!(number("pick\tT\tHALL\tGATE_1\n"), 18);
    assert_eq!(number("pick\tT\tHALL\t3\n"), 9);
    assert_eq!(number("pick\tT\t2\t0\npick\tT\tLOBBY\tGATE_1\n"), 10);
    assert_eq!(number("pick\tT\tHALL\n"), 7);
    assert_eq!(number("pick\tT\tHALL\thall\n"), 2);
    assert_eq!(number("label\t1\tHALL\n"), 3);
    assert_eq!(number("label\t1\thall\n"), 2);
}

#[test]
fn labels_of_another_sheet() {
    let line = |label: &str| format!("choose\tT\t1\n{label}\nrule\t(exists (?x) (T ?x))\n");
    let refused = |number, place| Refusal { number, place };
    for (label, number) in [("label\t0\tA", 3), ("label\t0\t0", 2), ("label\tA\tA", 3)] {
        assert_eq!(sizes(line(label).as_bytes(), b"size\t1\n").unwrap_err(), refused(number, 11));
        let steps = format!("step\t0\n{label}\n");
        let reply = check_text(QUESTION, SITE, steps.as_bytes(), &mut []);
        assert_eq!(reply, Reply::Refused(refused(number, 7)));
    }
}

#[test]
fn a_label_refused_leaves_everything() {
    let (mut state, mut steps) = ([7; 9], [7; 99]);
    let reply =
        build_text(QUESTION, SITE, b"pick\tT\t0\t0\npick\tT\tA\t0\n", &mut state, &mut steps);
    assert_eq!(reply, Reply::Refused(Refusal { number: 18, place: 11 }));
    assert_eq!((state, steps), ([7; 9], [7; 99]));
}

#[test]
fn the_desk_prints_labels() {
    let case = [QUESTION, SITE].concat();
    let picks = b"pick\tT\t2\t1\npick\tT\t1\tGATE_1\npick\tT\tGATE_1\tLOBBY\n".to_vec();
    let printed = String::from_utf8(desk(&[case.clone(), picks].concat())).unwrap();
    let lines = |word: &str| -> String {
        let own = |line: &&str| line.starts_with(word);
        printed.lines().filter(own).map(|line| format!("{line}\n")).collect()
    };
    assert_eq!(lines("pick"), "pick\tT\tGATE_1\tLOBBY\npick\tT\t1\tGATE_1\npick\tT\tLOBBY\t1\n");
    // Checking its steps prints the same, and its picks are read back.
    assert_eq!(desk(&[&case, lines("step").as_bytes()].concat()), printed.as_bytes());
    assert_eq!(desk(&[&case, lines("pick").as_bytes()].concat()), printed.as_bytes());
}

#[test]
fn names_give_the_same_problem() {
    let mut named = 0;
    for seed in 0..4_200 {
        let mut random = Random::new(seed << 24);
        let mut plain = sound(&mut random);
        if seed % 2 == 1 {
            plain = typed(&mut random, &plain);
        }
        let (sample, names) = labelled(&mut random, &plain);
        named += u32::from(sample.site != plain.site);
        let rooms = needs(&plain).unwrap_or_default();
        assert_eq!(needs(&sample).unwrap_or_default(), rooms, "seed {seed}");
        for call in CALLS {
            let mut wanted = run(&Peer, call, &plain, rooms);
            if matches!(call, Call::DeskPicks | Call::DeskSteps) {
                // With names a case may be too long for the desk.
                if desk_input(&sample, call == Call::DeskSteps).len() > INPUT_LIMIT {
                    continue;
                }
                let printed = String::from_utf8(wanted.printed).unwrap();
                wanted.printed = renamed(&printed, &names, || true).into();
            }
            let given = run(&Peer, call, &sample, rooms);
            if matches!(call, Call::PageText | Call::Page) {
                // A page prints the names, which may take more lines and so more pages; its steps are the same.
                assert_eq!(given.state, wanted.state, "seed {seed}, {call:?}");
                continue;
            }
            assert_eq!(given, wanted, "seed {seed}, {call:?}");
        }
    }
    assert!(named > 3_000, "{named} with labels");
}
