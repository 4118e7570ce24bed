//! Times both programs on the same inputs, turn about, and prints the ratios.
//!
//!     bench [ROUNDS] [WORD]      all jobs, or those whose names have the word

use peer::large::{
    bare, broken_deep, broken_path, deep, facts, kind_zones, labelled, last, long_text, lost_cards,
    named_facts, named_picks, padded, path, round, slow_to_judge, sorted_zones, triples,
    wide_facts, zones,
};
use peer::limits::{STEPS, TEXT};
use peer::paper::PAGE_BYTES;
use peer::sample::{needs, sound, Random, Sample};
use peer::searches::{searches, wanting};
use peer::trial::{Calls, Lent, Other, Peer, LINKED};
use peer::typing::typed;
use peer::Reply;
use std::hint::black_box;
use std::time::Instant;

/// What is timed, on the sample that goes with it.
#[derive(Clone, Copy)]
enum Work {
    Sizes,
    BuildText,
    BuildLent,
    JudgeText,
    JudgeLent,
    CheckLent,
    CheckText,
    Picks,
    /// A page of the lent steps.
    Page(u64),
    Find,
    Monotone,
    CheckLayers,
    BuildLayers,
    PddlDomain,
    PddlInstance,
    /// The lent steps as a plan.
    PddlPlan,
    /// The text of the steps is a plan.
    PddlRead,
    /// Build from text, check and read the picks, each on a small case.
    Small,
}

struct Job {
    name: String,
    work: Work,
    samples: Vec<Sample>,
    /// Where layers of the lent steps end.
    ends: Vec<u32>,
}

/// Buffers made once, so that no job pays for making them.
struct Buffers {
    picks: Vec<u64>,
    state: Vec<u64>,
    steps: Vec<u32>,
    page: Vec<u8>,
    layers: Lent,
}

impl Job {
    fn new(name: &str, work: Work, sample: &Sample) -> Self {
        Job { name: name.to_string(), work, samples: vec![sample.clone()], ends: Vec::new() }
    }

    fn run(&self, program: &impl Calls, buffers: &mut Buffers) -> u64 {
        let Buffers { picks, state, steps, page, layers } = buffers;
        let mut accepted = 0;
        for sample in &self.samples {
            let case = [&sample.question[..], &sample.site[..]];
            let reply = match self.work {
                Work::Sizes => program.sizes(case[0], case[1]).map(|sizes| sizes.n as usize).into(),
                Work::BuildText => program.build_text(case, &sample.picks, state, steps),
                Work::BuildLent => program.build(case, &sample.lent_picks, state, steps),
                Work::JudgeText => program.judge_text(case, &sample.picks),
                Work::JudgeLent => program.judge(case, &sample.lent_picks),
                Work::CheckLent => program.check(case, &sample.lent_steps, state),
                Work::CheckText => program.check_text(case, &sample.steps, state),
                Work::Picks => program.picks(case, &sample.lent_steps, picks, state),
                Work::Page(number) => program.page(case, &sample.lent_steps, number, state, page),
                Work::CheckLayers => {
                    program.check_layers(case, &sample.lent_steps, &self.ends, state)
                }
                Work::BuildLayers => program.build_layers(case, &sample.lent_picks, layers),
                Work::PddlDomain => program.pddl_domain(case, page),
                Work::PddlInstance => program.pddl_instance(case, page),
                Work::PddlPlan => program.pddl_plan(case, &sample.lent_steps, page),
                Work::PddlRead => program.pddl_read(case, &sample.steps, steps),
                Work::Find => program.find(case, picks),
                Work::Monotone => program.monotone(case),
                Work::Small => {
                    black_box(program.build_text(case, &sample.picks, state, steps));
                    black_box(program.check_text(case, &sample.steps, state));
                    program.picks(case, &sample.lent_steps, picks, state)
                }
            };
            accepted += u64::from(matches!(black_box(reply), Reply::Accepted(_)));
        }
        accepted
    }

    /// The least time in microseconds; the two programs take turns.
    fn time(&self, rounds: u32, buffers: &mut Buffers) -> [f64; 2] {
        let mut least = [f64::MAX; 2];
        for round in 0..=rounds {
            let start = Instant::now();
            let peer = self.run(&Peer, buffers);
            let middle = Instant::now();
            let other = self.run(&Other, buffers);
            let times = [middle - start, middle.elapsed()];
            assert_eq!(peer, other, "{}", self.name);
            // The first round only warms up.
            if round > 0 {
                for (least, time) in least.iter_mut().zip(times) {
                    *least = least.min(time.as_secs_f64() * 1e6);
                }
            }
        }
        least
    }
}

/// A plan's steps as a text of nearly 65,536 bytes.
fn step_lines(sample: &Sample) -> Sample {
    let mut steps = Vec::new();
    for step in &sample.lent_steps {
        let line = format!("step\t{step}\n");
        if steps.len() + line.len() > 65_536 {
            break;
        }
        steps.extend(line.bytes());
    }
    Sample { steps, ..sample.clone() }
}

/// Random cases whose plans are short, without types or each with some.
fn small_cases(types: bool) -> Vec<Sample> {
    let mut random = Random::new(7);
    let mut cases = Vec::new();
    while cases.len() < 1_000 {
        let mut sample = sound(&mut random);
        if types {
            sample = typed(&mut random, &sample);
        }
        if needs(&sample).is_some_and(|[_, _, bound]| bound < 400) {
            cases.push(sample);
        }
    }
    cases
}

fn planned_job(what: &str, work: Work, sample: &Sample) -> Job {
    Job::new(&format!("{what}, {} steps", sample.lent_steps.len()), work, sample)
}

fn jobs() -> Vec<Job> {
    let (path, deep) = (path(15), deep(13));
    let job = planned_job;
    vec![
        Job::new("read 16 KB of facts", Work::Sizes, &facts(16)),
        Job::new("read 32 KB of facts", Work::Sizes, &facts(32)),
        Job::new("read 64 KB of facts", Work::Sizes, &facts(64)),
        job("path of 15: build from text", Work::BuildText, &path),
        job("path of 15: build, lent picks", Work::BuildLent, &path),
        job("path of 15: check", Work::CheckLent, &path),
        job("four deep: build from text", Work::BuildText, &deep),
        job("four deep: build, lent picks", Work::BuildLent, &deep),
        job("four deep: check", Work::CheckLent, &deep),
        job("four deep: read picks", Work::Picks, &deep),
        job("four deep: check lent", Work::CheckLent, &padded(&deep, 65_536)),
        Job::new("four deep: 64 KB of step lines", Work::CheckText, &step_lines(&deep)),
        small_job("1,000 small cases: all three", false),
        small_job("1,000 small cases with types: all three", true),
    ]
}

fn small_job(name: &str, types: bool) -> Job {
    Job { name: name.into(), work: Work::Small, samples: small_cases(types), ends: Vec::new() }
}

/// Texts full of labels, and the same texts with numbers.
fn named_jobs() -> Vec<Job> {
    let mut jobs = Vec::new();
    for kilobytes in [16, 32, 64] {
        let texts = [
            ("facts", Work::Sizes, named_facts(kilobytes << 10)),
            ("picks", Work::JudgeText, named_picks(kilobytes << 10, 64)),
        ];
        for (what, work, [named, numbered]) in texts {
            let name = format!("{kilobytes} KB of {what} by label");
            jobs.push(Job::new(&name, work, &named));
            jobs.push(Job::new(&format!("{name}: the same by number"), work, &numbered));
        }
    }
    jobs
}

/// What no case of 16 elements can be.
fn wide_jobs() -> Vec<Job> {
    let cases = [
        ("airport of 64, zones", zones()),
        ("airport of 64, zones as a type", sorted_zones()),
        ("airport of 64, a typed kind", kind_zones()),
        ("airport of 64, a round", round()),
        ("path of 31", path(31)),
        ("four deep of 26", deep(26)),
        ("lost cards of 8", lost_cards()),
        ("three places of 64", triples()),
    ];
    let mut jobs = Vec::new();
    for (name, sample) in &cases {
        for (what, work) in [
            ("build from text", Work::BuildText),
            ("build, lent picks", Work::BuildLent),
            ("check", Work::CheckLent),
            ("yes or no", Work::JudgeLent),
        ] {
            jobs.push(planned_job(&format!("{name}: {what}"), work, sample));
        }
    }
    for n in [17, 24, 64] {
        jobs.push(Job::new(&format!("{n} elements, no fact: sizes"), Work::Sizes, &bare(n)));
    }
    jobs
}

/// The plain calls on a case, and those on layers.
fn layer_jobs() -> Vec<Job> {
    let cases = [
        ("airport of 64, zones", zones()),
        ("path of 31", path(31)),
        ("four deep of 26", deep(26)),
    ];
    let mut jobs = Vec::new();
    for (name, sample) in cases {
        let case = [&sample.question[..], &sample.site[..]];
        let mut lent =
            Lent { state: vec![0; 16_384], steps: vec![0; STEPS], ends: vec![0; 1 << 13] };
        let reply = Peer.build_layers(case, &sample.lent_picks, &mut lent);
        let Reply::Accepted(layers) = reply else { panic!("{name}: {reply:?}") };
        let ends = lent.ends[..layers as usize].to_vec();
        let lent_steps = lent.steps[..sample.lent_steps.len()].to_vec();
        jobs.push(planned_job(
            &format!("{name}: {layers} layers built"),
            Work::BuildLayers,
            &sample,
        ));
        let layered = Sample { lent_steps, ..sample };
        let checked =
            planned_job(&format!("{name}: {layers} layers checked"), Work::CheckLayers, &layered);
        jobs.push(Job { ends, ..checked });
    }
    // A million steps in one layer, and a million layers: a node step twice in a layer is fine.
    let plan = padded(&deep(4), STEPS);
    let mut begun = plan.lent_steps.iter().position(|&step| step == plan.lent_steps[STEPS - 1]);
    let first = begun.take().unwrap_or(0) as u32;
    let all = STEPS as u32;
    let one = Job::new("a step a layer, 1,048,576 layers", Work::CheckLayers, &plan);
    jobs.push(Job { ends: (1..=all).collect(), ..one });
    let wide = Job::new("one layer of all further steps", Work::CheckLayers, &plan);
    jobs.push(Job { ends: (1..=first + 1).chain([all]).collect(), ..wide });
    jobs
}

/// Room for a text of PDDL.
const PDDL: usize = 1 << 25;

/// Domains, instances, and a plan of nearly 1 MB.
fn pddl_jobs() -> Vec<Job> {
    let path = path(31);
    let plan = padded(&deep(4), 40_000);
    let mut text = vec![0; PDDL];
    let reply = Peer.pddl_plan([&plan.question, &plan.site], &plan.lent_steps, &mut text);
    let Reply::Accepted(bytes) = reply else { panic!("{reply:?}") };
    text.truncate((bytes as usize).min(TEXT));
    text.truncate(text.iter().rposition(|&byte| byte == b'\n').map_or(0, |end| end + 1));
    let named = |what: &str| format!("PDDL: {what}, {} bytes", text.len());
    vec![
        Job::new("PDDL: domain, path of 31", Work::PddlDomain, &path),
        Job::new("PDDL: instance, path of 31", Work::PddlInstance, &path),
        Job::new("PDDL: instance, three places of 64", Work::PddlInstance, &triples()),
        Job::new(&named("a plan written"), Work::PddlPlan, &plan),
        Job::new(&named("a plan read"), Work::PddlRead, &Sample { steps: text.clone(), ..plan }),
    ]
}

/// The number of the last page of a plan's lent steps.
fn last_page(sample: &Sample) -> u64 {
    let case = [&sample.question[..], &sample.site[..]];
    let (mut state, mut page) = (vec![0; 16_384], vec![0; PAGE_BYTES]);
    let mut there = |number: u64| {
        let reply = Peer.page(case, &sample.lent_steps, number, &mut state, &mut page);
        matches!(reply, Reply::Accepted(_))
    };
    let (mut last, mut past) = (1, 6 * sample.lent_steps.len() as u64);
    while past - last > 1 {
        let middle = (last + past) / 2;
        if there(middle) {
            last = middle;
        } else {
            past = middle;
        }
    }
    last
}

/// Three sizes of each, so that what a byte or a step costs can be seen not to grow.
fn growing_jobs() -> Vec<(usize, Job)> {
    // Short, so that lists of every length have the same steps over and over.
    let plan = deep(4);
    let mut jobs = Vec::new();
    for bytes in [16_384, 65_536, TEXT] {
        jobs.push((
            bytes,
            Job::new("bytes of facts, 64 elements", Work::Sizes, &wide_facts(bytes)),
        ));
    }
    for bytes in [16_384, 65_536, TEXT] {
        let [named, _] = named_facts(bytes);
        jobs.push((bytes, Job::new("bytes of facts by label", Work::Sizes, &named)));
    }
    for bytes in [16_384, 65_536, TEXT] {
        jobs.push((bytes, Job::new("bytes of step lines", Work::CheckText, &long_text(bytes))));
    }
    for steps in [16_384, 65_536, 1_000_000, STEPS] {
        jobs.push((steps, Job::new("lent steps", Work::CheckLent, &padded(&plan, steps))));
    }
    for (name, plan) in [("last page", plan.clone()), ("last page by label", labelled(&plan))] {
        let plan = padded(&plan, STEPS);
        let page = Work::Page(last_page(&plan));
        jobs.push((STEPS, Job::new(&format!("lent steps: the {name}"), page, &plan)));
    }
    jobs
}

/// The small cases whose picks are of their kinds, those of which the rule is true or the others.
fn judged(yes: bool) -> Vec<Sample> {
    let reply = |sample: &Sample| Peer.judge_text([&sample.question, &sample.site], &sample.picks);
    let wanted = |sample: &Sample| match reply(sample) {
        Reply::Accepted(_) => yes,
        Reply::Refused(refusal) => !yes && refusal.number == 17,
    };
    small_cases(false).into_iter().filter(wanted).collect()
}

/// What is judged beside being built.
fn judgements() -> Vec<(String, Vec<Sample>)> {
    let (yes, no) = (judged(true), judged(false));
    vec![
        (format!("{} small cases, true", yes.len()), yes),
        (format!("{} small cases, false", no.len()), no),
        ("path of 15, true".into(), vec![path(15)]),
        ("path of 15, false at the first element".into(), vec![broken_path()]),
        ("four deep, true in every row".into(), vec![deep(13)]),
        ("four deep, false in the first row".into(), vec![broken_deep(13)]),
        ("four deep, true at the last witness".into(), vec![last(13)]),
        ("airport of 64, zones".into(), vec![zones()]),
        ("airport of 64, zones as a type".into(), vec![sorted_zones()]),
        ("airport of 64, a typed kind".into(), vec![kind_zones()]),
        ("airport of 64, a round".into(), vec![round()]),
        ("lost cards of 8, 256 values".into(), vec![lost_cards()]),
        ("a chain under four variables, 20".into(), vec![slow_to_judge(20)]),
    ]
}

/// Judging beside building, from a text and from lent picks.
fn print_judgements(rounds: u32, buffers: &mut Buffers) {
    println!();
    println!(
        "{:<46} {:>9} {:>9} {:>9} {:>9} {:>9}",
        "microseconds", "building", "judging", "of it", "peer's", "ratio"
    );
    for (name, samples) in judgements().into_iter().filter(|(name, _)| wanted(name)) {
        let kinds = [
            ("text", Work::BuildText, Work::JudgeText),
            ("lent", Work::BuildLent, Work::JudgeLent),
        ];
        for (picks, build, judge) in kinds {
            let name = format!("{name}, {picks}");
            let job =
                |work| Job { name: name.clone(), work, samples: samples.clone(), ends: Vec::new() };
            let [_, built] = job(build).time(rounds, buffers);
            let [peer, judged] = job(judge).time(rounds, buffers);
            let (part, ratio) = (judged / built, judged / peer);
            println!("{name:<46} {built:>9.1} {judged:>9.1} {part:>9.2} {peer:>9.1} {ratio:>9.2}");
        }
    }
}

/// Whether a job is wanted: every one is, unless a word was given.
fn wanted(name: &str) -> bool {
    std::env::args().nth(2).is_none_or(|word| name.contains(&word))
}

/// Nanoseconds for each byte or step, at growing sizes.
fn print_growth(rounds: u32, buffers: &mut Buffers) {
    println!();
    println!(
        "{:<56} {:>11} {:>11} {:>7}",
        "nanoseconds each, least of all rounds", "peer", "ours", "ratio"
    );
    for (size, job) in growing_jobs().into_iter().filter(|(_, job)| wanted(&job.name)) {
        let [peer, other] = job.time(rounds, buffers).map(|time| 1e3 * time / size as f64);
        let name = format!("{size} {}", job.name);
        println!("{name:<56} {peer:>11.2} {other:>11.2} {:>7.2}", other / peer);
    }
}

fn main() {
    let rounds = std::env::args().nth(1).and_then(|text| text.parse().ok()).unwrap_or(30);
    let mut buffers = Buffers {
        picks: vec![0; 16_384],
        state: vec![0; 16_384],
        steps: vec![0; STEPS],
        page: vec![0; PDDL],
        layers: Lent { state: vec![0; 16_384], steps: vec![0; STEPS], ends: vec![0; 1 << 13] },
    };
    if !LINKED {
        println!("The library is not linked: the peer is timed against itself.");
    }
    println!(
        "{:<56} {:>11} {:>11} {:>7}",
        "microseconds, least of all rounds", "peer", "ours", "ratio"
    );
    let all = jobs().into_iter().chain(named_jobs()).chain(wide_jobs());
    let all = all.chain(layer_jobs()).chain(pddl_jobs());
    for job in all.filter(|job| wanted(&job.name)) {
        let [peer, other] = job.time(rounds, &mut buffers);
        println!("{:<56} {peer:>11.1} {other:>11.1} {:>7.2}", job.name, other / peer);
    }
    // A search is dear: few rounds are enough.
    for (name, sample) in searches().into_iter().filter(|(name, _)| wanted(name)) {
        let [peer, other] = Job::new(name, Work::Find, &sample).time(rounds.min(3), &mut buffers);
        println!("{name:<56} {peer:>11.1} {other:>11.1} {:>7.2}", other / peer);
    }
    // A rule that only wants more, asked by the call for such rules and found.
    for (name, sample) in wanting().into_iter().filter(|(name, _)| wanted(name)) {
        for (what, work) in [("monotone", Work::Monotone), ("found", Work::Find)] {
            let name = format!("{what}: {name}");
            let [peer, other] = Job::new(&name, work, &sample).time(rounds.min(3), &mut buffers);
            println!("{name:<56} {peer:>11.1} {other:>11.1} {:>7.2}", other / peer);
        }
    }
    print_growth(rounds, &mut buffers);
    print_judgements(rounds, &mut buffers);
}
