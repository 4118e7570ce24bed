//! Many step lists in one call, on both programs.
//!
//!     tries compare [INPUTS] [SEED]  random cases and lists: replies, records and every lent word, and
//!                                  each record against a check of its list alone
//!     tries bench [ROUNDS]         twenty lists in one call against twenty checks

use peer::large::facts;
use peer::limits;
use peer::naming::drawn;
use peer::sample::{damage, needs, sound, Random, Sample};
use peer::trial::{argument, numbers, Calls, Other, Peer, GUARD, LINKED};
use peer::{Reply, Try};
use std::hint::black_box;
use std::process::ExitCode;
use std::time::Instant;

/// A record that no call has answered.
fn asked(first: u32, length: u32) -> Try {
    Try { first, length, number: 7, place: 7 }
}

/// Lists in and about the lent steps, some of them far outside.
fn lists(random: &mut Random, steps: usize) -> Vec<Try> {
    let mut tries = Vec::new();
    for _ in 0..random.below(25) {
        let first = random.below(steps + 2);
        let length = random.below(steps + 2 - first.min(steps + 1));
        tries.push(match random.below(12) {
            0 => asked(first as u32, (limits::STEPS + random.below(2)) as u32),
            1 => asked(u32::MAX, length as u32),
            2 => asked(first as u32, u32::MAX),
            3..=6 => asked(0, steps as u32),
            _ => asked(first as u32, length as u32),
        });
    }
    tries
}

/// One case: what differs between the programs, and from checks of each list alone.
fn differ(random: &mut Random, sample: &Sample) -> (u64, u64) {
    let case = [&sample.question[..], &sample.site[..]];
    let lists = lists(random, sample.lent_steps.len());
    let needed = needs(sample).map_or(2, |[_, state, _]| state);
    let room = (needed + *random.choose(&[1, 1, 1, 1, 2, 3, 0])).saturating_sub(1);
    let outcome = |program: &dyn Fn(&mut [Try], &mut [u64]) -> Reply| {
        let mut tries = [&lists[..], &[asked(7, 7); GUARD]].concat();
        let mut state = vec![7; room + GUARD];
        (program(&mut tries[..lists.len()], &mut state[..room]), tries, state)
    };
    let peer = outcome(&|tries, state| Peer.tries(case, &sample.lent_steps, tries, state));
    let other = outcome(&|tries, state| Other.tries(case, &sample.lent_steps, tries, state));
    let mut differences = u64::from(peer != other);
    let (mut single, mut state) = (0, vec![7; room]);
    for record in other.1.iter().take(lists.len()).filter(|_| other.0 == Reply::Accepted(0)) {
        let (first, length) = (record.first as usize, record.length as usize);
        if let Some(list) =
            first.checked_add(length).and_then(|end| sample.lent_steps.get(first..end))
        {
            single += 1;
            let alone = numbers(Other.check(case, list, &mut state));
            differences += u64::from(alone != (record.number, record.place));
        }
    }
    (differences, single)
}

fn compare(inputs: u64, seed: u64) -> ExitCode {
    let (mut differences, mut single) = (0, 0);
    for input in 0..inputs {
        let mut random = Random::new(seed << 32 | input);
        let mut sample = drawn(&mut random);
        for _ in 0..*random.choose(&[0, 0, 0, 1, 1, 2]) {
            damage(&mut random, &mut sample);
        }
        let (found, checks) = differ(&mut random, &sample);
        differences += found;
        single += checks;
    }
    let with = if LINKED { "the proved program" } else { "itself, the library is not linked" };
    println!("tries: {inputs} calls, peer with {with}, {single} lists against checks: {differences} differences");
    ExitCode::from(u8::from(differences > 0))
}

/// The least time in microseconds of a call with twenty lists, and of twenty checks.
fn times(program: &impl Calls, sample: &Sample, rounds: u64) -> [f64; 2] {
    let case = [&sample.question[..], &sample.site[..]];
    let mut tries = vec![asked(0, sample.lent_steps.len() as u32); 20];
    let (mut state, mut least) = (vec![0; 1024], [f64::MAX; 2]);
    for _ in 0..rounds {
        let start = Instant::now();
        black_box(program.tries(case, &sample.lent_steps, &mut tries, &mut state));
        let middle = Instant::now();
        for _ in 0..20 {
            black_box(program.check(case, &sample.lent_steps, &mut state));
        }
        for (least, time) in least.iter_mut().zip([middle - start, middle.elapsed()]) {
            *least = least.min(time.as_secs_f64() * 1e6);
        }
    }
    least
}

fn bench(rounds: u64) -> ExitCode {
    let mut random = Random::new(7);
    let mut small = sound(&mut random);
    while small.lent_steps.len() < 10 || needs(&small).is_none() {
        small = sound(&mut random);
    }
    // All tuples are picked, so that the plan is accepted.
    let mut full = facts(16);
    full.lent_steps = (0..34).collect();
    println!(
        "{:<44} {:>9} {:>14}",
        "microseconds, least of all rounds", "one call", "twenty checks"
    );
    for (name, sample) in [("a small case", &small), ("16 KB of facts", &full)] {
        let steps = sample.lent_steps.len();
        for (who, [one, twenty]) in
            [("peer", times(&Peer, sample, rounds)), ("ours", times(&Other, sample, rounds))]
        {
            println!("{:<44} {one:>9.1} {twenty:>14.1}", format!("{name}, {steps} steps, {who}"));
        }
    }
    ExitCode::SUCCESS
}

fn main() -> ExitCode {
    let what = std::env::args().nth(1).unwrap_or_default();
    match what.as_str() {
        "compare" => compare(argument(2, 100_000), argument(3, 1)),
        "bench" => bench(argument(2, 2_000)),
        _ => {
            println!("tries compare [INPUTS] [SEED] | bench [ROUNDS]");
            ExitCode::FAILURE
        }
    }
}
