//! What a case measures, on both programs.
//!
//!     measures compare [INPUTS] [SEED]  random cases: allowances entry by entry, and that one pick less moves
//!                                    the built steps by no more
//!     measures bench [ROUNDS]        the sizes and the allowances of 1,000 small cases

use peer::naming::drawn;
use peer::sample::{damage, needs, sound, Random, Sample};
use peer::trial::{argument, Calls, Other, Peer, GUARD, LINKED};
use peer::Reply;
use std::hint::black_box;
use std::process::ExitCode;
use std::time::Instant;

/// How many steps the other program builds from picks, if it builds any.
fn built(sample: &Sample, picks: &[u8]) -> Option<u64> {
    let [_, state, steps] = needs(sample)?;
    let case = [&sample.question[..], &sample.site[..]];
    match Other.build_text(case, picks, &mut vec![0; state], &mut vec![0; steps]) {
        Reply::Accepted(count) => Some(count),
        Reply::Refused(_) => None,
    }
}

/// Drops each pick in turn: pairs that were built, and those that moved further than allowed.
fn moved(sample: &Sample, allowed: &[u64]) -> (u64, u64) {
    let Some(all) = built(sample, &sample.picks) else { return (0, 0) };
    let lines: Vec<&[u8]> = sample.picks.split_inclusive(|&byte| byte == b'\n').collect();
    let names: Vec<&[u8]> = sample
        .question
        .split(|&byte| byte == b'\n')
        .filter_map(|line| line.strip_prefix(b"choose\t"))
        .filter_map(|line| line.split(|&byte| byte == b'\t').next())
        .collect();
    let (mut pairs, mut too_far) = (0, 0);
    for (index, line) in lines.iter().enumerate() {
        let rest = [&lines[..index], &lines[index + 1..]].concat().concat();
        let Some(fewer) = built(sample, &rest) else { continue };
        let name = line.split(|&byte| byte == b'\t').nth(1);
        let choose = names.iter().position(|&other| Some(other) == name).expect("a choose");
        pairs += 1;
        too_far += u64::from(all.abs_diff(fewer) > allowed[choose]);
    }
    (pairs, too_far)
}

fn compare(inputs: u64, seed: u64) -> ExitCode {
    let (mut differences, mut pairs) = (0, 0);
    for input in 0..inputs {
        let mut random = Random::new(seed << 32 | input);
        let mut sample = drawn(&mut random);
        for _ in 0..*random.choose(&[0, 0, 0, 1, 2]) {
            damage(&mut random, &mut sample);
        }
        let case = [&sample.question[..], &sample.site[..]];
        let room = random.below(6);
        let outcome = |program: &dyn Fn(&mut [u64]) -> Reply| {
            let mut out = vec![7; room + GUARD];
            (program(&mut out[..room]), out)
        };
        let peer = outcome(&|out| Peer.allowances(case, out));
        let other = outcome(&|out| Other.allowances(case, out));
        differences += u64::from(peer != other);
        if other.0 == Reply::Accepted(0) {
            let (built, too_far) = moved(&sample, &other.1);
            pairs += built;
            differences += too_far;
        }
    }
    let with = if LINKED { "the proved program" } else { "itself, the library is not linked" };
    println!("measures: {inputs} calls, peer with {with}, {pairs} picks dropped: {differences} differences");
    ExitCode::from(u8::from(differences > 0))
}

/// The least time in microseconds for all cases, and a case.
fn least(samples: &[Sample], rounds: u64, call: impl Fn(&Sample)) -> f64 {
    let mut least = f64::MAX;
    for _ in 0..rounds {
        let start = Instant::now();
        samples.iter().for_each(&call);
        least = least.min(start.elapsed().as_secs_f64() * 1e6);
    }
    least / samples.len() as f64
}

fn times(name: &str, program: &impl Calls, samples: &[Sample], rounds: u64) {
    let sizes = least(samples, rounds, |sample| {
        let _ = black_box(program.sizes(&sample.question, &sample.site));
    });
    // A call that fills the whole table, and then finds no action of this number.
    let table = least(samples, rounds, |sample| {
        let _ = black_box(program.action([&sample.question, &sample.site], u64::MAX));
    });
    let allowances = least(samples, rounds, |sample| {
        let case = [&sample.question[..], &sample.site[..]];
        black_box(program.allowances(case, &mut [0; 4]));
    });
    println!("{name:<8} sizes {sizes:>6.2}   allowances {allowances:>6.2}   table {table:>6.2}");
}

fn bench(rounds: u64) -> ExitCode {
    let mut random = Random::new(7);
    let mut samples = Vec::new();
    while samples.len() < 1000 {
        let sample = sound(&mut random);
        if needs(&sample).is_some() && sample.question.len() + sample.site.len() < 400 {
            samples.push(sample);
        }
    }
    println!("microseconds a case, least of {rounds} rounds over 1,000 small cases");
    times("peer", &Peer, &samples, rounds);
    times("ours", &Other, &samples, rounds);
    ExitCode::SUCCESS
}

fn main() -> ExitCode {
    let what = std::env::args().nth(1).unwrap_or_default();
    match what.as_str() {
        "compare" => compare(argument(2, 100_000), argument(3, 1)),
        "bench" => bench(argument(2, 200)),
        _ => {
            println!("measures compare [INPUTS] [SEED] | bench [ROUNDS]");
            ExitCode::FAILURE
        }
    }
}
