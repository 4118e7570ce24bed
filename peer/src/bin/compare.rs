//! Runs both programs on random cases and compares replies and all buffers.
//!
//!     compare [INPUTS] [SEED]

use peer::naming::drawn;
use peer::sample::{damage, needs, Random, Sample};
use peer::trial::{argument, rooms, run, Call, Other, Outcome, Peer, Rooms, CALLS, LINKED};
use peer::Reply;
use std::process::ExitCode;

/// How often each refusal number came up, success being 0.
type Tally = [u64; 25];

/// Differences that are shown in full.
const SHOWN: u64 = 3;

fn show(call: Call, sample: &Sample, rooms: Rooms, outcomes: [&Outcome; 2]) {
    println!("differs: {call:?} with rooms {rooms:?}");
    for outcome in outcomes {
        println!("  {:?} {:?} {}", outcome.reply, outcome.found, outcome.printed.escape_ascii());
    }
    for sheet in [&sample.question, &sample.site, &sample.picks, &sample.steps] {
        println!("  | {}", sheet.escape_ascii());
    }
    println!("  picks {:?} steps {:?}", sample.lent_picks, sample.lent_steps);
}

/// Makes every call on one case, and counts what was refused and what differs.
fn compare(random: &mut Random, sample: &Sample, tally: &mut Tally, differences: &mut u64) {
    let needs = needs(sample);
    for call in CALLS {
        let rooms = rooms(random, needs);
        let (peer, other) = (run(&Peer, call, sample, rooms), run(&Other, call, sample, rooms));
        match peer.reply {
            _ if matches!(call, Call::DeskPicks | Call::DeskSteps) => (),
            Reply::Accepted(_) => tally[0] += 1,
            Reply::Refused(refusal) => tally[refusal.number as usize] += 1,
        }
        if peer != other {
            *differences += 1;
            if *differences <= SHOWN {
                show(call, sample, rooms, [&peer, &other]);
            }
        }
    }
}

fn main() -> ExitCode {
    let (inputs, seed) = (argument(1, 120_000), argument(2, 1));
    let (mut tally, mut differences) = (Tally::default(), 0);
    for input in 0..inputs {
        // Each input has its own seed, so that one can be run again alone.
        let mut random = Random::new(seed << 32 | input);
        let mut sample = drawn(&mut random);
        for _ in 0..*random.choose(&[0, 0, 1, 1, 1, 2, 3]) {
            damage(&mut random, &mut sample);
        }
        compare(&mut random, &sample, &mut tally, &mut differences);
    }
    println!("replies by number (accepted first, desk left out): {tally:?}");
    let with = if LINKED { "the proved program" } else { "itself, the library is not linked" };
    let calls = inputs * CALLS.len() as u64;
    println!(
        "compare: {inputs} inputs, {calls} calls, peer with {with}: {differences} differences"
    );
    if differences == 0 {
        ExitCode::SUCCESS
    } else {
        ExitCode::FAILURE
    }
}
