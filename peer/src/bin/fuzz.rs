//! Throws arbitrary bytes, damaged cases and buffers of any length at a
//! program, and looks at what each call leaves behind.
//!
//!     fuzz [CALLS] [SEED]

use peer::naming::drawn;
use peer::sample::{damage, needs, Random, Sample};
use peer::trial::{
    argument, rooms, run, Call, Calls, Other, Outcome, Peer, Rooms, CALLS, FILL, LINKED,
};
use peer::Reply;
use std::process::ExitCode;

/// Calls made on one sample before the next is drawn.
const TURNS: u64 = 10;

/// A sheet of bytes with no plan behind them.
fn noise(random: &mut Random) -> Vec<u8> {
    let alphabet =
        b"\t\t\n\n  (())??axyz019ABRT_relchoosevryrulsizelabeltype:memberfactpicksteporandnotforall";
    let plain = random.once_in(2);
    let length = random.below(200);
    let mut byte = || if plain { random.word() as u8 } else { *random.choose(alphabet) };
    (0..length).map(|_| byte()).collect()
}

fn draw(random: &mut Random) -> Sample {
    let mut sample = drawn(random);
    for _ in 0..random.below(4) {
        damage(random, &mut sample);
    }
    if random.once_in(3) {
        let sheets = [&mut sample.question, &mut sample.site, &mut sample.picks, &mut sample.steps];
        for sheet in sheets {
            if random.once_in(3) {
                *sheet = noise(random);
            }
        }
        sample.lent_picks = (0..random.below(9)).map(|_| random.word()).collect();
        sample.lent_steps = (0..random.below(99)).map(|_| random.word() as u32 % 256).collect();
    }
    sample
}

fn untouched(words: &[u64]) -> bool {
    words.iter().all(|&word| word == FILL)
}

fn judges(call: Call) -> bool {
    matches!(call, Call::JudgeText | Call::Judge)
}

fn pages(call: Call) -> bool {
    matches!(call, Call::PageText | Call::Page) || translates(call)
}

fn translates(call: Call) -> bool {
    matches!(call, Call::PddlDomain | Call::PddlInstance | Call::PddlPlanText | Call::PddlPlan)
}

fn builds_layers(call: Call) -> bool {
    matches!(call, Call::BuildLayersText | Call::BuildLayers)
}

/// Whether a page call left its bytes alone, but for those of the page.
fn page_kept(outcome: &Outcome) -> bool {
    let written = match outcome.reply {
        Reply::Accepted(bytes) => bytes as usize,
        Reply::Refused(_) => 0,
    };
    outcome.page[written..].iter().all(|&byte| byte == FILL as u8)
}

/// How many entries the allowances of a case have.
fn chosen(sample: &Sample) -> usize {
    sample.question.split(|&byte| byte == b'\n').filter(|line| line.starts_with(b"choose")).count()
}

/// Whether everything a call must leave alone is as it was.
fn kept(sample: &Sample, outcome: &Outcome, call: Call, needs: Option<Rooms>) -> bool {
    let [picks, state, _] = needs.unwrap_or([0; 3]);
    if builds_layers(call) {
        return layers_kept(outcome, state);
    }
    let reads_picks = matches!(call, Call::PicksText | Call::Picks);
    let builds = matches!(call, Call::BuildText | Call::Build);
    // How far each buffer may have been written.
    let (picks, state, steps) = match outcome.reply {
        Reply::Accepted(_) if matches!(call, Call::Sizes | Call::Rule | Call::Action) => (0, 0, 0),
        Reply::Accepted(_) if judges(call) || translates(call) => (0, 0, 0),
        Reply::Accepted(_) if call == Call::Window => (0, 0, 0),
        Reply::Accepted(count) if call == Call::PddlRead => (0, 0, count as usize),
        Reply::Accepted(_) if call == Call::Allowances => (chosen(sample), 0, 0),
        Reply::Accepted(_) if call == Call::Monotone => (0, 0, 0),
        Reply::Accepted(_) if call == Call::Find => (picks, 0, 0),
        Reply::Accepted(_) if reads_picks => (picks, state, 0),
        Reply::Accepted(count) if builds => (0, state, count as usize),
        Reply::Accepted(_) => (0, state, 0),
        Reply::Refused(_) if call == Call::Action || translates(call) => (0, 0, 0),
        Reply::Refused(refusal) if (13..=15).contains(&refusal.number) => (0, state, 0),
        Reply::Refused(_) => (0, 0, 0),
    };
    picks <= outcome.picks.len()
        && state <= outcome.state.len()
        && steps <= outcome.steps.len()
        && untouched(&outcome.picks[picks..])
        && untouched(&outcome.state[state..])
        && outcome.steps[steps..].iter().all(|&step| step == FILL as u32)
}

/// Whether a layered plan took no more of its buffers than it says.
fn layers_kept(outcome: &Outcome, words: usize) -> bool {
    let (state, steps, ends) = match outcome.reply {
        Reply::Accepted(layers) => {
            let layers = layers as usize;
            (words, outcome.ends[layers - 1] as usize, layers)
        }
        Reply::Refused(_) => (0, 0, 0),
    };
    untouched(&outcome.state[state..])
        && outcome.steps[steps..].iter().all(|&step| step == FILL as u32)
        && outcome.ends[ends..].iter().all(|&end| end == 7)
}

/// Whether layers that were built are taken by the checker, and laid flat by the plain one.
fn layers_hold(sample: &Sample, outcome: &Outcome) -> bool {
    let Reply::Accepted(layers) = outcome.reply else { return true };
    let case = [&sample.question[..], &sample.site[..]];
    let (ends, mut state) = (&outcome.ends[..layers as usize], outcome.state.clone());
    let steps = &outcome.steps[..ends.last().map_or(0, |&end| end as usize)];
    let taken = Other.check_layers(case, steps, ends, &mut state) == outcome.reply;
    let flat = Other.check(case, steps, &mut state) == Reply::Accepted(steps.len() as u64);
    taken && flat && state == outcome.state
}

/// Whether a plan that was written is read back.
fn read_back(sample: &Sample, outcome: &Outcome, call: Call) -> bool {
    let (Call::PddlPlan, Reply::Accepted(length)) = (call, outcome.reply) else { return true };
    let case = [&sample.question[..], &sample.site[..]];
    let mut steps = vec![0; sample.lent_steps.len()];
    let reply = Other.pddl_read(case, &outcome.page[..length as usize], &mut steps);
    reply == Reply::Accepted(steps.len() as u64) && steps == sample.lent_steps
}

/// Whether a refusal is one that the call can give.
fn known(outcome: &Outcome, call: Call) -> bool {
    let Reply::Refused(refusal) = outcome.reply else { return true };
    match call {
        Call::Sizes => matches!(refusal.number, 1..=11 | 18..=19 | 23),
        Call::Action => matches!(refusal.number, 1..=11 | 13 | 18..=19 | 23),
        Call::Find => matches!(refusal.number, 1..=12 | 18..=21 | 23),
        Call::Monotone => matches!(refusal.number, 1..=11 | 18..=19 | 21 | 23 | 24),
        Call::Window => matches!(refusal.number, 1..=11 | 18..=19 | 23),
        Call::BuildLayersText | Call::BuildLayers => {
            matches!(refusal.number, 1..=12 | 16..=19 | 23)
        }
        Call::PddlDomain | Call::PddlInstance | Call::PddlRead => {
            matches!(refusal.number, 1..=12 | 18..=19 | 22..=23)
        }
        Call::PddlPlanText | Call::PddlPlan => {
            matches!(refusal.number, 1..=13 | 18..=19 | 22..=23)
        }
        Call::Tries | Call::Allowances => matches!(refusal.number, 1..=12 | 18..=19 | 23),
        Call::BuildText | Call::Build => matches!(refusal.number, 1..=12 | 16..=19 | 23),
        Call::JudgeText | Call::Judge => matches!(refusal.number, 1..=12 | 16..=19 | 23),
        _ => matches!(refusal.number, 1..=15 | 18..=19 | 23),
    }
}

/// Whether a built plan is accepted, ends in the same state and gives back
/// the very picks it was built from.
fn round_trip(sample: &Sample, outcome: &Outcome, needs: Option<Rooms>) -> bool {
    let (Reply::Accepted(count), Some(needs)) = (outcome.reply, needs) else { return true };
    let mut again = sample.clone();
    again.lent_picks.resize(needs[0], FILL);
    again.lent_steps = outcome.steps[..count as usize].to_vec();
    let read = run(&Other, Call::Picks, &again, needs);
    read.reply == outcome.reply
        && read.state[..needs[1]] == outcome.state[..needs[1]]
        && read.picks[..needs[0]] == again.lent_picks
}

/// Whether picks are judged as building with room enough answers, but for its count.
fn as_built(sample: &Sample, call: Call, rooms: Rooms, outcome: &Outcome) -> bool {
    let [_, state, steps] = needs(sample).unwrap_or(rooms);
    let builder = if call == Call::Judge { Call::Build } else { Call::BuildText };
    match run(&Other, builder, sample, [rooms[0], state, steps]).reply {
        Reply::Accepted(_) => outcome.reply == Reply::Accepted(0),
        refused => outcome.reply == refused,
    }
}

/// Whether picks that were found are judged with a yes.
fn judged(sample: &Sample, outcome: &Outcome, needs: Option<Rooms>) -> bool {
    let (Reply::Accepted(_), Some(needs)) = (outcome.reply, needs) else { return true };
    let case = [&sample.question[..], &sample.site[..]];
    Other.judge(case, &outcome.picks[..needs[0]]) == Reply::Accepted(0)
}

fn sane(sample: &Sample, call: Call, rooms: Rooms, outcome: &Outcome) -> bool {
    if matches!(call, Call::DeskPicks | Call::DeskSteps) {
        return outcome.printed.last() == Some(&b'\n');
    }
    let needs = needs(sample);
    let whole = match call {
        Call::Build => round_trip(sample, outcome, needs),
        Call::Find => judged(sample, outcome, needs),
        Call::BuildLayersText | Call::BuildLayers => layers_hold(sample, outcome),
        Call::PddlPlan => read_back(sample, outcome, call),
        _ => !judges(call) || as_built(sample, call, rooms, outcome),
    };
    let printed = !pages(call) || page_kept(outcome);
    kept(sample, outcome, call, needs) && known(outcome, call) && whole && printed
}

fn main() -> ExitCode {
    let (calls, seed) = (argument(1, 1_000_000), argument(2, 1));
    let mut faults = 0;
    let mut random = Random::new(seed);
    for _ in 0..calls / TURNS {
        let sample = draw(&mut random);
        let near = needs(&sample);
        for _ in 0..TURNS {
            let (call, rooms) = (*random.choose(&CALLS), rooms(&mut random, near));
            let outcome = run(&Other, call, &sample, rooms);
            let same = !LINKED || outcome == run(&Peer, call, &sample, rooms);
            if !same || !sane(&sample, call, rooms, &outcome) {
                faults += 1;
                println!("fault: {call:?} {rooms:?} {:?} {sample:?}", outcome.reply);
            }
        }
    }
    let tried = if LINKED { "the proved program" } else { "peer alone, the library is not linked" };
    println!("fuzz: {} calls of {tried}: {faults} faults", calls / TURNS * TURNS);
    if faults == 0 {
        ExitCode::SUCCESS
    } else {
        ExitCode::FAILURE
    }
}
