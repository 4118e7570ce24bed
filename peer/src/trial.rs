//! One call with its buffers, run on either program, so that replies and every
//! lent word can be held against each other.

use crate::cases::{self, Sizes};
use crate::layers::{self, Window};
use crate::paper::PAGE_BYTES;
use crate::pddl;
use crate::sample::{desk_input, needs, Random, Sample};
use crate::text::{cause, Refusal, Reply};
use crate::tries::Try;

/// The calls that both programs have.
pub trait Calls {
    fn sizes(&self, question: &[u8], site: &[u8]) -> Result<Sizes, Refusal>;
    /// Where the rule's formula begins, and its length.
    fn rule(&self, question: &[u8]) -> [u64; 2];
    fn action(&self, case: [&[u8]; 2], number: u64) -> Result<[u64; 4], Refusal>;
    fn check_text(&self, case: [&[u8]; 2], steps: &[u8], state: &mut [u64]) -> Reply;
    fn check(&self, case: [&[u8]; 2], steps: &[u32], state: &mut [u64]) -> Reply;
    fn picks_text(
        &self,
        case: [&[u8]; 2],
        steps: &[u8],
        picks: &mut [u64],
        state: &mut [u64],
    ) -> Reply;
    fn picks(&self, case: [&[u8]; 2], steps: &[u32], picks: &mut [u64], state: &mut [u64])
        -> Reply;
    fn build_text(
        &self,
        case: [&[u8]; 2],
        picks: &[u8],
        state: &mut [u64],
        steps: &mut [u32],
    ) -> Reply;
    fn build(&self, case: [&[u8]; 2], picks: &[u64], state: &mut [u64], steps: &mut [u32])
        -> Reply;
    fn tries(&self, case: [&[u8]; 2], steps: &[u32], tries: &mut [Try], state: &mut [u64])
        -> Reply;
    fn judge_text(&self, case: [&[u8]; 2], picks: &[u8]) -> Reply;
    fn judge(&self, case: [&[u8]; 2], picks: &[u64]) -> Reply;
    fn allowances(&self, case: [&[u8]; 2], out: &mut [u64]) -> Reply;
    fn page_text(
        &self,
        case: [&[u8]; 2],
        steps: &[u8],
        page: u64,
        state: &mut [u64],
        out: &mut [u8],
    ) -> Reply;
    fn page(
        &self,
        case: [&[u8]; 2],
        steps: &[u32],
        page: u64,
        state: &mut [u64],
        out: &mut [u8],
    ) -> Reply;
    fn find(&self, case: [&[u8]; 2], picks: &mut [u64]) -> Reply;
    fn monotone(&self, case: [&[u8]; 2]) -> Reply;
    fn window(&self, case: [&[u8]; 2]) -> Result<Window, Refusal>;
    fn check_layers(
        &self,
        case: [&[u8]; 2],
        steps: &[u32],
        ends: &[u32],
        state: &mut [u64],
    ) -> Reply;
    fn build_layers_text(&self, case: [&[u8]; 2], picks: &[u8], lent: &mut Lent) -> Reply;
    fn build_layers(&self, case: [&[u8]; 2], picks: &[u64], lent: &mut Lent) -> Reply;
    fn pddl_domain(&self, case: [&[u8]; 2], out: &mut [u8]) -> Reply;
    fn pddl_instance(&self, case: [&[u8]; 2], out: &mut [u8]) -> Reply;
    fn pddl_plan_text(&self, case: [&[u8]; 2], steps: &[u8], out: &mut [u8]) -> Reply;
    fn pddl_plan(&self, case: [&[u8]; 2], steps: &[u32], out: &mut [u8]) -> Reply;
    fn pddl_read(&self, case: [&[u8]; 2], plan: &[u8], steps: &mut [u32]) -> Reply;
    fn desk(&self, input: &[u8]) -> Vec<u8>;
}

/// What is lent for a layered plan.
#[derive(Clone, Debug, PartialEq, Eq)]
pub struct Lent {
    pub state: Vec<u64>,
    pub steps: Vec<u32>,
    pub ends: Vec<u32>,
}

/// This package's own program.
pub struct Peer;

impl Calls for Peer {
    fn sizes(&self, question: &[u8], site: &[u8]) -> Result<Sizes, Refusal> {
        cases::sizes(question, site)
    }

    fn rule(&self, question: &[u8]) -> [u64; 2] {
        let (rule, refused) = cases::rule_part(question);
        let start = if refused.is_some() { 0 } else { question.len() - 1 - rule.len() };
        [start as u64, rule.len() as u64]
    }

    fn action(&self, case: [&[u8]; 2], number: u64) -> Result<[u64; 4], Refusal> {
        cases::action_details(case[0], case[1], number)
    }

    fn check_text(&self, case: [&[u8]; 2], steps: &[u8], state: &mut [u64]) -> Reply {
        cases::check_text(case[0], case[1], steps, state)
    }

    fn check(&self, case: [&[u8]; 2], steps: &[u32], state: &mut [u64]) -> Reply {
        cases::check(case[0], case[1], steps, state)
    }

    fn picks_text(
        &self,
        case: [&[u8]; 2],
        steps: &[u8],
        picks: &mut [u64],
        state: &mut [u64],
    ) -> Reply {
        cases::picks_text(case[0], case[1], steps, picks, state)
    }

    fn picks(
        &self,
        case: [&[u8]; 2],
        steps: &[u32],
        picks: &mut [u64],
        state: &mut [u64],
    ) -> Reply {
        cases::picks(case[0], case[1], steps, picks, state)
    }

    fn build_text(
        &self,
        case: [&[u8]; 2],
        picks: &[u8],
        state: &mut [u64],
        steps: &mut [u32],
    ) -> Reply {
        cases::build_text(case[0], case[1], picks, state, steps)
    }

    fn build(
        &self,
        case: [&[u8]; 2],
        picks: &[u64],
        state: &mut [u64],
        steps: &mut [u32],
    ) -> Reply {
        cases::build(case[0], case[1], picks, state, steps)
    }

    fn tries(
        &self,
        case: [&[u8]; 2],
        steps: &[u32],
        tries: &mut [Try],
        state: &mut [u64],
    ) -> Reply {
        crate::tries::tries(case[0], case[1], steps, tries, state)
    }

    fn judge_text(&self, case: [&[u8]; 2], picks: &[u8]) -> Reply {
        crate::judging::judge_text(case[0], case[1], picks)
    }

    fn judge(&self, case: [&[u8]; 2], picks: &[u64]) -> Reply {
        crate::judging::judge(case[0], case[1], picks)
    }

    fn allowances(&self, case: [&[u8]; 2], out: &mut [u64]) -> Reply {
        crate::measures::allowances(case[0], case[1], out)
    }

    fn page_text(
        &self,
        case: [&[u8]; 2],
        steps: &[u8],
        page: u64,
        state: &mut [u64],
        out: &mut [u8],
    ) -> Reply {
        crate::paper::page_text(case[0], case[1], steps, page, state, out)
    }

    fn page(
        &self,
        case: [&[u8]; 2],
        steps: &[u32],
        page: u64,
        state: &mut [u64],
        out: &mut [u8],
    ) -> Reply {
        crate::paper::page(case[0], case[1], steps, page, state, out)
    }

    fn find(&self, case: [&[u8]; 2], picks: &mut [u64]) -> Reply {
        crate::finding::find(case[0], case[1], picks)
    }

    fn monotone(&self, case: [&[u8]; 2]) -> Reply {
        crate::finding::monotone(case[0], case[1])
    }

    fn window(&self, case: [&[u8]; 2]) -> Result<Window, Refusal> {
        layers::window(case[0], case[1])
    }

    fn check_layers(
        &self,
        case: [&[u8]; 2],
        steps: &[u32],
        ends: &[u32],
        state: &mut [u64],
    ) -> Reply {
        layers::check_layers(case[0], case[1], steps, ends, state)
    }

    fn build_layers_text(&self, case: [&[u8]; 2], picks: &[u8], lent: &mut Lent) -> Reply {
        let Lent { state, steps, ends } = lent;
        layers::build_layers_text(case[0], case[1], picks, state, steps, ends)
    }

    fn build_layers(&self, case: [&[u8]; 2], picks: &[u64], lent: &mut Lent) -> Reply {
        let Lent { state, steps, ends } = lent;
        layers::build_layers(case[0], case[1], picks, state, steps, ends)
    }

    fn pddl_domain(&self, case: [&[u8]; 2], out: &mut [u8]) -> Reply {
        pddl::pddl_domain(case[0], case[1], out)
    }

    fn pddl_instance(&self, case: [&[u8]; 2], out: &mut [u8]) -> Reply {
        pddl::pddl_instance(case[0], case[1], out)
    }

    fn pddl_plan_text(&self, case: [&[u8]; 2], steps: &[u8], out: &mut [u8]) -> Reply {
        pddl::pddl_plan_text(case[0], case[1], steps, out)
    }

    fn pddl_plan(&self, case: [&[u8]; 2], steps: &[u32], out: &mut [u8]) -> Reply {
        pddl::pddl_plan(case[0], case[1], steps, out)
    }

    fn pddl_read(&self, case: [&[u8]; 2], plan: &[u8], steps: &mut [u32]) -> Reply {
        pddl::pddl_read(case[0], case[1], plan, steps)
    }

    fn desk(&self, input: &[u8]) -> Vec<u8> {
        crate::desk::desk(input)
    }
}

/// The other program: ours where it is linked, this one again where it is not.
#[cfg(feature = "ours")]
pub use crate::ours::Ours as Other;
#[cfg(not(feature = "ours"))]
pub use Peer as Other;

/// Whether [`Other`] is a program of its own.
pub const LINKED: bool = cfg!(feature = "ours");

/// Words kept behind each lent buffer, which no call may touch.
pub const GUARD: usize = 8;

#[derive(Clone, Copy, Debug, PartialEq, Eq)]
pub enum Call {
    Sizes,
    Rule,
    Action,
    CheckText,
    Check,
    PicksText,
    Picks,
    BuildText,
    Build,
    JudgeText,
    Judge,
    Tries,
    Allowances,
    PageText,
    Page,
    Find,
    Monotone,
    Window,
    CheckLayers,
    BuildLayersText,
    BuildLayers,
    PddlDomain,
    PddlInstance,
    PddlPlanText,
    PddlPlan,
    PddlRead,
    DeskPicks,
    DeskSteps,
}

pub const CALLS: [Call; 28] = [
    Call::Sizes,
    Call::Rule,
    Call::Action,
    Call::CheckText,
    Call::Check,
    Call::PicksText,
    Call::Picks,
    Call::BuildText,
    Call::Build,
    Call::JudgeText,
    Call::Judge,
    Call::Tries,
    Call::Allowances,
    Call::PageText,
    Call::Page,
    Call::Find,
    Call::Monotone,
    Call::Window,
    Call::CheckLayers,
    Call::BuildLayersText,
    Call::BuildLayers,
    Call::PddlDomain,
    Call::PddlInstance,
    Call::PddlPlanText,
    Call::PddlPlan,
    Call::PddlRead,
    Call::DeskPicks,
    Call::DeskSteps,
];

/// How much of each buffer is lent: picks, state, steps.
pub type Rooms = [usize; 3];

/// All that a call leaves behind.
#[derive(Clone, Debug, PartialEq, Eq)]
pub struct Outcome {
    pub reply: Reply,
    /// The sizes, where the rule lies, an action's details, or what each list among many got.
    pub found: Vec<u64>,
    pub picks: Vec<u64>,
    pub state: Vec<u64>,
    pub steps: Vec<u32>,
    pub ends: Vec<u32>,
    pub printed: Vec<u8>,
    /// The bytes lent for a page, or for a text of PDDL.
    pub page: Vec<u8>,
}

/// What buffers hold before a call.
pub const FILL: u64 = 0x5a5a_1234_8765_a5a5;

impl Outcome {
    fn fresh(rooms: Rooms) -> Self {
        Outcome {
            reply: Reply::Accepted(0),
            found: Vec::new(),
            picks: vec![FILL; rooms[0] + GUARD],
            state: vec![FILL; rooms[1] + GUARD],
            steps: vec![FILL as u32; rooms[2] + GUARD],
            ends: Vec::new(),
            printed: Vec::new(),
            page: Vec::new(),
        }
    }
}

fn found<const N: usize>(numbers: Result<[u64; N], Refusal>, into: &mut Vec<u64>) -> Reply {
    match numbers {
        Ok(numbers) => {
            into.extend(numbers);
            Reply::Accepted(0)
        }
        Err(refusal) => Reply::Refused(refusal),
    }
}

/// All lent steps, all but the last, and one that ends past them.
fn lists(steps: usize) -> [Try; 3] {
    let all = steps as u32;
    [(0, all), (0, all.saturating_sub(1)), (1, all)].map(|(first, length)| Try {
        first,
        length,
        number: 7,
        place: 7,
    })
}

fn tried(program: &impl Calls, sample: &Sample, state: &mut [u64], into: &mut Vec<u64>) -> Reply {
    let mut tries = lists(sample.lent_steps.len());
    let case = [&sample.question[..], &sample.site[..]];
    let reply = program.tries(case, &sample.lent_steps, &mut tries, state);
    into.extend(tries.iter().flat_map(|list| [list.number.into(), list.place]));
    reply
}

/// A page number that is one of a few, and bytes about the needed length, by the lengths of the other buffers.
fn page_asked(rooms: Rooms) -> (u64, usize) {
    let short = rooms[2] % 7 == 0;
    let length = if short { rooms[2] % PAGE_BYTES } else { PAGE_BYTES + rooms[2] % 3 };
    ((rooms[0] + rooms[2] + 1) as u64 % 5, length)
}

/// Buffers for a layered plan; so many ends as the window has layers, or some more or fewer, by the other lengths.
fn lent(sample: &Sample, rooms: Rooms) -> Lent {
    let layers = layers::window(&sample.question, &sample.site).map_or(9, |window| window.upper);
    let ends = (layers as usize + rooms[0] % 3).saturating_sub(usize::from(rooms[2] % 5 == 0));
    Lent { state: vec![FILL; rooms[1]], steps: vec![FILL as u32; rooms[2]], ends: vec![7; ends] }
}

/// Layers to be checked: those built from the sample's picks, often with an end moved by one, or the lent steps one by one.
fn layered(sample: &Sample, rooms: Rooms) -> (Vec<u32>, Vec<u32>) {
    let case = [&sample.question[..], &sample.site[..]];
    let enough = needs(sample).unwrap_or([4, 16, 64]);
    let mut built = lent(sample, [2, enough[1], enough[2]]);
    let Reply::Accepted(count) = Peer.build_layers_text(case, &sample.picks, &mut built) else {
        let ends = 1..=sample.lent_steps.len() as u32;
        return (sample.lent_steps.clone(), ends.collect());
    };
    let mut ends = built.ends[..count as usize].to_vec();
    built.steps.truncate(ends.last().map_or(0, |&end| end as usize));
    let moved = rooms[2] % ends.len().max(1);
    match rooms[0] % 5 {
        0 => ends[moved] += 1,
        1 => ends[moved] = ends[moved].wrapping_sub(1),
        2 => drop(ends.remove(moved)),
        3 => ends.insert(moved, ends[moved]),
        _ => (),
    }
    (built.steps, ends)
}

/// A plan to be read: the lent steps as they are written, some letters in capitals and some bytes changed.
fn plan(sample: &Sample, rooms: Rooms) -> Vec<u8> {
    let case = [&sample.question[..], &sample.site[..]];
    let mut plan = vec![0; 1 << 20];
    let steps: Vec<u32> = sample.lent_steps.iter().copied().take(999).collect();
    let length = match Peer.pddl_plan(case, &steps, &mut plan) {
        Reply::Accepted(length) => length as usize,
        Reply::Refused(_) => 0,
    };
    plan.truncate(length);
    if rooms[0] % 2 == 0 {
        plan.iter_mut().step_by(3).for_each(|byte| byte.make_ascii_uppercase());
    }
    if rooms[2] % 3 == 0 && length > 0 {
        plan[rooms[1] % length] = *b"o0 )(_-\n19xT".get(rooms[2] % 12).unwrap_or(&b'\r');
    }
    plan
}

/// A call that writes PDDL.
fn translate(program: &impl Calls, call: Call, sample: &Sample, out: &mut [u8]) -> Reply {
    let case = [&sample.question[..], &sample.site[..]];
    match call {
        Call::PddlDomain => program.pddl_domain(case, out),
        Call::PddlInstance => program.pddl_instance(case, out),
        Call::PddlPlanText => program.pddl_plan_text(case, &sample.steps, out),
        _ => program.pddl_plan(case, &sample.lent_steps, out),
    }
}

/// Room for a text of PDDL: what it needs, or some bytes more or fewer.
fn text_room(call: Call, sample: &Sample, rooms: Rooms) -> usize {
    let needed = match translate(&Peer, call, sample, &mut []) {
        Reply::Refused(Refusal { number: cause::SHORT_BUFFER, place }) => place as usize,
        _ => 0,
    };
    (needed + rooms[0] % 4).saturating_sub(2 * usize::from(rooms[2] % 4 == 0))
}

/// The calls on layers and on PDDL, whose buffers are made here.
fn run_later(program: &impl Calls, call: Call, sample: &Sample, rooms: Rooms) -> Outcome {
    let mut outcome = Outcome::fresh(rooms);
    let case = [&sample.question[..], &sample.site[..]];
    outcome.reply = match call {
        Call::Window => {
            let window = program.window(case).map(|window| [window.lower, window.upper]);
            found(window, &mut outcome.found)
        }
        Call::CheckLayers => {
            let (steps, ends) = layered(sample, rooms);
            program.check_layers(case, &steps, &ends, &mut outcome.state[..rooms[1]])
        }
        Call::BuildLayersText | Call::BuildLayers => {
            let mut buffers = lent(sample, rooms);
            let mut picks = sample.lent_picks.clone();
            picks.resize(rooms[0], FILL);
            let reply = match call {
                Call::BuildLayers => program.build_layers(case, &picks, &mut buffers),
                _ => program.build_layers_text(case, &sample.picks, &mut buffers),
            };
            let Lent { state, steps, ends } = buffers;
            (outcome.state, outcome.steps, outcome.ends) = (state, steps, ends);
            reply
        }
        Call::PddlRead => {
            program.pddl_read(case, &plan(sample, rooms), &mut outcome.steps[..rooms[2]])
        }
        _ => {
            let length = text_room(call, sample, rooms);
            outcome.page = vec![FILL as u8; length + GUARD];
            translate(program, call, sample, &mut outcome.page[..length])
        }
    };
    outcome
}

/// Makes one call, with buffers of these lengths.
pub fn run(program: &impl Calls, call: Call, sample: &Sample, rooms: Rooms) -> Outcome {
    let mut outcome = Outcome::fresh(rooms);
    let case = [&sample.question[..], &sample.site[..]];
    let picks = &mut outcome.picks[..rooms[0]];
    let state = &mut outcome.state[..rooms[1]];
    let steps = &mut outcome.steps[..rooms[2]];
    // Picks lent to be built or judged are brought to the length of a picks buffer.
    let mut lent = sample.lent_picks.clone();
    lent.resize(rooms[0], FILL);
    outcome.reply = match call {
        Call::Sizes => {
            let sizes = program.sizes(case[0], case[1]);
            let sizes = sizes.map(|sizes| [sizes.n, sizes.atoms, sizes.actions, sizes.bound]);
            found(sizes, &mut outcome.found)
        }
        Call::Rule => found(Ok(program.rule(case[0])), &mut outcome.found),
        // The room for steps is near the bound, and so near the numbers of actions.
        Call::Action => found(program.action(case, rooms[2] as u64), &mut outcome.found),
        Call::CheckText => program.check_text(case, &sample.steps, state),
        Call::Check => program.check(case, &sample.lent_steps, state),
        Call::PicksText => program.picks_text(case, &sample.steps, picks, state),
        Call::Picks => program.picks(case, &sample.lent_steps, picks, state),
        Call::BuildText => program.build_text(case, &sample.picks, state, steps),
        Call::Build => program.build(case, &lent, state, steps),
        Call::JudgeText => program.judge_text(case, &sample.picks),
        Call::Judge => program.judge(case, &lent),
        Call::Tries => tried(program, sample, state, &mut outcome.found),
        Call::PageText | Call::Page => {
            let (page, length) = page_asked(rooms);
            outcome.page = vec![FILL as u8; length + GUARD];
            let out = &mut outcome.page[..length];
            match call {
                Call::Page => program.page(case, &sample.lent_steps, page, state, out),
                _ => program.page_text(case, &sample.steps, page, state, out),
            }
        }
        // The picks' buffer serves for the allowances.
        Call::Allowances => program.allowances(case, picks),
        Call::Find => program.find(case, picks),
        Call::Monotone => program.monotone(case),
        Call::DeskPicks | Call::DeskSteps => {
            let input = desk_input(sample, call == Call::DeskSteps);
            outcome.printed = program.desk(&input);
            Reply::Accepted(0)
        }
        _ => return run_later(program, call, sample, rooms),
    };
    outcome
}

/// Lengths about the needed ones: mostly enough, often one or two off.
pub fn rooms(random: &mut Random, needs: Option<Rooms>) -> Rooms {
    let needs = needs.unwrap_or([4, 16, 64]);
    needs.map(|need| match random.below(12) {
        0 => 0,
        1 => random.below(need + 1),
        2 => need.saturating_sub(1),
        3 => need.saturating_sub(2),
        4 => need + 1,
        5 => need + 2,
        6 => need + random.below(40),
        _ => need,
    })
}

/// A number from the command line.
pub fn argument(place: usize, otherwise: u64) -> u64 {
    std::env::args().nth(place).and_then(|text| text.parse().ok()).unwrap_or(otherwise)
}

/// A reply as the two numbers that a script writes.
pub fn numbers(reply: Reply) -> (u32, u64) {
    match reply {
        Reply::Accepted(count) => (0, count),
        Reply::Refused(refusal) => (refusal.number, refusal.place),
    }
}
