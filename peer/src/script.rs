//! Scripts of vectors: texts and numbers that are set, calls on them, and the answer that each requires.
//!
//! ```text
//! question | site | text     the lines that follow, up to a full stop alone, are that text
//! lent N N ..                lent steps, or the words of lent picks
//! ends N N ..                where the layers of the lent steps end
//! lists F L F L ..           lists among the lent steps, for `tries`
//! # needs ..                 what the answers of a block rest on
//! CALL N ..                  a call, with the lengths of its lent buffers
//! = ..                       its answer: number and place, then every lent buffer, which began as sevens
//! ```

use crate::digest::sha256;
use crate::layers::Window;
use crate::measures::tally;
use crate::text::{Refusal, Reply};
use crate::trial::{numbers, Calls, Lent, Other, Peer};
use crate::tries::Try;
use std::fmt::Display;

/// What a block may rest on.
const LANDED: [&str; 6] = ["-", "big", "labels", "types", "kinds", "every"];

/// Longer buffers are named by their digest.
const PRINTED: usize = 64;

/// Whether all that answers rest on is here.
pub fn landed(needs: &str) -> bool {
    needs.split(' ').all(|need| LANDED.contains(&need))
}

/// What came of a script's calls.
#[derive(Clone, Debug, Default, PartialEq, Eq)]
pub struct Told {
    pub calls: u32,
    /// Calls that are not made here, or rest on what is not.
    pub left_out: u32,
    /// The answers that differ, whose they are, and what was required.
    pub differences: Vec<[String; 3]>,
}

/// What a script has set for its next calls.
#[derive(Default)]
struct Script {
    question: Vec<u8>,
    site: Vec<u8>,
    text: Vec<u8>,
    lent: Vec<u64>,
    ends: Vec<u32>,
    lists: Vec<Try>,
}

/// A buffer's name and its entries.
fn written<T: Display>(name: &str, entries: &[T]) -> String {
    let entries: Vec<String> = entries.iter().map(T::to_string).collect();
    match entries.len() {
        0 => format!(" {name}"),
        1..=PRINTED => format!(" {name} {}", entries.join(" ")),
        _ => format!(" {name} sha256:{}", sha256(entries.join(" ").as_bytes())),
    }
}

/// The bytes of a refused call's buffer, or whether a long one is as it was.
fn left(out: &[u8]) -> String {
    match out.len() {
        0 => " out".into(),
        1..=PRINTED => out.iter().fold(" out ".into(), |text, byte| format!("{text}{byte:02x}")),
        _ if out.iter().all(|&byte| byte == 7) => " out kept".into(),
        _ => format!(" out sha256:{}", sha256(out)),
    }
}

fn replied(reply: Reply) -> String {
    let (number, place) = numbers(reply);
    format!("= {number} {place}")
}

impl Script {
    fn case(&self) -> [&[u8]; 2] {
        [&self.question, &self.site]
    }

    fn steps(&self) -> Vec<u32> {
        self.lent.iter().map(|&number| number as u32).collect()
    }

    /// What both programs answer to a call; nothing where it is not made here.
    fn answers(&self, call: &str, rooms: &[usize]) -> Vec<(&'static str, String)> {
        if call == "tally" {
            return vec![("peer", tally_line(self.case()))];
        }
        let peer = self.answer(&Peer, call, rooms).map(|answer| ("peer", answer));
        let other = self.answer(&Other, call, rooms).map(|answer| ("other", answer));
        peer.into_iter().chain(other).collect()
    }

    /// A program's answer to a call, if it is one of those that are made here.
    fn answer(&self, program: &impl Calls, call: &str, rooms: &[usize]) -> Option<String> {
        let room = |place: usize| rooms.get(place).copied().unwrap_or_default();
        let case = self.case();
        Some(match call {
            "sizes" => sizes_line(program, case),
            "check" | "check_text" | "picks" | "picks_text" => {
                self.checked(program, call, room(0), room(1))
            }
            "build" | "build_text" => self.built(program, call, room(0), room(1)),
            "window" => window_line(program, case),
            "check_layers" => {
                let mut state = vec![7; room(0)];
                let reply = program.check_layers(case, &self.steps(), &self.ends, &mut state);
                replied(reply) + &written("state", &state)
            }
            "build_layers" | "build_layers_text" => self.layered(program, call, rooms),
            "pddl_domain" | "pddl_instance" | "pddl_plan" | "pddl_plan_text" => {
                self.translated(program, call, room(0))
            }
            "pddl_read" => {
                let mut steps = vec![7; room(0)];
                let reply = program.pddl_read(case, &self.text, &mut steps);
                replied(reply) + &written("steps", &steps)
            }
            "judge" => replied(program.judge(case, &self.lent)),
            "judge_text" => replied(program.judge_text(case, &self.text)),
            "tries" => self.tried(program, room(0)),
            "page" | "page_text" => self.paged(program, call, rooms),
            "monotone" => replied(program.monotone(case)),
            "find" => {
                let mut picks = vec![7; room(0)];
                replied(program.find(case, &mut picks)) + &written("picks", &picks)
            }
            "allowances" => {
                let mut out = vec![7; room(0)];
                replied(program.allowances(case, &mut out)) + &written("allowances", &out)
            }
            _ => return None,
        })
    }

    /// The steps checked, and their picks read where the call has a buffer for them.
    fn checked(&self, program: &impl Calls, call: &str, first: usize, second: usize) -> String {
        let (case, steps) = (self.case(), self.steps());
        let reads = call.starts_with("picks");
        let mut picks = vec![7; if reads { first } else { 0 }];
        let mut state = vec![7; if reads { second } else { first }];
        let reply = match call {
            "check" => program.check(case, &steps, &mut state),
            "check_text" => program.check_text(case, &self.text, &mut state),
            "picks" => program.picks(case, &steps, &mut picks, &mut state),
            _ => program.picks_text(case, &self.text, &mut picks, &mut state),
        };
        let picks = if reads { written("picks", &picks) } else { String::new() };
        replied(reply) + &picks + &written("state", &state)
    }

    fn built(&self, program: &impl Calls, call: &str, words: usize, room: usize) -> String {
        let (mut state, mut steps) = (vec![7; words], vec![7; room]);
        let reply = match call {
            "build" => program.build(self.case(), &self.lent, &mut state, &mut steps),
            _ => program.build_text(self.case(), &self.text, &mut state, &mut steps),
        };
        replied(reply) + &written("state", &state) + &written("steps", &steps)
    }

    fn layered(&self, program: &impl Calls, call: &str, rooms: &[usize]) -> String {
        let &[words, room, layers] = rooms else { return "three numbers are wanted".into() };
        let mut lent = Lent { state: vec![7; words], steps: vec![7; room], ends: vec![7; layers] };
        let reply = match call {
            "build_layers" => program.build_layers(self.case(), &self.lent, &mut lent),
            _ => program.build_layers_text(self.case(), &self.text, &mut lent),
        };
        let Lent { state, steps, ends } = &lent;
        replied(reply)
            + &written("state", state)
            + &written("steps", steps)
            + &written("ends", ends)
    }

    /// A text of PDDL; where it is refused, all that is said is that no byte has changed.
    fn translated(&self, program: &impl Calls, call: &str, room: usize) -> String {
        let (case, mut out) = (self.case(), vec![7; room]);
        let reply = match call {
            "pddl_domain" => program.pddl_domain(case, &mut out),
            "pddl_instance" => program.pddl_instance(case, &mut out),
            "pddl_plan" => program.pddl_plan(case, &self.steps(), &mut out),
            _ => program.pddl_plan_text(case, &self.text, &mut out),
        };
        let kept = out.iter().all(|&byte| byte == 7);
        let told = match reply {
            Reply::Refused(_) if kept => " out kept".into(),
            _ => format!(" out sha256:{}", sha256(&out)),
        };
        replied(reply) + &told
    }

    /// A page; its number stands before the lengths of the buffers.
    fn paged(&self, program: &impl Calls, call: &str, rooms: &[usize]) -> String {
        let &[page, words, room] = rooms else { return "three numbers are wanted".into() };
        let (mut state, mut out, page) = (vec![7; words], vec![7; room], page as u64);
        let reply = match call {
            "page" => program.page(self.case(), &self.steps(), page, &mut state, &mut out),
            _ => program.page_text(self.case(), &self.text, page, &mut state, &mut out),
        };
        let written_out = match reply {
            Reply::Accepted(_) => format!(" out sha256:{}", sha256(&out)),
            Reply::Refused(_) => left(&out),
        };
        replied(reply) + &written("state", &state) + &written_out
    }

    fn tried(&self, program: &impl Calls, words: usize) -> String {
        let (mut tries, mut state) = (self.lists.clone(), vec![7; words]);
        let reply = program.tries(self.case(), &self.steps(), &mut tries, &mut state);
        let record = |Try { first, length, number, place }: &Try| {
            format!("{first} {length} {number} {place}")
        };
        let tries: Vec<String> = tries.iter().map(record).collect();
        replied(reply) + &written("tries", &tries) + &written("state", &state)
    }

    /// Takes a line that sets something, with the lines that belong to it; false where it sets nothing.
    fn set<'s>(&mut self, line: &str, more: &mut impl Iterator<Item = &'s str>) -> bool {
        let (word, rest) = line.split_once(' ').unwrap_or((line, ""));
        let numbers = || rest.split(' ').filter_map(|number| number.parse().ok());
        let mut sheet = || {
            let part = more.take_while(|&line| line != ".");
            part.flat_map(|line| line.bytes().chain([b'\n'])).collect()
        };
        match word {
            "question" => self.question = sheet(),
            "site" => self.site = sheet(),
            "text" => self.text = sheet(),
            "lent" => self.lent = numbers().collect(),
            "ends" => self.ends = numbers().map(|end: u64| end as u32).collect(),
            "lists" => {
                let all: Vec<u64> = numbers().collect();
                let list = |list: &[u64]| Try {
                    first: list[0] as u32,
                    length: list[1] as u32,
                    number: 7,
                    place: 7,
                };
                self.lists = all.chunks_exact(2).map(list).collect();
            }
            _ => return false,
        }
        true
    }
}

fn sizes_line(program: &impl Calls, case: [&[u8]; 2]) -> String {
    match program.sizes(case[0], case[1]) {
        Ok(found) => {
            format!("= 0 0 {} {} {} {}", found.n, found.atoms, found.actions, found.bound)
        }
        Err(Refusal { number, place }) => format!("= {number} {place} 7 7 7 7"),
    }
}

fn window_line(program: &impl Calls, case: [&[u8]; 2]) -> String {
    match program.window(case) {
        Ok(Window { lower, upper }) => format!("= 0 0 {lower} {upper}"),
        Err(Refusal { number, place }) => format!("= {number} {place} 7 7"),
    }
}

/// Only this program has a call for the tally; the proved one's is inside its sizes.
fn tally_line(case: [&[u8]; 2]) -> String {
    match tally(case[0], case[1]) {
        Ok(found) => format!("= {} {} {}", found.nodes, found.atoms, found.actions),
        Err(Refusal { number, place }) => format!("= {number} {place}"),
    }
}

/// Makes the calls of a script by both programs, and holds them to the answers that stand there.
pub fn run(text: &str) -> Told {
    let (mut script, mut told, mut wanted) = (Script::default(), Told::default(), true);
    // A carriage return is a byte of its line.
    let mut lines = text.split('\n');
    while let Some(line) = lines.next() {
        if let Some(needs) = line.strip_prefix("# needs ") {
            wanted = landed(needs);
        }
        if line.is_empty() || line.starts_with('#') || script.set(line, &mut lines) {
            continue;
        }
        // A line with no answer below it sets what calls take that are not made here.
        let Some(required) = lines.clone().next().filter(|next| next.starts_with("= ")) else {
            continue;
        };
        let (call, rest) = line.split_once(' ').unwrap_or((line, ""));
        let rooms: Vec<usize> = rest.split(' ').filter_map(|room| room.parse().ok()).collect();
        let answers = if wanted { script.answers(call, &rooms) } else { Vec::new() };
        if answers.is_empty() {
            told.left_out += 1;
            continue;
        }
        told.calls += 1;
        for (whose, answer) in answers {
            if answer != required {
                told.differences.push([format!("{line}, {whose}"), answer, required.into()]);
            }
        }
    }
    told
}
