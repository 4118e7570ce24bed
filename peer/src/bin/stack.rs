//! Makes every call on the worst texts with so little stack, and runs the desk program so.
//!
//!     stack [KIBIBYTES]      every call and the desk program with that much, 1,536 if nothing is said
//!     stack least            for each call the least that will do, in steps of 4
//!
//! Each call is made in a thread of that size, in a process of its own, and has to answer as the peer
//! does. The desk program is `../crates/desk_main/out/desk_main`, or what `NENDOKWE_DESK` names.

use peer::desk::INPUT_LIMIT;
use peer::limits::{STEPS, TEXT};
use peer::sample::desk_input;
use peer::texts::{worst, Text};
use peer::trial::{run, Call, Calls, Other, Peer, CALLS, LINKED};
use std::io::Write;
use std::process::{Command, ExitCode, Stdio};
use std::thread::Builder;

/// Enough for every case that is built: picks, state, steps.
const ROOMS: [usize; 3] = [16_384, 16_384, STEPS];

fn program() -> String {
    let own = concat!(env!("CARGO_MANIFEST_DIR"), "/../crates/desk_main/out/desk_main");
    std::env::var("NENDOKWE_DESK").unwrap_or(own.into())
}

fn texts(call: Call) -> Vec<Text> {
    let desk = matches!(call, Call::DeskPicks | Call::DeskSteps);
    worst(if desk { INPUT_LIMIT } else { TEXT }, desk)
}

/// In a thread of so many kibibytes the call answers as the peer does. Too little ends the process.
fn answers(call: Call, text: usize, kibibytes: usize) -> bool {
    let sample = texts(call)[text].1();
    let expected = run(&Peer, call, &sample, ROOMS);
    let thread = Builder::new().stack_size(kibibytes << 10);
    let given = thread.spawn(move || run(&Other, call, &sample, ROOMS)).map(|given| given.join());
    matches!(given, Ok(Ok(given)) if given == expected)
}

/// The same in a process of its own, which may end badly.
fn suffices(call: usize, text: usize, kibibytes: usize) -> bool {
    let own = std::env::current_exe().expect("a program has a name");
    let numbers = [call, text, kibibytes].map(|number| number.to_string());
    let status = Command::new(own).arg("one").args(numbers).stderr(Stdio::null()).status();
    status.is_ok_and(|status| status.success())
}

/// The desk program prints what the peer's prints, with so many kibibytes.
fn desk_prints(input: &[u8], kibibytes: usize) -> bool {
    let limited = format!("ulimit -s {kibibytes} && exec \"$0\"");
    let mut shell = Command::new("sh");
    shell.args(["-c", &limited, &program()]);
    shell.stdin(Stdio::piped()).stdout(Stdio::piped()).stderr(Stdio::null());
    let Ok(mut child) = shell.spawn() else { return false };
    // A program that ended early shows in what it printed.
    let _ = child.stdin.take().map(|mut pipe| pipe.write_all(input));
    child.wait_with_output().is_ok_and(|printed| printed.stdout == Peer.desk(input))
}

/// The least multiple of 4 for which it holds, if it does for much; what is known to hold of less is asked first.
fn least(known: usize, holds: impl Fn(usize) -> bool) -> Option<usize> {
    const MOST: usize = 16_384;
    if holds(known) {
        return Some(known);
    }
    let (mut below, mut enough) = (known / 4, MOST / 4);
    if !holds(MOST) {
        return None;
    }
    while enough - below > 1 {
        let middle = (below + enough) / 2;
        if holds(4 * middle) {
            enough = middle;
        } else {
            below = middle;
        }
    }
    Some(4 * enough)
}

/// All that is tried: the name of the call, the name of the text, and whether so much is enough.
type Trial = (String, String, Box<dyn Fn(usize) -> bool>);

fn trials() -> Vec<Trial> {
    let mut trials: Vec<Trial> = Vec::new();
    for (place, call) in CALLS.into_iter().enumerate() {
        for (text, (name, _)) in texts(call).into_iter().enumerate() {
            let enough = Box::new(move |kibibytes| suffices(place, text, kibibytes));
            trials.push((format!("{call:?}"), name, enough));
        }
    }
    for (name, text) in worst(INPUT_LIMIT, true) {
        for planned in [false, true] {
            let input = desk_input(&text(), planned);
            let enough = Box::new(move |kibibytes| desk_prints(&input, kibibytes));
            trials.push(("desk_main".into(), name.clone(), enough));
        }
    }
    trials
}

/// Every trial with so much; how many fail.
fn try_all(kibibytes: usize) -> usize {
    let trials = trials();
    let mut failed = 0;
    for (call, text, enough) in &trials {
        if !enough(kibibytes) {
            println!("fails: {call}, {text}");
            failed += 1;
        }
    }
    println!("stack: {} trials with {kibibytes} KiB, {failed} failed", trials.len());
    failed
}

/// The least for each call, and the text that needs it.
fn print_least() -> usize {
    let mut failed = 0;
    let mut told: Vec<(String, usize, String)> = Vec::new();
    for (call, text, enough) in trials() {
        if told.last().map(|last| &last.0) != Some(&call) {
            told.push((call.clone(), 16, String::new()));
        }
        let last = told.last_mut().expect("one was put there");
        match least(last.1, enough) {
            None => {
                println!("fails: {call}, {text}");
                failed += 1;
            }
            Some(kibibytes) if kibibytes > last.1 => *last = (call, kibibytes, text),
            Some(_) => (),
        }
    }
    for (call, kibibytes, text) in told {
        println!("{call:<12} {kibibytes:>6} KiB  {text}");
    }
    failed
}

fn main() -> ExitCode {
    let arguments: Vec<String> = std::env::args().skip(1).collect();
    let number = |place: usize| arguments.get(place).and_then(|text: &String| text.parse().ok());
    let failed = match arguments.first().map(String::as_str) {
        Some("one") => {
            let [Some(call), Some(text), Some(kibibytes)] = [1, 2, 3].map(number) else {
                return ExitCode::FAILURE;
            };
            usize::from(!answers(CALLS[call], text, kibibytes))
        }
        Some("least") => print_least(),
        _ => try_all(number(0).unwrap_or(1_536)),
    };
    if !LINKED && arguments.first().map(String::as_str) != Some("one") {
        println!("The library is not linked: the peer was called in its place.");
    }
    if failed == 0 {
        ExitCode::SUCCESS
    } else {
        ExitCode::FAILURE
    }
}
