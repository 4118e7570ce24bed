//! Meets every limit exactly and passes it by one, in both programs: each has to answer as the papers say,
//! and to leave every lent word as the other does.

use peer::edges::{answer, edges};
use peer::trial::{run, Other, Peer, LINKED};
use std::process::ExitCode;

fn main() -> ExitCode {
    let (mut calls, mut wrong) = (0, 0);
    for edge in edges() {
        let sample = (edge.sample)();
        for (call, rooms, wanted) in edge.asked {
            let outcomes = [run(&Peer, call, &sample, rooms), run(&Other, call, &sample, rooms)];
            let [peer, other] = [&outcomes[0], &outcomes[1]].map(answer);
            let right = peer == wanted && other == wanted && outcomes[0] == outcomes[1];
            println!(
                "{:<48} {:<11} {}",
                edge.name,
                format!("{call:?}"),
                if right { &wanted } else { "WRONG" }
            );
            if !right {
                println!("  wanted {wanted}, the peer {peer}, the other {other}");
            }
            calls += 1;
            wrong += u32::from(!right);
        }
    }
    let with = if LINKED { "the proved program" } else { "itself, the library is not linked" };
    println!("limits: {calls} calls, peer with {with}: {wrong} wrong");
    ExitCode::from(u8::from(wrong > 0))
}
