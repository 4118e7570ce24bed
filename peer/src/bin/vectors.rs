//! Holds both programs to vectors.
//!
//!     vectors DIRECTORY|SCRIPT ..
//!
//! A directory has desk inputs `NAME.in` (or `NAME.case`) and each one's whole output `NAME.out`, for some the
//! pages of its steps `NAME.paper`, and perhaps an `index.tsv` with a column `needs`. A script has calls with the answers they require. What rests on
//! something that is not here is left out, and counted.

use peer::paper::pages;
use peer::script::{self, landed, Told};
use peer::trial::{Calls, Other, Peer, LINKED};
use std::collections::HashMap;
use std::fs;
use std::io;
use std::path::{Path, PathBuf};
use std::process::ExitCode;

fn inputs(directory: &Path) -> io::Result<Vec<PathBuf>> {
    let mut found = Vec::new();
    for entry in fs::read_dir(directory)? {
        let path = entry?.path();
        if path.extension().is_some_and(|extension| extension == "in" || extension == "case") {
            found.push(path);
        }
    }
    found.sort();
    Ok(found)
}

/// What each input of a directory needs, where an index says so.
fn needs(directory: &Path) -> HashMap<String, String> {
    let index = fs::read_to_string(directory.join("index.tsv")).unwrap_or_default();
    let mut rows = index.lines().map(|line| line.split('\t').map(String::from).collect());
    let heads: Vec<String> = rows.next().unwrap_or_default();
    let Some(column) = heads.iter().position(|head| head == "needs") else { return HashMap::new() };
    rows.map(|mut row: Vec<String>| (row.remove(0), row.remove(column - 1))).collect()
}

/// Holds what a program printed to what it has to print.
fn hold(told: &mut Told, what: String, printed: Vec<u8>, required: &[u8]) {
    if printed != required {
        let texts = [&printed, required].map(|text| text.escape_ascii().to_string());
        told.differences.push([what, texts[0].clone(), texts[1].clone()]);
    }
}

fn desk(directory: &Path) -> io::Result<Told> {
    let (needs, mut told) = (needs(directory), Told::default());
    for path in inputs(directory)? {
        let name = path.file_stem().unwrap_or_default().to_string_lossy().to_string();
        if needs.get(&name).is_some_and(|needs| !landed(needs)) {
            told.left_out += 1;
            continue;
        }
        let (input, required) = (fs::read(&path)?, fs::read(path.with_extension("out"))?);
        told.calls += 1;
        for (whose, printed) in [("peer", Peer.desk(&input)), ("other", Other.desk(&input))] {
            hold(&mut told, format!("{name}, {whose}"), printed, &required);
        }
        let Ok(paper) = fs::read(path.with_extension("paper")) else { continue };
        for (whose, printed) in [("peer", pages(&Peer, &input)), ("other", pages(&Other, &input))] {
            hold(&mut told, format!("{name} on paper, {whose}"), printed, &paper);
        }
    }
    Ok(told)
}

fn main() -> io::Result<ExitCode> {
    let (mut calls, mut differences) = (0, 0);
    for argument in std::env::args().skip(1) {
        let path = Path::new(&argument);
        let told =
            if path.is_dir() { desk(path)? } else { script::run(&fs::read_to_string(path)?) };
        for [call, answer, required] in &told.differences {
            println!("{argument}: {call}\n  {answer:.400}\n  {required:.400}");
        }
        let Told { calls: made, left_out, .. } = told;
        let differ = told.differences.len();
        println!("{argument}: {made} calls, {left_out} left out, {differ} answers differ");
        calls += made;
        differences += differ;
    }
    if !LINKED {
        println!("The library is not linked: the peer answered twice.");
    }
    Ok(if differences == 0 && calls > 0 { ExitCode::SUCCESS } else { ExitCode::FAILURE })
}
