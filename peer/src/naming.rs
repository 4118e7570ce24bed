//! Cases with labels: the elements of a case get names, which stand in the place of their numbers.

use crate::sample::{sound, Random, Sample};
use crate::typing::typed;

/// The name of each element that has one.
pub type Names = Vec<Option<String>>;

/// A case of the sheets' form, half of the time with types, and half of the time with labels.
pub fn drawn(random: &mut Random) -> Sample {
    let mut sample = sound(random);
    if random.once_in(2) {
        sample = typed(random, &sample);
    }
    if random.once_in(2) {
        return sample;
    }
    labelled(random, &sample).0
}

/// The same case with labels for some of its elements, which some of its lines use; and these labels.
pub fn labelled(random: &mut Random, sample: &Sample) -> (Sample, Names) {
    let site = String::from_utf8_lossy(&sample.site);
    let (size, facts) = site.split_at(site.find('\n').map_or(site.len(), |end| end + 1));
    let n = size.trim_end().rsplit('\t').next().and_then(|n| n.parse().ok()).unwrap_or(0);
    let names = names(random, n);
    let mut labels: Vec<String> = label_lines(&names);
    random.shuffle(&mut labels);
    // In one of so many fields a number stays.
    let rarely = *random.choose(&[2, 3, 9, usize::MAX]);
    let mut renamed = |text: &str| renamed(text, &names, || !random.once_in(rarely));
    let site = format!("{size}{}{}", labels.concat(), renamed(facts));
    let picks = renamed(&String::from_utf8_lossy(&sample.picks));
    (Sample { site: site.into(), picks: picks.into(), ..sample.clone() }, names)
}

/// Different names for all elements, for most or for few.
fn names(random: &mut Random, n: usize) -> Names {
    let share = *random.choose(&[1, 5, 10, 10]);
    let mut names: Names = Vec::new();
    while names.len() < n {
        let own = Some(name(random)).filter(|_| random.below(10) < share);
        if own.is_none() || !names.contains(&own) {
            names.push(own);
        }
    }
    names
}

/// A name as good as any: a relation's, a short one, a long one, one that differs from others at its end alone.
fn name(random: &mut Random) -> String {
    let known = ["LOBBY", "GATE_1", "GATE_2", "EQ", "MAX", "R", "T", "CT", "AND", "A", "Z9", "FUN"];
    match random.below(3) {
        0 => (*random.choose(&known)).to_string(),
        1 => format!("CORRIDOR_{:03}", random.below(1_000)),
        _ => {
            let (head, tail) = (*random.choose(b"AQZ") as char, random.below(12));
            let rest = (0..tail).map(|_| *random.choose(b"ABZ019_") as char);
            format!("{head}{}", rest.collect::<String>())
        }
    }
}

/// A `label` line for each name.
pub fn label_lines(names: &Names) -> Vec<String> {
    let line = |(element, name): (usize, &Option<String>)| {
        name.as_ref().map(|name| format!("label\t{element}\t{name}\n"))
    };
    names.iter().enumerate().filter_map(line).collect()
}

/// The same text with names in the elements' fields of members, facts and picks, wherever `named` says so.
pub fn renamed(text: &str, names: &Names, mut named: impl FnMut() -> bool) -> String {
    let mut field = |place: usize, field: &str| {
        let element = if place < 2 { None } else { field.parse::<usize>().ok() };
        let name = element.and_then(|element| names.get(element)?.clone());
        name.filter(|_| named()).unwrap_or(field.to_string())
    };
    let mut line = |line: &str| {
        if !["member\t", "fact\t", "pick\t"].iter().any(|word| line.starts_with(word)) {
            return format!("{line}\n");
        }
        let fields = line.split('\t').enumerate().map(|(place, own)| field(place, own));
        format!("{}\n", fields.collect::<Vec<_>>().join("\t"))
    };
    text.lines().map(&mut line).collect()
}
