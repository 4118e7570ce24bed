//! Cases with types: types are declared, elements are put into them, variables of the rule range over them, and function kinds go
//! from one to another.

use crate::sample::{fill_records, Random, Sample};

/// A case's own types, and how often a variable of its rule gets one, and a function kind two.
struct Typing {
    names: Vec<String>,
    share: usize,
}

/// The same case with types, and with steps of its own: fewer actions change their numbers.
pub fn typed(random: &mut Random, sample: &Sample) -> Sample {
    let typing = Typing { names: names(random), share: *random.choose(&[2, 5, 8, 10]) };
    let question = typing.question(random, &String::from_utf8_lossy(&sample.question));
    let site = typing.site(random, &String::from_utf8_lossy(&sample.site));
    let picks = picks(random, &question, &site, &String::from_utf8_lossy(&sample.picks));
    let (question, site, picks) = (question.into(), site.into(), picks.into());
    let mut typed = Sample { question, site, picks, ..Sample::default() };
    fill_records(random, &mut typed);
    typed
}

/// Different names: a relation's may be among them, and one of 12 bytes.
fn names(random: &mut Random) -> Vec<String> {
    let known =
        ["DOOR", "ZONE", "CARD", "EQ", "MAX", "R", "T", "CT", "LOBBY", "D2", "Z_", "ABCDEFGHIJ_2"];
    let count = if random.once_in(10) { 8 } else { random.within(1, 3) };
    let mut names: Vec<String> = Vec::new();
    while names.len() < count {
        let name = random.choose(&known).to_string();
        if !names.contains(&name) {
            names.push(name);
        }
    }
    names
}

impl Typing {
    /// Types after the relations, behind function kinds, and in the lists of quantifiers.
    fn question(&self, random: &mut Random, question: &str) -> String {
        let chosen = question.find("choose\t").unwrap_or(question.len());
        let (given, rest) = question.split_at(chosen);
        let types = self.names.iter().map(|name| format!("type\t{name}\n"));
        let types: String = types.collect();
        let rest = rest.split_inclusive('\n').map(|line| match line.strip_prefix("choose\t") {
            Some(_) => self.kind(random, line.trim_end()),
            None => self.rule(random, line),
        });
        format!("{given}{types}{}", rest.collect::<String>())
    }

    /// Both places may have the same type.
    fn kind(&self, random: &mut Random, line: &str) -> String {
        let function = line.ends_with("Fun") || line.ends_with("Inj");
        if !function || random.below(10) >= self.share {
            return format!("{line}\n");
        }
        let [first, second] = [(); 2].map(|()| random.choose(&self.names));
        format!("{line}\t{first}\t{second}\n")
    }

    /// Only in a list does a bracket stand before a variable.
    fn rule(&self, random: &mut Random, text: &str) -> String {
        let mut parts = text.split("(?");
        let mut rule = parts.next().unwrap_or_default().to_string();
        for part in parts {
            let (list, rest) = part.split_at(part.find(')').unwrap_or(part.len()));
            let list: Vec<String> =
                list.split(' ').map(|variable| self.variable(random, variable)).collect();
            rule += &format!("(?{}{rest}", list.join(" "));
        }
        rule
    }

    fn variable(&self, random: &mut Random, variable: &str) -> String {
        if random.below(10) < self.share {
            return format!("{variable}:{}", random.choose(&self.names));
        }
        variable.to_string()
    }

    /// Members after the size, in any order: all elements, one of them or some.
    fn site(&self, random: &mut Random, site: &str) -> String {
        let (size, facts) = site.split_at(site.find('\n').map_or(site.len(), |end| end + 1));
        let n = self::size(site);
        let mut members = Vec::new();
        for name in &self.names {
            let share = *random.choose(&[0, 3, 5, 7, 10]);
            let sure = random.below(n);
            for element in (0..n).filter(|&element| element == sure || random.below(10) < share) {
                members.push(format!("member\t{name}\t{element}\n"));
            }
        }
        if random.once_in(2) {
            random.shuffle(&mut members);
        }
        format!("{size}{}{facts}", members.concat())
    }
}

/// The same picks, but where a kind has types mostly others, which keep to them.
fn picks(random: &mut Random, question: &str, site: &str, picks: &str) -> String {
    let mut lines: Vec<String> = picks.split_inclusive('\n').map(String::from).collect();
    for line in question.lines() {
        let fields: Vec<&str> = line.split('\t').collect();
        let &["choose", name, kind, first, second] = &fields[..] else { continue };
        if random.once_in(8) {
            continue;
        }
        lines.retain(|line| self::name(line, "pick").as_deref() != Some(name));
        let [firsts, mut seconds] = [first, second].map(|name| members(site, name));
        random.shuffle(&mut seconds);
        for (place, first) in firsts.iter().enumerate() {
            let skipped = random.once_in(if kind.starts_with('P') { 3 } else { 20 });
            let any = random.choose(&seconds);
            let second = if kind.ends_with("Inj") { seconds.get(place) } else { Some(any) };
            let pick = second.map(|second| format!("pick\t{name}\t{first}\t{second}\n"));
            lines.extend(pick.filter(|_| !skipped));
        }
        let [first, second] = [(); 2].map(|()| random.below(size(site)));
        let stray = format!("pick\t{name}\t{first}\t{second}\n");
        if random.once_in(6) && !lines.contains(&stray) {
            lines.push(stray);
        }
    }
    lines.concat()
}

/// How many elements a site has.
fn size(site: &str) -> usize {
    let line = site.lines().next().unwrap_or_default();
    line.rsplit('\t').next().and_then(|n| n.parse().ok()).unwrap_or(1)
}

/// A type's members, as they are written.
fn members<'t>(site: &'t str, name: &str) -> Vec<&'t str> {
    let member = |line: &'t str| line.strip_prefix("member\t")?.split_once('\t');
    site.lines().filter_map(member).filter(|own| own.0 == name).map(|own| own.1).collect()
}

/// What may stand for a type, and seldom should.
const TYPES: [&str; 9] =
    ["DOOR", "ZONE", "NOPE", "door", "", "ABCDEFGHIJ_2", "ABCDEFGHIJ_23", "EQ", "1"];

/// Lines about types, most of them wrong in most places.
#[rustfmt::skip]
const LINES: [&str; 33] = [
    "type\tDOOR\n", "type\tZONE\n", "type\tEQ\n", "type\tdoor\n", "type\t\n", "type\tABCDEFGHIJ_23\n", "type\n", "type\tDOOR\t1\n",
    "member\tDOOR\t0\n", "member\tDOOR\tLOBBY\n", "member\tZONE\t1\n", "member\tNOPE\t0\n", "member\tNOPE\t65\n", "member\tNOPE\tNOPE\n",
    "member\tdoor\t0\n",
    "member\tNOPE\t00\n", "member\tDOOR\t65\n", "member\t\t0\n", "member\tDOOR\n", "member\tDOOR\t0\t0\n", "member\tDOOR\tNOPE\n",
    "choose\tW\tFun\tDOOR\tDOOR\n", "choose\tW\tPInj\tDOOR\tZONE\n", "choose\tW\tInj\tDOOR\tNOPE\n", "choose\tW\tPFun\tdoor\tDOOR\n",
    "choose\tW\tFun\t\t\n", "choose\tW\tFun\tDOOR\n", "choose\tW\tFun\tDOOR\tDOOR\tDOOR\n", "choose\tW\t2\tDOOR\tDOOR\n",
    "choose\tW\t2\tDOOR\n", "choose\tEQ\tFun\tDOOR\tNOPE\n", "choose\tw\tPFun\tDOOR\tDOOR\n", "choose\tW\tfun\tDOOR\tDOOR\n",
];

/// What may stand in a list of variables, and seldom should.
const LISTED: [&str; 9] = [
    "?x:DOOR",
    "?x:NOPE",
    "?y:ZONE",
    "?x:door",
    "?x:",
    "?x::DOOR",
    "?x:DOOR:ZONE",
    "?:DOOR",
    "?abcdefg:ABCDEFGHIJ_2",
];

/// Spoils what a case says of types, or brings types in where there are none.
pub fn damage_types(random: &mut Random, sample: &mut Sample) {
    let sheets = [&sample.question, &sample.site, &sample.picks];
    let [question, site, picks] = sheets.map(|sheet| lines(sheet));
    let declared: Vec<String> = question.iter().filter_map(|line| name(line, "type")).collect();
    let own = declared.get(random.below(declared.len().max(1))).cloned();
    let own = own.unwrap_or(random.choose(&TYPES).to_string());
    match random.below(10) {
        // A type without members, and one with one member too many.
        0 => sample.site = without(site, |line| name(line, "member").as_ref() == Some(&own)),
        1 => sample.site = with_copy(random, site, "member"),
        // A type that is declared no more, or twice.
        2 => sample.question = without(question, |line| name(line, "type").as_ref() == Some(&own)),
        3 => sample.question = with_copy(random, question, "type"),
        // Another word for a type, in a line or in the rule.
        4 => sample.site = renamed(random, site, &format!("\t{own}\t"), '\t'),
        5 => sample.question = renamed(random, question, &format!(":{own}"), ':'),
        // Typed variables of any form, in a list and perhaps in a literal too.
        6 => {
            let (listed, times) = (*random.choose(&LISTED), random.within(1, 2));
            sample.question = question.concat().replacen("?x", listed, times).into();
        }
        7 | 8 => sample.question = damage_kind(random, question, &own),
        _ => {
            let (sheet, mut lines) = match random.below(5) {
                0 | 1 => (&mut sample.question, question),
                2 | 3 => (&mut sample.site, site),
                _ => (&mut sample.picks, picks),
            };
            lines.insert(random.below(lines.len() + 1), random.choose(&LINES).to_string());
            *sheet = lines.concat().into();
        }
    }
}

/// Spoils what stands behind the name in a `choose` line, or brings types in there.
fn damage_kind(random: &mut Random, mut lines: Vec<String>, own: &str) -> Vec<u8> {
    let chosen = (0..lines.len()).filter(|&at| name(&lines[at], "choose").is_some());
    let chosen: Vec<usize> = chosen.collect();
    if chosen.is_empty() {
        return lines.concat().into();
    }
    let line = &mut lines[*random.choose(&chosen)];
    let mut fields: Vec<&str> = line.trim_end_matches('\n').split('\t').collect();
    let [one, other] =
        [(); 2].map(|()| if random.once_in(3) { random.choose(&TYPES) } else { own });
    match random.below(6) {
        0 => drop(fields.pop()),
        1 => fields.push(one),
        2 => fields.extend([one, other]),
        3 if fields.len() == 5 => fields[random.within(3, 4)] = one,
        4 if fields.len() == 5 => fields.swap(3, 4),
        _ if fields.len() > 2 => {
            fields[2] = *random.choose(&["Fun", "PFun", "Inj", "PInj", "2", "1", "fun"]);
        }
        _ => (),
    }
    *line = format!("{}\n", fields.join("\t"));
    lines.concat().into()
}

fn lines(sheet: &[u8]) -> Vec<String> {
    String::from_utf8_lossy(sheet).split_inclusive('\n').map(String::from).collect()
}

/// The type that a line of this word names.
fn name(line: &str, word: &str) -> Option<String> {
    let mut fields = line.trim_end().split('\t');
    (fields.next() == Some(word)).then(|| fields.next().map(String::from)).flatten()
}

fn without(mut lines: Vec<String>, gone: impl Fn(&str) -> bool) -> Vec<u8> {
    lines.retain(|line| !gone(line));
    lines.concat().into()
}

/// A line of this word once more, right behind one of them.
fn with_copy(random: &mut Random, mut lines: Vec<String>, word: &str) -> Vec<u8> {
    let own: Vec<usize> = (0..lines.len()).filter(|&at| name(&lines[at], word).is_some()).collect();
    if !own.is_empty() {
        let copy = lines[*random.choose(&own)].clone();
        lines.insert(*random.choose(&own) + 1, copy);
    }
    lines.concat().into()
}

/// Another type where this one is first written.
fn renamed(random: &mut Random, lines: Vec<String>, written: &str, mark: char) -> Vec<u8> {
    let end = if mark == '\t' { "\t" } else { "" };
    let other = format!("{mark}{}{end}", random.choose(&TYPES));
    lines.concat().replacen(written, &other, 1).into()
}
