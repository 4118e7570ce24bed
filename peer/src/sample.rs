//! Random cases, sound and damaged, from a seed that fixes every one of them.

use crate::cases::{build, picks_text, sizes};
use crate::desk::INPUT_LIMIT;
use crate::ground::{Action, Problem};
use crate::limits::{self, USUAL};
use crate::records::Kind;
use crate::sheets;
use crate::text::Reply;
use crate::typing::damage_types;

/// A small generator (SplitMix64) whose whole state is one word.
#[derive(Clone, Debug)]
pub struct Random(u64);

impl Random {
    pub fn new(seed: u64) -> Self {
        Random(seed)
    }

    pub fn word(&mut self) -> u64 {
        self.0 = self.0.wrapping_add(0x9e37_79b9_7f4a_7c15);
        let mut mixed = self.0;
        mixed = (mixed ^ mixed >> 30).wrapping_mul(0xbf58_476d_1ce4_e5b9);
        mixed = (mixed ^ mixed >> 27).wrapping_mul(0x94d0_49bb_1331_11eb);
        mixed ^ mixed >> 31
    }

    /// A number below the limit, which must not be 0.
    pub fn below(&mut self, limit: usize) -> usize {
        (self.word() % limit as u64) as usize
    }

    pub fn within(&mut self, least: usize, most: usize) -> usize {
        least + self.below(most - least + 1)
    }

    /// True once in so many times.
    pub fn once_in(&mut self, times: usize) -> bool {
        self.below(times) == 0
    }

    pub fn choose<'a, T>(&mut self, of: &'a [T]) -> &'a T {
        &of[self.below(of.len())]
    }

    pub fn shuffle<T>(&mut self, of: &mut [T]) {
        for last in (1..of.len()).rev() {
            of.swap(last, self.below(last + 1));
        }
    }
}

/// One case with a record of each sort, as texts and as numbers.
#[derive(Clone, Debug, Default)]
pub struct Sample {
    pub question: Vec<u8>,
    pub site: Vec<u8>,
    pub picks: Vec<u8>,
    pub steps: Vec<u8>,
    pub lent_picks: Vec<u64>,
    pub lent_steps: Vec<u32>,
}

struct Declared {
    name: String,
    kind: Kind,
}

/// A case of the sheets' form; its picks may be false, its steps may fail.
pub fn sound(random: &mut Random) -> Sample {
    let rels = declare(random, 0, "");
    let chosen = declare(random, 1, "C");
    let n = size(random);
    let every = every(random, n);
    let rule = Rule::new(random, &rels, &chosen, every.as_ref()).text;
    let mut question = String::new();
    for Declared { name, kind } in &rels {
        question += &format!("rel\t{name}\t{}\n", kind.arity());
    }
    for Declared { name, kind } in &chosen {
        question += &format!("choose\t{name}\t{}\n", kind_field(*kind));
    }
    if let Some(Declared { name, kind }) = &every {
        question += &format!("every\t{name}\t{}\n", kind.arity());
    }
    question += &format!("rule\t{rule}\n");
    let mut site = format!("size\t{n}\n");
    let density = random.within(0, 4);
    for rel in &rels {
        tuples(random, "fact", rel, n, density, &mut site);
    }
    let mut picks = String::new();
    let density = random.within(0, 4);
    for choose in &chosen {
        picks_of(random, choose, n, density, &mut picks);
    }
    let (question, site) = (question.into_bytes(), site.into_bytes());
    let mut sample = Sample { question, site, picks: picks.into_bytes(), ..Sample::default() };
    fill_records(random, &mut sample);
    sample
}

/// Mostly few elements, now and then more than the desk takes, and one too many for any call.
fn size(random: &mut Random) -> usize {
    match random.below(120) {
        0 => random.within(17, USUAL.elements as usize + 1),
        1..=3 => random.within(5, 16),
        _ => random.within(1, 4),
    }
}

fn declare(random: &mut Random, least: usize, prefix: &str) -> Vec<Declared> {
    let most = if least == 0 { 8 } else { 4 };
    let count = if random.once_in(12) { most } else { random.within(least, 2) };
    let mut declared: Vec<Declared> = Vec::new();
    while declared.len() < count {
        let name = format!("{prefix}{}", relation_name(random));
        let fresh = declared.iter().all(|other| other.name != name);
        if fresh && !["EQ", "LT", "SUC", "ZERO", "MAX"].contains(&name.as_str()) {
            let kind = if least == 0 { plain(random) } else { any_kind(random) };
            declared.push(Declared { name, kind });
        }
    }
    declared
}

/// In one case of three a relation for every value of which the rule must be true: mostly one with few tuples.
fn every(random: &mut Random, n: usize) -> Option<Declared> {
    let arity = match n {
        _ if !random.once_in(3) => return None,
        1..=2 => random.within(1, 2),
        3..=8 if !random.once_in(20) => 1,
        _ if random.once_in(4) => random.within(1, 2),
        _ => return None,
    };
    Some(Declared { name: format!("V{}", relation_name(random)), kind: Kind::Plain(arity) })
}

/// Never a C or a V in front, so that the names differ from one sort of line to the next.
fn relation_name(random: &mut Random) -> String {
    let known = ["R", "E", "T", "F", "AND", "NOT", "GOAL", "EXISTS", "D2", "R_", "SUCC", "T9_X"];
    if random.once_in(6) {
        let tail = random.below(11);
        let rest = (0..tail).map(|_| *random.choose(b"ABZ019_") as char);
        return format!("Q{}", rest.collect::<String>());
    }
    (*random.choose(&known)).to_string()
}

fn plain(random: &mut Random) -> Kind {
    Kind::Plain(*random.choose(&[1, 1, 2, 2, 2, 3]))
}

fn any_kind(random: &mut Random) -> Kind {
    match random.below(8) {
        0 => Kind::Fun,
        1 => Kind::PFun,
        2 => Kind::Inj,
        3 => Kind::PInj,
        _ => plain(random),
    }
}

fn kind_field(kind: Kind) -> String {
    match kind {
        Kind::Plain(arity) => arity.to_string(),
        other => format!("{other:?}"),
    }
}

/// A formula that keeps within its limits, save now and then by a little.
struct Rule<'a> {
    random: &'a mut Random,
    relations: Vec<(&'a str, usize)>,
    scope: Vec<String>,
    forms: usize,
    text: String,
}

impl<'a> Rule<'a> {
    fn new(
        random: &'a mut Random,
        rels: &'a [Declared],
        chosen: &'a [Declared],
        every: Option<&'a Declared>,
    ) -> Self {
        let mut relations = vec![("EQ", 2), ("LT", 2), ("SUC", 2), ("ZERO", 1), ("MAX", 1)];
        // Declared relations stand more often than the built-in ones.
        for declared in rels.iter().chain(chosen).chain(chosen).chain(every).chain(every) {
            relations.push((&declared.name, declared.kind.arity()));
        }
        let forms = if random.once_in(20) { random.within(50, 62) } else { random.within(3, 24) };
        let mut rule = Rule { random, relations, scope: Vec::new(), forms, text: String::new() };
        rule.formula(0);
        rule
    }

    fn formula(&mut self, depth: usize) {
        self.forms = self.forms.saturating_sub(1);
        let last = self.forms < 2 || depth > 9;
        let room = 4 - self.scope.len();
        match self.random.below(8) {
            _ if last && !self.scope.is_empty() => self.literal(),
            0 if !self.scope.is_empty() => self.literal(),
            1 => self.parts("not", 1, depth),
            2 | 3 if !last => self.junction("and", depth),
            4 if !last => self.junction("or", depth),
            5 if !last => self.parts("implies", 2, depth),
            _ if room > 0 => self.quantified(room, depth),
            _ => self.literal(),
        }
    }

    fn junction(&mut self, word: &str, depth: usize) {
        let parts = self.random.within(1, 4);
        self.parts(word, parts, depth);
    }

    fn parts(&mut self, word: &str, parts: usize, depth: usize) {
        self.text += &format!("({word}");
        for _ in 0..parts {
            self.text.push(' ');
            self.formula(depth + 1);
        }
        self.text.push(')');
    }

    fn quantified(&mut self, room: usize, depth: usize) {
        let word = *self.random.choose(&["exists", "forall"]);
        let count = self.random.within(1, room.min(2));
        let outer = self.scope.len();
        while self.scope.len() < outer + count {
            let variable = self.variable();
            if !self.scope.contains(&variable) {
                self.scope.push(variable);
            }
        }
        self.text += &format!("({word} ({}) ", self.scope[outer..].join(" "));
        self.formula(depth + 1);
        self.text.push(')');
        self.scope.truncate(outer);
    }

    fn variable(&mut self) -> String {
        let known = ["?x", "?y", "?z", "?u", "?v", "?a0", "?and", "?forall", "?x_1", "?zzzzzz9"];
        (*self.random.choose(&known)).to_string()
    }

    fn literal(&mut self) {
        let (name, arity) = *self.random.choose(&self.relations);
        self.text += &format!("({name}");
        for _ in 0..arity {
            let variable = self.random.choose(&self.scope).clone();
            self.text += &format!(" {variable}");
        }
        self.text.push(')');
    }
}

/// Lines for some of a relation's tuples, in a random order.
fn tuples(
    random: &mut Random,
    word: &str,
    of: &Declared,
    n: usize,
    density: usize,
    to: &mut String,
) {
    let arity = of.kind.arity();
    let mut rows: Vec<usize> = (0..n.pow(arity as u32).min(600)).collect();
    rows.retain(|_| random.below(4) < density);
    random.shuffle(&mut rows);
    rows.iter().for_each(|&row| tuple_line(word, of, row, n, to));
}

fn tuple_line(word: &str, of: &Declared, row: usize, n: usize, to: &mut String) {
    let (first, second, third) = (row / n / n, row / n % n, row % n);
    *to += &match of.kind.arity() {
        1 => format!("{word}\t{}\t{third}\n", of.name),
        2 => format!("{word}\t{}\t{second}\t{third}\n", of.name),
        _ => format!("{word}\t{}\t{first}\t{second}\t{third}\n", of.name),
    };
}

/// Picks that mostly keep to their kind.
fn picks_of(random: &mut Random, of: &Declared, n: usize, density: usize, to: &mut String) {
    if !of.kind.is_function() || random.once_in(12) {
        return tuples(random, "pick", of, n, density, to);
    }
    let mut seconds: Vec<usize> = (0..n).collect();
    random.shuffle(&mut seconds);
    for (first, &own) in seconds.iter().enumerate() {
        let skipped = random.once_in(if of.kind.is_total() { 20 } else { 3 });
        let second = if of.kind.is_injective() { own } else { random.below(n) };
        if !skipped {
            tuple_line("pick", of, first * n + second, n, to);
        }
    }
}

/// Lends the picks as bits, and finds steps that come near a plan.
pub(crate) fn fill_records(random: &mut Random, sample: &mut Sample) {
    let Ok(question) = sheets::question(&sample.question) else { return };
    let Ok(structure) = sheets::site(&sample.site, &question.signature, &USUAL) else { return };
    let Ok(tables) = sheets::picks(&sample.picks, &question.signature, &structure) else { return };
    sample.lent_picks = tables.words;
    let Ok(problem) = Problem::new(&question, &structure, &USUAL) else { return };
    let mut steps = vec![0; problem.bound as usize];
    let mut state = vec![0; problem.words()];
    let picks = &sample.lent_picks;
    let reply = build(&sample.question, &sample.site, picks, &mut state, &mut steps);
    if let Reply::Accepted(count) = reply {
        steps.truncate(count as usize);
        // Rounds have to keep their order.
        if steps.len() < 400 && problem.every_tuples() == 0 && random.once_in(3) {
            steps = reorder(random, &problem, &steps);
        }
        vary(random, &mut steps, problem.actions() as usize);
    } else {
        steps.truncate(random.below(20));
        steps.iter_mut().for_each(|step| *step = random.below(problem.actions() as usize) as u32);
    }
    sample.steps = steps_text(&steps);
    sample.lent_steps = steps;
}

pub fn steps_text(steps: &[u32]) -> Vec<u8> {
    steps.iter().flat_map(|step| format!("step\t{step}\n").into_bytes()).collect()
}

/// The same steps in another order that may be taken, with needless ones
/// between them: repeated proofs, and proofs by another part or element.
pub fn reorder(random: &mut Random, problem: &Problem, plan: &[u32]) -> Vec<u32> {
    let mut state = vec![0; problem.words()];
    problem.initial(&mut state);
    let mut waiting = plan.to_vec();
    let mut ordered = Vec::new();
    while !waiting.is_empty() {
        let extra = random.below(problem.actions() as usize) as u32;
        let proving = matches!(problem.action(extra), Some(Action::Prove(_)));
        if proving && random.once_in(3) && take(problem, extra, &mut state) {
            ordered.push(extra);
        }
        let next = random.below(waiting.len());
        let turn = waiting[next] == problem.begin_proof;
        let sets_left = waiting.iter().any(|&step| step < problem.begin_proof);
        if !(turn && sets_left) && take(problem, waiting[next], &mut state) {
            ordered.push(waiting.swap_remove(next));
        }
    }
    ordered
}

fn take(problem: &Problem, step: u32, state: &mut [u64]) -> bool {
    problem.action(step).is_some_and(|action| problem.take(action, state))
}

/// Leaves a plan as it is, or spoils it by one step or two.
fn vary(random: &mut Random, steps: &mut Vec<u32>, actions: usize) {
    let place = random.below(steps.len());
    match random.below(10) {
        0 => steps.truncate(place),
        1 => steps[place] = random.below(actions) as u32,
        2 => steps.insert(place, random.below(actions) as u32),
        3 => drop(steps.remove(place)),
        4 => steps.insert(place, actions as u32 + random.below(3) as u32),
        5 => steps.swap(place, 0),
        6 => steps.push(random.below(actions) as u32),
        _ => (),
    }
}

/// What a damaged word may become.
#[rustfmt::skip]
const WORDS: [&str; 47] = [
    "(", ")", ") ", " (", "and", "or", "not", "implies", "exists", "forall", "?x", "?y", "?z",
    "?abcdefgh", "?X", "?x:DOOR", "?x:NOPE", "?x:", "EQ", "LT", "ZERO", "R", "T", "CT", "0", "1", "2", "3", "4", "16", "17",
    "64", "65", "01", "", "LOBBY", "lobby", "CORRIDOR_001", "CORRIDOR_0001", "Fun", "PInj", "(and (ZERO ?x))", "(not (not (EQ ?x ?x)))", "rel", "pick", "every", "\t",
];

/// Lines that are wrong in most places, if not in all.
#[rustfmt::skip]
const ODD_LINES: [&str; 47] = [
    "rel\tEQ\t2\n", "rel\tR\t4\n", "rel\tr\t1\n", "rel\tABCDEFGHIJKLM\t1\n", "rel\tW\t1\n",
    "choose\tW\tfun\n", "choose\tW\tInj\n", "choose\tW\t0\n", "rule\n", "rule\t\n", "rule\t(T)\n",
    "size\t64\n", "size\t65\n", "size\t17\n", "size\t0\n", "size\t3\n", "size\t03\n", "fact\tT\n", "fact\tR\t0\t0\t0\t0\n",
    "fact\tR\t0\n", "pick\tF\t0\t0\n", "pick\tLT\t0\t0\n", "step\t12345678\n", "step\t00\n",
    "step\t1\n", "step\t9999999\n", "\t\n", "end\n",
    "label\t0\tLOBBY\n", "label\t1\tEQ\n", "label\t0\tlobby\n", "label\t65\tLOBBY\n", "label\tLOBBY\tT\n",
    "label\tLOBBY\t0\n", "label\t0\n", "label\t00\tA\n", "fact\tR\tLOBBY\n", "pick\tCT\tLOBBY\t65\n",
    "every\tW\t1\n", "every\tW\t2\n", "every\tW\t3\n", "every\tW\t0\n", "every\tEQ\t1\n", "every\tCT\t1\n", "every\tw\t1\n",
    "every\tW\n", "every\tW\t1\tDOOR\n",
];

/// What may stand for an element, or as a label, and seldom should.
const ELEMENTS: [&str; 9] = ["0", "1", "2", "65", "LOBBY", "NOPE", "lobby", "01", "CORRIDOR_0001"];

/// Spoils one sheet of a case, by bytes, by fields or by whole lines.
pub fn damage(random: &mut Random, sample: &mut Sample) {
    let foreign = match random.below(4) {
        0 => sample.question.clone(),
        1 => sample.site.clone(),
        2 => sample.picks.clone(),
        _ => sample.steps.clone(),
    };
    let sheet = match random.below(5) {
        0 | 1 => &mut sample.question,
        2 => &mut sample.site,
        3 => &mut sample.picks,
        _ => &mut sample.steps,
    };
    match random.below(5) {
        _ if random.once_in(200) => stretch(random, sheet),
        0 => damage_bytes(random, sheet),
        1 => damage_lines(random, sheet, &foreign),
        2 => damage_words(random, sheet, &foreign),
        3 => damage_elements(random, &mut sample.site, &mut sample.picks),
        _ => damage_types(random, sample),
    }
    damage_lent(random, sample);
}

/// Lengthens a sheet to about one of the limits by repeating its last line.
fn stretch(random: &mut Random, sheet: &mut Vec<u8>) {
    let about = *random.choose(&[INPUT_LIMIT, 65_536, limits::TEXT]);
    let length = random.within(about - 2, about + 2);
    let last = sheet[..sheet.len().saturating_sub(1)].iter().rposition(|&b| b == b'\n');
    let line = sheet[last.map_or(0, |before| before + 1)..].to_vec();
    if !line.is_empty() {
        let missing = length.max(sheet.len()) - sheet.len();
        sheet.extend(line.iter().cycle().take(missing));
    }
}

/// Lent picks get a stray bit, lent steps a number out of any range.
fn damage_lent(random: &mut Random, sample: &mut Sample) {
    if !sample.lent_picks.is_empty() && random.once_in(3) {
        let word = random.below(sample.lent_picks.len());
        sample.lent_picks[word] ^= 1 << random.below(64);
    }
    if !sample.lent_steps.is_empty() && random.once_in(6) {
        let step = random.below(sample.lent_steps.len());
        sample.lent_steps[step] = random.word() as u32;
    }
    if random.once_in(400) {
        let count = random.within(limits::STEPS - 2, limits::STEPS + 2);
        let last = sample.lent_steps.last().copied().unwrap_or(0);
        sample.lent_steps.resize(count, last);
    }
}

fn damage_bytes(random: &mut Random, sheet: &mut Vec<u8>) {
    let byte = *random.choose(b"\t\n ()?:_0179aAxZ\r\x80-+");
    if sheet.is_empty() {
        return sheet.push(byte);
    }
    let place = random.below(sheet.len());
    match random.below(4) {
        0 => sheet[place] = byte,
        1 => sheet.insert(place, byte),
        2 => drop(sheet.remove(place)),
        _ => sheet.truncate(place),
    }
}

fn damage_lines(random: &mut Random, sheet: &mut Vec<u8>, foreign: &[u8]) {
    let mut lines: Vec<Vec<u8>> = sheet.split_inclusive(|&b| b == b'\n').map(Vec::from).collect();
    let others: Vec<&[u8]> = foreign.split_inclusive(|&b| b == b'\n').collect();
    let place = random.below(lines.len() + 1);
    match random.below(6) {
        0 if place < lines.len() => drop(lines.remove(place)),
        1 if place < lines.len() => {
            let line = lines[place].clone();
            lines.insert(random.below(lines.len() + 1), line);
        }
        2 if place < lines.len() => {
            let other = random.below(lines.len());
            lines.swap(place, other);
        }
        3 => lines.insert(place, b"\n".to_vec()),
        4 => lines.insert(place, odd_line(random)),
        _ if !others.is_empty() => lines.insert(place, random.choose(&others).to_vec()),
        _ => (),
    }
    *sheet = lines.concat();
}

fn odd_line(random: &mut Random) -> Vec<u8> {
    random.choose(&ODD_LINES).as_bytes().to_vec()
}

/// Replaces one word, field or bracket by another of about its sort, or by one that stands in another sheet.
fn damage_words(random: &mut Random, sheet: &mut Vec<u8>, foreign: &[u8]) {
    let is_break = |byte: &u8| b"\t\n ()".contains(byte);
    if sheet.is_empty() {
        return;
    }
    let others: Vec<&[u8]> = foreign.split(is_break).filter(|word| !word.is_empty()).collect();
    let word = if others.is_empty() || random.once_in(2) {
        random.choose(&WORDS).as_bytes()
    } else {
        random.choose(&others)
    };
    let place = random.below(sheet.len());
    let start = sheet[..place].iter().rposition(is_break).map_or(0, |before| before + 1);
    let length = sheet[start..].iter().position(is_break).unwrap_or(sheet.len() - start);
    let end = start + if length == 0 { 1 } else { length };
    sheet.splice(start..end.min(sheet.len()), word.iter().copied());
}

/// Replaces some elements in one line of the site or the picks, or what makes a label.
fn damage_elements(random: &mut Random, site: &mut Vec<u8>, picks: &mut Vec<u8>) {
    let labels: Vec<Vec<u8>> = site
        .split(|&byte| byte == b'\n')
        .filter(|line| line.starts_with(b"label"))
        .filter_map(|line| line.split(|&byte| byte == b'\t').nth(2).map(Vec::from))
        .collect();
    let sheet = if random.once_in(3) { picks } else { site };
    let mut lines: Vec<Vec<u8>> = sheet.split(|&byte| byte == b'\n').map(Vec::from).collect();
    let place = random.below(lines.len());
    let first = if lines[place].starts_with(b"label") { 1 } else { 2 };
    let mut fields: Vec<&[u8]> = lines[place].split(|&byte| byte == b'\t').collect();
    for field in fields.iter_mut().skip(first) {
        match random.below(4) {
            0 => *field = random.choose(&ELEMENTS).as_bytes(),
            1 if !labels.is_empty() => *field = &labels[random.below(labels.len())],
            _ => (),
        }
    }
    lines[place] = fields.join(&b'\t');
    *sheet = lines.join(&b'\n');
}

/// The desk's input for a case, by picks or by steps.
pub fn desk_input(sample: &Sample, planned: bool) -> Vec<u8> {
    let record = if planned { &sample.steps } else { &sample.picks };
    [&sample.question[..], &sample.site, record].concat()
}

/// How many words of picks, words of state and steps the case's buffers need.
pub fn needs(sample: &Sample) -> Option<[usize; 3]> {
    let sizes = sizes(&sample.question, &sample.site).ok()?;
    // A call without room names the picks' need before any other.
    let picks = match picks_text(&sample.question, &sample.site, b"", &mut [], &mut []) {
        Reply::Refused(refusal) => refusal.place as usize,
        Reply::Accepted(_) => return None,
    };
    Some([picks, sizes.atoms.div_ceil(64) as usize, sizes.bound as usize])
}
