//! Building agrees with the plain meaning of the rule as it is written, worked
//! out here without tree, atoms or numbers.

use peer::formula::{parse, Form, Formula, Quantified};
use peer::sample::{needs, sound, Random, Sample};
use peer::typing::typed;
use peer::{build_text, picks_text, Refusal, Reply};
use std::collections::HashSet;

type Tuples = HashSet<Vec<String>>;

/// A model read straight off the sheets: facts and picks by name and element.
struct Model<'a> {
    n: usize,
    /// By type and element.
    members: Tuples,
    tuples: Tuples,
    formula: &'a Formula<'a>,
}

fn fields(text: &[u8], word: &str) -> Vec<Vec<String>> {
    let text = String::from_utf8(text.to_vec()).unwrap();
    let lines = text.lines().map(|line| line.split('\t').map(String::from).collect());
    lines.filter(|fields: &Vec<String>| fields[0] == word).map(|f| f[1..].to_vec()).collect()
}

impl Model<'_> {
    fn literal(&self, name: &str, values: &[usize]) -> bool {
        match name {
            "EQ" => values[0] == values[1],
            "LT" => values[0] < values[1],
            "SUC" => values[0] + 1 == values[1],
            "ZERO" => values[0] == 0,
            "MAX" => values[0] == self.n - 1,
            _ => {
                let mut tuple = vec![name.to_string()];
                tuple.extend(values.iter().map(usize::to_string));
                self.tuples.contains(&tuple)
            }
        }
    }

    fn truth<'v>(&'v self, form: usize, bound: &mut Vec<(&'v [u8], usize)>) -> bool {
        let parts: Vec<usize> = self.formula.parts(form).collect();
        match self.formula.form(form) {
            Form::Not => !self.truth(parts[0], bound),
            Form::And => parts.iter().all(|&part| self.truth(part, bound)),
            Form::Or => parts.iter().any(|&part| self.truth(part, bound)),
            Form::Implies => !self.truth(parts[0], bound) || self.truth(parts[1], bound),
            Form::Exists(variable) => {
                self.range(variable).any(|value| self.with(variable, value, parts[0], bound))
            }
            Form::Forall(variable) => {
                self.range(variable).all(|value| self.with(variable, value, parts[0], bound))
            }
            Form::Literal { name, variables } => {
                let value = |variable: &&[u8]| {
                    bound.iter().find(|(name, _)| name == variable).expect("a bound variable").1
                };
                let values: Vec<usize> =
                    self.formula.variables(variables).iter().map(value).collect();
                self.literal(std::str::from_utf8(name).unwrap(), &values)
            }
        }
    }

    /// All elements, or those of the variable's type.
    fn range(&self, of: &Quantified) -> impl Iterator<Item = usize> + '_ {
        let own = of.of.map(|name| String::from_utf8(name.to_vec()).unwrap());
        (0..self.n).filter(move |value| {
            let member = |name: &String| vec![name.clone(), value.to_string()];
            own.as_ref().is_none_or(|name| self.members.contains(&member(name)))
        })
    }

    fn with<'v>(
        &'v self,
        of: &Quantified<'v>,
        value: usize,
        part: usize,
        bound: &mut Vec<(&'v [u8], usize)>,
    ) -> bool {
        bound.push((of.variable, value));
        let truth = self.truth(part, bound);
        bound.pop();
        truth
    }
}

/// Whether an element is of a type; all are where there is none.
fn is_of(members: &Tuples, name: Option<&String>, element: &str) -> bool {
    name.is_none_or(|name| members.contains(&vec![name.clone(), element.to_string()]))
}

/// Every set of tuples of the `every` line's relation; only the empty one where there is no such line.
fn values(sample: &Sample, n: usize) -> Vec<Tuples> {
    let mut values = vec![Tuples::new()];
    for every in fields(&sample.question, "every") {
        for row in 0..n.pow(every[1].parse().unwrap()) {
            let places = if every[1] == "1" { vec![row] } else { vec![row / n, row % n] };
            let mut tuple = vec![every[0].clone()];
            tuple.extend(places.iter().map(usize::to_string));
            let with = |value: &Tuples| value.iter().chain([&tuple]).cloned().collect();
            let more: Vec<Tuples> = values.iter().map(with).collect();
            values.extend(more);
        }
    }
    values
}

/// The refusal the picks deserve by kind, totality and rule, if any.
fn expected(sample: &Sample) -> Option<Refusal> {
    let n: usize = fields(&sample.site, "size")[0][0].parse().unwrap();
    let picks = fields(&sample.picks, "pick");
    let members: Tuples = fields(&sample.site, "member").into_iter().collect();
    let chosen = fields(&sample.question, "choose");
    for (index, choose) in chosen.iter().enumerate() {
        let own: Vec<_> = picks.iter().filter(|pick| pick[0] == choose[0]).collect();
        let twice = |place: usize| {
            own.iter().map(|pick| &pick[place]).collect::<HashSet<_>>().len() < own.len()
        };
        let outside = |place: usize| {
            own.iter().any(|pick| !is_of(&members, choose.get(place + 1), &pick[place]))
        };
        let function = choose[1].ends_with("Fun") || choose[1].ends_with("Inj");
        let doubled = function && (twice(1) || choose[1].ends_with("Inj") && twice(2));
        if doubled || function && (outside(1) || outside(2)) {
            return Some(Refusal { number: 16, place: index as u64 });
        }
    }
    let total = chosen.iter().filter(|choose| choose[1] == "Fun" || choose[1] == "Inj").all(|f| {
        let given = |a: &String| {
            let mut own = picks.iter().filter(|pick| pick[0] == f[0] && pick[1] == *a);
            own.any(|pick| is_of(&members, f.get(3), &pick[2]))
        };
        (0..n).map(|a| a.to_string()).all(|a| !is_of(&members, f.get(2), &a) || given(&a))
    });
    let rule = fields(&sample.question, "rule")[0][0].clone();
    let formula = parse(rule.as_bytes()).expect("a formula");
    let facts = fields(&sample.site, "fact");
    let tuples: Tuples = facts.into_iter().chain(picks).collect();
    let mut model = Model { n, members, tuples: Tuples::new(), formula: &formula };
    let met = values(sample, n).into_iter().all(|value| {
        model.tuples = tuples.iter().chain(&value).cloned().collect();
        model.truth(0, &mut Vec::new())
    });
    let met = total && met;
    (!met).then_some(Refusal { number: 17, place: 0 })
}

#[test]
fn building_is_truth() {
    let (mut built, mut refused) = (0, 0);
    // The same of cases with a typed kind, and of those with an `every` line.
    let (mut kinds, mut rounds) = ([0, 0], [0, 0]);
    for seed in 0..6_000 {
        let random = &mut Random::new(seed << 20);
        let mut sample = sound(random);
        if seed % 2 == 1 {
            sample = typed(random, &sample);
        }
        let Some([picks, state, steps]) = needs(&sample) else { continue };
        let (mut state, mut steps) = (vec![0; state], vec![0; steps]);
        let case = (&sample.question[..], &sample.site[..]);
        let reply = build_text(case.0, case.1, &sample.picks, &mut state, &mut steps);
        match expected(&sample) {
            Some(refusal) => assert_eq!(reply, Reply::Refused(refusal)),
            None => assert!(matches!(reply, Reply::Accepted(_)), "{reply:?}"),
        }
        let accepted = matches!(reply, Reply::Accepted(_));
        built += u32::from(accepted);
        refused += u32::from(!accepted);
        if fields(&sample.question, "choose").iter().any(|choose| choose.len() == 4) {
            kinds[usize::from(accepted)] += 1;
        }
        if !fields(&sample.question, "every").is_empty() {
            rounds[usize::from(accepted)] += 1;
        }
        plan_is_sound(&sample, picks, state.len());
    }
    assert!(built > 1_000 && refused > 1_000, "{built} built, {refused} refused");
    assert!(kinds.iter().all(|&cases| cases > 300), "with typed kinds {kinds:?}");
    assert!(rounds.iter().all(|&cases| cases > 300), "with an `every` line {rounds:?}");
}

/// Whatever plan is accepted, its picks are of their kinds and meet the rule.
fn plan_is_sound(sample: &Sample, picks: usize, state: usize) {
    let (mut picks, mut state) = (vec![0; picks], vec![0; state]);
    let case = (&sample.question[..], &sample.site[..]);
    let reply = picks_text(case.0, case.1, &sample.steps, &mut picks, &mut state);
    if !matches!(reply, Reply::Accepted(_)) {
        return;
    }
    let input = peer::sample::desk_input(sample, true);
    let printed = peer::desk(&input);
    let lines =
        fields(&printed, "pick").into_iter().map(|pick| format!("pick\t{}\n", pick.join("\t")));
    let again = Sample { picks: lines.collect::<String>().into_bytes(), ..sample.clone() };
    if printed.starts_with(b"sizes") {
        assert_eq!(expected(&again), None);
    }
}
