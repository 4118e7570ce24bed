//! A planner that reads a domain and an instance and writes a plan, a line a step.
//!
//!     planner DOMAIN INSTANCE
//!
//! Greedy best-first search: the state is looked at next from which the goal seems nearest, by the sum of what its facts cost where
//! nothing is ever removed. It knows nothing of cases.

use peer::strips::{task, Fact, Task};
use std::collections::{BinaryHeap, HashMap, HashSet};
use std::process::ExitCode;

/// A ground action: what it needs, adds and removes, by the numbers of facts, and its line.
struct Ground {
    needs: Vec<usize>,
    adds: Vec<usize>,
    removes: Vec<usize>,
    line: String,
}

struct Search {
    facts: HashMap<Fact, usize>,
    actions: Vec<Ground>,
    goal: Vec<usize>,
}

/// All choices of so many objects.
fn choices(objects: usize, count: usize) -> Vec<Vec<usize>> {
    (0..count).fold(vec![Vec::new()], |all, _| {
        let longer = |choice: &Vec<usize>, object| [&choice[..], &[object]].concat();
        all.iter()
            .flat_map(|choice| (0..objects).map(move |object| longer(choice, object)))
            .collect()
    })
}

impl Search {
    fn number(&mut self, fact: Fact) -> usize {
        let next = self.facts.len();
        *self.facts.entry(fact).or_insert(next)
    }

    /// Grounds what can be reached at all: a fact that is never added and not there at the start needs no action.
    fn new(task: &Task) -> (Self, Vec<usize>) {
        let mut search = Search { facts: HashMap::new(), actions: Vec::new(), goal: Vec::new() };
        let mut reached: HashSet<Fact> = task.start.clone();
        let mut left: Vec<(usize, Vec<usize>)> = Vec::new();
        for (number, schema) in task.schemas.iter().enumerate() {
            let each = choices(task.objects.len(), schema.parameters);
            left.extend(each.into_iter().map(|objects| (number, objects)));
        }
        loop {
            let before = left.len();
            left.retain(|(schema, objects)| {
                let may = task.needs(*schema, objects).iter().all(|fact| reached.contains(fact));
                if may {
                    reached.extend(task.adds(*schema, objects));
                    let mut numbers = |facts: Vec<Fact>| -> Vec<usize> {
                        facts.into_iter().map(|fact| search.number(fact)).collect()
                    };
                    let needs = numbers(task.needs(*schema, objects));
                    let adds = numbers(task.adds(*schema, objects));
                    let removes = numbers(task.removes(*schema, objects));
                    let line = task.line(*schema, objects);
                    search.actions.push(Ground { needs, adds, removes, line });
                }
                !may
            });
            if left.len() == before {
                break;
            }
        }
        search.goal = task.goal.iter().map(|fact| search.number(fact.clone())).collect();
        let start = task.start.iter().map(|fact| search.number(fact.clone())).collect();
        (search, start)
    }

    /// What the goal costs from a state if nothing were removed; nothing if it is out of reach even so.
    fn cost(&self, state: &[bool]) -> Option<u64> {
        let mut costs: Vec<u64> =
            state.iter().map(|&holds| if holds { 0 } else { u64::MAX }).collect();
        let sum = |costs: &[u64], facts: &[usize]| {
            facts.iter().try_fold(0u64, |sum, &fact| sum.checked_add(costs[fact]))
        };
        loop {
            let mut changed = false;
            for action in &self.actions {
                let Some(cost) = sum(&costs, &action.needs).and_then(|cost| cost.checked_add(1))
                else {
                    continue;
                };
                for &fact in &action.adds {
                    if cost < costs[fact] {
                        (costs[fact], changed) = (cost, true);
                    }
                }
            }
            if !changed {
                return sum(&costs, &self.goal);
            }
        }
    }

    fn plan(&self, start: &[usize]) -> Option<Vec<&str>> {
        let mut first = vec![false; self.facts.len()];
        start.iter().for_each(|&fact| first[fact] = true);
        let mut seen = HashSet::from([first.clone()]);
        let mut nodes = vec![(first.clone(), usize::MAX, usize::MAX)];
        let mut open = BinaryHeap::from([(u64::MAX - self.cost(&first)?, usize::MAX, 0)]);
        while let Some((_, _, node)) = open.pop() {
            let state = nodes[node].0.clone();
            if self.goal.iter().all(|&fact| state[fact]) {
                return Some(self.way(&nodes, node));
            }
            for (number, action) in self.actions.iter().enumerate() {
                if !action.needs.iter().all(|&fact| state[fact]) {
                    continue;
                }
                let mut next = state.clone();
                action.removes.iter().for_each(|&fact| next[fact] = false);
                action.adds.iter().for_each(|&fact| next[fact] = true);
                if seen.insert(next.clone()) {
                    if let Some(cost) = self.cost(&next) {
                        open.push((u64::MAX - cost, usize::MAX - nodes.len(), nodes.len()));
                        nodes.push((next, node, number));
                    }
                }
            }
        }
        None
    }

    fn way(&self, nodes: &[(Vec<bool>, usize, usize)], mut node: usize) -> Vec<&str> {
        let mut lines = Vec::new();
        while nodes[node].1 != usize::MAX {
            lines.push(self.actions[nodes[node].2].line.as_str());
            node = nodes[node].1;
        }
        lines.reverse();
        lines
    }
}

fn main() -> ExitCode {
    let texts: Vec<String> = std::env::args()
        .skip(1)
        .map(|name| {
            std::fs::read_to_string(&name).unwrap_or_else(|error| panic!("{name}: {error}"))
        })
        .collect();
    let [domain, instance] = &texts[..] else {
        eprintln!("planner DOMAIN INSTANCE");
        return ExitCode::from(2);
    };
    let task = match task(domain, instance) {
        Ok(task) => task,
        Err(what) => {
            eprintln!("planner: {what}");
            return ExitCode::from(2);
        }
    };
    let (search, start) = Search::new(&task);
    match search.plan(&start) {
        Some(lines) => {
            lines.iter().for_each(|line| println!("{line}"));
            ExitCode::SUCCESS
        }
        None => {
            eprintln!("planner: there is no plan");
            ExitCode::FAILURE
        }
    }
}
