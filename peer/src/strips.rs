//! PDDL as its own definition has it, STRIPS with constants: a reader of domains
//! and instances, and what a plan does. Knows nothing of cases, atoms or action
//! numbers, so that what the calls write can be held to the language itself. Strict:
//! a name that is not declared, or used with another number of places, is an error.

use std::collections::{HashMap, HashSet};

/// A list in brackets, or a word in small letters.
#[derive(Clone, Debug, PartialEq, Eq)]
pub enum Item {
    Word(String),
    List(Vec<Item>),
}

type Told<T> = Result<T, String>;

fn wrong<T>(what: &str) -> Told<T> {
    Err(what.into())
}

/// The one list that a text is.
pub fn parse(text: &str) -> Told<Item> {
    let mut open: Vec<Vec<Item>> = vec![Vec::new()];
    let spaced = text.replace('(', " ( ").replace(')', " ) ").to_lowercase();
    let lines = spaced.lines().map(|line| line.split(';').next().unwrap_or(""));
    for word in lines.flat_map(str::split_whitespace) {
        match word {
            "(" => open.push(Vec::new()),
            ")" => {
                let list = open.pop().ok_or("a bracket too many")?;
                open.last_mut().ok_or("a bracket too many")?.push(Item::List(list));
            }
            _ => open.last_mut().ok_or("a word outside")?.push(Item::Word(word.into())),
        }
    }
    match (open.len(), open.pop().unwrap_or_default()) {
        (1, mut items) if items.len() == 1 => Ok(items.remove(0)),
        _ => wrong("not one list"),
    }
}

impl Item {
    fn word(&self) -> Told<&str> {
        match self {
            Item::Word(word) => Ok(word),
            Item::List(_) => wrong("a word is wanted"),
        }
    }

    fn list(&self) -> Told<&[Item]> {
        match self {
            Item::List(items) => Ok(items),
            Item::Word(_) => wrong("a list is wanted"),
        }
    }

    /// A list whose first item is this word, without it.
    fn headed(&self, head: &str) -> Told<&[Item]> {
        match self.list()?.split_first() {
            Some((first, rest)) if first.word() == Ok(head) => Ok(rest),
            _ => Err(format!("{head} is wanted")),
        }
    }
}

fn words(items: &[Item]) -> Told<Vec<String>> {
    items.iter().map(|item| item.word().map(String::from)).collect()
}

/// A predicate and its terms: parameters by place, or objects.
#[derive(Clone, Debug, PartialEq, Eq)]
pub struct Pattern {
    predicate: usize,
    terms: Vec<Term>,
}

#[derive(Clone, Copy, Debug, PartialEq, Eq)]
enum Term {
    Parameter(usize),
    Object(usize),
}

/// A predicate of objects.
pub type Fact = (usize, Vec<usize>);

impl Pattern {
    fn at(&self, objects: &[usize]) -> Fact {
        let value = |term: &Term| match *term {
            Term::Parameter(place) => objects[place],
            Term::Object(object) => object,
        };
        (self.predicate, self.terms.iter().map(value).collect())
    }
}

#[derive(Clone, Debug)]
pub struct Schema {
    pub name: String,
    pub parameters: usize,
    needs: Vec<Pattern>,
    adds: Vec<Pattern>,
    removes: Vec<Pattern>,
}

/// A domain and an instance of it.
#[derive(Clone, Debug)]
pub struct Task {
    pub objects: Vec<String>,
    pub schemas: Vec<Schema>,
    pub start: HashSet<Fact>,
    pub goal: Vec<Fact>,
    named: HashMap<String, usize>,
    objects_named: HashMap<String, usize>,
}

/// What is declared so far.
#[derive(Default)]
struct Names {
    /// Predicates with their numbers of places.
    predicates: HashMap<String, (usize, usize)>,
    objects: Vec<String>,
    objects_named: HashMap<String, usize>,
}

impl Names {
    fn declare_objects(&mut self, items: &[Item]) -> Told<()> {
        for name in words(items)? {
            let number = self.objects.len();
            if self.objects_named.insert(name.clone(), number).is_some() {
                return Err(format!("object {name} stands twice"));
            }
            self.objects.push(name);
        }
        Ok(())
    }

    fn declare_predicate(&mut self, item: &Item) -> Told<()> {
        let items = words(item.list()?)?;
        let (name, places) = items.split_first().ok_or("an empty predicate")?;
        let distinct: HashSet<&String> = places.iter().collect();
        let number = self.predicates.len();
        let fresh = self.predicates.insert(name.clone(), (number, places.len())).is_none();
        if !fresh || distinct.len() < places.len() || !places.iter().all(|p| p.starts_with('?')) {
            return Err(format!("predicate {name}"));
        }
        Ok(())
    }

    fn pattern(&self, item: &Item, parameters: &[String]) -> Told<Pattern> {
        let items = words(item.list()?)?;
        let (name, terms) = items.split_first().ok_or("an empty fact")?;
        let known = self.predicates.get(name).ok_or(format!("{name} is not declared"))?;
        if known.1 != terms.len() {
            return Err(format!("{name} with {} terms", terms.len()));
        }
        let term = |word: &String| {
            let parameter = parameters.iter().position(|parameter| parameter == word);
            let object = self.objects_named.get(word).copied().map(Term::Object);
            parameter.map(Term::Parameter).or(object).ok_or(format!("{word} is not declared"))
        };
        let terms: Told<Vec<Term>> = terms.iter().map(term).collect();
        Ok(Pattern { predicate: known.0, terms: terms? })
    }

    fn fact(&self, item: &Item) -> Told<Fact> {
        Ok(self.pattern(item, &[])?.at(&[]))
    }

    /// A conjunction, or one thing alone.
    fn all<'i>(&self, item: &'i Item) -> Told<Vec<&'i Item>> {
        match item.headed("and") {
            Ok(items) => Ok(items.iter().collect()),
            Err(_) => Ok(vec![item]),
        }
    }

    fn schema(&self, items: &[Item]) -> Told<Schema> {
        let [name, key, parameters, need, needs, effect, effects] = items else {
            return wrong("an action of another form");
        };
        let keys = [key.word()?, need.word()?, effect.word()?];
        if keys != [":parameters", ":precondition", ":effect"] {
            return wrong("the parts of an action");
        }
        let parameters = words(parameters.list()?)?;
        let patterns = |items: &[&Item]| -> Told<Vec<Pattern>> {
            items.iter().map(|item| self.pattern(item, &parameters)).collect()
        };
        let (gone, come): (Vec<&Item>, Vec<&Item>) =
            self.all(effects)?.into_iter().partition(|item| item.headed("not").is_ok());
        let gone: Told<Vec<&Item>> = gone.iter().map(|item| one(item.headed("not")?)).collect();
        Ok(Schema {
            name: name.word()?.into(),
            parameters: parameters.len(),
            needs: patterns(&self.all(needs)?)?,
            adds: patterns(&come)?,
            removes: patterns(&gone?)?,
        })
    }
}

fn one(items: &[Item]) -> Told<&Item> {
    match items {
        [item] => Ok(item),
        _ => wrong("one item is wanted"),
    }
}

/// Reads a domain and an instance of it.
pub fn task(domain: &str, instance: &str) -> Told<Task> {
    let (domain, instance) = (parse(domain)?, parse(instance)?);
    let [domain_name, constants, predicates, actions @ ..] = domain.headed("define")? else {
        return wrong("a domain of another form");
    };
    let [problem, of, objects, init, goal] = instance.headed("define")? else {
        return wrong("an instance of another form");
    };
    problem.headed("problem")?;
    if of.headed(":domain")? != domain_name.headed("domain")? {
        return wrong("an instance of another domain");
    }
    let mut names = Names::default();
    names.declare_objects(constants.headed(":constants")?)?;
    for predicate in predicates.headed(":predicates")? {
        names.declare_predicate(predicate)?;
    }
    // An action names constants alone: the instance's objects are not declared yet.
    let schemas: Told<Vec<Schema>> =
        actions.iter().map(|action| names.schema(action.headed(":action")?)).collect();
    let schemas = schemas?;
    names.declare_objects(objects.headed(":objects")?)?;
    let start: Told<HashSet<Fact>> =
        init.headed(":init")?.iter().map(|fact| names.fact(fact)).collect();
    let goal = names.all(one(goal.headed(":goal")?)?)?;
    let goal: Told<Vec<Fact>> = goal.into_iter().map(|fact| names.fact(fact)).collect();
    let each = schemas.iter().enumerate();
    let named: HashMap<String, usize> = each.map(|(k, schema)| (schema.name.clone(), k)).collect();
    if named.len() < schemas.len() {
        return wrong("two actions of one name");
    }
    let Names { objects, objects_named, .. } = names;
    Ok(Task { objects, schemas, start: start?, goal: goal?, named, objects_named })
}

impl Task {
    pub fn needs(&self, schema: usize, objects: &[usize]) -> Vec<Fact> {
        self.schemas[schema].needs.iter().map(|pattern| pattern.at(objects)).collect()
    }

    pub fn adds(&self, schema: usize, objects: &[usize]) -> Vec<Fact> {
        self.schemas[schema].adds.iter().map(|pattern| pattern.at(objects)).collect()
    }

    pub fn removes(&self, schema: usize, objects: &[usize]) -> Vec<Fact> {
        self.schemas[schema].removes.iter().map(|pattern| pattern.at(objects)).collect()
    }

    /// The world after an action, if it may be taken: what it removes goes, then what it adds comes.
    pub fn take(&self, world: &mut HashSet<Fact>, schema: usize, objects: &[usize]) -> bool {
        let may = self.needs(schema, objects).iter().all(|fact| world.contains(fact));
        if may {
            self.removes(schema, objects).iter().for_each(|fact| {
                world.remove(fact);
            });
            world.extend(self.adds(schema, objects));
        }
        may
    }

    /// The action and the objects of a plan's line.
    pub fn step(&self, line: &str) -> Told<(usize, Vec<usize>)> {
        let items = words(parse(line)?.list()?)?;
        let (name, objects) = items.split_first().ok_or("an empty step")?;
        let schema = *self.named.get(name).ok_or(format!("no action {name}"))?;
        let known = |object: &String| {
            self.objects_named.get(object).copied().ok_or(format!("no object {object}"))
        };
        let objects: Told<Vec<usize>> = objects.iter().map(known).collect();
        let objects = objects?;
        if objects.len() != self.schemas[schema].parameters {
            return Err(format!("{name} with {} objects", objects.len()));
        }
        Ok((schema, objects))
    }

    pub fn reached(&self, world: &HashSet<Fact>) -> bool {
        self.goal.iter().all(|fact| world.contains(fact))
    }

    /// Follows a plan: how many steps could be taken, and whether the goal is reached after them.
    pub fn follow(&self, plan: &str) -> Told<(usize, bool)> {
        let mut world = self.start.clone();
        for (index, line) in plan.lines().enumerate() {
            let (schema, objects) = self.step(line)?;
            if !self.take(&mut world, schema, &objects) {
                return Ok((index, false));
            }
        }
        Ok((plan.lines().count(), self.reached(&world)))
    }

    /// A step as a plan's line.
    pub fn line(&self, schema: usize, objects: &[usize]) -> String {
        let words = objects.iter().map(|&object| self.objects[object].as_str());
        let all: Vec<&str> =
            [self.schemas[schema].name.as_str()].into_iter().chain(words).collect();
        format!("({})", all.join(" "))
    }
}
