//! The formula of a rule as it is written, held flat in preorder.

use std::ops::Range;

/// Brackets that may be open at once, a variable list's included.
const OPEN_LIMIT: usize = 128;
const LIST_LIMIT: usize = 4;

/// A variable of a quantifier's list, and its type where one is written.
#[derive(Clone, Copy, Debug)]
pub struct Quantified<'t> {
    pub variable: &'t [u8],
    pub of: Option<&'t [u8]>,
}

#[derive(Clone, Debug)]
pub enum Form<'t> {
    /// A relation's name and where its variables stand in the formula's list.
    Literal {
        name: &'t [u8],
        variables: Range<usize>,
    },
    Not,
    And,
    Or,
    Implies,
    Exists(Quantified<'t>),
    Forall(Quantified<'t>),
}

#[derive(Clone, Debug)]
struct Written<'t> {
    form: Form<'t>,
    /// Index just past the last form below this one.
    end: usize,
}

#[derive(Clone, Debug, Default)]
pub struct Formula<'t> {
    forms: Vec<Written<'t>>,
    variables: Vec<&'t [u8]>,
    nesting: usize,
}

impl<'t> Formula<'t> {
    /// How many forms are written; a list of variables counts each one.
    pub fn count(&self) -> usize {
        self.forms.len()
    }

    /// The most quantified variables on one way down.
    pub fn nesting(&self) -> usize {
        self.nesting
    }

    pub fn form(&self, index: usize) -> &Form<'t> {
        &self.forms[index].form
    }

    pub fn forms(&self) -> impl Iterator<Item = &Form<'t>> {
        self.forms.iter().map(|written| &written.form)
    }

    pub fn variables(&self, range: &Range<usize>) -> &[&'t [u8]] {
        &self.variables[range.clone()]
    }

    /// The indexes of a form's own parts, left first.
    pub fn parts(&self, index: usize) -> impl Iterator<Item = usize> + '_ {
        let mut next = index + 1;
        std::iter::from_fn(move || {
            let part = next;
            (part < self.forms[index].end).then(|| {
                next = self.forms[part].end;
                part
            })
        })
    }
}

/// Reads a whole rule field, or gives nothing if it is not of a formula's form.
pub fn parse(text: &[u8]) -> Option<Formula<'_>> {
    let mut parser = Parser { text, at: 0, open: 0, quantifiers: 0, formula: Formula::default() };
    parser.formula()?;
    (parser.at == text.len()).then_some(parser.formula)
}

/// A capital, then capitals, digits, underscores; at most 12 bytes.
pub fn is_relation_name(name: &[u8]) -> bool {
    name.len() <= 12
        && name.first().is_some_and(u8::is_ascii_uppercase)
        && name.iter().all(|&b| b.is_ascii_uppercase() || b.is_ascii_digit() || b == b'_')
}

/// A question mark and a small letter, then small letters, digits, underscores.
fn is_variable(word: &[u8]) -> bool {
    word.len() <= 8
        && word.first() == Some(&b'?')
        && word.get(1).is_some_and(u8::is_ascii_lowercase)
        && word[1..].iter().all(|&b| b.is_ascii_lowercase() || b.is_ascii_digit() || b == b'_')
}

/// Reads from left to right; brackets bound how deep the calls go.
struct Parser<'t> {
    text: &'t [u8],
    at: usize,
    open: usize,
    quantifiers: usize,
    formula: Formula<'t>,
}

impl<'t> Parser<'t> {
    fn formula(&mut self) -> Option<()> {
        self.open()?;
        let head = self.word();
        match head {
            b"not" => self.fixed(Form::Not, 1),
            b"implies" => self.fixed(Form::Implies, 2),
            b"and" => self.list(Form::And),
            b"or" => self.list(Form::Or),
            b"exists" => self.quantified(Form::Exists),
            b"forall" => self.quantified(Form::Forall),
            name => self.literal(name),
        }?;
        self.close()
    }

    /// A form with a fixed number of parts.
    fn fixed(&mut self, form: Form<'t>, parts: usize) -> Option<()> {
        let index = self.begin(form);
        for _ in 0..parts {
            self.space()?;
            self.formula()?;
        }
        self.finish(index);
        Some(())
    }

    /// A form with one part or more, up to the closing bracket.
    fn list(&mut self, form: Form<'t>) -> Option<()> {
        let index = self.begin(form);
        loop {
            self.space()?;
            self.formula()?;
            if self.peek() == Some(b')') {
                break;
            }
        }
        self.finish(index);
        Some(())
    }

    /// A list of variables becomes nested single quantifiers, first outermost.
    fn quantified(&mut self, form: fn(Quantified<'t>) -> Form<'t>) -> Option<()> {
        self.space()?;
        self.open()?;
        let first = self.formula.forms.len();
        loop {
            let quantified = self.typed()?;
            self.begin(form(quantified));
            if self.peek() == Some(b')') {
                break;
            }
            self.space()?;
        }
        let count = self.formula.forms.len() - first;
        if count > LIST_LIMIT {
            return None;
        }
        self.close()?;
        self.space()?;
        self.quantifiers += count;
        self.formula.nesting = self.formula.nesting.max(self.quantifiers);
        self.formula()?;
        self.quantifiers -= count;
        (first..first + count).for_each(|index| self.finish(index));
        Some(())
    }

    fn literal(&mut self, name: &'t [u8]) -> Option<()> {
        if !is_relation_name(name) {
            return None;
        }
        let first = self.formula.variables.len();
        while self.peek() != Some(b')') {
            self.space()?;
            let variable = self.variable()?;
            self.formula.variables.push(variable);
        }
        let variables = first..self.formula.variables.len();
        if variables.is_empty() {
            return None;
        }
        let index = self.begin(Form::Literal { name, variables });
        self.finish(index);
        Some(())
    }

    fn begin(&mut self, form: Form<'t>) -> usize {
        self.formula.forms.push(Written { form, end: 0 });
        self.formula.forms.len() - 1
    }

    fn finish(&mut self, index: usize) {
        self.formula.forms[index].end = self.formula.forms.len();
    }

    fn variable(&mut self) -> Option<&'t [u8]> {
        let word = self.word();
        is_variable(word).then_some(word)
    }

    /// A variable, alone or with a colon and a type's name.
    fn typed(&mut self) -> Option<Quantified<'t>> {
        let word = self.word();
        if is_variable(word) {
            return Some(Quantified { variable: word, of: None });
        }
        let colon = word.iter().position(|&byte| byte == b':')?;
        let (variable, name) = (&word[..colon], &word[colon + 1..]);
        let formed = is_variable(variable) && is_relation_name(name);
        formed.then_some(Quantified { variable, of: Some(name) })
    }

    /// The bytes up to the next space or bracket.
    fn word(&mut self) -> &'t [u8] {
        let rest = &self.text[self.at..];
        let end = rest.iter().position(|byte| matches!(byte, b' ' | b'(' | b')'));
        let word = &rest[..end.unwrap_or(rest.len())];
        self.at += word.len();
        word
    }

    fn peek(&self) -> Option<u8> {
        self.text.get(self.at).copied()
    }

    fn expect(&mut self, byte: u8) -> Option<()> {
        (self.peek()? == byte).then(|| self.at += 1)
    }

    fn space(&mut self) -> Option<()> {
        self.expect(b' ')
    }

    fn open(&mut self) -> Option<()> {
        self.expect(b'(')?;
        self.open += 1;
        (self.open <= OPEN_LIMIT).then_some(())
    }

    fn close(&mut self) -> Option<()> {
        self.expect(b')')?;
        self.open -= 1;
        Some(())
    }
}
