//! The eleven kinds of line. A line's own form is judged here, in whatever
//! sheet it stands; the sheets then judge what the form lets through.

use crate::labels::{Element, Name};
use crate::text::{cause, number, Line, Refusal};

/// How a chosen relation may be filled.
#[derive(Clone, Copy, Debug, PartialEq, Eq)]
pub enum Kind {
    /// Any tuples of this arity; the static relations are of this kind too.
    Plain(usize),
    Fun,
    PFun,
    Inj,
    PInj,
}

impl Kind {
    pub fn arity(self) -> usize {
        match self {
            Kind::Plain(arity) => arity,
            _ => 2,
        }
    }

    pub fn is_function(self) -> bool {
        !matches!(self, Kind::Plain(_))
    }

    pub fn is_injective(self) -> bool {
        matches!(self, Kind::Inj | Kind::PInj)
    }

    pub fn is_total(self) -> bool {
        matches!(self, Kind::Fun | Kind::Inj)
    }
}

/// The elements of one `fact` or `pick` line, in order.
#[derive(Clone, Copy, Debug, PartialEq, Eq)]
pub struct Tuple {
    elements: [Element; 3],
    count: usize,
}

impl Tuple {
    pub fn elements(&self) -> &[Element] {
        &self.elements[..self.count]
    }
}

/// A relation to be chosen; a function kind may have types, for its first and its second place.
#[derive(Clone, Copy, Debug)]
pub struct Choose<'t> {
    pub name: &'t [u8],
    pub kind: Kind,
    pub types: Option<[&'t [u8]; 2]>,
}

#[derive(Clone, Copy, Debug)]
pub enum Record<'t> {
    Rel { name: &'t [u8], arity: usize },
    Type { name: &'t [u8] },
    Choose(Choose<'t>),
    Every { name: &'t [u8], arity: usize },
    Rule { formula: &'t [u8] },
    Size { n: u32 },
    Label { element: Element, name: Name },
    Member { of: &'t [u8], element: Element },
    Fact { name: &'t [u8], tuple: Tuple },
    Pick { name: &'t [u8], tuple: Tuple },
    Step { action: u32 },
}

/// Reads one line by its own form, or refuses it with 2.
pub fn record<'t>(line: &Line<'t>) -> Result<Record<'t>, Refusal> {
    let read = if line.ended { well_formed(line.bytes) } else { None };
    read.ok_or(line.refuse(cause::LINE_FORM))
}

fn well_formed(bytes: &[u8]) -> Option<Record<'_>> {
    let mut fields = bytes.split(|&byte| byte == b'\t');
    let record = match fields.next()? {
        b"fact" => Record::Fact { name: fields.next()?, tuple: tuple(&mut fields)? },
        b"pick" => Record::Pick { name: fields.next()?, tuple: tuple(&mut fields)? },
        b"step" => Record::Step { action: number(fields.next()?)? },
        b"rel" => Record::Rel { name: fields.next()?, arity: arity(fields.next()?)? },
        b"choose" => return choose(fields).map(Record::Choose),
        b"every" => Record::Every {
            name: fields.next()?,
            arity: arity(fields.next()?).filter(|&arity| arity < 3)?,
        },
        b"rule" => Record::Rule { formula: fields.next()? },
        b"size" => Record::Size { n: number(fields.next()?)? },
        b"label" => {
            Record::Label { element: element(fields.next()?)?, name: Name::read(fields.next()?)? }
        }
        b"type" => Record::Type { name: fields.next()? },
        b"member" => Record::Member { of: fields.next()?, element: element(fields.next()?)? },
        _ => return None,
    };
    fields.next().is_none().then_some(record)
}

fn arity(field: &[u8]) -> Option<usize> {
    number(field).map(|arity| arity as usize).filter(|arity| (1..=3).contains(arity))
}

/// A function kind alone may have types behind it, and then two. Apart, so that the lines of which there are thousands are read as fast
/// as without it.
#[inline(never)]
fn choose<'t>(mut fields: impl Iterator<Item = &'t [u8]>) -> Option<Choose<'t>> {
    let (name, kind) = (fields.next()?, kind(fields.next()?)?);
    let types = match fields.next() {
        Some(first) if kind.is_function() => Some([first, fields.next()?]),
        Some(_) => return None,
        None => None,
    };
    fields.next().is_none().then_some(Choose { name, kind, types })
}

fn kind(field: &[u8]) -> Option<Kind> {
    match field {
        b"Fun" => Some(Kind::Fun),
        b"PFun" => Some(Kind::PFun),
        b"Inj" => Some(Kind::Inj),
        b"PInj" => Some(Kind::PInj),
        _ => arity(field).map(Kind::Plain),
    }
}

/// A number or a name; whether any element has it is for the sheets to say.
#[inline]
fn element(field: &[u8]) -> Option<Element> {
    if field.first()?.is_ascii_digit() {
        number(field).map(Element::Number)
    } else {
        Name::read(field).map(Element::Name)
    }
}

/// One to three elements; a fourth is left for the caller to find.
fn tuple<'t>(fields: &mut impl Iterator<Item = &'t [u8]>) -> Option<Tuple> {
    let none = Element::Number(0);
    let mut tuple = Tuple { elements: [element(fields.next()?)?, none, none], count: 1 };
    for field in fields.take(2) {
        tuple.elements[tuple.count] = element(field)?;
        tuple.count += 1;
    }
    Some(tuple)
}
