//! Types: what a question calls its sorts of elements, and which elements a site puts into each.

/// A quantified variable's type, by its number among those declared; without one it ranges over all elements.
pub type Sort = Option<u8>;

/// The elements of one type: a bit for each, and all of them in order.
#[derive(Clone, Debug, Default)]
pub struct Members {
    word: u64,
    listed: Vec<u8>,
}

impl Members {
    /// Adds an element; false if it was there before.
    pub fn insert(&mut self, element: u32) -> bool {
        let fresh = self.word >> element & 1 == 0;
        if fresh {
            self.listed.insert(self.before(element).count_ones() as usize, element as u8);
            self.word |= 1 << element;
        }
        fresh
    }

    /// The member at this place, from 0.
    #[inline]
    pub fn nth(&self, place: u32) -> u32 {
        self.listed[place as usize].into()
    }

    pub fn is_empty(&self) -> bool {
        self.word == 0
    }

    /// The members below an element, a bit for each.
    fn before(&self, element: u32) -> u64 {
        self.word & ((1 << element) - 1)
    }
}

/// What a quantifier goes through, in increasing order: never nothing.
#[derive(Clone, Copy, Debug)]
pub enum Extent<'c> {
    /// So many elements, from 0.
    All(u32),
    Of(&'c Members),
}

impl<'c> Extent<'c> {
    /// The members, or so many elements.
    #[inline]
    pub fn of(members: Option<&'c Members>, n: u32) -> Self {
        members.map_or(Extent::All(n), Extent::Of)
    }

    pub fn count(self) -> u32 {
        match self {
            Extent::All(n) => n,
            Extent::Of(members) => members.listed.len() as u32,
        }
    }

    pub fn greatest(self) -> u32 {
        match self {
            Extent::All(n) => n - 1,
            Extent::Of(members) => members.word.ilog2(),
        }
    }

    /// A bit for each element that is there.
    pub fn bits(self) -> u64 {
        match self {
            Extent::All(n) => u64::MAX >> (64 - n),
            Extent::Of(members) => members.word,
        }
    }

    /// The element at this place, from 0.
    #[inline]
    pub fn nth(self, place: u32) -> u32 {
        match self {
            Extent::All(_) => place,
            Extent::Of(members) => members.nth(place),
        }
    }

    /// The place of an element, if it is there.
    pub fn place(self, element: u32) -> Option<u32> {
        match self {
            Extent::All(n) => (element < n).then_some(element),
            Extent::Of(members) => {
                let there = element < 64 && members.word >> element & 1 == 1;
                there.then(|| members.before(element).count_ones())
            }
        }
    }

    /// The element before one of them.
    #[inline]
    pub fn before(self, element: u32) -> Option<u32> {
        match self {
            Extent::All(_) => element.checked_sub(1),
            Extent::Of(members) => members.before(element).checked_ilog2(),
        }
    }

    /// The place of the first element that passes.
    #[inline]
    pub fn position(self, mut test: impl FnMut(u32) -> bool) -> Option<u32> {
        let place = match self {
            Extent::All(n) => return (0..n).find(|&element| test(element)),
            Extent::Of(members) => members.listed.iter().position(|&element| test(element.into())),
        };
        place.map(|place| place as u32)
    }
}
