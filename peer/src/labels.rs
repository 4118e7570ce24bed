//! Labels: the names that a site gives to its elements.

use crate::formula::is_relation_name;
use std::fmt::{self, Display, Formatter, Write};

/// A name of a relation name's form: at most 12 bytes, held as one number.
#[derive(Clone, Copy, Debug, PartialEq, Eq)]
pub struct Name(u128);

impl Name {
    pub fn read(field: &[u8]) -> Option<Self> {
        let packed = || field.iter().fold(0, |packed, &byte| packed << 8 | u128::from(byte));
        is_relation_name(field).then(|| Name(packed()))
    }

    /// Where a search for this name begins.
    fn slot(self) -> usize {
        let mixed = (self.0 as u64 ^ (self.0 >> 64) as u64).wrapping_mul(0x9e37_79b9_7f4a_7c15);
        (mixed >> (64 - SLOT_BITS)) as usize
    }
}

impl Display for Name {
    fn fmt(&self, to: &mut Formatter) -> fmt::Result {
        let bytes = self.0.to_be_bytes();
        bytes.iter().skip_while(|&&byte| byte == 0).try_for_each(|&byte| to.write_char(byte.into()))
    }
}

/// What stands in an element's field.
#[derive(Clone, Copy, Debug, PartialEq, Eq)]
pub enum Element {
    Number(u32),
    Name(Name),
}

const SLOT_BITS: u32 = 7;
/// Twice as many as elements, so that every search comes to an empty slot.
const SLOTS: usize = 1 << SLOT_BITS;

/// Which element has which name.
#[derive(Clone, Debug)]
pub struct Labels {
    /// By element, as far as there are any.
    names: Vec<Option<Name>>,
    /// Elements by name, each in its name's slot or one of the next; 0 is an empty slot, and 1 is element 0.
    slots: [u8; SLOTS],
}

impl Default for Labels {
    fn default() -> Self {
        Labels { names: Vec::new(), slots: [0; SLOTS] }
    }
}

impl Labels {
    pub fn name(&self, element: u32) -> Option<Name> {
        self.names.get(element as usize).copied().flatten()
    }

    /// The element of this name.
    pub fn find(&self, name: Name) -> Option<u32> {
        self.slots[self.search(name)].checked_sub(1).map(u32::from)
    }

    /// The slot that has this name's element, or the empty one where it would be.
    fn search(&self, name: Name) -> usize {
        let mut slot = name.slot();
        while self.slots[slot] > 0 && self.names[self.slots[slot] as usize - 1] != Some(name) {
            slot = (slot + 1) % SLOTS;
        }
        slot
    }

    /// Gives an element its name; false if it has one, or the name is another's.
    pub fn give(&mut self, element: u32, name: Name) -> bool {
        let slot = self.search(name);
        if self.slots[slot] > 0 || self.name(element).is_some() {
            return false;
        }
        let place = element as usize;
        self.names.resize(self.names.len().max(place + 1), None);
        self.names[place] = Some(name);
        self.slots[slot] = element as u8 + 1;
        true
    }
}
