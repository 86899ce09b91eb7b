//! What the debug check finds, as data.

use crate::error::Error;
use crate::memory::room_for;
use std::fmt;

/// What balances by itself.
#[derive(Clone, Debug, PartialEq, Eq, Hash)]
pub enum GroupName {
    /// A local lookup.
    Local {
        /// The index of the AIR.
        air: usize,
        /// The index of the lookup in it.
        lookup: usize,
    },
    /// The bus of this name, with all lookups on it, over all AIRs.
    Bus(String),
}

/// One contribution of a tuple: where it is sent, and how often.
#[derive(Clone, Copy, Debug, PartialEq, Eq, Hash)]
pub struct Place {
    /// The index of the AIR.
    pub air: usize,
    /// The index of the lookup in it.
    pub lookup: usize,
    /// The row.
    pub row: usize,
    /// The multiplicity, or flag times multiplicity: a number of the field, other than 0.
    pub count: u32,
}

/// A tuple that does not balance.
#[derive(Clone, Debug, PartialEq, Eq, Hash)]
pub struct UnbalancedTuple {
    /// Its elements, numbers of the field.
    pub tuple: Vec<u32>,
    /// The sum of its counts in the field, which is not 0. That of -1 is the modulus less one.
    pub net: u32,
    /// How many contributions it has. `usize::MAX` stands for all greater numbers.
    pub place_count: usize,
    /// The first of them, as many as the limit allows, in the order AIR, lookup, row, tuple.
    pub places: Vec<Place>,
}

/// What is sent and received in a group, and which of its tuples do not balance. Contributions with
/// count 0 are left out.
#[derive(Clone, Debug, PartialEq, Eq, Hash)]
pub struct BusGroup {
    /// Which group it is.
    pub name: GroupName,
    /// How many contributions have a count that is at most half of the modulus. `usize::MAX` stands for
    /// all greater numbers, here and in `received`.
    pub sent: usize,
    /// How many contributions have a greater count, as that of -1 is.
    pub received: usize,
    /// How many distinct tuples they have.
    pub distinct: usize,
    /// How many of these do not balance: none exactly if the group does.
    pub unbalanced: usize,
    /// The first of those, as many as the limit allows, in the order of their first contributions.
    pub first: Vec<UnbalancedTuple>,
}

/// A tuple that does not balance, and its group.
#[derive(Clone, Debug, PartialEq, Eq, Hash)]
pub struct Mismatch {
    /// Which group it is.
    pub group: GroupName,
    /// The tuple.
    pub unbalanced: UnbalancedTuple,
}

impl fmt::Display for GroupName {
    fn fmt(&self, f: &mut fmt::Formatter<'_>) -> fmt::Result {
        match self {
            GroupName::Local { air, lookup } => write!(f, "instance {air} local lookup {lookup}"),
            GroupName::Bus(name) => write!(f, "global lookup '{name}'"),
        }
    }
}

impl fmt::Display for Place {
    /// Where it is, without the count.
    fn fmt(&self, f: &mut fmt::Formatter<'_>) -> fmt::Result {
        let Place { air, lookup, row, .. } = self;
        write!(f, "instance {air} lookup {lookup} row {row}")
    }
}

impl fmt::Display for UnbalancedTuple {
    /// The tuple, its net, and its places. Dots stand for those that are not listed.
    fn fmt(&self, f: &mut fmt::Formatter<'_>) -> fmt::Result {
        write!(f, "tuple {:?} has net multiplicity {} at ", self.tuple, self.net)?;
        for (index, place) in self.places.iter().enumerate() {
            let separator = if index == 0 { "" } else { "; " };
            write!(f, "{separator}{place}")?;
        }
        match (self.places.len(), self.place_count) {
            (0, 1..) => f.write_str("..."),
            (listed, all) if listed < all => f.write_str("; ..."),
            _ => Ok(()),
        }
    }
}

impl fmt::Display for Mismatch {
    /// The line of [`debug_check`](crate::debug_check), if all places are listed.
    fn fmt(&self, f: &mut fmt::Formatter<'_>) -> fmt::Result {
        write!(f, "Lookup mismatch ({}): {}", self.group, self.unbalanced)
    }
}

/// The groups of a table that the library wrote.
pub(crate) fn groups_of(numbers: &[usize]) -> Result<Vec<BusGroup>, Error> {
    Numbers { left: numbers }.list(Numbers::group)
}

/// The mismatch that the library wrote, or that there is none.
pub(crate) fn mismatch_of(numbers: &[usize]) -> Result<Option<Mismatch>, Error> {
    let mut numbers = Numbers { left: numbers };
    if numbers.next() == 0 {
        return Ok(None);
    }
    Ok(Some(Mismatch { group: numbers.name()?, unbalanced: numbers.tuple()? }))
}

/// Numbers as the library wrote them, to be read from the first on. The header has their layout, in
/// which none is missing; past the last one zeros are read.
struct Numbers<'a> {
    left: &'a [usize],
}

impl Numbers<'_> {
    fn next(&mut self) -> usize {
        let Some((first, left)) = self.left.split_first() else { return 0 };
        self.left = left;
        *first
    }

    /// A number of the field.
    fn element(&mut self) -> u32 {
        self.next() as u32
    }

    /// How many items there are, and then these.
    fn list<T>(
        &mut self,
        mut item: impl FnMut(&mut Self) -> Result<T, Error>,
    ) -> Result<Vec<T>, Error> {
        let count = self.next();
        let mut list = room_for(count)?;
        for _ in 0..count {
            list.push(item(self)?);
        }
        Ok(list)
    }

    fn name(&mut self) -> Result<GroupName, Error> {
        if self.next() == 0 {
            return Ok(GroupName::Local { air: self.next(), lookup: self.next() });
        }
        let bytes = self.list(|numbers| Ok(numbers.next() as u8))?;
        Ok(GroupName::Bus(String::from_utf8(bytes).unwrap_or_default()))
    }

    fn place(&mut self) -> Result<Place, Error> {
        let (air, lookup, row) = (self.next(), self.next(), self.next());
        Ok(Place { air, lookup, row, count: self.element() })
    }

    fn tuple(&mut self) -> Result<UnbalancedTuple, Error> {
        let tuple = self.list(|numbers| Ok(numbers.element()))?;
        let (net, place_count) = (self.element(), self.next());
        Ok(UnbalancedTuple { tuple, net, place_count, places: self.list(Numbers::place)? })
    }

    fn group(&mut self) -> Result<BusGroup, Error> {
        let name = self.name()?;
        let (sent, received) = (self.next(), self.next());
        let (distinct, unbalanced) = (self.next(), self.next());
        let first = self.list(Numbers::tuple)?;
        Ok(BusGroup { name, sent, received, distinct, unbalanced, first })
    }
}

#[cfg(test)]
mod tests {
    use super::*;
    use crate::Code;

    /// The tuple (3, 4), which one of two places sends, and the other one receives twice.
    fn tuple() -> UnbalancedTuple {
        let place = |air, row, count| Place { air, lookup: 1, row, count };
        UnbalancedTuple {
            tuple: vec![3, 4],
            net: 2_013_265_920,
            place_count: 2,
            places: vec![place(0, 5, 1), place(2, 7, 2_013_265_919)],
        }
    }

    /// The numbers of that tuple.
    const TUPLE: [usize; 14] = [2, 3, 4, 2_013_265_920, 2, 2, 0, 1, 5, 1, 2, 1, 7, 2_013_265_919];

    #[test]
    fn a_table_is_read() {
        let empty = [0, 6, 1, 0, 0, 0, 0, 0];
        let bus = [1, 3, 0x62, 0xC3, 0xA9, 1, 1, 1, 1, 1];
        let numbers = [&[2][..], &empty, &bus, &TUPLE].concat();
        let local = BusGroup {
            name: GroupName::Local { air: 6, lookup: 1 },
            sent: 0,
            received: 0,
            distinct: 0,
            unbalanced: 0,
            first: vec![],
        };
        let bus = BusGroup {
            name: GroupName::Bus("bé".into()),
            sent: 1,
            received: 1,
            distinct: 1,
            unbalanced: 1,
            first: vec![tuple()],
        };
        assert_eq!(groups_of(&numbers), Ok(vec![local, bus]));
        assert_eq!(groups_of(&[0]), Ok(vec![]));
    }

    #[test]
    fn a_mismatch_is_read() {
        let numbers = [&[1, 0, 6, 1][..], &TUPLE].concat();
        let group = GroupName::Local { air: 6, lookup: 1 };
        assert_eq!(mismatch_of(&numbers), Ok(Some(Mismatch { group, unbalanced: tuple() })));
        assert_eq!(mismatch_of(&[0]), Ok(None));
    }

    #[test]
    fn a_count_that_no_memory_can_hold_is_refused() {
        assert_eq!(groups_of(&[usize::MAX]).unwrap_err().code(), Code::OutOfMemory);
        assert_eq!(groups_of(&[]), Ok(vec![]));
    }

    #[test]
    fn texts_have_dots_for_what_is_not_listed() {
        let group = GroupName::Bus("keys".into());
        let mut mismatch = Mismatch { group, unbalanced: tuple() };
        let head = "Lookup mismatch (global lookup 'keys'): tuple [3, 4] has net multiplicity \
            2013265920 at ";
        let first = "instance 0 lookup 1 row 5";
        let texts = [
            format!("{head}{first}; instance 2 lookup 1 row 7"),
            format!("{head}{first}; ..."),
            format!("{head}..."),
        ];
        for text in texts {
            assert_eq!(mismatch.to_string(), text);
            mismatch.unbalanced.places.pop();
        }
        mismatch.group = GroupName::Local { air: 0, lookup: 2 };
        assert!(mismatch.to_string().contains("(instance 0 local lookup 2)"));
    }
}
