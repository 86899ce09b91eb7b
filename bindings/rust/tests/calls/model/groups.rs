//! What each group sends and receives, and which tuples do not balance.

use super::field::Base;
use super::machine::Machine;
use volgwain::{BusGroup, Field, GroupName, Mismatch, Place, UnbalancedTuple};

/// A tuple that is sent, how often, and where: the table, the lookup and the row.
struct Contribution<F> {
    tuple: Vec<Base<F>>,
    count: Base<F>,
    place: [usize; 3],
}

/// What balances by itself: its name, and what is contributed to it.
struct Group<F> {
    name: GroupName,
    contributions: Vec<Contribution<F>>,
}

impl<F: Field> Machine<F> {
    /// The local lookups in order, and then the buses in the order of their first lookups.
    fn groups(&self) -> Vec<Group<F>> {
        let (mut locals, mut buses): (Vec<Group<F>>, Vec<Group<F>>) = (Vec::new(), Vec::new());
        for ([air, lookup], it) in self.lookups() {
            let contributions = self.contributions(air, lookup);
            let name = match &it.bus {
                None => GroupName::Local { air, lookup },
                Some(bus) => GroupName::Bus(bus.clone()),
            };
            let list = if it.bus.is_none() { &mut locals } else { &mut buses };
            match list.iter_mut().find(|group| group.name == name) {
                Some(group) => group.contributions.extend(contributions),
                None => list.push(Group { name, contributions }),
            }
        }
        locals.extend(buses);
        locals
    }

    /// What a lookup sends, row by row, but for what it sends no times.
    fn contributions(&self, air: usize, lookup: usize) -> Vec<Contribution<F>> {
        let table = &self.tables[air];
        let mut contributions = Vec::new();
        for row in 0..table.height() {
            let window = table.window(row);
            for sent in &table.lookups[lookup].sends {
                let flag = sent.flag.as_ref().map_or(Base::ONE, |flag| flag.value(&window));
                let count = flag * sent.multiplicity.value(&window);
                if count != Base::ZERO {
                    let (tuple, place) = (sent.values(&window), [air, lookup, row]);
                    contributions.push(Contribution { tuple, count, place });
                }
            }
        }
        contributions
    }

    /// What is sent and received in each group, and the first tuples that do not balance, each with
    /// its first places.
    pub fn bus_table(&self, limit: usize) -> Vec<BusGroup> {
        self.groups().iter().map(|group| group.row(limit)).collect()
    }

    /// The first mismatch, with its first places. Of a group it is about the tuple that comes first by
    /// its texts.
    pub fn mismatch(&self, limit: usize) -> Option<Mismatch> {
        let texts = |it: &&UnbalancedTuple| -> Vec<String> {
            it.tuple.iter().map(|element| element.to_string()).collect()
        };
        self.groups().into_iter().find_map(|group| {
            let unbalanced = group.unbalanced(limit);
            let first = unbalanced.iter().min_by_key(texts)?.clone();
            Some(Mismatch { group: group.name, unbalanced: first })
        })
    }

    /// The text of the first mismatch.
    pub fn mismatch_text(&self) -> Option<String> {
        let Mismatch { group, unbalanced } = self.mismatch(usize::MAX)?;
        let label = match group {
            GroupName::Local { air, lookup } => format!("instance {air} local lookup {lookup}"),
            GroupName::Bus(bus) => format!("global lookup '{bus}'"),
        };
        let elements: Vec<String> = unbalanced.tuple.iter().map(u32::to_string).collect();
        let place = |it: &Place| format!("instance {} lookup {} row {}", it.air, it.lookup, it.row);
        let places: Vec<String> = unbalanced.places.iter().map(place).collect();
        let (tuple, net, places) = (elements.join(", "), unbalanced.net, places.join("; "));
        Some(format!(
            "Lookup mismatch ({label}): tuple [{tuple}] has net multiplicity {net} at {places}"
        ))
    }
}

impl<F: Field> Group<F> {
    /// The tuples, each once.
    fn tuples(&self) -> Vec<&[Base<F>]> {
        let mut tuples: Vec<&[Base<F>]> = Vec::new();
        for contribution in &self.contributions {
            if !tuples.contains(&&contribution.tuple[..]) {
                tuples.push(&contribution.tuple);
            }
        }
        tuples
    }

    /// Those that do not balance, each with its first places.
    fn unbalanced(&self, limit: usize) -> Vec<UnbalancedTuple> {
        let of_tuple = |tuple: &[Base<F>]| {
            let own = || self.contributions.iter().filter(|it| it.tuple == tuple);
            let place = |it: &Contribution<F>| {
                let [air, lookup, row] = it.place;
                Place { air, lookup, row, count: it.count.number() }
            };
            UnbalancedTuple {
                tuple: tuple.iter().map(|element| element.number()).collect(),
                net: own().map(|it| it.count).sum::<Base<F>>().number(),
                place_count: own().count(),
                places: own().map(place).take(limit).collect(),
            }
        };
        let all = self.tuples().into_iter().map(of_tuple);
        all.filter(|unbalanced| unbalanced.net != 0).collect()
    }

    fn row(&self, limit: usize) -> BusGroup {
        let is_received =
            |it: &Contribution<F>| 2 * u64::from(it.count.number()) > F::MODULUS.into();
        let received = self.contributions.iter().filter(|it| is_received(it)).count();
        let unbalanced = self.unbalanced(limit);
        BusGroup {
            name: self.name.clone(),
            sent: self.contributions.len() - received,
            received,
            distinct: self.tuples().len(),
            unbalanced: unbalanced.len(),
            first: unbalanced.into_iter().take(limit).collect(),
        }
    }
}
