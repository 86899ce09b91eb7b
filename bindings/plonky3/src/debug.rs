//! The debug check.

use crate::error::Error;
use crate::field::SharedField;
use crate::lookups::from_p3;
use crate::traces::OwnedTraces;
use p3_lookup::debug_util::LookupDebugInstance;
use volgwain::generic::Air;
use volgwain::{BusGroup, Mismatch, Place, Traces};

/// Whether all tuples balance: those of each local lookup by itself, and those of each bus over all
/// AIRs. Challenges are not read.
///
/// Where one does not, the answer is [`Error::Refused`] with [`Code::Mismatch`](volgwain::Code::Mismatch),
/// and a text that names the first tuple, by how much it does not balance, and each place where it is
/// sent. Also refuses lookups as [`from_p3`] does, and traces that these do not fit.
pub fn debug_check<F: SharedField>(instances: &[LookupDebugInstance<'_, F>]) -> Result<(), Error> {
    let (airs, owned) = read(instances)?;
    Ok(volgwain::debug_check(&airs, &traces_of(&owned))?)
}

/// The mismatch that [`debug_check`] names, as data, with the first `limit` of its places; or `None` if
/// all tuples balance. Refuses what `debug_check` does, but for a mismatch.
pub fn mismatch<F: SharedField>(
    instances: &[LookupDebugInstance<'_, F>],
    limit: usize,
) -> Result<Option<Mismatch>, Error> {
    let (airs, owned) = read(instances)?;
    Ok(volgwain::mismatch(&airs, &traces_of(&owned), limit)?)
}

/// What each local lookup and each bus sends and receives, and the first `limit` tuples of each that do
/// not balance, with as many of their places at most. Refuses what [`mismatch`] does.
pub fn bus_table<F: SharedField>(
    instances: &[LookupDebugInstance<'_, F>],
    limit: usize,
) -> Result<Vec<BusGroup>, Error> {
    let (airs, owned) = read(instances)?;
    Ok(volgwain::bus_table(&airs, &traces_of(&owned), limit)?)
}

/// As `p3_lookup::debug_util::check_lookups`: panics where a tuple does not balance, with the text
/// of that call.
///
/// # Panics
///
/// Also where [`debug_check`] refuses lookups or traces, with the text of the refusal.
#[track_caller]
pub fn check_lookups<F: SharedField>(instances: &[LookupDebugInstance<'_, F>]) {
    match mismatch(instances, usize::MAX) {
        Ok(None) => {}
        Ok(Some(mismatch)) => panic!("{}", panic_text(&mismatch)),
        Err(error) => panic!("{error}"),
    }
}

/// The lookups and the traces of all AIRs.
#[allow(clippy::type_complexity)]
fn read<F: SharedField>(
    instances: &[LookupDebugInstance<'_, F>],
) -> Result<(Vec<Air<F::Ours>>, Vec<OwnedTraces>), Error> {
    let of_air = |(air, instance): (usize, &LookupDebugInstance<'_, F>)| {
        from_p3(instance.lookups).map_err(|reason| Error::OfAir { air, reason: Box::new(reason) })
    };
    let airs = instances.iter().enumerate().map(of_air).collect::<Result<Vec<_>, _>>()?;
    Ok((airs, instances.iter().map(OwnedTraces::of).collect()))
}

fn traces_of(owned: &[OwnedTraces]) -> Vec<Traces<'_>> {
    owned.iter().map(OwnedTraces::traces).collect()
}

/// The text of a mismatch as Plonky3 writes it: each element in quotes, and each place as a struct.
fn panic_text(Mismatch { group, unbalanced }: &Mismatch) -> String {
    let tuple: Vec<String> = unbalanced.tuple.iter().map(u32::to_string).collect();
    let net = unbalanced.net;
    let location = |Place { air, lookup, row, .. }: &Place| {
        format!("Location {{ instance: {air}, lookup: {lookup}, row: {row} }}")
    };
    let places: Vec<String> = unbalanced.places.iter().map(location).collect();
    let places = places.join(", ");
    format!(
        "Lookup mismatch ({group}): tuple {tuple:?} has net multiplicity {net}. \
        Locations: [{places}]"
    )
}

#[cfg(test)]
mod tests {
    use super::panic_text;
    use volgwain::{GroupName, Mismatch, Place, UnbalancedTuple};

    #[test]
    fn texts_are_those_of_plonky3() {
        let place = |air, lookup, row| Place { air, lookup, row, count: 1 };
        let places = vec![place(0, 1, 2), place(1, 0, 7)];
        let unbalanced =
            UnbalancedTuple { tuple: vec![3, 4], net: 2_013_265_920, place_count: 2, places };
        let group = GroupName::Bus("a'): tuple [b".to_owned());
        let wanted = "Lookup mismatch (global lookup 'a'): tuple [b'): tuple [\"3\", \"4\"] has net \
            multiplicity 2013265920. Locations: [Location { instance: 0, lookup: 1, row: 2 }, \
            Location { instance: 1, lookup: 0, row: 7 }]";
        assert_eq!(panic_text(&Mismatch { group, unbalanced }), wanted);
        let places = vec![place(0, 1, 0)];
        let unbalanced = UnbalancedTuple { tuple: vec![], net: 1, place_count: 1, places };
        let group = GroupName::Local { air: 0, lookup: 1 };
        let wanted = "Lookup mismatch (instance 0 local lookup 1): tuple [] has net multiplicity 1. \
            Locations: [Location { instance: 0, lookup: 1, row: 0 }]";
        assert_eq!(panic_text(&Mismatch { group, unbalanced }), wanted);
    }
}
