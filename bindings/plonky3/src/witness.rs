//! Witnesses.

use crate::error::Error;
use crate::field::{Extension, SharedField, element_from_p3, element_to_p3};
use crate::lookups::from_p3;
use crate::traces::OwnedTraces;
use p3_lookup::{Challenges, LookupTerminal};
use p3_matrix::dense::RowMajorMatrix;
use std::slice;
use volgwain::generic::{self, Batch, Element, Witness};

/// What a witness has for one AIR, as `LogUpGadget` makes it: the auxiliary trace and the terminal.
pub type AirWitness<F> = (RowMajorMatrix<Extension<F>>, Option<LookupTerminal<Extension<F>>>);

/// As `generate_permutation` of `LogUpGadget`, with the same arguments: the auxiliary trace and the
/// terminal of one AIR, under an alpha and a beta for each lookup, one after the other.
///
/// Where flags are lawful and no denominator vanishes there is no other witness under these
/// challenges. So a prover's own auxiliary trace can be compared with it, whatever ids and challenges
/// the prover has.
///
/// Refuses lookups as [`from_p3`] does, traces that they do not fit or that have no row for them, and too
/// few challenges. Then it refuses the first row and lookup with a flag that is not 0 or 1, two flags that
/// are set, or a denominator that vanishes.
pub fn generate_permutation<F: SharedField>(
    main: &RowMajorMatrix<F>,
    preprocessed: &Option<RowMajorMatrix<F>>,
    public_values: &[F],
    lookups: &[p3_lookup::Lookup<F>],
    challenges: &[Extension<F>],
) -> Result<AirWitness<F>, Error> {
    let owned = OwnedTraces::new(main, preprocessed.as_ref(), public_values);
    let witness = from_p3(lookups)?.generate(&owned.traces(), &pairs_of::<F>(challenges))?;
    // the witness of one AIR has one part
    Ok(witness_to_p3::<F>(&witness).swap_remove(0))
}

/// Whether the auxiliary trace and the terminal of one AIR, whoever made them, satisfy every constraint
/// of its lookups on every row, under an alpha and a beta for each lookup, one after the other.
///
/// So a prover's own witness is checked under the prover's own challenges, whatever ids it has. That
/// lookups on one bus share their challenges and others do not, and that the terminals of all AIRs sum
/// to zero (`LogUpGadget::verify_terminal_sum`), is for the caller to see to.
///
/// A terminal that passes is the sum of all fractions. Over a trace without rows no constraint binds one,
/// so that any could be claimed: there lookups are refused.
///
/// Refuses lookups as [`from_p3`] does, traces that they do not fit or that have no row for them, and too
/// few challenges. Then the answer is the first fault of the part: its shape, or the first row on which a
/// constraint fails.
pub fn verify_permutation<F: SharedField>(
    main: &RowMajorMatrix<F>,
    preprocessed: &Option<RowMajorMatrix<F>>,
    public_values: &[F],
    lookups: &[p3_lookup::Lookup<F>],
    challenges: &[Extension<F>],
    part: &AirWitness<F>,
) -> Result<(), Error> {
    let owned = OwnedTraces::new(main, preprocessed.as_ref(), public_values);
    let air = from_p3(lookups)?;
    let witness = witness_from_p3::<F>(slice::from_ref(part));
    let pairs = pairs_of::<F>(challenges);
    witness.airs().try_for_each(|part| air.verify(&owned.traces(), &pairs, &part))?;
    Ok(())
}

/// Challenges in pairs.
fn pairs_of<F: SharedField>(challenges: &[Extension<F>]) -> Vec<[Element<F::Ours>; 2]> {
    let pair = |pair: &[Extension<F>]| [pair[0], pair[1]].map(element_from_p3::<F>);
    challenges.chunks_exact(2).map(pair).collect()
}

/// For each AIR the challenges that `LogUpGadget` needs to make what [`Batch::prove`] makes: for each
/// lookup the prefix of its id, and beta. It makes a prefix of 16 bytes for each id up to the greatest.
pub fn challenges<F: SharedField>(
    batch: &Batch<F::Ours>,
    alpha: Extension<F>,
    beta: Extension<F>,
) -> Vec<Vec<Extension<F>>> {
    let table = Challenges::new(alpha, beta, batch.max_message_width(), batch.num_ids());
    let of_id = |id: &usize| [table.bus_prefix[*id], table.beta];
    batch.ids().iter().map(|ids| ids.iter().flat_map(of_id).collect()).collect()
}

/// A witness that Plonky3 made, as [`Batch::verify`] takes it. It is accepted only if it was made
/// under the challenges that [`challenges`] says; [`verify_permutation`] takes any others.
pub fn witness_from_p3<F: SharedField>(airs: &[AirWitness<F>]) -> Witness<F::Ours> {
    let cells: Vec<Vec<Element<F::Ours>>> = airs
        .iter()
        .map(|(auxiliary, _)| {
            auxiliary.values.iter().map(|cell| element_from_p3::<F>(*cell)).collect()
        })
        .collect();
    Witness::new(airs.iter().zip(&cells).map(|((auxiliary, terminal), cells)| {
        let terminal = terminal.map(|terminal| element_from_p3::<F>(terminal.0));
        generic::AirWitness { auxiliary: cells, width: auxiliary.width, terminal }
    }))
}

/// A witness of `volgwain`, for each AIR as `LogUpGadget` makes it.
pub fn witness_to_p3<F: SharedField>(witness: &Witness<F::Ours>) -> Vec<AirWitness<F>> {
    let of_air = |air: generic::AirWitness<'_, F::Ours>| {
        let cells = air.auxiliary.iter().map(|cell| element_to_p3::<F>(*cell)).collect();
        let terminal = air.terminal.map(|terminal| LookupTerminal(element_to_p3::<F>(terminal)));
        (RowMajorMatrix::new(cells, air.width), terminal)
    };
    witness.airs().map(of_air).collect()
}
