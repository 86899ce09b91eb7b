//! AIRs as they are written for Plonky3: bytes and a ROM with preprocessed columns, a processor that
//! reads public values, the next row and selectors, branches of which one is taken, and one without
//! lookups.

use crate::draws::Draws;
use p3_air::{Air, AirBuilder, BaseAir, WindowAccess};
use p3_field::{Field, PrimeCharacteristicRing};
use p3_lookup::{Count, InteractionBuilder, Lookup, LookupBus, Lookups, PermutationCheckBus};
use p3_matrix::dense::RowMajorMatrix;
use volgwain_plonky3::{Extension, SharedField};

/// One AIR with its traces: its lookups as a set, or as records.
#[derive(Clone)]
pub struct Table<F: SharedField> {
    pub set: Option<Lookups<F>>,
    pub records: Vec<Lookup<F>>,
    pub main: RowMajorMatrix<F>,
    pub preprocessed: Option<RowMajorMatrix<F>>,
    pub public_values: Vec<F>,
}

impl<F: SharedField> Table<F> {
    pub fn lookups(&self) -> &[Lookup<F>] {
        self.set.as_deref().unwrap_or(&self.records)
    }
}

/// Bytes in the preprocessed trace, their uses in the main one.
struct Bytes;

impl<F: Field> BaseAir<F> for Bytes {
    fn width(&self) -> usize {
        1
    }

    fn preprocessed_width(&self) -> usize {
        1
    }
}

impl<AB: AirBuilder<F: Field> + InteractionBuilder> Air<AB> for Bytes {
    fn eval(&self, builder: &mut AB) {
        let uses = builder.main().current_slice()[0];
        let byte = builder.preprocessed().current_slice()[0];
        LookupBus::new("byte").table_entry(builder, [byte], uses);
    }
}

/// Place, operation and word in the preprocessed trace, their uses in the main one.
struct Rom;

impl<F: Field> BaseAir<F> for Rom {
    fn width(&self) -> usize {
        1
    }

    fn preprocessed_width(&self) -> usize {
        3
    }
}

impl<AB: AirBuilder<F: Field> + InteractionBuilder> Air<AB> for Rom {
    fn eval(&self, builder: &mut AB) {
        let uses = builder.main().current_slice()[0];
        let entry = builder.preprocessed().current_slice().to_vec();
        LookupBus::new("rom").table_entry(builder, entry, uses);
    }
}

/// Clock, place, operation, three bytes, carry, and whether the row is in memory.
struct Processor;

impl<F: Field> BaseAir<F> for Processor {
    fn width(&self) -> usize {
        8
    }

    fn num_public_values(&self) -> usize {
        2
    }
}

impl<AB: AirBuilder<F: Field> + InteractionBuilder> Air<AB> for Processor {
    fn eval(&self, builder: &mut AB) {
        let main = builder.main();
        let row: Vec<AB::Expr> = main.current_slice().iter().map(|it| (*it).into()).collect();
        let next: Vec<AB::Expr> = main.next_slice().iter().map(|it| (*it).into()).collect();
        let public: Vec<AB::Expr> = builder.public_values().iter().map(|it| (*it).into()).collect();
        for byte in &row[3..6] {
            LookupBus::new("byte").lookup_key(builder, [byte.clone()], 1);
        }
        let word = row[3].clone()
            + row[4].clone() * AB::Expr::from_u32(256)
            + row[5].clone() * AB::Expr::from_u32(65536);
        let (first, last) = (builder.is_first_row(), builder.is_last_row());
        let transition = builder.is_transition();
        LookupBus::new("rom").lookup_key(
            builder,
            [row[1].clone() + public[0].clone(), row[2].clone(), word.clone()],
            Count::bounded(transition.clone(), 1),
        );
        let memory = PermutationCheckBus::new("memory");
        memory.send(
            builder,
            [row[0].clone(), word.clone() - public[1].clone(), row[2].clone()],
            Count::bounded(row[7].clone(), 1),
        );
        memory.receive(
            builder,
            [
                next[0].clone() - AB::Expr::ONE,
                word * (AB::Expr::ONE - row[6].clone()),
                -next[2].clone(),
            ],
            Count::bounded(row[7].clone() * row[7].clone(), 1),
        );
        builder.push_local_interaction(vec![
            (row[..2].to_vec(), Count::from(1)),
            (next[..2].to_vec(), Count::provided(-(transition + last.clone()))),
            (vec![first.clone(), last], Count::bounded(first, 3)),
        ]);
    }
}

/// Three branches, each a flag and a byte.
struct Branches;

impl<F: Field> BaseAir<F> for Branches {
    fn width(&self) -> usize {
        6
    }
}

impl<AB: AirBuilder<F: Field> + InteractionBuilder> Air<AB> for Branches {
    fn eval(&self, builder: &mut AB) {
        let row = builder.main().current_slice().to_vec();
        let branch = |pair: &[AB::Var]| (pair[0].into(), vec![pair[1].into()]);
        let branches: Vec<(AB::Expr, Vec<AB::Expr>)> = row.chunks(2).map(branch).collect();
        LookupBus::new("byte").lookup_key_exclusive(builder, branches);
    }
}

/// Two columns that are equal, and no lookups.
struct Silent;

impl<F: Field> BaseAir<F> for Silent {
    fn width(&self) -> usize {
        2
    }
}

impl<AB: AirBuilder<F: Field> + InteractionBuilder> Air<AB> for Silent {
    fn eval(&self, builder: &mut AB) {
        let row = builder.main().current_slice().to_vec();
        builder.assert_zero(row[0].into() - row[1].into());
    }
}

/// The AIRs above, with traces of one to nine rows: half of the time the bytes balance, and nothing
/// else is looked up then.
pub fn tables<F: SharedField>(draws: &mut Draws) -> Vec<Table<F>> {
    if draws.one_in(2) {
        return balanced(draws);
    }
    let processor = random(draws, 8);
    let (bytes, rom) = (random(draws, 1), random(draws, 1));
    let height_of = |matrix: &RowMajorMatrix<F>| matrix.values.len() / matrix.width;
    let (all, words) = (cells(draws, height_of(&bytes)), cells(draws, 3 * height_of(&rom)));
    vec![
        table::<F, _>(&Processor, processor, None, cells(draws, 2)),
        table::<F, _>(&Bytes, bytes, Some(RowMajorMatrix::new(all, 1)), vec![]),
        table::<F, _>(&Branches, branches(draws, 5), None, vec![]),
        table::<F, _>(&Silent, random(draws, 2), None, vec![]),
        table::<F, _>(&Rom, rom, Some(RowMajorMatrix::new(words, 3)), vec![]),
    ]
}

/// Branches over four bytes, and these with their uses; one in four times a use is missing.
fn balanced<F: SharedField>(draws: &mut Draws) -> Vec<Table<F>> {
    let mut rows = branches::<F>(draws, 5);
    let mut uses = [0; 4];
    for pair in rows.values.chunks_mut(2) {
        let byte = draws.below(4);
        pair[1] = F::from_u32(byte as u32);
        uses[byte] += pair[0].as_canonical_u32();
    }
    if draws.one_in(4) {
        uses[draws.below(4)] += 1;
    }
    let uses = RowMajorMatrix::new(uses.map(F::from_u32).to_vec(), 1);
    let bytes = RowMajorMatrix::new([0, 1, 2, 3].map(F::from_u32).to_vec(), 1);
    vec![
        table::<F, _>(&Branches, rows, None, vec![]),
        table::<F, _>(&Silent, random(draws, 2), None, vec![]),
        table::<F, _>(&Bytes, uses, Some(bytes), vec![]),
    ]
}

fn table<F: SharedField, A>(
    air: &A,
    main: RowMajorMatrix<F>,
    preprocessed: Option<RowMajorMatrix<F>>,
    public_values: Vec<F>,
) -> Table<F>
where
    A: Air<p3_lookup::InteractionSymbolicBuilder<F, Extension<F>>>,
{
    let set = Some(Lookups::from_air::<Extension<F>, _>(air));
    Table { set, records: Vec::new(), main, preprocessed, public_values }
}

fn cells<F: SharedField>(draws: &mut Draws, length: usize) -> Vec<F> {
    (0..length).map(|_| draws.element()).collect()
}

fn random<F: SharedField>(draws: &mut Draws, width: usize) -> RowMajorMatrix<F> {
    let height = 1 + draws.below(9);
    RowMajorMatrix::new(cells(draws, height * width), width)
}

/// The trace of [`Branches`], with at most one flag on each row.
fn branches<F: SharedField>(draws: &mut Draws, height: usize) -> RowMajorMatrix<F> {
    let mut cells = cells(draws, 6 * height);
    for row in cells.chunks_mut(6) {
        let set = draws.below(4);
        for branch in 0..3 {
            row[2 * branch] = F::from_bool(branch == set);
        }
    }
    RowMajorMatrix::new(cells, 6)
}
