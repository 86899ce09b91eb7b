//! Audits the lookups of an AIR: what `docs/guide/RUST_AND_C.md` of the repository shows.

use p3_air::{Air, AirBuilder, BaseAir, WindowAccess};
use p3_baby_bear::BabyBear;
use p3_field::{Field, PrimeCharacteristicRing};
use p3_lookup::{InteractionBuilder, LookupBus, Lookups};
use p3_matrix::Matrix;
use p3_matrix::dense::RowMajorMatrix;
use volgwain::Batch;
use volgwain_plonky3::{Error, Extension, OwnedTraces, constraints_of, from_p3};

/// Each row looks column 0 up in the table of columns 1 and 2, which are an entry and its uses.
struct Keys;

impl<F: Field> BaseAir<F> for Keys {
    fn width(&self) -> usize {
        3
    }
}

impl<AB: AirBuilder<F: Field> + InteractionBuilder> Air<AB> for Keys {
    fn eval(&self, builder: &mut AB) {
        let row = builder.main().current_slice().to_vec();
        let keys = LookupBus::new("keys");
        keys.lookup_key(builder, [row[0]], 1);
        keys.table_entry(builder, [row[1]], row[2]);
    }
}

fn audit(main: &RowMajorMatrix<BabyBear>) -> Result<(), Error> {
    let lookups = Lookups::<BabyBear>::from_air::<Extension<BabyBear>, _>(&Keys);
    let air = from_p3(&lookups)?;
    println!("degrees {:?}, packed {:?}", air.degrees()?, air.pack(3)?.degrees()?);
    let batch = Batch::new([(&air, main.height())])?;
    println!("{:?}", batch.soundness_of_heights()?);
    let constraints = constraints_of::<BabyBear, _>(&Keys);
    println!("{} constraints are left out", constraints.left_out.len());
    print!("{}", batch.enforced(&[constraints.taken])?);
    let owned = OwnedTraces::new(main, None, &[]);
    batch.debug_check(&[owned.traces()])?;
    println!("{:?}", batch.soundness_count(&[owned.traces()])?);
    Ok(())
}

fn main() -> Result<(), Error> {
    let trace = |cells: [u32; 6]| RowMajorMatrix::new(cells.map(BabyBear::from_u32).to_vec(), 3);
    audit(&trace([3, 3, 2, 3, 5, 0]))?;
    if let Err(error) = audit(&trace([3, 3, 2, 4, 5, 0])) {
        println!("{error}");
    }
    Ok(())
}
