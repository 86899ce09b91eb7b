//! Random batches, and AIRs as they are written for Plonky3: `p3-lookup` and this crate have to agree
//! on cells, verdicts, degrees, packings, refusals and the texts of mismatches.
//!
//! The variable `BATCHES` says how many random batches there are over each field, 300 if it is not set.

mod airs;
mod compared;
mod draws;
mod random;
mod rows;

use compared::{compare_airs, compare_sets};
use draws::Draws;
use volgwain_plonky3::SharedField;

fn batches() -> u64 {
    std::env::var("BATCHES").ok().and_then(|it| it.parse().ok()).unwrap_or(300)
}

/// The AIRs of `airs`, with random cells and with cells that balance.
fn airs_agree<F: SharedField>() {
    for seed in 0..batches().div_ceil(10) {
        let mut draws = Draws::new(seed);
        let tables = airs::tables::<F>(&mut draws);
        compare_airs(&mut draws, &tables);
        compare_sets(&mut draws, &tables);
    }
}

/// Sets of lookups that random AIRs push, some of them packed.
fn pushed_lookups_agree<F: SharedField>() {
    for seed in 0..batches() {
        let mut draws = Draws::new(seed);
        let tables = random::pushed::<F>(&mut draws);
        compare_airs(&mut draws, &tables);
        compare_sets(&mut draws, &tables);
    }
}

/// Records of any kind, also those that no AIR pushes.
fn records_agree<F: SharedField>() {
    for seed in 0..batches() {
        let mut draws = Draws::new(seed);
        let tables = random::recorded::<F>(&mut draws);
        compare_airs(&mut draws, &tables);
    }
}

/// Makes tests over each field.
macro_rules! over_each_field {
    ($($test:ident),* $(,)?) => {
        mod baby_bear {
            $(
                #[test]
                fn $test() {
                    super::$test::<p3_baby_bear::BabyBear>();
                }
            )*
        }
        mod koala_bear {
            $(
                #[test]
                fn $test() {
                    super::$test::<p3_koala_bear::KoalaBear>();
                }
            )*
        }
    };
}

over_each_field!(airs_agree, pushed_lookups_agree, records_agree,);
