//! The constraints of small AIRs: which are taken, and what they enforce.

use p3_air::symbolic::{BaseEntry, SymbolicExpression, SymbolicVariable};
use p3_air::{Air, AirBuilder, BaseAir, WindowAccess};
use p3_baby_bear::BabyBear;
use p3_field::{Field, PrimeCharacteristicRing};
use p3_koala_bear::KoalaBear;
use p3_lookup::{InteractionBuilder, Kind, Lookup, LookupBus, Lookups};
use volgwain::{Expr, Missing, Rows};
use volgwain_plonky3::{
    Extension, LeftOut, MOST_CONSTRAINT_NODES, Reason, SharedField, constraints_of, from_p3,
    selectors_in,
};

/// What an AIR of four columns asserts.
struct Asserts(fn(&mut Row<'_>));

/// What is asserted of the cells of a row, by a builder that is hidden.
struct Row<'a> {
    cells: Vec<SymbolicExpression<BabyBear>>,
    selectors: [SymbolicExpression<BabyBear>; 3],
    assert: &'a mut dyn FnMut(SymbolicExpression<BabyBear>),
}

type Builder = p3_lookup::InteractionSymbolicBuilder<BabyBear, Extension<BabyBear>>;

impl BaseAir<BabyBear> for Asserts {
    fn width(&self) -> usize {
        4
    }
}

impl Air<Builder> for Asserts {
    fn eval(&self, builder: &mut Builder) {
        let cells = builder.main().current_slice().iter().map(|cell| (*cell).into()).collect();
        let selectors = [builder.is_first_row(), builder.is_last_row(), builder.is_transition()];
        let mut assert = |expression| builder.assert_zero(expression);
        (self.0)(&mut Row { cells, selectors, assert: &mut assert });
    }
}

/// The indices of the constraints that are left out, and why.
fn left_out(asserts: fn(&mut Row<'_>)) -> Vec<(usize, Reason)> {
    let constraints = constraints_of::<BabyBear, _>(&Asserts(asserts));
    constraints
        .left_out
        .iter()
        .map(|LeftOut { constraint, reason, .. }| (*constraint, *reason))
        .collect()
}

#[test]
fn selectors_have_to_be_factors() {
    let left = left_out(|row| {
        let [a, b, ..] = row.cells.as_slice() else { panic!("four columns") };
        let (a, b) = (a.clone(), b.clone());
        let [first, last, transition] = row.selectors.clone();
        (row.assert)(first.clone() * a.clone());
        (row.assert)(-(last.clone() * (a.clone() - b.clone())) * transition.clone());
        (row.assert)(a.clone() - first.clone());
        (row.assert)(a.clone() * (b.clone() - transition.clone()));
        (row.assert)(first.clone() * a.clone() + last * b.clone());
        (row.assert)(a * b);
        (row.assert)(first);
    });
    assert_eq!(left, [2, 3, 4].map(|constraint| (constraint, Reason::Selector)));
}

#[test]
fn large_constraints_are_left_out() {
    let left = left_out(|row| {
        let a = row.cells[0].clone();
        let square = a.clone() * a.clone();
        (row.assert)(square.clone() * square.clone());
        (row.assert)(square.clone() * square * a.clone());
        // 2^12 cells are 2^13 - 1 nodes
        let mut doubled = a.clone();
        for _ in 0..11 {
            doubled = doubled.clone() + doubled;
        }
        (row.assert)(doubled.clone());
        (row.assert)(doubled.clone() + doubled.clone());
        // shared nodes that are immense when written out
        for _ in 0..200 {
            doubled = doubled.clone() + doubled;
        }
        (row.assert)(doubled);
    });
    assert_eq!(MOST_CONSTRAINT_NODES, 4096);
    assert_eq!(left, [(1, Reason::Degree), (3, Reason::Size), (4, Reason::Size)]);
}

#[test]
fn what_has_no_word_is_left_out() {
    let left = left_out(|row| {
        let far = |offset| SymbolicVariable::new(BaseEntry::Main { offset }, 0).into();
        (row.assert)(far(1));
        (row.assert)(far(2));
        (row.assert)(SymbolicVariable::new(BaseEntry::Public, 0).into());
        let fixed = SymbolicVariable::new(BaseEntry::Preprocessed { offset: 3 }, 0);
        (row.assert)(SymbolicExpression::from(fixed) - row.cells[0].clone());
    });
    assert_eq!(left, [(1, Reason::Unknown), (3, Reason::Unknown)]);
}

/// Reads and writes of a memory: flags in columns 0 and 1, a key in column 2.
struct Memory {
    is_exclusive: bool,
}

impl<F: Field> BaseAir<F> for Memory {
    fn width(&self) -> usize {
        3
    }
}

impl<AB: AirBuilder<F: Field> + InteractionBuilder> Air<AB> for Memory {
    fn eval(&self, builder: &mut AB) {
        let row = builder.main().current_slice().to_vec();
        let [reads, writes, key]: [AB::Expr; 3] = [row[0].into(), row[1].into(), row[2].into()];
        let bit = |e: AB::Expr| e.clone() * (e - AB::Expr::ONE);
        builder.assert_zero(bit(reads.clone()));
        builder.assert_zero(bit(writes.clone()));
        if self.is_exclusive {
            builder.assert_zero(bit(reads.clone() + writes.clone()));
        }
        let branches =
            [(reads, 1.into(), vec![key.clone()]), (writes, 1.into(), vec![key.clone()])];
        builder.push_exclusive_interaction("memory", branches);
        LookupBus::new("keys").table_entry(builder, [key.clone()], key);
    }
}

fn flags_are_enforced<F: SharedField>() {
    let enforced = |air: &Memory, height| {
        let lookups = Lookups::from_air::<Extension<F>, _>(air);
        assert_eq!(selectors_in::<F>(&lookups), Vec::<usize>::new());
        let constraints = constraints_of::<F, _>(air);
        assert!(constraints.left_out.is_empty());
        from_p3(&lookups).unwrap().enforced(&constraints.taken, height).unwrap()
    };
    let exclusive = |is_exclusive| Memory { is_exclusive };
    let report = enforced(&exclusive(true), 8);
    // the entry on the bus of keys comes first, and then the flags
    assert!(report.iter().all(|lookup| lookup.flags && lookup.weight && lookup.constraints == 3));
    assert_eq!(report[1].bounds, [Some(1), Some(1)]);
    let report = enforced(&exclusive(false), 8);
    assert_eq!(report[1].missing, Some(Missing::Exclusive { rows: Rows::First }));
    assert_eq!(report[1].constraints, 2);
}

#[test]
fn flags_are_enforced_over_baby_bear() {
    flags_are_enforced::<BabyBear>();
}

#[test]
fn flags_are_enforced_over_koala_bear() {
    flags_are_enforced::<KoalaBear>();
}

#[test]
fn constraints_are_the_same_expressions() {
    let constraints = constraints_of::<BabyBear, _>(&Memory { is_exclusive: true });
    let (reads, writes) = (Expr::main(0), Expr::main(1));
    let bit = |e: &Expr| e * (e - 1);
    let wanted = [bit(&reads), bit(&writes), bit(&(&reads + &writes))];
    assert_eq!(constraints.taken, wanted);
}

#[test]
fn lookups_with_selectors_are_told() {
    let cell: SymbolicExpression<BabyBear> =
        SymbolicVariable::new(BaseEntry::Main { offset: 0 }, 0).into();
    let selector = SymbolicExpression::Leaf(p3_air::BaseLeaf::IsFirstRow);
    let lookup =
        |tuple: &SymbolicExpression<BabyBear>, count: &SymbolicExpression<BabyBear>, flag| Lookup {
            kind: Kind::Local,
            elements: vec![vec![cell.clone(), tuple.clone()]],
            multiplicities: vec![count.clone()],
            count_weight: 1,
            column: 0,
            flags: flag,
        };
    let both = cell.clone() * selector.clone();
    let lookups = [
        lookup(&cell, &cell, None),
        lookup(&both, &cell, None),
        lookup(&cell, &both, None),
        lookup(&cell, &cell, Some(vec![selector])),
        lookup(&cell, &cell, Some(vec![cell.clone()])),
    ];
    assert_eq!(selectors_in(&lookups), [1, 2, 3]);
}
