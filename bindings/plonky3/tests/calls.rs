//! The calls on small batches: their answers and refusals.

use p3_air::symbolic::{BaseEntry, SymbolicExpression, SymbolicVariable};
use p3_baby_bear::BabyBear;
use p3_field::PrimeCharacteristicRing;
use p3_lookup::debug_util::LookupDebugInstance;
use p3_lookup::{Kind, Lookup};
use p3_matrix::dense::RowMajorMatrix;
use volgwain::generic::{Batch, Element};
use volgwain::{Code, Count, Expr, GroupName, Message};
use volgwain_plonky3::{
    AirWitness, Error, OwnedTraces, bus_table, challenges, check_lookups, debug_check,
    element_from_p3, element_to_p3, from_p3, generate_permutation, mismatch, verify_permutation,
    witness_from_p3, witness_to_p3,
};

type F = BabyBear;

fn main(offset: usize, column: usize) -> SymbolicExpression<F> {
    SymbolicVariable::new(BaseEntry::Main { offset }, column).into()
}

/// A lookup on the bus "keys" of column 0, as often as column 1 says.
fn keys() -> Lookup<F> {
    Lookup {
        kind: Kind::Global("keys".to_owned()),
        elements: vec![vec![main(0, 0)]],
        multiplicities: vec![main(0, 1)],
        count_weight: 5,
        column: 0,
        flags: None,
    }
}

/// A trace of two columns.
fn trace(cells: &[u32]) -> RowMajorMatrix<F> {
    RowMajorMatrix::new(cells.iter().map(|cell| F::from_u32(*cell)).collect(), 2)
}

fn instance<'a>(
    main: &'a RowMajorMatrix<F>,
    lookups: &'a [Lookup<F>],
) -> LookupDebugInstance<'a, F> {
    LookupDebugInstance {
        main_trace: main,
        preprocessed_trace: &None,
        public_values: &[],
        lookups,
        permutation_challenges: &[],
    }
}

#[test]
fn a_record_is_the_same_lookup() {
    let count = Count::bounded(Expr::main(1), 5);
    let lookup = volgwain::Lookup::on_bus("keys", [Message::query([Expr::main(0)], count)]);
    assert_eq!(from_p3(&[keys()]), Ok(volgwain::Air::new([lookup]).unwrap()));
    assert_eq!(from_p3::<F>(&[]), Ok(volgwain::Air::new([]).unwrap()));
    let empty = Lookup { elements: vec![], multiplicities: vec![], column: 0, ..keys() };
    let air = from_p3(&[empty]).unwrap();
    assert_eq!(air.lookups()[0].weight(), Some(5));
}

#[test]
fn records_that_are_no_lookups_are_refused() {
    let moved = Lookup { column: 2, ..keys() };
    assert_eq!(from_p3(&[keys(), moved.clone()]), Err(Error::Column { lookup: 1, column: 2 }));
    let far = Lookup { elements: vec![vec![main(2, 0)]], ..keys() };
    let Err(Error::Refused(error)) = from_p3(&[far]) else { panic!("row 2 is no row") };
    assert_eq!((error.code(), error.lookup()), (Code::BadTable, Some(0)));
    let short = Lookup { multiplicities: vec![], ..keys() };
    let air = from_p3(&[short]).unwrap();
    assert_eq!(air.degrees().unwrap_err().code(), Code::MalformedLookup);
    let main = trace(&[1, 1]);
    let refused = debug_check(&[instance(&main, &[keys()]), instance(&main, &[moved])]);
    let error = refused.unwrap_err();
    assert_eq!(
        error,
        Error::OfAir { air: 1, reason: Box::new(Error::Column { lookup: 0, column: 2 }) }
    );
    assert_eq!(error.to_string(), "air 1: lookup 0 has the column 2");
}

#[test]
fn tuples_that_balance_pass() {
    // 3 once and twice, and minus three times
    let (asks, provides) = (trace(&[3, 1, 3, 2]), trace(&[3, 2_013_265_918, 9, 0]));
    let lookups = [keys()];
    let instances = [instance(&asks, &lookups), instance(&provides, &lookups)];
    assert_eq!(debug_check(&instances), Ok(()));
    check_lookups(&instances);
    check_lookups::<F>(&[]);
}

#[test]
fn a_mismatch_says_where() {
    let (main, lookups) = (trace(&[3, 1, 4, 0, 3, 1]), [keys()]);
    let Err(Error::Refused(error)) = debug_check(&[instance(&main, &lookups)]) else {
        panic!("3 is sent twice")
    };
    assert_eq!(error.code(), Code::Mismatch);
    let text = "Lookup mismatch (global lookup 'keys'): tuple [3] has net multiplicity 2 at \
        instance 0 lookup 0 row 0; instance 0 lookup 0 row 2";
    assert_eq!(error.text(), text);
}

#[test]
fn findings_are_data() {
    let (main, lookups) = (trace(&[3, 1, 4, 0, 3, 1]), [keys()]);
    let instances = [instance(&main, &lookups)];
    let found = mismatch(&instances, 1).unwrap().unwrap();
    assert_eq!(found.group, GroupName::Bus("keys".to_owned()));
    assert_eq!((found.unbalanced.tuple, found.unbalanced.net), (vec![3], 2));
    assert_eq!((found.unbalanced.place_count, found.unbalanced.places.len()), (2, 1));
    let table = bus_table(&instances, 1).unwrap();
    let counts = |it: &volgwain::BusGroup| (it.sent, it.received, it.distinct, it.unbalanced);
    assert_eq!(table.iter().map(counts).collect::<Vec<_>>(), [(2, 0, 1, 1)]);
    let moved = [Lookup { column: 2, ..keys() }];
    let refused = bus_table(&[instance(&main, &moved)], 1).unwrap_err();
    assert_eq!(refused.to_string(), "air 0: lookup 0 has the column 2");
    assert_eq!(mismatch(&[instance(&main, &moved)], 1), Err(refused));
}

#[test]
#[should_panic(
    expected = "Lookup mismatch (global lookup 'keys'): tuple [\"3\"] has net multiplicity 2. \
        Locations: [Location { instance: 0, lookup: 0, row: 0 }, \
        Location { instance: 0, lookup: 0, row: 2 }]"
)]
fn a_mismatch_panics_as_in_plonky3() {
    check_lookups(&[instance(&trace(&[3, 1, 4, 0, 3, 1]), &[keys()])]);
}

#[test]
fn traces_have_what_lookups_read() {
    let narrow = RowMajorMatrix::new(vec![F::ONE], 1);
    let Err(Error::Refused(error)) = debug_check(&[instance(&narrow, &[keys()])]) else {
        panic!("there is no column 1")
    };
    assert_eq!((error.code(), error.air()), (Code::DoesNotFit, Some(0)));
}

#[test]
fn elements_keep_their_coefficients() {
    let element = Element::new([1, 0, 2_013_265_920, 4]);
    assert_eq!(element_from_p3::<F>(element_to_p3::<F>(element)), element);
    // X^4 is 11
    let x = element_to_p3::<F>(Element::new([0, 1, 0, 0]));
    assert_eq!(element_from_p3::<F>(x * x * x * x), Element::from(11));
    let x = element_to_p3::<p3_koala_bear::KoalaBear>(Element::new([0, 1, 0, 0]));
    assert_eq!(element_from_p3::<p3_koala_bear::KoalaBear>(x * x * x * x), Element::from(3));
}

#[test]
fn a_witness_leads_from_one_to_the_other() {
    let (main, lookups) = (trace(&[3, 1, 3, 2_013_265_920]), [keys()]);
    let (air, owned) = (from_p3(&lookups).unwrap(), OwnedTraces::new(&main, None, &[]));
    let batch = Batch::new([(&air, 2)]).unwrap();
    let (alpha, beta) = (Element::new([9, 2, 6, 5]), Element::new([3, 1, 4, 15]));
    let made = batch.prove(&[owned.traces()], alpha, beta).unwrap();
    let in_p3: Vec<AirWitness<F>> = witness_to_p3::<F>(&made);
    assert_eq!(witness_from_p3::<F>(&in_p3), made);
    let (alpha, beta) = (element_to_p3::<F>(alpha), element_to_p3::<F>(beta));
    // the width is 1 and the id is 0, so the prefix is alpha + beta
    let challenges = challenges::<F>(&batch, alpha, beta);
    assert_eq!(challenges, [[alpha + beta, beta]]);
    let own = generate_permutation(&main, &None, &[], &lookups, &challenges[0]).unwrap();
    assert!(own.0 == in_p3[0].0);
    assert_eq!(own.1.map(|terminal| terminal.0), in_p3[0].1.map(|terminal| terminal.0));
    let refused = generate_permutation(&main, &None, &[], &lookups, &challenges[0][..1]);
    let Err(Error::Refused(error)) = refused else { panic!("one challenge is missing") };
    assert_eq!(error.code(), Code::BadLength);
}

#[test]
fn a_part_is_verified_under_challenges_of_its_own() {
    let (main, lookups) = (trace(&[3, 1, 4, 2]), [keys()]);
    let own = [[7, 0, 1, 0], [2, 5, 0, 0]].map(|it| element_to_p3::<F>(Element::new(it)));
    let verify = |challenges: &[_], part: &AirWitness<F>| {
        verify_permutation(&main, &None, &[], &lookups, challenges, part).map_err(|error| {
            let Error::Refused(error) = error else { panic!("{error}") };
            (error.code(), error.row())
        })
    };
    let mut part = generate_permutation(&main, &None, &[], &lookups, &own).unwrap();
    assert_eq!(verify(&own, &part), Ok(()));
    assert_eq!(verify(&[own[1], own[0]], &part), Err((Code::ConstraintFailed, Some(0))));
    assert_eq!(verify(&own[..1], &part), Err((Code::BadLength, None)));
    part.0.values[3] += own[0];
    assert_eq!(verify(&own, &part), Err((Code::ConstraintFailed, Some(1))));
    part.1 = None;
    assert_eq!(verify(&own, &part), Err((Code::TerminalPresence, None)));
    let moved = [Lookup { column: 2, ..keys() }];
    let refused = verify_permutation(&main, &None, &[], &moved, &own, &part);
    assert_eq!(refused, Err(Error::Column { lookup: 0, column: 2 }));
}

/// Over no rows no constraint binds a terminal, so that any would pass.
#[test]
fn a_part_without_rows_is_refused() {
    let (none, lookups) = (trace(&[]), [keys()]);
    let own = [[7, 0, 1, 0], [2, 5, 0, 0]].map(|it| element_to_p3::<F>(Element::new(it)));
    let mut part = generate_permutation(&trace(&[3, 1]), &None, &[], &lookups, &own).unwrap();
    part.0.values.clear();
    let made = generate_permutation(&none, &None, &[], &lookups, &own).map(|_| ());
    for refused in [made, verify_permutation(&none, &None, &[], &lookups, &own, &part)] {
        let Err(Error::Refused(error)) = refused else { panic!("there is no row") };
        assert_eq!((error.code(), error.air()), (Code::DoesNotFit, Some(0)));
    }
}
