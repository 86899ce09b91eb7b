//! What both crates answer, compared.

use crate::airs::Table;
use crate::draws::Draws;
use crate::rows::failing_row;
use p3_field::PrimeCharacteristicRing;
use p3_lookup::debug_util::{self, LookupDebugInstance};
use p3_lookup::{
    LogUpGadget, LookupError, LookupProtocol, Lookups, check_bus_widths,
    check_multiplicity_height_bound,
};
use p3_matrix::Matrix;
use std::cell::Cell;
use std::panic::{self, AssertUnwindSafe};
use std::sync::Once;
use volgwain::generic::{Air, Batch};
use volgwain::{Code, Traces};
use volgwain_plonky3::{
    AirWitness, Error, Extension, OwnedTraces, SharedField, bus_table, challenges, check_lookups,
    debug_check, element_from_p3, from_p3, generate_permutation, mismatch, verify_permutation,
    witness_from_p3, witness_to_p3,
};

/// What asks for no plan: degrees, the debug check, and generation under any challenges.
pub fn compare_airs<F: SharedField>(draws: &mut Draws, tables: &[Table<F>]) {
    let gadget = LogUpGadget::new();
    for table in tables {
        let degrees: Vec<usize> =
            table.lookups().iter().map(|lookup| gadget.constraint_degree(lookup)).collect();
        assert_eq!(air_of(table).degrees(), Ok(degrees));
        for transition in 0..4 {
            let degree = |it| gadget.constraint_degree_with_transition(it, transition);
            let degrees: Vec<usize> = table.lookups().iter().map(degree).collect();
            assert_eq!(air_of(table).degrees_at(transition), Ok(degrees));
        }
        let challenges: Vec<Extension<F>> =
            (0..2 * table.lookups().len()).map(|_| draws.extension::<F>()).collect();
        if let Some(mut made) = compare_generation(table, &challenges) {
            for _ in 0..3 {
                compare_verdicts(table, &challenges, &made);
                change::<F>(draws, std::slice::from_mut(&mut made));
            }
        }
    }
    compare_debug_checks(tables);
}

/// What asks for a plan: its refusals, packing, witnesses and verdicts.
pub fn compare_sets<F: SharedField>(draws: &mut Draws, tables: &[Table<F>]) {
    for table in tables {
        for budget in [0, 2, 3, 5, 9] {
            compare_packing(table, budget);
        }
    }
    let Some(batch) = compare_plans(tables) else { return };
    let (alpha, beta) = (draws.extension::<F>(), draws.extension::<F>());
    let challenges = challenges::<F>(&batch, alpha, beta);
    let airs = tables.iter().zip(&challenges);
    let made: Option<Vec<AirWitness<F>>> =
        airs.map(|(table, challenges)| compare_generation(table, challenges)).collect();
    let owned: Vec<OwnedTraces> = tables.iter().map(owned_traces).collect();
    let traces: Vec<Traces<'_>> = owned.iter().map(OwnedTraces::traces).collect();
    let (alpha, beta) = (element_from_p3::<F>(alpha), element_from_p3::<F>(beta));
    let proved = batch.prove(&traces, alpha, beta);
    let Some(mut made) = made else {
        assert!(is_of_flags(proved.expect_err("flags are unlawful").code()));
        return;
    };
    let proved = witness_to_p3::<F>(&proved.expect("flags are lawful"));
    assert_eq!(proved.len(), made.len());
    for (proved, made) in proved.iter().zip(&made) {
        assert_same::<F>(proved, made);
    }
    for _ in 0..3 {
        let verdict = verdict(tables, &challenges, &made);
        let answer = batch.verify(&traces, alpha, beta, &witness_from_p3::<F>(&made));
        let ours = answer.map_err(|error| (error.code(), error.air(), error.row()));
        assert_eq!(ours, verdict);
        change::<F>(draws, &mut made);
    }
}

fn air_of<F: SharedField>(table: &Table<F>) -> Air<F::Ours> {
    from_p3(table.lookups()).expect("lookups of these kinds are known")
}

fn owned_traces<F: SharedField>(table: &Table<F>) -> OwnedTraces {
    OwnedTraces::new(&table.main, table.preprocessed.as_ref(), &table.public_values)
}

/// Whether a code is that of a flag, which generation refuses.
fn is_of_flags(code: Code) -> bool {
    matches!(code, Code::FlagNotBoolean | Code::FlagsNotExclusive)
}

fn assert_same<F: SharedField>(one: &AirWitness<F>, other: &AirWitness<F>) {
    assert!(one.0 == other.0, "auxiliary traces differ");
    assert_eq!(one.1.map(|terminal| terminal.0), other.1.map(|terminal| terminal.0));
}

/// What both make under these challenges, or `None` where both refuse the flags.
fn compare_generation<F: SharedField>(
    table: &Table<F>,
    challenges: &[Extension<F>],
) -> Option<AirWitness<F>> {
    let Table { main, preprocessed, public_values, .. } = table;
    let lookups = table.lookups();
    let ours = generate_permutation(main, preprocessed, public_values, lookups, challenges);
    let gadget = LogUpGadget::new();
    let theirs = caught(|| {
        gadget.generate_permutation(main, preprocessed, public_values, lookups, challenges)
    });
    match (ours, theirs) {
        (Ok(ours), Ok(theirs)) => {
            assert_same::<F>(&ours, &theirs);
            assert_eq!(failing_row(table, challenges, &ours), None);
            Some(ours)
        }
        (Err(Error::Refused(error)), Err(text)) => {
            assert!(
                is_of_flags(error.code()) && text.contains("exclusive flag"),
                "{error}; {text}"
            );
            None
        }
        (ours, theirs) => panic!("one refuses: {:?}, {:?}", ours.err(), theirs.err()),
    }
}

/// Whether a part is satisfied under these challenges, or the first row on which it is not.
fn compare_verdicts<F: SharedField>(
    table: &Table<F>,
    challenges: &[Extension<F>],
    part: &AirWitness<F>,
) {
    let Table { main, preprocessed, public_values, .. } = table;
    let lookups = table.lookups();
    let verdict = verify_permutation(main, preprocessed, public_values, lookups, challenges, part);
    match (verdict, failing_row(table, challenges, part)) {
        (Ok(()), None) => {}
        (Err(Error::Refused(error)), Some(row)) => {
            assert_eq!((error.code(), error.row()), (Code::ConstraintFailed, Some(row)));
        }
        (verdict, row) => panic!("one refuses: {verdict:?}, {row:?}"),
    }
}

fn compare_debug_checks<F: SharedField>(tables: &[Table<F>]) {
    let instances: Vec<LookupDebugInstance<'_, F>> = tables
        .iter()
        .map(|table| LookupDebugInstance {
            main_trace: &table.main,
            preprocessed_trace: &table.preprocessed,
            public_values: &table.public_values,
            lookups: table.lookups(),
            permutation_challenges: &[],
        })
        .collect();
    let theirs = caught(|| debug_util::check_lookups(&instances));
    assert_eq!(caught(|| check_lookups(&instances)), theirs);
    let found = mismatch(&instances, usize::MAX).expect("lookups fit their traces");
    let table = bus_table(&instances, 0).expect("lookups fit their traces");
    assert_eq!(table.iter().all(|group| group.unbalanced == 0), theirs.is_ok());
    match debug_check(&instances) {
        Ok(()) => assert!(theirs.is_ok() && found.is_none()),
        Err(Error::Refused(error)) => {
            assert_eq!((error.code(), theirs.is_err()), (Code::Mismatch, true));
            assert_eq!(found.map(|it| it.to_string()).as_deref(), Some(error.text()));
        }
        Err(error) => panic!("{error}"),
    }
}

fn compare_packing<F: SharedField>(table: &Table<F>, budget: usize) {
    let set = table.set.clone().expect("a set");
    let theirs = caught(|| set.pack_same_bus(&LogUpGadget::new(), budget));
    let ours = air_of(table).pack(budget);
    match theirs {
        Ok(packed) => assert_eq!(ours, Ok(from_p3(&packed).expect("packed lookups are known"))),
        // weights have 64 bits here
        Err(text) if text.contains("count_weight overflow") => assert!(ours.is_ok()),
        Err(text) => {
            let code = ours.expect_err("widths differ").code();
            assert!(code == Code::TupleWidths && text.contains("tuple widths"), "{text}");
        }
    }
}

/// The plan of a batch, or `None` where both refuse it.
fn compare_plans<F: SharedField>(tables: &[Table<F>]) -> Option<Batch<F::Ours>> {
    let sets: Vec<Lookups<F>> =
        tables.iter().map(|table| table.set.clone().expect("a set")).collect();
    let heights: Vec<usize> = tables.iter().map(|table| table.main.height()).collect();
    let airs: Vec<Air<F::Ours>> = tables.iter().map(air_of).collect();
    let batch = Batch::new(airs.iter().zip(heights.iter().copied()));
    let refused = match check_bus_widths(&sets) {
        Err(LookupError::BusWidthMismatch { .. }) => Some(Code::BusWidths),
        Err(error) => panic!("{error}"),
        Ok(_) => check_multiplicity_height_bound(&sets, &heights).err().map(|_| Code::HeightBound),
    };
    assert_eq!(batch.as_ref().err().map(volgwain::Error::code), refused);
    batch.ok()
}

/// What `p3-lookup` says of a witness: the first row of the first AIR on which a constraint fails, and
/// in the end whether the terminals sum to zero.
fn verdict<F: SharedField>(
    tables: &[Table<F>],
    challenges: &[Vec<Extension<F>>],
    witness: &[AirWitness<F>],
) -> Result<(), (Code, Option<usize>, Option<usize>)> {
    for (air, ((table, challenges), part)) in tables.iter().zip(challenges).zip(witness).enumerate()
    {
        if let Some(row) = failing_row(table, challenges, part) {
            return Err((Code::ConstraintFailed, Some(air), Some(row)));
        }
    }
    let terminals: Vec<_> = witness.iter().map(|part| part.1).collect();
    LogUpGadget::new().verify_terminal_sum(&terminals).map_err(|_| (Code::TerminalSum, None, None))
}

/// Changes a cell or a terminal of the AIR that is drawn, if it has one.
fn change<F: SharedField>(draws: &mut Draws, witness: &mut [AirWitness<F>]) {
    let air = draws.below(witness.len());
    let (auxiliary, terminal) = &mut witness[air];
    match terminal {
        Some(terminal) if draws.one_in(4) => terminal.0 += Extension::<F>::ONE,
        Some(_) => {
            let cell = draws.below(auxiliary.values.len());
            auxiliary.values[cell] = draws.extension::<F>();
        }
        None => {}
    }
}

thread_local! {
    /// Whether a panic of this thread is looked at, and not to be printed.
    static IS_CAUGHT: Cell<bool> = const { Cell::new(false) };
}

/// What a call answers, or the text of its panic.
fn caught<T>(call: impl FnOnce() -> T) -> Result<T, String> {
    static HOOK: Once = Once::new();
    HOOK.call_once(|| {
        let before = panic::take_hook();
        panic::set_hook(Box::new(move |it| {
            if !IS_CAUGHT.get() {
                before(it);
            }
        }));
    });
    IS_CAUGHT.set(true);
    let answer = panic::catch_unwind(AssertUnwindSafe(call));
    IS_CAUGHT.set(false);
    answer.map_err(|payload| {
        let text = payload.downcast_ref::<String>().cloned();
        text.or_else(|| payload.downcast_ref::<&str>().map(|it| (*it).to_owned()))
            .unwrap_or_default()
    })
}
