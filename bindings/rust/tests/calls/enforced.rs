//! What constraints enforce of lookups, and whether they hold: answers that are worked out by hand.

use volgwain::generic::{Air, Batch, Count, Expr, Lookup, Message};
use volgwain::{Code, Enforced, Error, Field, MOST_DEPTH, Missing, Part, Rows, Traces};

/// The columns: how often a key is asked for, two flags, and the key.
fn columns<F: Field>() -> [Expr<F>; 4] {
    [0, 1, 2, 3].map(Expr::main)
}

/// An expression is 0 or 1.
fn bit<F: Field>(expression: &Expr<F>) -> Expr<F> {
    expression * (expression - 1)
}

/// That the count and both flags are bits, and that at most one flag is set, in this order.
fn laws<F: Field>() -> [Expr<F>; 4] {
    let [m, f, g, _] = columns();
    [bit(&m), bit(&f), bit(&g), bit(&(f + g))]
}

/// One query of the key for each of these flags.
fn flagged<F: Field>(flags: [Expr<F>; 2]) -> Lookup<F> {
    let query = || Message::query([Expr::main(3)], 1);
    Lookup::exclusive_on_bus("keys", flags.map(|flag| query().when(flag)))
}

/// The flags of the columns, the selectors as flags, and a key that is queried and provided.
fn air<F: Field>() -> Air<F> {
    let [m, f, g, key] = columns();
    let shuffled =
        [Message::query([key.clone()], Count::bounded(m, 1)), Message::provide([key.clone()], key)];
    let selected = flagged([Expr::is_first_row(), Expr::is_last_row()]);
    Air::new([flagged([f, g]), selected, Lookup::local(shuffled)]).unwrap()
}

/// Flags, weight, and what is missing.
type Answer = (bool, bool, Option<Missing>);

fn answers(report: &[Enforced]) -> Vec<Answer> {
    report.iter().map(|it| (it.flags, it.weight, it.missing)).collect()
}

const SHOWN: Answer = (true, true, None);

fn flag(flag: usize, rows: Rows) -> Answer {
    (false, false, Some(Missing::Flag { flag, rows }))
}

fn exclusive(rows: Rows) -> Answer {
    (false, false, Some(Missing::Exclusive { rows }))
}

fn flags_and_weights_are_enforced<F: Field>() {
    for height in [2, 3, 1 << 40] {
        let report = air::<F>().enforced(&laws(), height).unwrap();
        assert_eq!(answers(&report), [SHOWN; 3]);
        assert!(report.iter().all(|lookup| lookup.constraints == 4));
        // the key itself may be any number
        let bounds: Vec<_> = report.iter().map(|lookup| lookup.bounds.as_slice()).collect();
        assert_eq!(bounds, [[Some(1), Some(1)], [Some(1), Some(1)], [Some(1), None]]);
    }
}

fn one_row_is_the_first_and_the_last<F: Field>() {
    let report = air::<F>().enforced(&laws(), 1).unwrap();
    assert_eq!(answers(&report), [SHOWN, exclusive(Rows::Only), SHOWN]);
    let report = air::<F>().enforced(&[], 0).unwrap();
    assert_eq!(answers(&report), [SHOWN; 3]);
}

fn what_is_missing_is_named<F: Field>() {
    let [m, f, g, both] = laws::<F>();
    let of_flags = |constraints: &[Expr<F>], height| {
        answers(&air::<F>().enforced(constraints, height).unwrap())[0]
    };
    assert_eq!(of_flags(&[m.clone(), f.clone(), g.clone()], 3), exclusive(Rows::First));
    assert_eq!(of_flags(&[m.clone(), g.clone(), both.clone()], 3), flag(0, Rows::First));
    assert_eq!(of_flags(&[m, f.clone(), both.clone()], 1), flag(1, Rows::Only));
    // on the last row nothing is asked
    let transition = [f, g, both].map(|law| Expr::is_transition() * law);
    assert_eq!(of_flags(&transition, 3), flag(0, Rows::Last));
    assert_eq!(of_flags(&transition, 1), flag(0, Rows::Only));
    // and here on no row between the first and the last
    let ends = laws::<F>().map(|law| (Expr::is_first_row() + Expr::is_last_row()) * law);
    assert_eq!(of_flags(&ends, 3), flag(0, Rows::Between));
    assert_eq!(of_flags(&ends, 2), SHOWN);
}

fn queries_have_to_stay_within_the_weight<F: Field>() {
    let [m, ..] = columns::<F>();
    let asks = |weight| {
        let query =
            |count: &Expr<F>| Message::query([Expr::main(3)], Count::bounded(count, weight));
        Air::new([Lookup::on_bus("keys", [query(&m), query(&-&m), query(&(&m + &m))])]).unwrap()
    };
    let kept = |air: &Air<F>, constraints: &[Expr<F>]| {
        let report = air.enforced(constraints, 4).unwrap().remove(0);
        (report.weight, report.bounds)
    };
    let law = [bit(&m)];
    // the bounds are 1, 1 and 2, and the weights add up
    assert_eq!(kept(&asks(2), &law), (true, vec![Some(1), Some(1), Some(2)]));
    assert_eq!(kept(&asks(1), &law), (false, vec![Some(1), Some(1), Some(2)]));
    assert_eq!(kept(&asks(9), &[]), (false, vec![None, None, None]));
    // as entries they need no bound
    let provided = asks(1).lookups().remove(0).with_queries(|_| false);
    assert!(kept(&Air::new([provided.clone()]).unwrap(), &[]).0);
    let first = Air::new([provided.with_queries(|index| index == 0)]).unwrap();
    assert!(kept(&first, &law).0 && !kept(&first, &[]).0);
}

fn roles_of_parts_come_from_the_weight<F: Field>() {
    let parts = |weight| {
        let tuples = vec![vec![Expr::<F>::main(3)]; 2];
        let counts = vec![Expr::main(3), Expr::main(0)];
        Air::new([Lookup::from_parts(None, tuples, counts, None, weight)]).unwrap()
    };
    let kept = |air: Air<F>| air.enforced(&laws(), 4).unwrap()[0].weight;
    assert!(kept(parts(0)));
    assert!(!kept(parts(7)));
    let second = parts(1).lookups().remove(0).with_queries(|index| index == 1);
    assert!(kept(Air::new([second]).unwrap()));
    // a text and packed lookups say no more than their weight, and an AIR made of their lookups keeps it
    let text = r#"[{"kind":"Local","elements":[[],[]],"multiplicities":[{"Leaf":"IsFirstRow"},
        {"Leaf":{"Constant":1}}],"count_weight":1,"column":0}]"#;
    let read = Air::<F>::from_json(text).unwrap();
    assert_eq!(read.lookups()[0].queries(), [true, true]);
    assert!(!kept(read));
    let packed = parts(0).pack(9).unwrap();
    assert_eq!(packed.lookups()[0].queries(), [false, false]);
    assert_eq!(air::<F>().lookups()[2].queries(), [true, false]);
}

fn batches_have_a_list_for_each_air<F: Field>() {
    let [m, ..] = columns::<F>();
    let asks = Lookup::on_bus("keys", [Message::query([Expr::main(3)], Count::bounded(&m, 1))]);
    let asks = Air::new([asks]).unwrap();
    let batch = Batch::new([(&asks, 4), (&air(), 1), (&air(), 8)]).unwrap();
    let report = batch.enforced(&[&laws()[..1], &laws(), &laws()]).unwrap();
    let wanted = [vec![SHOWN], vec![SHOWN, exclusive(Rows::Only), SHOWN], vec![SHOWN; 3]];
    assert_eq!(report.airs.iter().map(|air| answers(air)).collect::<Vec<_>>(), wanted);
    assert!(!report.all_flags() && !report.all_weights());
    assert_eq!((report.airs[0][0].constraints, report.airs[1][0].constraints), (1, 4));
    let batch = Batch::new([(&asks, 4), (&air(), 8)]).unwrap();
    let report = batch.enforced(&[laws()[..1].to_vec(), laws().to_vec()]).unwrap();
    assert!(report.all_flags() && report.all_weights());
    // without a constraint of its count
    let report = batch.enforced(&[vec![], laws().to_vec()]).unwrap();
    assert!(report.all_flags() && !report.all_weights());
    assert!(Batch::<F>::new([]).unwrap().enforced::<Vec<Expr<F>>>(&[]).unwrap().all_flags());
}

fn constraints_hold_on_traces<F: Field>() {
    // m, f, g and the key
    let rows = [1, 1, 0, 5, 1, 0, 1, 7, 0, 0, 0, 9];
    let check = |rows: &[u32]| Air::<F>::constraints_hold(&laws(), &Traces::new(rows, 4));
    assert_eq!(check(&rows), Ok(()));
    assert_eq!(check(&[]), Ok(()));
    let fault = |index, cell| {
        let mut rows = rows;
        rows[index] = cell;
        let refusal = check(&rows).unwrap_err();
        assert_eq!(refusal.code(), Code::NonzeroConstraint);
        assert_eq!((refusal.air(), refusal.lookup()), (None, None));
        (refusal.row().unwrap(), refusal.index().unwrap(), refusal.to_string())
    };
    // both flags are set on row 1: their sum is 2
    assert_eq!(fault(5, 1), (1, 3, "constraint 3 is not zero on row 1".to_owned()));
    assert_eq!((fault(8, 2).0, fault(8, 2).1), (2, 0));
    // 2 * 1 for the flag, and 2 * 1 for the sum of both: the first one is that of the flag
    assert_eq!((fault(1, 2).0, fault(1, 2).1), (0, 1));
    // a cell of the next row, a public value and a preprocessed cell
    let sum = [Expr::main_next(0) - Expr::main(0) - Expr::public(0) * Expr::preprocessed(0)];
    let hold = |cells: &[u32]| {
        let traces = Traces::new(cells, 1).with_preprocessed(&[1, 0, 1], 1);
        Air::<F>::constraints_hold(&sum, &traces.with_public_values(&[5]))
    };
    // after the last row comes the first one
    assert_eq!(hold(&[4, 9, 9]).unwrap_err().row(), Some(2));
    assert_eq!(hold(&[F::MODULUS - 5, 0, 0]).unwrap_err().row(), Some(2));
    let last = [Expr::is_transition() * sum[0].clone()];
    let traces = Traces::new(&[4, 9, 9], 1).with_preprocessed(&[1, 0, 1], 1);
    assert_eq!(Air::<F>::constraints_hold(&last, &traces.with_public_values(&[5])), Ok(()));
}

/// Code, part, AIR, row, index, what was expected, and what there was.
type Refused = (Code, Option<Part>, [Option<usize>; 5]);

fn refused<T: std::fmt::Debug>(answer: Result<T, Error>) -> Refused {
    let error = answer.expect_err("the call is refused");
    let places = [error.air(), error.row(), error.index(), error.expected(), error.actual()];
    (error.code(), error.part(), places)
}

fn bad_constraints_are_refused<F: Field>() {
    let mut deep = Expr::<F>::main(0);
    for _ in 0..MOST_DEPTH {
        deep = -deep;
    }
    let of_index = |index| (Code::BadConstraints, None, [None, None, Some(index), None, None]);
    let constraints = [Expr::main(0), deep];
    assert_eq!(refused(air().enforced(&constraints, 4)), of_index(1));
    let text = air().enforced(&constraints, 4).unwrap_err().to_string();
    assert_eq!(text, "constraint 1: an expression is deeper than 1024");
    let traces = Traces::new(&[0], 1);
    assert_eq!(refused(Air::constraints_hold(&constraints, &traces)), of_index(1));
    // 2^18 nodes and one less: five of these are too many
    let mut large = Expr::<F>::main(0);
    for _ in 0..17 {
        large = &large + &large;
    }
    let list = vec![large; 5];
    assert_eq!(refused(Air::<F>::new([]).unwrap().enforced(&list, 4)), of_index(4));
    assert_eq!(refused(Air::constraints_hold(&list, &traces)), of_index(4));

    let batch = Batch::<F>::new([(&air(), 4), (&air(), 4)]).unwrap();
    let mut refusal = of_index(1);
    refusal.2[0] = Some(1);
    assert_eq!(refused(batch.enforced(&[&[][..], &constraints])), refusal);
    let lists = (Code::BadLength, Some(Part::Batch), [None, None, None, Some(2), Some(1)]);
    assert_eq!(refused(batch.enforced(&[laws()])), lists);
}

fn constraints_have_to_fit<F: Field>() {
    let hold = |cells: &[u32], width| {
        refused(Air::<F>::constraints_hold(&laws(), &Traces::new(cells, width)))
    };
    let of_air = [Some(0), None, None, None, None];
    assert_eq!(hold(&[0, 0, 0], 2), (Code::NoWholeRows, Some(Part::Main), of_air));
    assert_eq!(hold(&[0, 0], 2), (Code::DoesNotFit, None, of_air));
    let large = [Some(0), None, Some(1), None, None];
    assert_eq!(hold(&[0, F::MODULUS, 0], 3), (Code::BadNumber, Some(Part::Main), large));
    let traces = Traces::new(&[0, 0, 0], 3).with_preprocessed(&[1, 2], 1);
    let other = refused(Air::<F>::constraints_hold(&laws(), &traces));
    assert_eq!(other, (Code::OtherHeight, Some(Part::Preprocessed), of_air));
    let malformed = Lookup::from_parts(None, vec![vec![]; 2], vec![Expr::main(0)], None, 1);
    let malformed = Air::<F>::new([malformed]).unwrap().enforced(&[], 4).unwrap_err();
    assert_eq!((malformed.code(), malformed.lookup()), (Code::MalformedLookup, Some(0)));
}

over_each_field! {
    bad_constraints_are_refused,
    batches_have_a_list_for_each_air,
    constraints_have_to_fit,
    constraints_hold_on_traces,
    flags_and_weights_are_enforced,
    one_row_is_the_first_and_the_last,
    queries_have_to_stay_within_the_weight,
    roles_of_parts_come_from_the_weight,
    what_is_missing_is_named,
}
