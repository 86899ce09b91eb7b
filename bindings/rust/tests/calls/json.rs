//! Lookups read from JSON.

use volgwain::generic::{Air, Count, Element, Expr, Lookup, Message};
use volgwain::{Code, Field, Traces};

/// Sends a tuple of nothing so often.
fn nothing<F: Field>(count: Count<F>) -> Message<F> {
    Message::query(Vec::<Expr<F>>::new(), count)
}

/// A text in JSON, and the lookups that it has.
fn json<F: Field>() -> (String, Vec<Lookup<F>>) {
    let one = r#"{"Leaf":{"Constant":1}}"#;
    let cell = |entry: &str, index: usize| {
        format!(r#"{{"Leaf":{{"Variable":{{"entry":{entry},"index":{index}}}}}}}"#)
    };
    let main = cell(r#"{"Main":{"offset":0}}"#, 3);
    let next = cell(r#"{"Preprocessed":{"offset":1}}"#, 0);
    let public = cell(r#""Public""#, 2);
    let product = format!(r#"{{"Mul":[{main},{{"Sub":[{next},{one}]}}]}}"#);
    let sum = format!(r#"{{"Add":[{{"Leaf":"IsFirstRow"}},{public}]}}"#);
    let first = format!(
        r#"{{"kind":{{"Global":"keys"}},"elements":[[{product},{sum}]],"multiplicities":[{one}],"#
    ) + r#""count_weight":18446744073709551615,"column":0,"flags":null}"#;
    let flag = r#"{"Leaf":"IsTransition"}"#;
    let count = r#"{"Neg":{"Leaf":"IsLastRow"}}"#;
    let second =
        format!(r#"{{"kind":"Local","elements":[[]],"multiplicities":[{count}],"count_weight":5,"#)
            + &format!(r#""column":1,"flags":[{flag}]}}"#);
    let product = Expr::main(3) * (Expr::preprocessed_next(0) - 1);
    let sum = Expr::is_first_row() + Expr::public(2);
    let query = Message::query([product, sum], Count::bounded(1, u64::MAX));
    let count = Count::bounded(-Expr::is_last_row(), 5);
    let branch = nothing(count).when(Expr::is_transition());
    let lookups = vec![Lookup::on_bus("keys", [query]), Lookup::exclusive_local([branch])];
    (format!("[{first},{second}]"), lookups)
}

fn lookups_are_read_from_json<F: Field>() {
    let (text, lookups) = json();
    let air = Air::from_json(&text).unwrap();
    assert_eq!(air.lookups(), lookups);
    assert_eq!(air, Air::<F>::new(lookups).unwrap());
    assert!(Air::<F>::from_json("[]").unwrap().is_empty());
    // tables that are longer than a first guess by the length of the text
    let empty = |column: usize| {
        let head = r#"{"kind":"Local","elements":[[],[],[]],"multiplicities":["#;
        let one = r#"{"Leaf":"IsFirstRow"}"#;
        let counts = [one; 3].join(",");
        format!(r#"{head}{counts}],"count_weight":0,"column":{column}}}"#)
    };
    let text = format!("[{}]", (0..100).map(empty).collect::<Vec<_>>().join(","));
    let air = Air::<F>::from_json(&text).unwrap();
    assert_eq!(air.len(), 100);
    let first = || nothing(Count::provided(Expr::is_first_row()));
    assert_eq!(air.lookups()[99], Lookup::local([first(), first(), first()]));
    let name = "n".repeat(5000);
    let text = format!(r#"[{{"kind":{{"Global":"{name}"}},"elements":[],"multiplicities":[],"#)
        + r#""count_weight":0,"column":0,"flags":null}]"#;
    assert_eq!(Air::<F>::from_json(&text).unwrap().lookups(), [Lookup::on_bus(name, [])]);
}

fn constants_are_read_up_to_the_modulus<F: Field>() {
    let constant = |number: u32| {
        let head = r#"[{"kind":"Local","elements":[[]],"multiplicities":[{"Leaf":"#;
        let json = format!(r#"{head}{{"Constant":{number}}}}}],"count_weight":0,"column":0}}]"#);
        Air::<F>::from_json(&json)
    };
    let minus_one = Lookup::local([nothing(Count::provided(-1))]);
    assert_eq!(constant(F::MODULUS - 1), Air::new([minus_one]));
    assert_eq!(constant(F::MODULUS).unwrap_err().code(), Code::BadText);
}

fn other_texts_are_refused<F: Field>() {
    let (text, _) = json::<F>();
    let modulus = format!(r#"{{"Constant":{}}}"#, F::MODULUS);
    for end in 0..text.len() {
        let error = Air::<F>::from_json(&text[..end]).unwrap_err();
        assert_eq!(error.code(), Code::BadText, "cut at {end}");
        assert!(!error.text().is_empty());
    }
    let changes = [
        (r#"{"Constant":1}"#, modulus.as_str(), Code::BadText),
        (r#"{"Constant":1}"#, r#"{"Constant":-1}"#, Code::BadText),
        ("18446744073709551615", "18446744073709551616", Code::BadText),
        (r#""Local""#, r#""Nowhere""#, Code::BadText),
        (r#""column":1"#, r#""column":2"#, Code::MalformedLookup),
        (r#""elements":[[]]"#, r#""elements":[[],[]]"#, Code::MalformedLookup),
        (r#"{"Main":{"offset":0}}"#, r#"{"Main":{"offset":4294967296}}"#, Code::BadTable),
    ];
    for (old, new, code) in changes {
        let changed = text.replacen(old, new, 1);
        assert_ne!(changed, text, "{old} is in the text");
        assert_eq!(Air::<F>::from_json(&changed).unwrap_err().code(), code, "{new}");
    }
    // a row that is neither this one nor the next one can be read, and fits no trace
    let changed = text.replacen(r#"{"Main":{"offset":0}}"#, r#"{"Main":{"offset":2}}"#, 1);
    let traces = Traces::new(&[1; 4], 4).with_preprocessed(&[1], 1).with_public_values(&[1; 3]);
    let challenges = [[Element::new([9, 2, 6, 5]), Element::new([3, 1, 4, 15])]; 2];
    let fits = |text: &str| Air::<F>::from_json(text)?.generate(&traces, &challenges);
    assert!(fits(&text).is_ok());
    assert_eq!(fits(&changed).unwrap_err().code(), Code::DoesNotFit);
    assert_eq!(Air::<F>::from_json("").unwrap_err().code(), Code::BadText);
    assert_eq!(Air::<F>::from_json("[]x").unwrap_err().code(), Code::BadText);
}

over_each_field! {
    lookups_are_read_from_json,
    constants_are_read_up_to_the_modulus,
    other_texts_are_refused,
}
