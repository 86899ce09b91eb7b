//! The bodies of the fuzz targets, over fixed inputs. The targets are in `fuzz`.

mod bodies;

use bodies::Reached;

/// Lookups in JSON of every kind of expression.
const TEXT: &str = r#"[{"kind":{"Global":"keys"},"elements":[[
{"Add":[{"Leaf":{"Variable":{"entry":{"Main":{"offset":0}},"index":3}}},{"Leaf":{"Constant":7}}]},
{"Sub":[{"Leaf":{"Variable":{"entry":"Public","index":1}}},{"Leaf":"IsFirstRow"}]}]],
"multiplicities":[{"Neg":{"Leaf":"IsTransition"}}],"count_weight":1,"column":0,"flags":null},
{"kind":"Local","elements":[[{"Mul":[{"Leaf":"IsLastRow"},
{"Leaf":{"Variable":{"entry":{"Preprocessed":{"offset":1}},"index":0}}}]}]],
"multiplicities":[{"Leaf":{"Constant":1}}],"count_weight":1,"column":1,
"flags":[{"Leaf":"IsFirstRow"}]}]"#;

/// How many of the inputs came how far.
fn count(reached: impl IntoIterator<Item = Reached>) -> [usize; 4] {
    let mut counts = [0; 4];
    reached.into_iter().for_each(|it| counts[it as usize] += 1);
    counts
}

#[test]
fn texts_that_are_lookups() {
    assert_eq!(bodies::from_json(TEXT.as_bytes()), Reached::Witness);
    assert_eq!(bodies::from_json(b"[]"), Reached::Accepted);
}

#[test]
fn texts_that_are_cut_or_changed() {
    let cut = (0..TEXT.len()).map(|end| bodies::from_json(&TEXT.as_bytes()[..end]));
    assert_eq!(count(cut), [TEXT.len(), 0, 0, 0]);
    let changed =
        (0..TEXT.len()).flat_map(|at| [b'0', b'2', b'"', b'}', 0xff].map(|byte| (at, byte)));
    let changed = changed.map(|(at, byte)| {
        let mut text = TEXT.as_bytes().to_vec();
        text[at] = byte;
        bodies::from_json(&text)
    });
    let [nothing, lookups, witness, _] = count(changed);
    assert!(nothing > TEXT.len() && lookups > 0 && witness > 0);
}

#[test]
fn programs_of_random_bytes() {
    let mut state = 1u64;
    // Marsaglia's xorshift of 64 bits
    let mut random = || {
        state ^= state << 13;
        state ^= state >> 7;
        state ^= state << 17;
        state
    };
    let mut program = || {
        let length = random() % 120;
        (0..length).map(|_| (random() >> 32) as u8).collect::<Vec<u8>>()
    };
    let counts = count((0..2000).map(|_| bodies::lookups(&program())));
    assert!(counts[1..].iter().all(|&count| count > 20), "{counts:?}");
}
