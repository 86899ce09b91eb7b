//! Random batches.

use crate::airs::Table;
use crate::draws::Draws;
use p3_air::symbolic::{BaseEntry, BaseLeaf, SymbolicExpression, SymbolicVariable};
use p3_air::{Air, BaseAir};
use p3_lookup::{
    Count, InteractionBuilder, InteractionSymbolicBuilder, Kind, LogUpGadget, Lookup, Lookups,
};
use p3_matrix::dense::RowMajorMatrix;
use volgwain_plonky3::{Extension, SharedField};

const MAIN: usize = 5;
const PREPROCESSED: usize = 2;
const PUBLIC: usize = 2;

/// The columns of flags, of which at most one is 1 on each row.
const FLAGS: [usize; 2] = [3, 4];

type Tuple<F> = Vec<SymbolicExpression<F>>;

/// A message: its flag, its count with its weight, and its tuple.
#[derive(Clone)]
struct Sent<F> {
    flag: usize,
    count: SymbolicExpression<F>,
    weight: u32,
    tuple: Tuple<F>,
}

/// What a row of an AIR pushes at once.
#[derive(Clone)]
enum Push<F> {
    Global(String, Sent<F>),
    Local(Vec<Sent<F>>),
    Exclusive(String, Vec<Sent<F>>),
}

/// An AIR that pushes these.
struct Pushes<F>(Vec<Push<F>>);

impl<F: SharedField> BaseAir<F> for Pushes<F> {
    fn width(&self) -> usize {
        MAIN
    }

    fn preprocessed_width(&self) -> usize {
        PREPROCESSED
    }

    fn num_public_values(&self) -> usize {
        PUBLIC
    }
}

impl<F: SharedField> Air<InteractionSymbolicBuilder<F, Extension<F>>> for Pushes<F> {
    fn eval(&self, builder: &mut InteractionSymbolicBuilder<F, Extension<F>>) {
        let counted = |sent: &Sent<F>| Count::bounded(sent.count.clone(), sent.weight);
        for push in &self.0 {
            match push {
                Push::Global(bus, sent) => {
                    builder.push_interaction(bus, sent.tuple.clone(), counted(sent));
                }
                Push::Local(tuples) => builder.push_local_interaction(
                    tuples.iter().map(|sent| (sent.tuple.clone(), counted(sent))),
                ),
                Push::Exclusive(bus, branches) => builder.push_exclusive_interaction(
                    bus,
                    branches
                        .iter()
                        .map(|sent| (main(sent.flag, 0), counted(sent), sent.tuple.clone())),
                ),
            }
        }
    }
}

/// How the messages of a batch are drawn.
#[derive(Clone, Copy)]
struct Kinds {
    /// Whether all messages balance.
    balanced: bool,
    /// Whether some tuples have another width than their bus, and some weights are immense.
    odd: bool,
}

/// The batch of one to three random AIRs, half of the time with a mirror of each, which sends the
/// same messages with their counts negated: so it balances.
pub fn pushed<F: SharedField>(draws: &mut Draws) -> Vec<Table<F>> {
    let kinds = Kinds { balanced: draws.one_in(2), odd: draws.one_in(8) };
    let gadget = LogUpGadget::new();
    let mut tables = Vec::new();
    for _ in 0..=draws.below(3) {
        let pushes = pushes::<F>(draws, kinds);
        let (table, packs) = (cells(draws), !kinds.odd && draws.one_in(3));
        let set = |pushes| {
            let lookups = Lookups::from_air::<Extension<F>, _>(&Pushes(pushes));
            if packs { lookups.pack_same_bus(&gadget, 7) } else { lookups }
        };
        if kinds.balanced {
            let mirror = pushes.iter().filter_map(Push::mirror).collect();
            tables.push(Table { set: Some(set(mirror)), ..table.clone() });
        }
        tables.push(Table { set: Some(set(pushes)), ..table });
    }
    tables
}

/// The batch of one to three AIRs of random records: with any number of tuples on a bus, with flags
/// in a local lookup, and with a weight that no tuple has.
pub fn recorded<F: SharedField>(draws: &mut Draws) -> Vec<Table<F>> {
    (0..=draws.below(3))
        .map(|_| {
            let records = (0..draws.below(6)).map(|column| record(draws, column)).collect();
            Table { records, ..cells(draws) }
        })
        .collect()
}

impl<F: SharedField> Push<F> {
    /// What balances it, or `None` of one that balances by itself.
    fn mirror(&self) -> Option<Self> {
        Some(match self {
            Push::Global(bus, sent) => Push::Global(bus.clone(), sent.mirror()),
            Push::Exclusive(bus, branches) => {
                Push::Exclusive(bus.clone(), branches.iter().map(Sent::mirror).collect())
            }
            Push::Local(_) => return None,
        })
    }
}

impl<F: SharedField> Sent<F> {
    fn mirror(&self) -> Self {
        Sent { count: -self.count.clone(), weight: 0, ..self.clone() }
    }
}

/// The name of a bus, and how wide its tuples are.
fn bus(draws: &mut Draws, odd: bool) -> (String, usize) {
    let index = draws.below(3);
    let name = ["keys", "\u{e9}'): tuple [1", ""][index];
    (name.to_owned(), if odd && draws.one_in(6) { 2 } else { index + 1 })
}

fn sent<F: SharedField>(draws: &mut Draws, width: usize, flag: usize, odd: bool) -> Sent<F> {
    let tuple = (0..width).map(|_| tree(draws, 4)).collect();
    let weight = if odd && draws.one_in(6) { u32::MAX } else { draws.below(4) as u32 };
    Sent { flag, count: tree(draws, 3), weight, tuple }
}

fn pushes<F: SharedField>(draws: &mut Draws, kinds: Kinds) -> Vec<Push<F>> {
    let Kinds { balanced, odd } = kinds;
    let one = |draws: &mut Draws| match draws.below(4) {
        0 => {
            let width = draws.below(3);
            let mut tuples: Vec<_> =
                (0..draws.below(3)).map(|_| sent(draws, width, 0, odd)).collect();
            if balanced {
                tuples.extend(tuples.clone().iter().map(Sent::mirror));
            }
            Push::Local(tuples)
        }
        1 => {
            let (name, width) = bus(draws, odd);
            let branches = FLAGS[..draws.below(3)].iter();
            Push::Exclusive(name, branches.map(|flag| sent(draws, width, *flag, odd)).collect())
        }
        _ => {
            let (name, width) = bus(draws, odd);
            Push::Global(name, sent(draws, width, 0, odd))
        }
    };
    (0..draws.below(7)).map(|_| one(draws)).collect()
}

fn record<F: SharedField>(draws: &mut Draws, column: usize) -> Lookup<F> {
    let (name, width) = bus(draws, false);
    let flags: Option<Vec<_>> =
        draws.one_in(3).then(|| FLAGS[..draws.below(3)].iter().map(|it| main(*it, 0)).collect());
    let tuples = flags.as_ref().map_or_else(|| draws.below(4), Vec::len);
    Lookup {
        kind: if draws.one_in(3) { Kind::Local } else { Kind::Global(name) },
        elements: (0..tuples).map(|_| (0..width).map(|_| tree(draws, 4)).collect()).collect(),
        multiplicities: (0..tuples).map(|_| tree(draws, 3)).collect(),
        count_weight: draws.below(4) as u32,
        column,
        flags,
    }
}

fn main<F: SharedField>(column: usize, offset: usize) -> SymbolicExpression<F> {
    SymbolicVariable::new(BaseEntry::Main { offset }, column).into()
}

fn leaf<F: SharedField>(draws: &mut Draws) -> SymbolicExpression<F> {
    match draws.below(9) {
        0..=2 => main(draws.below(MAIN), draws.below(2)),
        3 => {
            let entry = BaseEntry::Preprocessed { offset: draws.below(2) };
            SymbolicVariable::new(entry, draws.below(PREPROCESSED)).into()
        }
        4 => SymbolicVariable::new(BaseEntry::Public, draws.below(PUBLIC)).into(),
        5 => SymbolicExpression::Leaf(BaseLeaf::IsFirstRow),
        6 => SymbolicExpression::Leaf(BaseLeaf::IsLastRow),
        7 => SymbolicExpression::Leaf(BaseLeaf::IsTransition),
        _ => SymbolicExpression::Leaf(BaseLeaf::Constant(draws.element())),
    }
}

fn tree<F: SharedField>(draws: &mut Draws, layers: usize) -> SymbolicExpression<F> {
    if layers == 0 || draws.one_in(4) {
        return leaf(draws);
    }
    let left = tree(draws, layers - 1);
    match draws.below(4) {
        0 => left + tree(draws, layers - 1),
        1 => left - tree(draws, layers - 1),
        2 => left * tree(draws, layers - 1),
        _ => -left,
    }
}

/// Traces of one to nine rows with random cells. On one of forty the flags are not lawful.
fn cells<F: SharedField>(draws: &mut Draws) -> Table<F> {
    let height = 1 + draws.below(9);
    let lawful = !draws.one_in(40);
    // few values, so that tuples meet
    let few = draws.one_in(2);
    let cell = |draws: &mut Draws| {
        if few { F::from_u32(draws.below(2) as u32) } else { draws.element() }
    };
    let mut main: Vec<F> = (0..height * MAIN).map(|_| cell(draws)).collect();
    for row in main.chunks_mut(MAIN) {
        let set = draws.below(3);
        for (flag, column) in FLAGS.into_iter().enumerate() {
            let lawful_flag = u32::from(set == flag);
            row[column] = F::from_u32(if lawful { lawful_flag } else { draws.below(3) as u32 });
        }
    }
    let preprocessed = (0..height * PREPROCESSED).map(|_| cell(draws)).collect();
    Table {
        set: None,
        records: Vec::new(),
        main: RowMajorMatrix::new(main, MAIN),
        preprocessed: Some(RowMajorMatrix::new(preprocessed, PREPROCESSED)),
        public_values: (0..PUBLIC).map(|_| draws.element()).collect(),
    }
}
