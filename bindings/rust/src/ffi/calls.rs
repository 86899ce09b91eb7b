//! A safe function for each call of the library. The one unsafe block of each meets what the header
//! asks for, as the module above says.

use super::abi;
use super::declared::{
    self, Bound, Counts, Enforced, Fit, Grid, HeightCounts, PlanSizes, Refusal, Rows, TableSizes,
    Terminal, Wide,
};
use crate::batch::{GridCount, HeightSoundness, SoundnessCount};
use crate::element::Element;
use crate::error::{Error, Part};
use crate::expr::Expr;
use crate::field::Field;
use crate::memory::copies;
use crate::tables::{Room, Tables, with_constraints};
use crate::traces::{Trace, Traces};
use crate::witness::AirWitness;
use std::ffi::c_char;

/// How many bytes of a text are taken at first.
const TEXT_SIZE: usize = 256;

/// How many numbers of what the debug check finds are taken at first.
const NUMBERS: usize = 256;

/// An AIR of a batch: its lookups, the height of its traces, and the ids of its lookups, none where
/// the plan gives them.
#[derive(Clone, Copy)]
pub(crate) struct Planned<'a, F> {
    pub(crate) tables: &'a Tables<F>,
    pub(crate) height: usize,
    pub(crate) ids: &'a [usize],
}

/// Generates the auxiliary trace and the terminal of one AIR.
pub(crate) fn generate<F: Field>(
    tables: &Tables<F>,
    traces: &Traces<'_>,
    challenges: &[[Element<F>; 2]],
    auxiliary: &mut [Element<F>],
    terminal: &mut Terminal<F>,
) -> Result<(), Error> {
    let (tables, traces) = (raw_tables(tables), raw_traces(traces));
    let challenges = challenges.as_flattened();
    answer(|refusal, text, size| {
        // SAFETY: `tables`, `traces` and `challenges` are borrowed for the whole call, and
        // `auxiliary` and `terminal` as mutable; each length is that of its slice.
        unsafe {
            (F::CALLS.generate)(
                &tables,
                &traces,
                challenges.as_ptr(),
                challenges.len(),
                auxiliary.as_mut_ptr(),
                auxiliary.len(),
                terminal,
                refusal,
                text,
                size,
            )
        }
    })
}

/// Whether what a witness has for one AIR satisfies every constraint, under challenges for each lookup.
pub(crate) fn verify_air<F: Field>(
    tables: &Tables<F>,
    traces: &Traces<'_>,
    challenges: &[[Element<F>; 2]],
    witness: &AirWitness<'_, F>,
) -> Result<(), Error> {
    let (tables, traces, witness) = (raw_tables(tables), raw_traces(traces), raw_witness(witness));
    let challenges = challenges.as_flattened();
    answer(|refusal, text, size| {
        // SAFETY: `tables`, `traces`, `challenges` and what `witness` points to are borrowed for the
        // whole call; each length is that of its slice. It writes the refusal and its text alone.
        unsafe {
            (F::CALLS.verify_air)(
                &tables,
                &traces,
                challenges.as_ptr(),
                challenges.len(),
                &witness,
                refusal,
                text,
                size,
            )
        }
    })
}

/// Says why lookups do not fit traces.
pub(crate) fn fit_fault<F: Field>(tables: &Tables<F>, traces: &Traces<'_>) -> Result<Fit, Error> {
    let (tables, traces) = (raw_tables(tables), raw_traces(traces));
    let mut fit = Fit::default();
    answer(|refusal, text, size| {
        // SAFETY: `tables` and `traces` are borrowed for the whole call, and `fit` as mutable.
        unsafe { (F::CALLS.fit_fault)(&tables, &traces, &mut fit, refusal, text, size) }
    })?;
    Ok(fit)
}

/// Gives the degree of each lookup's constraint, if the transition selector has this one.
pub(crate) fn degrees<F: Field>(
    tables: &Tables<F>,
    transition_degree: usize,
    degrees: &mut [usize],
) -> Result<(), Error> {
    let tables = raw_tables(tables);
    answer(|refusal, text, size| {
        // SAFETY: `tables` is borrowed for the whole call, and `degrees`, whose length is given, as
        // mutable.
        unsafe {
            (F::CALLS.degrees)(
                &tables,
                transition_degree,
                degrees.as_mut_ptr(),
                degrees.len(),
                refusal,
                text,
                size,
            )
        }
    })
}

/// Says what constraints are shown to enforce of lookups, on rows of traces of this height: of each lookup,
/// and the bounds of all multiplicities, lookup by lookup.
pub(crate) fn enforced<F: Field>(
    tables: &Tables<F>,
    constraints: &[Expr<F>],
    height: usize,
) -> Result<(Vec<Enforced>, Vec<Bound>), Error> {
    let (nodes, span) = with_constraints(&tables.nodes, constraints)?;
    let raw =
        declared::Tables { nodes: nodes.as_ptr(), nodes_length: nodes.len(), ..raw_tables(tables) };
    let mut shown = copies(Enforced::default(), tables.records.len())?;
    let multiplicities = tables.records.iter().map(|record| record.tuples.len()).sum();
    let mut bounds = copies(Bound::default(), multiplicities)?;
    answer(|refusal, text, size| {
        // SAFETY: `tables`, to which `raw` points, `nodes` and the range are borrowed for the whole call,
        // and `shown` and `bounds` as mutable; each length is that of its slice, and there is a byte of
        // `queries` for each range of `tuples`.
        unsafe {
            (F::CALLS.enforced)(
                &raw,
                &span,
                height,
                tables.queries.as_ptr(),
                tables.queries.len(),
                shown.as_mut_ptr(),
                shown.len(),
                bounds.as_mut_ptr(),
                bounds.len(),
                refusal,
                text,
                size,
            )
        }
    })?;
    Ok((shown, bounds))
}

/// Whether constraints are zero on each row of traces.
pub(crate) fn check_constraints<F: Field>(
    constraints: &[Expr<F>],
    traces: &Traces<'_>,
) -> Result<(), Error> {
    let (nodes, span) = with_constraints(&[], constraints)?;
    let tables = Tables::<F>::default();
    let raw = declared::Tables {
        nodes: nodes.as_ptr(),
        nodes_length: nodes.len(),
        ..raw_tables(&tables)
    };
    let traces = raw_traces(traces);
    answer(|refusal, text, size| {
        // SAFETY: `nodes`, the range, the empty tables and `traces` are borrowed for the whole call; each
        // length is that of its slice. It writes the refusal and its text alone.
        unsafe { (F::CALLS.check_constraints)(&raw, &span, &traces, refusal, text, size) }
    })
}

/// Packs the lookups of an AIR.
pub(crate) fn pack<F: Field>(tables: &Tables<F>, max_degree: usize) -> Result<Tables<F>, Error> {
    let raw = raw_tables(tables);
    written(Room::of(tables), |out, sizes, refusal, text, size| {
        // SAFETY: `tables`, to which `raw` points, is borrowed for the whole call, and `out` and
        // `sizes` as mutable; each length is that of its table.
        unsafe {
            (F::CALLS.pack)(
                &raw,
                max_degree,
                out.nodes.as_mut_ptr(),
                out.nodes.len(),
                out.tuples.as_mut_ptr(),
                out.tuples.len(),
                out.names.as_mut_ptr(),
                out.names.len(),
                out.records.as_mut_ptr(),
                out.records.len(),
                sizes,
                refusal,
                text,
                size,
            )
        }
    })
}

/// Reads the lookups of an AIR from JSON.
pub(crate) fn read_json<F: Field>(json: &str) -> Result<Tables<F>, Error> {
    written(Room::of_json(json), |out, sizes, refusal, text, size| {
        // SAFETY: `json` is borrowed for the whole call, and `out` and `sizes` as mutable; each
        // length is that of its table, and that of `json` in bytes.
        unsafe {
            (F::CALLS.read_json)(
                json.as_ptr().cast::<c_char>(),
                json.len(),
                out.nodes.as_mut_ptr(),
                out.nodes.len(),
                out.tuples.as_mut_ptr(),
                out.tuples.len(),
                out.names.as_mut_ptr(),
                out.names.len(),
                out.records.as_mut_ptr(),
                out.records.len(),
                sizes,
                refusal,
                text,
                size,
            )
        }
    })
}

/// Gives the id of each lookup, AIR by AIR, and the sizes of the plan.
pub(crate) fn plan<F: Field>(
    airs: &[Planned<'_, F>],
    ids: &mut [usize],
) -> Result<PlanSizes, Error> {
    let airs = raw_airs(airs);
    let mut sizes = PlanSizes::default();
    answer(|refusal, text, size| {
        // SAFETY: the tables to which `airs` points are borrowed for the whole call, and `ids` and
        // `sizes` as mutable; each length is that of its slice.
        unsafe {
            (F::CALLS.plan)(
                airs.as_ptr(),
                airs.len(),
                ids.as_mut_ptr(),
                ids.len(),
                &mut sizes,
                refusal,
                text,
                size,
            )
        }
    })?;
    Ok(sizes)
}

/// An AIR of a batch with what the plan says of it: the ids of its lookups, and the sizes.
#[derive(Clone, Copy)]
pub(crate) struct PlannedIds<'a, F> {
    pub(crate) tables: &'a Tables<F>,
    pub(crate) ids: &'a [usize],
    pub(crate) sizes: &'a PlanSizes,
}

/// Generates the auxiliary trace and the terminal of one AIR of a planned batch.
pub(crate) fn generate_by_ids<F: Field>(
    planned: &PlannedIds<'_, F>,
    traces: &Traces<'_>,
    [alpha, beta]: [Element<F>; 2],
    auxiliary: &mut [Element<F>],
    terminal: &mut Terminal<F>,
) -> Result<(), Error> {
    let PlannedIds { tables, ids, sizes } = planned;
    let (tables, traces) = (raw_tables(tables), raw_traces(traces));
    answer(|refusal, text, size| {
        // SAFETY: `tables`, `traces`, `ids`, the sizes, alpha and beta are borrowed for the whole
        // call, and `auxiliary` and `terminal` as mutable; each length is that of its slice.
        unsafe {
            (F::CALLS.generate_by_ids)(
                &tables,
                &traces,
                ids.as_ptr(),
                ids.len(),
                *sizes,
                &alpha,
                &beta,
                auxiliary.as_mut_ptr(),
                auxiliary.len(),
                terminal,
                refusal,
                text,
                size,
            )
        }
    })
}

/// Makes the witness of a batch.
pub(crate) fn prove<F: Field>(
    airs: &[Planned<'_, F>],
    traces: &[Traces<'_>],
    alpha: Element<F>,
    beta: Element<F>,
    auxiliary: &mut [Element<F>],
    terminals: &mut [Terminal<F>],
) -> Result<(), Error> {
    let (airs, traces) = (raw_airs(airs), all_raw_traces(traces));
    answer(|refusal, text, size| {
        // SAFETY: what `airs` and `traces` point to, alpha and beta are borrowed for the whole
        // call, and `auxiliary` and `terminals` as mutable; each length is that of its slice.
        unsafe {
            (F::CALLS.prove)(
                airs.as_ptr(),
                airs.len(),
                traces.as_ptr(),
                traces.len(),
                &alpha,
                &beta,
                auxiliary.as_mut_ptr(),
                auxiliary.len(),
                terminals.as_mut_ptr(),
                terminals.len(),
                refusal,
                text,
                size,
            )
        }
    })
}

/// Whether a witness is accepted.
pub(crate) fn verify<F: Field>(
    airs: &[Planned<'_, F>],
    traces: &[Traces<'_>],
    alpha: Element<F>,
    beta: Element<F>,
    witness: &[AirWitness<'_, F>],
) -> Result<(), Error> {
    let (airs, traces) = (raw_airs(airs), all_raw_traces(traces));
    let witness: Vec<declared::AirWitness<F>> = witness.iter().map(raw_witness).collect();
    answer(|refusal, text, size| {
        // SAFETY: what `airs`, `traces` and `witness` point to, alpha and beta are borrowed for the
        // whole call; each length is that of its slice. It writes the refusal and its text alone.
        unsafe {
            (F::CALLS.verify)(
                airs.as_ptr(),
                airs.len(),
                traces.as_ptr(),
                traces.len(),
                &alpha,
                &beta,
                witness.as_ptr(),
                witness.len(),
                refusal,
                text,
                size,
            )
        }
    })
}

/// Counts distinct and unbalanced messages, and bounds the challenges that accept.
pub(crate) fn soundness_count<F: Field>(
    airs: &[Planned<'_, F>],
    traces: &[Traces<'_>],
) -> Result<SoundnessCount, Error> {
    let (airs, traces) = (raw_airs(airs), all_raw_traces(traces));
    let mut counts = Counts::default();
    answer(|refusal, text, size| {
        // SAFETY: what `airs` and `traces` point to is borrowed for the whole call, and `counts` as
        // mutable; each length is that of its slice.
        unsafe {
            (F::CALLS.soundness_count)(
                airs.as_ptr(),
                airs.len(),
                traces.as_ptr(),
                traces.len(),
                &mut counts,
                refusal,
                text,
                size,
            )
        }
    })?;
    Ok(SoundnessCount {
        messages: number(counts.messages),
        unbalanced: number(counts.unbalanced),
        bad_betas: number(counts.bad_betas),
        accepting_alphas: (counts.bounded != 0).then(|| number(counts.accepting_alphas)),
        linear_bad_betas: number(counts.linear_bad_betas),
    })
}

/// Counts the most messages, and bounds the challenges that accept, by heights alone.
pub(crate) fn soundness_of_heights<F: Field>(
    airs: &[Planned<'_, F>],
) -> Result<HeightSoundness, Error> {
    let airs = raw_airs(airs);
    let mut counts = HeightCounts::default();
    answer(|refusal, text, size| {
        // SAFETY: the tables to which `airs` points are borrowed for the whole call, and `counts`
        // as mutable; the length is that of the slice.
        unsafe {
            (F::CALLS.soundness_of_heights)(
                airs.as_ptr(),
                airs.len(),
                &mut counts,
                refusal,
                text,
                size,
            )
        }
    })?;
    Ok(HeightSoundness {
        most_messages: number(counts.most_messages),
        bad_betas: number(counts.bad_betas),
        accepting_alphas: (counts.bounded != 0).then(|| number(counts.accepting_alphas)),
    })
}

/// Counts at how many pairs of challenges some witness is accepted.
pub(crate) fn grid_count<F: Field>(
    airs: &[Planned<'_, F>],
    traces: &[Traces<'_>],
    alphas: &[Element<F>],
    betas: &[Element<F>],
) -> Result<GridCount, Error> {
    let (airs, traces) = (raw_airs(airs), all_raw_traces(traces));
    let mut grid = Grid::default();
    answer(|refusal, text, size| {
        // SAFETY: what `airs` and `traces` point to, `alphas` and `betas` are borrowed for the
        // whole call, and `grid` as mutable; each length is that of its slice.
        unsafe {
            (F::CALLS.grid_count)(
                airs.as_ptr(),
                airs.len(),
                traces.as_ptr(),
                traces.len(),
                alphas.as_ptr(),
                alphas.len(),
                betas.as_ptr(),
                betas.len(),
                &mut grid,
                refusal,
                text,
                size,
            )
        }
    })?;
    let bound = (grid.bounded != 0).then(|| number(grid.bound));
    Ok(GridCount { accepted: number(grid.accepted), bound })
}

/// Whether all tuples balance.
pub(crate) fn debug_check<F: Field>(
    airs: &[&Tables<F>],
    traces: &[Traces<'_>],
) -> Result<(), Error> {
    let airs: Vec<declared::Tables> = airs.iter().copied().map(raw_tables).collect();
    let traces = all_raw_traces(traces);
    answer(|refusal, text, size| {
        // SAFETY: what `airs` and `traces` point to is borrowed for the whole call; each length is
        // that of its slice. It writes the refusal and its text alone.
        unsafe {
            (F::CALLS.debug_check)(
                airs.as_ptr(),
                airs.len(),
                traces.as_ptr(),
                traces.len(),
                refusal,
                text,
                size,
            )
        }
    })
}

/// The numbers of the table of all groups.
pub(crate) fn bus_table<F: Field>(
    airs: &[&Tables<F>],
    traces: &[Traces<'_>],
    limit: usize,
) -> Result<Vec<usize>, Error> {
    let airs: Vec<declared::Tables> = airs.iter().copied().map(raw_tables).collect();
    let traces = all_raw_traces(traces);
    numbers_of(|numbers, written, refusal, text, size| {
        // SAFETY: what `airs` and `traces` point to is borrowed for the whole call, and `numbers` and
        // `written` as mutable; each length is that of its slice.
        unsafe {
            (F::CALLS.bus_table)(
                airs.as_ptr(),
                airs.len(),
                traces.as_ptr(),
                traces.len(),
                limit,
                numbers.as_mut_ptr(),
                numbers.len(),
                written,
                refusal,
                text,
                size,
            )
        }
    })
}

/// The numbers of the first mismatch.
pub(crate) fn mismatch<F: Field>(
    airs: &[&Tables<F>],
    traces: &[Traces<'_>],
    limit: usize,
) -> Result<Vec<usize>, Error> {
    let airs: Vec<declared::Tables> = airs.iter().copied().map(raw_tables).collect();
    let traces = all_raw_traces(traces);
    numbers_of(|numbers, written, refusal, text, size| {
        // SAFETY: what `airs` and `traces` point to is borrowed for the whole call, and `numbers` and
        // `written` as mutable; each length is that of its slice.
        unsafe {
            (F::CALLS.mismatch)(
                airs.as_ptr(),
                airs.len(),
                traces.as_ptr(),
                traces.len(),
                limit,
                numbers.as_mut_ptr(),
                numbers.len(),
                written,
                refusal,
                text,
                size,
            )
        }
    })
}

/// Generates some rows of the auxiliary trace of one AIR of a planned batch, with accumulators that start
/// at zero, and the sum of the fractions on them. The traces have the rows around these alone.
pub(crate) fn generate_rows<F: Field>(
    planned: &PlannedIds<'_, F>,
    around: &Traces<'_>,
    rows: &Rows,
    [alpha, beta]: [Element<F>; 2],
    auxiliary: &mut [Element<F>],
    sum: &mut Element<F>,
) -> Result<(), Error> {
    let PlannedIds { tables, ids, sizes } = planned;
    let (tables, around) = (raw_tables(tables), raw_traces(around));
    answer(|refusal, text, size| {
        // SAFETY: `tables`, `around`, the rows, `ids`, the sizes, alpha and beta are borrowed for
        // the whole call, and `auxiliary` and `sum` as mutable; each length is that of its slice.
        unsafe {
            (F::CALLS.generate_rows)(
                &tables,
                &around,
                rows,
                ids.as_ptr(),
                ids.len(),
                *sizes,
                &alpha,
                &beta,
                auxiliary.as_mut_ptr(),
                auxiliary.len(),
                sum,
                refusal,
                text,
                size,
            )
        }
    })
}

/// Adds an element to the first cell of each row.
pub(crate) fn shift<F: Field>(
    cells: &mut [Element<F>],
    width: usize,
    offset: &Element<F>,
) -> Result<(), Error> {
    answer(|refusal, text, size| {
        // SAFETY: `offset` is borrowed for the whole call, and `cells`, whose length is given, as
        // mutable.
        unsafe {
            (F::CALLS.shift)(cells.as_mut_ptr(), cells.len(), width, offset, refusal, text, size)
        }
    })
}

/// Whether every constraint of one AIR of a planned batch holds on some rows. The traces, and the auxiliary
/// trace of the witness, have the rows around these alone.
pub(crate) fn verify_rows<F: Field>(
    planned: &PlannedIds<'_, F>,
    around: &Traces<'_>,
    rows: &Rows,
    [alpha, beta]: [Element<F>; 2],
    witness: &AirWitness<'_, F>,
) -> Result<(), Error> {
    let PlannedIds { tables, ids, sizes } = planned;
    let (tables, around, witness) = (raw_tables(tables), raw_traces(around), raw_witness(witness));
    answer(|refusal, text, size| {
        // SAFETY: `tables`, `around`, the rows, `ids`, the sizes, alpha, beta and what `witness`
        // points to are borrowed for the whole call; each length is that of its slice. It writes the
        // refusal and its text alone.
        unsafe {
            (F::CALLS.verify_rows)(
                &tables,
                &around,
                rows,
                ids.as_ptr(),
                ids.len(),
                *sizes,
                &alpha,
                &beta,
                &witness,
                refusal,
                text,
                size,
            )
        }
    })
}

/// Makes a call, which gets a refusal and room for its text to be written, and returns a code. Both
/// are initialised, and borrowed by the call alone.
///
/// A refused call changes nothing else. So where the text is longer than the room, the call is made
/// again.
fn answer(mut call: impl FnMut(&mut Refusal, *mut c_char, usize) -> u32) -> Result<(), Error> {
    abi::ask();
    let mut refusal = Refusal::default();
    let mut text = vec![0u8; TEXT_SIZE];
    let mut code = call(&mut refusal, text.as_mut_ptr().cast(), text.len());
    if code != 0 && refusal.text_length > text.len() {
        text = copies(0, refusal.text_length)?;
        code = call(&mut refusal, text.as_mut_ptr().cast(), text.len());
    }
    if code == 0 {
        return Ok(());
    }
    text.truncate(refusal.text_length);
    Err(Error::refused(&refusal, text))
}

/// Makes a call that writes numbers, into some room. If that is too short, it gets the length that the
/// call asks for, and the call is made again.
fn numbers_of(
    mut call: impl FnMut(&mut [usize], &mut usize, &mut Refusal, *mut c_char, usize) -> u32,
) -> Result<Vec<usize>, Error> {
    let mut room = NUMBERS;
    loop {
        let mut numbers = copies(0, room)?;
        let mut written = 0;
        let answer =
            answer(|refusal, text, size| call(&mut numbers, &mut written, refusal, text, size));
        match answer {
            Ok(()) => {
                numbers.truncate(written);
                return Ok(numbers);
            }
            Err(refusal) => match refusal.expected() {
                Some(length) if refusal.part() == Some(Part::Numbers) && length > room => {
                    room = length;
                }
                _ => return Err(refusal),
            },
        }
    }
}

/// Makes a call that writes tables, into so much room. Where a table is too short, it gets the
/// length that the call asks for, and the call is made again.
fn written<F: Field>(
    mut room: Room,
    mut call: impl FnMut(&mut Tables<F>, &mut TableSizes, &mut Refusal, *mut c_char, usize) -> u32,
) -> Result<Tables<F>, Error> {
    loop {
        let mut tables = Tables::empty(room)?;
        let mut sizes = TableSizes::default();
        let answer =
            answer(|refusal, text, size| call(&mut tables, &mut sizes, refusal, text, size));
        match answer {
            Ok(()) => {
                tables.nodes.truncate(sizes.nodes);
                tables.tuples.truncate(sizes.tuples);
                tables.names.truncate(sizes.names);
                tables.records.truncate(sizes.records);
                tables.guess_queries()?;
                return Ok(tables);
            }
            Err(error) => room = room.grown(error)?,
        }
    }
}

fn raw_tables<F: Field>(tables: &Tables<F>) -> declared::Tables {
    declared::Tables {
        nodes: tables.nodes.as_ptr(),
        nodes_length: tables.nodes.len(),
        tuples: tables.tuples.as_ptr(),
        tuples_length: tables.tuples.len(),
        names: tables.names.as_ptr(),
        names_length: tables.names.len(),
        records: tables.records.as_ptr(),
        records_length: tables.records.len(),
    }
}

fn raw_airs<F: Field>(airs: &[Planned<'_, F>]) -> Vec<declared::Air> {
    let raw = |air: &Planned<'_, F>| declared::Air {
        tables: raw_tables(air.tables),
        height: air.height,
        ids: air.ids.as_ptr(),
        ids_length: air.ids.len(),
    };
    airs.iter().map(raw).collect()
}

fn raw_traces(traces: &Traces<'_>) -> declared::Traces {
    let preprocessed = traces.preprocessed.unwrap_or(Trace::new(&[], 0));
    declared::Traces {
        main: traces.main.cells.as_ptr(),
        main_length: traces.main.cells.len(),
        main_width: traces.main.width,
        preprocessed: preprocessed.cells.as_ptr(),
        preprocessed_length: preprocessed.cells.len(),
        preprocessed_width: preprocessed.width,
        public_values: traces.public_values.as_ptr(),
        public_values_length: traces.public_values.len(),
    }
}

fn all_raw_traces(traces: &[Traces<'_>]) -> Vec<declared::Traces> {
    traces.iter().map(raw_traces).collect()
}

fn raw_witness<F: Field>(air: &AirWitness<'_, F>) -> declared::AirWitness<F> {
    declared::AirWitness {
        auxiliary: air.auxiliary.as_ptr(),
        auxiliary_length: air.auxiliary.len(),
        width: air.width,
        terminal: Terminal::of(air.terminal),
    }
}

fn number(wide: Wide) -> u128 {
    u128::from(wide.high) << 64 | u128::from(wide.low)
}

impl<F: Field> Terminal<F> {
    pub(crate) fn of(terminal: Option<Element<F>>) -> Self {
        Terminal { present: u32::from(terminal.is_some()), value: terminal.unwrap_or_default() }
    }

    /// The terminal, if it is present.
    pub(crate) fn element(self) -> Option<Element<F>> {
        (self.present != 0).then_some(self.value)
    }
}
