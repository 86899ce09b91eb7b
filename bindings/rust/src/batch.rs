//! Batches of AIRs.

use crate::air::{self, Air};
use crate::debug::{BusGroup, Mismatch};
use crate::element::Element;
use crate::enforced::BatchEnforced;
use crate::error::Error;
use crate::expr::Expr;
use crate::ffi::{self, PlanSizes, Planned, PlannedIds};
use crate::field::Field;
use crate::memory::copies;
use crate::ranges::{SharedWork, TracedAir};
use crate::traces::Traces;
use crate::witness::{AuxiliaryShape, Witness};
use std::iter::{self, zip};

/// AIRs with the heights of their traces, and the plan that they make before any trace is seen.
///
/// Lookups on one bus share an id, also across AIRs, and each local lookup has an id of its own.
/// All tuples under one id have one width, and weights times heights stay below the modulus. Each AIR
/// with lookups has a row.
///
/// The traces that its calls take are one for each AIR, of its height and with all that its lookups
/// read; but [`generate`](Batch::generate), [`debug_check`](Batch::debug_check),
/// [`bus_table`](Batch::bus_table) and [`mismatch`](Batch::mismatch) do not compare heights.
#[derive(Clone, Debug)]
pub struct Batch<F> {
    airs: Vec<Air<F>>,
    heights: Vec<usize>,
    ids: Vec<Vec<usize>>,
    /// Whether the ids were given, so that each call on the whole batch is.
    has_given_ids: bool,
    sizes: PlanSizes,
    threads: Option<usize>,
}

/// At how many pairs of challenges a batch is accepted.
#[derive(Clone, Copy, Debug, PartialEq, Eq, Hash)]
pub struct GridCount {
    /// The exact number of pairs at which some witness is accepted, whoever makes it.
    pub accepted: u128,
    /// What that number is at most, or `None` if all messages balance.
    pub bound: Option<u128>,
}

/// How sound a batch is: all but `linear_bad_betas` betas at most have no more than
/// `accepting_alphas` alphas at which any witness is accepted.
#[derive(Clone, Copy, Debug, PartialEq, Eq, Hash)]
pub struct SoundnessCount {
    /// The number `n` of distinct messages.
    pub messages: u128,
    /// The number `k` of those that do not balance.
    pub unbalanced: u128,
    /// `W * k * (k - 1) / 2`, where `W` is the greatest width of all tuples, at least 1. At most
    /// this many betas give two unbalanced messages the same point.
    pub bad_betas: u128,
    /// `n + k - 1`, or `None` if all messages balance.
    pub accepting_alphas: Option<u128>,
    /// `W * (k - 1)`, or 0 if all messages balance. Never above `bad_betas`.
    pub linear_bad_betas: u128,
}

/// How sound a batch is by the heights of its traces, whatever these hold: with lawful flags and
/// messages that do not balance, all but `bad_betas` betas at most have no more than
/// `accepting_alphas` alphas at which any witness is accepted.
#[derive(Clone, Copy, Debug, PartialEq, Eq, Hash)]
pub struct HeightSoundness {
    /// The most messages `M` that there can be: the height times the messages of a row, over all
    /// AIRs. A row has one message for each lookup with flags, and each that another lookup sends.
    pub most_messages: u128,
    /// `W * (M - 1)`, or 0 if `M` is zero, where `W` is the greatest width of all tuples, at
    /// least 1.
    pub bad_betas: u128,
    /// `2 * M - 1`, or `None` if `M` is zero, where every batch balances.
    pub accepting_alphas: Option<u128>,
}

impl<F: Field> Batch<F> {
    /// The batch of these AIRs, each with the height of its traces.
    ///
    /// Refuses tuples of two widths on one bus or in a local lookup, more ids than the field has
    /// whole numbers, and weights times heights that reach the modulus. Then it refuses the first AIR
    /// that has lookups and the height 0 ([`Code::DoesNotFit`]): over no rows no constraint binds its
    /// terminal.
    ///
    /// [`Code::DoesNotFit`]: crate::Code::DoesNotFit
    pub fn new<'a>(airs: impl IntoIterator<Item = (&'a Air<F>, usize)>) -> Result<Self, Error> {
        let (airs, heights): (Vec<Air<F>>, Vec<usize>) =
            airs.into_iter().map(|(air, height)| (air.clone(), height)).unzip();
        Batch { airs, heights, ..Batch::unplanned() }.plan()
    }

    /// The batch of these AIRs over ids that are given: each with the height of its traces, and an id
    /// for each of its lookups. So a witness of another prover is verified under the ids that it was
    /// made with.
    ///
    /// Lookups on one bus share an id, also across AIRs, and no others do. There are as many ids as
    /// the greatest of them and one. Refuses other ids ([`Code::UnlawfulIds`]), and what
    /// [`new`](Batch::new) does.
    ///
    /// [`prove`](Batch::prove) on one thread and [`grid_count`](Batch::grid_count) make a prefix of 16
    /// bytes for each id up to the greatest, in use or not. With ids near 2^30 these are 16 GB. All
    /// other calls make those of the ids in use alone; so does [`generate`](Batch::generate), AIR by AIR.
    ///
    /// ```
    /// use volgwain::{Air, Batch, Code, Expr, Lookup, Message};
    ///
    /// # fn main() -> Result<(), volgwain::Error> {
    /// let asks = Air::new([Lookup::on_bus("keys", [Message::query([Expr::main(0)], 1)])])?;
    /// let entries = Message::provide([Expr::main(0)], Expr::main(1));
    /// let provides = Air::new([Lookup::on_bus("keys", [entries])])?;
    /// let batch = Batch::with_ids([(&asks, 3, &[7]), (&provides, 2, &[7])])?;
    /// assert_eq!(batch.num_ids(), 8);
    /// let refused = Batch::with_ids([(&asks, 3, &[7]), (&provides, 2, &[6])]).unwrap_err();
    /// assert_eq!(refused.code(), Code::UnlawfulIds);
    /// # Ok(())
    /// # }
    /// ```
    ///
    /// [`Code::UnlawfulIds`]: crate::Code::UnlawfulIds
    pub fn with_ids<'a, I: AsRef<[usize]> + ?Sized + 'a>(
        airs: impl IntoIterator<Item = (&'a Air<F>, usize, &'a I)>,
    ) -> Result<Self, Error> {
        let mut batch = Batch { has_given_ids: true, ..Batch::unplanned() };
        for (air, height, ids) in airs {
            batch.airs.push(air.clone());
            batch.heights.push(height);
            batch.ids.push(ids.as_ref().to_vec());
        }
        // without any ids the library would give its own
        if zip(&batch.airs, &batch.ids).any(|(air, ids)| air.len() != ids.len()) {
            return Err(Error::unlawful_ids());
        }
        batch.plan()
    }

    /// A batch without AIRs, before it is planned.
    fn unplanned() -> Self {
        Batch {
            airs: Vec::new(),
            heights: Vec::new(),
            ids: Vec::new(),
            has_given_ids: false,
            sizes: PlanSizes::default(),
            threads: None,
        }
    }

    /// The same batch with its ids and sizes.
    fn plan(mut self) -> Result<Self, Error> {
        let mut ids = copies(0, self.airs.iter().map(|air| air.len()).sum())?;
        self.sizes = ffi::plan(&self.planned(), &mut ids)?;
        let mut left = ids.into_iter();
        let of_air = |air: &Air<F>| left.by_ref().take(air.len()).collect();
        self.ids = self.airs.iter().map(of_air).collect();
        Ok(self)
    }

    /// The same batch, which is proved, generated and verified by so many threads at most; 0 counts
    /// as 1. Without this they are as many as the machine has processors. A small batch is worked on
    /// by the calling thread alone.
    ///
    /// No witness, verdict or refusal depends on the number of threads, but where memory runs out:
    /// several threads need less of it for a large trace. Where a call on several threads is
    /// refused, the whole of it is made once more on one, which finds out why.
    #[must_use]
    pub fn with_threads(self, threads: usize) -> Self {
        Batch { threads: Some(threads), ..self }
    }

    /// The AIRs.
    pub fn airs(&self) -> &[Air<F>] {
        &self.airs
    }

    /// The height of each AIR's traces.
    pub fn heights(&self) -> &[usize] {
        &self.heights
    }

    /// The id of each AIR's lookups.
    pub fn ids(&self) -> &[Vec<usize>] {
        &self.ids
    }

    /// How many ids there are.
    pub fn num_ids(&self) -> usize {
        self.sizes.num_ids
    }

    /// The greatest width of all tuples, at least 1.
    pub fn max_message_width(&self) -> usize {
        self.sizes.max_message_width
    }

    /// The witness of the batch: its auxiliary traces and terminals. Draw `alpha` and `beta` once
    /// the traces are fixed.
    ///
    /// It satisfies the constraints of all lookups, and where all flags are lawful and no
    /// denominator vanishes no other does. If all messages balance, it is accepted.
    ///
    /// Refuses traces that are not those of the batch, and then the first row and lookup, AIR by
    /// AIR, with a flag that is not 0 or 1, two flags that are set, or a denominator that vanishes.
    pub fn prove(
        &self,
        traces: &[Traces<'_>],
        alpha: Element<F>,
        beta: Element<F>,
    ) -> Result<Witness<F>, Error> {
        let mut witness = Witness::default();
        self.prove_into(traces, alpha, beta, &mut witness)?;
        Ok(witness)
    }

    /// As [`prove`](Batch::prove), in the memory of a witness that is no longer needed; an empty one,
    /// `Witness::default()`, will do to start. If its cells suffice, none are allocated anew, which
    /// takes long for large traces. It keeps its memory after a refusal, and for a smaller batch.
    ///
    /// Where it refuses, that witness is left without parts.
    pub fn prove_into(
        &self,
        traces: &[Traces<'_>],
        alpha: Element<F>,
        beta: Element<F>,
        witness: &mut Witness<F>,
    ) -> Result<(), Error> {
        let shapes = self.shapes(traces);
        let shared = self.shared(traces, alpha, beta);
        witness.refill(&shapes, |cells, terminals| {
            if shared.is_some_and(|work| work.prove(cells, terminals)) {
                return Ok(());
            }
            ffi::prove(&self.planned(), traces, alpha, beta, cells, terminals)
        })
    }

    /// What [`prove`](Batch::prove) makes for the AIR of one index, so that AIRs can be worked on
    /// by many threads. The witness is that of this AIR alone; [`Witness::new`] joins them.
    ///
    /// Refuses an index past the last AIR ([`Code::NoSuchAir`]), traces that its lookups do not
    /// fit or that have no row for them ([`Code::DoesNotFit`]), and then what `prove` refuses. It
    /// does not compare the height of the traces with that of the batch.
    ///
    /// [`Code::NoSuchAir`]: crate::Code::NoSuchAir
    /// [`Code::DoesNotFit`]: crate::Code::DoesNotFit
    pub fn generate(
        &self,
        air: usize,
        traces: &Traces<'_>,
        alpha: Element<F>,
        beta: Element<F>,
    ) -> Result<Witness<F>, Error> {
        let mut witness = Witness::default();
        self.generate_into(air, traces, alpha, beta, &mut witness)?;
        Ok(witness)
    }

    /// As [`generate`](Batch::generate), in the memory of a witness that is no longer needed.
    ///
    /// Where it refuses, that witness is left without parts.
    pub fn generate_into(
        &self,
        air: usize,
        traces: &Traces<'_>,
        alpha: Element<F>,
        beta: Element<F>,
        witness: &mut Witness<F>,
    ) -> Result<(), Error> {
        let planned = self.planned_ids().nth(air).ok_or_else(|| Error::no_such_air(air));
        let shapes: Vec<AuxiliaryShape> =
            self.airs.get(air).map(|air| air.shape(traces)).into_iter().collect();
        let challenges = [alpha, beta];
        witness.refill(&shapes, |cells, terminals| {
            let planned = planned?;
            let traced = iter::once(TracedAir { planned, traces: *traces });
            let shared = SharedWork::of(traced, challenges, self.threads);
            if shared.is_some_and(|work| work.prove(cells, terminals)) {
                return Ok(());
            }
            // an AIR that is there has one shape, so one terminal
            ffi::generate_by_ids(&planned, traces, challenges, cells, &mut terminals[0])
        })
    }

    /// Whether a witness, whoever made it, is accepted: every constraint of every lookup holds on
    /// every row, and the terminals sum to zero.
    ///
    /// Refuses traces that are not those of the batch. Then the answer is the first fault of the
    /// witness: AIR by AIR its shape, or a row on which a constraint fails, and in the end the sum.
    pub fn verify(
        &self,
        traces: &[Traces<'_>],
        alpha: Element<F>,
        beta: Element<F>,
        witness: &Witness<F>,
    ) -> Result<(), Error> {
        if self.shared(traces, alpha, beta).is_some_and(|work| work.verify(witness)) {
            return Ok(());
        }
        let parts: Vec<_> = witness.airs().collect();
        ffi::verify(&self.planned(), traces, alpha, beta, &parts)
    }

    /// Whether all tuples balance, as [`debug_check`](crate::debug_check) says of these AIRs.
    /// Challenges are not needed. It does not compare the heights of the traces with those of the
    /// batch.
    pub fn debug_check(&self, traces: &[Traces<'_>]) -> Result<(), Error> {
        air::debug_check(&self.airs, traces)
    }

    /// What each local lookup and each bus sends and receives, and which tuples do not balance, as
    /// [`bus_table`](crate::bus_table) says of these AIRs.
    pub fn bus_table(&self, traces: &[Traces<'_>], limit: usize) -> Result<Vec<BusGroup>, Error> {
        air::bus_table(&self.airs, traces, limit)
    }

    /// The first mismatch as data, as [`mismatch`](crate::mismatch) says of these AIRs.
    pub fn mismatch(&self, traces: &[Traces<'_>], limit: usize) -> Result<Option<Mismatch>, Error> {
        air::mismatch(&self.airs, traces, limit)
    }

    /// Counts distinct and unbalanced messages, and bounds the challenges at which any witness is
    /// accepted.
    ///
    /// Refuses traces that are not those of the batch, and then a flag that is not 0 or 1, or two
    /// flags that are set.
    pub fn soundness_count(&self, traces: &[Traces<'_>]) -> Result<SoundnessCount, Error> {
        ffi::soundness_count(&self.planned(), traces)
    }

    /// Counts the most messages that there can be over traces of the batch, and bounds the
    /// challenges at which any witness is accepted. The traces themselves are not needed.
    ///
    /// Refuses a number that does not fit `u128` ([`Code::CountOverflow`]).
    ///
    /// [`Code::CountOverflow`]: crate::Code::CountOverflow
    pub fn soundness_of_heights(&self) -> Result<HeightSoundness, Error> {
        ffi::soundness_of_heights(&self.planned())
    }

    /// What the constraints of each AIR are shown to enforce of its lookups, at its height, as
    /// [`Air::enforced`] says of one AIR. There is a list of constraints for each AIR, in their order.
    ///
    /// Where all flags are shown, the bound of [`soundness_of_heights`](Batch::soundness_of_heights) holds with no
    /// condition on flags, of all traces on which the constraints are zero.
    ///
    /// ```
    /// use volgwain::{Air, Batch, Expr, Lookup, Message};
    ///
    /// # fn main() -> Result<(), volgwain::Error> {
    /// let flag = Expr::main(0);
    /// let keys = Message::query([Expr::main(1)], 1).when(&flag);
    /// let asks = Air::new([Lookup::exclusive_on_bus("keys", [keys])])?;
    /// let entries = Message::provide([Expr::main(0)], Expr::main(1));
    /// let provides = Air::new([Lookup::on_bus("keys", [entries])])?;
    /// let batch = Batch::new([(&asks, 4), (&provides, 2)])?;
    ///
    /// let report = batch.enforced(&[vec![&flag * (&flag - 1)], vec![]])?;
    /// assert!(report.all_flags() && report.all_weights());
    /// // the second AIR has no constraints, and how often an entry is used has no bound
    /// assert_eq!(report.airs[1][0].bounds, [None]);
    /// # Ok(())
    /// # }
    /// ```
    ///
    /// Refuses another number of lists ([`Code::BadLength`]), and then the constraints of the first AIR of which
    /// [`Air::enforced`] refuses them, with the AIR.
    ///
    /// [`Code::BadLength`]: crate::Code::BadLength
    pub fn enforced<C: AsRef<[Expr<F>]>>(&self, constraints: &[C]) -> Result<BatchEnforced, Error> {
        if constraints.len() != self.airs.len() {
            return Err(Error::constraint_lists(self.airs.len(), constraints.len()));
        }
        let mut report = Vec::with_capacity(self.airs.len());
        for (index, (air, height)) in zip(&self.airs, &self.heights).enumerate() {
            let enforced = air.enforced(constraints[index].as_ref(), *height);
            report.push(enforced.map_err(|refusal| refusal.of_air(index))?);
        }
        Ok(BatchEnforced { airs: report })
    }

    /// Counts at how many pairs of an alpha and a beta some witness is accepted, whoever makes it.
    ///
    /// Refuses traces that are not those of the batch, a challenge that is listed twice, and then
    /// flags as [`soundness_count`](Batch::soundness_count) does.
    pub fn grid_count(
        &self,
        traces: &[Traces<'_>],
        alphas: &[Element<F>],
        betas: &[Element<F>],
    ) -> Result<GridCount, Error> {
        ffi::grid_count(&self.planned(), traces, alphas, betas)
    }

    /// Its AIRs as calls on the whole batch take them.
    fn planned(&self) -> Vec<Planned<'_, F>> {
        let given: &[Vec<usize>] = if self.has_given_ids { &self.ids } else { &[] };
        let ids = given.iter().map(Vec::as_slice).chain(iter::repeat(&[][..]));
        zip(zip(&self.airs, &self.heights), ids)
            .map(|((air, &height), ids)| Planned { tables: air.tables(), height, ids })
            .collect()
    }

    fn planned_ids(&self) -> impl Iterator<Item = PlannedIds<'_, F>> + Clone {
        let sizes = &self.sizes;
        zip(&self.airs, &self.ids).map(move |(air, ids)| PlannedIds {
            tables: air.tables(),
            ids,
            sizes,
        })
    }

    /// The work on several threads, if these traces are those of the batch and it is worth it. What it
    /// refuses is left to the call on the whole batch.
    pub(crate) fn shared<'a>(
        &'a self,
        traces: &[Traces<'a>],
        alpha: Element<F>,
        beta: Element<F>,
    ) -> Option<SharedWork<'a, F>> {
        if !self.are_heights_of(traces) {
            return None;
        }
        let traced = |(planned, traces): (_, &_)| TracedAir { planned, traces: *traces };
        let airs = zip(self.planned_ids(), traces).map(traced);
        SharedWork::of(airs, [alpha, beta], self.threads)
    }

    /// Whether the heights of the batch are those of these traces.
    fn are_heights_of(&self, traces: &[Traces<'_>]) -> bool {
        let heights = traces.iter().map(|traces| traces.main.height());
        heights.eq(self.heights.iter().copied())
    }

    /// The shapes of the witness over these traces. For traces of another height there is none, and
    /// the call is refused whatever room it has: it gets no room, which otherwise could be immense.
    fn shapes(&self, traces: &[Traces<'_>]) -> Vec<AuxiliaryShape> {
        let fit = self.are_heights_of(traces);
        let shape = |(air, height): (&Air<F>, &usize)| {
            AuxiliaryShape::of(air.tables(), if fit { *height } else { 0 })
        };
        self.airs.iter().zip(&self.heights).map(shape).collect()
    }
}
