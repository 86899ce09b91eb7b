//! Constraints of AIRs.

use crate::field::{Extension, SharedField};
use crate::lookups::{expression, top};
use p3_air::Air;
use p3_air::symbolic::{AirLayout, SymbolicExpression};
use p3_lookup::{InteractionSymbolicBuilder, Lookup};
use volgwain::generic::Expr;
use volgwain::{MOST_DEPTH, MOST_NODES, Shape};

/// The greatest degree of a constraint that is taken. The selector of transitions has degree 0.
pub const MOST_DEGREE: usize = 4;

/// The most nodes of a constraint that is taken, with shared nodes written out.
pub const MOST_CONSTRAINT_NODES: usize = 4096;

/// Constraints of an AIR, for [`Air::enforced`](volgwain::generic::Air::enforced).
///
/// What is left out is not looked at by it: less is shown without it, and nothing that is wrong. So it is with what the
/// AIR asserts through an extension builder, which is neither taken nor counted.
#[derive(Clone, Debug, PartialEq, Eq)]
#[non_exhaustive]
pub struct Constraints<F> {
    /// Those that are taken, in the order in which the AIR asserts them.
    pub taken: Vec<Expr<F>>,
    /// Those that are left out, in this order.
    pub left_out: Vec<LeftOut>,
}

/// A constraint that is left out.
#[derive(Clone, Copy, Debug, PartialEq, Eq)]
#[non_exhaustive]
pub struct LeftOut {
    /// Its index among all constraints over the base field.
    pub constraint: usize,
    /// Why it is.
    pub reason: Reason,
}

/// Why a constraint is left out.
#[derive(Clone, Copy, Debug, PartialEq, Eq)]
#[non_exhaustive]
pub enum Reason {
    /// Its degree is greater than [`MOST_DEGREE`].
    Degree,
    /// It has more than [`MOST_CONSTRAINT_NODES`] nodes or too many layers, or all constraints together have too many
    /// nodes with it.
    Size,
    /// It has a selector otherwise than as a factor of the whole constraint. Plonky3's provers check constraints where
    /// a selector is another number than 1, so that it would be another constraint here.
    Selector,
    /// It reads what `volgwain` has no word for, such as a periodic column, or a row that is neither the current one nor
    /// the next.
    Unknown,
}

/// The constraints that an AIR asserts over the base field, as `p3-lookup`'s symbolic builder records them: those of
/// degree at most [`MOST_DEGREE`] and of bounded size, whose selectors are factors of the whole. All others are told.
///
/// Constraints that are asserted through an extension builder are not seen. Flags, tuples and counts of lookups may
/// have selectors as well: [`selectors_in`] tells where.
///
/// ```
/// use p3_air::{Air, AirBuilder, BaseAir, WindowAccess};
/// use p3_baby_bear::BabyBear;
/// use p3_field::{Field, PrimeCharacteristicRing};
/// use volgwain::Expr;
/// use volgwain_plonky3::constraints_of;
///
/// /// Column 0 is 0 or 1, and each row but the last one counts it in column 1.
/// struct Counted;
///
/// impl<F: Field> BaseAir<F> for Counted {
///     fn width(&self) -> usize {
///         2
///     }
/// }
///
/// impl<AB: AirBuilder<F: Field>> Air<AB> for Counted {
///     fn eval(&self, builder: &mut AB) {
///         let (row, next) = (builder.main().current_slice().to_vec(), builder.main().next_slice().to_vec());
///         builder.assert_zero(row[0].into() * (row[0].into() - AB::Expr::ONE));
///         builder.when_transition().assert_zero(next[1].into() - row[1].into() - row[0].into());
///         // the first selector is added here, and so this constraint is told and not taken
///         builder.assert_zero(row[1].into() * (row[0].into() - builder.is_first_row()));
///     }
/// }
///
/// let constraints = constraints_of::<BabyBear, _>(&Counted);
/// let (flag, count) = (Expr::main(0), Expr::main(1));
/// let step = Expr::main_next(1) - count - &flag;
/// assert_eq!(constraints.taken, [&flag * (&flag - 1), Expr::is_transition() * step]);
/// assert_eq!(constraints.left_out.len(), 1);
/// ```
pub fn constraints_of<F, A>(air: &A) -> Constraints<F::Ours>
where
    F: SharedField,
    A: Air<InteractionSymbolicBuilder<F, Extension<F>>>,
{
    let builder = InteractionSymbolicBuilder::from_air(air, AirLayout::from_air(air));
    let (mut taken, mut left_out, mut nodes) = (Vec::new(), Vec::new(), 0);
    for (constraint, asserted) in builder.base_constraints().iter().enumerate() {
        match take(asserted, MOST_NODES - nodes) {
            Ok((expression, count)) => {
                taken.push(expression);
                nodes += count;
            }
            Err(reason) => left_out.push(LeftOut { constraint, reason }),
        }
    }
    Constraints { taken, left_out }
}

/// The lookups that have a selector in a flag, a tuple or a multiplicity, by their indices.
///
/// `volgwain` takes selectors for 0 and 1, as `p3_lookup`'s debug check does. Plonky3's provers check the constraints of
/// a lookup where a selector is another number than 1: there such a lookup sends another tuple or another count. Nothing
/// that is said of it here is said of that prover.
pub fn selectors_in<F: SharedField>(lookups: &[Lookup<F>]) -> Vec<usize> {
    let has = |lookup: &Lookup<F>| {
        let flags = lookup.flags.iter().flatten();
        let own = lookup.elements.iter().flatten().chain(&lookup.multiplicities).chain(flags);
        own.into_iter().any(has_selector)
    };
    (0..lookups.len()).filter(|index| has(&lookups[*index])).collect()
}

/// A constraint with the number of its nodes, if it is taken and there is room for so many nodes.
fn take<F: SharedField>(
    asserted: &SymbolicExpression<F>,
    room: usize,
) -> Result<(Expr<F::Ours>, usize), Reason> {
    let most = room.min(MOST_CONSTRAINT_NODES);
    let nodes = written_out(asserted, most).ok_or(Reason::Size)?;
    if asserted.degree_multiple_with_transition(0) > MOST_DEGREE {
        return Err(Reason::Degree);
    }
    if nodes.iter().any(|node| !is_known(node)) {
        return Err(Reason::Unknown);
    }
    if factors(asserted).into_iter().any(|factor| !is_selector(factor) && has_selector(factor)) {
        return Err(Reason::Selector);
    }
    Ok((expression(asserted).ok_or(Reason::Unknown)?, nodes.len()))
}

/// The operands of what stands at the top, none of a leaf.
fn operands<F: SharedField>(node: &SymbolicExpression<F>) -> Vec<&SymbolicExpression<F>> {
    match top(node) {
        Some(Shape::Add(left, right) | Shape::Sub(left, right) | Shape::Mul(left, right)) => {
            vec![left, right]
        }
        Some(Shape::Neg(operand)) => vec![operand],
        _ => Vec::new(),
    }
}

/// The nodes of an expression with shared ones written out, and `None` if these are more than `most`, or it has too many
/// layers.
fn written_out<F: SharedField>(
    root: &SymbolicExpression<F>,
    most: usize,
) -> Option<Vec<&SymbolicExpression<F>>> {
    let (mut left, mut nodes) = (vec![(root, 1)], Vec::new());
    while let Some((node, layer)) = left.pop() {
        nodes.push(node);
        if nodes.len() > most || layer > MOST_DEPTH {
            return None;
        }
        left.extend(operands(node).into_iter().map(|operand| (operand, layer + 1)));
    }
    Some(nodes)
}

/// Whether `volgwain` has a word for what stands at the top.
fn is_known<F: SharedField>(node: &SymbolicExpression<F>) -> bool {
    match top(node) {
        Some(Shape::Main { offset, .. } | Shape::Preprocessed { offset, .. }) => offset <= 1,
        shape => shape.is_some(),
    }
}

/// The factors of an expression, but for signs.
fn factors<F: SharedField>(root: &SymbolicExpression<F>) -> Vec<&SymbolicExpression<F>> {
    let (mut left, mut factors) = (vec![root], Vec::new());
    while let Some(node) = left.pop() {
        match top(node) {
            Some(Shape::Mul(..) | Shape::Neg(..)) => left.extend(operands(node)),
            _ => factors.push(node),
        }
    }
    factors
}

fn is_selector<F: SharedField>(node: &SymbolicExpression<F>) -> bool {
    matches!(top(node), Some(Shape::IsFirstRow | Shape::IsLastRow | Shape::IsTransition))
}

/// Whether there is a selector in an expression. One that is too large to be written out has one, as far as is known.
fn has_selector<F: SharedField>(root: &SymbolicExpression<F>) -> bool {
    let (mut left, mut count) = (vec![root], 0);
    while let Some(node) = left.pop() {
        count += 1;
        if count > MOST_NODES || is_selector(node) {
            return true;
        }
        left.extend(operands(node));
    }
    false
}
