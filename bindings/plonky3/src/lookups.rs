//! Lookups.

use crate::error::Error;
use crate::field::SharedField;
use p3_air::symbolic::{BaseEntry, BaseLeaf, SymbolicExpression};
use p3_lookup::Kind;
use volgwain::Shape;
use volgwain::generic::{Air, Expr, Lookup};

/// The lookups of one AIR, with the same buses, tuples, multiplicities, flags and weights.
///
/// A set `p3_lookup::Lookups` can be given as `&lookups`. Expressions are the same node by node, with
/// shared nodes written out; at most 1,024 layers and, in a list of expressions, 1,048,576 nodes.
///
/// All tuples of a lookup count as queries, or none if its weight is 0: Plonky3's lookups do not say which are.
///
/// Refuses the first lookup whose column is not its place in the list, or that reads what `volgwain`
/// has no word for, and then what [`Air::new`] refuses. Lists of different lengths are refused by the
/// calls on the AIR.
pub fn from_p3<F: SharedField>(lookups: &[p3_lookup::Lookup<F>]) -> Result<Air<F::Ours>, Error> {
    let mut records = Vec::with_capacity(lookups.len());
    for (index, lookup) in lookups.iter().enumerate() {
        if lookup.column != index {
            return Err(Error::Column { lookup: index, column: lookup.column });
        }
        records.push(record(lookup).ok_or(Error::Unknown { lookup: index })?);
    }
    Ok(Air::new(records)?)
}

/// A lookup, unless it reads what `volgwain` has no word for.
fn record<F: SharedField>(lookup: &p3_lookup::Lookup<F>) -> Option<Lookup<F::Ours>> {
    let bus = match &lookup.kind {
        Kind::Local => None,
        Kind::Global(name) => Some(name.clone()),
    };
    let tuples = lookup.elements.iter().map(|tuple| expressions(tuple)).collect::<Option<_>>()?;
    let multiplicities = expressions(&lookup.multiplicities)?;
    let flags = match &lookup.flags {
        None => None,
        Some(flags) => Some(expressions(flags)?),
    };
    let weight = u64::from(lookup.count_weight);
    Some(Lookup::from_parts(bus, tuples, multiplicities, flags, weight))
}

fn expressions<F: SharedField>(list: &[SymbolicExpression<F>]) -> Option<Vec<Expr<F::Ours>>> {
    list.iter().map(expression).collect()
}

pub(crate) fn expression<F: SharedField>(root: &SymbolicExpression<F>) -> Option<Expr<F::Ours>> {
    let mut known = true;
    let walked = Expr::walk(root, |node| {
        top(node).unwrap_or_else(|| {
            known = false;
            Shape::Constant(0)
        })
    });
    known.then_some(walked)
}

/// What stands at the top of an expression.
#[allow(unreachable_patterns)] // also what a later version of Plonky3 adds
pub(crate) fn top<F: SharedField>(
    node: &SymbolicExpression<F>,
) -> Option<Shape<&SymbolicExpression<F>>> {
    Some(match node {
        SymbolicExpression::Leaf(leaf) => leaf_of(leaf)?,
        SymbolicExpression::Add { x, y, .. } => Shape::Add(x, y),
        SymbolicExpression::Sub { x, y, .. } => Shape::Sub(x, y),
        SymbolicExpression::Mul { x, y, .. } => Shape::Mul(x, y),
        SymbolicExpression::Neg { x, .. } => Shape::Neg(x),
        _ => return None,
    })
}

#[allow(unreachable_patterns)] // also what a later version of Plonky3 adds
fn leaf_of<F: SharedField, N>(leaf: &BaseLeaf<F>) -> Option<Shape<N>> {
    Some(match leaf {
        BaseLeaf::Variable(variable) => match variable.entry {
            BaseEntry::Main { offset } => Shape::Main { offset, column: variable.index },
            BaseEntry::Preprocessed { offset } => {
                Shape::Preprocessed { offset, column: variable.index }
            }
            BaseEntry::Public => Shape::Public { index: variable.index },
            _ => return None,
        },
        BaseLeaf::IsFirstRow => Shape::IsFirstRow,
        BaseLeaf::IsLastRow => Shape::IsLastRow,
        BaseLeaf::IsTransition => Shape::IsTransition,
        BaseLeaf::Constant(constant) => Shape::Constant(constant.as_canonical_u32()),
        _ => return None,
    })
}
