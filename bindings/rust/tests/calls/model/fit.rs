//! Whether lookups fit traces.

use super::machine::{Lookup, Table};
use super::tree::Tree;
use std::rc::Rc;
use volgwain::{Cell, Field, FitFault};

/// What traces have: columns of both, public values, and heights.
#[derive(Clone, Copy, Debug)]
pub struct Extent {
    pub width: usize,
    pub preprocessed_width: usize,
    pub public_values: usize,
    pub height: usize,
    pub preprocessed_height: usize,
}

impl<F: Field> Table<F> {
    /// Why the lookups do not fit traces with these parts.
    pub fn fit_fault(&self, extent: &Extent) -> Option<FitFault> {
        for (lookup, it) in self.lookups.iter().enumerate() {
            for cell in it.cells() {
                let (index, width) = match cell {
                    Cell::Main { column, .. } => (column, extent.width),
                    Cell::Preprocessed { column, .. } => (column, extent.preprocessed_width),
                    Cell::Public { index } => (index, extent.public_values),
                    other => panic!("{other} is in no machine"),
                };
                if index >= width {
                    return Some(FitFault::Missing { lookup, cell, width });
                }
            }
        }
        let Extent { height: main, preprocessed_height: preprocessed, .. } = *extent;
        let differ = extent.preprocessed_width > 0 && main != preprocessed;
        differ.then_some(FitFault::Heights { main, preprocessed })
    }
}

impl<F: Field> Lookup<F> {
    /// All cells that it reads: in its tuples, then in its multiplicities, and then in its flags.
    fn cells(&self) -> Vec<Cell> {
        let tuples = self.sends.iter().flat_map(|sent| &sent.tuple);
        let multiplicities = self.sends.iter().map(|sent| &sent.multiplicity);
        let flags = self.sends.iter().filter_map(|sent| sent.flag.as_ref());
        let trees = tuples.chain(multiplicities).chain(flags);
        trees.flat_map(|tree: &Rc<Tree<F>>| tree.cells()).collect()
    }
}

impl<F> Tree<F> {
    /// The cells from left to right.
    fn cells(&self) -> Vec<Cell> {
        match self {
            Tree::Main { offset, column } => vec![Cell::Main { offset: *offset, column: *column }],
            Tree::Preprocessed { offset, column } => {
                vec![Cell::Preprocessed { offset: *offset, column: *column }]
            }
            Tree::Public(index) => vec![Cell::Public { index: *index }],
            Tree::IsFirstRow | Tree::IsLastRow | Tree::IsTransition | Tree::Constant(_) => vec![],
            Tree::Add(left, right) | Tree::Sub(left, right) | Tree::Mul(left, right) => {
                [left.cells(), right.cells()].concat()
            }
            Tree::Neg(operand) => operand.cells(),
        }
    }
}
