//! Symbolic words: "sums of a constant and of symbols with coefficients, modulo 2^32".

use std::collections::BTreeMap;

/// The number of a symbol, unique on its path.
pub(crate) type Symbol = u32;

/// A constant plus symbols with coefficients. No stored coefficient is 0, so equal sums are equal
/// records.
#[derive(Clone, PartialEq, Eq, PartialOrd, Ord)]
pub(crate) struct Sum {
    constant: u32,
    coefficients: BTreeMap<Symbol, u32>,
}

impl Sum {
    /// A constant word.
    pub fn constant(constant: u32) -> Sum {
        Sum {
            constant,
            coefficients: BTreeMap::new(),
        }
    }

    /// A symbol alone.
    pub fn symbol(symbol: Symbol) -> Sum {
        Sum {
            constant: 0,
            coefficients: BTreeMap::from([(symbol, 1)]),
        }
    }

    /// The sum of two words.
    pub fn plus(&self, other: &Sum) -> Sum {
        let mut sum = self.clone();
        sum.constant = sum.constant.wrapping_add(other.constant);
        for (symbol, coefficient) in &other.coefficients {
            let total = sum.coefficients.entry(*symbol).or_insert(0);
            *total = total.wrapping_add(*coefficient);
        }
        sum.coefficients.retain(|_, coefficient| *coefficient != 0);
        sum
    }

    /// The word that adds to this one to give 0.
    pub fn negated(&self) -> Sum {
        let negated =
            |(symbol, coefficient): (&Symbol, &u32)| (*symbol, coefficient.wrapping_neg());
        Sum {
            constant: self.constant.wrapping_neg(),
            coefficients: self.coefficients.iter().map(negated).collect(),
        }
    }

    /// The constant, if no symbol is in the sum.
    pub fn as_constant(&self) -> Option<u32> {
        self.coefficients.is_empty().then_some(self.constant)
    }
}
