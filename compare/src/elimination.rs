//! Elimination on sparse columns, one product after another.

use crate::certificate::Coefficients;
use crate::field::{inverse, product, sum};
use std::collections::HashMap;

/// The entries that are not zero, as row and code, by row.
pub type Column = Vec<(u32, u8)>;

/// A multiple of a product to which multiples of earlier kept columns are added: `scale` times the sum of the product
/// and of each `factor` times the column at `earlier`. Its last entry, the lead, is one.
struct Kept {
    column: Column,
    number: usize,
    scale: u8,
    steps: Vec<Step>,
}

#[derive(Clone, Copy)]
struct Step {
    earlier: usize,
    factor: u8,
}

/// The products taken in so far: a kept column for each independent one, no two with the lead in one row.
#[derive(Default)]
pub struct Elimination {
    kept: Vec<Kept>,
    by_lead: HashMap<u32, usize>,
}

impl Elimination {
    /// Takes in the next product. Answers whether it is independent of those before it.
    pub fn take(&mut self, number: usize, column: Column) -> bool {
        let (mut column, steps) = self.reduce(column);
        let Some(&(row, lead)) = column.last() else {
            return false;
        };
        let scale = inverse(lead);
        for entry in &mut column {
            entry.1 = product(scale, entry.1);
        }
        self.by_lead.insert(row, self.kept.len());
        self.kept.push(Kept { column, number, scale, steps });
        true
    }

    /// The coefficients of independent products with which they add up to the column; none where they cannot.
    pub fn combination(&self, column: Column) -> Option<Coefficients> {
        let (rest, steps) = self.reduce(column);
        if !rest.is_empty() {
            return None;
        }
        let mut factors = vec![0; self.kept.len()];
        for step in steps {
            factors[step.earlier] = step.factor;
        }
        let mut coefficients = Coefficients::new();
        for (place, kept) in self.kept.iter().enumerate().rev() {
            let coefficient = product(factors[place], kept.scale);
            if coefficient == 0 {
                continue;
            }
            coefficients.insert(kept.number, coefficient);
            for step in &kept.steps {
                factors[step.earlier] = sum(factors[step.earlier], product(coefficient, step.factor));
            }
        }
        Some(coefficients)
    }

    /// Adds multiples of kept columns as long as one of them has its lead in the row of the last entry.
    fn reduce(&self, mut column: Column) -> (Column, Vec<Step>) {
        let mut steps = Vec::new();
        let mut spare = Column::new();
        while let Some(&(row, factor)) = column.last() {
            let Some(&earlier) = self.by_lead.get(&row) else {
                break;
            };
            add_multiple(&column, factor, &self.kept[earlier].column, &mut spare);
            std::mem::swap(&mut column, &mut spare);
            steps.push(Step { earlier, factor });
        }
        (column, steps)
    }
}

/// Writes a + factor × b.
fn add_multiple(a: &Column, factor: u8, b: &Column, result: &mut Column) {
    result.clear();
    let (mut i, mut j) = (0, 0);
    while i < a.len() && j < b.len() {
        let ((row_a, code_a), (row_b, code_b)) = (a[i], b[j]);
        if row_a < row_b {
            result.push(a[i]);
            i += 1;
        } else if row_b < row_a {
            result.push((row_b, product(factor, code_b)));
            j += 1;
        } else {
            let code = sum(code_a, product(factor, code_b));
            if code != 0 {
                result.push((row_a, code));
            }
            i += 1;
            j += 1;
        }
    }
    result.extend_from_slice(&a[i..]);
    result.extend(b[j..].iter().map(|&(row, code)| (row, product(factor, code))));
}

#[cfg(test)]
mod tests {
    use super::*;

    #[test]
    fn a_combination_is_found_over_four_values() {
        let columns: [Column; 3] = [vec![(0, 1), (2, 2)], vec![(0, 2), (2, 3)], vec![(1, 3), (2, 1)]];
        let mut elimination = Elimination::default();
        let independent: Vec<bool> = (0..3).map(|k| elimination.take(k, columns[k].clone())).collect();
        assert_eq!(independent, [true, false, true]);
        // 3 × column 0 + 2 × column 2
        let found = elimination.combination(vec![(0, 3), (1, 1), (2, 3)]);
        assert_eq!(found, Some(Coefficients::from([(0, 3), (2, 2)])));
        assert_eq!(elimination.combination(vec![(0, 1)]), None);
    }
}
