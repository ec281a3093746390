//! The least cost of a small case and the multipliers that prove it, in fractions,
//! worked out from the rows and prices of `model` by the dual simplex method.
//!
//! Each row's value s = Σ a·entry + k is a variable beside the columns. At the start the
//! columns are 0 and the values are what is left, the k. No price is below 0, so the
//! start is priced well, and each step keeps that: it takes a value that is not as it
//! must be, puts it at 0, and lets a column or another value vary in its place. At the
//! end nothing is amiss, and what an s that stands at 0 costs is the row's multiplier.

use crate::fraction::Fraction;
use crate::model::Model;

/// A plan of least cost in whole units, not in Nths, and multipliers of gap 0.
#[derive(Clone, Debug)]
pub struct Optimum {
    pub entries: Vec<Fraction>,
    pub multipliers: Vec<Fraction>,
}

/// A variable: a column, or the value of a row.
#[derive(Clone, Copy, Debug, PartialEq, Eq, PartialOrd, Ord)]
enum Variable {
    Column(usize),
    Value(usize),
}

/// A variable that varies with those at 0: its constant, and the factor of each.
struct Line {
    variable: Variable,
    constant: Fraction,
    factors: Vec<Fraction>,
}

struct Tableau {
    /// The variables at 0, and what one unit of each costs.
    at_zero: Vec<Variable>,
    costs: Vec<Fraction>,
    lines: Vec<Line>,
    /// Whether the row is an equality, by row.
    equality: Vec<bool>,
}

/// The optimum of a model; none where a number passes 128 bits on the way, or where no
/// plan meets the rows.
pub fn optimum(model: &Model) -> Option<Optimum> {
    let mut tableau = Tableau::new(model);
    while let Some(line) = tableau.first_amiss() {
        let entering = tableau.entering(line)?;
        tableau.exchange(line, entering)?;
    }
    Some(tableau.solution(model))
}

impl Tableau {
    fn new(model: &Model) -> Tableau {
        let columns = model.columns.count();
        let rows: Vec<_> = (0..model.rows.count()).map(|row| model.row(row)).collect();
        let line = |(number, row): (usize, &crate::model::Row)| {
            let mut factors = vec![Fraction::ZERO; columns];
            for &(column, a) in &row.terms {
                factors[column] = Fraction::whole(a);
            }
            Line {
                variable: Variable::Value(number),
                constant: Fraction::whole(row.constant),
                factors,
            }
        };
        Tableau {
            at_zero: (0..columns).map(Variable::Column).collect(),
            costs: (0..columns)
                .map(|column| Fraction::whole(model.price(column)))
                .collect(),
            lines: rows.iter().enumerate().map(line).collect(),
            equality: rows.iter().map(|row| row.equality).collect(),
        }
    }

    fn is_equality(&self, variable: Variable) -> bool {
        matches!(variable, Variable::Value(row) if self.equality[row])
    }

    /// The line of the lowest variable that is below 0, or is not 0 as it must be. With
    /// the lowest of all that may enter, no step comes back to where it was.
    fn first_amiss(&self) -> Option<usize> {
        let amiss = |line: &&Line| {
            line.constant.sign() < 0 || self.is_equality(line.variable) && line.constant.sign() > 0
        };
        let lowest = self.lines.iter().filter(amiss).map(|line| line.variable);
        let lowest = lowest.min()?;
        self.lines.iter().position(|line| line.variable == lowest)
    }

    /// The variable at 0 that mends the line and costs least for it. One of an equality
    /// stays at 0.
    fn entering(&self, line: usize) -> Option<usize> {
        let line = &self.lines[line];
        let wanted = -line.constant.sign();
        let mut best: Option<(Fraction, Variable, usize)> = None;
        for (place, &variable) in self.at_zero.iter().enumerate() {
            let factor = line.factors[place];
            if factor.sign() != wanted || self.is_equality(variable) {
                continue;
            }
            let size = if wanted < 0 {
                factor.negative()
            } else {
                factor
            };
            let cost = self.costs[place].times(size.inverse())?;
            let better = match best {
                None => true,
                Some((least, lowest, _)) => match cost.compare(least)? {
                    std::cmp::Ordering::Equal => variable < lowest,
                    order => order.is_lt(),
                },
            };
            if better {
                best = Some((cost, variable, place));
            }
        }
        best.map(|(_, _, place)| place)
    }

    /// The line's variable goes to 0, the entering one varies in its place.
    fn exchange(&mut self, line: usize, entering: usize) -> Option<()> {
        let leaving = &mut self.lines[line];
        let inverse = leaving.factors[entering].inverse();
        // v = k + f·e + Σ.. solved for e: e = −k/f + v/f − Σ../f.
        leaving.constant = leaving.constant.times(inverse.negative())?;
        for (place, factor) in leaving.factors.iter_mut().enumerate() {
            *factor = match place == entering {
                true => inverse,
                false => factor.times(inverse.negative())?,
            };
        }
        std::mem::swap(&mut leaving.variable, &mut self.at_zero[entering]);
        let (constant, factors) = (leaving.constant, leaving.factors.clone());
        for (_, other) in self
            .lines
            .iter_mut()
            .enumerate()
            .filter(|&(i, _)| i != line)
        {
            let part = other.factors[entering];
            if part.sign() != 0 {
                other.constant = other.constant.plus(part.times(constant)?)?;
                substitute(&mut other.factors, &factors, entering)?;
            }
        }
        substitute(&mut self.costs, &factors, entering)
    }

    fn solution(&self, model: &Model) -> Optimum {
        let mut entries = vec![Fraction::ZERO; model.columns.count()];
        let mut multipliers = vec![Fraction::ZERO; model.rows.count()];
        for line in &self.lines {
            if let Variable::Column(column) = line.variable {
                entries[column] = line.constant;
            }
        }
        for (&variable, &cost) in self.at_zero.iter().zip(&self.costs) {
            if let Variable::Value(row) = variable {
                multipliers[row] = cost;
            }
        }
        Optimum {
            entries,
            multipliers,
        }
    }
}

/// Puts what the entering variable is in its place in a list of factors.
fn substitute(list: &mut [Fraction], entering: &[Fraction], place: usize) -> Option<()> {
    let part = list[place];
    for (at, (factor, &in_place)) in list.iter_mut().zip(entering).enumerate() {
        if at == place {
            *factor = part.times(in_place)?;
        } else if in_place.sign() != 0 {
            *factor = factor.plus(part.times(in_place)?)?;
        }
    }
    Some(())
}
