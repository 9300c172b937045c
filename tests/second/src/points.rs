//! "Points": -infinity, +infinity, then the midpoints of terms i and j for i = 1.. and j = i...
//! With no term the only point is -infinity. Equal midpoints are all kept.

use crate::limits::in_range;
use crate::sheet::{Sum, VARIABLES};
use crate::terms::Term;

#[derive(Clone, Debug, PartialEq, Eq)]
pub enum Point {
    MinusInfinity,
    PlusInfinity,
    At(Term),
}

pub fn points(terms: &[Term]) -> Vec<Point> {
    let mut points = vec![Point::MinusInfinity];
    if terms.is_empty() {
        return points;
    }
    points.push(Point::PlusInfinity);
    for (i, first) in terms.iter().enumerate() {
        for second in &terms[i..] {
            points.push(Point::At(midpoint(first, second)));
        }
    }
    points
}

/// (n1 d2 + n2 d1) / (2 d1 d2), reduced.
fn midpoint(first: &Term, second: &Term) -> Term {
    let (d1, d2) = (first.denominator, second.denominator);
    let between = |n1: i128, n2: i128| n1 * d2 + n2 * d1;
    let mut coefficients = [0; VARIABLES];
    for (v, coefficient) in coefficients.iter_mut().enumerate() {
        *coefficient = between(first.numerator.coefficients[v], second.numerator.coefficients[v]);
    }
    let constant = between(first.numerator.constant, second.numerator.constant);
    Term::reduced(Sum { coefficients, constant }, 2 * d1 * d2)
}

/// Whether all ten numbers of the reduced point lie in -M..M.
pub fn point_in_range(point: &Point) -> bool {
    match point {
        Point::MinusInfinity | Point::PlusInfinity => true,
        Point::At(term) => in_range(term.denominator) && term.numerator.numbers().into_iter().all(in_range),
    }
}
