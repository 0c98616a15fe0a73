//! Recurrence (1) and (2) of the article word for word, in fractions and with the least-norm representation,
//! column by column and without a table. Slow; it is there to check module `recurrence`.

use crate::ratio::Ratio;
use crate::recurrence::{Counts, DIRECTIONS};

type Vector = [Ratio; 3];

fn column(direction: usize) -> Vector {
    DIRECTIONS[direction].map(|c| Ratio::from(c as i128))
}

fn dot(a: &Vector, b: &Vector) -> Ratio {
    a[0] * b[0] + a[1] * b[1] + a[2] * b[2]
}

fn cross(a: &Vector, b: &Vector) -> Vector {
    let entry = |i: usize, j: usize| a[i] * b[j] - a[j] * b[i];
    [entry(1, 2), entry(2, 0), entry(0, 1)]
}

/// The y with y1 a + y2 b + y3 c = x, by Cramer's rule; none where a, b, c lie in a plane.
fn solve(a: &Vector, b: &Vector, c: &Vector, x: &Vector) -> Option<Vector> {
    let determinant = dot(a, &cross(b, c));
    if determinant == Ratio::from(0) {
        return None;
    }
    Some([dot(x, &cross(b, c)), dot(a, &cross(x, c)), dot(a, &cross(b, x))].map(|n| n / determinant))
}

/// t = D^t (D D^t)^-1 x, one number for each column.
fn least_norm(columns: &[Vector], x: &Vector) -> Option<Vec<Ratio>> {
    let row = |i: usize| [0, 1, 2].map(|j| columns.iter().fold(Ratio::from(0), |sum, d| sum + d[i] * d[j]));
    let y = solve(&row(0), &row(1), &row(2), x)?;
    Some(columns.iter().map(|d| dot(d, &y)).collect())
}

fn value(columns: &[Vector], x: Vector) -> Ratio {
    let Some(t) = least_norm(columns, &x) else { return Ratio::from(0) };
    if columns.len() == 3 {
        let inside = t.iter().all(|t| t.numerator >= 0 && t.numerator < t.denominator);
        return Ratio::from(inside as i128);
    }
    let mut sum = Ratio::from(0);
    for (h, &t) in t.iter().enumerate() {
        let mut fewer = columns.to_vec();
        let d = fewer.remove(h);
        let before = [0, 1, 2].map(|b| x[b] - d[b]);
        sum = sum + t * value(&fewer, x) + (Ratio::from(1) - t) * value(&fewer, before);
    }
    sum / Ratio::from(columns.len() as i128 - 3)
}

/// The knot planes are the translates by whole numbers of the planes that two directions span.
pub fn on_knot_plane(x: &Vector) -> bool {
    let differences = [x[0], x[1], x[2], x[0] - x[1], x[1] - x[2], x[2] - x[0]];
    differences.iter().any(|difference| difference.denominator == 1)
}

/// M at a point off all knot planes, where (2) does not depend on the parallelepiped's faces.
pub fn box_spline(counts: &Counts, x: Vector) -> Ratio {
    assert!(!on_knot_plane(&x));
    let columns: Vec<Vector> = (0..4).flat_map(|i| vec![column(i); counts[i]]).collect();
    value(&columns, x)
}

#[test]
fn the_simple_spline_is_a_pyramid() {
    let at = |x: [i128; 3], d: i128| box_spline(&[1, 1, 1, 1], x.map(|c| Ratio::new(c, d)));
    assert_eq!(at([7, 8, 9], 10), Ratio::new(7, 10));
    assert_eq!(at([13, 12, 11], 10), Ratio::new(7, 10));
    assert_eq!(at([21, 12, 13], 10), Ratio::from(0));
}
