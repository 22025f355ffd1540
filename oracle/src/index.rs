//! A second reading of the index of cells, written from the request that describes it: a grid of 16 by 16 half-open cells over 0 to 1 both
//! ways, and for each cell the listed points that reach it.
use crate::reading::Knots;

/// Cells along a row, and rows.
pub const LINES: u8 = 16;

/// What is answered of a cell: a bit for each listed point, and the ones among them.
#[derive(Clone, Copy, Debug, PartialEq)]
pub struct Cell {
    pub words: [u64; 2],
    pub count: u8,
}

/// A float of a half-open span of the grid that lies within a point's outer knots, first included and last excluded, where there is one.
///
/// Two candidates are enough. A float that passes is at or above both the span's lower line and the first knot, so the greater of these two
/// passes as well: it meets both lower tests, and being no greater it meets both upper ones. Where an outer knot is NaN none passes.
fn witness(place: u8, knots: &[f64; 5]) -> Option<f64> {
    let (lower, upper) = (place as f64 / LINES as f64, (place as f64 + 1.0) / LINES as f64);
    let (first, last) = (knots[0], knots[4]);
    [lower, first].into_iter().find(|&x| lower <= x && x < upper && first <= x && x < last)
}

/// Whether some (s, t) of a cell lies within a point's outer knots. The cell's byte is 16 times its t row plus its s column.
fn reaches(knots: &Knots, cell: u8) -> bool {
    let place = (witness(cell % LINES, &knots.s), witness(cell / LINES, &knots.t));
    matches!(place, (Some(_), Some(_)))
}

/// A cell's words and count, by the listed points and their knots. Point n has bit n modulo 64, in the first word for n below 64.
pub fn cell_of(listed: &[u8], rows: &[Knots], cell: u8) -> Cell {
    let mut words = [0, 0];
    for (point, _) in listed.iter().zip(rows).filter(|(_, knots)| reaches(knots, cell)) {
        words[*point as usize / 64] |= 1 << (point % 64);
    }
    Cell { words, count: (words[0].count_ones() + words[1].count_ones()) as u8 }
}
