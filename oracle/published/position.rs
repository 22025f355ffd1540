//! Stand-in for the point types: a position of three floats, added, scaled and divided axis by axis from +0.0.
use std::ops::{Add, Div, Mul};

#[derive(Clone, Copy, Debug, PartialEq)]
pub struct Position(pub [f64; 3]);

/// What the published files ask of a point: its zero, itself as a displacement, and the operations on both.
pub trait ControlPoint<S>:
    Copy + Add<Self::Diff, Output = Self> + Mul<S, Output = Self> + Div<S, Output = Self>
{
    type Diff: Copy + Mul<S, Output = Self::Diff> + Add<Self::Diff, Output = Self::Diff>;
    fn origin() -> Self;
    fn to_vec(self) -> Self::Diff;
}

impl Position {
    fn axes(self, f: impl Fn(usize, f64) -> f64) -> Self {
        Position([f(0, self.0[0]), f(1, self.0[1]), f(2, self.0[2])])
    }
}

impl Add for Position {
    type Output = Position;
    fn add(self, other: Position) -> Position {
        self.axes(|axis, x| x + other.0[axis])
    }
}

impl Mul<f64> for Position {
    type Output = Position;
    fn mul(self, scale: f64) -> Position {
        self.axes(|_, x| x * scale)
    }
}

impl Div<f64> for Position {
    type Output = Position;
    fn div(self, divisor: f64) -> Position {
        self.axes(|_, x| x / divisor)
    }
}

impl ControlPoint<f64> for Position {
    type Diff = Position;
    fn origin() -> Position {
        Position([0.0; 3])
    }
    fn to_vec(self) -> Position {
        self
    }
}
