//! Stand-in for the module file of the curves: the types that the included files name.
use crate::{prelude::*, smallvec::SmallVec};

/// A knot vector, as the published conversions make it.
#[derive(Clone, PartialEq, Debug, Default)]
pub struct KnotVector(Vec<f64>);

// The window of basis values that the published knot vector answers with, which nothing here asks for: taken from the published module
// file as it is built.
include!(concat!(env!("TMESH_DECLARED"), "/basis_window.rs"));

/// A surface of curves, which nothing here makes.
pub struct BsplineSurface<P> {
    knots: [KnotVector; 2],
    control_points: Vec<Vec<P>>,
}

impl<P> BsplineSurface<P> {
    pub fn degrees(&self) -> (usize, usize) { (3, 3) }
    pub fn knot_vector_u(&self) -> &KnotVector { &self.knots[0] }
    pub fn knot_vector_v(&self) -> &KnotVector { &self.knots[1] }
    pub fn control_points(&self) -> &Vec<Vec<P>> { &self.control_points }
}

mod knot_vector {
    include!(concat!(env!("TMESH_SOURCE"), "/nurbs/knot_vector.rs"));
}
