//! Stand-in for the module file of the T-spline. Its types are taken from the published file as it is built (`oracle/run` leaves out
//! its lines that name module files, some of which are not published); here stand those modules, and a door to the calls and
//! values that they keep to themselves.
include!(concat!(env!("TMESH_DECLARED"), "/t_spline.rs"));
use crate::errors::Error;
use std::collections::HashMap;

/// The calls of the surface of the second kind that the included files name. Nothing here makes one.
impl<P> Tnurcc<P> {
    fn from_quad_mesh(_: Vec<P>, _: &[[usize; 4]]) -> Result<Tnurcc<P>> { Err(Error::TmeshUnknownError) }
    fn to_tmesh(&self, _: usize) -> Result<Tmesh<P>> { Err(Error::TmeshUnknownError) }
}

mod t_mesh_direction {
    include!(concat!(env!("TMESH_SOURCE"), "/t_spline/t_mesh_direction.rs"));
}

mod t_mesh_control_point {
    include!(concat!(env!("TMESH_SOURCE"), "/t_spline/t_mesh_control_point.rs"));
}

mod t_mesh {
    use super::*;

    mod basis {
        include!(concat!(env!("TMESH_SOURCE"), "/t_spline/t_mesh/basis.rs"));
    }
    mod core {
        include!(concat!(env!("TMESH_SOURCE"), "/t_spline/t_mesh/core.rs"));
    }
    mod ops {
        include!(concat!(env!("TMESH_SOURCE"), "/t_spline/t_mesh/ops.rs"));
    }

    pub fn basis_function(u: f64, knots: &[f64]) -> f64 { basis::basis_function(u, knots) }

    pub fn point_knot_vectors<P>(
        point: Arc<RwLock<TmeshControlPoint<P>>>,
    ) -> Result<(KnotVector, KnotVector)> {
        Tmesh::point_knot_vectors(point)
    }

    pub fn generate_knot_vectors<P>(mesh: &Tmesh<P>) -> Result<()> { mesh.generate_knot_vectors() }
}

pub use t_mesh::{basis_function, generate_knot_vectors, point_knot_vectors};

type Shared<P> = Arc<RwLock<TmeshControlPoint<P>>>;

impl<P> Tmesh<P> {
    /// The knots kept.
    pub fn kept_knots(&self) -> Option<Vec<(KnotVector, KnotVector)>> { self.knot_vectors.read().clone() }
}

impl<P: Copy> Tmesh<P> {
    /// A mesh like this one that shares nothing with it, and its points. This is ours: the published mesh can't be copied. `made` are
    /// the points to copy, listed or not, among which all links lead.
    pub fn copy(&self, made: &[Shared<P>]) -> (Tmesh<P>, Vec<Shared<P>>) {
        let unlinked = |point: &Shared<P>| {
            let point = point.read();
            let (place, knot_coordinates) = (point.point, point.knot_coordinates);
            Arc::new(RwLock::new(TmeshControlPoint { point: place, connections: [const { None }; 4], knot_coordinates }))
        };
        let copies: Vec<Shared<P>> = made.iter().map(unlinked).collect();
        let places: HashMap<_, _> = made.iter().map(Arc::as_ptr).zip(&copies).collect();
        let copy_of = |point: &Shared<P>| Arc::clone(places[&Arc::as_ptr(point)]);
        for (point, copy) in made.iter().zip(&copies) {
            for (side, connection) in copy.write().connections.iter_mut().zip(&point.read().connections) {
                *side = connection.as_ref().map(|(other, interval)| (other.as_ref().map(copy_of), *interval));
            }
        }
        let control_points = self.control_points.iter().map(copy_of).collect();
        (Tmesh { control_points, knot_vectors: RwLock::new(self.kept_knots()) }, copies)
    }
}
