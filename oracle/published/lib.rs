//! The published T-mesh, built unchanged.
//!
//! The files named by `TMESH_SOURCE` are included by path and not copied. What they lean on and is not published with them
//! stands here in small: the error enum, the tolerance, the lock, the position, and the types that the missing module files
//! declare. Each stand-in says what it replaces.
#![allow(dead_code, unused_imports, clippy::all)]

pub mod errors;
pub mod parking_lot;
pub mod position;
pub mod serde;
pub mod smallvec;
pub mod tolerance;

/// Where the published files look for the point type of the crate `monstertruck-core`.
pub mod monstertruck_core {
    pub mod cgmath64 {
        pub mod control_point {
            pub use crate::position::ControlPoint;
        }
    }
}

/// Names that every published file takes from the crate's prelude.
pub mod prelude {
    pub use crate::errors::Result;
    pub use crate::nurbs::{BsplineSurface, KnotVector};
    pub use crate::serde::Deserialize;
    pub use crate::tolerance::Tolerance;
    pub use crate::{monstertruck_core, parking_lot, serde, smallvec};
    pub use std::fmt::Debug;
}

pub mod nurbs;
pub mod t_spline;
