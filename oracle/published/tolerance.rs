//! Stand-in for the tolerance trait: small means −e ≤ value ≤ e, with e = 1.0 / 1000000.0.

pub const TOLERANCE: f64 = 1.0 / 1000000.0;

pub trait Tolerance {
    fn so_small(&self) -> bool;
    fn near(&self, other: &Self) -> bool;
}

impl Tolerance for f64 {
    fn so_small(&self) -> bool {
        -TOLERANCE <= *self && *self <= TOLERANCE
    }
    fn near(&self, other: &f64) -> bool {
        (*self - *other).so_small()
    }
}
