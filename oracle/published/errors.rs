//! Stand-in for the crate's error enum: the words that the included files use.
use std::fmt;

#[derive(Debug, Clone, PartialEq)]
pub enum Error {
    TmeshInvalidKnotRatio,
    TmeshForeignControlPoint,
    TmeshConnectionNotFound,
    TmeshControlPointNotFound,
    TmeshExistingConnection,
    TmeshConnectionInvalidKnotInterval,
    TmeshExistingControlPoint,
    TmeshUnknownError,
    TmeshMalformedMesh,
    TmeshOutOfBoundsInsertion,
    TmeshKnotVectorsNotEqual,
    TmeshNonCubicDegree(usize, usize),
    ZeroRange,
    TooLargeDegree(usize, usize),
    NotClampedKnotVector,
    NotSortedVector,
    DifferentBackFront(f64, f64),
}

pub type Result<T> = std::result::Result<T, Error>;

impl fmt::Display for Error {
    fn fmt(&self, f: &mut fmt::Formatter<'_>) -> fmt::Result {
        write!(f, "{self:?}")
    }
}

impl Error {
    /// The number that the table of answers gives this word, where it has one.
    pub fn number(&self) -> Option<u8> {
        match self {
            Error::TmeshInvalidKnotRatio => Some(1),
            Error::TmeshForeignControlPoint => Some(2),
            Error::TmeshConnectionNotFound => Some(3),
            Error::TmeshControlPointNotFound => Some(4),
            Error::TmeshExistingConnection => Some(5),
            Error::TmeshConnectionInvalidKnotInterval => Some(6),
            Error::TmeshExistingControlPoint => Some(7),
            Error::TmeshUnknownError => Some(8),
            _ => None,
        }
    }
}
