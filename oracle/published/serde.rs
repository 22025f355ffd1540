//! Stand-in for the two traits by which a knot vector is read from text. Nothing here calls them.

pub trait Deserializer<'de>: Sized {
    type Error: de::Error;
    fn floats(self) -> Result<Vec<f64>, Self::Error>;
}

pub trait Deserialize<'de>: Sized {
    fn deserialize<D>(deserializer: D) -> Result<Self, D::Error>
    where
        D: Deserializer<'de>;
}

impl<'de> Deserialize<'de> for Vec<f64> {
    fn deserialize<D>(deserializer: D) -> Result<Self, D::Error>
    where
        D: Deserializer<'de>,
    {
        deserializer.floats()
    }
}

pub mod de {
    pub trait Error {
        fn custom<T: std::fmt::Display>(message: T) -> Self;
    }
}
