//! Stand-in for csx's `io` module: the document model as published, and
//! mesh readers that answer an error.

pub mod dom;

/// Stand-in for the STL reader.
pub mod stl {
    use crate::{Error, Polyhedron, Result};

    /// Answers an error.
    pub fn parse(_data: &[u8]) -> Result<Polyhedron> {
        Err(Error::Format("the oracle has no STL reader".into()))
    }
}

/// Stand-in for the PLY reader.
pub mod ply {
    use crate::{Error, Polyhedron, Result};

    /// Answers an error.
    pub fn parse(_data: &[u8]) -> Result<Polyhedron> {
        Err(Error::Format("the oracle has no PLY reader".into()))
    }
}
