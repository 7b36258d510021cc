//! Stand-in for the list of modules of `fst_impls`: `VectorFst` alone.

pub mod vector_fst;

pub use vector_fst::VectorFst;
