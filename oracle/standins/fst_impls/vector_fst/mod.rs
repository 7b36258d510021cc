//! Stand-in for the list of modules of `vector_fst`.

mod allocable_fst;
mod core_fst;
mod data_structure;
mod mutable_fst;
mod text_rows;

pub use data_structure::VectorFst;
