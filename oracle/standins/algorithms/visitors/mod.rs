//! Stand-in for the list of modules of `visitors`.

mod scc_visitors;

pub use scc_visitors::SccVisitor;
