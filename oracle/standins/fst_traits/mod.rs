//! Stand-in for the list of modules of `fst_traits`, and for its iterators. Of these only the one
//! over states is used; the others are names and types.

mod allocable_fst;
mod expanded_fst;
mod fst;
mod mutable_fst;

pub use allocable_fst::AllocableFst;
pub use expanded_fst::ExpandedFst;
pub use fst::{CoreFst, Fst};
pub use iterators::{FstIntoIterator, FstIterator, StateIterator};
pub use mutable_fst::MutableFst;

pub mod iterators {
    use crate::semirings::Semiring;
    use crate::StateId;

    pub trait StateIterator<'a> {
        type Iter: Iterator<Item = StateId> + Clone;

        fn states_iter(&'a self) -> Self::Iter;
    }

    pub trait FstIterator<'a, W: Semiring> {}

    pub trait FstIntoIterator<W: Semiring> {}
}

pub mod final_states_iterator {
    use std::marker::PhantomData;

    use super::{Fst, StateIterator};
    use crate::semirings::Semiring;

    pub struct FinalStatesIterator<'a, W: Semiring, F: Fst<W>> {
        pub(crate) fst: &'a F,
        pub(crate) state_iter: <F as StateIterator<'a>>::Iter,
        pub(crate) w: PhantomData<W>,
    }
}

pub mod paths_iterator {
    use std::marker::PhantomData;

    pub struct PathsIterator<'a, W, F>(PhantomData<(W, &'a F)>);

    impl<'a, W, F> PathsIterator<'a, W, F> {
        pub fn new(_: &'a F) -> Self {
            unimplemented!("stand-in")
        }
    }
}

pub mod string_paths_iterator {
    use std::marker::PhantomData;

    use anyhow::Result;

    pub struct StringPathsIterator<'a, W, F>(PhantomData<(W, &'a F)>);

    impl<'a, W, F> StringPathsIterator<'a, W, F> {
        pub fn new(_: &'a F) -> Result<Self> {
            unimplemented!("stand-in")
        }
    }
}
