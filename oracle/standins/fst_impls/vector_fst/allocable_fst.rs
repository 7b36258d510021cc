//! Stand-in for the allocation of a `VectorFst`: only `reserve_states` is called, by `reverse`.

use anyhow::Result;

use super::data_structure::VectorFst;
use crate::fst_traits::AllocableFst;
use crate::semirings::Semiring;
use crate::StateId;

impl<W: Semiring> AllocableFst<W> for VectorFst<W> {
    fn reserve_states(&mut self, additional: usize) {
        self.states.reserve(additional)
    }

    fn reserve_trs(&mut self, _: StateId, _: usize) -> Result<()> {
        unimplemented!("stand-in")
    }

    unsafe fn reserve_trs_unchecked(&mut self, _: StateId, _: usize) {
        unimplemented!("stand-in")
    }

    fn shrink_to_fit(&mut self) {
        unimplemented!("stand-in")
    }

    fn shrink_to_fit_states(&mut self) {
        unimplemented!("stand-in")
    }

    fn shrink_to_fit_trs(&mut self, _: StateId) -> Result<()> {
        unimplemented!("stand-in")
    }

    unsafe fn shrink_to_fit_trs_unchecked(&mut self, _: StateId) {
        unimplemented!("stand-in")
    }

    fn states_capacity(&self) -> usize {
        unimplemented!("stand-in")
    }

    fn trs_capacity(&self, _: StateId) -> Result<usize> {
        unimplemented!("stand-in")
    }

    unsafe fn trs_capacity_unchecked(&self, _: StateId) -> usize {
        unimplemented!("stand-in")
    }
}
