//! Stand-in for what reads a `VectorFst`; its data structure is published.

use std::ops::Range;
use std::sync::Arc;

use anyhow::{Context, Result};

use super::data_structure::{VectorFst, VectorFstState};
use crate::fst_properties::FstProperties;
use crate::fst_traits::{CoreFst, ExpandedFst, Fst, FstIntoIterator, FstIterator, StateIterator};
use crate::semirings::Semiring;
use crate::{StateId, SymbolTable, Trs, TrsVec};

impl<W: Semiring> VectorFst<W> {
    fn state(&self, state: StateId) -> Result<&VectorFstState<W>> {
        self.states.get(state as usize).context("no such state")
    }
}

// The unchecked readers are checked all the same.
impl<W: Semiring> CoreFst<W> for VectorFst<W> {
    type TRS = TrsVec<W>;

    fn start(&self) -> Option<StateId> {
        self.start_state
    }

    fn final_weight(&self, state: StateId) -> Result<Option<W>> {
        Ok(self.state(state)?.final_weight.clone())
    }

    unsafe fn final_weight_unchecked(&self, state: StateId) -> Option<W> {
        self.final_weight(state).unwrap()
    }

    fn num_trs(&self, state: StateId) -> Result<usize> {
        Ok(self.state(state)?.num_trs())
    }

    unsafe fn num_trs_unchecked(&self, state: StateId) -> usize {
        self.num_trs(state).unwrap()
    }

    fn get_trs(&self, state: StateId) -> Result<TrsVec<W>> {
        Ok(self.state(state)?.trs.shallow_clone())
    }

    unsafe fn get_trs_unchecked(&self, state: StateId) -> TrsVec<W> {
        self.get_trs(state).unwrap()
    }

    fn properties(&self) -> FstProperties {
        self.properties
    }

    fn num_input_epsilons(&self, state: StateId) -> Result<usize> {
        Ok(self.state(state)?.niepsilons)
    }

    fn num_output_epsilons(&self, state: StateId) -> Result<usize> {
        Ok(self.state(state)?.noepsilons)
    }
}

impl<W: Semiring> Fst<W> for VectorFst<W> {
    fn input_symbols(&self) -> Option<&Arc<SymbolTable>> {
        self.isymt.as_ref()
    }

    fn output_symbols(&self) -> Option<&Arc<SymbolTable>> {
        self.osymt.as_ref()
    }

    fn set_input_symbols(&mut self, symt: Arc<SymbolTable>) {
        self.isymt = Some(symt)
    }

    fn set_output_symbols(&mut self, symt: Arc<SymbolTable>) {
        self.osymt = Some(symt)
    }

    fn take_input_symbols(&mut self) -> Option<Arc<SymbolTable>> {
        self.isymt.take()
    }

    fn take_output_symbols(&mut self) -> Option<Arc<SymbolTable>> {
        self.osymt.take()
    }
}

impl<W: Semiring> ExpandedFst<W> for VectorFst<W> {
    fn num_states(&self) -> usize {
        self.states.len()
    }
}

impl<'a, W: Semiring> StateIterator<'a> for VectorFst<W> {
    type Iter = Range<StateId>;

    fn states_iter(&'a self) -> Range<StateId> {
        self.states_range()
    }
}

impl<W: Semiring> FstIterator<'_, W> for VectorFst<W> {}
impl<W: Semiring> FstIntoIterator<W> for VectorFst<W> {}
