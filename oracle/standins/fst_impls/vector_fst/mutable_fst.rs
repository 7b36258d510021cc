//! Stand-in for what changes a `VectorFst`. The properties follow each change by the published
//! functions of `mutate_properties`, as the names of these say.

use std::cmp::Ordering;
use std::sync::Arc;

use anyhow::{Context, Result};

use super::data_structure::{VectorFst, VectorFstState};
use crate::fst_properties::mutable_properties::{
    add_state_properties, delete_all_states_properties, delete_states_properties,
    set_final_properties, set_start_properties,
};
use crate::fst_properties::FstProperties;
use crate::fst_traits::{CoreFst, ExpandedFst, MutableFst};
use crate::semirings::Semiring;
use crate::trs_iter_mut::TrsIterMut;
use crate::{StateId, Tr, Trs, TrsVec};

impl<W: Semiring> VectorFst<W> {
    fn state_mut(&mut self, state: StateId) -> Result<&mut VectorFstState<W>> {
        self.states.get_mut(state as usize).context("no such state")
    }

    /// Replaces the links of a state, and counts their labels 0 anew.
    fn replace_trs(&mut self, state: StateId, trs: Vec<Tr<W>>) -> Result<()> {
        let vector_state = self.state_mut(state)?;
        vector_state.niepsilons = 0;
        vector_state.noepsilons = 0;
        for tr in &trs {
            vector_state.increment_num_epsilons(tr);
        }
        vector_state.trs = TrsVec(Arc::new(trs));
        Ok(())
    }
}

impl<W: Semiring> MutableFst<W> for VectorFst<W> {
    fn new() -> Self {
        Self {
            states: vec![],
            start_state: None,
            isymt: None,
            osymt: None,
            properties: FstProperties::null_properties(),
        }
    }

    fn set_start(&mut self, state: StateId) -> Result<()> {
        self.state_mut(state)?;
        self.start_state = Some(state);
        self.properties = set_start_properties(self.properties);
        Ok(())
    }

    unsafe fn set_start_unchecked(&mut self, state: StateId) {
        self.set_start(state).unwrap()
    }

    fn set_final<S: Into<W>>(&mut self, state: StateId, final_weight: S) -> Result<()> {
        let new = final_weight.into();
        let old = self.state_mut(state)?.final_weight.replace(new.clone());
        self.properties = set_final_properties(self.properties, old.as_ref(), Some(&new));
        Ok(())
    }

    unsafe fn set_final_unchecked<S: Into<W>>(&mut self, state: StateId, final_weight: S) {
        self.set_final(state, final_weight).unwrap()
    }

    fn add_state(&mut self) -> StateId {
        self.states.push(VectorFstState::new());
        self.properties = add_state_properties(self.properties);
        self.states.len() as StateId - 1
    }

    fn add_states(&mut self, n: usize) {
        for _ in 0..n {
            self.add_state();
        }
    }

    fn add_tr(&mut self, source: StateId, tr: Tr<W>) -> Result<()> {
        let vector_state = self.state_mut(source)?;
        vector_state.increment_num_epsilons(&tr);
        vector_state.trs.push(tr);
        self.update_properties_after_add_tr(source);
        Ok(())
    }

    unsafe fn add_tr_unchecked(&mut self, state: StateId, tr: Tr<W>) {
        self.add_tr(state, tr).unwrap()
    }

    unsafe fn set_trs_unchecked(&mut self, source: StateId, trs: Vec<Tr<W>>) {
        self.replace_trs(source, trs).unwrap()
    }

    fn del_state(&mut self, state: StateId) -> Result<()> {
        self.del_states([state])
    }

    /// The states that stay keep their order, and links to states that go, go with them.
    fn del_states<T: IntoIterator<Item = StateId>>(&mut self, states: T) -> Result<()> {
        let mut stays = vec![true; self.num_states()];
        for state in states {
            *stays.get_mut(state as usize).context("no such state")? = false;
        }
        let mut number = vec![None; stays.len()];
        for (new, old) in (0..stays.len()).filter(|s| stays[*s]).enumerate() {
            number[old] = Some(new as StateId);
        }
        let mut stays = stays.into_iter();
        self.states.retain(|_| stays.next().unwrap());
        self.start_state = self.start_state.and_then(|s| number[s as usize]);
        for state in self.states_range() {
            let renumbered = |tr: &Tr<W>| {
                let nextstate = number[tr.nextstate as usize]?;
                Some(Tr {
                    nextstate,
                    ..tr.clone()
                })
            };
            let trs = self
                .get_trs(state)?
                .trs()
                .iter()
                .filter_map(renumbered)
                .collect();
            self.replace_trs(state, trs)?;
        }
        self.properties = delete_states_properties(self.properties);
        Ok(())
    }

    fn del_all_states(&mut self) {
        self.states.clear();
        self.start_state = None;
        self.properties = delete_all_states_properties();
    }

    fn set_properties(&mut self, props: FstProperties) {
        self.properties = props
    }

    fn set_properties_with_mask(&mut self, props: FstProperties, mask: FstProperties) {
        self.properties = (self.properties & !mask) | (props & mask)
    }

    // No call made here reaches those below.

    fn tr_iter_mut(&mut self, _: StateId) -> Result<TrsIterMut<'_, W>> {
        unimplemented!("stand-in")
    }

    unsafe fn tr_iter_unchecked_mut(&mut self, _: StateId) -> TrsIterMut<'_, W> {
        unimplemented!("stand-in")
    }

    unsafe fn del_trs_id_sorted_unchecked(&mut self, _: StateId, _: &[usize]) {
        unimplemented!("stand-in")
    }

    fn delete_final_weight(&mut self, _: StateId) -> Result<()> {
        unimplemented!("stand-in")
    }

    unsafe fn delete_final_weight_unchecked(&mut self, _: StateId) {
        unimplemented!("stand-in")
    }

    fn delete_trs(&mut self, _: StateId) -> Result<()> {
        unimplemented!("stand-in")
    }

    fn pop_trs(&mut self, _: StateId) -> Result<Vec<Tr<W>>> {
        unimplemented!("stand-in")
    }

    unsafe fn pop_trs_unchecked(&mut self, _: StateId) -> Vec<Tr<W>> {
        unimplemented!("stand-in")
    }

    fn take_final_weight(&mut self, _: StateId) -> Result<Option<W>> {
        unimplemented!("stand-in")
    }

    unsafe fn take_final_weight_unchecked(&mut self, _: StateId) -> Option<W> {
        unimplemented!("stand-in")
    }

    fn sort_trs_unchecked<F: Fn(&Tr<W>, &Tr<W>) -> Ordering>(&mut self, _: StateId, _: F) {
        unimplemented!("stand-in")
    }

    unsafe fn unique_trs_unchecked(&mut self, _: StateId) {
        unimplemented!("stand-in")
    }

    unsafe fn sum_trs_unchecked(&mut self, _: StateId) {
        unimplemented!("stand-in")
    }
}
