//! Stand-in for `connect`, which is not published with the rest. It follows the requirements: states
//! off every way from the start to a final state are deleted, the others are renumbered in rising
//! old number. Deleting and renumbering is `del_states` of the stand-in for `VectorFst`.

use anyhow::Result;

use crate::fst_traits::MutableFst;
use crate::semirings::Semiring;
use crate::{StateId, Trs};

pub fn connect<W: Semiring, F: MutableFst<W>>(fst: &mut F) -> Result<()> {
    let states = fst.num_states();
    let mut forth = vec![vec![]; states];
    let mut back = vec![vec![]; states];
    let mut finals = vec![];
    for state in fst.states_range() {
        for tr in fst.get_trs(state)?.trs() {
            forth[state as usize].push(tr.nextstate);
            back[tr.nextstate as usize].push(state);
        }
        if fst.is_final(state)? {
            finals.push(state);
        }
    }
    let led_to = reached(&forth, fst.start().into_iter().collect());
    let leading = reached(&back, finals);
    let off = |state: &StateId| !led_to[*state as usize] || !leading[*state as usize];
    fst.del_states(fst.states_range().filter(off).collect::<Vec<_>>())
}

/// Which states the steps lead to from some first ones, these included.
fn reached(steps: &[Vec<StateId>], first: Vec<StateId>) -> Vec<bool> {
    let mut seen = vec![false; steps.len()];
    let mut more = first;
    while let Some(state) = more.pop() {
        if !seen[state as usize] {
            seen[state as usize] = true;
            more.extend(&steps[state as usize]);
        }
    }
    seen
}
