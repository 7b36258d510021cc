//! Stand-in for the making of a machine from text rows, which are read by the published parser.

use anyhow::Result;

use crate::fst_impls::VectorFst;
use crate::fst_traits::MutableFst;
use crate::parsers::text_fst::parsed_text_fst::RowParsed;
use crate::parsers::text_fst::vec_rows_parsed;
use crate::semirings::SerializableSemiring;
use crate::{StateId, Tr};

fn highest<W>(row: &RowParsed<W>) -> StateId {
    match row {
        RowParsed::Transition(t) => t.state.max(t.nextstate),
        RowParsed::FinalState(f) => f.state,
        RowParsed::InfinityFinalState(state) => *state,
    }
}

fn source<W>(row: &RowParsed<W>) -> StateId {
    match row {
        RowParsed::Transition(t) => t.state,
        RowParsed::FinalState(f) => f.state,
        RowParsed::InfinityFinalState(state) => *state,
    }
}

impl<W: SerializableSemiring> VectorFst<W> {
    /// The machine of the rows that the parser reads, and the text that it leaves unread. The first
    /// row's first state is the start, states run to the highest, and an absent weight is one. A
    /// machine of more than so many states is not made.
    pub fn from_text_rows(text: &str, states: StateId) -> Result<Option<(Self, &str)>> {
        let (rest, rows) = vec_rows_parsed::<W>(text).map_err(|e| e.to_owned())?;
        let mut fst = Self::new();
        if let Some(last) = rows.iter().map(highest).max() {
            if states <= last {
                return Ok(None);
            }
            fst.add_states(last as usize + 1);
            fst.set_start(source(&rows[0]))?;
        }
        for row in rows {
            match row {
                RowParsed::Transition(t) => {
                    let weight = t.weight.unwrap_or_else(W::one);
                    fst.add_tr(t.state, Tr::new(t.ilabel, t.olabel, weight, t.nextstate))?;
                }
                RowParsed::FinalState(f) => {
                    fst.set_final(f.state, f.weight.unwrap_or_else(W::one))?;
                }
                RowParsed::InfinityFinalState(_) => {}
            }
        }
        Ok(Some((fst, rest)))
    }
}
