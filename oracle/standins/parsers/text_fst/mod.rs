//! Stand-in for the list of modules of `text_fst`, and for what its parser makes.

mod nom_parser;

pub use nom_parser::vec_rows_parsed;

pub mod parsed_text_fst {
    use crate::{Label, StateId};

    pub struct Transition<W> {
        pub state: StateId,
        pub ilabel: Label,
        pub olabel: Label,
        pub weight: Option<W>,
        pub nextstate: StateId,
    }

    pub struct FinalState<W> {
        pub state: StateId,
        pub weight: Option<W>,
    }

    pub enum RowParsed<W> {
        Transition(Transition<W>),
        FinalState(FinalState<W>),
        InfinityFinalState(StateId),
    }
}
