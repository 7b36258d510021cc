//! What is said of an input that is refused: the number, what it means, and where the fault is.
#![forbid(unsafe_code)]

use yeldmur::Refusal;

use super::{document, line, Outcome, Status};
use crate::args::Options;
use crate::diagnose::{fault, Fault, Tests};
use crate::input::{Input, Source};

pub(super) fn outcome(
    options: &Options,
    source: &Source,
    input: &Input,
    refusal: Refusal,
) -> Outcome {
    let place = place(input, refusal);
    let mut outcome = refused(refusal, &place);
    if options.json {
        let document = document(source)
            .value("refused", refusal.number())
            .text("meaning", refusal.words())
            .text("place", &place);
        outcome.output = line(document);
    }
    outcome
}

/// The message alone, with the place in words.
pub(super) fn refused(refusal: Refusal, place: &str) -> Outcome {
    Outcome {
        output: Vec::new(),
        second: Vec::new(),
        message: Some(format!("{}: {place}", said(refusal))),
        status: Status::Refused,
    }
}

/// A refusal for people, in few words where the place is named behind them.
pub(super) fn said(refusal: Refusal) -> String {
    let words = match refusal {
        Refusal::Layout => "the layout is not that of a sheet",
        Refusal::Rows => "rows that cannot be read",
        Refusal::Unit => "a unit that does not fit",
        _ => refusal.words(),
    };
    format!("refused {}: {words}", refusal.number())
}

/// Where the fault behind a refusal is, in words.
pub(super) fn place(input: &Input, refusal: Refusal) -> String {
    let tests = match refusal {
        Refusal::NoRows => Tests::Rows,
        Refusal::Labels => Tests::Labels,
        _ => Tests::Search,
    };
    worded(fault(input.form, &input.bytes, tests), refusal)
}

/// A fault in words, where it is found with the number of the refusal.
pub(super) fn worded(found: Option<Fault>, refusal: Refusal) -> String {
    let same = found.filter(|fault| fault.number == refusal.number());
    match (same, refusal) {
        (Some(fault), _) => fault.to_string(),
        (None, Refusal::ResultArea) => "there is no memory for the sheet".to_string(),
        (None, _) => "the place was not found; please report this".to_string(),
    }
}

#[cfg(test)]
mod tests {
    use super::*;

    #[test]
    fn a_place_is_named_for_its_own_number_alone() {
        let input = Input::new(b"0 x\n".to_vec());
        assert!(place(&input, Refusal::Rows).starts_with("row 1, column 3: "));
        let other = "the place was not found; please report this";
        assert_eq!(place(&input, Refusal::Weight), other);
        assert_eq!(place(&Input::new(b"0\n".to_vec()), Refusal::Climb), other);
    }
}
