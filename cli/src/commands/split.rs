//! `split`: the two parts of a machine that narrows to a node.
#![forbid(unsafe_code)]

use yeldmur::{split, Parts, Refusal};

use super::refused::{self, refused, worded};
use super::Outcome;
use crate::args::Options;
use crate::diagnose::{fault, Tests};
use crate::input::{Input, Source};

pub(super) fn outcome(options: &Options, source: &Source, input: &Input) -> Outcome {
    let told = input.sheet_to_search();
    match told.and_then(|sheet| split(&sheet, options.node)) {
        Ok(Parts { first, second }) => Outcome {
            second: second.into_sheet().into_bytes(),
            ..Outcome::done(first.into_sheet().into_bytes())
        },
        Err(Refusal::Narrow) => {
            let found = fault(input.form, &input.bytes, Tests::Narrow(options.node));
            refused(Refusal::Narrow, &worded(found, Refusal::Narrow))
        }
        Err(refusal) => refused::outcome(options, source, input, refusal),
    }
}
