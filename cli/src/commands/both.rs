//! `both`: the sheet of what two machines both allow.
#![forbid(unsafe_code)]

use yeldmur::{two_probes, Refusal, Sheet};

use super::refused::{self, refused, worded};
use super::{read, Outcome};
use crate::args::Options;
use crate::diagnose::{fault, fault_of_both, Tests};
use crate::input::{Input, Source};

// An input of the two, and where it comes from.
struct Given<'a> {
    source: &'a Source,
    input: Input,
}

pub(super) fn outcome(options: &Options) -> Outcome {
    let told = sheet(options).map(|sheet| Outcome::done(sheet.into_bytes()));
    told.unwrap_or_else(|outcome| outcome)
}

// The sheet, or what comes of it where there is none. Both are read before either is tested.
fn sheet(options: &Options) -> Result<Sheet, Outcome> {
    let [first, second] = [0, 1].map(|place| given(&options.inputs[place]));
    let (first, second) = (first?, second?);
    let one = accepted(options, &first)?;
    let other = accepted_beside(&one, options, &second)?;
    two_probes(&one, &other).map_err(|refusal| match refusal {
        Refusal::Labels => refused_alone(options, labelled_wrong(&first, &second), refusal),
        _ => {
            let place = worded(fault_of_both(&one, &other), refusal);
            let both = format!("{} and {}", first.source, second.source);
            refused(refusal, &place).about(both)
        }
    })
}

fn given(source: &Source) -> Result<Given<'_>, Outcome> {
    let input = read(source).map_err(|unread| unread.about(source))?;
    Ok(Given { source, input })
}

// Each input is tested by itself, the first before the second as the library has it, so that a refusal names the one that it is about.
fn accepted(options: &Options, given: &Given) -> Result<Sheet, Outcome> {
    let told = given.input.accepted();
    told.map_err(|refusal| refused_alone(options, given, refusal))
}

// The second is refused with 14 for a unit other than the first's, too.
fn accepted_beside(one: &Sheet, options: &Options, given: &Given) -> Result<Sheet, Outcome> {
    let Given { source, input } = given;
    input.accepted_beside(one).map_err(|refusal| match refusal {
        Refusal::Unit => {
            let found = fault(input.form, &input.bytes, Tests::Second(one.unit()));
            refused(refusal, &worded(found, refusal)).about(source)
        }
        _ => refused_alone(options, given, refusal),
    })
}

fn refused_alone(options: &Options, given: &Given, refusal: Refusal) -> Outcome {
    let Given { source, input } = given;
    refused::outcome(options, source, input, refusal).about(source)
}

// The one that 10 is about: the first where it has such a label, else the second.
fn labelled_wrong<'a>(first: &'a Given<'a>, second: &'a Given<'a>) -> &'a Given<'a> {
    match fault(first.input.form, &first.input.bytes, Tests::Labels) {
        Some(_) => first,
        None => second,
    }
}
