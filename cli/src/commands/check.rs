//! `check`: whether a search accepts an input, and if not, what is wrong and where.
#![forbid(unsafe_code)]

use yeldmur::{raw, Refusal, Sheet};

use super::refused::{place, said};
use super::{counted, document, line, Outcome, Status};
use crate::args::Options;
use crate::diagnose::{fault, Fault, Form, Place, Tests};
use crate::input::{Input, Source};
use crate::json::Object;

/// The library's verdict beside the place that is found apart from it.
pub(super) fn outcome(options: &Options, source: &Source, input: &Input) -> Outcome {
    let found = fault(input.form, &input.bytes, Tests::Search);
    compared(options, source, input, input.accepted(), found)
}

// Where the two differ it is said, and nothing else.
fn compared(
    options: &Options,
    source: &Source,
    input: &Input,
    accepted: Result<Sheet, Refusal>,
    found: Option<Fault>,
) -> Outcome {
    let document = document(source).text("form", input.form.name());
    let (verdict, status) = match (accepted, found) {
        (Ok(sheet), None) => (accepted_as(document, input, &sheet), Status::Done),
        (Err(refusal), Some(fault)) if fault.number == refusal.number() => {
            (refused_as(document, refusal, &fault), Status::Refused)
        }
        (accepted, found) => return Outcome::failed(differ(accepted.err(), found)),
    };
    let output = if options.json {
        line(verdict.document)
    } else {
        format!("{source}: {}\n", verdict.words).into_bytes()
    };
    Outcome {
        output,
        second: Vec::new(),
        message: None,
        status,
    }
}

// For people and for programs.
struct Verdict {
    words: String,
    document: Object,
}

fn accepted_as(document: Object, input: &Input, sheet: &Sheet) -> Verdict {
    let (nodes, links, finals) = (sheet.node_count(), sheet.link_count(), sheet.final_count());
    let start = sheet
        .start()
        .map_or("no start".to_string(), |start| format!("start {start}"));
    let rows = raw::sheet_rows_bytes(sheet.bytes());
    // rows have no trailer, and are in the unit that the shorter means
    let trailer = (input.form == Form::Sheet).then(|| sheet.trailer().bytes());
    let document = document
        .value("accepted", true)
        .value("nodes", nodes)
        .value("links", links)
        .value("finals", finals)
        .option("start", sheet.start())
        .value("unit", sheet.unit().count())
        .option("trailer", trailer)
        .value("rows", rows.is_ok());
    let (form, nodes) = (input.form.name(), counted(nodes as usize, "node"));
    let links = counted(links as usize, "link");
    let unit = sheet.unit();
    let trailer = trailer.map_or(String::new(), |bytes| format!(", trailer of {bytes} bytes"));
    let without = rows.err().map(|refusal| place(input, refusal));
    let without = without.map_or(String::new(), |place| format!("; it has no rows: {place}"));
    let counts = format!("{nodes}, {links}, {finals} final, {start}");
    Verdict {
        words: format!("accepted: {form}, {counts}, unit {unit}{trailer}{without}"),
        document,
    }
}

fn refused_as(document: Object, refusal: Refusal, fault: &Fault) -> Verdict {
    let document = document
        .value("accepted", false)
        .value("refused", refusal.number())
        .text("meaning", refusal.words())
        .text("place", &fault.to_string());
    Verdict {
        words: format!("{}: {fault}", said(refusal)),
        document: placed(document, fault.place),
    }
}

fn placed(document: Object, place: Place) -> Object {
    match place {
        Place::Whole => document,
        Place::Text { row, column } => document.value("row", row).value("column", column),
        Place::Field(field) => document.text("field", field),
        Place::Link(link) => document.value("link", link),
        Place::Node(node) => document.value("node", node),
    }
}

fn differ(refusal: Option<Refusal>, found: Option<Fault>) -> String {
    let library = refusal.map_or("accepts it".to_string(), |refusal| {
        format!("says: {}", said(refusal))
    });
    let here = found.map_or("finds no fault".to_string(), |fault| {
        format!("finds {}: {fault}", fault.number)
    });
    format!("the library {library}, and this command {here}. One of them is wrong: please report this with the input")
}

#[cfg(test)]
mod tests {
    use super::*;
    use crate::args::{parse, Request};

    fn compare(accepted: Result<Sheet, Refusal>, found: Option<Fault>) -> Outcome {
        let arguments = ["check", "x"].map(Into::into).into_iter();
        let Ok(Request::Answer(options)) = parse(arguments) else {
            panic!("these are good arguments");
        };
        let input = Input::new(b"0\n".to_vec());
        compared(&options, &options.inputs[0], &input, accepted, found)
    }

    fn fault_of(number: u32) -> Option<Fault> {
        Some(Fault::new(number, Place::Whole, "too long"))
    }

    #[test]
    fn agreement() {
        let sheet = || Ok(Sheet::from_rows(b"0\n").unwrap());
        assert_eq!(compare(sheet(), None).status, Status::Done);
        let refused = compare(Err(Refusal::Start), fault_of(2));
        assert_eq!(refused.status, Status::Refused);
        assert_eq!(
            refused.output,
            b"x: refused 2: start neither below N nor none: too long\n"
        );
    }

    #[test]
    fn a_difference_is_said_plainly() {
        let sheet = Sheet::from_rows(b"0\n").unwrap();
        for (accepted, found, said) in [
            (
                Err(Refusal::Start),
                fault_of(1),
                "the library says: refused 2: start neither below N nor none, and this command finds 1: too long.",
            ),
            (
                Err(Refusal::Start),
                None,
                "the library says: refused 2: start neither below N nor none, and this command finds no fault.",
            ),
            (
                Ok(sheet),
                fault_of(1),
                "the library accepts it, and this command finds 1: too long.",
            ),
        ] {
            let outcome = compare(accepted, found);
            assert_eq!((outcome.status, outcome.output.len()), (Status::Failed, 0));
            let message = outcome.message.unwrap();
            assert_eq!(
                message,
                format!("{said} One of them is wrong: please report this with the input")
            );
        }
    }
}
