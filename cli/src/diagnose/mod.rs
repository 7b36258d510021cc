//! Where an input is at fault. The library tells a refusal by its number alone; this module finds the place, and the number once more, apart
//! from the library. To do so it reads the bytes of an *input* by itself, as a damaged field has to be named that no call would hand out.
//! It reads no result, and nothing that is answered comes from here; the rest of the command reads no bytes at all.
#![forbid(unsafe_code)]

mod both;
mod form;
mod rows;
mod sheet;
mod weight;

use std::fmt;

use yeldmur::Unit;

pub use both::fault as fault_of_both;
pub use form::{form, Form};

/// Which tests are made, of a sheet: 1, 14 and 2 to 4, then those of a search, with or without that of labels or of a node, or that of rows.
/// Of rows: 8, 1 and 4, then the same.
#[derive(Clone, Copy, Debug, PartialEq, Eq)]
pub enum Tests {
    /// 5 and 6.
    Search,
    /// 5, 6 and 10, of a sheet that is one of two.
    Labels,
    /// 5 and 6, of the second of two sheets, whose 14 is also another unit than this, the first's. Rows are given it after 4.
    Second(Unit),
    /// 5, 6 and 13, of a sheet that is to narrow to this node.
    Narrow(u32),
    /// 9.
    Rows,
}

/// A fault: the number of its refusal, where it is, and what is wrong there.
#[derive(Clone, Debug, PartialEq, Eq)]
pub struct Fault {
    /// The refusal's number.
    pub number: u32,
    /// Where it is.
    pub place: Place,
    /// What is wrong there.
    pub why: String,
}

/// Where a fault is.
#[derive(Clone, Copy, Debug, PartialEq, Eq)]
pub enum Place {
    /// The input as a whole.
    Whole,
    /// A row and a column of a text, from 1. Columns count bytes.
    Text {
        /// The row.
        row: usize,
        /// The column.
        column: usize,
    },
    /// A field of a sheet's trailer, or a figure of the whole sheet.
    Field(&'static str),
    /// A link of a sheet, by its number.
    Link(u32),
    /// A node of a sheet, by its number.
    Node(u32),
}

impl Fault {
    /// A fault of this number at this place.
    pub fn new(number: u32, place: Place, why: impl Into<String>) -> Fault {
        Fault {
            number,
            place,
            why: why.into(),
        }
    }
}

impl fmt::Display for Fault {
    fn fmt(&self, f: &mut fmt::Formatter<'_>) -> fmt::Result {
        match self.place {
            Place::Whole => {}
            Place::Text { row, column } => write!(f, "row {row}, column {column}: ")?,
            Place::Field(field) => write!(f, "{field}: ")?,
            Place::Link(link) => write!(f, "link {link}: ")?,
            Place::Node(node) => write!(f, "node {node}: ")?,
        }
        f.write_str(&self.why)
    }
}

/// The first fault of an input that these tests find, or none.
pub fn fault(form: Form, bytes: &[u8], tests: Tests) -> Option<Fault> {
    match form {
        Form::Rows => rows::fault(bytes, tests),
        Form::Sheet => sheet::fault(bytes, tests),
    }
}
