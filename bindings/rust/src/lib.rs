//! Distances and lists of the cheapest readings of a machine, the machine of what two both allow, and the two parts of one that narrows to
//! a node, proved: this crate is a safe layer over Yeldmur's static library.
//!
//! A *sheet* is a machine of nodes and links, as bytes. A *reading* is a run of links from its start to a final node; its cost
//! is the sum of its weights and the final weight, and is finite. Of every sheet that it accepts, and for every n from 1 to 64, the
//! library is proved to list as many readings as the smaller of n and the number of readings: each once, in order of cost, and none left
//! out that is cheaper. Results and sheets are read back by the library's own calls, which are proved too. What this crate adds, memory for the
//! areas and for what is read back, is plain Rust with tests.
//!
//! ```
//! use yeldmur::{distances, list, Refusal, Sheet};
//!
//! # fn main() -> Result<(), Refusal> {
//! // text rows: a link's source, next node, two labels and weight, or a final node and its weight
//! let sheet: Sheet = "0 1 1 1 1
//!                     0 2 2 2 0.5
//!                     1 3 3 3 0.25
//!                     1 2 5 5
//!                     2 3 4 4 0.75
//!                     3 0.5\n".parse()?;
//! assert_eq!(distances(&sheet)?, [0.0, 1.0, 0.5, 1.25].map(Some)); // `None` for an unreached node
//!
//! let list = list(&sheet, 3)?;
//! assert_eq!(list.taken(), 11);
//! let costs: Vec<i32> = list.readings().map(|reading| reading.cost()).collect();
//! assert_eq!(costs, [112, 112, 144]); // in sixty-fourths
//! let third = list.reading(2).unwrap();
//! let labels: Vec<u32> = third.links().map(|link| link.ilabel).collect();
//! assert_eq!((labels, third.end()), (vec![1, 5, 4], 3));
//! # Ok(())
//! # }
//! ```
//!
//! A link or a final node may be barred, by a weight of [`BARRED`], which rows write as `Infinity`: no reading goes over it.
//!
//! ```
//! use yeldmur::{distances, list, Refusal, Sheet, BARRED};
//!
//! # fn main() -> Result<(), Refusal> {
//! let sheet = Sheet::from_rows(b"0 1 1 1 0.5\n0 2 2 2 Infinity\n1\n2\n")?;
//! assert_eq!(sheet.link(1).unwrap().weight, BARRED);
//! assert_eq!(list(&sheet, 10)?.len(), 1);
//! assert_eq!(distances(&sheet)?, [Some(0.0), Some(0.5), None]);
//! # Ok(())
//! # }
//! ```
//!
//! Old controllers score events in 1/64, new ones in 1/256. A sheet's longer trailer says its [`Unit`]; with the shorter it is 1/64. Costs are
//! whole numbers of the sheet's own unit, and [`Reading::cost_with_unit`] has both, so that costs of either kind compare and are shown as they are.
//!
//! ```
//! use yeldmur::{list, Link, Refusal, Sheet, Unit};
//!
//! # fn main() -> Result<(), Refusal> {
//! let link = Link { source: 0, ilabel: 7, olabel: 7, weight: 1.75, next: 1 };
//! let old = Sheet::write(&[link], &[None, Some(0.0)], Some(0))?;
//! let new = Sheet::write_in(&[link], &[None, Some(0.0)], Some(0), Unit::Of256)?;
//! let (old, new) = (list(&old, 1)?, list(&new, 1)?);
//! let (old, new) = (old.reading(0).unwrap(), new.reading(0).unwrap());
//! assert_eq!((old.cost(), new.cost()), (112, 448)); // in 64ths, in 256ths
//! assert_eq!(old.cost_with_unit(), new.cost_with_unit());
//! assert_eq!(new.cost_with_unit().to_string(), "1.75");
//! # Ok(())
//! # }
//! ```
//!
//! The front of a list is a value, too, by [`List::front`]: its costs are those of the list for its count, and it says whether that list
//! may hold other readings of the last cost.
//!
//! Two sheets of the same bake give the sheet of what both allow, by [`two_probes`]: its readings are the pairs of readings with the same
//! labels, and cost their sum. A sheet that narrows to a node, as where preheat ends, has two parts, by [`split`]: the costs of the whole's
//! list are the least sums of one cost from each part's.
//!
//! A program that has its links as numbers hands them to [`Sheet::write`]; bytes that were written before go to [`Sheet::read`].
//!
//! A sheet or a text that is not as it should be, or too large an n, is refused with the number that the requirements give it:
//!
//! ```
//! use yeldmur::{Refusal, Sheet};
//!
//! let refused = Sheet::read([0; 19]).unwrap_err();
//! assert_eq!(refused, Refusal::Layout);
//! assert_eq!(refused.number(), 1);
//! ```
//!
//! Calls in a loop can keep their memory in [`Areas`]. [`raw`] has the library's calls themselves, in areas that the caller
//! lends, and [`ffi`] the same by their numbers.
#![deny(missing_docs)]
// each module but `ffi` forbids it; here a `forbid` could not be lifted for that one
#![deny(unsafe_code)]

pub mod ffi;
mod layout;
mod limits;
mod list;
mod parts;
mod probes;
pub mod raw;
mod refusal;
mod rows;
mod sheet;
mod units;

pub use layout::Trailer;
pub use limits::{LINK_LIMIT, LIST_LIMIT, NODE_LIMIT, WEIGHT_LIMIT};
pub use list::{distances, list, Areas, Front, List, Reading};
pub use parts::{split, Part, Parts};
pub use probes::two_probes;
pub use refusal::Refusal;
pub use sheet::{Link, Sheet};
pub use units::{units, Cost, Unit, BARRED};

// has the examples in both README.md files run as tests
#[cfg(doctest)]
#[doc = include_str!("../README.md")]
struct Readme;

#[cfg(doctest)]
#[doc = include_str!("../../../README.md")]
struct RepositoryReadme;
