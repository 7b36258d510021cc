//! Machines, made ready for each contender, and the calls that are timed on them.

use std::cell::RefCell;
use std::fmt;
use std::time::Duration;

use oracle::machine::Machine;

use crate::clock::{rounds, timed, Run};
#[cfg(openfst)]
use crate::openfst::OpenFst;
use crate::port::Port;
use crate::rust;

/// The calls: distances, or a list for n.
#[derive(Clone, Copy, PartialEq)]
pub enum Call {
    Distances,
    List(u32),
}

impl fmt::Display for Call {
    fn fmt(&self, f: &mut fmt::Formatter) -> fmt::Result {
        match self {
            Call::Distances => write!(f, "distances"),
            Call::List(n) => write!(f, "n = {n}"),
        }
    }
}

/// Least times in microseconds: a plain clearing of the work slots needed, the library in areas that are kept and in areas made anew,
/// the Rust, and OpenFst where it is there.
#[derive(Clone, Copy)]
pub struct Times {
    pub clearing: f64,
    pub kept: f64,
    pub anew: f64,
    pub rust: f64,
    pub openfst: Option<f64>,
}

impl Times {
    fn of(times: &[f64]) -> Self {
        Self {
            clearing: times[0],
            kept: times[1],
            anew: times[2],
            rust: times[3],
            openfst: times.get(4).copied(),
        }
    }

    pub fn lesser(self, other: Self) -> Self {
        Self {
            clearing: self.clearing.min(other.clearing),
            kept: self.kept.min(other.kept),
            anew: self.anew.min(other.anew),
            rust: self.rust.min(other.rust),
            openfst: self.openfst.zip(other.openfst).map(|(a, b)| a.min(b)),
        }
    }
}

pub struct Ready {
    port: RefCell<Port>,
    fresh: Port,
    rust: Vec<rust::Fst>,
    #[cfg(openfst)]
    openfst: Vec<OpenFst>,
}

impl Ready {
    pub fn new(machines: &[Machine]) -> Self {
        let ready = Self {
            port: RefCell::new(Port::new(machines)),
            fresh: Port::new(machines),
            rust: machines.iter().map(rust::built).collect(),
            #[cfg(openfst)]
            openfst: machines.iter().map(OpenFst::built).collect(),
        };
        for machine in 0..machines.len() {
            ready.agree(machine);
        }
        ready
    }

    /// The library finds the Rust's distances, and all find as many, and as many readings for n = 2.
    fn agree(&self, machine: usize) {
        let distances = rust::distances(&self.rust[machine]);
        let reached: Vec<Option<f32>> = distances.iter().map(rust::reached).collect();
        assert_eq!(self.fresh.values(machine), reached);
        let count = self.port.borrow_mut().distances(machine);
        assert_eq!(count, reached.len());
        let (readings, _) = self.port.borrow_mut().list(machine, 2);
        assert_eq!(
            readings,
            rust::readings(&rust::list(&self.rust[machine], 2))
        );
        #[cfg(openfst)]
        {
            assert_eq!(count, self.openfst[machine].distances());
            assert_eq!(readings, self.openfst[machine].list(2).readings());
        }
    }

    /// The entries that the search takes on the first machine.
    pub fn taken(&self, call: Call) -> u32 {
        match call {
            Call::Distances => 0,
            Call::List(n) => self.port.borrow_mut().list(0, n).1,
        }
    }

    /// Whether the first machine has a reading.
    pub fn has_reading(&self) -> bool {
        self.port.borrow_mut().list(0, 1).0 == 1
    }

    /// The times of a call on the first so many machines, in turn.
    pub fn times(&self, call: Call, machines: usize, time: Duration) -> Times {
        let mut runs = match call {
            Call::Distances => self.distance_runs(),
            Call::List(n) => self.list_runs(n),
        };
        Times::of(&rounds(&mut runs, machines, time))
    }

    fn distance_runs(&self) -> Vec<Run<'_>> {
        vec![
            timed(|m| self.port.borrow_mut().clear(m, 1)),
            timed(|m| self.port.borrow_mut().distances(m)),
            timed(|m| self.fresh.distances_anew(m)),
            timed(|m| rust::distances(&self.rust[m])),
            #[cfg(openfst)]
            timed(|m| self.openfst[m].distances()),
        ]
    }

    fn list_runs(&self, n: u32) -> Vec<Run<'_>> {
        vec![
            timed(move |m| self.port.borrow_mut().clear(m, n)),
            timed(move |m| self.port.borrow_mut().list(m, n)),
            timed(move |m| self.fresh.list_anew(m, n)),
            timed(move |m| rust::list(&self.rust[m], n)),
            #[cfg(openfst)]
            timed(move |m| self.openfst[m].list(n)),
        ]
    }
}
