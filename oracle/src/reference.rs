//! The calls into the Rust. Its answers come from the crate `published`. The crate `counted` is the
//! same but for the count of entries taken, and must answer the same.

use crate::bytes;
use crate::machine::Machine;

/// The two calls that the requirements name as the reference, made into one build of the Rust.
macro_rules! calls {
    ($name:ident, $rust:ident) => {
        mod $name {
            use crate::machine::{Form, Link, Machine, Node};
            use $rust::algorithms::queues::AutoQueue;
            use $rust::algorithms::tr_filters::AnyTrFilter;
            use $rust::algorithms::{shortest_distance_with_config, shortest_path_with_config};
            use $rust::algorithms::{ShortestDistanceConfig, ShortestPathConfig};
            use $rust::fst_impls::VectorFst;
            use $rust::fst_properties::FstProperties;
            use $rust::fst_traits::{CoreFst, ExpandedFst, MutableFst};
            use $rust::semirings::{Semiring, TropicalWeight};
            use $rust::{Tr, Trs};

            pub type Fst = VectorFst<TropicalWeight>;

            /// The Rust's machine, held to be one that it relaxes in the order of states: the
            /// published functions gave it TOP_SORTED, and with it `AutoQueue` takes that queue.
            pub fn built(machine: &Machine) -> Fst {
                let mut fst = Fst::new();
                fst.add_states(machine.nodes.len());
                for (state, node) in machine.nodes.iter().enumerate() {
                    if let Some(end) = node.end {
                        fst.set_final(state as u32, end).unwrap();
                    }
                    for l in &node.links {
                        let tr = Tr::new(l.input, l.output, l.weight, l.next);
                        fst.add_tr(state as u32, tr).unwrap();
                    }
                }
                if let Some(start) = machine.start {
                    fst.set_start(start).unwrap();
                }
                assert!(fst.properties().contains(FstProperties::TOP_SORTED));
                let queue = AutoQueue::new(&fst, None, &AnyTrFilter {}).unwrap();
                assert!(format!("{queue:?}").starts_with("AutoQueue { queue: StateOrderQueue {"));
                fst
            }

            /// The Rust's machine as plain data. It knows of no unit.
            pub fn plain(fst: &Fst) -> Machine {
                let node = |state| Node {
                    end: fst.final_weight(state).unwrap().map(|w| w.take_value()),
                    links: (fst.get_trs(state).unwrap().trs().iter())
                        .map(|tr| Link {
                            input: tr.ilabel,
                            output: tr.olabel,
                            weight: *tr.weight.value(),
                            next: tr.nextstate,
                        })
                        .collect(),
                };
                Machine {
                    nodes: fst.states_range().map(node).collect(),
                    start: fst.start(),
                    form: Form::Short,
                }
            }

            #[allow(dead_code)]
            pub fn distances(machine: &Machine) -> Vec<f32> {
                let config = ShortestDistanceConfig::new(1e-6);
                let distances = shortest_distance_with_config(&built(machine), false, config);
                distances.unwrap().iter().map(|d| *d.value()).collect()
            }

            /// The machine that the Rust reads from text rows, and the text that it leaves unread.
            #[allow(dead_code)]
            pub fn from_rows(text: &str, states: u32) -> Option<(Machine, &str)> {
                let (fst, rest) = Fst::from_text_rows(text, states).unwrap()?;
                Some((plain(&fst), rest))
            }

            pub fn list(machine: &Machine, n: usize) -> Machine {
                let config = ShortestPathConfig::new(1e-6, n, false);
                let list: Fst = shortest_path_with_config(&built(machine), config).unwrap();
                Machine {
                    form: machine.form,
                    ..plain(&list)
                }
            }
        }
    };
}

calls!(in_published, published);
calls!(in_counted, counted);

pub use in_published::{built, from_rows, plain, Fst};

/// The Rust's distances. Its vector grows to each node that it meets, reached or led to by a barred link.
pub fn distances(machine: &Machine) -> Vec<f32> {
    in_published::distances(machine)
}

/// The word of a link that repeats no input link.
pub const NONE: u32 = u32::MAX;

pub struct List {
    pub machine: Machine,
    /// For each link of the machine the number of the input link that it repeats, or `NONE`.
    pub words: Vec<u32>,
    /// How many entries the search took: 0 for n below 2.
    pub taken: usize,
}

/// The Rust's list, in the machine's form. The Rust doesn't say which input links it repeats. So the links are given
/// labels that tell them apart, and their own labels are put back in the answer; the answer to
/// the machine with its own labels must be that very machine.
pub fn list(machine: &Machine, n: usize) -> List {
    let mut told_apart = machine.clone();
    for (number, link) in told_apart.links_mut().enumerate() {
        link.input = number as u32 + 1;
        link.output = number as u32 + 1;
    }
    let mut answer = in_published::list(&told_apart, n);
    let links: Vec<_> = machine.links().collect();
    let mut words = vec![];
    for link in answer.links_mut() {
        assert_eq!(link.input, link.output);
        let word = link.input.checked_sub(1).unwrap_or(NONE);
        if word != NONE {
            link.input = links[word as usize].input;
            link.output = links[word as usize].output;
        }
        words.push(word);
    }
    assert!(bytes::sheet(&in_published::list(machine, n)) == bytes::sheet(&answer));
    counted::TAKEN.set(0);
    assert!(bytes::sheet(&in_counted::list(machine, n)) == bytes::sheet(&answer));
    List {
        machine: answer,
        words,
        taken: counted::TAKEN.get(),
    }
}
