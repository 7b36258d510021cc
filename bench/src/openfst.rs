//! OpenFst, where it is there.

use oracle::machine::Machine;

pub enum Made {}

pub enum String {}

extern "C" {
    fn openfst_new(states: u32, start: i32) -> *mut Made;
    fn openfst_link(made: *mut Made, source: u32, input: u32, output: u32, weight: f32, next: u32);
    fn openfst_end(made: *mut Made, state: u32, weight: f32);
    fn openfst_ready(made: *mut Made);
    fn openfst_free(made: *mut Made);
    fn openfst_distances(made: *const Made) -> u32;
    fn openfst_list(made: *const Made, n: i32) -> *mut Made;
    fn openfst_readings(made: *const Made) -> u32;
    fn openfst_copy(made: *const Made) -> *mut Made;
    fn openfst_sort(made: *mut Made, by_output: bool);
    fn openfst_compose(first: *const Made, second: *const Made, connected: bool) -> *mut Made;
    fn openfst_up_to(made: *const Made, node: i32) -> *mut Made;
    fn openfst_from(made: *const Made, node: i32) -> *mut Made;
    fn openfst_links(made: *const Made) -> u32;
    fn openfst_equal(one: *const Made, other: *const Made) -> bool;
    fn openfst_compile(text: *const u8, count: usize) -> *mut Made;
    fn openfst_print(made: *const Made) -> *mut String;
    fn openfst_write(made: *const Made) -> *mut String;
    fn openfst_read(bytes: *const u8, count: usize) -> *mut Made;
    fn openfst_bytes(string: *const String) -> *const u8;
    fn openfst_count(string: *const String) -> usize;
    fn openfst_drop(string: *mut String);
}

/// A machine of OpenFst.
pub struct OpenFst(*mut Made);

impl Drop for OpenFst {
    fn drop(&mut self) {
        unsafe { openfst_free(self.0) }
    }
}

impl OpenFst {
    pub fn built(machine: &Machine) -> Self {
        let start = machine.start.map_or(-1, |start| start as i32);
        unsafe {
            let made = openfst_new(machine.nodes.len() as u32, start);
            for (v, node) in machine.nodes.iter().enumerate() {
                for l in &node.links {
                    openfst_link(made, v as u32, l.input, l.output, l.weight, l.next);
                }
                if let Some(end) = node.end {
                    openfst_end(made, v as u32, end);
                }
            }
            openfst_ready(made);
            Self(made)
        }
    }

    /// The machine of text rows, with the states' own numbers.
    pub fn compiled(text: &[u8]) -> Self {
        unsafe { Self(openfst_compile(text.as_ptr(), text.len())) }
    }

    /// The machine of the bytes of a file.
    pub fn read(bytes: &[u8]) -> Self {
        unsafe { Self(openfst_read(bytes.as_ptr(), bytes.len())) }
    }

    /// Its text rows.
    pub fn printed(&self) -> Bytes {
        unsafe { Bytes(openfst_print(self.0)) }
    }

    /// The bytes of its file.
    pub fn written(&self) -> Bytes {
        unsafe { Bytes(openfst_write(self.0)) }
    }

    /// A copy that shares nothing.
    pub fn copied(&self) -> Self {
        unsafe { Self(openfst_copy(self.0)) }
    }

    /// Sorts the links of each state by output label, as a first machine to be composed has them.
    pub fn sort_as_first(&mut self) {
        unsafe { openfst_sort(self.0, true) }
    }

    /// The same by input label, for a second.
    pub fn sort_as_second(&mut self) {
        unsafe { openfst_sort(self.0, false) }
    }

    /// What two machines both allow: the states that the start reaches; of those on ways to a final state alone if connected.
    pub fn composed(&self, second: &Self, connected: bool) -> Self {
        unsafe { Self(openfst_compose(self.0, second.0, connected)) }
    }

    /// The machine up to a node, which is final at weight 0 and has no links, and the machine from the node on.
    pub fn parts(&self, node: u32) -> [Self; 2] {
        unsafe {
            [
                Self(openfst_up_to(self.0, node as i32)),
                Self(openfst_from(self.0, node as i32)),
            ]
        }
    }

    /// How many links there are.
    pub fn links(&self) -> usize {
        unsafe { openfst_links(self.0) as usize }
    }

    /// Whether both have the same states, links and weights.
    pub fn equals(&self, other: &Self) -> bool {
        unsafe { openfst_equal(self.0, other.0) }
    }

    pub fn distances(&self) -> usize {
        unsafe { openfst_distances(self.0) as usize }
    }

    pub fn list(&self, n: u32) -> Self {
        unsafe { Self(openfst_list(self.0, n as i32)) }
    }

    /// The links of a list's start: from n = 2 one a reading.
    pub fn readings(&self) -> usize {
        unsafe { openfst_readings(self.0) as usize }
    }
}

/// Bytes that OpenFst has made.
pub struct Bytes(*mut String);

impl Drop for Bytes {
    fn drop(&mut self) {
        unsafe { openfst_drop(self.0) }
    }
}

impl std::ops::Deref for Bytes {
    type Target = [u8];

    fn deref(&self) -> &[u8] {
        unsafe { std::slice::from_raw_parts(openfst_bytes(self.0), openfst_count(self.0)) }
    }
}
