//! The library's own calls, in areas that are kept and in areas that are made anew for each call; lists are not read back.

use std::hint::black_box;

use oracle::bytes;
use oracle::machine::Machine;
use yeldmur::raw::{self, Needed};
use yeldmur::Sheet;

/// Sheets, and areas that serve them all.
pub struct Port {
    sheets: Vec<Sheet>,
    work: Vec<u32>,
    result: Vec<u8>,
    plain: Vec<u32>,
}

impl Port {
    pub fn new(machines: &[Machine]) -> Self {
        let sheet = |machine| Sheet::read(bytes::sheet(machine)).expect("a sheet");
        Self::of(machines.iter().map(sheet).collect())
    }

    pub fn of(sheets: Vec<Sheet>) -> Self {
        Self {
            sheets,
            work: vec![],
            result: vec![],
            plain: vec![],
        }
    }

    fn needed(&self, machine: usize, n: u32) -> Needed {
        let sheet = &self.sheets[machine];
        let counts = [sheet.node_count(), sheet.link_count(), sheet.final_count()];
        raw::areas_of(counts[0], counts[1], counts[2], n).expect("accepted")
    }

    fn fit(&mut self, machine: usize, n: u32) {
        let needed = self.needed(machine, n);
        if self.work.len() < needed.words() {
            self.work = vec![0; needed.words()];
        }
        if self.result.len() < needed.bytes {
            self.result = vec![0; needed.bytes];
        }
    }

    /// Clears as many words as a list for n needs, and does nothing else: the least that a call which leaves them zero costs.
    pub fn clear(&mut self, machine: usize, n: u32) {
        let words = self.needed(machine, n).words();
        if self.plain.len() < words {
            self.plain = vec![1; words];
        }
        black_box(&mut self.plain[..words]).fill(0);
    }

    /// How many distances there are.
    pub fn distances(&mut self, machine: usize) -> usize {
        self.fit(machine, 1);
        let sheet = self.sheets[machine].bytes();
        raw::shortest_distance(sheet, &mut self.work, &mut self.result).expect("accepted") as usize
    }

    /// How many readings are listed, and how many entries were taken.
    pub fn list(&mut self, machine: usize, n: u32) -> (usize, u32) {
        self.fit(machine, n);
        let sheet = self.sheets[machine].bytes();
        let listed = raw::shortest_path(sheet, n, &mut self.work, &mut self.result).expect("accepted");
        let readings = raw::readings(&self.result, n, listed).expect("an answer");
        (readings as usize, listed.taken)
    }

    /// The distances, read back.
    pub fn values(&self, machine: usize) -> Vec<Option<f32>> {
        yeldmur::distances(&self.sheets[machine]).expect("accepted")
    }

    pub fn distances_anew(&self, machine: usize) -> Vec<u8> {
        let (mut work, mut result) = self.anew(machine, 1);
        raw::shortest_distance(self.sheets[machine].bytes(), &mut work, &mut result).expect("accepted");
        result
    }

    pub fn list_anew(&self, machine: usize, n: u32) -> Vec<u8> {
        let (mut work, mut result) = self.anew(machine, n);
        raw::shortest_path(self.sheets[machine].bytes(), n, &mut work, &mut result).expect("accepted");
        result
    }

    fn anew(&self, machine: usize, n: u32) -> (Vec<u32>, Vec<u8>) {
        let needed = self.needed(machine, n);
        (vec![0; needed.words()], vec![0; needed.bytes])
    }
}
