//! Two builds of the library, each a static library that is loaded for itself, called in turn on the same sheets.

use std::cell::RefCell;
use std::ffi::{c_char, c_int, c_void, CString};
use std::fmt;
use std::mem::transmute;
use std::process::Command;
use std::time::Duration;

use oracle::bytes;
use yeldmur::raw;

use crate::clock::{rounds, timed, Run};
use crate::contest::Call;
use crate::sheets::Kind;

extern "C" {
    fn dlopen(file: *const c_char, flags: c_int) -> *mut c_void;
    fn dlsym(library: *mut c_void, name: *const c_char) -> *mut c_void;
}

const RTLD_NOW: c_int = 2;

type Tests = unsafe extern "C" fn(*const u8, usize) -> u32;
type Distances =
    unsafe extern "C" fn(*const u8, usize, *mut u32, usize, *mut u8, usize, *mut u32) -> u32;
#[rustfmt::skip]
type List = unsafe extern "C" fn(
    *const u8, usize, u32, *mut u32, usize, *mut u8, usize, *mut u32, *mut u32, *mut u32,
) -> u32;

/// What is timed: reading a sheet, which is tests 1 to 4 and nothing else, or a search.
#[derive(Clone, Copy)]
enum Asked {
    Tests,
    Search(Call),
}

impl fmt::Display for Asked {
    fn fmt(&self, f: &mut fmt::Formatter) -> fmt::Result {
        match self {
            Asked::Tests => write!(f, "tests"),
            Asked::Search(call) => call.fmt(f),
        }
    }
}

/// A build's calls, with areas of its own.
struct Build {
    tests: Tests,
    distances: Distances,
    list: List,
    work: Vec<u32>,
    result: Vec<u8>,
}

impl Build {
    /// Loads a static library, made into a shared one whose calls stay inside it. Code begins at one place in each: sixteen bytes more in
    /// front of the same code can make it slower by 8 %.
    fn load(number: usize, archive: &str) -> Self {
        let name = format!("yeldmur-{}-{number}.so", std::process::id());
        let shared = std::env::temp_dir().join(name);
        let linked = Command::new("cc")
            .args([
                "-shared",
                "-Wl,-Bsymbolic,-Ttext=0x10000,--whole-archive",
                archive,
            ])
            .args(["-Wl,--no-whole-archive", "-lm", "-o"])
            .arg(&shared)
            .status();
        assert!(linked.is_ok_and(|status| status.success()), "{archive}");
        let path = CString::new(shared.to_str().expect("a path")).expect("a path");
        let library = unsafe { dlopen(path.as_ptr(), RTLD_NOW) };
        assert!(!library.is_null(), "{archive}");
        std::fs::remove_file(&shared).expect("the file is there");
        let call = |name: &str| {
            let name = CString::new(name).expect("a name");
            let call = unsafe { dlsym(library, name.as_ptr()) };
            assert!(!call.is_null(), "{archive}");
            call
        };
        Self {
            tests: unsafe { transmute(call("yeldmur_read_sheet")) },
            distances: unsafe { transmute(call("yeldmur_shortest_distance")) },
            list: unsafe { transmute(call("yeldmur_shortest_path")) },
            work: vec![],
            result: vec![],
        }
    }

    /// Areas for a call on each of these sheets; those for n = 1 are enough for distances, and reading needs none.
    fn fit(&mut self, sheets: &[Vec<u8>], asked: Asked) {
        let n = match asked {
            Asked::Tests => 0,
            Asked::Search(Call::Distances) => 1,
            Asked::Search(Call::List(n)) => n,
        };
        let areas = |sheet: &Vec<u8>| raw::areas(sheet, n).expect("accepted");
        let needed: Vec<raw::Needed> = sheets.iter().map(areas).collect();
        let words = needed.iter().map(raw::Needed::words).max();
        let bytes = needed.iter().map(|needed| needed.bytes).max();
        self.work = vec![0; words.unwrap_or(0)];
        self.result = vec![0; bytes.unwrap_or(0)];
    }

    /// The counts that a call tells.
    fn call(&mut self, sheet: &[u8], asked: Asked) -> [u32; 3] {
        let mut told = [0; 3];
        let [a, b, c] = &mut told;
        let (sheet, size) = (sheet.as_ptr(), sheet.len());
        let (work, words) = (self.work.as_mut_ptr(), self.work.len());
        let (result, room) = (self.result.as_mut_ptr(), self.result.len());
        let number = unsafe {
            match asked {
                Asked::Tests => (self.tests)(sheet, size),
                Asked::Search(Call::Distances) => {
                    (self.distances)(sheet, size, work, words, result, room, a)
                }
                Asked::Search(Call::List(n)) => {
                    (self.list)(sheet, size, n, work, words, result, room, a, b, c)
                }
            }
        };
        assert_eq!(number, 0);
        told
    }
}

/// The times of a call on these sheets in turn, for each build; both tell the same counts. A sheet is called twice by both, and the
/// first two calls, which have to fetch it, do not count.
fn times(builds: &[RefCell<Build>], sheets: &[Vec<u8>], asked: Asked, time: Duration) -> Vec<f64> {
    for build in builds {
        build.borrow_mut().fit(sheets, asked);
    }
    let told = |build: &RefCell<Build>, sheet| build.borrow_mut().call(sheet, asked);
    for sheet in sheets {
        assert!(builds
            .windows(2)
            .all(|b| told(&b[0], sheet) == told(&b[1], sheet)));
    }
    let mut runs: Vec<Run> = vec![];
    for build in builds.iter().chain(builds) {
        runs.push(timed(move |m| told(build, &sheets[m])));
    }
    rounds(&mut runs, sheets.len(), time).split_off(builds.len())
}

/// For each kind of machine and each call the times of both builds: one machine again and again, then all in turn.
fn measured(builds: &[RefCell<Build>], kinds: &[Kind], time: Duration) -> Vec<(String, Vec<f64>)> {
    let mut rows = vec![];
    for kind in kinds {
        let sheets: Vec<Vec<u8>> = kind.machines.iter().map(bytes::sheet).collect();
        let searches = [Call::Distances]
            .into_iter()
            .chain([1, 2, 10, 64].map(Call::List));
        for asked in [Asked::Tests]
            .into_iter()
            .chain(searches.map(Asked::Search))
        {
            let one = times(builds, &sheets[..1], asked, time);
            let all = times(builds, &sheets, asked, time);
            rows.push((format!("{} | {asked}", kind.name), [one, all].concat()));
        }
    }
    rows
}

/// Measures everything twice, with time between, keeps the lesser times, and prints the table.
pub fn print(archives: &[&str], kinds: &[Kind], time: Duration) {
    let load = |(number, archive): (usize, &&str)| RefCell::new(Build::load(number, archive));
    let builds: Vec<_> = archives.iter().enumerate().map(load).collect();
    let first = measured(&builds, kinds, time);
    println!("| machine | call | previous | library | library / previous | ten: previous | ten: library | ten: library / previous |");
    println!("|---|---|---:|---:|---:|---:|---:|---:|");
    for ((row, times), (_, again)) in first.iter().zip(measured(&builds, kinds, time)) {
        print!("| {row} |");
        let least: Vec<f64> = times.iter().zip(again).map(|(a, b)| a.min(b)).collect();
        for pair in least.chunks(2) {
            print!(
                " {:.1} | {:.1} | {:.3} |",
                pair[0],
                pair[1],
                pair[1] / pair[0]
            );
        }
        println!();
    }
}
