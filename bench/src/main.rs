//! Times the library, the published Rust and OpenFst on the same machines, and prints tables.

mod builds;
mod clock;
mod contest;
#[cfg(openfst)]
mod openfst;
mod parts;
mod port;
mod products;
mod rows;
mod rust;
mod sheets;
mod table;

use std::time::Duration;

use contest::Call;
use port::Port;

const USAGE: &str = "usage:
  bench MILLISECONDS               prints the tables; each part of a row takes about twice so long
  bench rows MILLISECONDS          prints those of text rows
  bench products MILLISECONDS      prints that of two sheets
  bench parts MILLISECONDS         prints those of the two parts of a sheet
  bench builds MILLISECONDS PREVIOUS LIBRARY
                                   prints a table of two static libraries, called in turn
  bench repeat MACHINE CALL TIMES  makes one call of the library again and again, for a profile: a
                                   machine of the first table, and distances or n";

/// Each kind of machine with each call; how the cost grows with n; how it grows with the links.
fn print_tables(time: Duration) {
    let lists = |ns: &[u32]| ns.iter().map(|n| Call::List(*n)).collect::<Vec<_>>();
    let distances = vec![Call::Distances];
    let few = [distances.clone(), lists(&[1, 10])].concat();
    let calls = [distances, lists(&[1, 2, 10, 64])].concat();
    let kinds = sheets::kinds();
    let tables = [
        table::measured(&kinds, &calls, time),
        table::measured(&[kinds[0].first()], &lists(&[2, 4, 8, 16, 32, 64]), time),
        table::measured(&sheets::growing(), &few, time),
    ];
    table::print("Kinds of machines", &tables[0], true);
    table::print("Growth with n", &tables[1], false);
    table::print("Growth with the links", &tables[2], false);
    table::print_goals(&tables);
}

fn repeat(name: &str, call: &str, times: usize) -> Option<()> {
    let kind = sheets::kinds().into_iter().find(|kind| kind.name == name)?;
    let mut port = Port::new(&kind.machines);
    for _ in 0..times {
        match call {
            "distances" => drop(port.distances(0)),
            n => drop(port.list(0, n.parse().ok()?)),
        }
    }
    Some(())
}

fn run(arguments: &[&str]) -> Option<()> {
    match arguments {
        ["repeat", name, call, times] => repeat(name, call, times.parse().ok()?),
        ["rows", time] => {
            rows::print(
                &sheets::written(),
                Duration::from_millis(time.parse().ok()?),
            );
            Some(())
        }
        ["products", time] => {
            products::print(&sheets::pairs(), Duration::from_millis(time.parse().ok()?));
            Some(())
        }
        ["parts", time] => {
            let time = Duration::from_millis(time.parse().ok()?);
            parts::print(&sheets::narrowing(), &sheets::narrowing_growing(), time);
            Some(())
        }
        ["builds", time, previous, library] => {
            let time = Duration::from_millis(time.parse().ok()?);
            builds::print(&[previous, library], &sheets::kinds_for_builds(), time);
            Some(())
        }
        [time] => {
            print_tables(Duration::from_millis(time.parse().ok()?));
            Some(())
        }
        _ => None,
    }
}

fn main() {
    let arguments: Vec<String> = std::env::args().skip(1).collect();
    let arguments: Vec<&str> = arguments.iter().map(String::as_str).collect();
    if run(&arguments).is_none() {
        eprintln!("{USAGE}");
        std::process::exit(2);
    }
}
