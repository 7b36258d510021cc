//! Lists the two cheapest readings of Sheet A, in the form of the listing program: readings and entries taken; then for each reading
//! its rank, its cost in sixty-fourths and the input labels of its links.
#![forbid(unsafe_code)]

use yeldmur::{list, Link, Refusal, Sheet};

fn link(source: u32, label: u32, weight: f32, next: u32) -> Link {
    Link {
        source,
        ilabel: label,
        olabel: label,
        weight,
        next,
    }
}

fn sheet_a() -> Result<Sheet, Refusal> {
    let links = [
        link(0, 1, 1.0, 1),
        link(0, 2, 0.5, 2),
        link(1, 3, 0.25, 3),
        link(1, 5, 0.0, 2),
        link(2, 4, 0.75, 3),
    ];
    Sheet::write(&links, &[None, None, None, Some(0.5)], Some(0))
}

fn main() -> Result<(), Refusal> {
    let sheet = sheet_a()?;
    let list = list(&sheet, 2)?;
    println!("readings {} taken {}", list.len(), list.taken());
    for (place, reading) in list.readings().enumerate() {
        let labels: String = reading
            .links()
            .map(|link| format!(" {}", link.ilabel))
            .collect();
        println!("{} {}{}", place + 1, reading.cost(), labels);
    }
    Ok(())
}
