//! Readings of small machines, worked out by hand from the requirements.
#![forbid(unsafe_code)]

mod common;

use common::{chain, link, readings, sheet_a};
use yeldmur::{distances, list, Areas, Sheet, NODE_LIMIT};

#[test]
fn a_reading_without_links() {
    let sheet = Sheet::write(&[], &[None, Some(-0.25)], Some(1)).unwrap();
    for n in [1, 2, 64] {
        assert_eq!(readings(&sheet, n), [(-16, vec![])]);
        let list = list(&sheet, n).unwrap();
        let only = list.reading(0).unwrap();
        assert_eq!((only.links().len(), only.end()), (0, 1));
    }
    // a start alone at node 1: the node below it is unreached
    assert_eq!(distances(&sheet).unwrap(), [None, Some(0.0)]);
}

#[test]
fn a_reading_without_links_among_others() {
    let links = [link(0, 1, -2.0, 1), link(0, 2, 1.0, 1)];
    let sheet = Sheet::write(&links, &[Some(0.0), Some(0.0)], Some(0)).unwrap();
    assert_eq!(
        readings(&sheet, 3),
        [(-128, vec![0]), (0, vec![]), (64, vec![1])]
    );
}

#[test]
fn negative_costs() {
    let links = [
        link(0, 1, -1.0, 1),
        link(0, 2, 0.5, 1),
        link(1, 3, -64.0, 2),
    ];
    let sheet = Sheet::write(&links, &[None, None, Some(-0.015625)], Some(0)).unwrap();
    assert_eq!(readings(&sheet, 1), [(-4161, vec![0, 2])]);
    assert_eq!(
        readings(&sheet, 2),
        [(-4161, vec![0, 2]), (-4065, vec![1, 2])]
    );
    assert_eq!(distances(&sheet).unwrap(), [0.0, -1.0, -65.0].map(Some));
    assert_eq!(readings(&chain(NODE_LIMIT, -128.0), 2)[0].0, -262_144 * 64);
}

#[test]
fn no_start_no_reading() {
    let sheet = Sheet::write(&[], &[Some(0.0)], None).unwrap();
    for n in [0, 1, 2, 64] {
        assert!(list(&sheet, n).unwrap().is_empty());
        assert_eq!(list(&sheet, n).unwrap().taken(), 0);
    }
    assert_eq!(distances(&sheet).unwrap(), []);
}

#[test]
fn nodes_below_the_start_are_unreached() {
    let links = [link(0, 1, 0.0, 2), link(1, 2, 1.0, 2)];
    let sheet = Sheet::write(&links, &[Some(0.0), None, Some(0.0), None], Some(1)).unwrap();
    assert_eq!(distances(&sheet).unwrap(), [None, Some(0.0), Some(1.0)]);
    assert_eq!(readings(&sheet, 64), [(64, vec![1])]);
}

#[test]
fn a_distance_of_0_is_no_unreached_node() {
    let sheet = Sheet::write(&[link(0, 1, 0.0, 2)], &[None; 3], Some(0)).unwrap();
    assert_eq!(distances(&sheet).unwrap(), [Some(0.0), None, Some(0.0)]);
}

#[test]
fn equal_labels_are_different_readings() {
    let links = [link(0, 9, 0.5, 1), link(0, 9, 0.5, 1)];
    let sheet = Sheet::write(&links, &[None, Some(0.0)], Some(0)).unwrap();
    let mut both = readings(&sheet, 64);
    both.sort();
    assert_eq!(both, [(32, vec![0]), (32, vec![1])]);
}

#[test]
fn own_labels_of_0_count_as_links() {
    let links = [link(0, 0, 0.5, 1)];
    let sheet = Sheet::write(&links, &[None, Some(0.5)], Some(0)).unwrap();
    for n in [1, 2] {
        assert_eq!(readings(&sheet, n), [(64, vec![0])]);
    }
}

// Under ties only the costs of the lists are nested.
#[test]
fn ties() {
    let links = [
        link(0, 1, 0.0, 1),
        link(0, 2, 0.0, 1),
        link(1, 3, 0.0, 2),
        link(1, 4, 0.0, 2),
        link(1, 5, 0.0, 2),
    ];
    let sheet = Sheet::write(&links, &[None, None, Some(0.0)], Some(0)).unwrap();
    assert_eq!(readings(&sheet, 1), [(0, vec![0, 2])]);
    assert_eq!(readings(&sheet, 2), [(0, vec![1, 2]), (0, vec![0, 3])]);
    assert_eq!(readings(&sheet, 64).len(), 6);
}

#[test]
fn iterators() {
    let a = sheet_a();
    let list = list(&a, 3).unwrap();
    assert_eq!(list.readings().len(), 3);
    assert_eq!(list.readings().next_back().unwrap().cost(), 144);
    assert!(list.reading(3).is_none());
    let third = list.reading(2).unwrap();
    assert_eq!((third.numbers().len(), third.links().len()), (3, 3));
    assert_eq!(third.numbers().next_back(), Some(4));
    for reading in list.readings() {
        let numbers: Vec<u32> = reading.numbers().collect();
        let links: Vec<_> = numbers.iter().map(|&l| a.link(l).unwrap()).collect();
        assert_eq!(reading.links().collect::<Vec<_>>(), links);
    }
    assert_eq!(
        format!("{:?}", list.readings().last().unwrap()),
        "Reading { cost: 144, numbers: [0, 3, 4], end: 3 }"
    );
    let copy = list.clone();
    assert_eq!(copy.result(), list.result());
}

// Areas that held the answers of larger sheets give what new ones give.
#[test]
fn areas_used_again() {
    let sheets = [chain(300, 0.5), sheet_a(), chain(2, -1.0), sheet_a()];
    let mut areas = Areas::new();
    for n in [64, 0, 1, 2, 3] {
        for sheet in &sheets {
            let new = list(sheet, n).unwrap();
            let kept = areas.list(sheet, n).unwrap();
            assert_eq!(kept.result(), new.result());
            assert_eq!((kept.len(), kept.taken()), (new.len(), new.taken()));
            let costs: Vec<i32> = kept.readings().map(|reading| reading.cost()).collect();
            assert!(costs.iter().eq(readings(sheet, n).iter().map(|r| &r.0)));
            let values: Vec<Option<f32>> = areas.distances(sheet).unwrap().collect();
            assert_eq!(values, distances(sheet).unwrap());
        }
    }
}

#[test]
fn lists_may_go_to_other_threads() {
    let a = sheet_a();
    std::thread::scope(|scope| {
        let threads: Vec<_> = (1..=4)
            .map(|n| {
                let a = &a;
                scope.spawn(move || list(a, n).unwrap().len())
            })
            .collect();
        let lengths: Vec<usize> = threads.into_iter().map(|t| t.join().unwrap()).collect();
        assert_eq!(lengths, [1, 2, 3, 3]);
    });
}
