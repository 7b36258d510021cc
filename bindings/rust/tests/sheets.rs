//! Sheets written, read, and looked at.
#![forbid(unsafe_code)]

mod common;

use common::{again, bytes, link, links_a, sheet_a, A};
use yeldmur::{list, Link, Refusal, Sheet};

#[test]
fn what_a_holds() {
    let a = sheet_a();
    assert_eq!((a.node_count(), a.link_count(), a.start()), (4, 5, Some(0)));
    assert_eq!(a.final_count(), 1);
    let links = links_a();
    assert_eq!(a.links().collect::<Vec<_>>(), links);
    assert_eq!(a.links().len(), 5);
    assert_eq!(a.links().next_back(), Some(links[4]));
    assert_eq!(a.link(3), Some(links[3]));
    assert_eq!(a.link(5), None);
    assert_eq!(
        a.finals().collect::<Vec<_>>(),
        [None, None, None, Some(0.5)]
    );
    assert_eq!((a.final_weight(3), a.final_weight(4)), (Some(0.5), None));
    assert_eq!(a.as_ref(), bytes(&A));
    assert_eq!(
        format!("{a:?}"),
        "Sheet { nodes: 4, links: 5, start: Some(0), .. }"
    );
    assert_eq!(a.into_bytes(), bytes(&A));
}

#[test]
fn round_trip() {
    let a = sheet_a();
    assert_eq!(again(&a), a);
    // a list's machine is a sheet as well, though it does not climb
    for n in [0, 1, 2, 3, 64] {
        let machine = Sheet::read(list(&a, n).unwrap().machine()).unwrap();
        assert_eq!(again(&machine), machine);
    }
}

#[test]
fn nodes_without_links_between() {
    let links = [
        link(1, 10, 0.5, 4),
        link(4, 11, -0.5, 5),
        link(4, 12, 1.0, 6),
    ];
    let sheet = Sheet::write(&links, &[Some(0.0); 7], Some(1)).unwrap();
    assert_eq!(sheet.links().collect::<Vec<_>>(), links);
    assert_eq!(Sheet::read(sheet.bytes()).unwrap(), sheet);
}

#[test]
fn links_are_put_in_the_order_of_their_sources() {
    let given = [
        link(2, 1, 0.0, 3),
        link(0, 2, 0.0, 1),
        link(2, 3, 0.0, 3),
        link(0, 4, 0.0, 2),
    ];
    let sheet = Sheet::write(&given, &[None; 4], None).unwrap();
    let labels: Vec<u32> = sheet.links().map(|link| link.ilabel).collect();
    assert_eq!(labels, [2, 4, 1, 3]);
    let sources: Vec<u32> = sheet.links().map(|link| link.source).collect();
    assert_eq!(sources, [0, 0, 2, 2]);
}

#[test]
fn labels_and_weights_at_their_ends() {
    let links = [
        Link {
            source: 0,
            ilabel: u32::MAX,
            olabel: 0,
            weight: -128.0,
            next: 1,
        },
        Link {
            source: 0,
            ilabel: 0,
            olabel: u32::MAX,
            weight: 1.0 / 64.0,
            next: 0,
        },
    ];
    let sheet = Sheet::write(&links, &[None, Some(128.0)], None).unwrap();
    assert_eq!(sheet.links().collect::<Vec<_>>(), links);
    assert_eq!((sheet.start(), sheet.final_weight(1)), (None, Some(128.0)));
}

#[test]
fn what_the_writer_refuses() {
    let refused = |links: &[Link], nodes: &[Option<f32>], start| {
        Sheet::write(links, nodes, start).unwrap_err()
    };
    let two = [None, Some(0.0)];
    assert_eq!(
        refused(&[link(2, 1, 0.0, 1)], &two, Some(0)),
        Refusal::Layout
    );
    assert_eq!(
        refused(&[link(u32::MAX, 1, 0.0, 1)], &[], None),
        Refusal::Layout
    );
    assert_eq!(refused(&[], &two, Some(2)), Refusal::Start);
    assert_eq!(refused(&[], &two, Some(u32::MAX)), Refusal::Start);
    assert_eq!(refused(&[], &[], Some(u32::MAX)), Refusal::Start);
    assert_eq!(refused(&[link(0, 1, 0.0, 2)], &two, Some(0)), Refusal::Next);
    assert_eq!(
        refused(&[link(0, 1, -0.0, 1)], &two, Some(0)),
        Refusal::Weight
    );
    assert_eq!(refused(&[], &[Some(f32::NAN)], Some(0)), Refusal::Weight);
    assert_eq!(refused(&[], &[Some(0.1)], None), Refusal::Weight);
}

#[test]
fn nothing_at_all() {
    let sheet = Sheet::write(&[], &[], None).unwrap();
    assert_eq!(sheet.bytes().len(), 20);
    assert_eq!((sheet.links().len(), sheet.finals().len()), (0, 0));
    assert_eq!((sheet.link(0), sheet.final_weight(0)), (None, None));
}
