//! Work on many inputs in threads, with the results handed over in the order of the inputs.
#![forbid(unsafe_code)]

use std::collections::BTreeMap;
use std::ops::ControlFlow;
use std::sync::atomic::{AtomicUsize, Ordering};
use std::sync::mpsc::{channel, Receiver, Sender};
use std::thread;

/// What the caller of [`in_order`] is told.
pub enum Event<T> {
    /// So many inputs are finished, in whatever order.
    Finished(usize),
    /// The result of the next input in order, with its place.
    Next(usize, T),
}

/// Does the work of each place below `count` in so many threads, each with a state of its own, and hands the results over in order. The
/// caller may break off; places that no thread has begun by then are left.
pub fn in_order<S, T: Send>(
    count: usize,
    jobs: usize,
    state: impl Fn() -> S + Sync,
    work: impl Fn(&mut S, usize) -> T + Sync,
    tell: impl FnMut(Event<T>) -> ControlFlow<()>,
) {
    let next = AtomicUsize::new(0);
    let (sender, receiver) = channel();
    thread::scope(|scope| {
        for _ in 0..jobs.min(count) {
            let (sender, next, state, work) = (sender.clone(), &next, &state, &work);
            scope.spawn(move || each_place(next, count, state(), work, &sender));
        }
        drop(sender);
        // with the receiver gone the threads end
        let _ = collect(receiver, tell);
    });
}

// What a thread does: the next place, as long as there is one and somebody takes the results.
fn each_place<S, T>(
    next: &AtomicUsize,
    count: usize,
    mut state: S,
    work: impl Fn(&mut S, usize) -> T,
    sender: &Sender<(usize, T)>,
) {
    loop {
        let place = next.fetch_add(1, Ordering::Relaxed);
        if place >= count || sender.send((place, work(&mut state, place))).is_err() {
            return;
        }
    }
}

fn collect<T>(
    receiver: Receiver<(usize, T)>,
    mut tell: impl FnMut(Event<T>) -> ControlFlow<()>,
) -> ControlFlow<()> {
    let mut waiting = BTreeMap::new();
    let mut told = 0;
    for (place, result) in receiver {
        waiting.insert(place, result);
        tell(Event::Finished(told + waiting.len()))?;
        while let Some(result) = waiting.remove(&told) {
            tell(Event::Next(told, result))?;
            told += 1;
        }
    }
    ControlFlow::Continue(())
}

#[cfg(test)]
mod tests {
    use super::*;
    use std::time::Duration;

    fn order(count: usize, jobs: usize) -> Vec<(usize, usize)> {
        let mut seen = Vec::new();
        // the first are the slowest
        let work = |_: &mut (), place| {
            thread::sleep(Duration::from_micros(200 * (count - place) as u64));
            place * place
        };
        in_order(
            count,
            jobs,
            || (),
            work,
            |event| {
                if let Event::Next(place, square) = event {
                    seen.push((place, square));
                }
                ControlFlow::Continue(())
            },
        );
        seen
    }

    #[test]
    fn results_come_in_order() {
        for jobs in [1, 2, 7, 100] {
            let all: Vec<_> = (0..50).map(|place| (place, place * place)).collect();
            assert_eq!(order(50, jobs), all);
        }
        assert_eq!(order(0, 4), []);
    }

    #[test]
    fn breaking_off_ends_the_threads() {
        let (mut told, begun) = (0, AtomicUsize::new(0));
        let work = |_: &mut (), place| {
            begun.fetch_add(1, Ordering::Relaxed);
            thread::sleep(Duration::from_micros(50));
            place
        };
        in_order(
            1_000_000,
            2,
            || (),
            work,
            |event| match event {
                Event::Finished(_) => ControlFlow::Continue(()),
                Event::Next(..) => {
                    told += 1;
                    ControlFlow::Break(())
                }
            },
        );
        assert_eq!(told, 1);
        assert!(begun.load(Ordering::Relaxed) < 1_000_000);
    }

    #[test]
    fn each_thread_keeps_its_state() {
        let made = AtomicUsize::new(0);
        let state = || made.fetch_add(1, Ordering::Relaxed);
        in_order(
            40,
            3,
            state,
            |_, place| place,
            |_| ControlFlow::Continue(()),
        );
        assert!(made.load(Ordering::Relaxed) <= 3);
    }
}
