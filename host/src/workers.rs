//! Work on several processors at once, with its results in order.

use std::sync::atomic::{AtomicUsize, Ordering::Relaxed};
use std::sync::mpsc;
use std::thread;

/// At most so many at a time.
const MOST: usize = 4;

/// Does the work on each item, on as many threads as there are processors, and hands on each result as soon
/// as those of all items before it have been.
pub fn in_order<T: Sync, R: Send>(items: &[T], work: impl Fn(&T) -> R + Sync, mut then: impl FnMut(R)) {
    let threads = thread::available_parallelism().map_or(1, |count| count.get().min(MOST));
    let (next, (done, results)) = (AtomicUsize::new(0), mpsc::channel());
    thread::scope(|scope| {
        for _ in 0..threads {
            let (done, next, work) = (done.clone(), &next, &work);
            scope.spawn(move || loop {
                let place = next.fetch_add(1, Relaxed);
                let Some(item) = items.get(place) else { break };
                done.send((place, work(item))).expect("the results are waited for");
            });
        }
        drop(done);
        let mut waiting: Vec<Option<R>> = items.iter().map(|_| None).collect();
        let mut told = 0;
        for (place, result) in results {
            waiting[place] = Some(result);
            while let Some(result) = waiting.get_mut(told).and_then(Option::take) {
                then(result);
                told += 1;
            }
        }
    });
}
