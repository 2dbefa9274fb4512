//! Makes the text's values, and reads what its fields hold. Nothing here decides anything.

use crate::{Configuration, HashSet, Inflights, MajorityConfig, MapChangeType, Progress, ProgressTracker};

/// A configuration with these sets; each may be anything.
pub fn configuration(
    incoming: &[u64],
    outgoing: &[u64],
    learners: &[u64],
    learners_next: &[u64],
    auto_leave: bool,
) -> Configuration {
    let mut conf = Configuration::new(incoming.iter().copied(), learners.iter().copied());
    conf.voters.outgoing = MajorityConfig::new(set(outgoing));
    conf.learners_next = set(learners_next);
    conf.auto_leave = auto_leave;
    conf
}

fn set(ids: &[u64]) -> HashSet<u64> {
    ids.iter().copied().collect()
}

/// A tracker with this configuration and these records.
pub fn tracker(conf: Configuration, records: impl Iterator<Item = (u64, Progress)>, max_inflight: usize) -> ProgressTracker {
    let mut tracker = ProgressTracker::new(max_inflight);
    let records: Vec<_> = records.collect();
    let adds = records.iter().map(|(id, _)| (*id, MapChangeType::Add)).collect();
    tracker.apply_conf(conf, adds, 0);
    for (id, record) in records {
        *tracker.get_mut(id).expect("it was added") = record;
    }
    tracker
}

/// An empty window with this limit. The text's own `new` would allocate a window of that size.
pub fn window(limit: usize) -> Inflights {
    let mut window = Inflights::new(0);
    window.set_cap(limit);
    window
}

pub fn max_inflight(tracker: &ProgressTracker) -> usize {
    *tracker.max_inflight()
}
