//! Stand-in for src/quorum/joint.rs: two sets of voters, with what the text asks of them.
#![warn(clippy::all)]

use super::{AckedIndexer, VoteResult};
use crate::{HashSet, MajorityConfig};

#[derive(Clone, Debug, Default, PartialEq, Eq)]
pub struct Configuration {
    pub incoming: MajorityConfig,
    pub outgoing: MajorityConfig,
}

impl Configuration {
    pub fn new(voters: HashSet<u64>) -> Configuration {
        Configuration { incoming: MajorityConfig::new(voters), outgoing: MajorityConfig::default() }
    }

    pub fn with_capacity(capacity: usize) -> Configuration {
        Configuration { incoming: MajorityConfig::with_capacity(capacity), outgoing: MajorityConfig::default() }
    }

    pub fn clear(&mut self) {
        self.incoming.clear();
        self.outgoing.clear();
    }

    pub fn is_singleton(&self) -> bool {
        self.outgoing.is_empty() && self.incoming.len() == 1
    }

    /// Voters of either half, each once.
    pub fn ids(&self) -> Union<'_> {
        Union { first: &self.incoming, second: &self.outgoing }
    }

    pub fn contains(&self, id: u64) -> bool {
        self.incoming.contains(&id) || self.outgoing.contains(&id)
    }

    /// Named by the text; no part of what is compared.
    pub fn committed_index(&self, _group_commit: bool, _indexer: &impl AckedIndexer) -> (u64, bool) {
        unimplemented!("commitment is no part of the comparison")
    }

    /// Named by the text; no part of what is compared.
    pub fn vote_result(&self, _vote: impl Fn(u64) -> Option<bool>) -> VoteResult {
        unimplemented!("votes are no part of the comparison")
    }
}

/// Stand-in for `util::Union`.
pub struct Union<'a> {
    first: &'a HashSet<u64>,
    second: &'a HashSet<u64>,
}

impl<'a> Union<'a> {
    pub fn iter(&self) -> impl Iterator<Item = u64> + 'a {
        self.first.union(self.second).cloned()
    }
}
