//! Stand-in for `raft_proto`: the protobuf types that the text names, with the functions that it calls on them.

/// What a change asks of its id.
#[derive(Clone, Copy, Debug, Default, PartialEq, Eq)]
pub enum ConfChangeType {
    #[default]
    AddNode,
    RemoveNode,
    AddLearnerNode,
}

#[derive(Clone, Debug, Default, PartialEq, Eq)]
pub struct ConfChangeSingle {
    pub node_id: u64,
    pub change_type: ConfChangeType,
}

impl ConfChangeSingle {
    pub fn get_change_type(&self) -> ConfChangeType {
        self.change_type
    }
}

/// `raft_proto::new_conf_change_single`
pub fn new_conf_change_single(node_id: u64, change_type: ConfChangeType) -> ConfChangeSingle {
    ConfChangeSingle { node_id, change_type }
}

#[derive(Clone, Debug, Default, PartialEq, Eq)]
pub struct ConfState {
    pub voters: Vec<u64>,
    pub learners: Vec<u64>,
    pub voters_outgoing: Vec<u64>,
    pub learners_next: Vec<u64>,
    pub auto_leave: bool,
}

impl ConfState {
    pub fn get_voters(&self) -> &[u64] {
        &self.voters
    }

    pub fn get_learners(&self) -> &[u64] {
        &self.learners
    }

    pub fn get_voters_outgoing(&self) -> &[u64] {
        &self.voters_outgoing
    }

    pub fn get_learners_next(&self) -> &[u64] {
        &self.learners_next
    }

    pub fn set_voters(&mut self, voters: Vec<u64>) {
        self.voters = voters;
    }

    pub fn set_learners(&mut self, learners: Vec<u64>) {
        self.learners = learners;
    }

    pub fn set_voters_outgoing(&mut self, voters: Vec<u64>) {
        self.voters_outgoing = voters;
    }

    pub fn set_learners_next(&mut self, learners: Vec<u64>) {
        self.learners_next = learners;
    }
}
