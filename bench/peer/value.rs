//! Names, marks, identifiers, units, records.

/// A site, by its place in the world's table of names.
pub type Site = u16;

#[derive(Clone, Copy, PartialEq, Eq, Hash)]
pub struct Mark {
    pub boot: u64,
    pub count: u64,
    pub node: u16,
}

/// The identifier of a tree or of a branch: the site that drew its mark.
#[derive(Clone, Copy, PartialEq, Eq, Hash)]
pub struct Id {
    pub site: Site,
    pub mark: Mark,
}

#[derive(Clone, Copy, PartialEq, Eq, Hash)]
pub struct Key {
    pub aaid: Id,
    pub branch: Option<Id>,
}

#[derive(Clone, Copy, PartialEq, Eq)]
pub struct Addr {
    pub site: Site,
    pub node: u16,
}

#[derive(Clone, Copy, PartialEq, Eq)]
pub struct Child {
    pub addr: Addr,
    pub branch: Id,
}

#[derive(Clone, Copy, PartialEq, Eq)]
pub enum Outcome {
    Commit = 1,
    Rollback = 2,
}

#[derive(Clone, Copy, PartialEq, Eq, PartialOrd, Ord)]
pub enum Report {
    None,
    Hazard,
    Mix,
}

#[derive(Clone, Copy, PartialEq, Eq)]
pub enum Holder {
    None,
    Superior,
    Subordinate,
}

/// Functional units, a bit each.
pub type Units = u8;
pub const SHARED: Units = 1;
pub const POLARIZED: Units = 2;
pub const HANDSHAKE: Units = 4;
pub const COMMITS: Units = 8;
pub const CHAINED: Units = 16;
pub const UNCHAINED: Units = 32;
pub const LETTERS: [(u8, Units); 6] = [
    (b's', SHARED),
    (b'p', POLARIZED),
    (b'h', HANDSHAKE),
    (b'c', COMMITS),
    (b'k', CHAINED),
    (b'u', UNCHAINED),
];

pub fn permitted(u: Units) -> bool {
    u & 192 == 0
        && (u & SHARED != 0) != (u & POLARIZED != 0)
        && !(u & CHAINED != 0 && u & UNCHAINED != 0)
        && (u & COMMITS != 0) == (u & (CHAINED | UNCHAINED) != 0)
}

#[derive(Clone, PartialEq, Eq)]
pub enum Request {
    BeginDialogue(u16, Units),
    Accept(Units),
    Reject,
    EndDialogue(u16),
    UserData(u16, Box<[u8]>),
    UError(u16),
    UAbort(u16),
    Grant(u16),
    AskControl(u16),
    Handshake(u16),
    Respond(u16),
    HandshakeGrant(u16),
    BeginTransaction(u16),
    DeferEnd(u16),
    DeferGrant(u16),
    Prepare(u16),
    Commit,
    Done,
    Rollback,
    Unchanged,
}

#[derive(Clone)]
pub enum Indication {
    BeginDialogue(u16, Units),
    BegunDialogue(u16, Units),
    Rejected(u16),
    EndDialogue(u16),
    UserData(u16, Box<[u8]>),
    UError(u16),
    UAbort(u16),
    PAbort(u16),
    Grant(u16),
    AskControl(u16),
    Handshake(u16),
    HandshakeConfirm(u16),
    HandshakeGrant(u16),
    BeginTransaction(u16, Id),
    DeferEnd(u16),
    DeferGrant(u16),
    Prepare,
    Ready(u16),
    Commit,
    CommitComplete(Report),
    Rollback,
    RollbackComplete(Report),
    HeuristicReport(u16, Report),
    Left(u16),
}

#[derive(Clone)]
pub enum Dialogue {
    EndDialogue,
    UserData(Box<[u8]>),
    UError,
    UAbort,
    Grant,
    AskControl,
    Handshake,
    HandshakeGrant,
    Response,
    DeferEnd,
    DeferGrant,
    Begin(Id, Id, Holder),
    Prepare,
    Ready,
    Commit,
    Done(Report),
    Rollback,
    RolledBack(Report),
    Left,
    LeftEnd,
}

#[derive(Clone, Copy)]
pub enum State {
    Commit,
    Done(Report),
    Unknown,
    RetryLater,
}

#[derive(Clone)]
pub enum Peer {
    Open {
        x: Mark,
        units: Units,
    },
    Accept {
        x: Mark,
        y: Mark,
        units: Units,
    },
    Shut {
        x: Mark,
        y: Option<Mark>,
    },
    On {
        x: Mark,
        y: Mark,
        seq: u64,
        record: Dialogue,
    },
    RecReady(Id, Id),
    RecCommit(Id, Id),
    RecReply(Id, Id, State),
    Forget(Id, Id),
}

/// A record of a node's log.
pub enum Record {
    Ready {
        key: Key,
        superior: Addr,
        children: Vec<Child>,
    },
    Heuristic {
        key: Key,
        outcome: Outcome,
    },
    Commit {
        key: Key,
        superior: Option<Addr>,
        children: Vec<Child>,
    },
    Damage {
        key: Key,
        superior: Option<Addr>,
        outcome: Outcome,
        report: Report,
        owed: Vec<Child>,
    },
    End {
        key: Key,
        outcome: Outcome,
    },
}

/// A hasher for numbers.
#[derive(Default)]
pub struct Quick(u64);

impl std::hash::Hasher for Quick {
    fn write(&mut self, bytes: &[u8]) {
        bytes.iter().for_each(|b| self.write_u64(u64::from(*b)));
    }

    fn write_u16(&mut self, value: u16) {
        self.write_u64(value.into());
    }

    fn write_u64(&mut self, value: u64) {
        self.0 = (self.0.rotate_left(5) ^ value).wrapping_mul(0x517c_c1b7_2722_0a95);
    }

    fn finish(&self) -> u64 {
        self.0
    }
}

pub type Table<K, V> = std::collections::HashMap<K, V, std::hash::BuildHasherDefault<Quick>>;
