//! One node: what it answers to an event, and what of it a crash leaves.
use crate::value::*;

#[derive(Clone, Copy, PartialEq, Eq, PartialOrd, Ord)]
pub enum Phase {
    Active,
    Ready,
    Committing,
    Rolling,
}

#[derive(Clone, Copy, PartialEq, Eq)]
enum Link {
    Idle,
    Opening,
    Offered,
    Live,
}

#[derive(Clone, Copy, PartialEq, Eq)]
enum Owed {
    Plain,
    Grant,
}

#[derive(Clone, Copy, PartialEq, Eq)]
enum Deferral {
    End,
    Grant,
}

/// One end of a dialogue.
#[derive(Clone)]
struct Arc {
    addr: Addr,
    state: Link,
    units: Units,
    control: bool,
    awaits: bool,
    rests: bool,
    owes: Option<Owed>,
    deferral: Option<Deferral>,
    branch: Option<usize>,
    x: Mark,
    y: Mark,
    sent: u64,
    taken: u64,
}

const NO_MARK: Mark = Mark {
    boot: 0,
    count: 0,
    node: 0,
};

impl Arc {
    fn new(addr: Addr) -> Self {
        Arc {
            addr,
            state: Link::Idle,
            units: 0,
            control: false,
            awaits: false,
            rests: false,
            owes: None,
            deferral: None,
            branch: None,
            x: NO_MARK,
            y: NO_MARK,
            sent: 0,
            taken: 0,
        }
    }

    fn has(&self, units: Units) -> bool {
        self.units & units != 0
    }

    fn is_live(&self) -> bool {
        self.state == Link::Live
    }

    fn in_handshake(&self) -> bool {
        self.awaits || self.owes.is_some()
    }

    fn clear(&mut self) {
        (self.control, self.awaits, self.owes) = (false, false, None);
    }
}

/// Where an arc stands: to the superior, or in the list of those below.
#[derive(Clone, Copy, PartialEq, Eq)]
enum At {
    Up,
    Below(usize),
}

#[derive(Clone)]
struct Branch {
    addr: Addr,
    id: Id,
    arc: Option<usize>,
    prepared: bool,
    counted: bool,
    left: bool,
    done: bool,
    given_up: bool,
    rolled: bool,
    carried: Report,
    rolled_report: Report,
}

impl Branch {
    fn new(addr: Addr, id: Id, arc: Option<usize>, prepared: bool) -> Self {
        let (carried, rolled_report) = (Report::None, Report::None);
        Branch {
            addr,
            id,
            arc,
            prepared,
            counted: false,
            left: false,
            done: false,
            given_up: false,
            rolled: false,
            carried,
            rolled_report,
        }
    }

    fn child(&self) -> Child {
        Child {
            addr: self.addr,
            branch: self.id,
        }
    }
}

#[derive(Clone)]
struct Transaction {
    key: Key,
    superior: Option<Addr>,
    phase: Phase,
    asked: bool,
    told_prepare: bool,
    owes: bool,
    superior_rolled: bool,
    own: Report,
    decision: Option<Outcome>,
    branches: Vec<Branch>,
    unsettled: usize,
    undone: usize,
}

impl Transaction {
    fn new(key: Key, superior: Option<Addr>, phase: Phase) -> Self {
        Transaction {
            key,
            superior,
            phase,
            asked: false,
            told_prepare: false,
            owes: false,
            superior_rolled: false,
            own: Report::None,
            decision: None,
            branches: Vec::new(),
            unsettled: 0,
            undone: 0,
        }
    }

    fn staying(&self) -> Vec<Child> {
        self.branches
            .iter()
            .filter(|it| !it.left)
            .map(Branch::child)
            .collect()
    }

    fn of_id(&self, id: Id) -> Option<usize> {
        self.branches.iter().position(|it| it.id == id)
    }
}

/// A transaction that is kept for its damage.
#[derive(Clone)]
struct Kept {
    key: Key,
    superior: Option<Addr>,
    side: Outcome,
    report: Report,
    owed: Vec<Child>,
    forgot: bool,
}

pub enum Note {
    Start,
    Took,
    Rolls,
    Left,
}

pub enum Out {
    Tell(Indication),
    Send(Addr, Peer),
}

/// What an event gave.
#[derive(Default)]
pub struct Effect {
    pub record: Option<Record>,
    pub outs: Vec<Out>,
    pub notes: Vec<(Note, Key)>,
    pub answer_24: bool,
}

impl Effect {
    pub fn clear(&mut self) {
        (self.record, self.answer_24) = (None, false);
        self.outs.clear();
        self.notes.clear();
    }

    fn tell(&mut self, it: Indication) {
        self.outs.push(Out::Tell(it));
    }

    fn send(&mut self, to: Addr, it: Peer) {
        self.outs.push(Out::Send(to, it));
    }
}

pub enum Event<'a> {
    Do(&'a Request, Option<Addr>),
    Lose(u16),
    GiveUp(u16),
    Heuristic(Outcome),
    Retry,
    Purge,
}

#[derive(Clone)]
pub struct Node {
    pub number: u16,
    site: Site,
    boot: u64,
    count: u64,
    superior: Option<Addr>,
    up: Option<Arc>,
    below: Vec<Arc>,
    places: Table<u16, usize>,
    current: Option<Transaction>,
    kept: Vec<Kept>,
}

/// What becomes of a record.
enum Sight {
    Acts,
    Nothing,
    Breaks,
}

type Said = Result<(), u8>;

/// The least number whose test holds refuses.
fn least(tests: &[(u8, bool)]) -> Said {
    match tests.iter().find(|it| it.1) {
        Some((number, _)) => Err(*number),
        None => Ok(()),
    }
}

impl Node {
    pub fn new(addr: Addr, boot: u64, superior: Option<Addr>) -> Self {
        Node {
            number: addr.node,
            site: addr.site,
            boot,
            count: 0,
            superior,
            up: superior.map(Arc::new),
            below: Vec::new(),
            places: Table::default(),
            current: None,
            kept: Vec::new(),
        }
    }

    /// Starts the node again on what its log says of it.
    pub fn start(&mut self, boot: u64) {
        (self.boot, self.count) = (boot, 0);
        self.up = self.superior.map(Arc::new);
        self.below.clear();
        self.places.clear();
        self.kept.iter_mut().for_each(|it| it.forgot = false);
        let old = self
            .current
            .take()
            .filter(|it| matches!(it.phase, Phase::Ready | Phase::Committing));
        self.current = old.map(|old| {
            let mut now = Transaction::new(old.key, old.superior, old.phase);
            now.branches = old
                .staying()
                .into_iter()
                .map(|it| Branch::new(it.addr, it.branch, None, true))
                .collect();
            (now.unsettled, now.undone) = (now.branches.len(), now.branches.len());
            (now.decision, now.owes) = (old.decision, old.phase == Phase::Committing);
            now
        });
    }

    pub fn addr(&self) -> Addr {
        Addr {
            site: self.site,
            node: self.number,
        }
    }

    pub fn phase(&self) -> Option<Phase> {
        self.current.as_ref().map(|it| it.phase)
    }

    pub fn asked(&self) -> bool {
        self.current.as_ref().is_some_and(|it| it.asked)
    }

    pub fn kept(&self) -> usize {
        self.kept.len()
    }

    /// The tree of an active transaction.
    pub fn active(&self) -> Option<Id> {
        self.current
            .as_ref()
            .filter(|it| it.phase == Phase::Active)
            .map(|it| it.key.aaid)
    }

    fn is_in(&self, phase: Phase) -> bool {
        self.phase() == Some(phase)
    }

    fn is_late(&self) -> bool {
        self.phase() > Some(Phase::Active)
    }

    fn arc(&self, at: At) -> &Arc {
        match at {
            At::Up => self.up.as_ref().expect("an arc to the superior"),
            At::Below(i) => &self.below[i],
        }
    }

    fn arc_mut(&mut self, at: At) -> &mut Arc {
        match at {
            At::Up => self.up.as_mut().expect("an arc to the superior"),
            At::Below(i) => &mut self.below[i],
        }
    }

    /// The dialogue with that peer, none where it is idle.
    fn find(&self, peer: u16) -> Option<At> {
        if self
            .up
            .as_ref()
            .is_some_and(|it| it.addr.node == peer && it.state != Link::Idle)
        {
            return Some(At::Up);
        }
        self.places.get(&peer).map(|it| At::Below(*it))
    }

    fn find_addr(&self, addr: Addr) -> Option<At> {
        if self.superior == Some(addr) {
            return Some(At::Up);
        }
        self.places
            .get(&addr.node)
            .map(|it| At::Below(*it))
            .filter(|it| self.arc(*it).addr == addr)
    }

    fn branch_of(&self, at: At) -> Option<&Branch> {
        match at {
            At::Up => None,
            At::Below(i) => self.current.as_ref()?.branches.get(self.below[i].branch?),
        }
    }

    fn has_branch(&self, peer: u16) -> Option<usize> {
        self.current
            .as_ref()?
            .branches
            .iter()
            .position(|it| it.addr.node == peer)
    }

    /// Whether the arc is one of the current transaction.
    fn is_branch(&self, at: At) -> bool {
        match at {
            At::Up => self
                .current
                .as_ref()
                .is_some_and(|it| it.key.branch.is_some()),
            At::Below(i) => self.current.is_some() && self.below[i].branch.is_some(),
        }
    }

    fn live_superior(&self) -> bool {
        self.is_branch(At::Up) && self.up.as_ref().is_some_and(Arc::is_live)
    }

    fn may_root(&self) -> bool {
        !self
            .up
            .as_ref()
            .is_some_and(|it| it.is_live() && it.has(COMMITS))
    }

    fn is_late_on(&self, at: At) -> bool {
        self.is_branch(at) && (self.is_late() || self.branch_of(at).is_some_and(|it| it.left))
    }

    fn is_spoken(&self, at: At) -> bool {
        self.is_branch(at) && self.asked() || self.branch_of(at).is_some_and(|it| it.prepared)
    }

    fn draw(&mut self) -> Mark {
        self.count += 1;
        Mark {
            boot: self.boot,
            count: self.count,
            node: self.number,
        }
    }

    fn carry(&mut self, at: At, record: Dialogue, fx: &mut Effect) {
        let a = self.arc_mut(at);
        let seq = a.sent;
        a.sent += 1;
        fx.send(
            a.addr,
            Peer::On {
                x: a.x,
                y: a.y,
                seq,
                record,
            },
        );
    }

    fn close(&mut self, at: At) {
        match at {
            At::Up => self.up = self.superior.map(Arc::new),
            At::Below(i) => {
                let a = &mut self.below[i];
                a.state = Link::Idle;
                self.places.remove(&a.addr.node);
                if let (Some(b), Some(t)) = (a.branch.take(), &mut self.current) {
                    t.branches[b].arc = None;
                }
            }
        }
    }

    pub fn event(&mut self, event: Event<'_>, fx: &mut Effect) -> Said {
        match event {
            Event::Do(request, addr) => self.ask(request, addr, fx),
            Event::Lose(peer) => {
                let at = self.find(peer).ok_or(1)?;
                self.lose(at, Indication::PAbort(peer), fx);
                Ok(())
            }
            Event::GiveUp(peer) => self.give_up(peer, fx),
            Event::Heuristic(outcome) => {
                let t = self
                    .current
                    .as_mut()
                    .filter(|it| it.phase == Phase::Ready)
                    .ok_or(10)?;
                if t.decision.is_some() {
                    return Err(11);
                }
                t.decision = Some(outcome);
                fx.record = Some(Record::Heuristic {
                    key: t.key,
                    outcome,
                });
                Ok(())
            }
            Event::Retry => self.retry(fx),
            Event::Purge => {
                let k = self.kept.first().ok_or(14)?;
                if !k.owed.is_empty() || k.side == Outcome::Commit && k.key.branch.is_some() {
                    return Err(15);
                }
                fx.record = Some(Record::End {
                    key: k.key,
                    outcome: k.side,
                });
                self.kept.remove(0);
                Ok(())
            }
        }
    }

    fn give_up(&mut self, peer: u16, fx: &mut Effect) -> Said {
        if !self.is_in(Phase::Committing) {
            return Err(12);
        }
        let b = self.has_branch(peer).ok_or(12)?;
        let t = self.current.as_mut().ok_or(12)?;
        let it = &mut t.branches[b];
        if it.done || it.given_up || it.left {
            return Err(12);
        }
        it.given_up = true;
        t.undone -= 1;
        if let Some(i) = it.arc.filter(|i| self.below[*i].is_live()) {
            let a = &self.below[i];
            fx.send(
                a.addr,
                Peer::Shut {
                    x: a.x,
                    y: Some(a.y),
                },
            );
            self.close(At::Below(i));
        }
        self.complete_commit(fx);
        Ok(())
    }

    fn retry(&mut self, fx: &mut Effect) -> Said {
        if let Some(t) = &self.current {
            match (t.phase, t.superior, t.key.branch) {
                (Phase::Ready, Some(superior), Some(branch)) => {
                    fx.send(superior, Peer::RecReady(t.key.aaid, branch))
                }
                (Phase::Committing, ..) => {
                    if t.owes {
                        fx.tell(Indication::Commit);
                    }
                    for b in t
                        .branches
                        .iter()
                        .filter(|b| !(b.done || b.left || b.given_up))
                    {
                        fx.send(b.addr, Peer::RecCommit(t.key.aaid, b.id));
                    }
                }
                _ => {}
            }
        }
        for k in self.kept.iter().filter(|it| it.side == Outcome::Commit) {
            for c in &k.owed {
                fx.send(c.addr, Peer::RecCommit(k.key.aaid, c.branch));
            }
            if let (Some(branch), Some(superior), false) = (k.key.branch, k.superior, k.forgot) {
                fx.send(
                    superior,
                    Peer::RecReply(k.key.aaid, branch, State::Done(k.report)),
                );
            }
        }
        if fx.outs.is_empty() {
            Err(12)
        } else {
            Ok(())
        }
    }

    // ---- requests

    /// The live dialogue with a peer on which no rule refuses, the least number first.
    fn on(&self, peer: u16, rules: impl FnOnce(&Node, At, &Arc) -> Said) -> Result<At, u8> {
        let at = self
            .find(peer)
            .filter(|it| self.arc(*it).is_live())
            .ok_or(1)?;
        rules(self, at, self.arc(at))?;
        Ok(at)
    }

    fn ask(&mut self, request: &Request, addr: Option<Addr>, fx: &mut Effect) -> Said {
        let late = |n: &Node, at, a: &Arc| (2, n.is_late_on(at) || a.rests);
        let no_control = |a: &Arc| (3, a.has(POLARIZED) && !a.control);
        let open = |a: &Arc| (5, a.in_handshake());
        let bare = |n: &Node, at, a: &Arc| (6, a.has(CHAINED) && !n.is_branch(at));
        let spoken = |n: &Node, at| (9, n.is_spoken(at));
        match request {
            Request::BeginDialogue(_, units) => {
                return self.begin_dialogue(addr.ok_or(1)?, *units, fx)
            }
            Request::Accept(units) => {
                let a = self
                    .up
                    .as_ref()
                    .filter(|it| it.state == Link::Offered)
                    .ok_or(1)?;
                least(&[
                    (4, !permitted(*units) || units & !a.units != 0),
                    (7, self.current.is_some()),
                ])?;
                let y = self.draw();
                let a = self.arc_mut(At::Up);
                (a.state, a.y, a.units, a.sent, a.taken, a.control) =
                    (Link::Live, y, *units, 0, 0, false);
                fx.send(
                    a.addr,
                    Peer::Accept {
                        x: a.x,
                        y,
                        units: *units,
                    },
                );
            }
            Request::Reject => {
                let a = self
                    .up
                    .as_ref()
                    .filter(|it| it.state == Link::Offered)
                    .ok_or(1)?;
                fx.send(a.addr, Peer::Shut { x: a.x, y: None });
                self.close(At::Up);
            }
            Request::EndDialogue(p) => {
                let at = self.on(*p, |n, at, a| {
                    least(&[(2, a.rests), no_control(a), open(a), (7, n.is_branch(at))])
                })?;
                self.carry(at, Dialogue::EndDialogue, fx);
                self.close(at);
            }
            Request::UserData(p, octets) => {
                let long = (13, octets.len() > 1024);
                let at = self.on(*p, |n, at, a| {
                    least(&[
                        late(n, at, a),
                        no_control(a),
                        open(a),
                        bare(n, at, a),
                        spoken(n, at),
                        long,
                    ])
                })?;
                self.carry(at, Dialogue::UserData(octets.clone()), fx);
            }
            Request::UError(p) => {
                let at = self.on(*p, |n, at, a| least(&[late(n, at, a), spoken(n, at)]))?;
                self.carry(at, Dialogue::UError, fx);
            }
            Request::UAbort(p) => {
                let at = self.on(*p, |n, at, _| least(&[(2, n.is_late_on(at))]))?;
                let rolls = self.is_branch(at);
                self.carry(at, Dialogue::UAbort, fx);
                self.close(at);
                if rolls {
                    self.roll(true, fx);
                }
            }
            Request::Grant(p) => {
                let tests = |n: &Node, at, a: &Arc| {
                    least(&[
                        late(n, at, a),
                        no_control(a),
                        (4, !a.has(POLARIZED)),
                        open(a),
                        bare(n, at, a),
                        spoken(n, at),
                    ])
                };
                let at = self.on(*p, tests)?;
                self.carry(at, Dialogue::Grant, fx);
                self.arc_mut(at).control = false;
            }
            Request::AskControl(p) => {
                let tests = |n: &Node, at, a: &Arc| {
                    least(&[
                        late(n, at, a),
                        (3, a.has(POLARIZED) && a.control),
                        (4, !a.has(POLARIZED)),
                        spoken(n, at),
                    ])
                };
                let at = self.on(*p, tests)?;
                self.carry(at, Dialogue::AskControl, fx);
            }
            Request::Handshake(p) => {
                let at = self.on(*p, |n, at, a| {
                    least(&[
                        late(n, at, a),
                        no_control(a),
                        (4, !a.has(HANDSHAKE)),
                        open(a),
                        spoken(n, at),
                    ])
                })?;
                self.carry(at, Dialogue::Handshake, fx);
                self.arc_mut(at).awaits = true;
            }
            Request::HandshakeGrant(p) => {
                let tests = |n: &Node, at, a: &Arc| {
                    let units = (4, !a.has(HANDSHAKE) || !a.has(POLARIZED));
                    least(&[
                        late(n, at, a),
                        no_control(a),
                        units,
                        open(a),
                        bare(n, at, a),
                        spoken(n, at),
                    ])
                };
                let at = self.on(*p, tests)?;
                self.carry(at, Dialogue::HandshakeGrant, fx);
                let a = self.arc_mut(at);
                (a.awaits, a.control) = (true, false);
            }
            Request::Respond(p) => {
                let at = self.on(*p, |n, at, a| {
                    least(&[
                        late(n, at, a),
                        (4, !a.has(HANDSHAKE)),
                        (8, a.owes.is_none()),
                    ])
                })?;
                self.carry(at, Dialogue::Response, fx);
                let a = self.arc_mut(at);
                a.control |= a.owes == Some(Owed::Grant);
                a.owes = None;
            }
            Request::BeginTransaction(p) => {
                let tests = |n: &Node, at, a: &Arc| {
                    let root = (6, n.current.is_none() && !n.may_root());
                    let units = (4, at == At::Up || !a.has(UNCHAINED));
                    least(&[
                        (2, n.is_late() || a.rests),
                        no_control(a),
                        units,
                        root,
                        (7, n.is_branch(at)),
                        (9, n.asked()),
                    ])
                };
                let at = self.on(*p, tests)?;
                if self.current.is_none() {
                    self.start_tree(Some(at), fx)
                } else {
                    self.begin(at, fx)
                }
            }
            Request::DeferEnd(p) | Request::DeferGrant(p) => {
                let grant = matches!(request, Request::DeferGrant(_));
                let tests = |n: &Node, at, a: &Arc| {
                    let units = (
                        4,
                        at == At::Up || !a.has(COMMITS) || grant && !a.has(POLARIZED),
                    );
                    least(&[
                        late(n, at, a),
                        units,
                        (6, !n.is_branch(at)),
                        (9, n.is_spoken(at) || a.deferral.is_some()),
                    ])
                };
                let at = self.on(*p, tests)?;
                self.carry(
                    at,
                    if grant {
                        Dialogue::DeferGrant
                    } else {
                        Dialogue::DeferEnd
                    },
                    fx,
                );
                self.arc_mut(at).deferral = Some(if grant {
                    Deferral::Grant
                } else {
                    Deferral::End
                });
            }
            Request::Prepare(p) => {
                let tests = |n: &Node, at, a: &Arc| {
                    least(&[
                        late(n, at, a),
                        (4, at == At::Up || !a.has(COMMITS)),
                        (6, !n.is_branch(at)),
                        spoken(n, at),
                    ])
                };
                let at = self.on(*p, tests)?;
                self.carry(at, Dialogue::Prepare, fx);
                if let (At::Below(i), Some(t)) = (at, &mut self.current) {
                    t.branches[self.below[i].branch.expect("a branch")].prepared = true;
                }
            }
            Request::Commit => {
                let t = self.current.as_mut().ok_or(6)?;
                least(&[
                    (2, t.phase > Phase::Active),
                    (8, t.key.branch.is_some() && !t.told_prepare),
                    (9, t.asked),
                ])?;
                t.asked = true;
                for b in t.branches.iter_mut().filter(|b| !b.prepared) {
                    b.prepared = true;
                    let a = &mut self.below[b.arc.expect("a live arc")];
                    fx.send(
                        a.addr,
                        Peer::On {
                            x: a.x,
                            y: a.y,
                            seq: a.sent,
                            record: Dialogue::Prepare,
                        },
                    );
                    a.sent += 1;
                }
                self.settle(fx);
            }
            Request::Done => {
                let t = self.current.as_mut().ok_or(6)?;
                if t.phase < Phase::Committing || !t.owes {
                    return Err(12);
                }
                t.owes = false;
                if t.phase == Phase::Committing {
                    self.complete_commit(fx)
                } else {
                    self.complete_rollback(fx)
                }
            }
            Request::Rollback => {
                let t = self.current.as_ref().ok_or(6)?;
                least(&[(2, t.phase > Phase::Active)])?;
                self.roll(true, fx);
            }
            Request::Unchanged => {
                let t = self.current.as_ref().ok_or(6)?;
                let told = t.key.branch.is_some() && t.told_prepare;
                least(&[
                    (2, t.phase > Phase::Active),
                    (8, !told),
                    (9, t.asked),
                    (15, t.branches.iter().any(|b| !b.left)),
                ])?;
                self.leave(fx);
            }
        }
        Ok(())
    }

    fn begin_dialogue(&mut self, addr: Addr, units: Units, fx: &mut Effect) -> Said {
        let peer = addr.node;
        let taken = peer == self.number
            || self.superior.is_some_and(|it| it.node == peer)
            || self.places.contains_key(&peer);
        let gone = self.current.as_ref().map_or(0, |it| {
            it.branches.iter().filter(|b| b.arc.is_none()).count()
        });
        least(&[
            (
                2,
                taken || self.has_branch(peer).is_some() || self.is_late(),
            ),
            (4, !permitted(units)),
            (9, self.asked()),
            (13, self.places.len() + gone >= 256),
        ])?;
        let x = self.draw();
        if self.below.len() > 16 && self.below.len() > 2 * self.places.len() {
            self.gather();
        }
        self.places.insert(peer, self.below.len());
        self.below.push(Arc {
            state: Link::Opening,
            x,
            units,
            ..Arc::new(addr)
        });
        fx.send(addr, Peer::Open { x, units });
        Ok(())
    }

    /// Lets go of the arcs that are idle.
    fn gather(&mut self) {
        self.below.retain(|it| it.state != Link::Idle);
        for (i, a) in self.below.iter().enumerate() {
            self.places.insert(a.addr.node, i);
            if let (Some(b), Some(t)) = (a.branch, &mut self.current) {
                t.branches[b].arc = Some(i);
            }
        }
    }

    fn leave(&mut self, fx: &mut Effect) {
        let key = self.current.as_ref().expect("a transaction").key;
        fx.notes.push((Note::Left, key));
        if self.arc(At::Up).deferral == Some(Deferral::End) {
            self.carry(At::Up, Dialogue::LeftEnd, fx);
            self.close(At::Up);
        } else {
            self.carry(At::Up, Dialogue::Left, fx);
            let a = self.arc_mut(At::Up);
            a.clear();
            a.rests = true;
        }
        self.hold_again(true);
        self.drop_current();
        self.try_start(fx);
    }

    /// On each live branch that is polarized the node holds control again.
    fn hold_again(&mut self, undefer: bool) {
        for b in &self.current.as_ref().expect("a transaction").branches {
            if let Some(a) = b.arc.map(|i| &mut self.below[i]).filter(|a| a.is_live()) {
                a.control = a.units & POLARIZED != 0;
                if undefer {
                    a.deferral = None;
                }
            }
        }
    }

    fn drop_current(&mut self) {
        if let Some(t) = self.current.take() {
            t.branches
                .iter()
                .filter_map(|b| b.arc)
                .for_each(|i| self.below[i].branch = None);
        }
    }

    // ---- a transaction begins

    fn start_tree(&mut self, named: Option<At>, fx: &mut Effect) {
        let key = Key {
            aaid: Id {
                site: self.site,
                mark: self.draw(),
            },
            branch: None,
        };
        self.current = Some(Transaction::new(key, None, Phase::Active));
        fx.notes.push((Note::Start, key));
        if let Some(at) = named {
            self.begin(at, fx);
        }
        self.begin_chained(fx);
    }

    fn begin_chained(&mut self, fx: &mut Effect) {
        for i in 0..self.below.len() {
            let a = &self.below[i];
            if a.is_live() && a.has(CHAINED) && a.branch.is_none() {
                self.begin(At::Below(i), fx);
            }
        }
    }

    fn try_start(&mut self, fx: &mut Effect) {
        if self.current.is_none()
            && self.may_root()
            && self.below.iter().any(|a| a.is_live() && a.has(CHAINED))
        {
            self.start_tree(None, fx);
        }
    }

    fn begin(&mut self, at: At, fx: &mut Effect) {
        let id = Id {
            site: self.site,
            mark: self.draw(),
        };
        let At::Below(i) = at else { return };
        let t = self.current.as_mut().expect("a transaction");
        let a = &mut self.below[i];
        let holder = match (a.has(POLARIZED), a.deferral.take()) {
            (false, _) => Holder::None,
            (true, Some(Deferral::Grant)) => Holder::Subordinate,
            (true, _) => Holder::Superior,
        };
        a.control = holder == Holder::Superior;
        if a.owes.is_some() {
            a.owes = Some(Owed::Plain);
        }
        a.branch = Some(t.branches.len());
        t.branches.push(Branch::new(a.addr, id, Some(i), false));
        t.unsettled += 1;
        t.undone += 1;
        let aaid = t.key.aaid;
        self.carry(at, Dialogue::Begin(aaid, id, holder), fx);
    }

    // ---- it ends

    fn enter(&mut self, phase: Phase) {
        let t = self.current.as_mut().expect("a transaction");
        t.phase = phase;
        t.branches
            .iter()
            .filter_map(|b| b.arc)
            .for_each(|i| self.below[i].clear());
        if self.live_superior() {
            self.arc_mut(At::Up).clear();
        }
    }

    fn settle(&mut self, fx: &mut Effect) {
        let t = self.current.as_ref().expect("a transaction");
        if t.phase != Phase::Active || !t.asked || t.unsettled > 0 {
            return;
        }
        let (key, children) = (t.key, t.staying());
        match t.superior {
            None => {
                fx.record = Some(Record::Commit {
                    key,
                    superior: None,
                    children,
                });
                self.order(fx);
            }
            Some(superior) => {
                fx.record = Some(Record::Ready {
                    key,
                    superior,
                    children,
                });
                self.carry(At::Up, Dialogue::Ready, fx);
                self.enter(Phase::Ready);
            }
        }
    }

    fn order(&mut self, fx: &mut Effect) {
        self.enter(Phase::Committing);
        let t = self.current.as_mut().expect("a transaction");
        for b in t.branches.iter().filter(|b| !b.left) {
            if let Some(a) = b.arc.map(|i| &mut self.below[i]).filter(|a| a.is_live()) {
                fx.send(
                    a.addr,
                    Peer::On {
                        x: a.x,
                        y: a.y,
                        seq: a.sent,
                        record: Dialogue::Commit,
                    },
                );
                a.sent += 1;
            }
        }
        fx.tell(Indication::Commit);
        t.owes = true;
    }

    fn ordered(&mut self, fx: &mut Effect) {
        let t = self.current.as_ref().expect("a transaction");
        fx.record = Some(Record::Commit {
            key: t.key,
            superior: t.superior,
            children: t.staying(),
        });
        self.order(fx);
    }

    fn complete_commit(&mut self, fx: &mut Effect) {
        let t = self.current.as_ref().expect("a transaction");
        if t.owes || t.undone > 0 {
            return;
        }
        let own = if t.decision == Some(Outcome::Rollback) {
            Report::Mix
        } else {
            Report::None
        };
        let of = |b: &Branch| {
            b.carried.max(if b.given_up {
                Report::Hazard
            } else {
                Report::None
            })
        };
        let report = t.branches.iter().map(of).fold(own, Report::max);
        let (key, superior) = (t.key, t.superior);
        if report == Report::None {
            fx.record = Some(Record::End {
                key,
                outcome: Outcome::Commit,
            });
        } else {
            let owed: Vec<_> = t
                .branches
                .iter()
                .filter(|b| !b.done && !b.left)
                .map(Branch::child)
                .collect();
            fx.record = Some(Record::Damage {
                key,
                superior,
                outcome: Outcome::Commit,
                report,
                owed: owed.clone(),
            });
            self.kept.push(Kept {
                key,
                superior,
                side: Outcome::Commit,
                report,
                owed,
                forgot: false,
            });
        }
        for b in t.branches.iter().filter(|b| b.carried != Report::None) {
            fx.send(b.addr, Peer::Forget(key.aaid, b.id));
        }
        let live = self.live_superior();
        if live {
            self.carry(At::Up, Dialogue::Done(report), fx);
        } else if let (Some(branch), Some(superior)) = (key.branch, superior) {
            fx.send(
                superior,
                Peer::RecReply(key.aaid, branch, State::Done(report)),
            );
        }
        self.hold_again(false);
        for i in 0..self.below.len() {
            let a = &self.below[i];
            if a.is_live()
                && a.has(UNCHAINED)
                && a.deferral == Some(Deferral::Grant)
                && a.branch.is_some()
            {
                self.carry(At::Below(i), Dialogue::Grant, fx);
                (self.below[i].control, self.below[i].deferral) = (false, None);
            }
        }
        fx.tell(Indication::CommitComplete(report));
        let arcs = self
            .current
            .as_ref()
            .expect("a transaction")
            .branches
            .iter()
            .filter_map(|b| b.arc);
        let ended: Vec<_> = arcs
            .filter(|i| self.below[*i].is_live() && self.below[*i].deferral == Some(Deferral::End))
            .collect();
        ended.into_iter().for_each(|i| self.close(At::Below(i)));
        if live {
            let a = self.arc_mut(At::Up);
            if a.deferral == Some(Deferral::End) {
                self.close(At::Up);
            } else if a.has(UNCHAINED) {
                a.deferral = None;
            }
        }
        self.drop_current();
        self.try_start(fx);
    }

    fn complete_rollback(&mut self, fx: &mut Effect) {
        let t = self.current.as_ref().expect("a transaction");
        let is_live = |b: &Branch| b.arc.is_some_and(|i| self.below[i].is_live());
        if t.owes
            || t.branches
                .iter()
                .any(|b| !b.rolled && !b.left && is_live(b))
        {
            return;
        }
        let live = self.live_superior();
        if live && !t.superior_rolled {
            return;
        }
        let report = t
            .branches
            .iter()
            .map(|b| b.rolled_report)
            .fold(t.own, Report::max);
        if live {
            self.carry(At::Up, Dialogue::RolledBack(report), fx);
        }
        fx.tell(Indication::RollbackComplete(report));
        self.hold_again(false);
        self.drop_current();
        self.try_start(fx);
    }

    fn roll(&mut self, asked: bool, fx: &mut Effect) {
        let t = self.current.as_mut().expect("a transaction");
        let (key, superior) = (t.key, t.superior);
        fx.notes.push((Note::Rolls, key));
        if t.phase == Phase::Ready {
            if t.decision == Some(Outcome::Commit) {
                let (outcome, report) = (Outcome::Rollback, Report::Mix);
                fx.record = Some(Record::Damage {
                    key,
                    superior,
                    outcome,
                    report,
                    owed: Vec::new(),
                });
                self.kept.push(Kept {
                    key,
                    superior,
                    side: outcome,
                    report,
                    owed: Vec::new(),
                    forgot: false,
                });
                t.own = report;
            } else {
                fx.record = Some(Record::End {
                    key,
                    outcome: Outcome::Rollback,
                });
            }
        }
        t.owes = !asked;
        self.enter(Phase::Rolling);
        if !asked {
            fx.tell(Indication::Rollback);
        }
        if self.live_superior() {
            self.carry(At::Up, Dialogue::Rollback, fx);
            self.arc_mut(At::Up).deferral = None;
        }
        for b in &self.current.as_ref().expect("a transaction").branches {
            if let Some(a) = b.arc.map(|i| &mut self.below[i]).filter(|a| a.is_live()) {
                a.deferral = None;
                if !b.left {
                    fx.send(
                        a.addr,
                        Peer::On {
                            x: a.x,
                            y: a.y,
                            seq: a.sent,
                            record: Dialogue::Rollback,
                        },
                    );
                    a.sent += 1;
                }
            }
        }
        self.complete_rollback(fx);
    }

    /// The loss of a dialogue that is not idle.
    fn lose(&mut self, at: At, told: Indication, fx: &mut Effect) {
        let stays = self.branch_of(at).is_some_and(|b| !b.counted && !b.left);
        let up = at == At::Up && self.is_branch(at) && self.arc(at).is_live();
        self.close(at);
        fx.tell(told);
        match self.phase() {
            Some(Phase::Active) if up || stays => self.roll(false, fx),
            Some(Phase::Rolling) => self.complete_rollback(fx),
            _ => {}
        }
    }

    // ---- records of peers

    /// What a frame's record does.
    pub fn arrive(&mut self, from: Addr, record: &Peer, fx: &mut Effect) -> Said {
        match record {
            Peer::Open { x, units } => {
                if self.superior != Some(from) {
                    return Err(23);
                }
                let a = self.arc_mut(At::Up);
                if a.state != Link::Idle {
                    return Err(21);
                }
                (a.state, a.x, a.units) = (Link::Offered, *x, *units);
                fx.tell(Indication::BeginDialogue(from.node, *units));
                Ok(())
            }
            Peer::Accept { x, y, units } => self.accepted(from, *x, *y, *units, fx),
            Peer::Shut { x, y } => {
                let at = self.find_addr(from).ok_or(21)?;
                let a = self.arc(at);
                match y {
                    Some(y) if a.is_live() && (a.x, a.y) == (*x, *y) => {
                        self.lose(at, Indication::PAbort(from.node), fx)
                    }
                    None if a.state == Link::Opening && a.x == *x => {
                        self.close(at);
                        fx.tell(Indication::Rejected(from.node));
                    }
                    _ => return Err(21),
                }
                Ok(())
            }
            Peer::On { x, y, seq, record } => {
                let at = self.find_addr(from).ok_or(21)?;
                let a = self.arc_mut(at);
                if !a.is_live() || (a.x, a.y) != (*x, *y) {
                    return Err(21);
                }
                if *seq != a.taken {
                    return Err(22);
                }
                a.taken += 1;
                if a.rests {
                    if matches!(record, Dialogue::Response) {
                        return Ok(());
                    }
                    a.rests = false;
                }
                match self.judge(at, record) {
                    Sight::Acts => self.take(at, record, fx),
                    Sight::Nothing => {}
                    Sight::Breaks => self.break_off(at, fx),
                }
                Ok(())
            }
            Peer::RecReady(aaid, branch) => self.asked_by_branch(from, *aaid, *branch, fx),
            Peer::RecCommit(aaid, branch) => self.asked_by_superior(from, *aaid, *branch, fx),
            Peer::RecReply(aaid, branch, state) => self.answered(from, *aaid, *branch, *state, fx),
            Peer::Forget(aaid, branch) => {
                let (_, kept) = self.own(from, *aaid, *branch)?;
                if let Some(k) = kept.filter(|k| self.kept[*k].side == Outcome::Commit) {
                    if self.kept[k].owed.is_empty() {
                        fx.record = Some(Record::End {
                            key: self.kept.remove(k).key,
                            outcome: Outcome::Commit,
                        });
                    } else {
                        self.kept[k].forgot = true;
                    }
                }
                Ok(())
            }
        }
    }

    fn accepted(&mut self, from: Addr, x: Mark, y: Mark, units: Units, fx: &mut Effect) -> Said {
        let at = self.find_addr(from).ok_or(21)?;
        let a = self.arc_mut(at);
        if a.state != Link::Opening || a.x != x {
            return Err(21);
        }
        (a.state, a.y, a.sent, a.taken) = (Link::Live, y, 0, 0);
        if !permitted(units) || units & !a.units != 0 {
            self.break_off(at, fx);
            return Ok(());
        }
        (a.units, a.control) = (units, units & POLARIZED != 0);
        fx.tell(Indication::BegunDialogue(from.node, units));
        if units & CHAINED != 0 {
            if self.current.is_none() {
                self.try_start(fx);
            } else if self.is_in(Phase::Active) && !self.asked() {
                self.begin(at, fx);
            }
        }
        Ok(())
    }

    fn break_off(&mut self, at: At, fx: &mut Effect) {
        fx.answer_24 = true;
        let a = self.arc(at);
        let peer = a.addr.node;
        fx.send(
            a.addr,
            Peer::Shut {
                x: a.x,
                y: Some(a.y),
            },
        );
        self.lose(at, Indication::PAbort(peer), fx);
    }

    fn judge(&self, at: At, record: &Dialogue) -> Sight {
        let (up, a, b, is_branch) = (
            at == At::Up,
            self.arc(at),
            self.branch_of(at),
            self.is_branch(at),
        );
        let is_in = |phase| self.is_in(phase);
        let pick = |acts: bool, nothing: bool| match (acts, nothing) {
            (true, _) => Sight::Acts,
            (_, true) => Sight::Nothing,
            _ => Sight::Breaks,
        };
        match record {
            Dialogue::Begin(..)
            | Dialogue::Prepare
            | Dialogue::Commit
            | Dialogue::DeferEnd
            | Dialogue::DeferGrant
                if !up =>
            {
                Sight::Breaks
            }
            Dialogue::Ready
            | Dialogue::Done(_)
            | Dialogue::RolledBack(_)
            | Dialogue::Left
            | Dialogue::LeftEnd
                if up =>
            {
                Sight::Breaks
            }
            Dialogue::Begin(aaid, branch, _) => {
                let key = Key {
                    aaid: *aaid,
                    branch: Some(*branch),
                };
                pick(
                    self.current.is_none()
                        && a.has(COMMITS)
                        && !self.kept.iter().any(|k| k.key == key),
                    false,
                )
            }
            Dialogue::Prepare => {
                let told = self.current.as_ref().is_some_and(|t| t.told_prepare);
                pick(
                    is_in(Phase::Active) && is_branch && !told,
                    is_in(Phase::Rolling),
                )
            }
            Dialogue::Commit => pick(
                is_in(Phase::Ready) && is_branch,
                is_in(Phase::Committing) || !is_branch,
            ),
            Dialogue::DeferEnd | Dialogue::DeferGrant => {
                let fits = matches!(record, Dialogue::DeferEnd) || a.has(POLARIZED);
                pick(
                    is_in(Phase::Active) && is_branch && a.deferral.is_none() && fits,
                    is_in(Phase::Rolling),
                )
            }
            Dialogue::Rollback if !is_branch => Sight::Nothing,
            Dialogue::Rollback if up => pick(!is_in(Phase::Committing), false),
            Dialogue::Rollback => pick(
                is_in(Phase::Active) && b.is_some_and(|b| !b.counted),
                is_in(Phase::Rolling),
            ),
            Dialogue::Ready => pick(
                is_in(Phase::Active) && b.is_some_and(|b| b.prepared && !b.counted),
                is_in(Phase::Rolling),
            ),
            Dialogue::Done(_) => pick(
                is_in(Phase::Committing) && b.is_some_and(|b| !b.done && !b.left),
                true,
            ),
            Dialogue::RolledBack(_) => pick(
                is_in(Phase::Rolling) && b.is_some_and(|b| !b.rolled && !b.left),
                true,
            ),
            Dialogue::Left | Dialogue::LeftEnd => {
                let active =
                    is_in(Phase::Active) && b.is_some_and(|b| b.prepared && !b.counted && !b.left);
                pick(
                    active || is_in(Phase::Rolling) && b.is_some_and(|b| !b.rolled && !b.left),
                    false,
                )
            }
            Dialogue::UAbort => Sight::Acts,
            Dialogue::EndDialogue => pick(
                (!is_branch || b.is_some_and(|b| b.done || b.rolled || b.left)) && !a.control,
                false,
            ),
            _ => self.judge_user(at, record),
        }
    }

    /// Of the records that carry what users say.
    fn judge_user(&self, at: At, record: &Dialogue) -> Sight {
        let (a, b, is_branch) = (self.arc(at), self.branch_of(at), self.is_branch(at));
        if self.is_late_on(at) {
            let closing = matches!(self.phase(), Some(Phase::Committing | Phase::Rolling));
            if !b.is_some_and(|b| b.done || b.rolled || b.left && closing) {
                return Sight::Nothing;
            }
        }
        use Dialogue::{AskControl, Grant, Handshake, HandshakeGrant, Response, UserData};
        let breaks = matches!(record, UserData(_) | Grant | Handshake | HandshakeGrant)
            && a.control
            || matches!(record, UserData(_) | Grant | HandshakeGrant)
                && a.has(CHAINED)
                && !is_branch
            || matches!(record, Grant | AskControl | HandshakeGrant) && !a.has(POLARIZED)
            || matches!(record, Handshake | HandshakeGrant | Response) && !a.has(HANDSHAKE)
            || matches!(record, Response) && !a.awaits
            || matches!(record, Handshake | HandshakeGrant) && a.owes.is_some();
        if breaks {
            Sight::Breaks
        } else {
            Sight::Acts
        }
    }

    fn take(&mut self, at: At, record: &Dialogue, fx: &mut Effect) {
        let a = match at {
            At::Up => self.up.as_mut().expect("an arc to the superior"),
            At::Below(i) => &mut self.below[i],
        };
        let (peer, branch) = (a.addr.node, a.branch);
        match record {
            Dialogue::EndDialogue => {
                self.close(at);
                fx.tell(Indication::EndDialogue(peer));
            }
            Dialogue::UserData(octets) => fx.tell(Indication::UserData(peer, octets.clone())),
            Dialogue::UError => fx.tell(Indication::UError(peer)),
            Dialogue::UAbort => self.lose(at, Indication::UAbort(peer), fx),
            Dialogue::Grant => {
                a.control = true;
                a.owes = a.owes.map(|_| Owed::Plain);
                fx.tell(Indication::Grant(peer));
            }
            Dialogue::AskControl => fx.tell(Indication::AskControl(peer)),
            Dialogue::Handshake => {
                a.owes = Some(Owed::Plain);
                fx.tell(Indication::Handshake(peer));
            }
            Dialogue::HandshakeGrant => {
                a.owes = Some(Owed::Grant);
                fx.tell(Indication::HandshakeGrant(peer));
            }
            Dialogue::Response => {
                a.awaits = false;
                fx.tell(Indication::HandshakeConfirm(peer));
            }
            Dialogue::DeferEnd => {
                a.deferral = Some(Deferral::End);
                fx.tell(Indication::DeferEnd(peer));
            }
            Dialogue::DeferGrant => {
                a.deferral = Some(Deferral::Grant);
                fx.tell(Indication::DeferGrant(peer));
            }
            Dialogue::Begin(aaid, branch, holder) => {
                a.deferral = None;
                a.control = a.has(POLARIZED) && *holder == Holder::Subordinate;
                a.owes = a.owes.map(|_| Owed::Plain);
                let (key, superior) = (
                    Key {
                        aaid: *aaid,
                        branch: Some(*branch),
                    },
                    a.addr,
                );
                fx.notes.push((Note::Took, key));
                self.current = Some(Transaction::new(key, Some(superior), Phase::Active));
                fx.tell(Indication::BeginTransaction(peer, *aaid));
                self.begin_chained(fx);
            }
            Dialogue::Prepare => {
                self.current.as_mut().expect("a transaction").told_prepare = true;
                fx.tell(Indication::Prepare);
            }
            Dialogue::Ready => {
                let t = self.current.as_mut().expect("a transaction");
                let b = &mut t.branches[branch.expect("a branch")];
                t.unsettled -= usize::from(!b.left);
                b.counted = true;
                fx.tell(Indication::Ready(peer));
                self.settle(fx);
            }
            Dialogue::Commit => self.ordered(fx),
            Dialogue::Done(report) => self.branch_done(branch.expect("a branch"), *report, fx),
            Dialogue::Rollback => {
                let t = self.current.as_mut().expect("a transaction");
                t.superior_rolled |= at == At::Up;
                if at == At::Up && t.phase == Phase::Rolling {
                    self.complete_rollback(fx)
                } else {
                    self.roll(false, fx)
                }
            }
            Dialogue::RolledBack(report) => {
                let b = &mut self.current.as_mut().expect("a transaction").branches
                    [branch.expect("a branch")];
                (b.rolled, b.rolled_report) = (true, *report);
                if *report != Report::None {
                    fx.tell(Indication::HeuristicReport(peer, *report));
                }
                self.complete_rollback(fx);
            }
            Dialogue::Left | Dialogue::LeftEnd => {
                if matches!(record, Dialogue::LeftEnd) {
                    self.close(at)
                } else {
                    a.clear()
                }
                let t = self.current.as_mut().expect("a transaction");
                let b = &mut t.branches[branch.expect("a branch")];
                if t.phase == Phase::Active {
                    t.unsettled -= usize::from(!b.counted);
                    t.undone -= 1;
                    b.left = true;
                    fx.tell(Indication::Left(peer));
                    self.settle(fx);
                } else {
                    b.rolled = true;
                    self.complete_rollback(fx);
                }
            }
        }
    }

    fn branch_done(&mut self, branch: usize, report: Report, fx: &mut Effect) {
        let t = self.current.as_mut().expect("a transaction");
        let b = &mut t.branches[branch];
        if report != Report::None {
            fx.tell(Indication::HeuristicReport(b.addr.node, report));
        }
        t.undone -= usize::from(!b.given_up && !b.done);
        (b.done, b.carried) = (true, report);
        self.complete_commit(fx);
    }

    // ---- recovery

    /// Whether the current transaction has that key, and which of the kept ones; refused where its superior is not `from`.
    fn own(&self, from: Addr, aaid: Id, branch: Id) -> Result<(bool, Option<usize>), u8> {
        let key = Key {
            aaid,
            branch: Some(branch),
        };
        let current = self.current.as_ref().filter(|t| t.key == key);
        let kept = self.kept.iter().position(|k| k.key == key);
        let superior = current
            .map(|t| t.superior)
            .or(kept.map(|k| self.kept[k].superior));
        if superior.is_some_and(|it| it != Some(from)) {
            Err(23)
        } else {
            Ok((current.is_some(), kept))
        }
    }

    /// The same of a branch's superior: its key with that tree; refused where the branch is kept at another address.
    fn of_branch(&self, from: Addr, aaid: Id, branch: Id) -> Result<(bool, Option<usize>), u8> {
        let current = self.current.as_ref().filter(|t| t.key.aaid == aaid);
        let mut kept = self.kept.iter().filter(|k| k.key.aaid == aaid);
        let owes = |k: &Kept| k.owed.iter().any(|c| c.branch == branch);
        let key = match current {
            Some(t) if t.of_id(branch).is_some() => Some(t.key),
            _ => kept
                .clone()
                .find(|k| owes(k))
                .or(if current.is_some() { None } else { kept.next() })
                .map(|k| k.key)
                .or(current.map(|t| t.key)),
        };
        let current = current.filter(|t| Some(t.key) == key);
        let kept = self.kept.iter().position(|k| Some(k.key) == key);
        let at = match (current, kept) {
            (Some(t), _) => t.of_id(branch).map(|b| t.branches[b].addr),
            (None, Some(k)) => self.kept[k]
                .owed
                .iter()
                .find(|c| c.branch == branch)
                .map(|c| c.addr),
            (None, None) => None,
        };
        if at.is_some_and(|it| it != from) {
            Err(23)
        } else {
            Ok((current.is_some(), kept))
        }
    }

    fn asked_by_branch(&mut self, from: Addr, aaid: Id, branch: Id, fx: &mut Effect) -> Said {
        let (current, kept) = self.of_branch(from, aaid, branch)?;
        let t = self.current.as_ref().filter(|_| current);
        let committed = t.is_some_and(|t| t.phase == Phase::Committing)
            || kept.is_some_and(|k| self.kept[k].side == Outcome::Commit);
        let state = if committed {
            State::Commit
        } else if t.is_some_and(|t| t.phase <= Phase::Ready && t.of_id(branch).is_some()) {
            State::RetryLater
        } else {
            State::Unknown
        };
        fx.send(from, Peer::RecReply(aaid, branch, state));
        Ok(())
    }

    fn asked_by_superior(&mut self, from: Addr, aaid: Id, branch: Id, fx: &mut Effect) -> Said {
        let (current, kept) = self.own(from, aaid, branch)?;
        let phase = self.phase().filter(|_| current);
        let state = match (phase, kept.map(|k| &self.kept[k])) {
            (Some(Phase::Ready), _) => {
                self.ordered(fx);
                return Ok(());
            }
            (Some(Phase::Committing), _) => State::RetryLater,
            (Some(_), _) => return Err(24),
            (None, Some(k)) if k.side == Outcome::Rollback => return Err(24),
            (None, Some(k)) => State::Done(k.report),
            (None, None) => State::Done(Report::None),
        };
        fx.send(from, Peer::RecReply(aaid, branch, state));
        Ok(())
    }

    fn answered(
        &mut self,
        from: Addr,
        aaid: Id,
        branch: Id,
        state: State,
        fx: &mut Effect,
    ) -> Said {
        let State::Done(report) = state else {
            let (current, _) = self.own(from, aaid, branch)?;
            if let Some(t) = self
                .current
                .as_mut()
                .filter(|t| current && t.phase == Phase::Ready)
            {
                match state {
                    State::Commit => self.ordered(fx),
                    State::Unknown => {
                        t.superior_rolled = true;
                        self.roll(false, fx);
                    }
                    _ => {}
                }
            }
            return Ok(());
        };
        let (current, kept) = self.of_branch(from, aaid, branch)?;
        if let Some(t) = self
            .current
            .as_ref()
            .filter(|t| current && t.phase == Phase::Committing)
        {
            if let Some(b) = t
                .of_id(branch)
                .filter(|b| !t.branches[*b].done && !t.branches[*b].left)
            {
                self.branch_done(b, report, fx);
            }
            return Ok(());
        }
        if let Some(i) = kept {
            let k = &mut self.kept[i];
            if let Some(c) = k.owed.iter().position(|c| c.branch == branch) {
                k.owed.remove(c);
                k.report = k.report.max(report);
                if k.owed.is_empty() && k.forgot {
                    fx.record = Some(Record::End {
                        key: self.kept.remove(i).key,
                        outcome: Outcome::Commit,
                    });
                } else {
                    let (outcome, owed) = (Outcome::Commit, k.owed.clone());
                    fx.record = Some(Record::Damage {
                        key: k.key,
                        superior: k.superior,
                        outcome,
                        report: k.report,
                        owed,
                    });
                }
            }
        } else if current {
            return Ok(());
        }
        if report != Report::None {
            fx.send(from, Peer::Forget(aaid, branch));
        }
        Ok(())
    }
}
