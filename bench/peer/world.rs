//! Many sites under a schedule: their logs, the frames between nodes, the trees.
use crate::node::{Effect, Event, Node, Note, Out, Phase};
use crate::schedule::{Action, Line};
use crate::value::*;
use crate::words;
use std::collections::{BTreeMap, VecDeque};

pub enum Fault {
    Name,
    Limit(&'static str),
}

struct Frame {
    from: Addr,
    to: Addr,
    handed: bool,
    record: Peer,
}

/// A site's log to the byte, and where its closing gate stands.
struct Log {
    bytes: Vec<u8>,
    gate: usize,
    boot: u64,
    nodes: Vec<u16>,
}

/// What became of a node in a tree.
#[derive(Default)]
struct Fate {
    decided: bool,
    rolled: bool,
    left: bool,
    heuristic: Option<Outcome>,
}

impl Fate {
    fn told(&self) -> Option<Outcome> {
        self.heuristic.or(if self.decided {
            Some(Outcome::Commit)
        } else if self.rolled {
            Some(Outcome::Rollback)
        } else {
            None
        })
    }
}

/// A tree is named by the mark of its root: the node that drew it and its count of that boot.
type Name = (u16, u64, u64);

fn name_of(aaid: Id) -> Name {
    (aaid.mark.node, aaid.mark.boot, aaid.mark.count)
}

#[derive(Default)]
pub struct World {
    names: Vec<Box<[u8]>>,
    logs: Vec<Log>,
    places: Table<u16, usize>,
    nodes: Vec<Node>,
    frames: Vec<Frame>,
    first: usize,
    waiting: Table<(u16, u16), VecDeque<u16>>,
    order: Vec<Id>,
    trees: Table<Name, BTreeMap<u16, Fate>>,
    effect: Effect,
    text: Vec<u8>,
}

impl World {
    pub fn frames(&self) -> usize {
        self.frames.len()
    }

    /// Plays a line, and puts its echo and what comes of it at the end of `out`.
    pub fn line(&mut self, line: &Line<'_>, out: &mut Vec<u8>) -> Result<(), Fault> {
        self.echo(line, out);
        match line {
            Line::Declare { node, site, under } => self.declare(*node, site, *under, out),
            Line::Drain => {
                while self.first < self.frames.len() {
                    let k = self.first;
                    self.hand(k);
                    self.deliver(k, out)?;
                }
                Ok(())
            }
            Line::Show(node) => {
                let node = &self.nodes[self.place(*node)?];
                words::numbered(out, "state", node.number);
                let phase = match node.phase() {
                    None => " nil",
                    Some(Phase::Active) if node.asked() => " asked",
                    Some(Phase::Active) => " active",
                    Some(Phase::Ready) => " ready",
                    Some(Phase::Committing) => " committing",
                    Some(Phase::Rolling) => " rolling",
                };
                words::text(out, phase);
                words::text(out, " kept ");
                words::number(out, node.kept() as u64);
                out.push(b'\n');
                Ok(())
            }
            Line::Image(site) => {
                let at = self.site(site)?;
                words::text(out, "image ");
                out.extend_from_slice(site);
                out.push(b' ');
                words::hex(out, &self.logs[at].bytes);
                out.push(b'\n');
                Ok(())
            }
            Line::Skip(a, b) => {
                (self.place(*a)?, self.place(*b)?);
                match self.oldest(*a, *b) {
                    Some(k) => {
                        self.hand(k);
                        words::numbered(out, "lost", k as u16 + 1);
                        out.push(b'\n');
                    }
                    None => words::text(out, "nothing\n"),
                }
                Ok(())
            }
            Line::Crash(site) => {
                let at = self.site(site)?;
                self.restart(at, &self.active(at), out);
                Ok(())
            }
            Line::CrashIn {
                site,
                k,
                fill,
                action,
            } => self.stop_in(site, *k, *fill, action, out),
            Line::Act(action) => self.act(action, out),
        }
    }

    fn echo(&self, line: &Line<'_>, out: &mut Vec<u8>) {
        words::text(out, "> ");
        match line {
            Line::Declare { node, site, under } => {
                words::numbered(out, "node", *node);
                out.push(b' ');
                out.extend_from_slice(site);
                if let Some(under) = under {
                    words::numbered(out, " under", *under);
                }
            }
            Line::Drain => words::text(out, "drain"),
            Line::Show(node) => words::numbered(out, "show", *node),
            Line::Image(site) => {
                words::text(out, "image ");
                out.extend_from_slice(site);
            }
            Line::Skip(a, b) => pair(out, "skip", *a, *b),
            Line::Crash(site) => {
                words::text(out, "crash ");
                out.extend_from_slice(site);
            }
            Line::CrashIn {
                site,
                k,
                fill,
                action,
            } => {
                words::text(out, "crash ");
                out.extend_from_slice(site);
                words::numbered(out, " at", (*k).into());
                words::text(out, " fill ");
                words::hex(out, &[*fill]);
                words::text(out, " in ");
                echo_action(out, action);
            }
            Line::Act(action) => echo_action(out, action),
        }
        out.push(b'\n');
    }

    fn place(&self, node: u16) -> Result<usize, Fault> {
        self.places.get(&node).copied().ok_or(Fault::Name)
    }

    fn site(&self, name: &[u8]) -> Result<usize, Fault> {
        self.names
            .iter()
            .position(|it| **it == *name)
            .ok_or(Fault::Name)
    }

    fn declare(
        &mut self,
        node: u16,
        site: &[u8],
        under: Option<u16>,
        out: &mut Vec<u8>,
    ) -> Result<(), Fault> {
        if self.places.contains_key(&node) {
            return Err(Fault::Name);
        }
        let superior = under
            .map(|it| self.place(it))
            .transpose()?
            .map(|at| self.nodes[at].addr());
        let known = self.site(site).ok();
        if known.is_none() && self.names.len() >= 16 {
            return Err(Fault::Limit("sites"));
        }
        if self.nodes.len() >= 256 {
            return Err(Fault::Limit("nodes"));
        }
        let at = known.unwrap_or_else(|| {
            self.names.push(site.into());
            let mut log = Log {
                bytes: b"OTPL\x01\x01\0\x02\x07\x02\0".to_vec(),
                gate: 10,
                boot: 0,
                nodes: Vec::new(),
            };
            log.start();
            words::text(out, "log ");
            out.extend_from_slice(site);
            words::text(out, " boot 1\n");
            self.logs.push(log);
            self.logs.len() - 1
        });
        self.logs[at].nodes.push(node);
        self.places.insert(node, self.nodes.len());
        self.nodes.push(Node::new(
            Addr {
                site: at as Site,
                node,
            },
            self.logs[at].boot,
            superior,
        ));
        Ok(())
    }

    fn oldest(&mut self, a: u16, b: u16) -> Option<usize> {
        let queue = self.waiting.get_mut(&(a, b))?;
        while let Some(&k) = queue.front() {
            if !self.frames[usize::from(k)].handed {
                return Some(k.into());
            }
            queue.pop_front();
        }
        None
    }

    fn hand(&mut self, k: usize) {
        self.frames[k].handed = true;
        while self.frames.get(self.first).is_some_and(|it| it.handed) {
            self.first += 1;
        }
    }

    fn deliver(&mut self, k: usize, out: &mut Vec<u8>) -> Result<(), Fault> {
        words::numbered(out, "take", k as u16 + 1);
        out.push(b'\n');
        let Frame {
            from, to, record, ..
        } = &self.frames[k];
        let at = self.places[&to.node];
        self.effect.clear();
        let said = self.nodes[at].arrive(*from, record, &mut self.effect);
        self.give(at, said, out)
    }

    fn act(&mut self, action: &Action, out: &mut Vec<u8>) -> Result<(), Fault> {
        match action {
            Action::Pass(a, b) => {
                (self.place(*a)?, self.place(*b)?);
                match self.oldest(*a, *b) {
                    Some(k) => {
                        self.hand(k);
                        self.deliver(k, out)
                    }
                    None => {
                        words::text(out, "nothing\n");
                        Ok(())
                    }
                }
            }
            Action::Again(k) => {
                let k = usize::from(*k) - 1;
                if k >= self.frames.len() {
                    Err(Fault::Name)
                } else {
                    self.deliver(k, out)
                }
            }
            _ => {
                let (at, event) = self.local(action)?;
                self.effect.clear();
                let said = self.nodes[at].event(event, &mut self.effect);
                self.give(at, said, out)
            }
        }
    }

    /// The node of an action that hands no frame over, and its event.
    fn local<'a>(&self, action: &'a Action) -> Result<(usize, Event<'a>), Fault> {
        Ok(match action {
            Action::Do(node, request) => {
                let at = self.place(*node)?;
                let peer = peer_of(request).map(|it| self.place(it)).transpose()?;
                (at, Event::Do(request, peer.map(|it| self.nodes[it].addr())))
            }
            Action::Lose(a, b) => (self.place(*a)?, self.place(*b).map(|_| Event::Lose(*b))?),
            Action::GiveUp(a, b) => (self.place(*a)?, self.place(*b).map(|_| Event::GiveUp(*b))?),
            Action::Heuristic(node, outcome) => (self.place(*node)?, Event::Heuristic(*outcome)),
            Action::Retry(node) => (self.place(*node)?, Event::Retry),
            Action::Purge(node) | Action::Again(node) | Action::Pass(node, _) => {
                (self.place(*node)?, Event::Purge)
            }
        })
    }

    /// Forces the record of an event, notes what it means for trees, and writes what it gave.
    fn give(&mut self, at: usize, said: Result<(), u8>, out: &mut Vec<u8>) -> Result<(), Fault> {
        if let Err(number) = said {
            words::numbered(
                out,
                if matches!(number, 21 | 22) {
                    "dropped"
                } else {
                    "refused"
                },
                number.into(),
            );
            out.push(b'\n');
            return Ok(());
        }
        let addr = self.nodes[at].addr();
        let mut effect = std::mem::take(&mut self.effect);
        if let Some(record) = &effect.record {
            self.text.clear();
            words::body(&mut self.text, &self.names, addr.node, record);
            let log = &mut self.logs[usize::from(addr.site)];
            log.force(&self.text)?;
            words::text(out, "log ");
            out.extend_from_slice(&self.names[usize::from(addr.site)]);
            out.push(b' ');
            words::record(out, &self.names, addr.node, record);
            out.push(b'\n');
        }
        self.book(addr.node, &effect);
        if effect.answer_24 {
            words::text(out, "refused 24\n");
        }
        for it in effect.outs.drain(..) {
            match it {
                Out::Tell(indication) => {
                    words::numbered(out, "tell", addr.node);
                    out.push(b' ');
                    words::indication(out, &self.names, &indication);
                    out.push(b'\n');
                }
                Out::Send(to, record) => self.send(addr, to, record, out)?,
            }
        }
        self.effect = effect;
        Ok(())
    }

    fn send(&mut self, from: Addr, to: Addr, record: Peer, out: &mut Vec<u8>) -> Result<(), Fault> {
        if self.frames.len() >= 65535 {
            return Err(Fault::Limit("frames"));
        }
        let k = self.frames.len() as u16;
        words::numbered(out, "send", k + 1);
        words::numbered(out, "", from.node);
        words::numbered(out, "", to.node);
        out.push(b' ');
        words::peer(out, &self.names, &record);
        out.push(b'\n');
        self.frames.push(Frame {
            from,
            to,
            handed: false,
            record,
        });
        self.waiting
            .entry((from.node, to.node))
            .or_default()
            .push_back(k);
        Ok(())
    }

    fn fate(&mut self, aaid: Id, node: u16) -> &mut Fate {
        self.trees
            .entry(name_of(aaid))
            .or_default()
            .entry(node)
            .or_default()
    }

    fn book(&mut self, node: u16, effect: &Effect) {
        for (note, key) in &effect.notes {
            match note {
                Note::Start => {
                    self.order.push(key.aaid);
                    self.fate(key.aaid, node);
                }
                Note::Took => _ = self.fate(key.aaid, node),
                Note::Rolls => self.fate(key.aaid, node).rolled = true,
                Note::Left => self.fate(key.aaid, node).left = true,
            }
        }
        match &effect.record {
            Some(Record::Commit { key, .. }) => self.fate(key.aaid, node).decided = true,
            Some(Record::Heuristic { key, outcome }) => {
                self.fate(key.aaid, node).heuristic = Some(*outcome)
            }
            _ => {}
        }
    }

    /// The nodes of a site that are active, with their trees.
    fn active(&self, site: usize) -> Vec<(u16, Id)> {
        let nodes = self.logs[site]
            .nodes
            .iter()
            .map(|it| &self.nodes[self.places[it]]);
        nodes
            .filter_map(|it| Some((it.number, it.active()?)))
            .collect()
    }

    /// Starts a site again on its log. The nodes that were active rolled.
    fn restart(&mut self, site: usize, active: &[(u16, Id)], out: &mut Vec<u8>) {
        for (node, aaid) in active {
            self.fate(*aaid, *node).rolled = true;
        }
        self.logs[site].start();
        for node in &self.logs[site].nodes {
            self.nodes[self.places[node]].start(self.logs[site].boot);
        }
        words::text(out, "log ");
        out.extend_from_slice(&self.names[site]);
        words::text(out, " boot ");
        words::number(out, self.logs[site].boot);
        out.push(b'\n');
    }

    fn stop_in(
        &mut self,
        site: &[u8],
        k: u8,
        fill: u8,
        action: &Action,
        out: &mut Vec<u8>,
    ) -> Result<(), Fault> {
        let site = self.site(site)?;
        let (at, frame) = match action {
            Action::Pass(a, b) => {
                self.place(*a)?;
                (self.place(*b)?, self.oldest(*a, *b))
            }
            Action::Again(k) => {
                let k = usize::from(*k) - 1;
                let to = self.frames.get(k).ok_or(Fault::Name)?.to;
                (self.places[&to.node], Some(k))
            }
            _ => (self.local(action)?.0, None),
        };
        if usize::from(self.nodes[at].addr().site) != site {
            return Err(Fault::Name);
        }
        let before = self.active(site);
        self.effect.clear();
        let saved = self.nodes[at].clone();
        let said = match (action, frame) {
            (Action::Pass(..) | Action::Again(_), Some(k)) => {
                if matches!(action, Action::Pass(..)) {
                    self.hand(k);
                }
                words::numbered(out, "take", k as u16 + 1);
                out.push(b'\n');
                let Frame { from, record, .. } = &self.frames[k];
                self.nodes[at].arrive(*from, record, &mut self.effect)
            }
            (Action::Pass(..), None) => {
                words::text(out, "nothing\n");
                Err(0)
            }
            _ => {
                let (at, event) = self.local(action)?;
                self.nodes[at].event(event, &mut self.effect)
            }
        };
        let effect = std::mem::take(&mut self.effect);
        let mut fate = " none\n";
        if let (Ok(()), Some(record)) = (said, &effect.record) {
            self.text.clear();
            words::body(&mut self.text, &self.names, self.nodes[at].number, record);
            fate = if self.logs[site].stop(&self.text, k, fill)? {
                " kept\n"
            } else {
                " lost\n"
            };
        }
        let active = if fate == " lost\n" {
            self.nodes[at] = saved;
            before
        } else {
            if said.is_ok() {
                self.book(self.nodes[at].number, &effect);
            }
            self.active(site)
        };
        words::text(out, "stopped ");
        out.extend_from_slice(&self.names[site]);
        words::text(out, fate);
        self.restart(site, &active, out);
        Ok(())
    }

    /// Puts a line for each tree at the end of `out`.
    pub fn closing(&self, out: &mut Vec<u8>) {
        for aaid in &self.order {
            let fates = &self.trees[&name_of(*aaid)];
            let (mut commits, mut rolls, mut open) = (false, false, false);
            for fate in fates.values().filter(|it| !it.left) {
                match fate.told() {
                    Some(Outcome::Commit) => commits = true,
                    Some(Outcome::Rollback) => rolls = true,
                    None => open = true,
                }
            }
            words::text(out, "tree ");
            words::id(out, &self.names, *aaid);
            if commits && rolls {
                words::text(out, " mixed by ");
                let decided = fates.iter().filter(|it| it.1.heuristic.is_some());
                for (i, (node, _)) in decided.enumerate() {
                    if i > 0 {
                        out.push(b',');
                    }
                    words::number(out, (*node).into());
                }
            } else if !open && (commits || rolls) {
                words::text(
                    out,
                    if commits {
                        " agreed commit"
                    } else {
                        " agreed rollback"
                    },
                );
            } else {
                words::text(out, " open");
            }
            out.push(b'\n');
        }
    }
}

impl Log {
    /// Forces a Boot with the next number.
    fn start(&mut self) {
        self.boot += 1;
        let mut body = [0; 9];
        body[0] = 1;
        body[1..].copy_from_slice(&self.boot.to_be_bytes());
        let _ = self.force(&body);
    }

    /// The two writes of a force, the second of which opens the gate.
    fn force(&mut self, body: &[u8]) -> Result<(), Fault> {
        self.write(body)?;
        self.bytes[self.gate] = 1;
        self.gate += 3 + body.len();
        Ok(())
    }

    fn write(&mut self, body: &[u8]) -> Result<(), Fault> {
        let end = self.gate + 4 + body.len();
        if end > 268_435_456 {
            return Err(Fault::Limit("log"));
        }
        let tail = self.bytes.split_off(end.min(self.bytes.len()));
        self.bytes.truncate(self.gate + 1);
        self.bytes
            .extend_from_slice(&(body.len() as u16).to_be_bytes());
        self.bytes.extend_from_slice(body);
        self.bytes.push(0);
        self.bytes.extend_from_slice(&tail);
        Ok(())
    }

    /// A force that stops at its k-th changing call, with this fill for what was not synced; whether the record stands.
    fn stop(&mut self, body: &[u8], k: u8, fill: u8) -> Result<bool, Fault> {
        self.write(body)?;
        let end = self.gate + 4 + body.len();
        match k {
            1 | 2 => self.bytes[self.gate + 1..end].fill(fill),
            3 | 4 => self.bytes[self.gate] = fill,
            _ => self.bytes[self.gate] = 1,
        }
        let stands = self.bytes[self.gate] == 1;
        if stands {
            self.gate += 3 + body.len();
        }
        Ok(stands)
    }
}

fn pair(out: &mut Vec<u8>, word: &str, a: u16, b: u16) {
    words::numbered(out, word, a);
    words::numbered(out, "", b);
}

fn echo_action(out: &mut Vec<u8>, action: &Action) {
    match action {
        Action::Do(node, request) => {
            words::numbered(out, "do", *node);
            out.push(b' ');
            words::request(out, request);
        }
        Action::Pass(a, b) => pair(out, "pass", *a, *b),
        Action::Again(k) => words::numbered(out, "again", *k),
        Action::Lose(a, b) => pair(out, "lose", *a, *b),
        Action::Heuristic(node, outcome) => {
            words::numbered(out, "heur", *node);
            out.push(b' ');
            words::outcome(out, *outcome);
        }
        Action::GiveUp(a, b) => pair(out, "giveup", *a, *b),
        Action::Retry(node) => words::numbered(out, "retry", *node),
        Action::Purge(node) => words::numbered(out, "purge", *node),
    }
}

fn peer_of(request: &Request) -> Option<u16> {
    match request {
        Request::BeginDialogue(p, _)
        | Request::EndDialogue(p)
        | Request::UserData(p, _)
        | Request::UError(p) => Some(*p),
        Request::UAbort(p) | Request::Grant(p) | Request::AskControl(p) | Request::Handshake(p) => {
            Some(*p)
        }
        Request::Respond(p)
        | Request::HandshakeGrant(p)
        | Request::BeginTransaction(p)
        | Request::DeferEnd(p) => Some(*p),
        Request::DeferGrant(p) | Request::Prepare(p) => Some(*p),
        Request::Accept(_)
        | Request::Reject
        | Request::Commit
        | Request::Done
        | Request::Rollback
        | Request::Unchanged => None,
    }
}
