//! The words of a transcript, and the bytes of a log's records.
use crate::value::*;

/// The names of sites, by their numbers.
pub type Names = [Box<[u8]>];

pub fn text(out: &mut Vec<u8>, word: &str) {
    out.extend_from_slice(word.as_bytes());
}

pub fn number(out: &mut Vec<u8>, mut value: u64) {
    if value < 10 {
        return out.push(b'0' + value as u8);
    }
    let (mut digits, mut at) = ([0; 20], 20);
    loop {
        at -= 1;
        digits[at] = b'0' + (value % 10) as u8;
        value /= 10;
        if value == 0 {
            break;
        }
    }
    out.extend_from_slice(&digits[at..]);
}

/// A word and a number after it.
pub fn numbered(out: &mut Vec<u8>, word: &str, value: u16) {
    text(out, word);
    out.push(b' ');
    number(out, value.into());
}

pub fn hex(out: &mut Vec<u8>, bytes: &[u8]) {
    for b in bytes {
        out.push(b"0123456789abcdef"[usize::from(b >> 4)]);
        out.push(b"0123456789abcdef"[usize::from(b & 15)]);
    }
}

fn octets(out: &mut Vec<u8>, bytes: &[u8]) {
    if bytes.is_empty() {
        out.push(b'-')
    } else {
        hex(out, bytes)
    }
}

fn mark(out: &mut Vec<u8>, m: Mark) {
    number(out, m.boot);
    out.push(b'.');
    number(out, m.node.into());
    out.push(b'.');
    number(out, m.count);
}

pub fn id(out: &mut Vec<u8>, names: &Names, it: Id) {
    out.extend_from_slice(&names[usize::from(it.site)]);
    out.push(b'.');
    mark(out, it.mark);
}

fn ids(out: &mut Vec<u8>, names: &Names, word: &str, aaid: Id, branch: Id) {
    text(out, word);
    out.push(b' ');
    id(out, names, aaid);
    out.push(b' ');
    id(out, names, branch);
}

fn units(out: &mut Vec<u8>, u: Units) {
    out.extend(LETTERS.iter().filter(|it| u & it.1 != 0).map(|it| it.0));
}

pub fn outcome(out: &mut Vec<u8>, it: Outcome) {
    text(
        out,
        if it == Outcome::Commit {
            "commit"
        } else {
            "rollback"
        },
    );
}

fn report(out: &mut Vec<u8>, word: &str, it: Report) {
    text(out, word);
    text(
        out,
        match it {
            Report::None => " none",
            Report::Hazard => " hazard",
            Report::Mix => " mix",
        },
    );
}

pub fn request(out: &mut Vec<u8>, it: &Request) {
    match it {
        Request::BeginDialogue(peer, u) => {
            numbered(out, "begin-dialogue", *peer);
            out.push(b' ');
            units(out, *u);
        }
        Request::Accept(u) => {
            text(out, "accept ");
            units(out, *u);
        }
        Request::Reject => text(out, "reject"),
        Request::EndDialogue(peer) => numbered(out, "end-dialogue", *peer),
        Request::UserData(peer, bytes) => {
            numbered(out, "data", *peer);
            out.push(b' ');
            octets(out, bytes);
        }
        Request::UError(peer) => numbered(out, "u-error", *peer),
        Request::UAbort(peer) => numbered(out, "u-abort", *peer),
        Request::Grant(peer) => numbered(out, "grant-control", *peer),
        Request::AskControl(peer) => numbered(out, "request-control", *peer),
        Request::Handshake(peer) => numbered(out, "handshake", *peer),
        Request::Respond(peer) => numbered(out, "respond", *peer),
        Request::HandshakeGrant(peer) => numbered(out, "handshake-and-grant", *peer),
        Request::BeginTransaction(peer) => numbered(out, "begin-transaction", *peer),
        Request::DeferEnd(peer) => numbered(out, "deferred-end", *peer),
        Request::DeferGrant(peer) => numbered(out, "deferred-grant", *peer),
        Request::Prepare(peer) => numbered(out, "prepare", *peer),
        Request::Commit => text(out, "commit"),
        Request::Done => text(out, "done"),
        Request::Rollback => text(out, "rollback"),
        Request::Unchanged => text(out, "unchanged"),
    }
}

pub fn indication(out: &mut Vec<u8>, names: &Names, it: &Indication) {
    match it {
        Indication::BeginDialogue(peer, u) | Indication::BegunDialogue(peer, u) => {
            let begun = matches!(it, Indication::BegunDialogue(..));
            numbered(
                out,
                if begun {
                    "begun-dialogue"
                } else {
                    "begin-dialogue"
                },
                *peer,
            );
            out.push(b' ');
            units(out, *u);
        }
        Indication::Rejected(peer) => numbered(out, "rejected", *peer),
        Indication::EndDialogue(peer) => numbered(out, "end-dialogue", *peer),
        Indication::UserData(peer, bytes) => {
            numbered(out, "data", *peer);
            out.push(b' ');
            octets(out, bytes);
        }
        Indication::UError(peer) => numbered(out, "u-error", *peer),
        Indication::UAbort(peer) => numbered(out, "u-abort", *peer),
        Indication::PAbort(peer) => numbered(out, "p-abort", *peer),
        Indication::Grant(peer) => numbered(out, "grant-control", *peer),
        Indication::AskControl(peer) => numbered(out, "request-control", *peer),
        Indication::Handshake(peer) => numbered(out, "handshake", *peer),
        Indication::HandshakeConfirm(peer) => numbered(out, "handshake-confirm", *peer),
        Indication::HandshakeGrant(peer) => numbered(out, "handshake-and-grant", *peer),
        Indication::BeginTransaction(peer, aaid) => {
            numbered(out, "begin-transaction", *peer);
            out.push(b' ');
            id(out, names, *aaid);
        }
        Indication::DeferEnd(peer) => numbered(out, "deferred-end", *peer),
        Indication::DeferGrant(peer) => numbered(out, "deferred-grant", *peer),
        Indication::Prepare => text(out, "prepare"),
        Indication::Ready(peer) => numbered(out, "ready", *peer),
        Indication::Commit => text(out, "commit"),
        Indication::CommitComplete(r) => report(out, "commit-complete", *r),
        Indication::Rollback => text(out, "rollback"),
        Indication::RollbackComplete(r) => report(out, "rollback-complete", *r),
        Indication::HeuristicReport(peer, r) => {
            numbered(out, "heuristic-report", *peer);
            report(out, "", *r);
        }
        Indication::Left(peer) => numbered(out, "left", *peer),
    }
}

fn dialogue(out: &mut Vec<u8>, names: &Names, it: &Dialogue) {
    match it {
        Dialogue::EndDialogue => text(out, "end-dialogue"),
        Dialogue::UserData(bytes) => {
            text(out, "user ");
            octets(out, bytes);
        }
        Dialogue::UError => text(out, "u-error"),
        Dialogue::UAbort => text(out, "u-abort"),
        Dialogue::Grant => text(out, "grant"),
        Dialogue::AskControl => text(out, "request-control"),
        Dialogue::Handshake => text(out, "handshake"),
        Dialogue::HandshakeGrant => text(out, "handshake-grant"),
        Dialogue::Response => text(out, "response"),
        Dialogue::DeferEnd => text(out, "deferred-end"),
        Dialogue::DeferGrant => text(out, "deferred-grant"),
        Dialogue::Begin(aaid, branch, holder) => {
            ids(out, names, "begin", *aaid, *branch);
            text(
                out,
                match holder {
                    Holder::None => " none",
                    Holder::Superior => " superior",
                    Holder::Subordinate => " subordinate",
                },
            );
        }
        Dialogue::Prepare => text(out, "prepare"),
        Dialogue::Ready => text(out, "ready"),
        Dialogue::Commit => text(out, "commit"),
        Dialogue::Done(r) => report(out, "done", *r),
        Dialogue::Rollback => text(out, "rollback"),
        Dialogue::RolledBack(r) => report(out, "rolled-back", *r),
        Dialogue::Left => text(out, "left"),
        Dialogue::LeftEnd => text(out, "left-end"),
    }
}

pub fn peer(out: &mut Vec<u8>, names: &Names, it: &Peer) {
    let marks = |out: &mut Vec<u8>, word, x| {
        text(out, word);
        mark(out, x);
        out.push(b' ');
    };
    match it {
        Peer::Open { x, units: u } => {
            marks(out, "open ", *x);
            units(out, *u);
        }
        Peer::Accept { x, y, units: u } => {
            marks(out, "accept ", *x);
            marks(out, "", *y);
            units(out, *u);
        }
        Peer::Shut { x, y } => {
            marks(out, "shut ", *x);
            match y {
                Some(y) => mark(out, *y),
                None => out.push(b'-'),
            }
        }
        Peer::On { seq, record, .. } => {
            text(out, "data ");
            number(out, *seq);
            out.push(b' ');
            dialogue(out, names, record);
        }
        Peer::RecReady(a, b) => ids(out, names, "rec-ready", *a, *b),
        Peer::RecCommit(a, b) => ids(out, names, "rec-commit", *a, *b),
        Peer::RecReply(a, b, state) => {
            ids(out, names, "rec-reply", *a, *b);
            match state {
                State::Commit => text(out, " commit"),
                State::Done(r) => report(out, " done", *r),
                State::Unknown => text(out, " unknown"),
                State::RetryLater => text(out, " retry-later"),
            }
        }
        Peer::Forget(a, b) => ids(out, names, "forget", *a, *b),
    }
}

pub fn record(out: &mut Vec<u8>, names: &Names, node: u16, it: &Record) {
    let key = |out: &mut Vec<u8>, word, key: &Key| {
        numbered(out, word, node);
        out.push(b' ');
        id(out, names, key.aaid);
        out.push(b' ');
        match key.branch {
            Some(branch) => id(out, names, branch),
            None => out.push(b'-'),
        }
    };
    let ended = |out: &mut Vec<u8>, it| {
        out.push(b' ');
        outcome(out, it);
    };
    match it {
        Record::Ready { key: k, .. } => key(out, "ready", k),
        Record::Heuristic { key: k, outcome } => {
            key(out, "heuristic", k);
            ended(out, *outcome);
        }
        Record::Commit { key: k, .. } => key(out, "commit", k),
        Record::Damage {
            key: k,
            outcome,
            report: r,
            ..
        } => {
            key(out, "damage", k);
            ended(out, *outcome);
            report(out, "", *r);
        }
        Record::End { key: k, outcome } => {
            key(out, "end", k);
            ended(out, *outcome);
        }
    }
}

/// Puts the body of a record as a log of version 2 has it.
pub fn body(out: &mut Vec<u8>, names: &Names, node: u16, it: &Record) {
    let site = |out: &mut Vec<u8>, site: Site| {
        let name = &names[usize::from(site)];
        out.push(name.len() as u8);
        out.extend_from_slice(name);
    };
    let id = |out: &mut Vec<u8>, it: Id| {
        site(out, it.site);
        out.extend_from_slice(&it.mark.boot.to_be_bytes());
        out.extend_from_slice(&it.mark.node.to_be_bytes());
        out.extend_from_slice(&it.mark.count.to_be_bytes());
    };
    let addr = |out: &mut Vec<u8>, it: Addr| {
        site(out, it.site);
        out.extend_from_slice(&it.node.to_be_bytes());
    };
    let head = |out: &mut Vec<u8>, code: u8, key: &Key| {
        out.push(code);
        out.extend_from_slice(&node.to_be_bytes());
        id(out, key.aaid);
        out.push(key.branch.is_some().into());
        if let Some(branch) = key.branch {
            id(out, branch);
        }
    };
    let children = |out: &mut Vec<u8>, them: &[Child]| {
        out.extend_from_slice(&(them.len() as u16).to_be_bytes());
        for it in them {
            addr(out, it.addr);
            id(out, it.branch);
        }
    };
    match it {
        Record::Ready {
            key,
            superior,
            children: them,
        } => {
            head(out, 2, key);
            addr(out, *superior);
            children(out, them);
        }
        Record::Heuristic { key, outcome } => {
            head(out, 3, key);
            out.push(*outcome as u8);
        }
        Record::Commit {
            key,
            superior,
            children: them,
        } => {
            head(out, 4, key);
            superior.iter().for_each(|it| addr(out, *it));
            children(out, them);
        }
        Record::Damage {
            key,
            superior,
            outcome,
            report,
            owed,
        } => {
            head(out, 5, key);
            superior.iter().for_each(|it| addr(out, *it));
            out.push(*outcome as u8);
            out.push(*report as u8);
            children(out, owed);
        }
        Record::End { key, outcome } => {
            head(out, 6, key);
            out.push(*outcome as u8);
        }
    }
}
