//! `show` in plain Rust: a log is read, its order is checked, and each record is written with its place.
use crate::value::*;
use crate::words;

/// What stands of a key whose last record is no End.
struct Open {
    last: u8,
    superior: Option<Addr>,
    children: Vec<Child>,
    heuristic: Option<Outcome>,
    side: Option<Outcome>,
    owed: Vec<Child>,
}

#[derive(Default)]
struct Standing {
    boot: Option<u64>,
    open: Table<(u16, Key), Open>,
    busy: Table<u16, u32>,
}

struct Reader<'a> {
    rest: &'a [u8],
    names: &'a mut Vec<Box<[u8]>>,
}

impl Reader<'_> {
    fn take<const N: usize>(&mut self) -> Option<[u8; N]> {
        let (head, rest) = self.rest.split_first_chunk()?;
        self.rest = rest;
        Some(*head)
    }

    fn byte(&mut self) -> Option<u8> {
        Some(self.take::<1>()?[0])
    }

    fn short(&mut self) -> Option<u16> {
        Some(u16::from_be_bytes(self.take()?))
    }

    fn site(&mut self) -> Option<Site> {
        let size = usize::from(self.byte()?);
        let name = self.rest.get(..size).filter(|_| (1..=16).contains(&size))?;
        if !name
            .iter()
            .all(|b| b.is_ascii_lowercase() || b.is_ascii_digit())
        {
            return None;
        }
        self.rest = &self.rest[size..];
        let at = self
            .names
            .iter()
            .position(|it| **it == *name)
            .unwrap_or_else(|| {
                self.names.push(name.into());
                self.names.len() - 1
            });
        Some(at as Site)
    }

    fn id(&mut self) -> Option<Id> {
        let site = self.site()?;
        let boot = u64::from_be_bytes(self.take()?);
        let node = self.short()?;
        Some(Id {
            site,
            mark: Mark {
                boot,
                node,
                count: u64::from_be_bytes(self.take()?),
            },
        })
    }

    fn addr(&mut self) -> Option<Addr> {
        Some(Addr {
            site: self.site()?,
            node: self.short()?,
        })
    }

    fn key(&mut self) -> Option<Key> {
        let aaid = self.id()?;
        let branch = match self.byte()? {
            0 => None,
            1 => Some(self.id()?),
            _ => return None,
        };
        Some(Key { aaid, branch })
    }

    fn outcome(&mut self) -> Option<Outcome> {
        match self.byte()? {
            1 => Some(Outcome::Commit),
            2 => Some(Outcome::Rollback),
            _ => None,
        }
    }

    fn children(&mut self, wide: bool) -> Option<Vec<Child>> {
        let count = if wide {
            self.short()?
        } else {
            self.byte()?.into()
        };
        if count > if wide { 256 } else { 32 } {
            return None;
        }
        (0..count)
            .map(|_| {
                Some(Child {
                    addr: self.addr()?,
                    branch: self.id()?,
                })
            })
            .collect()
    }

    /// A record with its node, after its code; a Boot has none.
    fn record(&mut self, code: u8, wide: bool) -> Option<(u16, Record)> {
        let (node, key) = (self.short()?, self.key()?);
        let superior = match code {
            2 | 4 | 5 if key.branch.is_some() => Some(self.addr()?),
            _ => None,
        };
        let record = match code {
            2 => Record::Ready {
                key,
                superior: superior?,
                children: self.children(wide)?,
            },
            3 if key.branch.is_some() => Record::Heuristic {
                key,
                outcome: self.outcome()?,
            },
            4 => Record::Commit {
                key,
                superior,
                children: self.children(wide)?,
            },
            5 => {
                let outcome = self.outcome()?;
                let report = match self.byte()? {
                    1 => Report::Hazard,
                    2 => Report::Mix,
                    _ => return None,
                };
                Record::Damage {
                    key,
                    superior,
                    outcome,
                    report,
                    owed: self.children(wide)?,
                }
            }
            6 => Record::End {
                key,
                outcome: self.outcome()?,
            },
            _ => return None,
        };
        Some((node, record))
    }
}

fn in_order(some: &[Child], among: &[Child]) -> bool {
    let mut rest = among.iter();
    some.iter().all(|it| rest.any(|other| it == other))
}

impl Standing {
    /// Takes a record that may follow those before it; whether it may.
    fn take(&mut self, node: u16, record: &Record) -> bool {
        let Some(boot) = self.boot else { return false };
        let busy = self.busy.entry(node).or_default();
        let place = |key: &Key| (node, *key);
        let (open, is_branch) = (&mut self.open, |key: &Key| key.branch.is_some());
        match record {
            Record::Ready {
                key,
                superior,
                children,
            } => {
                if *busy > 0 || open.contains_key(&place(key)) {
                    return false;
                }
                *busy += 1;
                let begun = Open {
                    last: 2,
                    superior: Some(*superior),
                    children: children.clone(),
                    heuristic: None,
                    side: None,
                    owed: Vec::new(),
                };
                open.insert(place(key), begun);
            }
            Record::Heuristic { key, outcome } => match open.get_mut(&place(key)) {
                Some(it) if it.last == 2 => (it.last, it.heuristic) = (3, Some(*outcome)),
                _ => return false,
            },
            Record::Commit {
                key,
                superior,
                children,
            } if is_branch(key) => match open.get_mut(&place(key)) {
                Some(it)
                    if matches!(it.last, 2 | 3)
                        && it.superior == *superior
                        && it.children == *children =>
                {
                    it.last = 4
                }
                _ => return false,
            },
            Record::Commit { key, children, .. } => {
                if *busy > 0 || open.contains_key(&place(key)) || key.aaid.mark.boot > boot {
                    return false;
                }
                *busy += 1;
                let begun = Open {
                    last: 4,
                    superior: None,
                    children: children.clone(),
                    heuristic: None,
                    side: None,
                    owed: Vec::new(),
                };
                open.insert(place(key), begun);
            }
            Record::Damage {
                key,
                superior,
                outcome,
                report,
                owed,
            } => {
                let Some(it) = open.get_mut(&place(key)) else {
                    return false;
                };
                let commits = it.last == 4 && in_order(owed, &it.children)
                    || it.last == 5 && it.side == Some(Outcome::Commit) && in_order(owed, &it.owed);
                let rolls = it.last == 3
                    && it.heuristic == Some(Outcome::Commit)
                    && *report == Report::Mix
                    && owed.is_empty();
                if is_branch(key) && it.superior != *superior
                    || !(if *outcome == Outcome::Commit {
                        commits
                    } else {
                        rolls
                    })
                {
                    return false;
                }
                *busy -= u32::from(it.last != 5);
                (it.last, it.side, it.owed) = (5, Some(*outcome), owed.clone());
            }
            Record::End { key, outcome } => {
                let Some(it) = open.get(&place(key)) else {
                    return false;
                };
                let ends = match outcome {
                    Outcome::Commit => {
                        it.last == 4 || it.last == 5 && it.side == Some(Outcome::Commit)
                    }
                    Outcome::Rollback => match it.last {
                        2 => true,
                        3 => it.heuristic == Some(Outcome::Rollback),
                        last => last == 5 && it.side == Some(Outcome::Rollback),
                    },
                };
                if !ends {
                    return false;
                }
                *busy -= u32::from(it.last != 5);
                open.remove(&place(key));
            }
        }
        true
    }
}

/// The lines of `show`, or the place at which the log is foreign. Not built: a compaction that was cut short.
pub fn show(log: &[u8]) -> Result<Vec<u8>, u64> {
    if log.len() < 5 || &log[..4] != b"OTPL" {
        return Err(0);
    }
    let (mut at, mut wide, mut out, mut names, mut standing) =
        (5, false, Vec::new(), Vec::new(), Standing::default());
    loop {
        match log.get(at) {
            Some(1) => {}
            Some(_) => return Ok(out),
            None => return Err(at as u64),
        }
        let foreign = Err(at as u64);
        let Some(size) = log
            .get(at + 1..at + 3)
            .map(|it| usize::from(u16::from_be_bytes([it[0], it[1]])))
        else {
            return foreign;
        };
        let Some(body) = log.get(at + 3..at + 3 + size) else {
            return foreign;
        };
        let mut reader = Reader {
            rest: body,
            names: &mut names,
        };
        match reader.byte() {
            Some(7) if at == 5 && body == [7, 2] => wide = true,
            Some(1) => {
                let Some(boot) = reader
                    .take()
                    .map(u64::from_be_bytes)
                    .filter(|_| reader.rest.is_empty())
                else {
                    return foreign;
                };
                if standing.boot.is_some_and(|it| it >= boot) {
                    return foreign;
                }
                standing.boot = Some(boot);
                words::number(&mut out, at as u64);
                words::text(&mut out, " boot ");
                words::number(&mut out, boot);
                out.push(b'\n');
            }
            Some(code) => {
                let Some((node, record)) =
                    reader.record(code, wide).filter(|_| reader.rest.is_empty())
                else {
                    return foreign;
                };
                if !standing.take(node, &record) {
                    return foreign;
                }
                words::number(&mut out, at as u64);
                out.push(b' ');
                words::record(&mut out, &names, node, &record);
                out.push(b'\n');
            }
            None => return foreign,
        }
        at += 3 + size;
    }
}
