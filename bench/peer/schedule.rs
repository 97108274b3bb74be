//! Lines of schedules, and the schedule that is made of a number.
use crate::value::*;
use std::io::Write;

pub enum Line<'a> {
    Declare {
        node: u16,
        site: &'a [u8],
        under: Option<u16>,
    },
    Drain,
    Show(u16),
    Image(&'a [u8]),
    Skip(u16, u16),
    Crash(&'a [u8]),
    CrashIn {
        site: &'a [u8],
        k: u8,
        fill: u8,
        action: Action,
    },
    Act(Action),
}

/// What is an event of a site, or hands one over.
pub enum Action {
    Do(u16, Request),
    Pass(u16, u16),
    Again(u16),
    Lose(u16, u16),
    Heuristic(u16, Outcome),
    GiveUp(u16, u16),
    Retry(u16),
    Purge(u16),
}

type Read<T> = Result<T, &'static str>;

/// The words of a line. A numeral out of its range is told only where every word is well formed.
struct Words<'a> {
    rest: &'a [u8],
    outside: bool,
}

impl<'a> Words<'a> {
    fn next(&mut self) -> Option<&'a [u8]> {
        let start = self.rest.iter().position(|&b| b != b' ')?;
        let rest = &self.rest[start..];
        let end = rest.iter().position(|&b| b == b' ').unwrap_or(rest.len());
        self.rest = &rest[end..];
        Some(&rest[..end])
    }

    fn word(&mut self) -> Read<&'a [u8]> {
        self.next().ok_or("word")
    }

    fn literal(&mut self, text: &[u8]) -> Read<()> {
        if self.word()? == text {
            Ok(())
        } else {
            Err("word")
        }
    }

    fn in_range(&mut self, word: &[u8], least: u64, most: u64) -> Read<u64> {
        if word.is_empty()
            || !word.iter().all(u8::is_ascii_digit)
            || word.len() > 1 && word[0] == b'0'
        {
            return Err("word");
        }
        let value = word.iter().fold(0u64, |v, b| {
            v.saturating_mul(10).saturating_add(u64::from(b - b'0'))
        });
        self.outside |= value < least || value > most;
        Ok(value)
    }

    fn number(&mut self, most: u64) -> Read<u64> {
        let word = self.word()?;
        self.in_range(word, 1, most)
    }

    fn node(&mut self) -> Read<u16> {
        Ok(self.number(65535)? as u16)
    }

    fn site(&mut self) -> Read<&'a [u8]> {
        let word = self.word()?;
        let good = word.len() <= 16
            && word
                .iter()
                .all(|b| b.is_ascii_lowercase() || b.is_ascii_digit());
        if good {
            Ok(word)
        } else {
            Err("word")
        }
    }

    fn units(&mut self) -> Read<Units> {
        let (word, mut bits, mut at) = (self.word()?, 0, 0);
        for (letter, bit) in LETTERS {
            if word.get(at) == Some(&letter) {
                bits |= bit;
                at += 1;
            }
        }
        if at == word.len() {
            Ok(bits)
        } else {
            Err("word")
        }
    }

    fn octets(&mut self) -> Read<Box<[u8]>> {
        let word = self.word()?;
        if word == b"-" {
            return Ok(Box::default());
        }
        if word.len() > 3 && word[2] == b'*' {
            let byte = hex(&word[..2])?[0];
            let times = self.in_range(&word[3..], 1, 2000)?;
            return Ok(vec![byte; times.min(2000) as usize].into());
        }
        if word.len() > 4000 {
            return Err("word");
        }
        hex(word)
    }

    fn outcome(&mut self) -> Read<Outcome> {
        match self.word()? {
            b"commit" => Ok(Outcome::Commit),
            b"rollback" => Ok(Outcome::Rollback),
            _ => Err("word"),
        }
    }
}

fn hex(word: &[u8]) -> Read<Box<[u8]>> {
    let digit = |b: u8| match b {
        b'0'..=b'9' => Ok(b - b'0'),
        b'a'..=b'f' => Ok(b - b'a' + 10),
        _ => Err("word"),
    };
    if word.is_empty() || word.len() % 2 != 0 {
        return Err("word");
    }
    word.chunks_exact(2)
        .map(|it| Ok(digit(it[0])? << 4 | digit(it[1])?))
        .collect()
}

/// The line that these bytes are, none where they are blank or a comment.
pub fn read_line(bytes: &[u8]) -> Read<Option<Line<'_>>> {
    if bytes.len() > 8192 {
        return Err("long");
    }
    if bytes.first() == Some(&b'#') {
        return Ok(None);
    }
    let mut words = Words {
        rest: bytes,
        outside: false,
    };
    let Some(first) = words.next() else {
        return Ok(None);
    };
    let line = line_of(first, &mut words)?;
    if words.next().is_some() {
        return Err("word");
    }
    if words.outside {
        Err("number")
    } else {
        Ok(Some(line))
    }
}

fn line_of<'a>(first: &[u8], w: &mut Words<'a>) -> Read<Line<'a>> {
    Ok(match first {
        b"node" => {
            let (node, site, mut under) = (w.node()?, w.site()?, None);
            if w.rest.iter().any(|&b| b != b' ') {
                w.literal(b"under")?;
                under = Some(w.node()?);
            }
            Line::Declare { node, site, under }
        }
        b"drain" => Line::Drain,
        b"show" => Line::Show(w.node()?),
        b"image" => Line::Image(w.site()?),
        b"skip" => Line::Skip(w.node()?, w.node()?),
        b"crash" => {
            let site = w.site()?;
            if w.rest.iter().all(|&b| b == b' ') {
                return Ok(Line::Crash(site));
            }
            w.literal(b"at")?;
            let k = w.number(99)? as u8;
            w.literal(b"fill")?;
            let fill = w.word()?;
            if fill.len() != 2 {
                return Err("word");
            }
            let fill = hex(fill)?[0];
            w.literal(b"in")?;
            let first = w.word()?;
            Line::CrashIn {
                site,
                k,
                fill,
                action: action_of(first, w)?,
            }
        }
        _ => Line::Act(action_of(first, w)?),
    })
}

fn action_of(first: &[u8], w: &mut Words<'_>) -> Read<Action> {
    Ok(match first {
        b"do" => Action::Do(w.node()?, request_of(w)?),
        b"pass" => Action::Pass(w.node()?, w.node()?),
        b"again" => Action::Again(w.node()?),
        b"lose" => Action::Lose(w.node()?, w.node()?),
        b"heur" => Action::Heuristic(w.node()?, w.outcome()?),
        b"giveup" => Action::GiveUp(w.node()?, w.node()?),
        b"retry" => Action::Retry(w.node()?),
        b"purge" => Action::Purge(w.node()?),
        _ => return Err("word"),
    })
}

fn request_of(w: &mut Words<'_>) -> Read<Request> {
    Ok(match w.word()? {
        b"begin-dialogue" => Request::BeginDialogue(w.node()?, w.units()?),
        b"accept" => Request::Accept(w.units()?),
        b"reject" => Request::Reject,
        b"end-dialogue" => Request::EndDialogue(w.node()?),
        b"data" => Request::UserData(w.node()?, w.octets()?),
        b"u-error" => Request::UError(w.node()?),
        b"u-abort" => Request::UAbort(w.node()?),
        b"grant-control" => Request::Grant(w.node()?),
        b"request-control" => Request::AskControl(w.node()?),
        b"handshake" => Request::Handshake(w.node()?),
        b"respond" => Request::Respond(w.node()?),
        b"handshake-and-grant" => Request::HandshakeGrant(w.node()?),
        b"begin-transaction" => Request::BeginTransaction(w.node()?),
        b"deferred-end" => Request::DeferEnd(w.node()?),
        b"deferred-grant" => Request::DeferGrant(w.node()?),
        b"prepare" => Request::Prepare(w.node()?),
        b"commit" => Request::Commit,
        b"done" => Request::Done,
        b"rollback" => Request::Rollback,
        b"unchanged" => Request::Unchanged,
        _ => return Err("word"),
    })
}

/// The schedule of a number, for so many nodes and rounds.
pub fn made(number: u64, nodes: u64, rounds: u64) -> Vec<u8> {
    let (mut s, mut out) = (number, Vec::new());
    let mut draw = || {
        s = s
            .wrapping_mul(6364136223846793005)
            .wrapping_add(1442695040888963407);
        s >> 33
    };
    let put = |out: &mut Vec<u8>, line: std::fmt::Arguments<'_>| {
        let _ = out.write_fmt(line);
        out.push(b'\n');
    };
    for i in 1..=nodes {
        match i {
            1 => put(&mut out, format_args!("node 1 s1")),
            _ => put(
                &mut out,
                format_args!("node {i} s{} under {}", 1 + (i - 1) % 16, i / 2),
            ),
        }
    }
    (2..=nodes).for_each(|i| {
        put(
            &mut out,
            format_args!("do {} begin-dialogue {i} scu", i / 2),
        )
    });
    put(&mut out, format_args!("drain"));
    (2..=nodes).for_each(|i| put(&mut out, format_args!("do {i} accept scu")));
    put(&mut out, format_args!("drain"));
    for _ in 0..rounds {
        (2..=nodes).for_each(|i| {
            put(
                &mut out,
                format_args!("do {} begin-transaction {i}\ndrain", i / 2),
            )
        });
        put(&mut out, format_args!("do 1 commit\ndrain"));
        for i in 2..=nodes {
            match draw() % (8 * nodes) {
                0 => put(&mut out, format_args!("do {i} rollback\ndrain")),
                1 => put(
                    &mut out,
                    format_args!("do {i} commit\nheur {i} rollback\ndrain"),
                ),
                2 => put(
                    &mut out,
                    format_args!("do {i} commit\nheur {i} commit\ndrain"),
                ),
                _ => put(&mut out, format_args!("do {i} commit\ndrain")),
            }
        }
        (1..=nodes).for_each(|i| put(&mut out, format_args!("do {i} done\ndrain")));
    }
    out
}
