//! `replay` in plain Rust, of the same meaning: the same schedules, the same transcripts to the byte, with std alone.
//!
//! It is what `tpnode replay` is measured beside. It keeps each site's log to the byte and starts a site that crashed from what
//! stands there; nothing of it is proved. `peer replay` reads a schedule from standard input; `peer trial N K R` makes the
//! schedule of number N with K nodes and R rounds, replays it, and writes the summary; `peer show` writes each record of `tp.log` in
//! the current folder. Not built: members.
mod log;
mod node;
mod schedule;
mod value;
mod words;
mod world;

use std::io::{self, Read, Write};
use std::process::ExitCode;
use world::{Fault, World};

fn main() -> ExitCode {
    let words: Vec<String> = std::env::args().skip(1).collect();
    let ended = match words.iter().map(String::as_str).collect::<Vec<_>>()[..] {
        ["replay"] => replay(),
        ["trial", number, nodes, rounds] => trial(number, nodes, rounds),
        ["show"] => show(),
        _ => Err((2, "usage".into())),
    };
    match ended {
        Ok(()) => ExitCode::SUCCESS,
        Err((code, text)) => {
            eprintln!("{text}");
            ExitCode::from(code)
        }
    }
}

type Ended = Result<(), (u8, String)>;

fn replay() -> Ended {
    let mut bytes = Vec::new();
    io::stdin()
        .lock()
        .read_to_end(&mut bytes)
        .map_err(|_| (6, "read fault".into()))?;
    let mut out = Vec::with_capacity(1 << 17);
    let mut sink = io::stdout().lock();
    let ended = play(&bytes, &mut out, |out| {
        if out.len() >= 1 << 16 {
            let _ = sink.write_all(out);
            out.clear();
        }
    });
    sink.write_all(&out)
        .and_then(|()| sink.flush())
        .map_err(|_| (7, "write fault".into()))?;
    ended.map(|_| ())
}

/// Plays every line, and gives how many there were, and the world that they leave.
fn play(
    bytes: &[u8],
    out: &mut Vec<u8>,
    mut full: impl FnMut(&mut Vec<u8>),
) -> Result<(u64, World), (u8, String)> {
    let (mut world, mut count) = (World::default(), 0);
    for (at, line) in bytes.split_inclusive(|&b| b == b'\n').enumerate() {
        let at = at as u64 + 1;
        let line = line
            .strip_suffix(b"\n")
            .map_or(line, |it| it.strip_suffix(b"\r").unwrap_or(it));
        let bad = |why| (3, format!("bad input at {at}: {why}"));
        let Some(line) = schedule::read_line(line).map_err(bad)? else {
            continue;
        };
        let stood = out.len();
        world.line(&line, out).map_err(|fault| {
            out.truncate(stood);
            match fault {
                Fault::Name => bad("name"),
                Fault::Limit(what) => (4, format!("limit {what} at {at}")),
            }
        })?;
        count += 1;
        full(out);
    }
    world.closing(out);
    Ok((count, world))
}

fn trial(number: &str, nodes: &str, rounds: &str) -> Ended {
    let usage = |_| (2, "usage".to_string());
    let text = schedule::made(
        number.parse().map_err(usage)?,
        nodes.parse().map_err(usage)?,
        rounds.parse().map_err(usage)?,
    );
    let mut out = Vec::new();
    let (lines, world) = play(&text, &mut out, |out| out.clear())?;
    let closing = |end: &[u8]| {
        out.split(|&b| b == b'\n')
            .filter(|line| line.ends_with(end))
            .count()
    };
    println!("lines {lines}\nframes {}", world.frames());
    println!(
        "commit {}\nrollback {}",
        closing(b" agreed commit"),
        closing(b" agreed rollback")
    );
    let mixed = out
        .split(|&b| b == b'\n')
        .filter(|line| line.windows(10).any(|it| it == b" mixed by "))
        .count();
    println!("mixed {mixed}\nopen {}", closing(b" open"));
    Ok(())
}

fn show() -> Ended {
    let log = std::fs::read("tp.log").map_err(|_| (8, "disk fault".to_string()))?;
    let out = log::show(&log).map_err(|at| (5, format!("foreign log at {at}")))?;
    io::stdout()
        .write_all(&out)
        .map_err(|_| (7, "write fault".into()))
}
