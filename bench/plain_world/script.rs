//! A script: a manifest, and events, each of a line.
use crate::checkout::Manifest;
use crate::request::{Item, Request};

pub enum Event<'a> {
    Start { versions: Vec<u16> },
    Mount { daemon: u64 },
    Issue(Request<'a>),
    Take { daemon: u64 },
    Work { daemon: u64, at: u64, fails: bool },
    Post { daemon: u64, at: u64 },
    Deliver,
    Hear { daemon: u64, at: u64 },
    Drained { daemon: u64 },
    GiveUp { daemon: u64 },
    Claim { daemon: u64 },
    Crash { daemon: u64 },
    Do(Request<'a>),
    Show,
}

pub struct Script<'a> {
    pub manifest: Manifest,
    pub events: Vec<Event<'a>>,
}

impl<'a> Script<'a> {
    /// Reads a script, or tells its first fault.
    pub fn read(text: &'a [u8]) -> Result<Script<'a>, String> {
        let (mut rest, mut number, mut before) = (text, 1, 0);
        while !rest.is_empty() {
            let (line, behind) = cut(rest, b'\n').unwrap_or((rest, b""));
            number += 1;
            if line == b"--" {
                let manifest = Manifest::read(&text[..before])?;
                return Ok(Script { manifest, events: read_events(behind, number)? });
            }
            before = text.len() - behind.len();
            rest = behind;
        }
        Err("no events".into())
    }
}

/// Reads the events of all lines, of which the first has a number in the script.
fn read_events(text: &[u8], first: usize) -> Result<Vec<Event<'_>>, String> {
    let lines = text.strip_suffix(b"\n").unwrap_or(text).split(|&byte| byte == b'\n');
    let read = |(at, line)| event(line).ok_or_else(|| format!("line {}: bad line", first + at));
    if text.is_empty() { Ok(Vec::new()) } else { lines.enumerate().map(read).collect() }
}

fn event(line: &[u8]) -> Option<Event<'_>> {
    match line {
        b"start" => return Some(Event::Start { versions: vec![1] }),
        b"deliver" => return Some(Event::Deliver),
        b"show" => return Some(Event::Show),
        _ => {}
    }
    let (word, rest) = cut(line, b' ')?;
    Some(match word {
        b"do" => Event::Do(request(rest)?),
        b"issue" => Event::Issue(request(rest)?),
        b"take" => Event::Take { daemon: decimal(rest)? },
        b"work" => {
            let (daemon, rest) = cut(rest, b' ')?;
            let (at, fails) = match cut(rest, b' ') {
                Some((at, b"fail")) => (at, true),
                Some(_) => return None,
                None => (rest, false),
            };
            Event::Work { daemon: decimal(daemon)?, at: decimal(at)?, fails }
        }
        b"post" => {
            let (daemon, at) = pair(rest)?;
            Event::Post { daemon, at }
        }
        b"hear" => {
            let (daemon, at) = pair(rest)?;
            Event::Hear { daemon, at }
        }
        b"start" => {
            let version = |word| u16::try_from(decimal(word)?).ok();
            let versions = rest.split(|&byte| byte == b' ').map(version).collect::<Option<Vec<_>>>()?;
            Event::Start { versions: Some(versions).filter(|versions| versions.len() <= 8)? }
        }
        b"mount" => Event::Mount { daemon: decimal(rest)? },
        b"drained" => Event::Drained { daemon: decimal(rest)? },
        b"giveup" => Event::GiveUp { daemon: decimal(rest)? },
        b"claim" => Event::Claim { daemon: decimal(rest)? },
        b"crash" => Event::Crash { daemon: decimal(rest)? },
        _ => return None,
    })
}

fn request(words: &[u8]) -> Option<Request<'_>> {
    let (word, rest) = cut(words, b' ')?;
    Some(match word {
        b"lookup" => {
            let (dir, name) = named(rest)?;
            Request::Lookup { dir, name }
        }
        b"getattr" => Request::Getattr { number: decimal(rest)? },
        b"forget" => {
            let (number, k) = pair(rest)?;
            Request::Forget(Item { number, k })
        }
        b"create" => {
            let (dir, perm, name) = made(rest)?;
            Request::Create { dir, perm, name }
        }
        b"mkdir" => {
            let (dir, perm, name) = made(rest)?;
            Request::Mkdir { dir, perm, name }
        }
        b"unlink" => {
            let (dir, name) = named(rest)?;
            Request::Unlink { dir, name }
        }
        b"rmdir" => {
            let (dir, name) = named(rest)?;
            Request::Rmdir { dir, name }
        }
        b"rename" => {
            let (dir, rest) = cut(rest, b' ')?;
            let (to_dir, names) = cut(rest, b' ')?;
            let (name, to_name) = cut(names, b'/')?;
            let (dir, to_dir) = (decimal(dir)?, decimal(to_dir)?);
            Request::Rename { dir, name: name_of(name)?, to_dir, to_name: name_of(to_name)? }
        }
        b"other" => {
            let (opcode, number) = pair(rest)?;
            if matches!(opcode, 1..=3 | 9..=12 | 35 | 42) || opcode > u32::MAX.into() {
                return None;
            }
            Request::Other { number }
        }
        _ => return None,
    })
}

fn pair(words: &[u8]) -> Option<(u64, u64)> {
    let (first, second) = cut(words, b' ')?;
    Some((decimal(first)?, decimal(second)?))
}

fn named(words: &[u8]) -> Option<(u64, &[u8])> {
    let (dir, name) = cut(words, b' ')?;
    Some((decimal(dir)?, name_of(name)?))
}

fn made(words: &[u8]) -> Option<(u64, u16, &[u8])> {
    let (dir, rest) = cut(words, b' ')?;
    let (mode, name) = cut(rest, b' ')?;
    Some((decimal(dir)?, perm(mode)?, name_of(name)?))
}

fn name_of(text: &[u8]) -> Option<&[u8]> {
    Some(text).filter(|name| is_name(name))
}

// ---- words

/// Returns what stands before the first such byte, and what stands behind it.
pub fn cut(text: &[u8], byte: u8) -> Option<(&[u8], &[u8])> {
    let at = text.iter().position(|&it| it == byte)?;
    Some((&text[..at], &text[at + 1..]))
}

pub fn decimal(word: &[u8]) -> Option<u64> {
    if word.is_empty() {
        return None;
    }
    word.iter().try_fold(0u64, |value, byte| {
        let digit = byte.is_ascii_digit().then(|| byte - b'0')?;
        value.checked_mul(10)?.checked_add(digit.into())
    })
}

pub fn perm(word: &[u8]) -> Option<u16> {
    match *word {
        [b'0'..=b'7', b'0'..=b'7', b'0'..=b'7', b'0'..=b'7'] => {
            Some(word.iter().fold(0, |perm, digit| perm << 3 | u16::from(digit - b'0')))
        }
        _ => None,
    }
}

pub fn is_name(name: &[u8]) -> bool {
    !name.is_empty() && name != b"." && name != b".." && name.len() <= 255 && !name.iter().any(|&it| it == 0 || it == b'/')
}
