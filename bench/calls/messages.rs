//! Messages of the FUSE protocol, read, answered and written: names are compared where they lie in the message.
use crate::loaded::{Attr, Kind};
use crate::random::Random;
use crate::requests::{ASKED_RANDOMLY, Answer, DEFAULT_LIMIT, EACH, Item, Served, look_all_up, name_of};
use crate::wire::{name_bytes, parts_of, u32_at, u64_at};

const REPLY: usize = 160;
const HEADER: usize = 16;
const BADF: i32 = 5;

struct Server {
    served: Served,
    reply: [u8; REPLY],
}

fn put(out: &mut [u8], at: usize, bytes: &[u8]) {
    out[at..at + bytes.len()].copy_from_slice(bytes);
}

/// Writes `struct fuse_attr`.
fn put_attributes(out: &mut [u8], number: u64, attr: &Attr) {
    let kind = if attr.kind == Kind::Dir { 0o040000 } else { 0o100000 };
    out[..88].fill(0);
    put(out, 0, &number.to_le_bytes());
    put(out, 8, &attr.size.to_le_bytes());
    put(out, 60, &(kind | u32::from(attr.perm)).to_le_bytes());
    put(out, 64, &attr.nlink.to_le_bytes());
    put(out, 80, &4096u32.to_le_bytes());
}

/// Writes `struct fuse_entry_out`.
fn put_entry(out: &mut [u8], number: u64, attr: &Attr) {
    put(out, 0, &number.to_le_bytes());
    out[8..40].fill(0);
    put_attributes(&mut out[40..], number, attr);
}

/// Writes a reply, and returns its length.
fn write_reply(unique: u64, node: u64, answer: &Result<Answer, i32>, out: &mut [u8; REPLY]) -> usize {
    let (len, error) = match answer {
        Ok(Answer::Entry { number, attr }) => {
            put_entry(&mut out[HEADER..], *number, attr);
            (HEADER + 128, 0)
        }
        Ok(Answer::Opened { number, attr }) => {
            put_entry(&mut out[HEADER..], *number, attr);
            out[HEADER + 128..].fill(0);
            (HEADER + 144, 0)
        }
        Ok(Answer::Attrs { attr }) => {
            out[HEADER..HEADER + 16].fill(0);
            put_attributes(&mut out[HEADER + 16..], node, attr);
            (HEADER + 104, 0)
        }
        Ok(Answer::Done) => (HEADER, 0),
        Ok(Answer::Error(errno)) | Err(errno) => (HEADER, -errno),
    };
    put(out, 0, &(len as u32).to_le_bytes());
    put(out, 4, &error.to_le_bytes());
    put(out, 8, &unique.to_le_bytes());
    len
}

impl Server {
    /// Answers the request of an opcode, where it has an answer.
    fn answer(&mut self, opcode: u32, node: u64, body: &[u8]) -> Option<Result<Answer, i32>> {
        let name = |skipped: usize| body.get(skipped..).and_then(|rest| name_bytes(rest).ok()).ok_or(BADF);
        Some(match opcode {
            1 => name(0).and_then(|name| self.served.look_up(node, name)),
            2 if body.len() == 8 => {
                self.served.forget(&Item { node, k: u64_at(body, 0) });
                return None;
            }
            3 if body.len() == 16 => self.served.attr(node).map(|attr| Answer::Attrs { attr }).ok_or(BADF),
            10 => name(0).and_then(|name| self.served.unlink(node, name)),
            12 if body.len() > 8 => names_of(&body[8..]).ok_or(BADF).and_then(|(old, new)| {
                self.served.rename(node, old, u64_at(body, 0), new)
            }),
            35 if body.len() > 16 => name(16).and_then(|name| {
                let perm = u32_at(body, 4) as u16 & 0o7777;
                self.served.make(node, name, Kind::File, perm).map(|(number, attr)| Answer::Opened { number, attr })
            }),
            _ => Err(BADF),
        })
    }

    /// Reads a message, answers it and writes the reply. Returns the length of that, and 0 where there is none.
    fn serve(&mut self, text: &[u8]) -> usize {
        let Ok((opcode, unique, node, body)) = parts_of(text) else {
            return 0;
        };
        match self.answer(opcode, node, body) {
            Some(answer) => write_reply(unique, node, &answer, &mut self.reply),
            None => 0,
        }
    }
}

/// Returns two names, of which the first ends at the first NUL and the second at the last byte.
fn names_of(bytes: &[u8]) -> Option<(&[u8], &[u8])> {
    let first = bytes.iter().position(|&byte| byte == 0)?;
    let (old, new) = bytes.split_at(first + 1);
    Some((name_bytes(old).ok()?, name_bytes(new).ok()?))
}

/// Writes a message as the kernel does.
fn text_of(opcode: u32, node: u64, body: &[&[u8]]) -> Vec<u8> {
    let len = 40 + body.iter().map(|part| part.len()).sum::<usize>();
    let mut text = Vec::with_capacity(len);
    text.extend_from_slice(&(len as u32).to_le_bytes());
    text.extend_from_slice(&opcode.to_le_bytes());
    text.extend_from_slice(&7u64.to_le_bytes());
    text.extend_from_slice(&node.to_le_bytes());
    text.extend_from_slice(&[0; 16]);
    body.iter().for_each(|part| text.extend_from_slice(part));
    text
}

fn dir_of(node: u64) -> u64 {
    let line = node - 2;
    line - line % EACH + 2
}

fn lookup_of(node: u64) -> Vec<u8> {
    text_of(1, dir_of(node), &[&name_of(node - 2), &[0]])
}

fn getattr_of(node: u64) -> Vec<u8> {
    text_of(3, node, &[&[0; 16]])
}

fn forget_of(node: u64) -> Vec<u8> {
    text_of(2, node, &[&1u64.to_le_bytes()])
}

impl Random {
    fn held(&mut self, lines: u64) -> u64 {
        let node = self.number(lines);
        match (node - 2) % EACH {
            0 => node + 1,
            63 => node - 1,
            _ => node,
        }
    }

    fn fresh(&mut self, lines: u64) -> u64 {
        (self.number(lines / EACH) - 2) * EACH + EACH + 1
    }
}

// ---- the messages, each kind in a function of its own

#[inline(never)]
fn look_up_held(server: &mut Server, text: &[u8]) -> usize {
    server.serve(text)
}

#[inline(never)]
fn get_attr(server: &mut Server, text: &[u8]) -> bool {
    server.serve(text) > 0
}

#[inline(never)]
fn mixed(server: &mut Server, text: &[u8]) -> usize {
    server.serve(text) + 1
}

#[inline(never)]
fn look_up_fresh(server: &mut Server, text: &[u8]) -> bool {
    server.serve(text) > 16
}

#[inline(never)]
fn forget_last(server: &mut Server, text: &[u8]) -> bool {
    server.serve(text) == 0
}

#[inline(never)]
fn make_and_drop(server: &mut Server, texts: &[Vec<u8>; 3]) -> u64 {
    let [create, unlink, forget] = texts;
    let opened = server.serve(create) > 16;
    let done = server.serve(unlink) == 16;
    let silent = server.serve(forget) == 0;
    u64::from(opened && done && silent)
}

#[inline(never)]
fn move_and_back(server: &mut Server, texts: &[Vec<u8>; 2]) -> Option<u64> {
    let [there, back] = texts;
    let moved = server.serve(there) == 16;
    let returned = server.serve(back) == 16;
    (moved && returned).then_some(1)
}

// ---- the runs

fn find_fresh(server: &mut Server, node: u64) -> bool {
    let given = server.served.next;
    look_up_fresh(server, &lookup_of(node)) && forget_last(server, &forget_of(given))
}

fn make(server: &mut Server, dir: u64, i: u64) -> u64 {
    let name = format!("made{i}.txt\0").into_bytes();
    let create = text_of(35, dir, &[&[0; 4], &0o755u32.to_le_bytes(), &[0; 8], &name]);
    let texts = [create, text_of(10, dir, &[&name]), forget_of(server.served.next)];
    make_and_drop(server, &texts)
}

fn move_one(server: &mut Server, node: u64, to_dir: u64, i: u64) -> u64 {
    let (dir, name) = (dir_of(node), name_of(node - 2));
    let made = format!("made{i}.txt").into_bytes();
    let there = text_of(12, dir, &[&to_dir.to_le_bytes(), &name, &[0], &made, &[0]]);
    let back = text_of(12, to_dir, &[&dir.to_le_bytes(), &made, &[0], &name, &[0]]);
    move_and_back(server, &[there, back]).unwrap_or(0)
}

/// Sends the messages of `measure messages`, as words say, and returns what their replies come to.
pub fn measure(words: &[String]) -> String {
    let lines: u64 = words[0].parse().expect("LINES is a number");
    let mut server = Server { served: Served::new(lines, DEFAULT_LIMIT), reply: [0; REPLY] };
    let server = &mut server;
    look_all_up(&mut server.served, lines);
    (0..lines / EACH).for_each(|directory| {
        server.serve(&forget_of(directory * EACH + EACH + 1));
    });
    let mut random = Random::new();
    let looked_up: usize = (0..ASKED_RANDOMLY).map(|_| look_up_held(server, &lookup_of(random.held(lines)))).sum();
    random = Random::new();
    let shown = (0..ASKED_RANDOMLY).filter(|_| get_attr(server, &getattr_of(random.held(lines)))).count();
    random = Random::new();
    let mut mix = |turn: u64| {
        let node = random.held(lines);
        let text = if turn % 2 == 0 { lookup_of(node) } else { getattr_of(node) };
        mixed(server, &text) - 1
    };
    let replied: usize = (0..ASKED_RANDOMLY).map(&mut mix).sum();
    random = Random::new();
    let found = (0..ASKED_RANDOMLY).filter(|_| find_fresh(server, random.fresh(lines))).count();
    random = Random::new();
    let made: u64 = (0..ASKED_RANDOMLY).map(|i| make(server, dir_of(random.number(lines)), i)).sum();
    random = Random::new();
    let mut move_any = |i: u64| {
        let node = random.held(lines);
        let to_dir = dir_of(random.number(lines));
        move_one(server, node, to_dir, i)
    };
    let moved: u64 = (0..ASKED_RANDOMLY).map(&mut move_any).sum();
    format!("looked-up {looked_up} shown {shown} mixed {replied} found {found} made {made} moved {moved}")
}
