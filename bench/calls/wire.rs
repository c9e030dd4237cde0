//! Requests read from the bytes of the FUSE protocol.
use crate::request::{Item, Name, Request};

const MESSAGES: u64 = 64;
const HEADER: usize = 40;
const MOST_ITEMS: usize = 256;

#[derive(Debug)]
#[allow(dead_code)]
pub enum Fault {
    Short,
    BadLength { tells: u32 },
    BadBody,
    BadCount { tells: u32 },
    BadName,
}

struct Ask {
    unique: u64,
    what: Request,
}

pub fn u32_at(bytes: &[u8], at: usize) -> u32 {
    u32::from_le_bytes(bytes[at..at + 4].try_into().unwrap())
}

pub fn u64_at(bytes: &[u8], at: usize) -> u64 {
    u64::from_le_bytes(bytes[at..at + 8].try_into().unwrap())
}

/// Reads the bytes of a name that ends with the body.
pub fn name_bytes(body: &[u8]) -> Result<&[u8], Fault> {
    let Some((0, name)) = body.split_last() else {
        return Err(Fault::BadBody);
    };
    let is_bad = name.is_empty() || name.len() > 255 || name == b"." || name == b"..";
    if is_bad || name.iter().any(|&byte| byte == 0 || byte == b'/') {
        return Err(Fault::BadName);
    }
    Ok(name)
}

/// Reads a name that ends with the body.
fn name_in(body: &[u8]) -> Result<Name, Fault> {
    name_bytes(body).map(Name::of)
}

fn items_in(body: &[u8]) -> Result<Vec<Item>, Fault> {
    if body.len() < 8 {
        return Err(Fault::BadBody);
    }
    let tells = u32_at(body, 0);
    if tells as usize > MOST_ITEMS || body.len() != 8 + 16 * tells as usize {
        return Err(Fault::BadCount { tells });
    }
    Ok(body[8..].chunks_exact(16).map(|item| Item { node: u64_at(item, 0), k: u64_at(item, 8) }).collect())
}

/// Returns the opcode, the unique, the node and the body of a message.
pub fn parts_of(bytes: &[u8]) -> Result<(u32, u64, u64, &[u8]), Fault> {
    if bytes.len() < HEADER {
        return Err(Fault::Short);
    }
    let tells = u32_at(bytes, 0);
    if tells as usize != bytes.len() {
        return Err(Fault::BadLength { tells });
    }
    Ok((u32_at(bytes, 4), u64_at(bytes, 8), u64_at(bytes, 16), &bytes[HEADER..]))
}

/// Splits what is made: the mode at `at`, and the name behind `skipped` bytes.
fn perm_and_name(body: &[u8], at: usize, skipped: usize) -> Result<(u16, Name), Fault> {
    if body.len() < skipped {
        return Err(Fault::BadBody);
    }
    Ok((u32_at(body, at) as u16 & 0o7777, name_in(&body[skipped..])?))
}

fn read_request(bytes: &[u8]) -> Result<Ask, Fault> {
    let (opcode, unique, node, body) = parts_of(bytes)?;
    let what = match opcode {
        1 => Request::Lookup { dir: node, name: name_in(body)? },
        2 if body.len() == 8 => Request::Forget(Item { node, k: u64_at(body, 0) }),
        3 if body.len() == 16 => Request::Getattr { node },
        42 => Request::BatchForget(items_in(body)?),
        9 => {
            let (perm, name) = perm_and_name(body, 0, 8)?;
            Request::Mkdir { dir: node, name, perm }
        }
        10 => Request::Unlink { dir: node, name: name_in(body)? },
        11 => Request::Rmdir { dir: node, name: name_in(body)? },
        35 => {
            let (perm, name) = perm_and_name(body, 4, 16)?;
            Request::Create { dir: node, name, perm }
        }
        2 | 3 => return Err(Fault::BadBody),
        _ => Request::Other { node, opcode },
    };
    Ok(Ask { unique, what })
}

#[inline(never)]
fn read(text: &[u8]) -> Result<Ask, Fault> {
    read_request(text)
}

fn batch(excess: u8) -> Vec<u8> {
    let mut body = vec![excess, 1, 0, 0, 0, 0, 0, 0];
    for i in 0..MOST_ITEMS as u64 {
        body.extend_from_slice(&i.to_le_bytes());
        body.extend_from_slice(&1u64.to_le_bytes());
    }
    body
}

fn message(form: &str, unique: u64) -> Vec<u8> {
    let (opcode, body): (u32, Vec<u8>) = match form {
        "getattr" => (3, vec![0; 16]),
        "forget" => (2, vec![1, 0, 0, 0, 0, 0, 0, 0]),
        "batch" => (42, batch(0)),
        "bad-count" => (42, batch(1)),
        "bad-body" => (1, b"src".to_vec()),
        "bad-name" => (1, b"a/b\0".to_vec()),
        _ => (1, b"src\0".to_vec()),
    };
    let length = (HEADER + body.len()) as u32 + u32::from(form == "bad-length");
    let mut text = length.to_le_bytes().to_vec();
    text.extend_from_slice(&opcode.to_le_bytes());
    text.extend_from_slice(&unique.to_le_bytes());
    text.extend_from_slice(&1u64.to_le_bytes());
    text.extend_from_slice(&[0; 16]);
    text.extend_from_slice(&body);
    if form == "short" {
        text.truncate(HEADER - 1);
    }
    text
}

/// Makes the calls of `measure wire FORM ROUNDS`, and returns how many messages were read, and a sum of what they say.
pub fn measure(words: &[String]) -> String {
    let (form, rounds) = (words[0].as_str(), words[1].parse::<u64>().expect("ROUNDS is a number"));
    let texts: Vec<Vec<u8>> = (0..MESSAGES).map(|unique| message(form, unique)).collect();
    let (mut count, mut sum, mut asks) = (0, 0, Vec::with_capacity(MESSAGES as usize));
    for _ in 0..rounds {
        asks.extend(texts.iter().filter_map(|text| read(text).ok()));
        count += asks.len();
        sum += asks.iter().map(|ask: &Ask| ask.unique).sum::<u64>();
        std::hint::black_box(&asks.iter().map(|ask| &ask.what).last());
        asks.clear();
    }
    format!("read {count} sum {sum}")
}
