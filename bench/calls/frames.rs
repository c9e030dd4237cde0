//! Frames, written.
const HEAD: usize = 5;
const LONGEST_BODY: usize = 65_536;
const ASK: usize = 44;
const LONGEST_DATA: usize = 65_524;

#[derive(Debug)]
#[allow(dead_code)]
enum Fault {
    TooLong,
}

#[allow(dead_code)]
enum Frame {
    Take { generation: u64 },
    Ask(Vec<u8>),
    Empty,
    Post { generation: u64, reply: Vec<u8> },
    Posted,
    Ended,
    Stale { now: u64 },
    NotAsked,
    Claim { generation: u64 },
    Claimed { generation: u64 },
    Offer(Vec<u16>),
    Choice { session: u64, version: u16 },
    Ready { session: u64 },
    Pong { session: u64 },
    Data { session: u32, generation: u64, bytes: Vec<u8> },
    Failed { session: u64 },
}

fn written(kind: u8, parts: &[&[u8]]) -> Result<Vec<u8>, Fault> {
    let length = parts.iter().map(|part| part.len()).sum::<usize>();
    if length > LONGEST_BODY {
        return Err(Fault::TooLong);
    }
    let mut text = Vec::with_capacity(HEAD + length);
    text.extend_from_slice(&(length as u32).to_be_bytes());
    text.push(kind);
    parts.iter().for_each(|part| text.extend_from_slice(part));
    Ok(text)
}

fn text_of(frame: &Frame) -> Result<Vec<u8>, Fault> {
    match frame {
        Frame::Take { generation } => written(1, &[&generation.to_be_bytes()]),
        Frame::Ask(bytes) => written(2, &[bytes]),
        Frame::Empty => written(3, &[]),
        Frame::Post { generation, reply } => written(4, &[&generation.to_be_bytes(), reply]),
        Frame::Posted => written(5, &[]),
        Frame::Ended => written(6, &[]),
        Frame::Stale { now } => written(7, &[&now.to_be_bytes()]),
        Frame::NotAsked => written(8, &[]),
        Frame::Claim { generation } => written(9, &[&generation.to_be_bytes()]),
        Frame::Claimed { generation } => written(10, &[&generation.to_be_bytes()]),
        Frame::Offer(versions) => {
            let each: Vec<u8> = versions.iter().flat_map(|version| version.to_be_bytes()).collect();
            written(32, &[&[versions.len() as u8], &each])
        }
        Frame::Choice { session, version } => written(33, &[&session.to_be_bytes(), &version.to_be_bytes()]),
        Frame::Ready { session } => written(36, &[&session.to_be_bytes()]),
        Frame::Pong { session } => written(37, &[&session.to_be_bytes()]),
        Frame::Data { session, generation, bytes } => {
            written(38, &[&session.to_be_bytes(), &generation.to_be_bytes(), bytes])
        }
        Frame::Failed { session } => written(39, &[&session.to_be_bytes()]),
    }
}

#[inline(never)]
fn write(frame: &Frame) -> Result<Vec<u8>, Fault> {
    text_of(frame)
}

/// Makes the calls of `measure frames FORM ROUNDS`, and returns how many texts were made.
pub fn measure(words: &[String]) -> String {
    let rounds: u64 = words[1].parse().expect("ROUNDS is a number");
    let frame = match words[0].as_str() {
        "ask" => Frame::Ask(vec![1; ASK]),
        "data" => Frame::Data { session: 1, generation: 1, bytes: vec![1; LONGEST_DATA] },
        _ => Frame::Claim { generation: 1 },
    };
    format!("written {}", (0..rounds).filter(|_| write(&frame).is_ok()).count())
}
