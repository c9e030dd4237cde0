//! A round's journal and its workers' receipts.
use crate::request::{Item, Name, Request};

const ROOT: u64 = 1;

#[derive(PartialEq)]
struct Attr {
    is_dir: bool,
    perm: u16,
    size: u64,
    nlink: u32,
}

#[allow(dead_code)]
#[derive(PartialEq)]
enum Answer {
    Entry { number: u64, attr: Attr },
    Attrs { number: u64, attr: Attr },
    Opened { number: u64, attr: Attr },
    Done,
    Error(i32),
}

struct Record {
    request: Request,
    answer: Option<Answer>,
}

struct Receipt {
    position: usize,
    request: Request,
    answer: Option<Answer>,
}

/// Returns whether the receipts are the records, each once.
fn is_settled(journal: &[Record], workers: &[Vec<Receipt>]) -> bool {
    let mut seen = vec![false; journal.len()];
    let mut count = 0;
    for receipt in workers.iter().flatten() {
        let Some(record) = journal.get(receipt.position) else {
            return false;
        };
        if seen[receipt.position] || record.request != receipt.request || record.answer != receipt.answer {
            return false;
        }
        seen[receipt.position] = true;
        count += 1;
    }
    count == journal.len()
}

#[inline(never)]
fn settled(journal: &[Record], workers: &[Vec<Receipt>]) -> bool {
    is_settled(journal, workers)
}

fn request_of(i: u64) -> Request {
    let name = || Name::of(format!("file{i}.txt").as_bytes());
    match i % 4 {
        0 => Request::Lookup { dir: ROOT, name: name() },
        1 => Request::Getattr { node: i + 2 },
        2 => Request::Forget(Item { node: i + 2, k: 1 }),
        _ => Request::Create { dir: ROOT, name: name(), perm: 0o755 },
    }
}

fn answer_of(i: u64) -> Option<Answer> {
    let (number, attr) = (i + 2, Attr { is_dir: false, perm: 0o755, size: i, nlink: 1 });
    match i % 4 {
        0 => Some(Answer::Entry { number, attr }),
        1 => Some(Answer::Attrs { number, attr }),
        2 => None,
        _ => Some(Answer::Opened { number, attr }),
    }
}

/// Makes the calls of `measure journal RECORDS WORKERS ROUNDS`, and returns how often the round was settled.
pub fn measure(words: &[String]) -> String {
    let numbers: Vec<u64> = words.iter().map(|word| word.parse().expect("a number")).collect();
    let [records, workers, rounds] = numbers[..] else {
        panic!("journal RECORDS WORKERS ROUNDS");
    };
    let journal: Vec<Record> = (0..records).map(|i| Record { request: request_of(i), answer: answer_of(i) }).collect();
    let receipt = |i: u64| Receipt { position: i as usize, request: request_of(i), answer: answer_of(i) };
    let receipts = |worker: u64| (0..records).filter(|i| i % workers == worker).map(receipt).collect();
    let each: Vec<Vec<Receipt>> = (0..workers).map(receipts).collect();
    format!("settled {}", (0..rounds).filter(|_| settled(&journal, &each)).count())
}
