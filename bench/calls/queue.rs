//! A queue: a ring, out of whose middle a member is removed by moving those on its shorter side.
use crate::random::Random;
use std::collections::VecDeque;

const ROUNDS: u32 = 20_000;

#[derive(Clone, Copy)]
#[allow(dead_code)]
struct Member {
    unique: u64,
    node: u64,
    k: u64,
}

#[inline(always)]
fn append(queue: &mut VecDeque<Member>, member: Member) {
    queue.reserve(1);
    queue.push_back(member);
}

fn fill(count: u64) -> VecDeque<Member> {
    let mut queue = VecDeque::new();
    for unique in 0..count {
        append(&mut queue, Member { unique, node: unique + 2, k: 1 });
    }
    queue
}

fn pick(queue: &VecDeque<Member>, random: &mut Random) -> usize {
    random.below(queue.len() as u64) as usize
}

#[inline(always)]
fn turn(queue: &mut VecDeque<Member>, index: usize) -> u64 {
    let Some(member) = queue.remove(index) else {
        return 0;
    };
    append(queue, member);
    member.unique
}

#[inline(never)]
fn turn_first(queue: &mut VecDeque<Member>) -> u64 {
    let mut sum = 0u64;
    for _ in 0..ROUNDS {
        sum = sum.wrapping_add(turn(queue, 0));
    }
    sum
}

#[inline(never)]
fn turn_any(queue: &mut VecDeque<Member>) -> u64 {
    let (mut random, mut sum) = (Random::new(), 0u64);
    for _ in 0..ROUNDS {
        let index = pick(queue, &mut random);
        sum = sum.wrapping_add(turn(queue, index));
    }
    sum
}

#[inline(never)]
fn get_any(queue: &VecDeque<Member>) -> u64 {
    let (mut random, mut sum) = (Random::new(), 0u64);
    for _ in 0..ROUNDS {
        if let Some(member) = queue.get(pick(queue, &mut random)) {
            sum = sum.wrapping_add(member.unique);
        }
    }
    sum
}

#[inline(never)]
fn take_any(queue: &mut VecDeque<Member>) -> u64 {
    let (mut random, mut sum) = (Random::new(), 0u64);
    for _ in 0..queue.len() / 2 {
        let index = pick(queue, &mut random);
        if let Some(member) = queue.remove(index) {
            sum = sum.wrapping_add(member.unique);
        }
    }
    sum
}

/// Makes the calls of `measure queue COUNT`, and returns the sums of what they reached.
pub fn measure(words: &[String]) -> String {
    let count = words[0].parse().expect("COUNT is a number");
    let mut queue = fill(count);
    let first = turn_first(&mut queue);
    let any = turn_any(&mut queue);
    let got = get_any(&queue);
    let taken = take_any(&mut fill(count));
    format!("first {first} any {any} got {got} taken {taken}")
}
