//! An arena: an index slab, whose nodes stand in a ring of `u32` indexes in the order of their last use. The ring begins
//! and ends with node 0, which has no value.
use crate::random::next_random;

const RING: u32 = 0;
const ROUNDS: u32 = 1_000_000;

struct Node {
    value: Option<u64>,
    newer: u32,
    older: u32,
}

struct Arena {
    nodes: Vec<Node>,
    free: u32,
}

impl Arena {
    fn new(capacity: usize) -> Arena {
        let next = |slot: usize| if slot < capacity { slot as u32 + 1 } else { RING };
        let mut nodes: Vec<Node> =
            (0..=capacity).map(|slot| Node { value: None, newer: RING, older: next(slot) }).collect();
        nodes[RING as usize].older = RING;
        Arena { nodes, free: 1 }
    }

    fn detach(&mut self, slot: u32) {
        let (newer, older) = (self.nodes[slot as usize].newer, self.nodes[slot as usize].older);
        self.nodes[newer as usize].older = older;
        self.nodes[older as usize].newer = newer;
    }

    fn attach(&mut self, slot: u32) {
        let older = std::mem::replace(&mut self.nodes[RING as usize].older, slot);
        self.nodes[older as usize].newer = slot;
        let node = &mut self.nodes[slot as usize];
        node.newer = RING;
        node.older = older;
    }

    fn add(&mut self, value: u64) -> Option<u32> {
        let slot = self.free;
        if slot == RING {
            return None;
        }
        let node = &mut self.nodes[slot as usize];
        self.free = node.older;
        node.value = Some(value);
        self.attach(slot);
        Some(slot)
    }

    fn remove(&mut self, slot: u32) -> Option<u64> {
        let value = self.nodes[slot as usize].value.take()?;
        self.detach(slot);
        self.nodes[slot as usize].older = self.free;
        self.free = slot;
        Some(value)
    }

    fn touch(&mut self, slot: u32) {
        self.detach(slot);
        self.attach(slot);
    }

    fn oldest(&self) -> Option<u32> {
        Some(self.nodes[RING as usize].newer).filter(|oldest| *oldest != RING)
    }

    fn is_held(&self, slot: u32) -> bool {
        self.nodes[slot as usize].value.is_some()
    }

    fn get(&self, slot: u32) -> u64 {
        self.nodes[slot as usize].value.unwrap()
    }

    fn set(&mut self, slot: u32, value: u64) {
        self.nodes[slot as usize].value = Some(value);
    }
}

fn pick(slots: &[u32], random: u64) -> u32 {
    slots[(random >> 33) as usize % slots.len()]
}

#[inline(never)]
fn touch_oldest(arena: &mut Arena) {
    for _ in 0..ROUNDS {
        if let Some(slot) = arena.oldest() {
            arena.touch(slot);
        }
    }
}

#[inline(never)]
fn replace_oldest(arena: &mut Arena) {
    for _ in 0..ROUNDS {
        if let Some(slot) = arena.oldest() {
            let value = arena.remove(slot).unwrap();
            let _ = arena.add(value);
        }
    }
}

#[inline(never)]
fn touch_any(arena: &mut Arena, slots: &[u32]) {
    let mut random = 1;
    for _ in 0..ROUNDS {
        random = next_random(random);
        let slot = pick(slots, random);
        if arena.is_held(slot) {
            arena.touch(slot);
        }
    }
}

#[inline(never)]
fn write_any(arena: &mut Arena, slots: &[u32]) {
    let mut random = 1;
    for _ in 0..ROUNDS {
        random = next_random(random);
        let slot = pick(slots, random);
        if arena.is_held(slot) {
            let value = arena.get(slot);
            arena.set(slot, value ^ random);
        }
    }
}

#[inline(never)]
fn replace_any(arena: &mut Arena, slots: &[u32]) {
    let mut random = 1;
    for _ in 0..ROUNDS {
        random = next_random(random);
        let slot = pick(slots, random);
        if arena.is_held(slot) {
            let value = arena.remove(slot).unwrap();
            let _ = arena.add(value);
        }
    }
}

pub fn measure(words: &[String]) -> String {
    let capacity = words[0].parse::<usize>().unwrap().clamp(1, 65_536);
    let mut arena = Arena::new(capacity);
    let slots: Vec<u32> = (0..capacity as u64).filter_map(|value| arena.add(value)).collect();
    let few = &slots[..slots.len().min(8)];
    touch_oldest(&mut arena);
    replace_oldest(&mut arena);
    for chosen in [&slots[..], few] {
        touch_any(&mut arena, chosen);
    }
    for chosen in [&slots[..], few] {
        write_any(&mut arena, chosen);
    }
    for chosen in [&slots[..], few] {
        replace_any(&mut arena, chosen);
    }
    let held = slots.iter().filter(|slot| arena.is_held(**slot));
    let sum = held.fold(0u64, |sum, slot| sum.wrapping_add(arena.get(*slot)));
    format!("sum {sum}")
}
