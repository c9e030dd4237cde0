//! The numbers that a daemon gave: hash maps by number, and by directory and name.
use crate::hashing::Map;
use crate::loaded::{Attr, Kind, Loaded};
use crate::random::Random;

const ROOT: u64 = 1;
const EACH: u64 = 64;
const SOUGHT: u64 = 1000;
const ASKED_RANDOMLY: u64 = 20_000;
const LOADED_LIMIT: usize = 64;
const DEFAULT_LIMIT: usize = 1024;
const ATTR: Attr = Attr { kind: Kind::File, perm: 0o755, size: 0, nlink: 1 };

type Name = Box<[u8]>;

#[derive(PartialEq)]
enum Forgot {
    Lowered,
    Dropped,
    Bad,
}

struct Entry {
    place: Option<(u64, Name)>,
    count: u64,
    kids: u32,
    file: Option<u64>,
    slot: Option<u32>,
}

struct Numbers {
    entries: Map<u64, Entry>,
    names: Map<u64, Map<Name, u64>>,
    loaded: Loaded,
    next: u64,
}

impl Numbers {
    fn new(limit: usize) -> Numbers {
        let mut entries = Map::default();
        entries.insert(ROOT, Entry { place: None, count: 1, kids: 0, file: None, slot: None });
        Numbers { entries, names: Map::default(), loaded: Loaded::new(limit), next: 2 }
    }

    fn give(&mut self, parent: u64, name: &[u8]) -> u64 {
        let names = self.names.entry(parent).or_default();
        if let Some(&number) = names.get(name) {
            self.entries.get_mut(&number).unwrap().count += 1;
            return number;
        }
        let number = self.next;
        self.next += 1;
        names.insert(name.into(), number);
        let place = Some((parent, name.into()));
        self.entries.insert(number, Entry { place, count: 1, kids: 0, file: None, slot: None });
        self.entries.get_mut(&parent).unwrap().kids += 1;
        number
    }

    fn forget(&mut self, number: u64, k: u64) -> Forgot {
        let Some(entry) = self.entries.get_mut(&number) else {
            return Forgot::Bad;
        };
        if number == ROOT || entry.count < k {
            return Forgot::Bad;
        }
        entry.count -= k;
        self.drop_upwards(number)
    }

    fn drop_upwards(&mut self, number: u64) -> Forgot {
        let (mut at, mut forgot) = (number, Forgot::Lowered);
        loop {
            let entry = &self.entries[&at];
            if at == ROOT || entry.count > 0 || entry.kids > 0 {
                return forgot;
            }
            forgot = Forgot::Dropped;
            let entry = self.entries.remove(&at).unwrap();
            if let Some(slot) = entry.slot {
                self.loaded.remove(slot);
            }
            self.names.remove(&at);
            let Some((parent, name)) = entry.place else {
                return forgot;
            };
            self.names.get_mut(&parent).unwrap().remove(&name);
            self.entries.get_mut(&parent).unwrap().kids -= 1;
            at = parent;
        }
    }

    fn unlink(&mut self, number: u64, file: u64) {
        let entry = self.entries.get_mut(&number).unwrap();
        entry.file = Some(file);
        let Some((parent, name)) = entry.place.take() else {
            return;
        };
        self.names.get_mut(&parent).unwrap().remove(&name);
        self.entries.get_mut(&parent).unwrap().kids -= 1;
        self.drop_upwards(parent);
    }

    fn attr(&mut self, number: u64) -> Option<Attr> {
        Some(self.loaded.touch(self.entries.get(&number)?.slot?))
    }

    fn load(&mut self, number: u64, attr: Attr) {
        if self.loaded.is_full() {
            let unloaded = self.loaded.remove_oldest();
            self.entries.get_mut(&unloaded).unwrap().slot = None;
        }
        let slot = self.loaded.add(number, attr);
        self.entries.get_mut(&number).unwrap().slot = Some(slot);
    }
}

// ---- the calls, each in a function of its own

#[inline(never)]
fn give_new(map: &mut Numbers, parent: u64, name: &[u8]) -> Result<u64, Forgot> {
    Ok(map.give(parent, name))
}

#[inline(never)]
fn give_again(map: &mut Numbers, parent: u64, name: &[u8]) -> Option<u64> {
    Some(map.give(parent, name))
}

#[inline(never)]
fn forget_one(map: &mut Numbers, number: u64) -> Forgot {
    map.forget(number, 1)
}

#[inline(never)]
fn forget_last(map: &mut Numbers, number: u64) -> bool {
    map.forget(number, 1) == Forgot::Dropped
}

#[inline(never)]
fn entry(map: &Numbers, number: u64) -> Option<&Option<(u64, Name)>> {
    map.entries.get(&number).map(|entry| &entry.place)
}

#[inline(never)]
fn count(map: &Numbers, number: u64) -> u64 {
    map.entries.get(&number).map_or(0, |entry| entry.count)
}

#[inline(never)]
fn number_for(map: &Numbers, parent: u64, name: &[u8]) -> Option<u64> {
    map.names.get(&parent)?.get(name).copied()
}

#[inline(never)]
fn after(map: &Numbers, number: u64) -> Option<u64> {
    (number + 1..map.next).find(|next| map.entries.contains_key(next))
}

#[inline(never)]
fn attr(map: &mut Numbers, number: u64) -> Option<Attr> {
    map.attr(number)
}

#[inline(never)]
fn load(map: &mut Numbers, number: u64, attr: Attr) {
    map.load(number, attr);
}

#[inline(never)]
fn remember(map: &mut Numbers, number: u64, file: u64) {
    map.entries.get_mut(&number).unwrap().file = Some(file);
}

#[inline(never)]
fn recall(map: &Numbers, number: u64) -> Option<u64> {
    map.entries.get(&number)?.file
}

#[inline(never)]
fn unlink(map: &mut Numbers, number: u64, file: u64) {
    map.unlink(number, file);
}

// ---- the runs

fn name_of(i: u64) -> Name {
    let text = if i % EACH == 0 { format!("directory{i}") } else { format!("file{i}.txt") };
    text.into_bytes().into()
}

fn parent_of(i: u64) -> u64 {
    if i % EACH == 0 { ROOT } else { i - i % EACH + 2 }
}

fn load_where_none(map: &mut Numbers, number: u64) -> bool {
    if entry(map, number).is_some() && attr(map, number).is_none() {
        load(map, number, ATTR);
        return true;
    }
    false
}

fn ask_random(map: &mut Numbers, entries: u64) -> usize {
    let mut random = Random::new();
    (0..ASKED_RANDOMLY).map(|_| random.number(entries)).filter(|&number| load_where_none(map, number)).count()
}

fn call_all(map: &mut Numbers, entries: u64) -> String {
    let numbers: Vec<u64> = (0..SOUGHT).map(|j| j * (entries / SOUGHT)).collect();
    let names: Vec<(Name, Name)> = (0..SOUGHT)
        .map(|j| (name_of(numbers[j as usize]), format!("fresh{j}.txt").into_bytes().into()))
        .collect();
    let (mut loaded, mut sum, mut lowered, mut dropped) = (0, 0u64, 0, 0);
    for &i in &numbers {
        remember(map, i + 2, i + 2);
        loaded += u64::from(load_where_none(map, i + 2));
    }
    for (&i, (name, _)) in numbers.iter().zip(&names) {
        sum += count(map, i + 2) + u64::from(entry(map, i + 2).is_some());
        sum += number_for(map, parent_of(i), name).unwrap_or(0);
        sum += after(map, i + 2).unwrap_or(0) + recall(map, i + 2).unwrap_or(0);
    }
    for (&i, (name, _)) in numbers.iter().zip(&names) {
        let number = give_again(map, parent_of(i), name);
        lowered += u64::from(number.is_some_and(|number| forget_one(map, number) == Forgot::Lowered));
    }
    for (&i, (_, fresh)) in numbers.iter().zip(&names) {
        let Ok(number) = give_new(map, parent_of(i), fresh) else {
            continue;
        };
        if number % 2 == 0 {
            unlink(map, number, number);
        }
        dropped += u64::from(forget_last(map, number));
    }
    format!("loaded {loaded} lowered {lowered} dropped {dropped} sum {sum}")
}

/// Makes the calls of `measure map`, as words say, and returns what they answered.
pub fn measure(words: &[String]) -> String {
    let entries: u64 = words[0].parse().expect("ENTRIES is a number");
    let is_random = words.len() > 1;
    let mut map = Numbers::new(if is_random { DEFAULT_LIMIT } else { LOADED_LIMIT });
    for i in 0..entries {
        map.give(parent_of(i), &name_of(i));
    }
    if is_random {
        return format!("loaded {}", ask_random(&mut map, entries));
    }
    call_all(&mut map, entries)
}
