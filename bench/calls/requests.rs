//! What a daemon serves: hash maps by number, and by directory and name. Memory is not asked for beforehand.
use crate::hashing::Map;
use crate::loaded::{Attr, Kind, Loaded};
use crate::random::Random;

pub const ROOT: u64 = 1;
pub const EACH: u64 = 64;
const ASKED: u64 = 1000;
pub const ASKED_RANDOMLY: u64 = 20_000;
const LOADED_LIMIT: usize = 64;
pub const DEFAULT_LIMIT: usize = 1024;

const ENOENT: i32 = 2;
const EEXIST: i32 = 17;
const ENOTDIR: i32 = 20;
const EISDIR: i32 = 21;
const EINVAL: i32 = 22;
const ENOTEMPTY: i32 = 39;

pub type Name = Box<[u8]>;

pub struct Item {
    pub node: u64,
    pub k: u64,
}

enum Request {
    Lookup { dir: u64, name: Name },
    Getattr { node: u64 },
    Create { dir: u64, name: Name, perm: u16 },
    Mkdir { dir: u64, name: Name, perm: u16 },
    Unlink { dir: u64, name: Name },
    Forget(Item),
    BatchForget(Vec<Item>),
}

pub enum Answer {
    Entry { number: u64, attr: Attr },
    Attrs { attr: Attr },
    Opened { number: u64, attr: Attr },
    Done,
    Error(i32),
}

/// A file of the checkout: of the manifest, or made since.
struct File {
    kind: Kind,
    perm: u16,
    size: u64,
    is_made: bool,
}

impl File {
    fn attr(&self) -> Attr {
        let nlink = if self.kind == Kind::Dir { 2 } else { 1 };
        Attr { kind: self.kind, perm: self.perm, size: self.size, nlink }
    }
}

/// What the kernel was told of a number: its file, where it stands, how often it is held, and its loaded attributes.
struct Entry {
    file: u32,
    place: Option<(u64, Name)>,
    count: u64,
    kids: u32,
    slot: Option<u32>,
}

pub struct Served {
    files: Vec<File>,
    links: Map<u32, Map<Name, u32>>,
    entries: Map<u64, Entry>,
    names: Map<u64, Map<Name, u64>>,
    loaded: Loaded,
    pub next: u64,
}

impl Served {
    /// Begins to serve the manifest of `lines` lines that `measure` makes.
    pub fn new(lines: u64, limit: usize) -> Served {
        let mut served = Served {
            files: vec![File { kind: Kind::Dir, perm: 0o755, size: 0, is_made: false }],
            links: Map::default(),
            entries: Map::default(),
            names: Map::default(),
            loaded: Loaded::new(limit),
            next: 2,
        };
        let root = Entry { file: 0, place: None, count: 1, kids: 0, slot: None };
        served.entries.insert(ROOT, root);
        let mut dir = 0;
        for i in 0..lines {
            if i % EACH == 0 {
                dir = served.add_file(0, name_of(i), Kind::Dir, 0o755, 0, false);
            } else {
                served.add_file(dir, name_of(i), Kind::File, 0o644, i, false);
            }
        }
        served
    }

    fn add_file(&mut self, dir: u32, name: Name, kind: Kind, perm: u16, size: u64, is_made: bool) -> u32 {
        let file = self.files.len() as u32;
        self.files.push(File { kind, perm, size, is_made });
        self.links.entry(dir).or_default().insert(name, file);
        file
    }

    /// Returns the file of a directory's number.
    fn dir(&self, number: u64) -> Result<u32, i32> {
        let entry = self.entries.get(&number).ok_or(ENOENT)?;
        match self.files[entry.file as usize].kind {
            Kind::Dir => Ok(entry.file),
            Kind::File => Err(ENOTDIR),
        }
    }

    fn link(&self, dir: u32, name: &[u8]) -> Option<u32> {
        self.links.get(&dir)?.get(name).copied()
    }

    /// Counts the number of a name once more, and gives it the next one where it has none.
    fn give(&mut self, dir: u64, name: &[u8], file: u32) -> u64 {
        let names = self.names.entry(dir).or_default();
        if let Some(&number) = names.get(name) {
            self.entries.get_mut(&number).unwrap().count += 1;
            return number;
        }
        let number = self.next;
        self.next += 1;
        names.insert(name.into(), number);
        let place = Some((dir, name.into()));
        self.entries.insert(number, Entry { file, place, count: 1, kids: 0, slot: None });
        self.entries.get_mut(&dir).unwrap().kids += 1;
        number
    }

    /// Returns the attributes of a number: of a file of the manifest those that are loaded, or else the manifest's.
    pub fn attr(&mut self, number: u64) -> Option<Attr> {
        let entry = self.entries.get(&number)?;
        if let Some(slot) = entry.slot {
            return Some(self.loaded.touch(slot));
        }
        let file = &self.files[entry.file as usize];
        let attr = file.attr();
        if file.is_made || number == ROOT {
            return Some(attr);
        }
        if self.loaded.is_full() {
            let unloaded = self.loaded.remove_oldest();
            self.entries.get_mut(&unloaded).unwrap().slot = None;
        }
        let slot = self.loaded.add(number, attr);
        self.entries.get_mut(&number).unwrap().slot = Some(slot);
        Some(attr)
    }

    pub fn look_up(&mut self, dir: u64, name: &[u8]) -> Result<Answer, i32> {
        let parent = self.dir(dir)?;
        let file = self.link(parent, name).ok_or(ENOENT)?;
        let number = self.give(dir, name, file);
        let attr = self.attr(number).ok_or(ENOENT)?;
        Ok(Answer::Entry { number, attr })
    }

    pub fn make(&mut self, dir: u64, name: &[u8], kind: Kind, perm: u16) -> Result<(u64, Attr), i32> {
        let parent = self.dir(dir)?;
        if self.link(parent, name).is_some() {
            return Err(EEXIST);
        }
        let file = self.add_file(parent, name.into(), kind, perm, 0, true);
        let number = self.give(dir, name, file);
        Ok((number, self.files[file as usize].attr()))
    }

    pub fn unlink(&mut self, dir: u64, name: &[u8]) -> Result<Answer, i32> {
        let parent = self.dir(dir)?;
        let links = self.links.get_mut(&parent).ok_or(ENOENT)?;
        links.remove(name).ok_or(ENOENT)?;
        if let Some(number) = self.names.get_mut(&dir).and_then(|names| names.remove(name)) {
            self.entries.get_mut(&number).unwrap().place = None;
            self.lose_kid(dir);
        }
        Ok(Answer::Done)
    }

    /// Moves a file, with its number, to another name, which loses its file.
    pub fn rename(&mut self, dir: u64, name: &[u8], to_dir: u64, to_name: &[u8]) -> Result<Answer, i32> {
        let (from, to) = (self.dir(dir)?, self.dir(to_dir)?);
        let file = self.link(from, name).ok_or(ENOENT)?;
        if to_dir != ROOT && self.entries[&to_dir].place.is_none() {
            return Err(ENOENT);
        }
        let is_dir = self.files[file as usize].kind == Kind::Dir;
        if is_dir && self.is_above(file, to_dir) {
            return Err(EINVAL);
        }
        let replaced = self.link(to, to_name);
        if replaced == Some(file) {
            return Ok(Answer::Done);
        }
        if let Some(other) = replaced {
            self.may_replace(is_dir, other)?;
        }
        self.links.get_mut(&from).ok_or(ENOENT)?.remove(name);
        self.links.entry(to).or_default().insert(to_name.into(), file);
        if let Some(number) = self.names.get_mut(&to_dir).and_then(|names| names.remove(to_name)) {
            self.entries.get_mut(&number).unwrap().place = None;
            self.entries.get_mut(&to_dir).unwrap().kids -= 1;
        }
        if let Some(number) = self.names.get_mut(&dir).and_then(|names| names.remove(name)) {
            self.names.entry(to_dir).or_default().insert(to_name.into(), number);
            self.entries.get_mut(&number).unwrap().place = Some((to_dir, to_name.into()));
            self.entries.get_mut(&to_dir).unwrap().kids += 1;
            self.lose_kid(dir);
        }
        Ok(Answer::Done)
    }

    /// Returns whether a file is that of a directory's number, or of one above it.
    fn is_above(&self, file: u32, dir: u64) -> bool {
        let mut number = dir;
        loop {
            let entry = &self.entries[&number];
            if entry.file == file {
                return true;
            }
            let Some((above, _)) = entry.place else {
                return false;
            };
            number = above;
        }
    }

    /// Says why a directory, or another file, may not take the name of a file.
    fn may_replace(&self, is_dir: bool, other: u32) -> Result<(), i32> {
        let other_is_dir = self.files[other as usize].kind == Kind::Dir;
        match (is_dir, other_is_dir) {
            (false, true) => Err(EISDIR),
            (true, false) => Err(ENOTDIR),
            (true, true) if self.links.get(&other).is_some_and(|names| !names.is_empty()) => Err(ENOTEMPTY),
            _ => Ok(()),
        }
    }

    /// Takes a number back. One with count 0 and no kids leaves, and then each directory that has become one.
    pub fn forget(&mut self, item: &Item) {
        let Some(entry) = self.entries.get_mut(&item.node) else {
            return;
        };
        if item.node == ROOT || entry.count < item.k {
            return;
        }
        entry.count -= item.k;
        self.drop_upwards(item.node);
    }

    fn lose_kid(&mut self, dir: u64) {
        self.entries.get_mut(&dir).unwrap().kids -= 1;
        self.drop_upwards(dir);
    }

    fn drop_upwards(&mut self, number: u64) {
        let mut number = number;
        loop {
            let entry = &self.entries[&number];
            if number == ROOT || entry.count > 0 || entry.kids > 0 {
                return;
            }
            let entry = self.entries.remove(&number).unwrap();
            if let Some(slot) = entry.slot {
                self.loaded.remove(slot);
            }
            self.names.remove(&number);
            let Some((dir, name)) = entry.place else {
                return;
            };
            self.names.get_mut(&dir).unwrap().remove(&name);
            self.entries.get_mut(&dir).unwrap().kids -= 1;
            number = dir;
        }
    }

    fn apply(&mut self, request: &Request) -> Option<Answer> {
        let done = match request {
            Request::Lookup { dir, name } => self.look_up(*dir, name),
            Request::Getattr { node } => self.attr(*node).map(|attr| Answer::Attrs { attr }).ok_or(ENOENT),
            Request::Create { dir, name, perm } => {
                self.make(*dir, name, Kind::File, *perm).map(|(number, attr)| Answer::Opened { number, attr })
            }
            Request::Mkdir { dir, name, perm } => {
                self.make(*dir, name, Kind::Dir, *perm).map(|(number, attr)| Answer::Entry { number, attr })
            }
            Request::Unlink { dir, name } => self.unlink(*dir, name),
            Request::Forget(item) => {
                self.forget(item);
                return None;
            }
            Request::BatchForget(items) => {
                items.iter().for_each(|item| self.forget(item));
                return None;
            }
        };
        Some(done.unwrap_or_else(Answer::Error))
    }
}

pub fn name_of(i: u64) -> Name {
    let text = if i % EACH == 0 { format!("directory{}", i / EACH) } else { format!("file{i}.txt") };
    text.into_bytes().into()
}

fn number_told(answer: Option<Answer>) -> u64 {
    match answer {
        Some(Answer::Entry { number, .. }) => number,
        Some(Answer::Error(errno)) => panic!("error {errno}"),
        _ => ROOT,
    }
}

// ---- the requests, each kind in a function of its own

#[inline(never)]
fn look_up_held(served: &mut Served, request: &Request, held: u64) -> bool {
    number_told(served.apply(request)) == held
}

#[inline(never)]
fn look_up_fresh(served: &mut Served, request: &Request) -> Option<Kind> {
    match served.apply(request) {
        Some(Answer::Entry { attr, .. }) => Some(attr.kind),
        _ => None,
    }
}

#[inline(never)]
fn look_up_unloaded(served: &mut Served, request: &Request) -> u64 {
    number_told(served.apply(request))
}

#[inline(never)]
fn look_up_loaded(served: &mut Served, request: &Request) -> Option<u64> {
    match served.apply(request) {
        Some(Answer::Entry { number, attr }) if attr.nlink > 0 => Some(number),
        _ => None,
    }
}

#[inline(never)]
fn create(served: &mut Served, request: &Request) -> Option<u64> {
    match served.apply(request) {
        Some(Answer::Opened { number, attr }) => Some(number + attr.size),
        _ => None,
    }
}

#[inline(never)]
fn get_attr(served: &mut Served, request: &Request) -> Option<u64> {
    match served.apply(request) {
        Some(Answer::Attrs { attr }) => Some(attr.size + u64::from(attr.perm) + u64::from(attr.nlink)),
        _ => None,
    }
}

#[inline(never)]
fn unlink(served: &mut Served, request: &Request) -> bool {
    matches!(served.apply(request), Some(Answer::Done))
}

#[inline(never)]
fn forget_one(served: &mut Served, request: &Request) -> bool {
    served.apply(request).is_none()
}

#[inline(never)]
fn forget_last(served: &mut Served, request: &Request) -> u8 {
    if served.apply(request).is_none() { 2 } else { 0 }
}

#[inline(never)]
fn lower_batch(served: &mut Served, request: &Request) -> u64 {
    u64::from(served.apply(request).is_some())
}

#[inline(never)]
fn forget_batch(served: &mut Served, request: &Request) -> u64 {
    u64::from(served.apply(request).is_none())
}

// ---- the runs

fn look_up_twice(served: &mut Served, dir: u64, name: Name) -> u64 {
    let request = Request::Lookup { dir, name };
    let number = number_told(served.apply(&request));
    served.apply(&request);
    number
}

fn look_half_up(served: &mut Served, lines: u64) -> Vec<Request> {
    let every = (lines / ASKED).max(2);
    let (mut others, mut dir) = (Vec::new(), ROOT);
    for i in 0..lines {
        let name = name_of(i);
        if i % EACH == 0 {
            dir = look_up_twice(served, ROOT, name);
        } else if i % every == 1 {
            others.push(Request::Lookup { dir, name });
        } else {
            look_up_twice(served, dir, name);
        }
    }
    others
}

fn ask_fresh(served: &mut Served, lines: u64) -> usize {
    let others = look_half_up(served, lines);
    for request in &others {
        look_up_fresh(served, request);
    }
    let again = |request: &&Request| {
        let node = look_up_unloaded(served, request);
        let same = look_up_loaded(served, request) == Some(node);
        same && node != ROOT && served.apply(&Request::Forget(Item { node, k: 1 })).is_none()
    };
    others.iter().filter(again).count()
}

fn ask_made(served: &mut Served, depth: u64) -> usize {
    let mut dir = ROOT;
    for _ in 0..depth {
        dir = number_told(served.apply(&Request::Mkdir { dir, name: (*b"deeper").into(), perm: 0o755 }));
    }
    let name = |j: u64| Name::from(format!("made{j}.txt").into_bytes());
    let asked = |j: u64| {
        let making = Request::Create { dir, name: name(j), perm: 0o755 };
        (making, Request::Lookup { dir, name: name(j) }, Request::Unlink { dir, name: name(j) })
    };
    let list: Vec<_> = (0..ASKED).map(asked).collect();
    let is_answered = |(making, sought, unlinking): &&(Request, Request, Request)| {
        let Some(node) = create(served, making) else {
            return false;
        };
        let same = look_up_held(served, sought, node);
        let shown = get_attr(served, &Request::Getattr { node }).is_some();
        let forget = Request::Forget(Item { node, k: 1 });
        let lowered = forget_one(served, &forget);
        let gone = unlink(served, unlinking);
        same && shown && lowered && gone && forget_last(served, &forget) == 2
    };
    list.iter().filter(is_answered).count()
}

fn ask_batches(served: &mut Served) -> u64 {
    let mut batches = 0;
    for first in [2, 258, 514, 770] {
        let request = Request::BatchForget((first..first + 256).map(|node| Item { node, k: 1 }).collect());
        if lower_batch(served, &request) == 0 {
            batches += forget_batch(served, &request);
        }
    }
    batches
}

/// Looks each name up once.
pub fn look_all_up(served: &mut Served, lines: u64) {
    let mut parent = ROOT;
    for i in 0..lines {
        let dir = if i % EACH == 0 { ROOT } else { parent };
        let number = number_told(served.apply(&Request::Lookup { dir, name: name_of(i) }));
        if i % EACH == 0 {
            parent = number;
        }
    }
}

fn ask_random(served: &mut Served, lines: u64) -> u64 {
    look_all_up(served, lines);
    let (mut random, mut shown) = (Random::new(), 0);
    for _ in 0..ASKED_RANDOMLY {
        let node = random.number(lines);
        shown += u64::from(get_attr(served, &Request::Getattr { node }).is_some());
    }
    shown
}

/// Makes the requests of `measure requests`, as words say, and returns what they were answered.
pub fn measure(words: &[String]) -> String {
    let lines: u64 = words[0].parse().expect("LINES is a number");
    if words[1] == "random" {
        let mut served = Served::new(lines, DEFAULT_LIMIT);
        return format!("shown {}", ask_random(&mut served, lines));
    }
    let depth = words[1].parse().expect("DEPTH is a number");
    let mut served = Served::new(lines, LOADED_LIMIT);
    let found = ask_fresh(&mut served, lines);
    let made = ask_made(&mut served, depth);
    let batches = ask_batches(&mut served);
    format!("found {found} made {made} batches {batches} next {}", served.next)
}
