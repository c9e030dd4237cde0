//! Directories that are listed: the files of each by their ids in a tree, and by their names in a hash map.
use crate::hashing::Map;
use crate::loaded::Kind;
use crate::random::Random;
use crate::requests::{EACH, ROOT, name_of as other_name};
use std::collections::BTreeMap;

const ASKED: u64 = 1000;
const SIZE: usize = 4096;
const ENTRY_LEN: usize = 40;
const FULL: u64 = 102;
const UNKNOWN: u64 = 0xffff_ffff;

const ESTALE: i32 = 116;
const ENOTDIR: i32 = 20;

type Name = Box<[u8]>;

/// A file of a directory.
struct Child {
    name: Name,
    kind: Kind,
}

/// The files of a directory by their ids, and by their names.
#[derive(Default)]
struct Directory {
    children: BTreeMap<u64, Child>,
    files: Map<Name, u64>,
}

/// What the kernel was told of a number: its file, the number of the directory above it, and how often it is held.
struct Entry {
    file: u64,
    above: u64,
    count: u64,
}

struct Served {
    directories: Map<u64, Directory>,
    entries: Map<u64, Entry>,
    names: Map<u64, Map<Name, u64>>,
    next: u64,
    next_file: u64,
}

/// Appends `struct fuse_dirent`, if it has room.
fn put_entry(out: &mut Vec<u8>, number: u64, position: u64, kind: Kind, name: &[u8]) -> bool {
    let end = out.len() + (24 + name.len()).next_multiple_of(8);
    if end > SIZE {
        return false;
    }
    let kind: u32 = if kind == Kind::Dir { 4 } else { 8 };
    out.extend_from_slice(&number.to_le_bytes());
    out.extend_from_slice(&(position + 1).to_le_bytes());
    out.extend_from_slice(&(name.len() as u32).to_le_bytes());
    out.extend_from_slice(&kind.to_le_bytes());
    out.extend_from_slice(name);
    out.resize(end, 0);
    true
}

impl Served {
    /// Begins to serve `others` lines of other directories, and the directory that is listed with `files` files.
    fn new(files: u64, others: u64) -> Served {
        let mut served = Served {
            directories: Map::default(),
            entries: Map::default(),
            names: Map::default(),
            next: 2,
            next_file: ROOT + 1,
        };
        served.directories.insert(ROOT, Directory::default());
        served.entries.insert(ROOT, Entry { file: ROOT, above: ROOT, count: 1 });
        let mut dir = ROOT;
        for i in 0..others {
            if i % EACH == 0 {
                dir = served.add_file(ROOT, other_name(i), Kind::Dir);
            } else {
                served.add_file(dir, other_name(i), Kind::File);
            }
        }
        let listed = served.add_file(ROOT, (*b"listed").into(), Kind::Dir);
        for i in 0..files {
            served.add_file(listed, name_of(i), Kind::File);
        }
        served
    }

    fn add_file(&mut self, dir: u64, name: Name, kind: Kind) -> u64 {
        let file = self.next_file;
        self.next_file += 1;
        let directory = self.directories.get_mut(&dir).unwrap();
        directory.files.insert(name.clone(), file);
        directory.children.insert(file, Child { name, kind });
        if kind == Kind::Dir {
            self.directories.insert(file, Directory::default());
        }
        file
    }

    /// Counts the number of a name once more, and gives it the next one where it has none.
    fn give(&mut self, dir: u64, name: &[u8], file: u64) -> u64 {
        let names = self.names.entry(dir).or_default();
        if let Some(&number) = names.get(name) {
            self.entries.get_mut(&number).unwrap().count += 1;
            return number;
        }
        let number = self.next;
        self.next += 1;
        names.insert(name.into(), number);
        self.entries.insert(number, Entry { file, above: dir, count: 1 });
        number
    }

    fn look_up(&mut self, dir: u64, name: &[u8]) -> u64 {
        let directory = &self.directories[&self.entries[&dir].file];
        let file = directory.files[name];
        self.give(dir, name, file)
    }

    fn create(&mut self, dir: u64, name: Name) -> u64 {
        let file = self.add_file(self.entries[&dir].file, name.clone(), Kind::File);
        self.give(dir, &name, file)
    }

    fn unlink(&mut self, dir: u64, name: &[u8]) {
        let directory = self.directories.get_mut(&self.entries[&dir].file).unwrap();
        let file = directory.files.remove(name).unwrap();
        directory.children.remove(&file);
        if let Some(names) = self.names.get_mut(&dir) {
            names.remove(name);
        }
    }

    /// Returns the inode number of a file that has a number: that number, if it is live.
    fn inode(&self, number: u64) -> u64 {
        if self.entries[&number].count > 0 { number } else { UNKNOWN }
    }

    /// Answers a READDIR.
    #[inline(never)]
    fn list(&self, dir: u64, offset: u64) -> Result<Vec<u8>, i32> {
        let entry = self.entries.get(&dir).ok_or(ESTALE)?;
        let directory = self.directories.get(&entry.file).ok_or(ENOTDIR)?;
        let names = self.names.get(&dir);
        let mut out = Vec::with_capacity(SIZE);
        if offset == 0 {
            put_entry(&mut out, self.inode(dir), 0, Kind::Dir, b".");
        }
        if offset <= 1 {
            put_entry(&mut out, self.inode(entry.above), 1, Kind::Dir, b"..");
        }
        for (&file, child) in directory.children.range(offset..) {
            let number = names.and_then(|names| names.get(&child.name)).map_or(UNKNOWN, |&number| self.inode(number));
            if !put_entry(&mut out, number, file, child.kind, &child.name) {
                break;
            }
        }
        Ok(out)
    }
}

fn word_of(i: u64) -> u64 {
    i * 612_347 % 900_000 + 100_000
}

fn name_of(i: u64) -> Name {
    format!("file{}.txt", word_of(i)).into_bytes().into()
}

fn made_name(i: u64) -> Name {
    format!("made{}.txt", word_of(i)).into_bytes().into()
}

/// The directory that is listed: its number, the position of its first file, and how many files it had at first.
#[derive(Clone, Copy)]
struct Listed {
    dir: u64,
    first: u64,
    files: u64,
}

fn look_up_dir(served: &mut Served, files: u64, others: u64) -> Listed {
    Listed { dir: served.look_up(ROOT, b"listed"), first: others + 3, files }
}

fn one_of(random: &mut Random, pair: u64) -> u64 {
    pair * 2 + random.below(2)
}

fn look_half_up(served: &mut Served, listed: Listed) {
    let mut random = Random::new();
    for pair in 0..listed.files / 2 {
        served.look_up(listed.dir, &name_of(one_of(&mut random, pair)));
    }
}

fn change_half(served: &mut Served, listed: Listed) {
    let mut random = Random::new();
    for pair in 0..listed.files / 2 {
        served.unlink(listed.dir, &name_of(one_of(&mut random, pair)));
        served.create(listed.dir, made_name(pair));
    }
}

fn next_in(bytes: &[u8]) -> Option<u64> {
    let entry = bytes.len().checked_sub(ENTRY_LEN)?;
    Some(u64::from_le_bytes(bytes[entry + 8..entry + 16].try_into().unwrap()))
}

#[inline(always)]
fn list_once(served: &Served, dir: u64, offset: u64) -> Option<u64> {
    next_in(&served.list(dir, offset).ok()?)
}

#[inline(always)]
fn list_on(served: &Served, listed: Listed) -> u64 {
    let mut from = 0;
    while let Some(next) = list_once(served, listed.dir, from) {
        from = next;
    }
    from
}

// ---- what is counted

#[inline(never)]
fn list_fresh(served: &Served, dir: u64, offset: u64) -> Option<u64> {
    list_once(served, dir, offset)
}

#[inline(never)]
fn list_held(served: &Served, dir: u64, offset: u64) -> u64 {
    list_once(served, dir, offset).unwrap_or(0)
}

#[inline(never)]
fn list_changed(served: &Served, dir: u64, offset: u64) -> u64 {
    list_once(served, dir, offset).unwrap_or(1)
}

#[inline(never)]
fn list_gone(served: &Served, dir: u64) -> u64 {
    list_once(served, dir, 0).unwrap_or(2)
}

#[inline(never)]
fn list_whole(served: &Served, listed: Listed) -> u64 {
    list_on(served, listed)
}

#[inline(never)]
fn list_whole_changed(served: &Served, listed: Listed) -> Option<u64> {
    Some(list_on(served, listed))
}

// ---- the runs

/// Lists from random ones of the first `count` positions of files. Returns the sum of the positions behind the answers.
fn ask_randomly(listed: Listed, count: u64, list: impl Fn(u64) -> u64) -> u64 {
    let mut random = Random::new();
    (0..ASKED).fold(0, |sum: u64, _| sum.wrapping_add(list(listed.first + random.below(count - FULL))))
}

/// Lists the whole directory, and returns a sum of all bytes. It goes before what is counted.
fn sum_listed(served: &Served, listed: Listed) -> u64 {
    let (mut from, mut sum) = (0, 0u64);
    while let Ok(answer) = served.list(listed.dir, from) {
        sum = answer.iter().fold(sum, |sum, &byte| sum.wrapping_mul(31).wrapping_add(byte.into()));
        let Some(next) = next_in(&answer) else {
            break;
        };
        from = next;
    }
    sum
}

/// Makes the READDIRs of `measure listing`, as words say, and returns what they were answered.
pub fn measure(words: &[String]) -> String {
    let files: u64 = words[0].parse().expect("FILES is a number");
    let others: u64 = words[1].parse().expect("OTHERS is a number");
    let mut served = Served::new(files, others);
    let listed = look_up_dir(&mut served, files, others);
    match words.get(2).map(String::as_str) {
        None => {
            let bytes = sum_listed(&served, listed);
            let fresh = ask_randomly(listed, files, |offset| list_fresh(&served, listed.dir, offset).unwrap_or(0));
            look_half_up(&mut served, listed);
            let held_bytes = sum_listed(&served, listed);
            let held = ask_randomly(listed, files, |offset| list_held(&served, listed.dir, offset));
            let whole = list_whole(&served, listed);
            format!("bytes {bytes} fresh {fresh} held-bytes {held_bytes} held {held} whole {whole}")
        }
        Some("changed") => {
            change_half(&mut served, listed);
            let bytes = sum_listed(&served, listed);
            let asked = |offset| list_changed(&served, listed.dir, offset);
            let changed = ask_randomly(listed, files + files / 2, asked);
            let whole = list_whole_changed(&served, listed).unwrap_or(0);
            format!("bytes {bytes} changed {changed} whole {whole}")
        }
        Some("gone") => {
            for i in 0..files - files / 10 {
                served.unlink(listed.dir, &name_of(i));
            }
            let bytes = sum_listed(&served, listed);
            format!("bytes {bytes} gone {}", list_gone(&served, listed.dir))
        }
        Some(word) => panic!("{word} is no word of listing"),
    }
}
