//! The checkout: what its commit contains, and the tree that requests change.
use crate::hashing::Map;
use crate::loaded::{Attr, Kind};
use crate::script::{cut, decimal, is_name, perm};

pub const ROOT: u64 = 1;

/// How many files a manifest has at most, of which the root has no line.
const MOST_FILES: u64 = 65_536;
const GREATEST_SIZE: u64 = (1 << 63) - 1;

pub type Name = Box<[u8]>;

/// Returns the attributes of a file that stands under a name.
pub fn attr(kind: Kind, perm: u16, size: u64) -> Attr {
    let nlink = match kind {
        Kind::Dir => 2,
        Kind::File => 1,
    };
    Attr { kind, perm, size, nlink }
}

fn commit(line: &[u8]) -> Option<[u8; 20]> {
    let digits = line.strip_prefix(b"commit ").filter(|digits| digits.iter().all(u8::is_ascii_hexdigit))?;
    let mut commit = [0; 20];
    if digits.len() != 2 * commit.len() {
        return None;
    }
    for (byte, digits) in commit.iter_mut().zip(digits.chunks(2)) {
        *byte = u8::from_str_radix(std::str::from_utf8(digits).ok()?, 16).ok()?;
    }
    Some(commit)
}

/// Reads the attributes and the path of a manifest's line.
fn file(line: &[u8]) -> Result<(Attr, &[u8]), &'static str> {
    if let Some(path) = line.strip_prefix(b"dir ") {
        return Ok((attr(Kind::Dir, 0o755, 0), path));
    }
    let (mode, rest) = line.strip_prefix(b"file ").and_then(|rest| cut(rest, b' ')).ok_or("BadLine")?;
    let (size, path) = cut(rest, b' ').ok_or("BadLine")?;
    let perm = perm(mode).ok_or("BadMode")?;
    let is_plain = size == b"0" || !size.starts_with(b"0");
    let size = decimal(size).filter(|&size| is_plain && size <= GREATEST_SIZE).ok_or("BadSize")?;
    Ok((attr(Kind::File, perm, size), path))
}

/// What the commit contains: its files with their directories, of which the root is the first, and its links.
pub struct Manifest {
    pub commit: [u8; 20],
    pub files: Vec<Attr>,
    pub dirs: Vec<u64>,
    pub links: Map<u64, Map<Name, u64>>,
}

impl Manifest {
    /// Reads a manifest, or tells its first bad line.
    pub fn read(text: &[u8]) -> Result<Manifest, String> {
        let mut lines = text.strip_suffix(b"\n").unwrap_or(text).split(|&byte| byte == b'\n');
        let commit = lines.next().and_then(commit).ok_or("line 1: NoCommit")?;
        let root = attr(Kind::Dir, 0o755, 0);
        let mut manifest = Manifest { commit, files: vec![root, root], dirs: vec![0, 0], links: Map::default() };
        for (at, line) in lines.enumerate() {
            let added = file(line).and_then(|(attr, path)| manifest.add(attr, path));
            added.map_err(|kind| format!("line {}: {kind}", at + 2))?;
        }
        Ok(manifest)
    }

    fn add(&mut self, attr: Attr, path: &[u8]) -> Result<(), &'static str> {
        let mut names = path.split(|&byte| byte == b'/');
        if !names.clone().all(is_name) {
            return Err("BadPath");
        }
        let name = names.next_back().ok_or("BadPath")?;
        let dir = names.try_fold(ROOT, |dir, name| self.child(dir, name)).ok_or("NoParent")?;
        if self.files[dir as usize].kind != Kind::Dir {
            return Err("NoParent");
        }
        let file = self.files.len() as u64;
        if self.links.entry(dir).or_default().insert(name.into(), file).is_some() {
            return Err("Twice");
        }
        if file > MOST_FILES {
            return Err("TooManyLines");
        }
        self.files.push(attr);
        self.dirs.push(dir);
        Ok(())
    }

    /// Returns whether a file is one of the commit's.
    pub fn has(&self, file: u64) -> bool {
        file < self.files.len() as u64
    }

    pub fn child(&self, dir: u64, name: &[u8]) -> Option<u64> {
        self.links.get(&dir)?.get(name).copied()
    }
}

/// The tree that requests change: the manifest with files that were made, and links that differ from its own.
#[derive(Default)]
pub struct Tree {
    pub made: Map<u64, Attr>,
    pub changed: Map<u64, Map<Name, Option<u64>>>,
    pub next_file: u64,
}

impl Tree {
    pub fn child(&self, manifest: &Manifest, dir: u64, name: &[u8]) -> Option<u64> {
        match self.changed.get(&dir).and_then(|links| links.get(name)) {
            Some(&changed) => changed,
            None => manifest.child(dir, name),
        }
    }

    pub fn attr(&self, manifest: &Manifest, file: u64) -> Option<Attr> {
        match usize::try_from(file).ok().and_then(|at| manifest.files.get(at)) {
            Some(&attr) if file >= ROOT => Some(attr),
            _ => self.made.get(&file).copied(),
        }
    }

    /// Makes a file under a name that is free.
    pub fn make(&mut self, dir: u64, name: &[u8], attr: Attr) -> u64 {
        let file = self.next_file;
        self.next_file += 1;
        self.changed.entry(dir).or_default().insert(name.into(), Some(file));
        self.made.insert(file, attr);
        file
    }

    /// Lets a name lead to a file, or to none.
    pub fn link(&mut self, manifest: &Manifest, dir: u64, name: &[u8], file: Option<u64>) {
        let links = self.changed.entry(dir).or_default();
        if file == manifest.child(dir, name) {
            links.remove(name);
        } else {
            links.insert(name.into(), file);
        }
    }

    pub fn is_empty(&self, manifest: &Manifest, dir: u64) -> bool {
        let changed = self.changed.get(&dir);
        if changed.is_some_and(|links| links.values().any(Option::is_some)) {
            return false;
        }
        let gone = changed.map_or(0, |links| links.len());
        gone == manifest.links.get(&dir).map_or(0, |links| links.len())
    }
}
