//! A checkout: a manifest that is shared, and what was changed in it since.
use crate::hashing::Map;
use std::sync::Arc;

const ROOT: u32 = 1;
const EACH: u64 = 64;
const SOUGHT: u64 = 1000;

type Name = Box<[u8]>;

#[derive(Clone, Copy, PartialEq)]
enum Kind {
    File,
    Dir,
}

#[derive(Clone, Copy)]
struct Attr {
    kind: Kind,
    perm: u16,
    size: u64,
}

/// The manifest's files by their ids, from 1 on, and by directory and name.
struct Manifest {
    files: Vec<Attr>,
    links: Map<u32, Map<Name, u32>>,
}

impl Manifest {
    fn of(lines: u64) -> Manifest {
        let root = Attr { kind: Kind::Dir, perm: 0o755, size: 0 };
        let mut manifest = Manifest { files: vec![root], links: Map::default() };
        let mut dir = manifest.add(ROOT, name_of(0), root);
        for i in 2..lines {
            if i % EACH == 0 {
                dir = manifest.add(ROOT, name_of(i), root);
            } else {
                manifest.add(dir, name_of(i), Attr { kind: Kind::File, perm: 0o644, size: i });
            }
        }
        manifest
    }

    fn add(&mut self, dir: u32, name: Name, attr: Attr) -> u32 {
        self.files.push(attr);
        let file = self.files.len() as u32;
        self.links.entry(dir).or_default().insert(name, file);
        file
    }

    fn child(&self, dir: u32, name: &[u8]) -> Option<u32> {
        self.links.get(&dir)?.get(name).copied()
    }

    fn len_of(&self, dir: u32) -> usize {
        self.links.get(&dir).map_or(0, Map::len)
    }
}

/// A manifest's files with the changes to them: what a name gives now, and how many names a directory has more or less.
struct Tree {
    manifest: Arc<Manifest>,
    made: Vec<Attr>,
    changed: Map<u32, Map<Name, Option<u32>>>,
    more: Map<u32, i64>,
    unlinked: Map<u32, ()>,
}

impl Tree {
    fn of(manifest: &Arc<Manifest>) -> Tree {
        Tree {
            manifest: Arc::clone(manifest),
            made: Vec::new(),
            changed: Map::default(),
            more: Map::default(),
            unlinked: Map::default(),
        }
    }

    fn child(&self, dir: u32, name: &[u8]) -> Option<u32> {
        match self.changed.get(&dir).and_then(|names| names.get(name)) {
            Some(given) => *given,
            None => self.manifest.child(dir, name),
        }
    }

    fn attr(&self, file: u32) -> Option<Attr> {
        let at = file as usize - 1;
        let of_manifest = self.manifest.files.len();
        if at < of_manifest { Some(self.manifest.files[at]) } else { self.made.get(at - of_manifest).copied() }
    }

    /// Returns the attributes of a file, and how many names lead to it.
    fn shown(&self, file: u32) -> Option<(Attr, u32)> {
        let attr = self.attr(file)?;
        let nlink = match attr.kind {
            _ if self.unlinked.contains_key(&file) => 0,
            Kind::File => 1,
            Kind::Dir => 2,
        };
        Some((attr, nlink))
    }

    fn is_empty_dir(&self, dir: u32) -> bool {
        let is_dir = self.attr(dir).is_some_and(|attr| attr.kind == Kind::Dir);
        is_dir && self.manifest.len_of(dir) as i64 + self.more.get(&dir).unwrap_or(&0) == 0
    }

    fn create(&mut self, dir: u32, name: &[u8], kind: Kind, perm: u16) -> Option<u32> {
        self.made.push(Attr { kind, perm, size: 0 });
        let file = (self.manifest.files.len() + self.made.len()) as u32;
        self.changed.entry(dir).or_default().insert(name.into(), Some(file));
        *self.more.entry(dir).or_default() += 1;
        Some(file)
    }

    fn remove(&mut self, dir: u32, name: &[u8]) -> Option<u32> {
        let file = self.child(dir, name)?;
        let names = self.changed.entry(dir).or_default();
        if self.manifest.child(dir, name).is_some() {
            names.insert(name.into(), None);
        } else {
            names.remove(name);
        }
        *self.more.entry(dir).or_default() -= 1;
        self.unlinked.insert(file, ());
        Some(file)
    }
}

// ---- the calls, each in a function of its own

#[inline(never)]
fn tree_of(manifest: &Arc<Manifest>) -> Tree {
    Tree::of(manifest)
}

#[inline(never)]
fn child(tree: &Tree, dir: u32, name: &[u8]) -> Option<u32> {
    tree.child(dir, name)
}

#[inline(never)]
fn attr(tree: &Tree, file: u32) -> Option<(Attr, u32)> {
    tree.shown(file)
}

#[inline(never)]
fn is_empty_dir(tree: &Tree, dir: u32) -> bool {
    tree.is_empty_dir(dir)
}

#[inline(never)]
fn create(tree: &mut Tree, dir: u32, name: &[u8]) -> Option<u32> {
    tree.create(dir, name, Kind::File, 0o755)
}

#[inline(never)]
fn remove(tree: &mut Tree, dir: u32, name: &[u8]) -> Option<u32> {
    tree.remove(dir, name)
}

#[inline(never)]
fn remove_made(tree: &mut Tree, dir: u32, name: &[u8], file: u32) -> bool {
    tree.remove(dir, name) == Some(file)
}

// ---- the run

fn name_of(i: u64) -> Name {
    let text = if i % EACH == 0 { format!("directory{}", i / EACH) } else { format!("file{i}.txt") };
    text.into_bytes().into()
}

/// Makes the calls of `measure checkout LINES`, and returns how many files, finds and changes there were.
pub fn measure(words: &[String]) -> String {
    let lines: u64 = words[0].parse().expect("LINES is a number");
    let manifest = Arc::new(Manifest::of(lines));
    let mut tree = tree_of(&manifest);
    let member = |j: u64| {
        let i = j * (lines / SOUGHT);
        let dir = (i - i % EACH).max(1) as u32 + 1;
        (i % EACH != 0).then(|| (i as u32 + 1, dir, name_of(i), Name::from(format!("fresh{j}.txt").into_bytes())))
    };
    let list: Vec<_> = (2..SOUGHT).filter_map(member).collect();
    let (mut found, mut changes) = (0, 0);
    for (file, dir, name, _) in &list {
        found += u32::from(child(&tree, *dir, name) == Some(*file));
        found += u32::from(attr(&tree, *file).is_some_and(|(attr, nlink)| attr.perm > 0 || attr.size > u64::from(nlink)));
        found += u32::from(!is_empty_dir(&tree, *dir));
    }
    for (_, dir, _, fresh) in &list {
        let is_free = tree.child(*dir, fresh).is_none() && !tree.unlinked.contains_key(dir);
        changes += u32::from(is_free && create(&mut tree, *dir, fresh).is_some());
    }
    for (_, dir, name, _) in &list {
        let is_file = tree.child(*dir, name).and_then(|file| tree.attr(file)).is_some_and(|attr| attr.kind == Kind::File);
        changes += u32::from(is_file && remove(&mut tree, *dir, name).is_some());
    }
    for (_, dir, _, fresh) in &list {
        let file = tree.child(*dir, fresh);
        changes += u32::from(file.is_some_and(|file| remove_made(&mut tree, *dir, fresh, file)));
    }
    format!("files {} found {found} changes {changes}", list.len())
}
