//! What a daemon serves: the numbers that it gave, over the tree of its checkout.
use crate::checkout::{attr, Manifest, Name, Tree, ROOT};
use crate::hashing::Map;
use crate::loaded::{Attr, Kind, Loaded};
use crate::request::{Answer, Errno, Forgot, Item, Request};

#[derive(Clone)]
pub enum Place {
    Linked { parent: u64, name: Name },
    Unlinked { file: u64 },
}

/// What a daemon keeps of a number: how often the kernel holds it, how many numbers stand below it, the slot of its
/// loaded attributes, its file, and where that stands.
pub struct Entry {
    pub count: u32,
    pub kids: u32,
    pub slot: Option<u32>,
    pub file: u64,
    pub place: Place,
}

impl Entry {
    /// Returns the root's entry. It stands below itself.
    pub fn root() -> Entry {
        Entry { count: 1, kids: 0, slot: None, file: ROOT, place: Place::Linked { parent: ROOT, name: Name::default() } }
    }

    fn is_linked(&self) -> bool {
        matches!(self.place, Place::Linked { .. })
    }

    /// Returns attributes as they are told: a file that lost its name has no link.
    fn told(&self, attr: Attr) -> Attr {
        if self.is_linked() { attr } else { Attr { nlink: 0, ..attr } }
    }
}

pub struct Served {
    pub tree: Tree,
    pub entries: Map<u64, Entry>,
    pub names: Map<u64, Map<Name, u64>>,
    pub loaded: Loaded,
    pub next: u64,
}

impl Served {
    pub fn new(manifest: &Manifest, limit: usize) -> Served {
        let tree = Tree { next_file: manifest.files.len() as u64, ..Tree::default() };
        let mut entries = Map::default();
        entries.insert(ROOT, Entry::root());
        Served { tree, entries, names: Map::default(), loaded: Loaded::new(limit), next: ROOT + 1 }
    }

    /// Answers an ask. Where `fails`, so does a call of the backing.
    pub fn answer(&mut self, manifest: &Manifest, request: &Request, fails: bool) -> Answer {
        let answered = match *request {
            Request::Lookup { dir, name } => self.look_up(manifest, dir, name, fails),
            Request::Getattr { number } => self.get_attr(manifest, number, fails),
            Request::Create { dir, perm, name } => {
                let made = self.make(manifest, dir, name, attr(Kind::File, perm, 0));
                made.map(|(number, attr)| Answer::Opened { number, attr })
            }
            Request::Mkdir { dir, perm, name } => {
                let made = self.make(manifest, dir, name, attr(Kind::Dir, perm, 0));
                made.map(|(number, attr)| Answer::Entry { number, attr })
            }
            Request::Unlink { dir, name } => self.unlink(manifest, dir, name),
            Request::Rmdir { dir, name } => self.remove_dir(manifest, dir, name),
            Request::Rename { dir, name, to_dir, to_name } => self.rename(manifest, dir, name, to_dir, to_name),
            Request::Other { .. } | Request::Forget(_) => Err(Errno::ENOSYS),
        };
        answered.unwrap_or_else(Answer::Error)
    }

    fn kind(&self, manifest: &Manifest, file: u64) -> Kind {
        self.tree.attr(manifest, file).unwrap().kind
    }

    /// Returns the entry of a directory's number.
    fn dir(&self, manifest: &Manifest, number: u64) -> Result<&Entry, Errno> {
        let entry = self.entries.get(&number).ok_or(Errno::ESTALE)?;
        match self.kind(manifest, entry.file) {
            Kind::Dir => Ok(entry),
            Kind::File => Err(Errno::ENOTDIR),
        }
    }

    /// Asks for the attributes of a file. The backing has those of the manifest's regular files.
    fn ask(&self, manifest: &Manifest, file: u64, fails: bool) -> Result<Attr, Errno> {
        let attr = self.tree.attr(manifest, file).unwrap();
        if fails && attr.kind == Kind::File && manifest.has(file) {
            return Err(Errno::EIO);
        }
        Ok(attr)
    }

    /// Loads attributes, in place of the oldest ones at the limit.
    fn load(&mut self, number: u64, attr: Attr) -> u32 {
        if self.loaded.is_full() {
            let unloaded = self.loaded.remove_oldest();
            self.entries.get_mut(&unloaded).unwrap().slot = None;
        }
        self.loaded.add(number, attr)
    }

    fn get_attr(&mut self, manifest: &Manifest, number: u64, fails: bool) -> Result<Answer, Errno> {
        let entry = self.entries.get(&number).ok_or(Errno::ESTALE)?;
        if let Some(slot) = entry.slot {
            return Ok(Answer::Attrs { number, attr: entry.told(self.loaded.touch(slot)) });
        }
        let attr = self.ask(manifest, entry.file, fails)?;
        let told = entry.told(attr);
        if number != ROOT {
            let slot = self.load(number, attr);
            self.entries.get_mut(&number).unwrap().slot = Some(slot);
        }
        Ok(Answer::Attrs { number, attr: told })
    }

    fn look_up(&mut self, manifest: &Manifest, dir: u64, name: &[u8], fails: bool) -> Result<Answer, Errno> {
        if let Some(&number) = self.names.get(&dir).and_then(|names| names.get(name)) {
            let entry = self.entries.get_mut(&number).unwrap();
            if let Some(slot) = entry.slot {
                entry.count += 1;
                return Ok(Answer::Entry { number, attr: self.loaded.touch(slot) });
            }
            let file = entry.file;
            let attr = self.ask(manifest, file, fails)?;
            let slot = self.load(number, attr);
            let entry = self.entries.get_mut(&number).unwrap();
            entry.slot = Some(slot);
            entry.count += 1;
            return Ok(Answer::Entry { number, attr });
        }
        let parent = self.dir(manifest, dir)?.file;
        let file = self.tree.child(manifest, parent, name).ok_or(Errno::ENOENT)?;
        let attr = self.ask(manifest, file, fails)?;
        Ok(Answer::Entry { number: self.give_next(dir, name, file, attr), attr })
    }

    /// Gives the next number to a name that has none.
    fn give_next(&mut self, parent: u64, name: &[u8], file: u64, attr: Attr) -> u64 {
        let number = self.next;
        self.next += 1;
        let slot = Some(self.load(number, attr));
        self.names.entry(parent).or_default().insert(name.into(), number);
        let place = Place::Linked { parent, name: name.into() };
        self.entries.insert(number, Entry { count: 1, kids: 0, slot, file, place });
        self.entries.get_mut(&parent).unwrap().kids += 1;
        number
    }

    fn make(&mut self, manifest: &Manifest, dir: u64, name: &[u8], attr: Attr) -> Result<(u64, Attr), Errno> {
        let parent = self.dir(manifest, dir)?;
        let (is_linked, parent) = (parent.is_linked(), parent.file);
        if !is_linked {
            return Err(Errno::ENOENT);
        }
        if self.tree.child(manifest, parent, name).is_some() {
            return Err(Errno::EEXIST);
        }
        let file = self.tree.make(parent, name, attr);
        Ok((self.give_next(dir, name, file, attr), attr))
    }

    fn unlink(&mut self, manifest: &Manifest, dir: u64, name: &[u8]) -> Result<Answer, Errno> {
        let parent = self.dir(manifest, dir)?.file;
        let file = self.tree.child(manifest, parent, name).ok_or(Errno::ENOENT)?;
        if self.kind(manifest, file) == Kind::Dir {
            return Err(Errno::EISDIR);
        }
        self.tree.link(manifest, parent, name, None);
        self.lose_name(dir, name);
        self.drop_upwards(dir);
        Ok(Answer::Done)
    }

    fn remove_dir(&mut self, manifest: &Manifest, dir: u64, name: &[u8]) -> Result<Answer, Errno> {
        let parent = self.dir(manifest, dir)?.file;
        let file = self.tree.child(manifest, parent, name).ok_or(Errno::ENOENT)?;
        if self.kind(manifest, file) != Kind::Dir {
            return Err(Errno::ENOTDIR);
        }
        if !self.tree.is_empty(manifest, file) {
            return Err(Errno::ENOTEMPTY);
        }
        self.tree.link(manifest, parent, name, None);
        self.lose_name(dir, name);
        self.drop_upwards(dir);
        Ok(Answer::Done)
    }

    /// Takes a name away from its number, which goes on naming the file. The directory may be of no use then.
    fn lose_name(&mut self, dir: u64, name: &[u8]) {
        let Some(number) = self.names.get_mut(&dir).and_then(|names| names.remove(name)) else {
            return;
        };
        let entry = self.entries.get_mut(&number).unwrap();
        entry.place = Place::Unlinked { file: entry.file };
        self.entries.get_mut(&dir).unwrap().kids -= 1;
    }

    /// Moves a file, with its number, to another name, whose own file loses it.
    fn rename(&mut self, manifest: &Manifest, dir: u64, name: &[u8], to_dir: u64, to_name: &[u8]) -> Result<Answer, Errno> {
        if !self.entries.contains_key(&dir) || !self.entries.contains_key(&to_dir) {
            return Err(Errno::ESTALE);
        }
        let (from, to) = (self.dir(manifest, dir)?.file, self.dir(manifest, to_dir)?);
        let (is_linked, to) = (to.is_linked(), to.file);
        let file = self.tree.child(manifest, from, name).ok_or(Errno::ENOENT)?;
        if !is_linked {
            return Err(Errno::ENOENT);
        }
        let is_dir = self.kind(manifest, file) == Kind::Dir;
        if is_dir && self.is_above(file, to_dir) {
            return Err(Errno::EINVAL);
        }
        match self.tree.child(manifest, to, to_name) {
            Some(other) if other == file => return Ok(Answer::Done),
            Some(other) => self.check_replacing(manifest, is_dir, other)?,
            None => {}
        }
        self.tree.link(manifest, from, name, None);
        self.tree.link(manifest, to, to_name, Some(file));
        self.lose_name(to_dir, to_name);
        if let Some(number) = self.names.get_mut(&dir).and_then(|names| names.remove(name)) {
            self.names.entry(to_dir).or_default().insert(to_name.into(), number);
            self.entries.get_mut(&number).unwrap().place = Place::Linked { parent: to_dir, name: to_name.into() };
            self.entries.get_mut(&to_dir).unwrap().kids += 1;
            self.entries.get_mut(&dir).unwrap().kids -= 1;
        }
        self.drop_upwards(to_dir);
        self.drop_upwards(dir);
        Ok(Answer::Done)
    }

    /// Returns whether a file is that of a directory's number, or of one above it.
    fn is_above(&self, file: u64, dir: u64) -> bool {
        let mut number = dir;
        loop {
            let entry = &self.entries[&number];
            match entry.place {
                _ if entry.file == file => return true,
                Place::Linked { parent, .. } if number != ROOT => number = parent,
                _ => return false,
            }
        }
    }

    /// Says why a directory, or another file, may not take the name of a file.
    fn check_replacing(&self, manifest: &Manifest, is_dir: bool, other: u64) -> Result<(), Errno> {
        match (is_dir, self.kind(manifest, other)) {
            (false, Kind::Dir) => Err(Errno::EISDIR),
            (true, Kind::File) => Err(Errno::ENOTDIR),
            (true, Kind::Dir) if !self.tree.is_empty(manifest, other) => Err(Errno::ENOTEMPTY),
            _ => Ok(()),
        }
    }

    pub fn forget(&mut self, item: Item) -> Forgot {
        if item.number == ROOT {
            return Forgot::Root;
        }
        let Some(entry) = self.entries.get_mut(&item.number) else {
            return Forgot::Bad;
        };
        if item.k == 0 || item.k > u64::from(entry.count) {
            return Forgot::Bad;
        }
        entry.count -= item.k as u32;
        if entry.count > 0 || entry.kids > 0 {
            return Forgot::Lowered;
        }
        self.drop_upwards(item.number);
        Forgot::Dropped
    }

    /// Drops a number that has neither count nor kids, and then each directory that has become such a one.
    fn drop_upwards(&mut self, number: u64) {
        let mut number = number;
        while number != ROOT && self.entries.get(&number).is_some_and(|entry| entry.count == 0 && entry.kids == 0) {
            let entry = self.entries.remove(&number).unwrap();
            if let Some(slot) = entry.slot {
                self.loaded.remove(slot);
            }
            self.names.remove(&number);
            let Place::Linked { parent, name } = entry.place else {
                return;
            };
            self.names.get_mut(&parent).unwrap().remove(&name);
            self.entries.get_mut(&parent).unwrap().kids -= 1;
            number = parent;
        }
    }
}
