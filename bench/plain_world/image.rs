//! The image: the numbers that a daemon gave and what was changed in the checkout, as bytes.
use crate::checkout::{attr, Manifest, Name, Tree, ROOT};
use crate::hashing::Map;
use crate::loaded::{Kind, Loaded};
use crate::script::is_name;
use crate::served::{Entry, Place, Served};

/// The longest text in version 1, which goes whole, and in a later one.
const LONGEST_WHOLE: usize = 65_000;
const LONGEST: usize = 268_435_456;

/// Why a text is no image, or an image can't be restored.
#[derive(Debug)]
pub enum Fault {
    Short,
    BadHeader,
    NotRising,
    BadMark,
    BadCount,
    BadName,
    Rest,
    ZeroUse,
    BadChange,
    NoParent,
    NoLink,
    TwoNumbers,
    NumberTooHigh,
}

struct Kept {
    number: u64,
    count: u32,
    place: Place,
}

pub struct Image {
    commit: [u8; 20],
    pub generation: u64,
    next: u64,
    next_file: u64,
    entries: Vec<Kept>,
    made: Vec<(u64, bool, u16)>,
    links: Vec<(u64, Name, Option<u64>)>,
}

pub fn image_of(served: &Served, manifest: &Manifest, generation: u64) -> Image {
    let kept = |(&number, entry): (&u64, &Entry)| Kept { number, count: entry.count, place: entry.place.clone() };
    let mut entries: Vec<Kept> = served.entries.iter().filter(|(&number, _)| number != ROOT).map(kept).collect();
    entries.sort_unstable_by_key(|kept| kept.number);
    let mut made: Vec<_> = served.tree.made.iter().map(|(&file, attr)| (file, attr.kind == Kind::Dir, attr.perm)).collect();
    made.sort_unstable_by_key(|made| made.0);
    let mut links = Vec::with_capacity(served.tree.changed.values().map(|links| links.len()).sum());
    for (&dir, changed) in &served.tree.changed {
        links.extend(changed.iter().map(|(name, &file)| (dir, name.clone(), file)));
    }
    links.sort_unstable_by(|one, other| (one.0, &one.1).cmp(&(other.0, &other.1)));
    let (next, next_file) = (served.next, served.tree.next_file);
    Image { commit: manifest.commit, generation, next, next_file, entries, made, links }
}

/// Returns how many bytes a count takes, where there is such a version.
fn count_width(version: u16) -> Option<usize> {
    match version {
        1 | 2 => Some(4),
        3 => Some(8),
        _ => None,
    }
}

/// Writes an image, unless it is too long for the version.
pub fn write(image: &Image, version: u16) -> Option<Vec<u8>> {
    let width = count_width(version)?;
    let entry = |kept: &Kept| match &kept.place {
        Place::Linked { name, .. } => 18 + width + name.len(),
        Place::Unlinked { .. } => 17 + width,
    };
    let link = |link: &(u64, Name, Option<u64>)| 10 + link.1.len() + if link.2.is_some() { 8 } else { 0 };
    let listed = image.entries.iter().map(entry).sum::<usize>() + image.links.iter().map(link).sum::<usize>();
    let length = 62 + listed + 11 * image.made.len();
    if length > if version == 1 { LONGEST_WHOLE } else { LONGEST } {
        return None;
    }
    let mut text = Vec::with_capacity(length);
    text.extend_from_slice(b"EDTK");
    text.extend_from_slice(&version.to_be_bytes());
    text.extend_from_slice(&image.commit);
    for field in [image.generation, image.next, image.next_file] {
        text.extend_from_slice(&field.to_be_bytes());
    }
    text.extend_from_slice(&(image.entries.len() as u32).to_be_bytes());
    for kept in &image.entries {
        text.extend_from_slice(&kept.number.to_be_bytes());
        text.push(matches!(kept.place, Place::Unlinked { .. }).into());
        text.extend_from_slice(&u64::from(kept.count).to_be_bytes()[8 - width..]);
        match &kept.place {
            Place::Linked { parent, name } => {
                text.extend_from_slice(&parent.to_be_bytes());
                text.push(name.len() as u8);
                text.extend_from_slice(name);
            }
            Place::Unlinked { file } => text.extend_from_slice(&file.to_be_bytes()),
        }
    }
    text.extend_from_slice(&(image.made.len() as u32).to_be_bytes());
    for (file, is_dir, perm) in &image.made {
        text.extend_from_slice(&file.to_be_bytes());
        text.push((*is_dir).into());
        text.extend_from_slice(&perm.to_be_bytes());
    }
    text.extend_from_slice(&(image.links.len() as u32).to_be_bytes());
    for (dir, name, file) in &image.links {
        text.extend_from_slice(&dir.to_be_bytes());
        text.push(name.len() as u8);
        text.extend_from_slice(name);
        text.push(file.is_some().into());
        if let Some(file) = file {
            text.extend_from_slice(&file.to_be_bytes());
        }
    }
    Some(text)
}

/// The fields of a text, first to last.
struct Fields<'a>(&'a [u8]);

impl<'a> Fields<'a> {
    fn bytes(&mut self, count: usize) -> Result<&'a [u8], Fault> {
        if self.0.len() < count {
            return Err(Fault::Short);
        }
        let (taken, rest) = self.0.split_at(count);
        self.0 = rest;
        Ok(taken)
    }

    fn mark(&mut self) -> Result<bool, Fault> {
        match self.bytes(1)?[0] {
            0 => Ok(false),
            1 => Ok(true),
            _ => Err(Fault::BadMark),
        }
    }

    fn u16(&mut self) -> Result<u16, Fault> {
        Ok(u16::from_be_bytes(self.bytes(2)?.try_into().unwrap()))
    }

    fn u32(&mut self) -> Result<u32, Fault> {
        Ok(u32::from_be_bytes(self.bytes(4)?.try_into().unwrap()))
    }

    fn u64(&mut self) -> Result<u64, Fault> {
        Ok(u64::from_be_bytes(self.bytes(8)?.try_into().unwrap()))
    }

    fn name(&mut self) -> Result<Name, Fault> {
        let length = self.bytes(1)?[0];
        let name = self.bytes(length.into())?;
        if is_name(name) { Ok(name.into()) } else { Err(Fault::BadName) }
    }

    fn count(&mut self, width: usize) -> Result<u32, Fault> {
        match width {
            4 => self.u32(),
            _ => self.u64()?.try_into().map_err(|_| Fault::BadCount),
        }
    }
}

pub fn read(text: &[u8]) -> Result<Image, Fault> {
    let mut fields = Fields(text);
    if fields.bytes(4)? != b"EDTK" {
        return Err(Fault::BadHeader);
    }
    let width = count_width(fields.u16()?).ok_or(Fault::BadHeader)?;
    let commit = fields.bytes(20)?.try_into().unwrap();
    let (generation, next, next_file) = (fields.u64()?, fields.u64()?, fields.u64()?);
    let (mut entries, mut last) = (Vec::new(), ROOT);
    for _ in 0..fields.u32()? {
        let (number, is_unlinked, count, of) = (fields.u64()?, fields.mark()?, fields.count(width)?, fields.u64()?);
        if number <= last {
            return Err(Fault::NotRising);
        }
        last = number;
        let place = if is_unlinked { Place::Unlinked { file: of } } else { Place::Linked { parent: of, name: fields.name()? } };
        entries.push(Kept { number, count, place });
    }
    let (mut made, mut last) = (Vec::new(), None);
    for _ in 0..fields.u32()? {
        let (file, is_dir, perm) = (fields.u64()?, fields.mark()?, fields.u16()?);
        if Some(file) <= last {
            return Err(Fault::NotRising);
        }
        if perm > 0o7777 {
            return Err(Fault::BadMark);
        }
        last = Some(file);
        made.push((file, is_dir, perm));
    }
    let mut links: Vec<(u64, Name, Option<u64>)> = Vec::new();
    for _ in 0..fields.u32()? {
        let (dir, name) = (fields.u64()?, fields.name()?);
        if links.last().is_some_and(|last| (last.0, &last.1) >= (dir, &name)) {
            return Err(Fault::NotRising);
        }
        let file = if fields.mark()? { Some(fields.u64()?) } else { None };
        links.push((dir, name, file));
    }
    if !fields.0.is_empty() {
        return Err(Fault::Rest);
    }
    Ok(Image { commit, generation, next, next_file, entries, made, links })
}

/// The links of an image's changes, by what they do to the manifest's: the directory in which a changed link gives a file,
/// the manifest's files whose place changed, and how many of a directory's names those are.
#[derive(Default)]
struct Relinked {
    above: Map<u64, u64>,
    gone: Map<u64, ()>,
    lost: Map<u64, usize>,
}

impl Relinked {
    fn of(tree: &Tree, manifest: &Manifest, links: &[(u64, Name, Option<u64>)]) -> Result<Relinked, Fault> {
        let mut relinked = Relinked::default();
        relinked.above.reserve(links.len());
        for (dir, name, file) in links {
            let before = manifest.child(*dir, name);
            let is_known = file.is_none_or(|file| file != ROOT && tree.attr(manifest, file).is_some());
            if *file == before || !is_known || !tree.attr(manifest, *dir).is_some_and(|attr| attr.kind == Kind::Dir) {
                return Err(Fault::BadChange);
            }
            if let Some(before) = before {
                relinked.gone.insert(before, ());
                *relinked.lost.entry(*dir).or_default() += 1;
            }
            if file.is_some_and(|file| relinked.above.insert(file, *dir).is_some()) {
                return Err(Fault::BadChange);
            }
        }
        Ok(relinked)
    }

    /// Returns the directory in which a file stands now.
    fn dir_of(&self, manifest: &Manifest, file: u64) -> Option<u64> {
        match self.above.get(&file) {
            Some(&dir) => Some(dir),
            None if self.gone.contains_key(&file) => None,
            None => manifest.dirs.get(file as usize).copied(),
        }
    }

    /// Looks for a file with two links, a directory that the root doesn't reach, and one that is gone and not empty.
    fn check(&self, manifest: &Manifest, links: &[(u64, Name, Option<u64>)]) -> Result<(), Fault> {
        let is_twice = |file: &u64| *file < manifest.files.len() as u64 && !self.gone.contains_key(file);
        let is_left = |file: &u64| {
            let names = manifest.links.get(file).map_or(0, |links| links.len());
            !self.above.contains_key(file) && names > self.lost.get(file).copied().unwrap_or(0)
        };
        if self.above.keys().any(is_twice) || self.gone.keys().any(is_left) {
            return Err(Fault::BadChange);
        }
        let mut reached: Map<u64, ()> = Map::default();
        reached.insert(ROOT, ());
        let mut way = Vec::new();
        for (dir, ..) in links {
            let mut at = *dir;
            while !reached.contains_key(&at) {
                if way.len() > self.above.len() + manifest.files.len() {
                    return Err(Fault::BadChange);
                }
                way.push(at);
                at = self.dir_of(manifest, at).ok_or(Fault::BadChange)?;
            }
            reached.extend(way.drain(..).map(|dir| (dir, ())));
        }
        Ok(())
    }
}

/// Makes the tree of a manifest with an image's changes.
fn tree_of(
    manifest: &Manifest,
    next_file: u64,
    made: Vec<(u64, bool, u16)>,
    links: Vec<(u64, Name, Option<u64>)>,
) -> Result<Tree, Fault> {
    let mut tree = Tree { next_file, ..Tree::default() };
    tree.made.reserve(made.len());
    for (file, is_dir, perm) in made {
        if file < manifest.files.len() as u64 || file >= next_file {
            return Err(Fault::BadChange);
        }
        tree.made.insert(file, attr(if is_dir { Kind::Dir } else { Kind::File }, perm, 0));
    }
    Relinked::of(&tree, manifest, &links)?.check(manifest, &links)?;
    for (dir, name, file) in links {
        tree.changed.entry(dir).or_default().insert(name, file);
    }
    Ok(tree)
}

/// Finds the files of the directories of an entry, from the one whose file is known down to the entry's own.
fn find_file(entries: &mut Map<u64, Entry>, tree: &Tree, manifest: &Manifest, number: u64) -> Result<(), Fault> {
    let (mut way, mut at) = (Vec::new(), number);
    loop {
        let entry = entries.get(&at).ok_or(Fault::NoParent)?;
        if entry.file != 0 {
            break;
        }
        let Place::Linked { parent, .. } = entry.place else {
            return Err(Fault::NoLink);
        };
        way.push(at);
        if way.len() > entries.len() {
            return Err(Fault::NoLink);
        }
        at = parent;
    }
    let mut dir = entries[&at].file;
    while let Some(at) = way.pop() {
        let entry = entries.get_mut(&at).unwrap();
        let Place::Linked { name, .. } = &entry.place else {
            return Err(Fault::NoLink);
        };
        dir = tree.child(manifest, dir, name).ok_or(Fault::NoLink)?;
        entry.file = dir;
    }
    Ok(())
}

/// Restores what an image tells, with nothing loaded.
pub fn raise(image: Image, manifest: &Manifest, limit: usize) -> Result<Served, Fault> {
    let Image { commit, next, next_file, entries: kept, made, links, .. } = image;
    if commit != manifest.commit {
        return Err(Fault::BadHeader);
    }
    let tree = tree_of(manifest, next_file, made, links)?;
    let mut entries: Map<u64, Entry> = Map::with_capacity_and_hasher(kept.len() + 1, Default::default());
    let mut names: Map<u64, Map<Name, u64>> = Map::default();
    entries.insert(ROOT, Entry::root());
    let numbers: Vec<u64> = kept.iter().map(|it| it.number).collect();
    if numbers.last().is_some_and(|&last| last >= next) {
        return Err(Fault::NumberTooHigh);
    }
    for it in kept {
        let file = match &it.place {
            Place::Linked { .. } => 0,
            Place::Unlinked { file } => *file,
        };
        entries.insert(it.number, Entry { count: it.count, kids: 0, slot: None, file, place: it.place });
    }
    for &number in &numbers {
        find_file(&mut entries, &tree, manifest, number)?;
        let Place::Linked { parent, name } = &entries[&number].place else {
            continue;
        };
        let (parent, name) = (*parent, name.clone());
        if names.entry(parent).or_default().insert(name, number).is_some() {
            return Err(Fault::TwoNumbers);
        }
        entries.get_mut(&parent).unwrap().kids += 1;
    }
    if entries.values().any(|entry| entry.count == 0 && entry.kids == 0) {
        return Err(Fault::ZeroUse);
    }
    Ok(Served { tree, entries, names, loaded: Loaded::new(limit), next })
}
