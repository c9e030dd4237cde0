//! The image of what a daemon serves: read from bytes, restored over a manifest, made again and written.
use crate::hashing::Map;

const ROOT: u64 = 1;
const EACH: u64 = 64;
const LONGEST: usize = 65_000;
const COMMIT: [u8; 20] = *b"\x01\x23\x45\x67\x89\xab\xcd\xef\x01\x23\x45\x67\x89\xab\xcd\xef\x01\x23\x45\x67";

type Name = Box<[u8]>;

#[derive(Debug)]
enum Fault {
    Short,
    BadHeader,
    Disorder,
    BadMark,
    BadName,
    Rest,
    NoParent,
    NoFile,
    NoUse,
    TwoNumbers,
    TooLong,
}

enum Place {
    Linked { parent: u64, name: Name },
    Unlinked { file: u64 },
}

struct Kept {
    number: u64,
    count: u32,
    place: Place,
}

struct Image {
    next: u64,
    next_file: u64,
    entries: Vec<Kept>,
    made: Vec<(u64, bool, u16)>,
}

/// The fields of a text, first to last.
struct Fields<'a>(&'a [u8]);

impl<'a> Fields<'a> {
    fn bytes(&mut self, count: usize) -> Result<&'a [u8], Fault> {
        if self.0.len() < count {
            return Err(Fault::Short);
        }
        let (taken, rest) = self.0.split_at(count);
        self.0 = rest;
        Ok(taken)
    }

    fn byte(&mut self) -> Result<u8, Fault> {
        Ok(self.bytes(1)?[0])
    }

    fn u32(&mut self) -> Result<u32, Fault> {
        Ok(u32::from_be_bytes(self.bytes(4)?.try_into().unwrap()))
    }

    fn u64(&mut self) -> Result<u64, Fault> {
        Ok(u64::from_be_bytes(self.bytes(8)?.try_into().unwrap()))
    }

    fn name(&mut self) -> Result<Name, Fault> {
        let length = self.byte()?;
        let name = self.bytes(length.into())?;
        let is_bad = name.is_empty() || name == b"." || name == b".." || name.iter().any(|&byte| byte == 0 || byte == b'/');
        if is_bad { Err(Fault::BadName) } else { Ok(name.into()) }
    }
}

fn read(text: &[u8]) -> Result<Image, Fault> {
    let mut fields = Fields(text);
    if fields.bytes(6)? != b"EDTK\0\x01" || fields.bytes(20)? != COMMIT || fields.u64()? != 1 {
        return Err(Fault::BadHeader);
    }
    let (next, next_file) = (fields.u64()?, fields.u64()?);
    let (mut entries, mut last) = (Vec::new(), ROOT);
    for _ in 0..fields.u32()? {
        let (number, mark, count, of) = (fields.u64()?, fields.byte()?, fields.u32()?, fields.u64()?);
        if number <= last || number >= next {
            return Err(Fault::Disorder);
        }
        let place = match mark {
            0 => Place::Linked { parent: of, name: fields.name()? },
            1 => Place::Unlinked { file: of },
            _ => return Err(Fault::BadMark),
        };
        entries.push(Kept { number, count, place });
        last = number;
    }
    let mut made = Vec::new();
    for _ in 0..fields.u32()? {
        let (file, kind, perm) = (fields.u64()?, fields.byte()?, fields.bytes(2)?);
        made.push((file, kind == 1, u16::from_be_bytes([perm[0], perm[1]])));
    }
    if fields.u32()? != 0 || !fields.0.is_empty() {
        return Err(Fault::Rest);
    }
    Ok(Image { next, next_file, entries, made })
}

fn write(image: &Image) -> Result<Vec<u8>, Fault> {
    let length = |kept: &Kept| match &kept.place {
        Place::Linked { name, .. } => 22 + name.len(),
        Place::Unlinked { .. } => 21,
    };
    let total = 62 + image.entries.iter().map(length).sum::<usize>() + 11 * image.made.len();
    if total > LONGEST {
        return Err(Fault::TooLong);
    }
    let mut text = Vec::with_capacity(total);
    text.extend_from_slice(b"EDTK\0\x01");
    text.extend_from_slice(&COMMIT);
    for field in [1, image.next, image.next_file] {
        text.extend_from_slice(&field.to_be_bytes());
    }
    text.extend_from_slice(&(image.entries.len() as u32).to_be_bytes());
    for kept in &image.entries {
        text.extend_from_slice(&kept.number.to_be_bytes());
        text.push(matches!(kept.place, Place::Unlinked { .. }).into());
        text.extend_from_slice(&kept.count.to_be_bytes());
        match &kept.place {
            Place::Linked { parent, name } => {
                text.extend_from_slice(&parent.to_be_bytes());
                text.push(name.len() as u8);
                text.extend_from_slice(name);
            }
            Place::Unlinked { file } => text.extend_from_slice(&file.to_be_bytes()),
        }
    }
    text.extend_from_slice(&(image.made.len() as u32).to_be_bytes());
    for (file, is_dir, perm) in &image.made {
        text.extend_from_slice(&file.to_be_bytes());
        text.push((*is_dir).into());
        text.extend_from_slice(&perm.to_be_bytes());
    }
    text.extend_from_slice(&[0; 4]);
    Ok(text)
}

/// The manifest: its files by directory and name, and which are directories. File 1 is the root.
struct Manifest {
    links: Map<u64, Map<Name, u64>>,
    is_dir: Vec<bool>,
}

impl Manifest {
    fn of(entries: u64) -> Manifest {
        let mut manifest = Manifest { links: Map::default(), is_dir: vec![false, true] };
        let mut dir = 1;
        for i in 0..entries {
            let file = manifest.is_dir.len() as u64;
            let parent = if i % EACH == 0 { 1 } else { dir };
            manifest.links.entry(parent).or_default().insert(name_of(i), file);
            manifest.is_dir.push(i % EACH == 0);
            if i % EACH == 0 {
                dir = file;
            }
        }
        manifest
    }
}

struct Entry {
    count: u32,
    kids: u32,
    file: u64,
    place: Place,
}

/// What is served: the entries by number, and numbers by directory and name.
struct Served {
    entries: Map<u64, Entry>,
    names: Map<u64, Map<Name, u64>>,
    made: Vec<(u64, bool, u16)>,
    next: u64,
    next_file: u64,
}

fn raise(image: Image, manifest: &Manifest) -> Result<Served, Fault> {
    let Image { next, next_file, entries: kept, made } = image;
    let mut entries: Map<u64, Entry> = Map::with_capacity_and_hasher(kept.len() + 1, Default::default());
    let mut names: Map<u64, Map<Name, u64>> = Map::default();
    let root = Entry { count: 1, kids: 0, file: 1, place: Place::Unlinked { file: 1 } };
    entries.insert(ROOT, root);
    let numbers: Vec<u64> = kept.iter().map(|it| it.number).collect();
    for it in kept {
        let file = match &it.place {
            Place::Linked { .. } => 0,
            Place::Unlinked { file } => *file,
        };
        entries.insert(it.number, Entry { count: it.count, kids: 0, file, place: it.place });
    }
    for &number in &numbers {
        let Place::Linked { parent, name } = &entries[&number].place else {
            continue;
        };
        let (parent, name) = (*parent, name.clone());
        let dir = entries.get_mut(&parent).ok_or(Fault::NoParent)?;
        dir.kids += 1;
        let file = *manifest.links.get(&dir.file).and_then(|links| links.get(&name)).ok_or(Fault::NoFile)?;
        if names.entry(parent).or_default().insert(name, number).is_some() {
            return Err(Fault::TwoNumbers);
        }
        entries.get_mut(&number).unwrap().file = file;
    }
    if entries.values().any(|entry| entry.count == 0 && entry.kids == 0) {
        return Err(Fault::NoUse);
    }
    Ok(Served { entries, names, made, next, next_file })
}

fn image_of(served: &Served) -> Image {
    let kept = |(&number, entry): (&u64, &Entry)| Kept {
        number,
        count: entry.count,
        place: match &entry.place {
            Place::Linked { parent, name } => Place::Linked { parent: *parent, name: name.clone() },
            Place::Unlinked { .. } => Place::Unlinked { file: entry.file },
        },
    };
    let mut entries: Vec<Kept> = served.entries.iter().filter(|(&number, _)| number != ROOT).map(kept).collect();
    entries.sort_unstable_by_key(|kept| kept.number);
    Image { next: served.next, next_file: served.next_file, entries, made: served.made.clone() }
}

// ---- the calls, each in a function of its own

#[inline(never)]
fn image_read(text: &[u8]) -> Result<Image, Fault> {
    read(text)
}

/// Joins parts of 4,096 bytes, and reads them.
#[inline(never)]
fn image_fed(text: &[u8]) -> Result<Image, Fault> {
    let mut joined = Vec::new();
    for part in text.chunks(4096) {
        joined.extend_from_slice(part);
    }
    read(&joined)
}

#[inline(never)]
fn image_raised(image: Image, manifest: &Manifest) -> Result<Served, Fault> {
    raise(image, manifest)
}

#[inline(never)]
fn image_taken(served: &Served) -> Option<Image> {
    Some(image_of(served))
}

#[inline(never)]
fn image_written(image: &Image) -> Result<Vec<u8>, Fault> {
    write(image)
}

// ---- the run

fn name_of(i: u64) -> Name {
    let text = if i % EACH == 0 { format!("directory{i}") } else { format!("file{i}.txt") };
    text.into_bytes().into()
}

/// Spells the image of linked entries, which are held once each.
fn text_of(entries: u64) -> Vec<u8> {
    let mut text = b"EDTK\0\x01".to_vec();
    text.extend_from_slice(&COMMIT);
    for field in [1, entries + 2, entries + 2] {
        text.extend_from_slice(&field.to_be_bytes());
    }
    text.extend_from_slice(&(entries as u32).to_be_bytes());
    for i in 0..entries {
        let parent = if i % EACH == 0 { ROOT } else { i - i % EACH + 2 };
        text.extend_from_slice(&(i + 2).to_be_bytes());
        text.extend_from_slice(&[0, 0, 0, 0, 1]);
        text.extend_from_slice(&parent.to_be_bytes());
        text.push(name_of(i).len() as u8);
        text.extend_from_slice(&name_of(i));
    }
    text.extend_from_slice(&[0; 8]);
    text
}

/// Makes the calls of `measure image ENTRIES 0`, and returns how many bytes were written.
pub fn measure(words: &[String]) -> String {
    let entries: u64 = words[0].parse().expect("ENTRIES is a number");
    let manifest = Manifest::of(entries);
    let text = text_of(entries);
    let image = image_read(&text).expect("the text is an image's");
    drop(image_fed(&text));
    let served = image_raised(image, &manifest).expect("nothing stands against the image");
    assert_eq!(served.names.values().map(|names| names.len() as u64).sum::<u64>(), entries);
    let image = image_taken(&served).expect("there is an image");
    let bytes = image_written(&image).map_or(0, |text| text.len());
    format!("bytes {bytes}")
}
