//! A request. A name of at most 16 bytes stands in its value.

#[derive(PartialEq)]
pub enum Name {
    Short { bytes: [u8; 16], len: u8 },
    Long(Vec<u8>),
}

impl Name {
    pub fn of(text: &[u8]) -> Name {
        if text.len() > 16 {
            return Name::Long(text.to_vec());
        }
        let mut bytes = [0; 16];
        bytes[..text.len()].copy_from_slice(text);
        Name::Short { bytes, len: text.len() as u8 }
    }
}

#[derive(PartialEq)]
pub struct Item {
    pub node: u64,
    pub k: u64,
}

/// All nine kinds, since a comparison goes by the kind.
#[allow(dead_code)]
#[derive(PartialEq)]
pub enum Request {
    Lookup { dir: u64, name: Name },
    Getattr { node: u64 },
    Forget(Item),
    BatchForget(Vec<Item>),
    Create { dir: u64, name: Name, perm: u16 },
    Mkdir { dir: u64, name: Name, perm: u16 },
    Unlink { dir: u64, name: Name },
    Rmdir { dir: u64, name: Name },
    Other { node: u64, opcode: u32 },
}
