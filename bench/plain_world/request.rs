//! Requests and replies. Names are those of the script's text.
use crate::loaded::Attr;

#[derive(Clone, Copy)]
pub struct Item {
    pub number: u64,
    pub k: u64,
}

#[derive(Clone, Copy)]
pub enum Request<'a> {
    Lookup { dir: u64, name: &'a [u8] },
    Getattr { number: u64 },
    Create { dir: u64, perm: u16, name: &'a [u8] },
    Mkdir { dir: u64, perm: u16, name: &'a [u8] },
    Unlink { dir: u64, name: &'a [u8] },
    Rmdir { dir: u64, name: &'a [u8] },
    Rename { dir: u64, name: &'a [u8], to_dir: u64, to_name: &'a [u8] },
    Other { number: u64 },
    Forget(Item),
}

/// A request with the unique of its reply; a forget has 0.
#[derive(Clone, Copy)]
pub struct Ask<'a> {
    pub unique: u64,
    pub request: Request<'a>,
}

/// What the answer to a request contains where it doesn't fail.
#[derive(Clone, Copy, PartialEq)]
pub enum Form {
    Entry,
    Opened,
    Attrs,
    Nothing,
    OnlyAnError,
}

#[derive(Clone, Copy, Debug)]
#[allow(clippy::upper_case_acronyms)]
pub enum Errno {
    EEXIST,
    EINVAL,
    EIO,
    EISDIR,
    ENOENT,
    ENOSYS,
    ENOTDIR,
    ENOTEMPTY,
    ESTALE,
}

#[derive(Clone, Copy)]
pub enum Answer {
    Entry { number: u64, attr: Attr },
    Opened { number: u64, attr: Attr },
    Attrs { number: u64, attr: Attr },
    Done,
    Error(Errno),
}

#[derive(Clone, Copy)]
pub struct Reply {
    pub unique: u64,
    pub answer: Answer,
}

#[derive(Clone, Copy, Debug)]
pub enum Forgot {
    Lowered,
    Dropped,
    Bad,
    Root,
}

impl Request<'_> {
    pub fn form(&self) -> Form {
        match self {
            Request::Lookup { .. } | Request::Mkdir { .. } => Form::Entry,
            Request::Create { .. } => Form::Opened,
            Request::Getattr { .. } => Form::Attrs,
            Request::Unlink { .. } | Request::Rmdir { .. } | Request::Rename { .. } => Form::Nothing,
            Request::Other { .. } | Request::Forget(_) => Form::OnlyAnError,
        }
    }
}

impl Form {
    pub fn admits(self, answer: &Answer) -> bool {
        match answer {
            Answer::Entry { .. } => self == Form::Entry,
            Answer::Opened { .. } => self == Form::Opened,
            Answer::Attrs { .. } => self == Form::Attrs,
            Answer::Done => self == Form::Nothing,
            Answer::Error(_) => true,
        }
    }
}

impl Answer {
    /// Returns the number that the kernel holds once more by the answer.
    pub fn given(&self) -> Option<u64> {
        match *self {
            Answer::Entry { number, .. } | Answer::Opened { number, .. } => Some(number),
            _ => None,
        }
    }
}
