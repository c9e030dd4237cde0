//! A daemon: its part in takeovers, and what it serves.
use crate::checkout::Manifest;
use crate::image::{image_of, raise, read, write};
use crate::request::{Ask, Reply, Request};
use crate::served::Served;
use crate::world::{Happened, Refusal};
use std::collections::VecDeque;

pub const PART: usize = 4096;

#[derive(Clone, Copy)]
enum Phase {
    Waiting,
    Chosen { session: u32, version: u16 },
    Reading { session: u32, generation: u64, position: usize, count: usize },
    Holding { generation: u64 },
    Serving { generation: u64 },
    Draining { generation: u64, session: u32, version: u16 },
    Pinged { generation: u64, session: u32, version: u16 },
    Handed { generation: u64, session: u32 },
    Gone,
}

pub enum Message {
    Offer(Vec<u16>),
    Choice { session: u32, version: u16 },
    NoCommon,
    Busy,
    Ready { session: u32, generation: u64 },
    Pong { session: u32 },
    Data { session: u32, generation: u64, bytes: Box<[u8]> },
    Part { session: u32, generation: u64, position: usize, count: usize, bytes: Box<[u8]> },
    Failed { session: u32 },
}

/// What a daemon makes of a message.
pub enum Reaction {
    Ignores,
    Accepts,
    Says(Vec<Message>),
}

/// What a daemon serves, what it took and did not work yet, and the replies that it did not post yet.
pub struct Server<'a> {
    pub generation: u64,
    pub served: Served,
    pub hand: VecDeque<Ask<'a>>,
    pub unposted: VecDeque<Reply>,
}

impl Server<'_> {
    fn new(generation: u64, served: Served) -> Self {
        Server { generation, served, hand: VecDeque::new(), unposted: VecDeque::new() }
    }

    /// Answers the ask, or applies the forget, at a position of the hand.
    pub fn work(&mut self, manifest: &Manifest, at: u64, fails: bool) -> Result<Happened, Refusal> {
        let ask = index(at).and_then(|index| self.hand.remove(index)).ok_or(Refusal::NoSuch)?;
        if let Request::Forget(item) = ask.request {
            return Ok(Happened::Forgot(self.served.forget(item)));
        }
        let reply = Reply { unique: ask.unique, answer: self.served.answer(manifest, &ask.request, fails) };
        self.unposted.push_back(reply);
        Ok(Happened::Made(reply))
    }
}

pub struct Daemon<'a> {
    versions: Vec<u16>,
    phase: Phase,
    sessions: u32,
    heard: Vec<u8>,
    pub server: Option<Server<'a>>,
}

impl<'a> Daemon<'a> {
    pub fn new(versions: Vec<u16>) -> Daemon<'a> {
        Daemon { versions, phase: Phase::Waiting, sessions: 0, heard: Vec::new(), server: None }
    }

    pub fn is_waiting(&self) -> bool {
        matches!(self.phase, Phase::Waiting)
    }

    /// Returns what the daemon serves, where it may take requests.
    pub fn taker(&mut self) -> Result<&mut Server<'a>, Refusal> {
        match self.phase {
            Phase::Serving { .. } | Phase::Draining { .. } => self.server.as_mut().ok_or(Refusal::WrongPhase),
            _ => Err(Refusal::WrongPhase),
        }
    }

    pub fn mount(&mut self, generation: u64, served: Served) {
        self.phase = Phase::Serving { generation };
        self.server = Some(Server::new(generation, served));
    }

    pub fn end(&mut self) {
        (self.phase, self.heard, self.server) = (Phase::Gone, Vec::new(), None);
    }

    /// Returns the generation from which the daemon may claim the seat.
    pub fn claim_wanted(&self) -> Result<u64, Refusal> {
        match self.phase {
            Phase::Holding { generation } => Ok(generation),
            _ => Err(Refusal::WrongPhase),
        }
    }

    /// Serves at the generation at which the seat was given, or is gone where no later claim could succeed.
    pub fn claimed(&mut self, answer: &Result<u64, Refusal>) {
        match (answer, &mut self.server) {
            (Ok(generation), Some(server)) => {
                self.phase = Phase::Serving { generation: *generation };
                server.generation = *generation;
            }
            (Err(Refusal::Unanswered(_)), _) => {}
            _ => self.end(),
        }
    }

    pub fn drain(&mut self) -> Result<Reaction, Refusal> {
        let (Phase::Draining { generation, session, version }, Some(server)) = (self.phase, &self.server) else {
            return Err(Refusal::WrongPhase);
        };
        if !server.hand.is_empty() || !server.unposted.is_empty() {
            return Err(Refusal::Undrained(server.hand.len(), server.unposted.len()));
        }
        self.phase = Phase::Pinged { generation, session, version };
        Ok(says(Message::Ready { session, generation }))
    }

    pub fn give_up(&mut self) -> Reaction {
        match self.phase {
            Phase::Waiting | Phase::Chosen { .. } | Phase::Reading { .. } => {
                self.end();
                Reaction::Accepts
            }
            Phase::Draining { generation, session, .. } | Phase::Pinged { generation, session, .. } => {
                self.phase = Phase::Serving { generation };
                says(Message::Failed { session })
            }
            Phase::Handed { generation, session } => {
                self.phase = Phase::Holding { generation };
                says(Message::Failed { session })
            }
            _ => Reaction::Ignores,
        }
    }

    pub fn hear(&mut self, message: &Message, manifest: &Manifest, limit: usize) -> Reaction {
        match (self.phase, message) {
            (Phase::Serving { generation }, Message::Offer(offered)) => {
                let Some(&version) = self.versions.iter().filter(|version| offered.contains(version)).max() else {
                    return says(Message::NoCommon);
                };
                self.sessions += 1;
                let session = self.sessions;
                self.phase = Phase::Draining { generation, session, version };
                return says(Message::Choice { session, version });
            }
            (Phase::Draining { .. } | Phase::Pinged { .. } | Phase::Handed { .. }, Message::Offer(_)) => {
                return says(Message::Busy);
            }
            (Phase::Waiting, &Message::Choice { session, version }) if self.versions.contains(&version) => {
                self.phase = Phase::Chosen { session, version };
            }
            (Phase::Waiting, Message::NoCommon | Message::Busy) => self.end(),
            (Phase::Chosen { session, .. }, Message::Ready { session: ready, .. }) if session == *ready => {
                return says(Message::Pong { session });
            }
            (Phase::Pinged { generation, session, version }, Message::Pong { session: ponged }) if session == *ponged => {
                return self.hand_over(manifest, generation, session, version);
            }
            (Phase::Chosen { session, version: 1 }, Message::Data { session: of, generation, bytes }) if session == *of => {
                return self.restore(manifest, limit, session, *generation, bytes);
            }
            (
                Phase::Chosen { session, version: 2.. },
                &Message::Part { session: of, generation, position: 1, count, ref bytes },
            ) if session == of => {
                self.heard.clear();
                return self.feed(manifest, limit, session, generation, 1, count, bytes);
            }
            (
                Phase::Reading { session, generation, position, count },
                &Message::Part { session: of, generation: at, position: next, count: all, ref bytes },
            ) if (session, generation, position, count) == (of, at, next, all) => {
                return self.feed(manifest, limit, session, generation, position, count, bytes);
            }
            (Phase::Chosen { session, .. } | Phase::Reading { session, .. }, Message::Failed { session: failed })
                if session == *failed =>
            {
                self.end();
            }
            (
                Phase::Draining { generation, session, .. } | Phase::Pinged { generation, session, .. },
                Message::Failed { session: failed },
            ) if session == *failed => self.phase = Phase::Serving { generation },
            (Phase::Handed { generation, session }, Message::Failed { session: failed }) if session == *failed => {
                self.phase = Phase::Holding { generation };
            }
            _ => return Reaction::Ignores,
        }
        Reaction::Accepts
    }

    /// Makes the image of what is served, and says it whole or in parts. Where it can't be written, serves on.
    fn hand_over(&mut self, manifest: &Manifest, generation: u64, session: u32, version: u16) -> Reaction {
        let written = self.server.as_ref().and_then(|it| write(&image_of(&it.served, manifest, generation), version));
        let Some(text) = written else {
            self.phase = Phase::Serving { generation };
            return says(Message::Failed { session });
        };
        self.phase = Phase::Handed { generation, session };
        if version == 1 {
            return says(Message::Data { session, generation, bytes: text.into() });
        }
        let count = text.len().div_ceil(PART);
        let part = |(at, bytes): (usize, &[u8])| {
            Message::Part { session, generation, position: at + 1, count, bytes: bytes.into() }
        };
        Reaction::Says(text.chunks(PART).enumerate().map(part).collect())
    }

    /// Keeps a part, and restores all of them with the last.
    fn feed(
        &mut self,
        manifest: &Manifest,
        limit: usize,
        session: u32,
        generation: u64,
        position: usize,
        count: usize,
        bytes: &[u8],
    ) -> Reaction {
        self.heard.extend_from_slice(bytes);
        if position < count {
            self.phase = Phase::Reading { session, generation, position: position + 1, count };
            return Reaction::Accepts;
        }
        let text = std::mem::take(&mut self.heard);
        self.restore(manifest, limit, session, generation, &text)
    }

    fn restore(&mut self, manifest: &Manifest, limit: usize, session: u32, generation: u64, text: &[u8]) -> Reaction {
        let image = read(text).ok().filter(|image| image.generation == generation);
        match image.and_then(|image| raise(image, manifest, limit).ok()) {
            Some(served) => {
                self.phase = Phase::Holding { generation };
                self.server = Some(Server::new(generation, served));
                Reaction::Accepts
            }
            None => {
                self.end();
                says(Message::Failed { session })
            }
        }
    }
}

fn says(message: Message) -> Reaction {
    Reaction::Says(vec![message])
}

/// Returns the index of a position, of which the first is 1.
pub fn index(position: u64) -> Option<usize> {
    usize::try_from(position.checked_sub(1)?).ok()
}
