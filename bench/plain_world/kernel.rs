//! The kernel's side of the mount: the seat, what is held, and what is under way.
use crate::checkout::ROOT;
use crate::hashing::Map;
use crate::request::{Ask, Form, Item, Reply, Request};
use crate::world::{Happened, Refusal};
use std::collections::VecDeque;

const MOST_ASKS: usize = 1024;
const MOST_ITEMS: usize = 4096;
const BATCH: usize = 256;

#[derive(Clone, Copy)]
pub struct Seat {
    pub daemon: u64,
    pub generation: u64,
}

#[derive(Default)]
pub struct Kernel<'a> {
    pub seat: Option<Seat>,
    generation: u64,
    pub held: Map<u64, u64>,
    asked: u64,
    untaken: VecDeque<Ask<'a>>,
    /// The form of the answer to each ask that was taken and has no reply, by its unique.
    unanswered: Map<u64, Form>,
    pub posted: VecDeque<Reply>,
    pub forgets: VecDeque<Item>,
}

impl<'a> Kernel<'a> {
    pub fn mount(&mut self, daemon: u64) -> Result<u64, Refusal> {
        if self.seat.is_some() {
            return Err(Refusal::Seated);
        }
        Ok(self.give_seat(daemon))
    }

    fn give_seat(&mut self, daemon: u64) -> u64 {
        self.generation += 1;
        self.seat = Some(Seat { daemon, generation: self.generation });
        self.generation
    }

    pub fn claim(&mut self, daemon: u64, generation: u64) -> Result<u64, Refusal> {
        let seat = self.seat.ok_or(Refusal::Ended)?;
        if seat.generation != generation {
            return Err(Refusal::Stale(seat.generation));
        }
        if !self.unanswered.is_empty() {
            return Err(Refusal::Unanswered(self.unanswered.len()));
        }
        Ok(self.give_seat(daemon))
    }

    /// Ends the mount where the daemon that ended has the seat.
    pub fn gone(&mut self, daemon: u64) {
        if self.seat.is_some_and(|seat| seat.daemon == daemon) {
            *self = Kernel { generation: self.generation, asked: self.asked, ..Kernel::default() };
        }
    }

    fn check_seat(&self, daemon: u64, generation: u64) -> Result<(), Refusal> {
        match self.seat {
            None => Err(Refusal::Ended),
            Some(seat) if seat.daemon == daemon && seat.generation == generation => Ok(()),
            Some(seat) => Err(Refusal::Stale(seat.generation)),
        }
    }

    fn holds(&self, number: u64) -> bool {
        number == ROOT || self.held.contains_key(&number)
    }

    pub fn issue(&mut self, request: Request<'a>) -> Result<Option<u64>, Refusal> {
        if self.seat.is_none() {
            return Err(Refusal::NotMounted);
        }
        let is_held = match request {
            Request::Forget(item) => return self.issue_forget(item),
            Request::Rename { dir, to_dir, .. } => self.holds(dir) && self.holds(to_dir),
            Request::Getattr { number } | Request::Other { number } => self.holds(number),
            Request::Lookup { dir, .. }
            | Request::Create { dir, .. }
            | Request::Mkdir { dir, .. }
            | Request::Unlink { dir, .. }
            | Request::Rmdir { dir, .. } => self.holds(dir),
        };
        if !is_held {
            return Err(Refusal::NotHeld);
        }
        if self.untaken.len() + self.unanswered.len() + self.posted.len() >= MOST_ASKS {
            return Err(Refusal::Full);
        }
        self.asked += 1;
        self.untaken.push_back(Ask { unique: self.asked, request });
        Ok(Some(self.asked))
    }

    fn issue_forget(&mut self, item: Item) -> Result<Option<u64>, Refusal> {
        let Some(held) = self.held.get_mut(&item.number).filter(|held| item.k > 0 && item.k <= **held) else {
            return Err(Refusal::BadForget);
        };
        if self.forgets.len() >= MOST_ITEMS {
            return Err(Refusal::Full);
        }
        *held -= item.k;
        if *held == 0 {
            self.held.remove(&item.number);
        }
        self.forgets.push_back(item);
        Ok(None)
    }

    /// Puts what waits first into a daemon's hand.
    pub fn take(&mut self, daemon: u64, generation: u64, hand: &mut VecDeque<Ask<'a>>) -> Result<Happened, Refusal> {
        self.check_seat(daemon, generation)?;
        if self.forgets.len() < BATCH {
            if let Some(ask) = self.untaken.pop_front() {
                self.unanswered.insert(ask.unique, ask.request.form());
                hand.push_back(ask);
                return Ok(Happened::Took(ask.unique));
            }
        }
        let count = self.forgets.len().min(BATCH);
        if count == 0 {
            return Err(Refusal::Empty);
        }
        hand.extend(self.forgets.drain(..count).map(|item| Ask { unique: 0, request: Request::Forget(item) }));
        Ok(Happened::TookForgets(count))
    }

    pub fn post(&mut self, daemon: u64, generation: u64, reply: Reply) -> Result<(), Refusal> {
        self.check_seat(daemon, generation)?;
        let is_asked = self.unanswered.get(&reply.unique).is_some_and(|form| form.admits(&reply.answer));
        if !is_asked || reply.answer.given().is_some_and(|number| number <= ROOT) {
            return Err(Refusal::NotAsked);
        }
        self.unanswered.remove(&reply.unique);
        self.posted.push_back(reply);
        Ok(())
    }

    pub fn deliver(&mut self) -> Result<Reply, Refusal> {
        let reply = self.posted.pop_front().ok_or(Refusal::Empty)?;
        if let Some(number) = reply.answer.given() {
            *self.held.entry(number).or_default() += 1;
        }
        Ok(reply)
    }
}
