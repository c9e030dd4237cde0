//! All daemons, the kernel, and what daemons said to one another.
use crate::checkout::Manifest;
use crate::daemon::{index, Daemon, Message, Reaction, Server};
use crate::kernel::Kernel;
use crate::request::{Forgot, Reply, Request};
use crate::script::Event;
use crate::served::Served;

const MOST_DAEMONS: usize = 1024;

#[derive(Clone, Copy)]
pub enum Happened {
    Started(usize),
    Mounted(u64),
    Asked(Option<u64>),
    Took(u64),
    TookForgets(usize),
    Made(Reply),
    Forgot(Forgot),
    Posted(u64),
    Answered(Reply),
    Said(usize),
    Heard,
    Ignored,
    Claimed(u64),
    Crashed,
    Shown,
}

#[derive(Clone, Copy)]
pub enum Refusal {
    BadForget,
    Empty,
    Ended,
    Full,
    NoDaemon,
    NoSuch,
    NotAsked,
    NotHeld,
    NotMounted,
    Seated,
    Stale(u64),
    Unanswered(usize),
    Undrained(usize, usize),
    WrongPhase,
}

pub struct World<'a> {
    manifest: &'a Manifest,
    limit: usize,
    pub kernel: Kernel<'a>,
    daemons: Vec<Daemon<'a>>,
    pub said: Vec<Message>,
}

impl<'a> World<'a> {
    pub fn new(manifest: &'a Manifest, limit: usize) -> World<'a> {
        World { manifest, limit, kernel: Kernel::default(), daemons: Vec::new(), said: Vec::new() }
    }

    /// Lets an event happen, or refuses it for the first cause that holds.
    pub fn step(&mut self, event: &Event<'a>) -> Result<Happened, Refusal> {
        match *event {
            Event::Start { ref versions } => self.start(versions),
            Event::Mount { daemon } => self.mount(daemon),
            Event::Issue(request) => self.kernel.issue(request).map(Happened::Asked),
            Event::Take { daemon } => self.take(daemon),
            Event::Work { daemon, at, fails } => self.work(daemon, at, fails),
            Event::Post { daemon, at } => self.post(daemon, at),
            Event::Deliver => self.kernel.deliver().map(Happened::Answered),
            Event::Hear { daemon, at } => self.hear(daemon, at),
            Event::Drained { daemon } => {
                let reaction = daemon_of(&mut self.daemons, daemon)?.drain()?;
                Ok(self.say(reaction))
            }
            Event::GiveUp { daemon } => {
                let reaction = daemon_of(&mut self.daemons, daemon)?.give_up();
                Ok(self.say(reaction))
            }
            Event::Claim { daemon } => self.claim(daemon),
            Event::Crash { daemon } => {
                daemon_of(&mut self.daemons, daemon)?.end();
                self.kernel.gone(daemon);
                Ok(Happened::Crashed)
            }
            Event::Do(request) => self.carry_out(request),
            Event::Show => Ok(Happened::Shown),
        }
    }

    fn start(&mut self, versions: &[u16]) -> Result<Happened, Refusal> {
        if self.daemons.len() >= MOST_DAEMONS {
            return Err(Refusal::Full);
        }
        self.daemons.push(Daemon::new(versions.to_vec()));
        self.said.push(Message::Offer(versions.to_vec()));
        Ok(Happened::Started(self.daemons.len()))
    }

    fn mount(&mut self, daemon: u64) -> Result<Happened, Refusal> {
        let waiting = daemon_of(&mut self.daemons, daemon)?;
        if !waiting.is_waiting() {
            return Err(Refusal::WrongPhase);
        }
        let generation = self.kernel.mount(daemon)?;
        waiting.mount(generation, Served::new(self.manifest, self.limit));
        Ok(Happened::Mounted(generation))
    }

    fn take(&mut self, daemon: u64) -> Result<Happened, Refusal> {
        let server = daemon_of(&mut self.daemons, daemon)?.taker()?;
        self.kernel.take(daemon, server.generation, &mut server.hand)
    }

    fn work(&mut self, daemon: u64, at: u64, fails: bool) -> Result<Happened, Refusal> {
        let server = daemon_of(&mut self.daemons, daemon)?.server.as_mut().ok_or(Refusal::NoSuch)?;
        server.work(self.manifest, at, fails)
    }

    fn post(&mut self, daemon: u64, at: u64) -> Result<Happened, Refusal> {
        let server = daemon_of(&mut self.daemons, daemon)?.server.as_mut().ok_or(Refusal::NoSuch)?;
        let index = index(at).ok_or(Refusal::NoSuch)?;
        let reply = *server.unposted.get(index).ok_or(Refusal::NoSuch)?;
        self.kernel.post(daemon, server.generation, reply)?;
        server.unposted.remove(index);
        Ok(Happened::Posted(reply.unique))
    }

    fn hear(&mut self, daemon: u64, at: u64) -> Result<Happened, Refusal> {
        let hearer = daemon_of(&mut self.daemons, daemon)?;
        let message = index(at).and_then(|index| self.said.get(index)).ok_or(Refusal::NoSuch)?;
        let reaction = hearer.hear(message, self.manifest, self.limit);
        Ok(self.say(reaction))
    }

    /// Keeps what a daemon says, since any daemon may hear it, again and again.
    fn say(&mut self, reaction: Reaction) -> Happened {
        match reaction {
            Reaction::Ignores => Happened::Ignored,
            Reaction::Accepts => Happened::Heard,
            Reaction::Says(messages) => {
                let at = self.said.len() + 1;
                self.said.extend(messages);
                Happened::Said(at)
            }
        }
    }

    fn claim(&mut self, daemon: u64) -> Result<Happened, Refusal> {
        let holder = daemon_of(&mut self.daemons, daemon)?;
        let answer = self.kernel.claim(daemon, holder.claim_wanted()?);
        holder.claimed(&answer);
        answer.map(Happened::Claimed)
    }

    /// Issues a request and works it off, unless another one stands before it: each event takes what stands first.
    fn carry_out(&mut self, request: Request<'a>) -> Result<Happened, Refusal> {
        self.kernel.issue(request)?;
        let daemon = self.kernel.seat.ok_or(Refusal::NotMounted)?.daemon;
        self.take(daemon)?;
        let worked = self.work(daemon, 1, false)?;
        if matches!(request, Request::Forget(_)) {
            return Ok(worked);
        }
        self.post(daemon, 1)?;
        self.kernel.deliver().map(Happened::Answered)
    }

    /// Returns what a daemon serves.
    pub fn server(&self, daemon: u64) -> Option<&Server<'a>> {
        self.daemons.get(index(daemon)?)?.server.as_ref()
    }
}

fn daemon_of<'d, 'a>(daemons: &'d mut [Daemon<'a>], daemon: u64) -> Result<&'d mut Daemon<'a>, Refusal> {
    index(daemon).and_then(|index| daemons.get_mut(index)).ok_or(Refusal::NoDaemon)
}
