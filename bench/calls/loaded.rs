//! What is loaded: attributes in an index slab, in the order of their last use.
const NONE: u32 = u32::MAX;

#[derive(Clone, Copy, PartialEq)]
pub enum Kind {
    File,
    Dir,
}

#[derive(Clone, Copy)]
pub struct Attr {
    pub kind: Kind,
    pub perm: u16,
    pub size: u64,
    pub nlink: u32,
}

/// Attributes by slot, in the order of their last use.
pub struct Loaded {
    nodes: Vec<Node>,
    free: Vec<u32>,
    newest: u32,
    oldest: u32,
    limit: usize,
}

struct Node {
    number: u64,
    attr: Attr,
    newer: u32,
    older: u32,
}

impl Loaded {
    pub fn new(limit: usize) -> Loaded {
        Loaded { nodes: Vec::with_capacity(limit), free: Vec::new(), newest: NONE, oldest: NONE, limit }
    }

    fn detach(&mut self, slot: u32) {
        let (newer, older) = (self.nodes[slot as usize].newer, self.nodes[slot as usize].older);
        match newer {
            NONE => self.newest = older,
            _ => self.nodes[newer as usize].older = older,
        }
        match older {
            NONE => self.oldest = newer,
            _ => self.nodes[older as usize].newer = newer,
        }
    }

    fn attach(&mut self, slot: u32) {
        let older = self.newest;
        let node = &mut self.nodes[slot as usize];
        node.newer = NONE;
        node.older = older;
        match older {
            NONE => self.oldest = slot,
            _ => self.nodes[older as usize].newer = slot,
        }
        self.newest = slot;
    }

    pub fn touch(&mut self, slot: u32) -> Attr {
        if self.newest != slot {
            self.detach(slot);
            self.attach(slot);
        }
        self.nodes[slot as usize].attr
    }

    pub fn is_full(&self) -> bool {
        self.nodes.len() - self.free.len() == self.limit
    }

    pub fn add(&mut self, number: u64, attr: Attr) -> u32 {
        let node = Node { number, attr, newer: NONE, older: NONE };
        let slot = match self.free.pop() {
            Some(slot) => {
                self.nodes[slot as usize] = node;
                slot
            }
            None => {
                self.nodes.push(node);
                self.nodes.len() as u32 - 1
            }
        };
        self.attach(slot);
        slot
    }

    pub fn remove(&mut self, slot: u32) {
        self.detach(slot);
        self.free.push(slot);
    }

    /// Removes the oldest, and returns its number.
    pub fn remove_oldest(&mut self) -> u64 {
        let oldest = self.oldest;
        self.remove(oldest);
        self.nodes[oldest as usize].number
    }
}
