//! A plain pair: a broker and daemons over the same sockets and frames as `edend`'s, as one would write them in Rust with
//! hash maps and the standard library alone. Nothing is proved, limits and faults are left out, and the image has a form
//! of its own. `bench/side_by_side` builds it, and measures beside it.
//!
//!   plain broker SOCKET SCRIPT
//!   plain daemon --mount|--takeover BROKER TAKEOVER MANIFEST [--workers N]
//!   plain answer SOCKET ROUNDS          a broker that always has an ask at hand, and answers at once: ROUNDS pairs of a Take
//!                                       and a Post; prints the nanoseconds of a pair
//!   plain trips SOCKET                  two bare round trips of that broker, again and again: a Take, and a Post of the same
//!                                       reply
use std::collections::{BTreeMap, HashMap, HashSet, VecDeque};
use std::io::{BufReader, Read, Write};
use std::os::unix::net::{UnixListener, UnixStream};
use std::sync::atomic::{AtomicBool, Ordering};
use std::sync::{Arc, Condvar, Mutex};
use std::time::{Duration, Instant};
use std::{env, fs, io, thread};

// ---- frames

const TAKE: u8 = 1;
const ASK: u8 = 2;
const EMPTY: u8 = 3;
const POST: u8 = 4;
const POSTED: u8 = 5;
const ENDED: u8 = 6;
const STALE: u8 = 7;
const NOT_ASKED: u8 = 8;
const CLAIM: u8 = 9;
const CLAIMED: u8 = 10;
const UNANSWERED: u8 = 11;
const MOUNT: u8 = 13;
const MOUNTED: u8 = 14;
const SEATED: u8 = 15;
const ATTACH: u8 = 16;
const ATTACHED: u8 = 17;
const OFFER: u8 = 32;
const CHOICE: u8 = 33;
const READY: u8 = 36;
const PONG: u8 = 37;
const DATA: u8 = 38;
const FAILED: u8 = 39;

struct Connection {
    reader: BufReader<UnixStream>,
    writer: UnixStream,
}

impl Connection {
    fn over(stream: UnixStream) -> io::Result<Connection> {
        Ok(Connection {
            writer: stream.try_clone()?,
            reader: BufReader::with_capacity(65_536, stream),
        })
    }

    fn at(path: &str) -> io::Result<Connection> {
        Connection::over(UnixStream::connect(path)?)
    }

    fn write(&mut self, kind: u8, parts: &[&[u8]]) -> io::Result<()> {
        let len: usize = parts.iter().map(|part| part.len()).sum();
        let mut text = Vec::with_capacity(5 + len);
        text.extend_from_slice(&(len as u32).to_be_bytes());
        text.push(kind);
        parts.iter().for_each(|part| text.extend_from_slice(part));
        self.writer.write_all(&text)
    }

    fn read(&mut self) -> io::Result<(u8, Vec<u8>)> {
        let mut head = [0; 5];
        self.reader.read_exact(&mut head)?;
        let mut body = vec![0; u32::from_be_bytes(head[..4].try_into().unwrap()) as usize];
        self.reader.read_exact(&mut body)?;
        Ok((head[4], body))
    }

    fn ask(&mut self, kind: u8, parts: &[&[u8]]) -> io::Result<(u8, Vec<u8>)> {
        self.write(kind, parts)?;
        self.read()
    }
}

fn be64(bytes: &[u8]) -> u64 {
    u64::from_be_bytes(bytes[..8].try_into().unwrap())
}

fn le64(bytes: &[u8]) -> u64 {
    u64::from_le_bytes(bytes[..8].try_into().unwrap())
}

fn le32(bytes: &[u8]) -> u32 {
    u32::from_le_bytes(bytes[..4].try_into().unwrap())
}

// ---- FUSE, as `linux/fuse.h` has it

#[derive(Clone, Copy)]
struct Attr {
    is_dir: bool,
    perm: u32,
    size: u64,
    nlink: u32,
}

fn request(opcode: u32, unique: u64, node: u64, body: &[u8]) -> Vec<u8> {
    let mut text = Vec::with_capacity(40 + body.len());
    text.extend_from_slice(&(40 + body.len() as u32).to_le_bytes());
    text.extend_from_slice(&opcode.to_le_bytes());
    text.extend_from_slice(&unique.to_le_bytes());
    text.extend_from_slice(&node.to_le_bytes());
    text.extend_from_slice(&[0; 16]);
    text.extend_from_slice(body);
    text
}

fn reply(unique: u64, error: i32, body: &[u8]) -> Vec<u8> {
    let mut text = Vec::with_capacity(16 + body.len());
    text.extend_from_slice(&(16 + body.len() as u32).to_le_bytes());
    text.extend_from_slice(&error.to_le_bytes());
    text.extend_from_slice(&unique.to_le_bytes());
    text.extend_from_slice(body);
    text
}

fn put_attr(text: &mut Vec<u8>, number: u64, attr: Attr) {
    text.extend_from_slice(&number.to_le_bytes());
    text.extend_from_slice(&attr.size.to_le_bytes());
    text.extend_from_slice(&attr.size.div_ceil(512).to_le_bytes());
    text.extend_from_slice(&[0; 36]);
    let kind = if attr.is_dir { 0o040000 } else { 0o100000 };
    text.extend_from_slice(&(kind | attr.perm).to_le_bytes());
    text.extend_from_slice(&attr.nlink.to_le_bytes());
    text.extend_from_slice(&[0; 20]);
}

fn entry_reply(unique: u64, number: u64, attr: Attr) -> Vec<u8> {
    let mut body = Vec::with_capacity(128);
    body.extend_from_slice(&number.to_le_bytes());
    body.extend_from_slice(&[0; 32]);
    put_attr(&mut body, number, attr);
    reply(unique, 0, &body)
}

fn attr_reply(unique: u64, number: u64, attr: Attr) -> Vec<u8> {
    let mut body = vec![0; 16];
    put_attr(&mut body, number, attr);
    reply(unique, 0, &body)
}

fn shown(text: &[u8], at: usize) -> String {
    let mode = le32(&text[at + 60..]);
    let kind = if mode & 0o170000 == 0o040000 { "dir" } else { "file" };
    let (size, nlink) = (le64(&text[at + 8..]), le32(&text[at + 64..]));
    format!("{} {kind} {:04o} {size} {nlink}", le64(&text[at..]), mode & 0o7777)
}

// ---- the broker

struct Waiting {
    unique: u64,
    text: Vec<u8>,
    is_entry: bool,
}

#[derive(Default)]
struct Kernel {
    generation: u64,
    holder: Option<u64>,
    daemons: u64,
    running: HashSet<u64>,
    asks: VecDeque<Waiting>,
    /// Taken and not answered: whether a number is given out.
    taken: HashMap<u64, bool>,
    replies: VecDeque<Vec<u8>>,
    forgets: VecDeque<(u64, u64)>,
    held: BTreeMap<u64, u64>,
    unique: u64,
    asked: Option<Instant>,
    is_closed: bool,
}

#[derive(Default)]
struct SharedKernel {
    kernel: Mutex<Kernel>,
    asks: Condvar,
    events: Condvar,
}

impl Kernel {
    fn take(&mut self) -> Option<Vec<u8>> {
        if self.asks.is_empty() || self.forgets.len() >= 256 {
            let count = self.forgets.len().min(256);
            if count == 0 {
                return None;
            }
            let mut body = Vec::with_capacity(8 + 16 * count);
            body.extend_from_slice(&(count as u32).to_le_bytes());
            body.extend_from_slice(&[0; 4]);
            for (node, k) in self.forgets.drain(..count) {
                body.extend_from_slice(&node.to_le_bytes());
                body.extend_from_slice(&k.to_le_bytes());
            }
            return Some(request(42, 0, 0, &body));
        }
        let ask = self.asks.pop_front()?;
        self.taken.insert(ask.unique, ask.is_entry);
        Some(ask.text)
    }

    fn gone(&mut self, daemon: u64) {
        self.running.remove(&daemon);
        if self.holder == Some(daemon) {
            self.holder = None;
            self.asks.clear();
            self.taken.clear();
            self.replies.clear();
            self.forgets.clear();
            self.held.clear();
        }
    }

    /// Answers a frame of a daemon; a Take that finds nothing is None.
    fn answer(&mut self, daemon: u64, kind: u8, body: &[u8]) -> Option<(u8, Vec<u8>)> {
        if self.is_closed || !self.running.contains(&daemon) {
            return Some((ENDED, vec![]));
        }
        if kind == MOUNT {
            if self.holder.is_some() {
                return Some((SEATED, vec![]));
            }
            self.generation += 1;
            self.holder = Some(daemon);
            return Some((MOUNTED, self.generation.to_be_bytes().to_vec()));
        }
        if self.holder.is_none() {
            return Some((ENDED, vec![]));
        }
        let is_stale = be64(body) != self.generation || (kind != CLAIM && self.holder != Some(daemon));
        if is_stale {
            return Some((STALE, self.generation.to_be_bytes().to_vec()));
        }
        match kind {
            TAKE => Some((ASK, self.take()?)),
            POST => {
                if self.taken.remove(&le64(&body[16..])).is_none() {
                    return Some((NOT_ASKED, vec![]));
                }
                self.replies.push_back(body[8..].to_vec());
                Some((POSTED, vec![]))
            }
            _ if !self.taken.is_empty() => Some((UNANSWERED, (self.taken.len() as u64).to_be_bytes().to_vec())),
            _ => {
                self.generation += 1;
                self.holder = Some(daemon);
                Some((CLAIMED, self.generation.to_be_bytes().to_vec()))
            }
        }
    }
}

impl SharedKernel {
    fn attach(&self, body: &[u8]) -> (u64, bool) {
        let mut kernel = self.kernel.lock().unwrap();
        let daemon = be64(body);
        if daemon != 0 {
            return (daemon, false);
        }
        kernel.daemons += 1;
        let daemon = kernel.daemons;
        kernel.running.insert(daemon);
        (daemon, true)
    }

    fn answer(&self, daemon: u64, kind: u8, body: &[u8]) -> (u8, Vec<u8>) {
        let mut kernel = self.kernel.lock().unwrap();
        let is_busy = |kernel: &Kernel| kernel.asked.is_some_and(|at| at.elapsed() < Duration::from_secs(1));
        let hold = Duration::from_millis(if is_busy(&kernel) { 1 } else { 20 });
        let until = Instant::now() + hold;
        loop {
            if let Some(answer) = kernel.answer(daemon, kind, body) {
                if matches!(answer.0, POSTED | MOUNTED | CLAIMED) || (answer.0 == ASK && kernel.asks.is_empty()) {
                    self.events.notify_one();
                }
                return answer;
            }
            let now = Instant::now();
            if now >= until {
                return (EMPTY, vec![]);
            }
            kernel = self.asks.wait_timeout(kernel, until - now).unwrap().0;
        }
    }

    fn serve(&self, stream: UnixStream) -> io::Result<()> {
        let mut connection = Connection::over(stream)?;
        let (_attach, body) = connection.read()?;
        let (daemon, is_first) = self.attach(&body);
        let mut served = connection.write(ATTACHED, &[&daemon.to_be_bytes()]);
        while served.is_ok() {
            served = match connection.read() {
                Ok((kind, body)) => {
                    let (kind, body) = self.answer(daemon, kind, &body);
                    connection.write(kind, &[&body])
                }
                Err(error) => Err(error),
            };
        }
        if is_first {
            self.kernel.lock().unwrap().gone(daemon);
            self.asks.notify_all();
            self.events.notify_all();
        }
        served
    }

    fn until<T>(&self, mut look: impl FnMut(&mut Kernel) -> Option<T>) -> T {
        let mut kernel = self.kernel.lock().unwrap();
        loop {
            if let Some(found) = look(&mut kernel) {
                return found;
            }
            kernel = self.events.wait(kernel).unwrap();
        }
    }

    fn ask(&self, words: &[&str]) -> String {
        let node: u64 = words[1].parse().unwrap();
        let unique = {
            let mut kernel = self.kernel.lock().unwrap();
            kernel.unique += 1;
            let unique = kernel.unique;
            let text = match words[0] {
                "lookup" => request(1, unique, node, &[words[2].as_bytes(), &[0]].concat()),
                _ => request(3, unique, node, &[0; 16]),
            };
            let is_entry = words[0] == "lookup";
            kernel.asks.push_back(Waiting { unique, text, is_entry });
            kernel.asked = Some(Instant::now());
            unique
        };
        self.asks.notify_one();
        let text = self.until(|kernel| kernel.replies.pop_front());
        let error = le32(&text[4..]) as i32;
        match (error, text.len()) {
            (0, 144) => {
                *self.kernel.lock().unwrap().held.entry(le64(&text[16..])).or_default() += 1;
                format!("answer {unique} entry {}", shown(&text, 56))
            }
            (0, _) => format!("answer {unique} attr {}", shown(&text, 32)),
            _ => format!("answer {unique} error {error}"),
        }
    }

    fn line(&self, line: &str) -> String {
        let words: Vec<&str> = line.split(' ').collect();
        match words[0] {
            "ask" => self.ask(&words[1..]),
            "seat" => {
                let wanted: u64 = words[1].parse().unwrap();
                let is_there = |kernel: &mut Kernel| (kernel.generation >= wanted).then_some(kernel.generation);
                format!("seat {}", self.until(is_there))
            }
            "forget" => {
                let (node, k) = (words[1].parse().unwrap(), words[2].parse().unwrap());
                let mut kernel = self.kernel.lock().unwrap();
                let held = kernel.held.entry(node).or_default();
                *held -= k;
                if *held == 0 {
                    kernel.held.remove(&node);
                }
                kernel.forgets.push_back((node, k));
                self.asks.notify_one();
                "asked".into()
            }
            "idle" => self.until(|kernel| kernel.forgets.is_empty().then(|| "idle".into())),
            _ => {
                let kernel = self.kernel.lock().unwrap();
                let lines: Vec<String> = kernel.held.iter().map(|(n, k)| format!("held {n} {k}")).collect();
                lines.join("\n")
            }
        }
    }
}

fn broker(socket: &str, script: &str) -> io::Result<()> {
    let shared: &'static SharedKernel = Box::leak(Box::default());
    let listener = UnixListener::bind(socket)?;
    thread::spawn(move || {
        for stream in listener.incoming().flatten() {
            thread::spawn(move || shared.serve(stream));
        }
    });
    let mut out = io::stdout().lock();
    for line in fs::read_to_string(script)?.lines() {
        writeln!(out, "{}", shared.line(line))?;
        out.flush()?;
    }
    shared.until(|kernel| (kernel.running.len() <= kernel.holder.is_some() as usize).then_some(()));
    writeln!(out, "ended")?;
    shared.kernel.lock().unwrap().is_closed = true;
    shared.asks.notify_all();
    shared.until(|kernel| kernel.running.is_empty().then_some(()));
    fs::remove_file(socket)
}

// ---- the daemon

#[derive(Clone)]
struct Entry {
    path: String,
    count: u64,
}

/// What is served: numbers and counts over the manifest.
struct Served {
    files: HashMap<String, Attr>,
    numbers: HashMap<u64, Entry>,
    by_path: HashMap<String, u64>,
    next: u64,
}

impl Served {
    fn of(manifest: &str) -> Served {
        let mut files = HashMap::new();
        files.insert(String::new(), Attr { is_dir: true, perm: 0o755, size: 0, nlink: 2 });
        for line in manifest.lines().skip(1) {
            let words: Vec<&str> = line.splitn(4, ' ').collect();
            let (path, attr) = match words[0] {
                "dir" => (words[1..].join(" "), Attr { is_dir: true, perm: 0o755, size: 0, nlink: 2 }),
                _ => {
                    let perm = u32::from_str_radix(words[1], 8).unwrap();
                    let size = words[2].parse().unwrap();
                    (words[3].to_string(), Attr { is_dir: false, perm, size, nlink: 1 })
                }
            };
            files.insert(path, attr);
        }
        let mut served = Served { files, numbers: HashMap::new(), by_path: HashMap::new(), next: 2 };
        served.numbers.insert(1, Entry { path: String::new(), count: 1 });
        served.by_path.insert(String::new(), 1);
        served
    }

    fn lookup(&mut self, unique: u64, parent: u64, name: &str) -> Vec<u8> {
        let Some(dir) = self.numbers.get(&parent) else {
            return reply(unique, -116, &[]);
        };
        let path = if dir.path.is_empty() { name.to_string() } else { format!("{}/{name}", dir.path) };
        let Some(&attr) = self.files.get(&path) else {
            return reply(unique, -2, &[]);
        };
        if let Some(&number) = self.by_path.get(&path) {
            self.numbers.get_mut(&number).unwrap().count += 1;
            return entry_reply(unique, number, attr);
        }
        let number = self.next;
        self.next += 1;
        self.by_path.insert(path.clone(), number);
        self.numbers.insert(number, Entry { path, count: 1 });
        entry_reply(unique, number, attr)
    }

    fn forget(&mut self, number: u64, k: u64) {
        if let Some(entry) = self.numbers.get_mut(&number) {
            entry.count = entry.count.saturating_sub(k);
            if entry.count == 0 {
                let entry = self.numbers.remove(&number).unwrap();
                self.by_path.remove(&entry.path);
            }
        }
    }

    fn apply(&mut self, text: &[u8]) -> Option<Vec<u8>> {
        let (opcode, unique, node, body) = (le32(&text[4..]), le64(&text[8..]), le64(&text[16..]), &text[40..]);
        match opcode {
            1 => {
                let name = std::str::from_utf8(&body[..body.len() - 1]).unwrap_or("");
                Some(self.lookup(unique, node, name))
            }
            3 => Some(match self.numbers.get(&node) {
                Some(entry) => attr_reply(unique, node, self.files[&entry.path]),
                None => reply(unique, -116, &[]),
            }),
            2 => {
                self.forget(node, le64(body));
                None
            }
            42 => {
                body[8..].chunks(16).for_each(|item| self.forget(le64(item), le64(&item[8..])));
                None
            }
            _ => Some(reply(unique, -38, &[])),
        }
    }

    fn image(&self) -> Vec<u8> {
        let mut bytes = self.next.to_be_bytes().to_vec();
        for (number, entry) in &self.numbers {
            bytes.extend_from_slice(&number.to_be_bytes());
            bytes.extend_from_slice(&entry.count.to_be_bytes());
            bytes.extend_from_slice(&(entry.path.len() as u32).to_be_bytes());
            bytes.extend_from_slice(entry.path.as_bytes());
        }
        bytes
    }

    fn raise(&mut self, image: &[u8]) {
        self.next = be64(image);
        let mut rest = &image[8..];
        while !rest.is_empty() {
            let len = u32::from_be_bytes(rest[16..20].try_into().unwrap()) as usize;
            let path = String::from_utf8(rest[20..20 + len].to_vec()).unwrap();
            self.by_path.insert(path.clone(), be64(rest));
            self.numbers.insert(be64(rest), Entry { path, count: be64(&rest[8..]) });
            rest = &rest[20 + len..];
        }
    }
}

/// How a daemon ends, and at which generation its workers take.
#[derive(Default)]
struct State {
    generation: u64,
    /// How many workers are between a Take and the end of what it brought.
    at_work: usize,
    end: Option<&'static str>,
}

struct Daemon {
    served: Mutex<Option<Served>>,
    state: Mutex<State>,
    changes: Condvar,
    stops: AtomicBool,
}

impl Daemon {
    fn end(&self, how: &'static str) {
        self.state.lock().unwrap().end.get_or_insert(how);
        self.changes.notify_all();
    }

    /// Waits until workers may take, and returns the generation.
    fn begin(&self) -> Option<u64> {
        let mut state = self.state.lock().unwrap();
        while self.stops.load(Ordering::SeqCst) && state.end.is_none() {
            state = self.changes.wait(state).unwrap();
        }
        state.at_work += 1;
        state.end.is_none().then_some(state.generation)
    }

    fn finish(&self) {
        self.state.lock().unwrap().at_work -= 1;
        self.changes.notify_all();
    }

    fn work(&self, connection: &mut Connection, generation: u64) -> io::Result<()> {
        let generation = generation.to_be_bytes();
        while !self.stops.load(Ordering::SeqCst) {
            let (kind, text) = connection.ask(TAKE, &[&generation])?;
            match kind {
                EMPTY => {}
                ASK => {
                    let reply = self.served.lock().unwrap().as_mut().and_then(|served| served.apply(&text));
                    if let Some(reply) = reply {
                        if connection.ask(POST, &[&generation, &reply])?.0 != POSTED {
                            return Err(io::ErrorKind::InvalidData.into());
                        }
                    }
                }
                ENDED => {
                    self.end("ended");
                    return Ok(());
                }
                _ => return Err(io::ErrorKind::InvalidData.into()),
            }
        }
        Ok(())
    }

    fn serve(&self, mut connection: Connection) {
        while let Some(generation) = self.begin() {
            if self.work(&mut connection, generation).is_err() {
                self.end("fault: broken");
            }
            self.finish();
        }
    }

    /// Serves one takeover: stops the workers, sends the data, and claims when the connection ends.
    fn hand_over(&self, mut connection: Connection, broker: &mut Connection) -> io::Result<()> {
        connection.read()?;
        self.stops.store(true, Ordering::SeqCst);
        connection.write(CHOICE, &[&1u32.to_be_bytes(), &1u16.to_be_bytes()])?;
        let mut state = self.state.lock().unwrap();
        while state.at_work > 0 {
            state = self.changes.wait(state).unwrap();
        }
        let generation = state.generation.to_be_bytes();
        drop(state);
        connection.ask(READY, &[&1u32.to_be_bytes(), &generation])?;
        let image = self.served.lock().unwrap().as_ref().map(Served::image).unwrap_or_default();
        let _closed = connection.ask(DATA, &[&1u32.to_be_bytes(), &generation, &image]);
        drop(connection);
        self.claim(broker, be64(&generation))
    }

    fn claim(&self, broker: &mut Connection, generation: u64) -> io::Result<()> {
        let (kind, body) = broker.ask(CLAIM, &[&generation.to_be_bytes()])?;
        match kind {
            CLAIMED => self.serve_at(be64(&body)),
            STALE => self.end("handed over"),
            _ => self.end("ended"),
        }
        Ok(())
    }

    fn serve_at(&self, generation: u64) {
        self.state.lock().unwrap().generation = generation;
        println!("serving {generation}");
        self.stops.store(false, Ordering::SeqCst);
        self.changes.notify_all();
    }
}

/// Gets the data of the daemon at the other end of a connection.
fn take_over(connection: &mut Connection, served: &mut Served) -> io::Result<u64> {
    connection.ask(OFFER, &[&[1, 0, 1]])?;
    let (_ready, body) = connection.read()?;
    let (kind, data) = connection.ask(PONG, &[&body[..4]])?;
    if kind == FAILED {
        return Err(io::ErrorKind::InvalidData.into());
    }
    served.raise(&data[12..]);
    Ok(be64(&data[4..]))
}

fn daemon(start: &str, at: &str, takeover: &str, manifest: &str, workers: usize) -> io::Result<()> {
    let mut served = Served::of(&fs::read_to_string(manifest)?);
    let mut broker = Connection::at(at)?;
    let (_attached, id) = broker.ask(ATTACH, &[&0u64.to_be_bytes()])?;
    let mut connections = Vec::new();
    for _ in 0..workers {
        let mut connection = Connection::at(at)?;
        connection.ask(ATTACH, &[&id])?;
        connections.push(connection);
    }
    let hidden = format!("{takeover}.{}", std::process::id());
    let listener = UnixListener::bind(&hidden)?;
    let body = if start == "--mount" {
        broker.ask(MOUNT, &[])?.1
    } else {
        let mut old = Connection::at(takeover)?;
        let generation = take_over(&mut old, &mut served)?;
        broker.ask(CLAIM, &[&generation.to_be_bytes()])?.1
    };
    fs::rename(hidden, takeover)?;
    let daemon = Arc::new(Daemon {
        served: Mutex::new(Some(served)),
        state: Mutex::default(),
        changes: Condvar::new(),
        stops: AtomicBool::new(true),
    });
    let handing = daemon.clone();
    daemon.serve_at(be64(&body));
    thread::spawn(move || {
        for stream in listener.incoming().flatten() {
            let handed = Connection::over(stream).and_then(|connection| handing.hand_over(connection, &mut broker));
            if handed.is_err() {
                handing.end("fault: broken");
            }
        }
    });
    for connection in connections {
        let working = daemon.clone();
        thread::spawn(move || working.serve(connection));
    }
    let mut state = daemon.state.lock().unwrap();
    while state.end.is_none() {
        state = daemon.changes.wait(state).unwrap();
    }
    println!("{}", state.end.unwrap_or_default());
    Ok(())
}

// ---- a broker that always has an ask at hand, and a client that does nothing else

/// Answers the frames of a connection until as many pairs were answered as are to be, and prints the nanoseconds of one.
fn answer_each(stream: UnixStream, rounds: u64) -> io::Result<()> {
    let mut connection = Connection::over(stream)?;
    let ask = request(3, 1, 1, &[0; 16]);
    let mut began = Instant::now();
    let mut posted = 0;
    loop {
        let (kind, body) = connection.read()?;
        match kind {
            ATTACH => connection.write(ATTACHED, &[&be64(&body).max(1).to_be_bytes()])?,
            MOUNT => connection.write(MOUNTED, &[&1u64.to_be_bytes()])?,
            TAKE if posted < rounds => connection.write(ASK, &[&ask])?,
            POST if body.len() == 128 && le32(&body[12..]) == 0 => {
                posted += 1;
                if posted == rounds / 10 {
                    began = Instant::now();
                }
                if posted == rounds {
                    println!("{}", began.elapsed().as_nanos() / u128::from(rounds - rounds / 10));
                }
                connection.write(POSTED, &[])?;
            }
            _ => connection.write(ENDED, &[])?,
        }
    }
}

fn answer(socket: &str, rounds: u64) -> io::Result<()> {
    for stream in UnixListener::bind(socket)?.incoming() {
        let stream = stream?;
        thread::spawn(move || answer_each(stream, rounds));
    }
    Ok(())
}

fn trips(socket: &str) -> io::Result<()> {
    let mut connection = Connection::at(socket)?;
    let text = attr_reply(1, 1, Attr { is_dir: true, perm: 0o755, size: 0, nlink: 2 });
    while connection.ask(TAKE, &[&1u64.to_be_bytes()])?.0 == ASK {
        connection.ask(POST, &[&1u64.to_be_bytes(), &text])?;
    }
    Ok(())
}

fn main() -> io::Result<()> {
    let words: Vec<String> = env::args().collect();
    let words: Vec<&str> = words.iter().map(String::as_str).collect();
    match words[1..] {
        ["broker", socket, script] => broker(socket, script),
        ["answer", socket, rounds] => answer(socket, rounds.parse().unwrap()),
        ["trips", socket] => trips(socket),
        ["daemon", start, at, takeover, manifest] => daemon(start, at, takeover, manifest, 2),
        ["daemon", start, at, takeover, manifest, "--workers", n] => daemon(start, at, takeover, manifest, n.parse().unwrap()),
        _ => Err(io::ErrorKind::InvalidInput.into()),
    }
}
